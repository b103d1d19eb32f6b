//! The steps of scenarios, each one call on one of three replicas.

use crate::held::Hash;
use crate::Content;

pub const REPLICAS: usize = 3;

/// One call on the replica `at`. A `room` is the length of the buffer that is lent to it.
#[derive(Clone, PartialEq, Eq, Debug)]
pub enum Step {
    Fresh {
        at: usize,
    },
    Load {
        at: usize,
        image: Vec<u8>,
    },
    Save {
        at: usize,
        room: usize,
    },
    Write {
        at: usize,
        id: Vec<u8>,
        number: u32,
        path: Vec<u8>,
        content: Content,
    },
    TakeIn {
        at: usize,
        line: Vec<u8>,
    },
    Edit {
        at: usize,
        id: Vec<u8>,
        hash: Hash,
        content: Content,
        parent: Option<(u32, Hash)>,
    },
    Winner {
        at: usize,
        id: Vec<u8>,
        room: usize,
    },
    Leaves {
        at: usize,
        id: Vec<u8>,
        room: usize,
    },
    Path {
        at: usize,
        id: Vec<u8>,
        number: u32,
        hash: Hash,
        room: usize,
    },
    PutOut {
        at: usize,
        id: Vec<u8>,
        room: usize,
    },
    PutOutSize {
        at: usize,
        id: Vec<u8>,
    },
    Missing {
        at: usize,
        id: Vec<u8>,
        asked: Vec<u8>,
        room: usize,
    },
    Changes {
        at: usize,
        after: u32,
        room: usize,
    },
    Pull {
        at: usize,
        from: usize,
        after: u32,
    },
    /// Saves a replica and loads what was saved.
    Reload {
        at: usize,
        from: usize,
    },
    UpdateSequence {
        at: usize,
    },
    Counts {
        at: usize,
    },
    Report {
        image: Vec<u8>,
        room: usize,
    },
}

impl Step {
    /// The length of the buffer that is lent to the call, if it takes one.
    pub fn room(&self) -> Option<usize> {
        match self {
            Step::Save { room, .. }
            | Step::Winner { room, .. }
            | Step::Leaves { room, .. }
            | Step::Path { room, .. }
            | Step::PutOut { room, .. }
            | Step::Missing { room, .. }
            | Step::Changes { room, .. }
            | Step::Report { room, .. } => Some(*room),
            _ => None,
        }
    }
}

/// Steps to run one after the other on three fresh replicas.
#[derive(Clone, PartialEq, Eq, Debug, Default)]
pub struct Scenario {
    pub steps: Vec<Step>,
}
