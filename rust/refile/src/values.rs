//! The small values that calls take and answer.

use std::fmt;

use crate::{ASKED_BYTES, HASH_BYTES, LEAF_BYTES};

/// A revision's hash: sixteen bytes, compared first byte first.
pub type Hash = [u8; HASH_BYTES];

/// The number of a revision, from 1 up. It never serves as a [`Sequence`].
#[derive(Clone, Copy, Debug, PartialEq, Eq, PartialOrd, Ord, Hash)]
pub struct RevisionNumber(pub u32);

/// An update sequence, 0 in a fresh replica. It never serves as a [`RevisionNumber`].
#[derive(Clone, Copy, Debug, Default, PartialEq, Eq, PartialOrd, Ord, Hash)]
pub struct Sequence(pub u32);

impl Sequence {
    /// The sequence before every change: changes and pulls after it take in every document.
    pub const START: Sequence = Sequence(0);
}

/// A revision of a document: its number and its hash. The derived order is the one of the rules,
/// by number, then by hash.
///
/// ```
/// use refile::Revision;
///
/// let ninth = Revision::new(9, [0xaa; 16]);
/// let tenth = Revision::new(10, [0x01; 16]);
/// assert!(ninth < tenth);
/// assert_eq!(tenth.to_string(), "10-01010101010101010101010101010101");
/// ```
#[derive(Clone, Copy, Debug, PartialEq, Eq, PartialOrd, Ord, Hash)]
pub struct Revision {
    /// The revision's number.
    pub number: RevisionNumber,
    /// The revision's hash.
    pub hash: Hash,
}

impl Revision {
    /// The revision with this number and hash.
    ///
    /// ```
    /// use refile::{Revision, RevisionNumber};
    ///
    /// assert_eq!(Revision::new(2, [0x91; 16]).number, RevisionNumber(2));
    /// ```
    pub const fn new(number: u32, hash: Hash) -> Revision {
        Revision {
            number: RevisionNumber(number),
            hash,
        }
    }

    /// The revision as an entry of an asked list: its number, big-endian, and its hash.
    ///
    /// ```
    /// use refile::Revision;
    ///
    /// let entry = Revision::new(2, [0x91; 16]).to_asked();
    /// assert_eq!(entry[..5], [0, 0, 0, 2, 0x91]);
    /// ```
    pub fn to_asked(self) -> [u8; ASKED_BYTES] {
        let mut entry = [0; ASKED_BYTES];
        entry[..4].copy_from_slice(&self.number.0.to_be_bytes());
        entry[4..].copy_from_slice(&self.hash);
        entry
    }
}

impl fmt::Display for Revision {
    fn fmt(&self, f: &mut fmt::Formatter<'_>) -> fmt::Result {
        write!(f, "{}-", self.number.0)?;
        self.hash
            .iter()
            .try_for_each(|byte| write!(f, "{byte:02x}"))
    }
}

/// What a leaf holds. `Live(0)` and `Deleted` differ: label 0 is an ordinary label.
///
/// Equal labels must mean equal bodies on all replicas. Only the caller can see to that, since the
/// library sees labels and never a body.
#[derive(Clone, Copy, Debug, PartialEq, Eq, Hash)]
#[non_exhaustive]
pub enum Content {
    /// A live body, by its label.
    Live(u64),
    /// A deletion, which has no label.
    Deleted,
}

impl Content {
    /// The kind and the label as the C interface takes them.
    pub(crate) fn kind_and_label(self) -> (u32, u64) {
        match self {
            Content::Live(label) => (1, label),
            Content::Deleted => (2, 0),
        }
    }
}

/// A revision that no known revision has as parent, with its content.
#[derive(Clone, Copy, Debug, PartialEq, Eq, Hash)]
pub struct Leaf {
    /// Which revision it is.
    pub revision: Revision,
    /// What it holds.
    pub content: Content,
}

impl Leaf {
    /// Reads a leaf as [`winner_into`](crate::Replica::winner_into) and
    /// [`leaves_into`](crate::Replica::leaves_into) write it: number (4), hash (16), kind (1),
    /// label (8). None if the kind is neither 1 (live) nor 2 (deleted).
    ///
    /// ```
    /// use refile::{Content, Leaf, Replica, Revision, RevisionNumber, LEAF_BYTES};
    ///
    /// # fn main() -> Result<(), refile::Refusal> {
    /// let mut replica = Replica::fresh();
    /// replica.write_path(b"lot", RevisionNumber(1), &[[0x20; 16]], Content::Live(7))?;
    /// let mut bytes = [0; LEAF_BYTES];
    /// replica.winner_into(b"lot", &mut bytes)?;
    /// let leaf = Leaf::from_bytes(&bytes).unwrap();
    /// assert_eq!(leaf.revision, Revision::new(1, [0x20; 16]));
    /// assert_eq!(leaf.content, Content::Live(7));
    /// # Ok(())
    /// # }
    /// ```
    pub fn from_bytes(bytes: &[u8; LEAF_BYTES]) -> Option<Leaf> {
        let [n0, n1, n2, n3, rest @ ..] = *bytes;
        let [hash @ .., kind, l0, l1, l2, l3, l4, l5, l6, l7] = rest;
        let content = match kind {
            1 => Content::Live(u64::from_be_bytes([l0, l1, l2, l3, l4, l5, l6, l7])),
            2 => Content::Deleted,
            _ => return None,
        };
        Some(Leaf {
            revision: Revision::new(u32::from_be_bytes([n0, n1, n2, n3]), hash),
            content,
        })
    }
}

/// What an accepted write did.
#[derive(Clone, Copy, Debug, PartialEq, Eq, Hash)]
pub enum Written {
    /// A revision or a parent was added, and the update sequence rose by one.
    Changed,
    /// Nothing was added; the replica is as it was.
    Unchanged,
}

/// A document that changed after some sequence, as [`next_change`](crate::Replica::next_change)
/// answers it beside the id that it writes.
#[derive(Clone, Copy, Debug, PartialEq, Eq, Hash)]
pub struct Change {
    /// How many bytes the document's id has.
    pub id_len: usize,
    /// The document's own sequence: that of its last change.
    pub sequence: Sequence,
    /// How many leaves it has.
    pub leaves: u32,
    /// Whether its winner is a deletion.
    pub deleted: bool,
}

/// What became of a pull's offers, one for each leaf of the source's documents after the sequence.
#[derive(Clone, Copy, Debug, Default, PartialEq, Eq, Hash)]
pub struct Counts {
    /// Offers that changed the target.
    pub changed: u32,
    /// Offers that changed nothing.
    pub unchanged: u32,
    /// Offers that were refused. Above 0 something of the source is *not* in the target.
    pub refused: u32,
}

/// How much a replica holds.
#[derive(Clone, Copy, Debug, Default, PartialEq, Eq, Hash)]
pub struct Held {
    /// Documents held, at most [`DOCUMENTS`](crate::DOCUMENTS).
    pub documents: u32,
    /// Revisions held in all documents together, at most [`REVISIONS`](crate::REVISIONS).
    pub revisions: u32,
}
