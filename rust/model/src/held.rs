//! What a replica holds, in sets and maps, and what a write and an edit give. Nothing here refuses.

use crate::sizes::HASH_BYTES;
use crate::Content;
use std::collections::{BTreeMap, BTreeSet};

// What a replica holds

/// "The hash is sixteen bytes and is compared as sixteen bytes, first byte first."
pub type Hash = [u8; HASH_BYTES];

/// "A revision of a document is a number and a hash." The order is by number, then by hash.
#[derive(Clone, Copy, PartialEq, Eq, PartialOrd, Ord, Debug)]
pub struct Revision {
    pub number: u32,
    pub hash: Hash,
}

/// A revision that is a leaf, with its content.
#[derive(Clone, Copy, PartialEq, Eq, Debug)]
pub struct Leaf {
    pub revision: Revision,
    pub content: Content,
}

/// The revisions known, the known parents, the contents of the leaves, and "the sequence of its
/// last change".
#[derive(Clone, PartialEq, Eq, Debug, Default)]
pub struct Document {
    pub revisions: BTreeSet<Revision>,
    pub parents: BTreeMap<Revision, Revision>,
    pub contents: BTreeMap<Revision, Content>,
    pub sequence: u32,
}

/// All documents by id, and the update sequence, "0 when fresh".
#[derive(Clone, PartialEq, Eq, Debug, Default)]
pub struct Held {
    pub documents: BTreeMap<Vec<u8>, Document>,
    pub sequence: u32,
}

impl Document {
    pub fn knows(&self, revision: Revision) -> bool {
        self.revisions.contains(&revision)
    }

    /// "A revision has a known parent or none."
    pub fn parent(&self, revision: Revision) -> Option<Revision> {
        self.parents.get(&revision).copied()
    }

    /// "A leaf is a revision that no known revision of its document has as parent. Each leaf has a
    /// content".
    pub fn leaves(&self) -> Vec<Leaf> {
        let with_child: BTreeSet<Revision> = self.parents.values().copied().collect();
        (&self.revisions - &with_child)
            .into_iter()
            .map(|revision| Leaf {
                revision,
                content: self.contents[&revision],
            })
            .collect()
    }

    pub fn leaf(&self, revision: Revision) -> Option<Leaf> {
        let leaves = self.leaves();
        leaves.into_iter().find(|leaf| leaf.revision == revision)
    }

    /// "Path of a known revision: the revision itself, followed by the path of its parent, as far
    /// as parents are known."
    pub fn path(&self, revision: Revision) -> Vec<Hash> {
        let mut hashes = vec![revision.hash];
        if let Some(parent) = self.parent(revision) {
            hashes.extend(self.path(parent));
        }
        hashes
    }
}

impl Held {
    /// The revisions "in all documents together".
    pub fn revisions(&self) -> usize {
        let documents = self.documents.values();
        documents.map(|document| document.revisions.len()).sum()
    }

    /// All that replicas agree on: everything but the sequences, which each counts for itself.
    pub fn without_sequences(&self) -> Held {
        let mut held = self.clone();
        held.sequence = 0;
        for document in held.documents.values_mut() {
            document.sequence = 0;
        }
        held
    }
}

// Writing a path

/// "A path write gives an id, a number, one or more hashes newest first, and the content of the
/// newest."
#[derive(Clone, Copy, Debug)]
pub struct Given<'a> {
    pub id: &'a [u8],
    pub number: u32,
    pub path: &'a [u8],
    pub content: Content,
}

impl Given<'_> {
    /// "The k-th hash after the newest has the number less k." Of a path that is too long for its
    /// number, only the revisions that have a number.
    pub fn revisions(&self) -> Vec<Revision> {
        let hashes = self.path.chunks_exact(HASH_BYTES).zip(0..);
        let revisions = hashes.map_while(|(hash, k)| {
            Some(Revision {
                number: self.number.checked_sub(k)?,
                hash: hash.try_into().expect("a chunk of that size"),
            })
        });
        revisions.collect()
    }

    pub fn newest(&self) -> Option<Revision> {
        self.revisions().first().copied()
    }
}

// Ordinary edit

/// "An edit gives an id, a new hash, a content and optionally a parent revision."
#[derive(Clone, Copy, Debug)]
pub struct Edit<'a> {
    pub id: &'a [u8],
    pub hash: Hash,
    pub content: Content,
    pub parent: Option<Revision>,
}

/// What an edit that meets the parent rule builds on.
#[derive(Clone, Copy, PartialEq, Eq, Debug)]
pub enum Base {
    NewDocument,
    Parent(Revision),
}

// Documents as the protocol writes them

/// What the members of a line say: "`_id`, `_rev`, `_revisions` with `start` and `ids`, `_deleted`,
/// and our member `label`".
#[derive(Clone, PartialEq, Eq, Debug)]
pub struct Line {
    pub id: Vec<u8>,
    pub rev: Revision,
    pub revisions: Option<Revisions>,
    pub content: Content,
}

/// "`_revisions` with `start` and `ids`", the ids newest first.
#[derive(Clone, PartialEq, Eq, Debug)]
pub struct Revisions {
    pub start: u32,
    pub ids: Vec<Hash>,
}
