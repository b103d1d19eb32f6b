//! The replica and its calls.
//!
//! Every `unsafe` block here is one call of the archive, and is sound for the same three reasons.
//! Each pointer and length come from one Rust slice, so the memory is there, and whatever may be
//! written is borrowed `&mut` and overlaps nothing. A replica's buffer has the one length the
//! archive takes. And the buffer holds a replica: `fresh` and `load` make it one, `from_storage` asks
//! the archive whether it is one, and only the archive ever writes to it.

use std::fmt;

use crate::header::{CHANGES_BYTES, COUNTS_BYTES, PULL_BYTES};
use crate::{
    archive_version, sys, Change, Content, Counts, Hash, Held, Leaf, Refusal, Revision,
    RevisionNumber, Sequence, Written, ASKED_BYTES, HASH_BYTES, ID_BYTES, IMAGE_MOST, LEAF_BYTES,
    REPLICA_BYTES, REPORT_MOST, REVISIONS, VERSION,
};

/// A replica: documents with their revisions, and an update sequence.
///
/// It owns its storage of [`REPLICA_BYTES`] bytes, in one allocation, and lets nobody write to it.
/// Two replicas are equal exactly if they hold the same, sequences included.
#[derive(PartialEq, Eq)]
pub struct Replica {
    bytes: Box<[u8; REPLICA_BYTES]>,
}

impl Clone for Replica {
    fn clone(&self) -> Replica {
        Replica {
            bytes: self.bytes.clone(),
        }
    }

    /// Copies into the storage that is there; nothing is allocated.
    fn clone_from(&mut self, source: &Replica) {
        self.bytes.clone_from(&source.bytes);
    }
}

/// The answer of an accepted call, or the refusal.
///
/// No answer that this crate asks for is over 32 bits, apart from a count of asked revisions that no
/// memory holds.
fn answer(result: u64) -> Result<u32, Refusal> {
    if result >> 63 == 0 {
        return Ok(u32::try_from(result).expect("an answer of over 32 bits"));
    }
    Err(Refusal::from_answer(
        (result >> 32) as u32 & 0x7fff_ffff,
        result as u32,
    ))
}

/// Ends the program if the linked archive is not of this crate's version.
fn archive_belongs() {
    let archive = archive_version();
    assert!(
        archive == VERSION,
        "the linked archive is of version {archive}, and this crate of version {VERSION}"
    );
}

/// The answer of a call that can be refused only for reasons this crate rules out.
fn sure(result: u64) -> u32 {
    answer(result).unwrap_or_else(|refusal| unreachable!("a call that has no refusals: {refusal}"))
}

/// An answer that is yes or no.
fn flag(value: u32) -> bool {
    assert!(value <= 1, "the library answered {value} for yes or no");
    value == 1
}

/// What an accepted write did.
fn written(changed: u32) -> Written {
    if flag(changed) {
        Written::Changed
    } else {
        Written::Unchanged
    }
}

/// Splits an answer buffer into its big-endian numbers.
fn numbers<const BYTES: usize, const COUNT: usize>(answer: [u8; BYTES]) -> [u32; COUNT] {
    const { assert!(BYTES == 4 * COUNT) };
    std::array::from_fn(|i| u32::from_be_bytes(std::array::from_fn(|byte| answer[4 * i + byte])))
}

impl Replica {
    /// A replica's buffer that no call has filled yet.
    fn unfilled() -> Replica {
        archive_belongs();
        let bytes = vec![0; REPLICA_BYTES].into_boxed_slice();
        Replica {
            bytes: bytes.try_into().expect("the vector has just that length"),
        }
    }

    /// A fresh replica: no documents, update sequence 0.
    ///
    /// ```
    /// use refile::{Replica, Sequence};
    ///
    /// let replica = Replica::fresh();
    /// assert_eq!(replica.update_sequence(), Sequence(0));
    /// assert_eq!(replica.counts().documents, 0);
    /// ```
    pub fn fresh() -> Replica {
        let mut replica = Replica::unfilled();
        // SAFETY: see the module; this call makes the buffer a replica.
        sure(unsafe { sys::refile_fresh(replica.bytes.as_mut_ptr(), REPLICA_BYTES) });
        replica
    }

    /// The replica that an image describes. Any bytes of any length may be given.
    ///
    /// Refusals: 20 to 26, with their place.
    ///
    /// ```
    /// use refile::{Refusal, Replica};
    ///
    /// let mut image = Replica::fresh().image();
    /// assert_eq!(Replica::from_image(&image), Ok(Replica::fresh()));
    /// image.push(0);
    /// assert_eq!(Replica::from_image(&image), Err(Refusal::ImageHead));
    /// ```
    pub fn from_image(image: &[u8]) -> Result<Replica, Refusal> {
        let mut replica = Replica::unfilled();
        replica.load(image)?;
        Ok(replica)
    }

    /// Loads an image in place of what the replica holds. A refused load leaves the replica as it
    /// was. Any bytes of any length may be given; nothing is allocated.
    ///
    /// Refusals: 20 to 26, with their place.
    ///
    /// ```
    /// use refile::{Content, Replica, RevisionNumber};
    ///
    /// # fn main() -> Result<(), refile::Refusal> {
    /// let mut replica = Replica::fresh();
    /// replica.write_path(b"lot", RevisionNumber(1), &[[0x20; 16]], Content::Live(7))?;
    /// let former = replica.clone();
    /// assert!(replica.load(b"not an image").is_err());
    /// assert_eq!(replica, former);
    /// replica.load(&Replica::fresh().image())?;
    /// assert_eq!(replica, Replica::fresh());
    /// # Ok(())
    /// # }
    /// ```
    pub fn load(&mut self, image: &[u8]) -> Result<(), Refusal> {
        // SAFETY: see the module; a load may also find a buffer that holds no replica yet.
        answer(unsafe {
            sys::refile_load(
                self.bytes.as_mut_ptr(),
                REPLICA_BYTES,
                image.as_ptr(),
                image.len(),
            )
        })?;
        Ok(())
    }

    /// Writes the replica's image to the front of a lent buffer and answers its length, which is at
    /// most [`IMAGE_MOST`].
    ///
    /// Refusals: 14.
    ///
    /// ```
    /// use refile::{Refusal, Replica, IMAGE_MOST};
    ///
    /// let mut out = [0; IMAGE_MOST];
    /// assert_eq!(Replica::fresh().save(&mut out), Ok(16));
    /// assert_eq!(out[..16], [0, 1, 0, 0, 0, 0, 0, 0, 0, 0, 0, 0, 0, 0, 0, 16]);
    /// assert_eq!(Replica::fresh().save(&mut out[..15]), Err(Refusal::ShortBuffer));
    /// ```
    pub fn save(&self, out: &mut [u8]) -> Result<usize, Refusal> {
        // SAFETY: see the module.
        let length = answer(unsafe {
            sys::refile_save(
                self.bytes.as_ptr(),
                REPLICA_BYTES,
                out.as_mut_ptr(),
                out.len(),
            )
        })?;
        Ok(length as usize)
    }

    /// The replica's image.
    ///
    /// ```
    /// use refile::Replica;
    ///
    /// let image = Replica::fresh().image();
    /// assert_eq!(image.len(), 16);
    /// assert_eq!(Replica::from_image(&image).unwrap().image(), image);
    /// ```
    pub fn image(&self) -> Vec<u8> {
        let mut image = vec![0; IMAGE_MOST];
        let length = self.save(&mut image).expect("no image is longer");
        image.truncate(length);
        image
    }

    /// The replica's storage, for whoever keeps replicas in shared memory or sends them to another
    /// process of the same version. It has no checksum and may change with the version, so for
    /// keeping use the [`image`](Replica::image).
    ///
    /// ```
    /// use refile::Replica;
    ///
    /// // A fresh replica is all zeros.
    /// assert!(Replica::fresh().storage().iter().all(|&byte| byte == 0));
    /// ```
    pub fn storage(&self) -> &[u8; REPLICA_BYTES] {
        &self.bytes
    }

    /// The replica whose [`storage`](Replica::storage) these bytes are. None if they are not exactly
    /// what some calls leave, an image among them; any bytes of any length may be given. They are
    /// copied before they are looked through.
    ///
    /// ```
    /// use refile::{Content, Replica, RevisionNumber};
    ///
    /// # fn main() -> Result<(), refile::Refusal> {
    /// let mut replica = Replica::fresh();
    /// replica.write_path(b"lot", RevisionNumber(1), &[[0x20; 16]], Content::Live(7))?;
    /// let mut bytes = replica.storage().to_vec();
    /// assert_eq!(Replica::from_storage(&bytes), Some(replica));
    /// bytes[5] = 2; // two revisions, and only one is there
    /// assert_eq!(Replica::from_storage(&bytes), None);
    /// assert_eq!(Replica::from_storage(&Replica::fresh().image()), None);
    /// # Ok(())
    /// # }
    /// ```
    pub fn from_storage(bytes: &[u8]) -> Option<Replica> {
        if bytes.len() != REPLICA_BYTES {
            return None;
        }
        let mut replica = Replica::unfilled();
        replica.bytes.copy_from_slice(bytes);
        // SAFETY: the pointer and the length are one slice's; any bytes may be asked about.
        let is = sure(unsafe { sys::refile_is_replica(replica.bytes.as_ptr(), REPLICA_BYTES) });
        flag(is).then_some(replica)
    }

    /// Path write: gives a document the revision `number` with the hash `path[0]`, its parent with
    /// the hash `path[1]`, and so on, and the content of the newest.
    ///
    /// What the path gives and the replica lacks is added, be it revisions or only a parent. The
    /// content is dropped if the newest revision is known and has a child. Hashes that come oldest
    /// first are taken without a word, as another history of the document.
    ///
    /// Refusals: 1 to 8, in that order.
    ///
    /// ```
    /// use refile::{Content, Refusal, Replica, RevisionNumber, Written};
    ///
    /// # fn main() -> Result<(), Refusal> {
    /// let mut replica = Replica::fresh();
    /// let (third, second) = ([0x70; 16], [0x61; 16]);
    /// replica.write_path(b"lot", RevisionNumber(3), &[third], Content::Live(1))?;
    /// replica.write_path(b"lot", RevisionNumber(2), &[second], Content::Live(2))?;
    /// // Only the parent is new, and that is a change.
    /// let joined =
    ///     replica.write_path(b"lot", RevisionNumber(3), &[third, second], Content::Live(1))?;
    /// assert_eq!(joined, Written::Changed);
    /// assert_eq!(replica.leaves(b"lot")?.len(), 1);
    /// // A label that the known leaf doesn't have is refused.
    /// let other = replica.write_path(b"lot", RevisionNumber(3), &[third], Content::Live(5));
    /// assert_eq!(other, Err(Refusal::Content));
    /// # Ok(())
    /// # }
    /// ```
    pub fn write_path(
        &mut self,
        id: &[u8],
        number: RevisionNumber,
        path: &[Hash],
        content: Content,
    ) -> Result<Written, Refusal> {
        self.write_path_bytes(id, number, path.as_flattened(), content)
    }

    /// As [`write_path`](Replica::write_path), for hashes that stand one after another in bytes as
    /// they came in. A length that isn't a multiple of 16 is refusal 2.
    ///
    /// ```
    /// use refile::{Content, Refusal, Replica, RevisionNumber, Written};
    ///
    /// let mut replica = Replica::fresh();
    /// let path = [0x20; 32];
    /// let written = replica.write_path_bytes(b"lot", RevisionNumber(2), &path, Content::Deleted);
    /// assert_eq!(written, Ok(Written::Changed));
    /// let torn = replica.write_path_bytes(b"lot", RevisionNumber(2), &path[1..], Content::Deleted);
    /// assert_eq!(torn, Err(Refusal::Path));
    /// ```
    pub fn write_path_bytes(
        &mut self,
        id: &[u8],
        number: RevisionNumber,
        path: &[u8],
        content: Content,
    ) -> Result<Written, Refusal> {
        let (kind, label) = content.kind_and_label();
        // SAFETY: see the module.
        let changed = answer(unsafe {
            sys::refile_write(
                self.bytes.as_mut_ptr(),
                REPLICA_BYTES,
                id.as_ptr(),
                id.len(),
                number.0,
                path.as_ptr(),
                path.len(),
                kind,
                label,
            )
        })?;
        Ok(written(changed))
    }

    /// Takes in one line of a dump, a JSON object as stores that speak CouchDB's protocol write it, as
    /// the path write that it says: `_id`, `_rev`, perhaps `_revisions` with `start` and `ids`, and
    /// either `label` or `_deleted`.
    ///
    /// Members of other names are passed over, whatever they hold. Spaces, tabs and newlines may stand
    /// around tokens, so a line may be given with its newline; an empty one is refused. Nothing is
    /// allocated.
    ///
    /// Refusals: 40 to 43, in that order; then 1 to 8, in that order.
    ///
    /// ```
    /// use refile::{Content, Refusal, Replica, Written};
    ///
    /// # fn main() -> Result<(), Refusal> {
    /// let mut replica = Replica::fresh();
    /// let line = br#"{"_id": "lot", "_rev": "1-20000000000000000000000000000000", "by": ["Ann"], "label": 7}"#;
    /// assert_eq!(replica.take_in(line)?, Written::Changed);
    /// assert_eq!(replica.take_in(line)?, Written::Unchanged);
    /// let winner = replica.winner(b"lot")?;
    /// assert_eq!(winner.revision.to_string(), "1-20000000000000000000000000000000");
    /// assert_eq!(winner.content, Content::Live(7));
    /// // A line that is cut off is no JSON, and one without a label or a deletion says too little.
    /// assert_eq!(replica.take_in(&line[..40]), Err(Refusal::NotJson));
    /// let bare = br#"{"_id": "lot", "_rev": "1-20000000000000000000000000000000"}"#;
    /// assert_eq!(replica.take_in(bare), Err(Refusal::BadMember));
    /// # Ok(())
    /// # }
    /// ```
    pub fn take_in(&mut self, line: &[u8]) -> Result<Written, Refusal> {
        // SAFETY: see the module.
        let changed = answer(unsafe {
            sys::refile_take_in(
                self.bytes.as_mut_ptr(),
                REPLICA_BYTES,
                line.as_ptr(),
                line.len(),
            )
        })?;
        Ok(written(changed))
    }

    /// Ordinary edit: adds a revision on top of a leaf, and answers its number.
    ///
    /// A named parent must be a leaf of the document, live or deleted. With none named the content
    /// must be live, and either the document is absent or its winner is a deletion, which becomes
    /// the parent.
    ///
    /// Refusals: 1, 9, 11, 10, 6, 7, 8, in that order.
    ///
    /// ```
    /// use refile::{Content, Refusal, Replica, Revision, RevisionNumber};
    ///
    /// # fn main() -> Result<(), Refusal> {
    /// let mut replica = Replica::fresh();
    /// assert_eq!(
    ///     replica.edit(b"lot", [0x20; 16], Content::Live(7), None)?,
    ///     RevisionNumber(1)
    /// );
    /// let first = Revision::new(1, [0x20; 16]);
    /// assert_eq!(
    ///     replica.edit(b"lot", [0x91; 16], Content::Deleted, Some(first))?,
    ///     RevisionNumber(2)
    /// );
    /// // The first revision has a child now.
    /// assert_eq!(
    ///     replica.edit(b"lot", [0x4c; 16], Content::Live(8), Some(first)),
    ///     Err(Refusal::EditParent)
    /// );
    /// // The winner is a deletion, and an edit that names no parent follows it.
    /// assert_eq!(
    ///     replica.edit(b"lot", [0x05; 16], Content::Live(9), None)?,
    ///     RevisionNumber(3)
    /// );
    /// # Ok(())
    /// # }
    /// ```
    pub fn edit(
        &mut self,
        id: &[u8],
        hash: Hash,
        content: Content,
        parent: Option<Revision>,
    ) -> Result<RevisionNumber, Refusal> {
        let (kind, label) = content.kind_and_label();
        let (named, parent_number, parent_hash): (u32, u32, &[u8]) = match &parent {
            Some(parent) => (1, parent.number.0, &parent.hash),
            None => (0, 0, &[]),
        };
        // SAFETY: see the module.
        let number = answer(unsafe {
            sys::refile_edit(
                self.bytes.as_mut_ptr(),
                REPLICA_BYTES,
                id.as_ptr(),
                id.len(),
                hash.as_ptr(),
                hash.len(),
                kind,
                label,
                named,
                parent_number,
                parent_hash.as_ptr(),
                parent_hash.len(),
            )
        })?;
        Ok(RevisionNumber(number))
    }

    /// The document's winner: among live leaves the highest, with no live leaf the highest of the
    /// deleted ones. Nothing is allocated.
    ///
    /// Refusals: 1, 12, in that order.
    ///
    /// ```
    /// use refile::{Content, Refusal, Replica, Revision, RevisionNumber};
    ///
    /// # fn main() -> Result<(), Refusal> {
    /// let mut replica = Replica::fresh();
    /// assert_eq!(replica.winner(b"lot"), Err(Refusal::NoDocument));
    /// replica.write_path(b"lot", RevisionNumber(9), &[[0xaa; 16]], Content::Live(1))?;
    /// replica.write_path(b"lot", RevisionNumber(10), &[[0x01; 16]], Content::Live(2))?;
    /// replica.write_path(b"lot", RevisionNumber(11), &[[0x02; 16]], Content::Deleted)?;
    /// let winner = replica.winner(b"lot")?;
    /// assert_eq!(winner.revision, Revision::new(10, [0x01; 16]));
    /// assert_eq!(winner.content, Content::Live(2));
    /// # Ok(())
    /// # }
    /// ```
    pub fn winner(&self, id: &[u8]) -> Result<Leaf, Refusal> {
        let mut out = [0; LEAF_BYTES];
        self.winner_into(id, &mut out)?;
        Ok(leaf(&out))
    }

    /// Writes the winner to the front of a lent buffer, as [`Leaf::from_bytes`] reads it, and
    /// answers the length written, [`LEAF_BYTES`].
    ///
    /// Refusals: 1, 12, 14, in that order.
    ///
    /// ```
    /// use refile::{Content, Refusal, Replica, RevisionNumber, LEAF_BYTES};
    ///
    /// # fn main() -> Result<(), Refusal> {
    /// let mut replica = Replica::fresh();
    /// replica.write_path(b"lot", RevisionNumber(1), &[[0x20; 16]], Content::Live(7))?;
    /// let mut out = [0xee; LEAF_BYTES];
    /// assert_eq!(replica.winner_into(b"lot", &mut out[1..]), Err(Refusal::ShortBuffer));
    /// assert_eq!(out, [0xee; LEAF_BYTES]);
    /// assert_eq!(replica.winner_into(b"lot", &mut out), Ok(LEAF_BYTES));
    /// assert_eq!(out[..5], [0, 0, 0, 1, 0x20]);
    /// # Ok(())
    /// # }
    /// ```
    pub fn winner_into(&self, id: &[u8], out: &mut [u8]) -> Result<usize, Refusal> {
        // SAFETY: see the module.
        let length = answer(unsafe {
            sys::refile_winner(
                self.bytes.as_ptr(),
                REPLICA_BYTES,
                id.as_ptr(),
                id.len(),
                out.as_mut_ptr(),
                out.len(),
            )
        })?;
        Ok(length as usize)
    }

    /// The document's leaves, highest number first, then highest hash. Its conflicts are those
    /// other than the winner.
    ///
    /// Refusals: 1, 12, in that order.
    ///
    /// ```
    /// use refile::{Content, Replica, Revision, RevisionNumber};
    ///
    /// # fn main() -> Result<(), refile::Refusal> {
    /// let mut replica = Replica::fresh();
    /// let first = [0x20; 16];
    /// replica.write_path(b"lot", RevisionNumber(2), &[[0x4c; 16], first], Content::Live(9))?;
    /// replica.write_path(b"lot", RevisionNumber(2), &[[0x91; 16], first], Content::Live(8))?;
    /// let leaves = replica.leaves(b"lot")?;
    /// let revisions: Vec<Revision> = leaves.iter().map(|leaf| leaf.revision).collect();
    /// assert_eq!(revisions, [Revision::new(2, [0x91; 16]), Revision::new(2, [0x4c; 16])]);
    /// # Ok(())
    /// # }
    /// ```
    pub fn leaves(&self, id: &[u8]) -> Result<Vec<Leaf>, Refusal> {
        let mut out = [[0; LEAF_BYTES]; REVISIONS];
        let count = self.leaves_into(id, out.as_flattened_mut())?;
        Ok(out[..count].iter().map(leaf).collect())
    }

    /// Writes the leaves to the front of a lent buffer, [`LEAF_BYTES`] each as
    /// [`Leaf::from_bytes`] reads them, and answers their count.
    ///
    /// Refusals: 1, 12, 14, in that order.
    ///
    /// ```
    /// use refile::{Content, Replica, RevisionNumber, LEAF_BYTES};
    ///
    /// # fn main() -> Result<(), refile::Refusal> {
    /// let mut replica = Replica::fresh();
    /// replica.write_path(b"lot", RevisionNumber(2), &[[0x10; 16]], Content::Deleted)?;
    /// replica.write_path(b"lot", RevisionNumber(2), &[[0x20; 16]], Content::Deleted)?;
    /// let mut out = [0; 4 * LEAF_BYTES];
    /// assert_eq!(replica.leaves_into(b"lot", &mut out), Ok(2));
    /// assert_eq!(out[4], 0x20);
    /// assert_eq!(out[LEAF_BYTES + 4], 0x10);
    /// # Ok(())
    /// # }
    /// ```
    pub fn leaves_into(&self, id: &[u8], out: &mut [u8]) -> Result<usize, Refusal> {
        // SAFETY: see the module.
        let count = answer(unsafe {
            sys::refile_leaves(
                self.bytes.as_ptr(),
                REPLICA_BYTES,
                id.as_ptr(),
                id.len(),
                out.as_mut_ptr(),
                out.len(),
            )
        })?;
        Ok(count as usize)
    }

    /// The hashes of a known revision's path: the revision itself, its parent, and so on as far as
    /// parents are known.
    ///
    /// Refusals: 1, 12, 13, in that order.
    ///
    /// ```
    /// use refile::{Content, Refusal, Replica, Revision, RevisionNumber};
    ///
    /// # fn main() -> Result<(), Refusal> {
    /// let mut replica = Replica::fresh();
    /// let path = [[0x05; 16], [0x91; 16], [0x20; 16]];
    /// replica.write_path(b"lot", RevisionNumber(3), &path, Content::Deleted)?;
    /// assert_eq!(replica.path(b"lot", Revision::new(3, path[0]))?, path);
    /// assert_eq!(replica.path(b"lot", Revision::new(2, path[1]))?, path[1..]);
    /// assert_eq!(
    ///     replica.path(b"lot", Revision::new(2, [0x4c; 16])),
    ///     Err(Refusal::NoRevision)
    /// );
    /// # Ok(())
    /// # }
    /// ```
    pub fn path(&self, id: &[u8], revision: Revision) -> Result<Vec<Hash>, Refusal> {
        let mut hashes = vec![[0; HASH_BYTES]; REVISIONS];
        let count = self.path_into(id, revision, hashes.as_flattened_mut())?;
        hashes.truncate(count);
        Ok(hashes)
    }

    /// Writes the hashes of a known revision's path to the front of a lent buffer, 16 bytes each,
    /// and answers their count.
    ///
    /// Refusals: 1, 12, 13, 14, in that order.
    ///
    /// ```
    /// use refile::{Content, Refusal, Replica, Revision, RevisionNumber};
    ///
    /// # fn main() -> Result<(), Refusal> {
    /// let mut replica = Replica::fresh();
    /// let path = [[0x91; 16], [0x20; 16]];
    /// replica.write_path(b"lot", RevisionNumber(2), &path, Content::Live(8))?;
    /// let newest = Revision::new(2, path[0]);
    /// let mut out = [0; 32];
    /// assert_eq!(replica.path_into(b"lot", newest, &mut out), Ok(2));
    /// assert_eq!(out, path.as_flattened());
    /// assert_eq!(replica.path_into(b"lot", newest, &mut out[..31]), Err(Refusal::ShortBuffer));
    /// # Ok(())
    /// # }
    /// ```
    pub fn path_into(
        &self,
        id: &[u8],
        revision: Revision,
        out: &mut [u8],
    ) -> Result<usize, Refusal> {
        // SAFETY: see the module.
        let count = answer(unsafe {
            sys::refile_path(
                self.bytes.as_ptr(),
                REPLICA_BYTES,
                id.as_ptr(),
                id.len(),
                revision.number.0,
                revision.hash.as_ptr(),
                revision.hash.len(),
                out.as_mut_ptr(),
                out.len(),
            )
        })?;
        Ok(count as usize)
    }

    /// The document's leaves as lines of a dump, highest first, each as [`take_in`](Replica::take_in)
    /// takes it, without spaces and with a newline at its end.
    ///
    /// Refusals: 1, 12, 43, in that order.
    ///
    /// ```
    /// use refile::{Content, Refusal, Replica, RevisionNumber};
    ///
    /// # fn main() -> Result<(), Refusal> {
    /// let mut replica = Replica::fresh();
    /// let path = [[0x91; 16], [0x20; 16]];
    /// replica.write_path(b"lot", RevisionNumber(2), &path, Content::Live(8))?;
    /// let lines = replica.put_out(b"lot")?;
    /// assert_eq!(
    ///     String::from_utf8_lossy(&lines),
    ///     concat!(
    ///         r#"{"_id":"lot","_rev":"2-91919191919191919191919191919191","_revisions":{"start":2,"#,
    ///         r#""ids":["91919191919191919191919191919191","20202020202020202020202020202020"]},"#,
    ///         r#""label":8}"#,
    ///         "\n"
    ///     )
    /// );
    /// let mut copy = Replica::fresh();
    /// for line in lines.split_inclusive(|&byte| byte == b'\n') {
    ///     copy.take_in(line)?;
    /// }
    /// assert_eq!(copy, replica);
    /// # Ok(())
    /// # }
    /// ```
    pub fn put_out(&self, id: &[u8]) -> Result<Vec<u8>, Refusal> {
        let mut lines = vec![0; self.put_out_size(id)?];
        let length = self.put_out_into(id, &mut lines)?;
        assert_eq!(length, lines.len(), "the size that was answered");
        Ok(lines)
    }

    /// Writes the document's leaves, a line each as [`put_out`](Replica::put_out) has them, to the
    /// front of a lent buffer, and answers how many bytes it wrote.
    ///
    /// Refusals: 1, 12, 43, 14, in that order.
    ///
    /// ```
    /// use refile::{Content, Refusal, Replica, RevisionNumber};
    ///
    /// # fn main() -> Result<(), Refusal> {
    /// let mut replica = Replica::fresh();
    /// replica.write_path(b"lot", RevisionNumber(1), &[[0x20; 16]], Content::Deleted)?;
    /// let mut out = [0xee; 256];
    /// let length = replica.put_out_into(b"lot", &mut out)?;
    /// assert!(out[..length].ends_with(b",\"_deleted\":true}\n"));
    /// assert_eq!(out[length], 0xee);
    /// let short = replica.put_out_into(b"lot", &mut out[..length - 1]);
    /// assert_eq!(short, Err(Refusal::ShortBuffer));
    /// # Ok(())
    /// # }
    /// ```
    pub fn put_out_into(&self, id: &[u8], out: &mut [u8]) -> Result<usize, Refusal> {
        // SAFETY: see the module.
        let length = answer(unsafe {
            sys::refile_put_out(
                self.bytes.as_ptr(),
                REPLICA_BYTES,
                id.as_ptr(),
                id.len(),
                out.as_mut_ptr(),
                out.len(),
            )
        })?;
        Ok(length as usize)
    }

    /// How many bytes the document's lines have, for whoever lends the buffer.
    ///
    /// Refusals: 1, 12, 43, in that order.
    ///
    /// ```
    /// use refile::{Content, Refusal, Replica, RevisionNumber};
    ///
    /// # fn main() -> Result<(), Refusal> {
    /// let mut replica = Replica::fresh();
    /// replica.write_path(b"lot", RevisionNumber(1), &[[0x20; 16]], Content::Live(7))?;
    /// assert_eq!(replica.put_out_size(b"lot"), Ok(replica.put_out(b"lot")?.len()));
    /// // An id with a quote in it is as good as any, and no line can have it.
    /// replica.write_path(b"\"", RevisionNumber(1), &[[0x20; 16]], Content::Live(7))?;
    /// assert_eq!(replica.put_out_size(b"\""), Err(Refusal::UnwritableId));
    /// # Ok(())
    /// # }
    /// ```
    pub fn put_out_size(&self, id: &[u8]) -> Result<usize, Refusal> {
        // SAFETY: see the module.
        let length = answer(unsafe {
            sys::refile_put_out_size(self.bytes.as_ptr(), REPLICA_BYTES, id.as_ptr(), id.len())
        })?;
        Ok(length as usize)
    }

    /// For each asked revision, whether it is missing. Of an absent document all are.
    ///
    /// Refusals: 1.
    ///
    /// ```
    /// use refile::{Content, Replica, Revision, RevisionNumber};
    ///
    /// # fn main() -> Result<(), refile::Refusal> {
    /// let mut replica = Replica::fresh();
    /// replica.write_path(b"lot", RevisionNumber(1), &[[0x20; 16]], Content::Live(7))?;
    /// let asked = [Revision::new(1, [0x20; 16]), Revision::new(2, [0x20; 16])];
    /// assert_eq!(replica.missing(b"lot", &asked)?, [false, true]);
    /// assert_eq!(replica.missing(b"lots", &asked)?, [true, true]);
    /// # Ok(())
    /// # }
    /// ```
    pub fn missing(&self, id: &[u8], asked: &[Revision]) -> Result<Vec<bool>, Refusal> {
        let asked: Vec<[u8; ASKED_BYTES]> = asked.iter().map(|rev| rev.to_asked()).collect();
        let mut out = vec![0; asked.len()];
        self.missing_into(id, asked.as_flattened(), &mut out)?;
        Ok(out.into_iter().map(|byte| flag(byte.into())).collect())
    }

    /// For each asked revision, 20 bytes as [`Revision::to_asked`] makes them, writes one byte to
    /// the front of a lent buffer, 0 known and 1 missing, and answers how many it wrote.
    ///
    /// Refusals: 1, 15, 14, in that order.
    ///
    /// ```
    /// use refile::{Content, Refusal, Replica, Revision, RevisionNumber};
    ///
    /// # fn main() -> Result<(), Refusal> {
    /// let mut replica = Replica::fresh();
    /// replica.write_path(b"lot", RevisionNumber(1), &[[0x20; 16]], Content::Live(7))?;
    /// let asked = Revision::new(1, [0x20; 16]).to_asked();
    /// let mut out = [0xee; 2];
    /// assert_eq!(replica.missing_into(b"lot", &asked, &mut out), Ok(1));
    /// assert_eq!(out, [0, 0xee]);
    /// assert_eq!(replica.missing_into(b"lot", &asked[1..], &mut out), Err(Refusal::Asked));
    /// # Ok(())
    /// # }
    /// ```
    pub fn missing_into(&self, id: &[u8], asked: &[u8], out: &mut [u8]) -> Result<usize, Refusal> {
        // SAFETY: see the module.
        let count = answer(unsafe {
            sys::refile_missing(
                self.bytes.as_ptr(),
                REPLICA_BYTES,
                id.as_ptr(),
                id.len(),
                asked.as_ptr(),
                asked.len(),
                out.as_mut_ptr(),
                out.len(),
            )
        })?;
        Ok(count as usize)
    }

    /// The documents that changed after a sequence, with their ids, in the order of their own
    /// sequence.
    ///
    /// ```
    /// use refile::{Content, Replica, RevisionNumber, Sequence};
    ///
    /// # fn main() -> Result<(), refile::Refusal> {
    /// let mut replica = Replica::fresh();
    /// replica.write_path(b"lot", RevisionNumber(1), &[[0x20; 16]], Content::Live(7))?;
    /// replica.write_path(b"bill", RevisionNumber(1), &[[0x20; 16]], Content::Deleted)?;
    /// let all: Vec<_> = replica.changes(Sequence::START).collect();
    /// assert_eq!(all[0].0, b"lot");
    /// assert_eq!(all[1].0, b"bill");
    /// assert!(all[1].1.deleted);
    /// assert_eq!(replica.changes(all[0].1.sequence).count(), 1);
    /// # Ok(())
    /// # }
    /// ```
    pub fn changes(&self, after: Sequence) -> Changes<'_> {
        Changes {
            replica: self,
            after,
        }
    }

    /// The document with the lowest own sequence above `after`: writes its id to the front of a
    /// lent buffer. `None` is "no more", and then nothing is written.
    ///
    /// Refusals: 14.
    ///
    /// ```
    /// use refile::{Content, Refusal, Replica, RevisionNumber, Sequence};
    ///
    /// # fn main() -> Result<(), Refusal> {
    /// let mut replica = Replica::fresh();
    /// replica.write_path(b"lot", RevisionNumber(1), &[[0x20; 16]], Content::Live(7))?;
    /// let mut id = [0; 32];
    /// let change = replica.next_change(Sequence::START, &mut id)?.unwrap();
    /// assert_eq!(&id[..change.id_len], b"lot");
    /// assert_eq!((change.sequence, change.leaves, change.deleted), (Sequence(1), 1, false));
    /// assert_eq!(replica.next_change(Sequence(1), &mut []), Ok(None));
    /// assert_eq!(
    ///     replica.next_change(Sequence::START, &mut id[..2]),
    ///     Err(Refusal::ShortBuffer)
    /// );
    /// # Ok(())
    /// # }
    /// ```
    pub fn next_change(&self, after: Sequence, id: &mut [u8]) -> Result<Option<Change>, Refusal> {
        let mut found = [0; CHANGES_BYTES];
        // SAFETY: see the module.
        let any = answer(unsafe {
            sys::refile_changes(
                self.bytes.as_ptr(),
                REPLICA_BYTES,
                after.0,
                id.as_mut_ptr(),
                id.len(),
                found.as_mut_ptr(),
                found.len(),
            )
        })?;
        let [id_len, sequence, leaves, deleted] = numbers(found);
        Ok(flag(any).then(|| Change {
            id_len: id_len as usize,
            sequence: Sequence(sequence),
            leaves,
            deleted: flag(deleted),
        }))
    }

    /// Pulls every leaf of the source's documents after a sequence, each with its whole known path,
    /// into this replica. The source stays as it was.
    ///
    /// A refused offer is counted and not stored, so `refused` above 0 means that something of the
    /// source is *not* in this replica; a pull after a later sequence does not offer it again.
    ///
    /// ```
    /// use refile::{Content, Counts, Replica, RevisionNumber, Sequence};
    ///
    /// # fn main() -> Result<(), refile::Refusal> {
    /// let (third, second) = ([0x70; 16], [0x61; 16]);
    /// let mut north = Replica::fresh();
    /// north.write_path(b"lot", RevisionNumber(3), &[third, second], Content::Live(1))?;
    /// let mut south = Replica::fresh();
    /// south.write_path(b"lot", RevisionNumber(3), &[third], Content::Live(1))?;
    /// // The leaf is known; its parent is not, and comes with the path.
    /// let counts = south.pull(&north, Sequence::START);
    /// assert_eq!(counts, Counts { changed: 1, unchanged: 0, refused: 0 });
    /// let counts = south.pull(&north, Sequence::START);
    /// assert_eq!(counts, Counts { changed: 0, unchanged: 1, refused: 0 });
    /// # Ok(())
    /// # }
    /// ```
    pub fn pull(&mut self, source: &Replica, after: Sequence) -> Counts {
        let mut counts = [0; PULL_BYTES];
        // SAFETY: see the module.
        sure(unsafe {
            sys::refile_pull(
                self.bytes.as_mut_ptr(),
                REPLICA_BYTES,
                source.bytes.as_ptr(),
                REPLICA_BYTES,
                after.0,
                counts.as_mut_ptr(),
                counts.len(),
            )
        });
        let [changed, unchanged, refused] = numbers(counts);
        Counts {
            changed,
            unchanged,
            refused,
        }
    }

    /// The update sequence: how often the replica has changed.
    ///
    /// ```
    /// use refile::{Content, Replica, RevisionNumber, Sequence};
    ///
    /// # fn main() -> Result<(), refile::Refusal> {
    /// let mut replica = Replica::fresh();
    /// for _ in 0..2 {
    ///     replica.write_path(b"lot", RevisionNumber(1), &[[0x20; 16]], Content::Live(7))?;
    /// }
    /// assert_eq!(replica.update_sequence(), Sequence(1));
    /// # Ok(())
    /// # }
    /// ```
    pub fn update_sequence(&self) -> Sequence {
        // SAFETY: see the module.
        Sequence(sure(unsafe {
            sys::refile_update_sequence(self.bytes.as_ptr(), REPLICA_BYTES)
        }))
    }

    /// How many documents and revisions the replica holds.
    ///
    /// ```
    /// use refile::{Content, Held, Replica, RevisionNumber};
    ///
    /// # fn main() -> Result<(), refile::Refusal> {
    /// let mut replica = Replica::fresh();
    /// let path = [[0x91; 16], [0x20; 16]];
    /// replica.write_path(b"lot", RevisionNumber(2), &path, Content::Live(7))?;
    /// assert_eq!(replica.counts(), Held { documents: 1, revisions: 2 });
    /// # Ok(())
    /// # }
    /// ```
    pub fn counts(&self) -> Held {
        let mut held = [0; COUNTS_BYTES];
        // SAFETY: see the module.
        sure(unsafe {
            sys::refile_counts(
                self.bytes.as_ptr(),
                REPLICA_BYTES,
                held.as_mut_ptr(),
                held.len(),
            )
        });
        let [documents, revisions] = numbers(held);
        Held {
            documents,
            revisions,
        }
    }
}

impl Default for Replica {
    fn default() -> Replica {
        Replica::fresh()
    }
}

impl fmt::Debug for Replica {
    fn fmt(&self, f: &mut fmt::Formatter<'_>) -> fmt::Result {
        let Held {
            documents,
            revisions,
        } = self.counts();
        f.debug_struct("Replica")
            .field("update_sequence", &self.update_sequence().0)
            .field("documents", &documents)
            .field("revisions", &revisions)
            .finish_non_exhaustive()
    }
}

/// A leaf that the library wrote.
fn leaf(bytes: &[u8; LEAF_BYTES]) -> Leaf {
    Leaf::from_bytes(bytes).expect("a leaf is live or deleted")
}

/// The documents of a replica that changed after a sequence: see [`Replica::changes`].
#[derive(Clone, Debug)]
pub struct Changes<'a> {
    replica: &'a Replica,
    after: Sequence,
}

impl Iterator for Changes<'_> {
    type Item = (Vec<u8>, Change);

    fn next(&mut self) -> Option<Self::Item> {
        let mut id = [0; ID_BYTES];
        let change = self
            .replica
            .next_change(self.after, &mut id)
            .expect("no id is longer")?;
        self.after = change.sequence;
        Some((id[..change.id_len].to_vec(), change))
    }
}

/// What the check program prints for an image of any length: the report of a sound image, or
/// `refused N at P`.
///
/// ```
/// use refile::{report, Content, Replica, RevisionNumber};
///
/// # fn main() -> Result<(), refile::Refusal> {
/// let mut replica = Replica::fresh();
/// replica.write_path(b"lot", RevisionNumber(1), &[[0x20; 16]], Content::Live(7))?;
/// let image = replica.image();
/// assert_eq!(
///     report(&image),
///     "seq 1 documents 1 revisions 1\n\
///      6c6f74 seq 1 winner 1-20202020202020202020202020202020 leaves 1 conflicts 0\n"
/// );
/// assert_eq!(report(&image[1..]), "refused 21 at 0\n");
/// # Ok(())
/// # }
/// ```
pub fn report(image: &[u8]) -> String {
    let mut text = vec![0; REPORT_MOST];
    let length = report_into(image, &mut text).expect("no report is longer");
    text.truncate(length);
    String::from_utf8(text).expect("a report is ASCII")
}

/// Writes the [`report`] to the front of a lent buffer and answers its length.
///
/// Refusals: 14.
///
/// ```
/// use refile::{report_into, Refusal, REPORT_MOST};
///
/// let mut out = [0; REPORT_MOST];
/// let length = report_into(b"", &mut out).unwrap();
/// assert_eq!(&out[..length], b"refused 20 at 0\n");
/// assert_eq!(report_into(b"", &mut out[..15]), Err(Refusal::ShortBuffer));
/// ```
pub fn report_into(image: &[u8], out: &mut [u8]) -> Result<usize, Refusal> {
    archive_belongs();
    // SAFETY: each pointer and length are one slice's; no replica is lent.
    let length = answer(unsafe {
        sys::refile_report(image.as_ptr(), image.len(), out.as_mut_ptr(), out.len())
    })?;
    Ok(length as usize)
}
