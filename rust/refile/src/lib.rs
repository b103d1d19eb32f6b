//! A replica of documents and their revisions, for a service that merges histories from several
//! places. The work is done by a proved library, linked as an archive; this crate is its safe Rust
//! side.
//!
//! A [`Replica`] owns its storage and is made only by [`Replica::fresh`], from an image by
//! [`Replica::from_image`] and [`Replica::load`], or from storage that
//! [`Replica::from_storage`] has looked through, so its bytes are only ever what the library left,
//! which is all that the library requires. Every other input is taken and refused by number where
//! it is bad: see [`Refusal`].
//!
//! Documents also come and go as lines of dumps, one JSON object each: [`Replica::take_in`] takes one in,
//! and [`Replica::put_out`] puts a document's leaves out.
//!
//! Calls whose answer is bytes come in two forms: one that writes into a buffer the caller lends and
//! allocates nothing, and a convenient one that answers values.
//!
//! ```
//! use refile::{Content, Refusal, Replica, Revision, RevisionNumber, Sequence, Written};
//!
//! # fn main() -> Result<(), Refusal> {
//! let mut office = Replica::fresh();
//! let (first, second, other) = ([0x20; 16], [0x91; 16], [0x4c; 16]);
//! office.write_path(b"lot", RevisionNumber(1), &[first], Content::Live(7))?;
//! office.write_path(b"lot", RevisionNumber(2), &[second, first], Content::Live(8))?;
//! office.write_path(b"lot", RevisionNumber(2), &[other, first], Content::Live(9))?;
//! assert_eq!(office.leaves(b"lot")?.len(), 2);
//! assert_eq!(office.winner(b"lot")?.revision, Revision::new(2, second));
//!
//! let mut branch = Replica::fresh();
//! let counts = branch.pull(&office, Sequence::START);
//! assert_eq!((counts.changed, counts.unchanged, counts.refused), (2, 0, 0));
//! assert_eq!(branch.winner(b"lot")?, office.winner(b"lot")?);
//!
//! // The same history again adds nothing.
//! let again = branch.write_path(b"lot", RevisionNumber(2), &[other, first], Content::Live(9))?;
//! assert_eq!(again, Written::Unchanged);
//! # Ok(())
//! # }
//! ```
//!
//! Calls share nothing. What a call writes overlaps no other buffer of that call, which the borrow
//! checker sees to; what it only reads may overlap. Several threads may read one replica at once, as
//! long as none writes to it meanwhile. No call takes more than [`STACK_BYTES`] bytes of stack.

#![deny(missing_docs)]

mod refusal;
mod replica;
mod sys;
mod values;

pub use refusal::{text, Refusal};
pub use replica::{report, report_into, Changes, Replica};
pub use values::{
    Change, Content, Counts, Hash, Held, Leaf, Revision, RevisionNumber, Sequence, Written,
};

/// The version, the sizes and the texts of the C header, as the build found them there.
mod header {
    include!(concat!(env!("OUT_DIR"), "/header.rs"));
}

/// This crate's version and its header's: major times 1,000,000, minor times 1,000, and patch.
pub const VERSION: u32 = header::VERSION;

/// The linked archive's version, in the form of [`VERSION`].
///
/// Every replica's making and every report see that the two are one, and panic if they are not:
/// nothing that this crate takes for granted of a call need hold then.
///
/// ```
/// assert_eq!(refile::archive_version(), refile::VERSION);
/// ```
pub fn archive_version() -> u32 {
    // SAFETY: the call takes nothing.
    let version = unsafe { sys::refile_version() };
    u32::try_from(version).expect("a version of over 32 bits")
}

/// Documents in a replica, at most.
pub const DOCUMENTS: usize = header::DOCUMENTS;
/// Revisions in all documents of a replica together, at most.
pub const REVISIONS: usize = header::REVISIONS;
/// Hashes in one path write, at most.
pub const PATH_HASHES: usize = header::PATH_HASHES;
/// Bytes in a document's id, at most.
pub const ID_BYTES: usize = header::ID_BYTES;
/// Bytes in a revision's hash.
pub const HASH_BYTES: usize = header::HASH_BYTES;
/// Bytes in a leaf as the lent-buffer calls write it.
pub const LEAF_BYTES: usize = header::LEAF_BYTES;
/// Bytes in an entry of an asked list.
pub const ASKED_BYTES: usize = header::ASKED_BYTES;
/// Bytes in the largest image.
pub const IMAGE_MOST: usize = 16 + 44 * DOCUMENTS + 48 * REVISIONS;
/// Bytes that a replica owns.
pub const REPLICA_BYTES: usize = IMAGE_MOST;
/// Bytes that [`Replica::leaves_into`] never finds too few.
pub const LEAVES_MOST: usize = LEAF_BYTES * REVISIONS;
/// Bytes that [`Replica::path_into`] never finds too few.
pub const PATH_MOST: usize = HASH_BYTES * REVISIONS;
/// No report is longer.
pub const REPORT_MOST: usize = HEAD_LINE_MOST + DOCUMENT_LINE_MOST * DOCUMENTS;

/// Digits of the longest number in a report, 4,294,967,295.
const DIGITS: usize = 10;
/// Bytes in the longest first line of a report: its words and three numbers.
const HEAD_LINE_MOST: usize = "seq  documents  revisions \n".len() + 3 * DIGITS;
/// Bytes in a document's longest line: its words, an id and a hash in hex, and four numbers.
const DOCUMENT_LINE_MOST: usize =
    " seq  winner - leaves  conflicts \n".len() + 2 * (ID_BYTES + HASH_BYTES) + 4 * DIGITS;

/// Bytes of stack that suffice for every call of the archive.
pub const STACK_BYTES: usize = 256 * REVISIONS;
