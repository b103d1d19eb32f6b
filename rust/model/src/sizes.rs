//! The room of a replica, in three numbers, and the sizes that the rules fix besides. Every other
//! size follows from these, in the tests too.

/// "Room: 32 documents and 512 revisions in all documents together."
pub const DOCUMENTS: usize = 32;

/// The other half of the room: see [`DOCUMENTS`].
pub const REVISIONS: usize = 512;

/// A path has "1 to 512 hashes".
pub const PATH_HASHES: usize = 512;

// A pull offers whole paths, so none that there is room for may be too long to write: a replica that
// is pulled into itself would refuse it. And tests fill the room with one path.
const _: () = assert!(PATH_HASHES == REVISIONS);

/// "A document has an id of 1 to 32 bytes, each byte free."
pub const ID_BYTES: usize = 32;

/// "The hash is sixteen bytes".
pub const HASH_BYTES: usize = 16;

/// "29 bytes each: number, hash, kind, label as in an image row".
pub const LEAF_BYTES: usize = 4 + HASH_BYTES + 1 + 8;

/// "20 bytes for each revision, a number of four bytes, big-endian, and a hash".
pub const ASKED_BYTES: usize = 4 + HASH_BYTES;

/// "to depth 16, the line being 1".
pub const LINE_DEPTH: usize = 16;
