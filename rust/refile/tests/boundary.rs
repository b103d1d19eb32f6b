//! The house refusals of the C interface, which the wrapper never provokes: what the boundary can get
//! and the rules have no number for. They come before all others, 100 and 106 of a replica first, then
//! 101 to 105, and leave every buffer. Also what is asked about bytes that may be no replica.

use refile::REPLICA_BYTES;

#[allow(dead_code)]
#[path = "../src/sys.rs"]
mod sys;

const BAD_REPLICA: u32 = 100;
const BAD_KIND: u32 = 101;
const BAD_LABEL: u32 = 102;
const BAD_FLAG: u32 = 103;
const BAD_HASH: u32 = 104;
const BAD_NO_PARENT: u32 = 105;
const IMAGE_LENT: u32 = 106;
const SHORT_BUFFER: u32 = 14;

const LIVE: u32 = 1;
const DELETED: u32 = 2;

const HASH: [u8; 16] = [0x20; 16];
const NONE: &[u8] = &[];
/// Bytes of a buffer for any answer about that replica.
const OUT: usize = 512;

/// A replica that holds one document, "lot".
fn replica() -> Vec<u8> {
    let mut replica = vec![0; REPLICA_BYTES];
    // SAFETY: the buffer has the size of a replica, and the call makes it one.
    assert_eq!(
        unsafe { sys::refile_fresh(replica.as_mut_ptr(), replica.len()) },
        0
    );
    assert_eq!(write(&mut replica, b"lot", &HASH, LIVE, 7), (0, 1));
    replica
}

/// A refusal and a value.
type Answer = (u32, u32);

fn answer(result: u64) -> Answer {
    let value = result as u32;
    if result >> 63 == 0 {
        return (0, value);
    }
    ((result >> 32) as u32 & 0x7fff_ffff, value)
}

// The calls with slices for pointers and lengths. A buffer of another size than a replica's is
// refused before it is read, so these are sound on any bytes cut from a replica.

fn write(replica: &mut [u8], id: &[u8], path: &[u8], kind: u32, label: u64) -> Answer {
    answer(unsafe {
        sys::refile_write(
            replica.as_mut_ptr(),
            replica.len(),
            id.as_ptr(),
            id.len(),
            1,
            path.as_ptr(),
            path.len(),
            kind,
            label,
        )
    })
}

/// The parts of an edit that can be bad.
#[derive(Clone, Copy)]
struct Edit<'a> {
    hash: &'a [u8],
    kind: u32,
    label: u64,
    named: u32,
    parent_number: u32,
    parent_hash: &'a [u8],
}

/// An edit that would be accepted.
const EDIT: Edit = Edit {
    hash: &[0x91; 16],
    kind: LIVE,
    label: 8,
    named: 1,
    parent_number: 1,
    parent_hash: &HASH,
};

fn edit(replica: &mut [u8], id: &[u8], edit: Edit) -> Answer {
    answer(unsafe {
        sys::refile_edit(
            replica.as_mut_ptr(),
            replica.len(),
            id.as_ptr(),
            id.len(),
            edit.hash.as_ptr(),
            edit.hash.len(),
            edit.kind,
            edit.label,
            edit.named,
            edit.parent_number,
            edit.parent_hash.as_ptr(),
            edit.parent_hash.len(),
        )
    })
}

fn path(replica: &[u8], id: &[u8], hash: &[u8], out: &mut [u8]) -> Answer {
    answer(unsafe {
        sys::refile_path(
            replica.as_ptr(),
            replica.len(),
            id.as_ptr(),
            id.len(),
            1,
            hash.as_ptr(),
            hash.len(),
            out.as_mut_ptr(),
            out.len(),
        )
    })
}

fn changes(replica: &[u8], out: &mut [u8], found: &mut [u8]) -> Answer {
    answer(unsafe {
        sys::refile_changes(
            replica.as_ptr(),
            replica.len(),
            0,
            out.as_mut_ptr(),
            out.len(),
            found.as_mut_ptr(),
            found.len(),
        )
    })
}

fn pull(target: &mut [u8], source: &[u8], counts: &mut [u8]) -> Answer {
    answer(unsafe {
        sys::refile_pull(
            target.as_mut_ptr(),
            target.len(),
            source.as_ptr(),
            source.len(),
            0,
            counts.as_mut_ptr(),
            counts.len(),
        )
    })
}

fn counts(replica: &[u8], held: &mut [u8]) -> Answer {
    answer(unsafe {
        sys::refile_counts(
            replica.as_ptr(),
            replica.len(),
            held.as_mut_ptr(),
            held.len(),
        )
    })
}

fn take_in(replica: &mut [u8], line: &[u8]) -> Answer {
    answer(unsafe {
        sys::refile_take_in(
            replica.as_mut_ptr(),
            replica.len(),
            line.as_ptr(),
            line.len(),
        )
    })
}

fn put_out(replica: &[u8], id: &[u8], out: &mut [u8]) -> Answer {
    answer(unsafe {
        sys::refile_put_out(
            replica.as_ptr(),
            replica.len(),
            id.as_ptr(),
            id.len(),
            out.as_mut_ptr(),
            out.len(),
        )
    })
}

fn put_out_size(replica: &[u8], id: &[u8]) -> Answer {
    answer(unsafe {
        sys::refile_put_out_size(replica.as_ptr(), replica.len(), id.as_ptr(), id.len())
    })
}

/// The calls on those bytes, with everything else bad as well, and the whole replica as the other of a
/// pull. None may alter it.
fn with_all_else_bad(bytes: &mut [u8], whole: &[u8], out: &mut [u8]) -> [Answer; 10] {
    let bad = Edit {
        hash: NONE,
        kind: 0,
        named: 2,
        ..EDIT
    };
    let mut target = whole.to_vec();
    let answers = [
        write(bytes, NONE, NONE, 0, 0),
        take_in(bytes, NONE),
        put_out(bytes, NONE, out),
        put_out_size(bytes, NONE),
        edit(bytes, NONE, bad),
        path(bytes, NONE, NONE, out),
        changes(bytes, out, &mut []),
        counts(bytes, &mut []),
        pull(bytes, whole, &mut []),
        pull(&mut target, bytes, &mut []),
    ];
    assert!(target == whole);
    answers
}

/// Makes a call on a whole replica, which must be refused so and leave every byte.
fn refused(number: u32, call: impl FnOnce(&mut [u8]) -> Answer) {
    let mut bytes = replica();
    let former = bytes.clone();
    assert_eq!(call(&mut bytes), (number, 0));
    assert!(bytes == former, "refusal {number} altered the replica");
}

#[test]
fn a_replica_of_another_size() {
    for size in [0, 1, 16, REPLICA_BYTES - 1, REPLICA_BYTES + 1] {
        let whole = replica();
        let mut bytes = whole.clone();
        bytes.resize(size, 0xee);
        let former = bytes.clone();
        let mut out = [0xee; OUT];
        let (at, len) = (bytes.as_mut_ptr(), size);
        let (out_at, out_len) = (out.as_mut_ptr(), out.len());
        let (id, id_len) = (b"lot".as_ptr(), 3);
        // SAFETY: every pointer and length is one buffer's, and none overlap.
        let results = unsafe {
            [
                sys::refile_fresh(at, len),
                sys::refile_load(at, len, NONE.as_ptr(), 0),
                sys::refile_save(at, len, out_at, out_len),
                sys::refile_winner(at, len, id, id_len, out_at, out_len),
                sys::refile_leaves(at, len, id, id_len, out_at, out_len),
                sys::refile_missing(at, len, id, id_len, NONE.as_ptr(), 0, out_at, out_len),
                sys::refile_update_sequence(at, len),
            ]
        };
        assert_eq!(results.map(answer), [(BAD_REPLICA, 0); 7]);
        let answers = with_all_else_bad(&mut bytes, &whole, &mut out);
        assert_eq!(answers, [(BAD_REPLICA, 0); 10]);
        assert!(bytes == former && out == [0xee; OUT]);
    }
}

/// Whether the bytes are a replica, whatever their length.
fn is_replica(bytes: &[u8]) -> bool {
    // SAFETY: the pointer and the length are one slice's; any bytes may be asked about.
    match unsafe { sys::refile_is_replica(bytes.as_ptr(), bytes.len()) } {
        0 => false,
        1 => true,
        other => panic!("{other} for yes or no"),
    }
}

/// Every call but fresh and load refuses a buffer that does not begin as a replica does, whatever
/// else is bad, and after a buffer of another size.
#[test]
fn a_replica_that_begins_as_an_image() {
    let whole = replica();
    let mut image = vec![0; REPLICA_BYTES];
    // SAFETY: every pointer and length is one buffer's, and none overlap.
    let saved =
        unsafe { sys::refile_save(whole.as_ptr(), whole.len(), image.as_mut_ptr(), image.len()) };
    assert_eq!(answer(saved), (0, 108));
    for (at, byte) in [(0, 0), (0, 1), (0, 0xff), (1, 0xff)] {
        let mut bytes = image.clone();
        bytes[at] = byte;
        let former = bytes.clone();
        let mut out = [0xee; OUT];
        let (lent, len) = (bytes.as_ptr(), bytes.len());
        let (out_at, out_len) = (out.as_mut_ptr(), 0);
        // SAFETY: as above.
        let results = unsafe {
            [
                sys::refile_save(lent, len, out_at, out_len),
                sys::refile_winner(lent, len, NONE.as_ptr(), 0, out_at, out_len),
                sys::refile_leaves(lent, len, NONE.as_ptr(), 0, out_at, out_len),
                sys::refile_missing(
                    lent,
                    len,
                    NONE.as_ptr(),
                    0,
                    b"x".as_ptr(),
                    1,
                    out_at,
                    out_len,
                ),
                sys::refile_update_sequence(lent, len),
            ]
        };
        assert_eq!(results.map(answer), [(IMAGE_LENT, 0); 5]);
        let answers = with_all_else_bad(&mut bytes, &whole, &mut out);
        assert_eq!(answers, [(IMAGE_LENT, 0); 10]);
        // The target comes before the source.
        let mut target = whole.clone();
        assert_eq!(pull(&mut bytes, &whole[1..], &mut []), (IMAGE_LENT, 0));
        assert_eq!(pull(&mut target[1..], &bytes, &mut []), (BAD_REPLICA, 0));
        assert!(target == whole && bytes == former && out == [0xee; OUT]);
        assert!(!is_replica(&bytes));
    }
    // Fresh and load take any bytes; load refuses only what it is given to load.
    let (lent, len) = (image.as_mut_ptr(), image.len());
    // SAFETY: as above.
    let results = unsafe {
        [
            sys::refile_load(lent, len, NONE.as_ptr(), 0),
            sys::refile_fresh(lent, len),
        ]
    };
    assert_eq!(results.map(answer), [(20, 0), (0, 0)]);
    assert!(image.iter().all(|&byte| byte == 0));
}

#[test]
fn bytes_that_may_be_a_replica() {
    let whole = replica();
    assert!(is_replica(&whole));
    assert!(is_replica(&vec![0; REPLICA_BYTES]));
    for size in [0, 1, 15, 16, 108, REPLICA_BYTES - 1] {
        assert!(!is_replica(&whole[..size]), "{size} bytes");
        assert!(!is_replica(&vec![0; size]), "{size} zeros");
    }
    for size in [REPLICA_BYTES + 1, 2 * REPLICA_BYTES] {
        let mut longer = whole.clone();
        longer.resize(size, 0);
        assert!(!is_replica(&longer), "{size} bytes");
    }
    assert!(!is_replica(&vec![0xff; REPLICA_BYTES]));
}

#[test]
fn the_version() {
    // SAFETY: the call takes nothing.
    assert_eq!(unsafe { sys::refile_version() }, 3_000);
}

#[test]
fn contents() {
    for kind in [0, 3, 257, u32::MAX] {
        refused(BAD_KIND, |bytes| write(bytes, NONE, NONE, kind, 1));
        let bad = Edit {
            kind,
            named: 2,
            hash: NONE,
            ..EDIT
        };
        refused(BAD_KIND, |bytes| edit(bytes, NONE, bad));
    }
    for label in [1, u64::MAX] {
        refused(BAD_LABEL, |bytes| write(bytes, NONE, NONE, DELETED, label));
        let bad = Edit {
            kind: DELETED,
            label,
            named: 2,
            hash: NONE,
            ..EDIT
        };
        refused(BAD_LABEL, |bytes| edit(bytes, NONE, bad));
    }
}

#[test]
fn flags_hashes_and_parents_of_an_edit() {
    for named in [2, 256, u32::MAX] {
        let bad = Edit {
            named,
            hash: NONE,
            ..EDIT
        };
        refused(BAD_FLAG, |bytes| edit(bytes, NONE, bad));
    }
    let long = [0x20; 32];
    for hash in [NONE, &HASH[1..], &long[..17], &long] {
        // Without a name the parent's hash would be refused next.
        refused(BAD_HASH, |bytes| {
            edit(
                bytes,
                NONE,
                Edit {
                    hash,
                    named: 0,
                    ..EDIT
                },
            )
        });
        let parent_hash = hash;
        refused(BAD_HASH, |bytes| {
            edit(
                bytes,
                NONE,
                Edit {
                    parent_hash,
                    ..EDIT
                },
            )
        });
    }
    let unnamed = Edit {
        named: 0,
        parent_number: 0,
        parent_hash: NONE,
        ..EDIT
    };
    for (parent_number, parent_hash) in [(1, NONE), (0, &HASH[..]), (0, &HASH[1..]), (1, &HASH)] {
        let bad = Edit {
            parent_number,
            parent_hash,
            ..unnamed
        };
        refused(BAD_NO_PARENT, |bytes| edit(bytes, NONE, bad));
    }
    // The document's winner is live, so an edit that names no parent is refused by the rules.
    refused(9, |bytes| edit(bytes, b"lot", unnamed));
    assert_eq!(edit(&mut replica(), b"lot", EDIT), (0, 2));
    assert_eq!(edit(&mut replica(), b"new", unnamed), (0, 1));
}

#[test]
fn the_hash_of_a_path() {
    let long = [0x20; 17];
    for hash in [NONE, &HASH[1..], &long] {
        let mut out = [0xee; 16];
        refused(BAD_HASH, |bytes| path(bytes, NONE, hash, &mut out));
        assert_eq!(out, [0xee; 16]);
    }
    let mut out = [0xee; 16];
    assert_eq!(path(&replica(), b"lot", &HASH, &mut out), (0, 1));
    assert_eq!(out, HASH);
}

#[test]
fn answer_buffers() {
    let source = replica();
    for size in [0, 7] {
        let mut found = vec![0xee; size];
        refused(SHORT_BUFFER, |bytes| counts(bytes, &mut found));
        assert_eq!(found, vec![0xee; size]);
    }
    for size in [0, 11] {
        let mut found = vec![0xee; size];
        refused(SHORT_BUFFER, |bytes| pull(bytes, &source, &mut found));
        assert_eq!(found, vec![0xee; size]);
    }
    for size in [0, 15] {
        let mut found = vec![0xee; size];
        let mut out = [0xee; 3];
        refused(SHORT_BUFFER, |bytes| changes(bytes, &mut out, &mut found));
        assert_eq!((found, out), (vec![0xee; size], [0xee; 3]));
    }
    // The bytes after the answer stay.
    let mut found = [0xee; 64];
    assert_eq!(counts(&replica(), &mut found), (0, 0));
    assert_eq!(found[..8], [0, 0, 0, 1, 0, 0, 0, 1]);
    assert_eq!(found[8..], [0xee; 56]);
    // Where the id does not fit, the answer buffer stays as well.
    let mut found = [0xee; 16];
    refused(SHORT_BUFFER, |bytes| {
        changes(bytes, &mut [0; 2], &mut found)
    });
    assert_eq!(found, [0xee; 16]);
}

#[test]
fn lines() {
    for line in [NONE, b"[]", b"{", b"\xef\xbb\xbf{}"] {
        refused(40, |bytes| take_in(bytes, line));
    }
    refused(41, |bytes| take_in(bytes, b"{}"));
    let mut bytes = replica();
    let mut out = [0xee; OUT];
    let (number, size) = put_out_size(&bytes, b"lot");
    assert_eq!(number, 0);
    let size = size as usize;
    refused(SHORT_BUFFER, |bytes| {
        put_out(bytes, b"lot", &mut out[..size - 1])
    });
    assert_eq!(out, [0xee; OUT]);
    assert_eq!(put_out(&bytes, b"lot", &mut out), (0, size as u32));
    assert_eq!(out[size..], [0xee; OUT][size..]);
    let former = bytes.clone();
    assert_eq!(take_in(&mut bytes, &out[..size]), (0, 0));
    assert!(bytes == former);
    let mut fresh = vec![0; REPLICA_BYTES];
    assert_eq!(take_in(&mut fresh, &out[..size]), (0, 1));
    assert!(fresh == bytes);
}
