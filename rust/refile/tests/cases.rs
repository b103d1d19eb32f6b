//! The cases of the rules on the linked library: the fourteen examples, the borders that are run and
//! compared only, and which refusal is given where several hold. Every expected number and byte is
//! written out here from the rules, but for the room, which is the crate's; nothing is asked of the model.

use std::fmt::Debug;

use refile::{
    report, report_into, Change, Content, Counts, Hash, Held, Refusal, Replica, Revision,
    RevisionNumber, Sequence, Written, DOCUMENTS, HASH_BYTES, PATH_HASHES, REVISIONS, STACK_BYTES,
};
use refile_model::harness::buffer;
use Content::{Deleted, Live};
use Written::{Changed, Unchanged};

const LOT: &[u8] = b"lot";
const LOT_IMAGE: &[u8] = include_bytes!("../../../examples/lot.image");
const LAST: u32 = 4_294_967_295;

/// "A hash is written as its first byte, the rest zeros."
fn hash(first: u8) -> Hash {
    let mut hash = [0; 16];
    hash[0] = first;
    hash
}

fn path(first_bytes: &[u8]) -> Vec<u8> {
    first_bytes.iter().copied().flat_map(hash).collect()
}

fn revision(number: u32, first: u8) -> Revision {
    Revision::new(number, hash(first))
}

/// So many hashes, no two of them the same.
fn long_path(hashes: usize) -> Vec<u8> {
    let hash = |k: u16| [[0xaa; 14].as_slice(), &k.to_be_bytes()].concat();
    (0..).take(hashes).flat_map(hash).collect()
}

fn write_to(
    replica: &mut Replica,
    id: &[u8],
    number: u32,
    path: &[u8],
    content: Content,
) -> Result<Written, Refusal> {
    replica.write_path_bytes(id, RevisionNumber(number), path, content)
}

/// Writes to "lot" a path whose hashes are given by their first bytes.
fn write(
    replica: &mut Replica,
    number: u32,
    first_bytes: &[u8],
    content: Content,
) -> Result<Written, Refusal> {
    write_to(replica, LOT, number, &path(first_bytes), content)
}

/// A call that must be refused by that number and leave every byte of the replica.
#[track_caller]
fn refused<T: Debug>(
    number: u32,
    replica: &mut Replica,
    call: impl FnOnce(&mut Replica) -> Result<T, Refusal>,
) {
    let former = replica.clone();
    match call(replica) {
        Ok(answer) => panic!("answered {answer:?}, where refusal {number} is due"),
        Err(refusal) => assert_eq!((refusal.number(), refusal.place()), (number, 0)),
    }
    assert!(*replica == former, "refusal {number} altered the replica");
}

/// A read that must be refused by that number and leave every byte of the replica and of the buffer.
#[track_caller]
fn read_refused(
    number: u32,
    replica: &Replica,
    room: usize,
    read: impl Fn(&Replica, &mut [u8]) -> Result<usize, Refusal>,
) {
    let former = replica.clone();
    let mut out = buffer(room);
    let refusal = read(replica, &mut out).map_err(|refusal| (refusal.number(), refusal.place()));
    assert_eq!(refusal, Err((number, 0)));
    assert_eq!(out, buffer(room), "refusal {number} altered the buffer");
    assert!(*replica == former, "refusal {number} altered the replica");
}

/// A read that must answer these bytes and that count: the bytes after the answer stay, and a buffer
/// that is a byte short, or empty, is refused by 14.
#[track_caller]
fn answers(
    replica: &Replica,
    count: usize,
    answer: &[u8],
    read: impl Fn(&Replica, &mut [u8]) -> Result<usize, Refusal>,
) {
    let former = replica.clone();
    for more in [0, 1, 100] {
        let mut expected = buffer(answer.len() + more);
        expected[..answer.len()].copy_from_slice(answer);
        let mut out = buffer(expected.len());
        assert_eq!(read(replica, &mut out), Ok(count));
        assert_eq!(out, expected, "with {more} bytes more than the answer");
    }
    assert!(*replica == former, "a read altered the replica");
    read_refused(14, replica, answer.len() - 1, &read);
    read_refused(14, replica, 0, &read);
}

/// A leaf in its 29 bytes: number (4), hash (16), kind (1), label (8).
fn leaf(number: u32, first: u8, content: Content) -> [u8; 29] {
    let (kind, label) = match content {
        Live(label) => (1, label),
        Deleted => (2, 0),
        other => panic!("{other:?} stands in no case"),
    };
    let mut bytes = [0; 29];
    bytes[..4].copy_from_slice(&number.to_be_bytes());
    bytes[4] = first;
    bytes[20] = kind;
    bytes[21..].copy_from_slice(&label.to_be_bytes());
    bytes
}

/// What "lot" shows: the update sequence, the leaves, and which of them wins.
#[track_caller]
fn shows(replica: &Replica, sequence: u32, leaves: &[[u8; 29]], winner: [u8; 29]) {
    assert_eq!(replica.update_sequence(), Sequence(sequence));
    let all = leaves.as_flattened();
    answers(replica, leaves.len(), all, |replica, out| {
        replica.leaves_into(LOT, out)
    });
    answers(replica, 29, &winner, |replica, out| {
        replica.winner_into(LOT, out)
    });
}

/// The replica after cases 1 to 5.
fn lot() -> Replica {
    let mut replica = Replica::fresh();
    for (number, first_bytes, content) in [
        (1, &[0x20][..], Live(7)),
        (2, &[0x91, 0x20], Live(8)),
        (2, &[0x4c, 0x20], Live(9)),
        (2, &[0x4c, 0x20], Live(9)),
        (3, &[0x05, 0x91, 0x20], Deleted),
    ] {
        write(&mut replica, number, first_bytes, content).expect("cases 1 to 5 are accepted");
    }
    replica
}

// The fourteen examples

#[test]
fn cases_1_to_8() {
    let replica = &mut Replica::fresh();
    let (live_91, live_4c) = (leaf(2, 0x91, Live(8)), leaf(2, 0x4c, Live(9)));
    let deleted_05 = leaf(3, 0x05, Deleted);
    // 1: 1-[20] live 7: changed, seq 1
    assert_eq!(write(replica, 1, &[0x20], Live(7)), Ok(Changed));
    let live_20 = leaf(1, 0x20, Live(7));
    shows(replica, 1, &[live_20], live_20);
    // 2: 2-[91,20] live 8: one leaf, 2-91
    assert_eq!(write(replica, 2, &[0x91, 0x20], Live(8)), Ok(Changed));
    shows(replica, 2, &[live_91], live_91);
    // 3: 2-[4c,20] live 9: two leaves, winner 2-91, seq 3
    assert_eq!(write(replica, 2, &[0x4c, 0x20], Live(9)), Ok(Changed));
    shows(replica, 3, &[live_91, live_4c], live_91);
    // 4: case 3 again: unchanged, seq 3
    let former = replica.clone();
    assert_eq!(write(replica, 2, &[0x4c, 0x20], Live(9)), Ok(Unchanged));
    assert!(*replica == former, "an unchanged write leaves every byte");
    shows(replica, 3, &[live_91, live_4c], live_91);
    // 5: 3-[05,91,20] deleted: winner 2-4c, seq 4
    assert_eq!(write(replica, 3, &[0x05, 0x91, 0x20], Deleted), Ok(Changed));
    shows(replica, 4, &[deleted_05, live_4c], live_4c);
    // 6: 2-[4c,33] live 9: 4
    refused(4, replica, |r| write(r, 2, &[0x4c, 0x33], Live(9)));
    // 7: 2-[4c,20] live 10: 5
    refused(5, replica, |r| write(r, 2, &[0x4c, 0x20], Live(10)));
    // 8: 1-[20] deleted: unchanged
    let former = replica.clone();
    assert_eq!(write(replica, 1, &[0x20], Deleted), Ok(Unchanged));
    assert!(*replica == former, "an unchanged write leaves every byte");
    shows(replica, 4, &[deleted_05, live_4c], live_4c);
}

#[test]
fn cases_9_and_10() {
    let replica = &mut Replica::fresh();
    let (live_70, live_61) = (leaf(3, 0x70, Live(1)), leaf(2, 0x61, Live(2)));
    // 9: 3-[70] live 1, then 2-[61] live 2: two leaves
    assert_eq!(write(replica, 3, &[0x70], Live(1)), Ok(Changed));
    assert_eq!(write(replica, 2, &[0x61], Live(2)), Ok(Changed));
    shows(replica, 2, &[live_70, live_61], live_70);
    // 10: then 3-[70,61] live 1: changed, one leaf 3-70, seq 3
    assert_eq!(write(replica, 3, &[0x70, 0x61], Live(1)), Ok(Changed));
    shows(replica, 3, &[live_70], live_70);
}

#[test]
fn case_11() {
    // 9-[aa] live, 10-[01] live: winner 10-01
    let replica = &mut Replica::fresh();
    assert_eq!(write(replica, 9, &[0xaa], Live(1)), Ok(Changed));
    assert_eq!(write(replica, 10, &[0x01], Live(1)), Ok(Changed));
    let (live_01, live_aa) = (leaf(10, 0x01, Live(1)), leaf(9, 0xaa, Live(1)));
    shows(replica, 2, &[live_01, live_aa], live_01);
}

#[test]
fn case_12() {
    // 2-[10] and 2-[20], both deleted: winner 2-20
    let replica = &mut Replica::fresh();
    assert_eq!(write(replica, 2, &[0x10], Deleted), Ok(Changed));
    assert_eq!(write(replica, 2, &[0x20], Deleted), Ok(Changed));
    let (deleted_20, deleted_10) = (leaf(2, 0x20, Deleted), leaf(2, 0x10, Deleted));
    shows(replica, 2, &[deleted_20, deleted_10], deleted_20);
}

#[test]
fn case_13() {
    // 2-[0a,0b,0c]; 0-[0a]: 3; 3
    let replica = &mut Replica::fresh();
    refused(3, replica, |r| write(r, 2, &[0x0a, 0x0b, 0x0c], Live(1)));
    refused(3, replica, |r| write(r, 0, &[0x0a], Live(1)));
    assert!(*replica == Replica::fresh());
}

#[test]
fn case_14() {
    // fresh saved: 00010000 00000000 00000000 00000010
    let image = [0, 1, 0, 0, 0, 0, 0, 0, 0, 0, 0, 0, 0, 0, 0, 0x10];
    answers(&Replica::fresh(), 16, &image, Replica::save);
}

// What cases 1 to 5 leave

#[test]
fn the_image_after_cases_1_to_5() {
    let mut id = [0; 33];
    id[..4].copy_from_slice(b"\x03lot");
    let row = |number: u8, first, kind, known, parent, label: u8| {
        let (hash, parent) = (hash(first), hash(parent));
        let flags = [kind, known, 0, 0];
        let label = [0, 0, 0, 0, 0, 0, 0, label];
        [&[0, 0, 0, number][..], &hash, &flags, &parent, &label].concat()
    };
    let image = [
        // Head: edition 1, one document, four revisions, zero, update sequence 4, 252 bytes.
        &[0, 1, 0, 1, 0, 4, 0, 0, 0, 0, 0, 4, 0, 0, 0, 252][..],
        // Contents: length and id, zero, four rows, own sequence 4, first row at byte 60.
        &id,
        &[0, 0, 4, 0, 0, 0, 4, 0, 0, 0, 60],
        &row(1, 0x20, 0, 0, 0, 0),
        &row(2, 0x4c, 1, 1, 0x20, 9),
        &row(2, 0x91, 0, 1, 0x20, 0),
        &row(3, 0x05, 2, 1, 0x91, 0),
    ]
    .concat();
    answers(&lot(), 252, &image, Replica::save);
    assert_eq!(image, LOT_IMAGE, "examples/lot.image");
    assert!(Replica::from_image(LOT_IMAGE) == Ok(lot()));
}

#[test]
fn the_report_after_cases_1_to_5() {
    let text = "seq 4 documents 1 revisions 4\n\
                6c6f74 seq 4 winner 2-4c000000000000000000000000000000 leaves 2 conflicts 1\n";
    assert_eq!(report(LOT_IMAGE), text);
    answers(&lot(), text.len(), text.as_bytes(), |_, out| {
        report_into(LOT_IMAGE, out)
    });
}

#[test]
fn reads_after_cases_1_to_5() {
    let replica = &lot();
    let held = Held {
        documents: 1,
        revisions: 4,
    };
    assert_eq!(replica.counts(), held);
    let whole = path(&[0x05, 0x91, 0x20]);
    for (newest, answer) in [
        (revision(3, 0x05), &whole[..]),
        (revision(2, 0x91), &whole[16..]),
        (revision(1, 0x20), &whole[32..]),
        (revision(2, 0x4c), &path(&[0x4c, 0x20])),
    ] {
        let count = answer.len() / 16;
        answers(replica, count, answer, |replica, out| {
            replica.path_into(LOT, newest, out)
        });
    }
    // Known, another number, number 0, another hash, a leaf.
    let asked = [(1, 0x20), (2, 0x20), (0, 0x20), (3, 0x06), (2, 0x4c)];
    let asked = asked.map(|(number, first)| revision(number, first).to_asked());
    let asked = asked.as_flattened();
    for (id, answer) in [(LOT, [0, 1, 1, 1, 0]), (b"lots", [1; 5])] {
        answers(replica, 5, &answer, |replica, out| {
            replica.missing_into(id, asked, out)
        });
    }
    assert_eq!(replica.missing_into(LOT, &[], &mut []), Ok(0));
}

#[test]
fn changes_after_cases_1_to_5() {
    let replica = &mut lot();
    write_to(replica, b"\0", 1, &path(&[0x20]), Deleted).expect("another document");
    let change = |id_len, sequence, leaves, deleted| Change {
        id_len,
        sequence: Sequence(sequence),
        leaves,
        deleted,
    };
    for (after, id, found) in [
        (0, LOT, change(3, 4, 2, false)),
        (3, LOT, change(3, 4, 2, false)),
        (4, b"\0", change(1, 5, 1, true)),
    ] {
        answers(replica, id.len(), id, |replica, out| {
            let change = replica.next_change(Sequence(after), out)?;
            assert_eq!(change, Some(found));
            Ok(id.len())
        });
    }
    for after in [5, 6, LAST] {
        let mut out = buffer(32);
        assert_eq!(replica.next_change(Sequence(after), &mut out), Ok(None));
        assert_eq!(out, buffer(32), "\"no more\" writes nothing");
        assert_eq!(replica.next_change(Sequence(after), &mut []), Ok(None));
    }
}

// Borders

#[test]
fn ids_of_0_1_32_and_33_bytes() {
    let bytes = [0; 33];
    let (one, asked) = (revision(1, 0x20), revision(1, 0x20).to_asked());
    for id in [&bytes[..0], &bytes] {
        let replica = &mut lot();
        refused(1, replica, |r| write_to(r, id, 1, &hash(0x20), Live(1)));
        refused(1, replica, |r| r.edit(id, hash(0x20), Live(1), None));
        refused(1, replica, |r| r.edit(id, hash(0x20), Live(1), Some(one)));
        read_refused(1, replica, 64, |r, out| r.winner_into(id, out));
        read_refused(1, replica, 64, |r, out| r.leaves_into(id, out));
        read_refused(1, replica, 64, |r, out| r.path_into(id, one, out));
        read_refused(1, replica, 64, |r, out| r.missing_into(id, &asked, out));
    }
    let replica = &mut lot();
    for (sequence, id) in [(5, &bytes[..1]), (6, &bytes[..32])] {
        let written = write_to(replica, id, 1, &hash(0x20), Live(0));
        assert_eq!(written, Ok(Changed));
        assert_eq!(replica.update_sequence(), Sequence(sequence));
        let answer = leaf(1, 0x20, Live(0));
        answers(replica, 29, &answer, |r, out| r.winner_into(id, out));
        answers(replica, 1, &[0], |r, out| r.missing_into(id, &asked, out));
    }
    // By id, a prefix first.
    let image = replica.image();
    let ids = image[16..].chunks(44).map(|entry| entry[0]);
    assert_eq!(ids.take(3).collect::<Vec<u8>>(), [1, 32, 3]);
}

#[test]
fn a_path_of_the_most_hashes_and_one_more() {
    let replica = &mut Replica::fresh();
    let hashes = PATH_HASHES as u32;
    let long = long_path(PATH_HASHES + 1);
    let most = &long[..HASH_BYTES * PATH_HASHES];
    refused(2, replica, |r| write_to(r, LOT, hashes + 1, &long, Live(1)));
    refused(2, replica, |r| write_to(r, LOT, LAST, &long, Live(1)));
    for bytes in [0, 1, 15, 17, most.len() - 1, most.len() + 1] {
        refused(2, replica, |r| {
            write_to(r, LOT, LAST, &long[..bytes], Live(1))
        });
    }
    refused(3, replica, |r| write_to(r, LOT, hashes - 1, most, Live(1)));
    for number in [hashes, LAST] {
        let replica = &mut Replica::fresh();
        assert_eq!(write_to(replica, LOT, number, most, Live(1)), Ok(Changed));
        assert_eq!(replica.counts().revisions, hashes);
        let newest = Revision::new(number, *most.first_chunk().expect("a hash"));
        answers(replica, PATH_HASHES, most, |r, out| {
            r.path_into(LOT, newest, out)
        });
        let leaves = replica.leaves(LOT).expect("the document is there");
        assert_eq!(leaves.len(), 1);
        assert_eq!(leaves[0].revision, newest);
        assert_eq!(replica.image().len(), 16 + 44 + 48 * PATH_HASHES);
        assert_eq!(write_to(replica, LOT, number, most, Live(1)), Ok(Unchanged));
    }
}

#[test]
fn the_last_document_and_one_more() {
    let replica = &mut Replica::fresh();
    let most = DOCUMENTS as u8;
    for id in 0..most {
        let written = write_to(replica, &[id], 1, &hash(0x20), Live(0));
        assert_eq!(written, Ok(Changed), "document {id}");
    }
    refused(6, replica, |r| {
        write_to(r, &[most], 1, &hash(0x20), Live(0))
    });
    refused(6, replica, |r| r.edit(&[most], hash(0x20), Live(0), None));
    // To a document that is there, writes go on.
    let (last, path) = ([most - 1], path(&[0x91, 0x20]));
    assert_eq!(write_to(replica, &last, 2, &path, Live(0)), Ok(Changed));
    assert_eq!(write_to(replica, &last, 2, &path, Live(0)), Ok(Unchanged));
    let held = Held {
        documents: most.into(),
        revisions: u32::from(most) + 1,
    };
    assert_eq!(replica.counts(), held);
    assert_eq!(replica.update_sequence(), Sequence(held.revisions));
}

#[test]
fn the_last_revision_and_one_more() {
    let replica = &mut Replica::fresh();
    let path = long_path(REVISIONS - 2);
    assert_eq!(write_to(replica, b"a", LAST, &path, Live(1)), Ok(Changed));
    assert_eq!(write(replica, 3, &[0x70], Live(1)), Ok(Changed));
    // In all documents together: there is room for one.
    refused(7, replica, |r| write(r, 3, &[0x71, 0x61], Live(1)));
    refused(7, replica, |r| write_to(r, b"b", 9, &path[..32], Live(1)));
    assert_eq!(write(replica, 2, &[0x61], Live(1)), Ok(Changed));
    refused(7, replica, |r| write(r, 2, &[0x62], Live(1)));
    refused(7, replica, |r| write_to(r, b"b", 1, &hash(0x20), Live(1)));
    refused(7, replica, |r| r.edit(b"b", hash(0x20), Live(1), None));
    let parent = Some(revision(2, 0x61));
    refused(7, replica, |r| r.edit(LOT, hash(0x72), Live(1), parent));
    // A parent alone needs no room, and what is known needs none.
    assert_eq!(write(replica, 3, &[0x70, 0x61], Live(1)), Ok(Changed));
    assert_eq!(write(replica, 3, &[0x70, 0x61], Live(1)), Ok(Unchanged));
    let held = Held {
        documents: 2,
        revisions: REVISIONS as u32,
    };
    assert_eq!(replica.counts(), held);
    assert_eq!(replica.update_sequence(), Sequence(4));
}

/// The image with every sequence raised alike, so that so many are left.
fn with_sequences_left(left: u32, mut image: Vec<u8>) -> Vec<u8> {
    let number = |bytes: &[u8]| u32::from_be_bytes(bytes.try_into().expect("4 bytes"));
    let raise = LAST - left - number(&image[8..12]);
    let documents = usize::from(image[3]);
    let own = (0..documents).map(|document| 16 + 44 * document + 36);
    for at in own.chain([8]) {
        let raised = number(&image[at..at + 4]) + raise;
        image[at..at + 4].copy_from_slice(&raised.to_be_bytes());
    }
    image
}

#[test]
fn the_last_sequence() {
    let image = with_sequences_left(0, LOT_IMAGE.to_vec());
    let replica = &mut Replica::from_image(&image).expect("the image is sound");
    assert_eq!(replica.update_sequence(), Sequence(LAST));
    let parent = Some(revision(2, 0x4c));
    refused(8, replica, |r| write(r, 1, &[0x21], Live(9)));
    refused(8, replica, |r| write(r, 3, &[0x06, 0x4c], Live(9)));
    refused(8, replica, |r| write_to(r, b"b", 1, &hash(1), Live(9)));
    refused(8, replica, |r| r.edit(LOT, hash(0x06), Live(9), parent));
    refused(8, replica, |r| r.edit(b"b", hash(0x06), Live(9), None));
    // What adds nothing needs no sequence.
    assert_eq!(write(replica, 2, &[0x4c, 0x20], Live(9)), Ok(Unchanged));
    assert_eq!(write(replica, 1, &[0x20], Deleted), Ok(Unchanged));
    let mut other = Replica::fresh();
    write(&mut other, 1, &[0x20], Live(7)).expect("accepted");
    write(&mut other, 1, &[0x21], Live(9)).expect("accepted");
    let counts = Counts {
        changed: 0,
        unchanged: 1,
        refused: 1,
    };
    assert_eq!(replica.pull(&other, Sequence::START), counts);
    answers(replica, image.len(), &image, Replica::save);
    let line = "seq 4294967295 documents 1 revisions 4\n6c6f74 seq 4294967295 winner 2-4c";
    assert!(report(&image).starts_with(line));
}

#[test]
fn the_sequence_before_the_last() {
    let image = with_sequences_left(1, LOT_IMAGE.to_vec());
    let replica = &mut Replica::from_image(&image).expect("the image is sound");
    assert_eq!(write(replica, 1, &[0x21], Live(9)), Ok(Changed));
    assert_eq!(replica.update_sequence(), Sequence(LAST));
    let changes: Vec<Sequence> = replica
        .changes(Sequence(LAST - 1))
        .map(|(_, change)| change.sequence)
        .collect();
    assert_eq!(changes, [Sequence(LAST)]);
    refused(8, replica, |r| write(r, 1, &[0x22], Live(9)));
}

#[test]
fn a_parent_alone_needs_a_sequence() {
    let mut apart = Replica::fresh();
    write(&mut apart, 3, &[0x70], Live(1)).expect("accepted");
    write(&mut apart, 2, &[0x61], Live(2)).expect("accepted");
    let image = with_sequences_left(0, apart.image());
    let replica = &mut Replica::from_image(&image).expect("the image is sound");
    refused(8, replica, |r| write(r, 3, &[0x70, 0x61], Live(1)));
    assert_eq!(replica.image(), image);
}

#[test]
fn the_last_number() {
    let replica = &mut Replica::fresh();
    assert_eq!(write(replica, LAST, &[0x20, 0x10], Live(5)), Ok(Changed));
    let live = leaf(LAST, 0x20, Live(5));
    shows(replica, 1, &[live], live);
    let parent = Some(revision(LAST, 0x20));
    refused(11, replica, |r| r.edit(LOT, hash(0x21), Live(6), parent));
    refused(11, replica, |r| r.edit(LOT, hash(0x21), Deleted, parent));
    refused(11, replica, |r| r.edit(LOT, hash(0x20), Live(6), parent));
    // Below it an edit reaches the last number.
    assert_eq!(write(replica, LAST - 1, &[0x11], Live(5)), Ok(Changed));
    let below = Some(revision(LAST - 1, 0x11));
    refused(10, replica, |r| r.edit(LOT, hash(0x20), Live(6), below));
    let number = replica.edit(LOT, hash(0x22), Live(6), below);
    assert_eq!(number, Ok(RevisionNumber(LAST)));
    // A deleted winner that would become the parent.
    let replica = &mut Replica::fresh();
    assert_eq!(write(replica, LAST, &[0x20], Deleted), Ok(Changed));
    refused(11, replica, |r| r.edit(LOT, hash(0x21), Live(6), None));
}

#[test]
fn edits() {
    let replica = &mut Replica::fresh();
    let (first, second) = (Some(revision(1, 0x20)), Some(revision(2, 0x91)));
    refused(9, replica, |r| r.edit(LOT, hash(0x20), Deleted, None));
    refused(9, replica, |r| r.edit(LOT, hash(0x91), Live(8), first));
    let steps = [
        // The hash, the content and the parent of an edit; what leaves the same; the number.
        (0x20, Live(7), None, &[0x20][..], 1),
        (0x91, Deleted, first, &[0x91, 0x20], 2),
        // The winner is a deletion, which becomes the parent.
        (0x20, Live(0), None, &[0x20, 0x91], 3),
        (0x05, Live(9), Some(revision(3, 0x20)), &[0x05, 0x20], 4),
    ];
    for (new, content, parent, first_bytes, number) in steps {
        let mut written = replica.clone();
        let answer = write(&mut written, number, first_bytes, content);
        assert_eq!(answer, Ok(Changed));
        let answer = replica.edit(LOT, hash(new), content, parent);
        assert_eq!(answer, Ok(RevisionNumber(number)));
        assert!(*replica == written, "an edit leaves what its write leaves");
    }
    // A live winner, a parent with a child, and number 0.
    refused(9, replica, |r| r.edit(LOT, hash(0x06), Live(1), None));
    refused(9, replica, |r| r.edit(LOT, hash(0x06), Live(1), second));
    let none = Some(revision(0, 0x20));
    refused(9, replica, |r| r.edit(LOT, hash(0x06), Live(1), none));
}

#[test]
fn refused_images_leave_the_replica() {
    let images: [(&[u8], u32, u32); 7] = [
        (include_bytes!("../../../examples/refused-20.image"), 20, 0),
        (include_bytes!("../../../examples/refused-21.image"), 21, 0),
        (include_bytes!("../../../examples/refused-22.image"), 22, 0),
        (include_bytes!("../../../examples/refused-23.image"), 23, 2),
        (include_bytes!("../../../examples/refused-24.image"), 24, 3),
        (include_bytes!("../../../examples/refused-25.image"), 25, 3),
        (include_bytes!("../../../examples/refused-26.image"), 26, 4),
    ];
    for (image, number, place) in images {
        let mut replica = lot();
        let refusal = replica.load(image).expect_err("the image is damaged");
        assert_eq!((refusal.number(), refusal.place()), (number, place));
        assert!(replica == lot(), "refusal {number} altered the replica");
        assert_eq!(report(image), format!("refused {number} at {place}\n"));
    }
}

// Shortcuts that look right

#[test]
fn a_parent_of_zeros_is_known() {
    let replica = &mut Replica::fresh();
    assert_eq!(write(replica, 2, &[0x91], Live(8)), Ok(Changed));
    assert_eq!(write(replica, 2, &[0x91, 0x00], Live(8)), Ok(Changed));
    let live = leaf(2, 0x91, Live(8));
    shows(replica, 2, &[live], live);
    answers(replica, 2, &path(&[0x91, 0x00]), |replica, out| {
        replica.path_into(LOT, revision(2, 0x91), out)
    });
    refused(4, replica, |r| write(r, 2, &[0x91, 0x20], Live(8)));
    assert!(Replica::from_image(&replica.image()).as_ref() == Ok(replica));
}

#[test]
fn a_crossed_parent_is_seen_wherever_it_is() {
    // 3-05 has the parent 2-91; 2-4c and 1-20, below it in these paths, are known and fit.
    let replica = &mut lot();
    refused(4, replica, |r| write(r, 3, &[0x05, 0x4c, 0x20], Deleted));
    refused(4, replica, |r| {
        write(r, 4, &[0x06, 0x05, 0x4c, 0x20], Live(1))
    });
    refused(4, replica, |r| write(r, 4, &[0x06, 0x05, 0x4c], Live(1)));
}

#[test]
fn hashes_compare_first_byte_first() {
    let mut low = [0xff; 16];
    low[0] = 0x01;
    let mut high = [0x00; 16];
    high[0] = 0x02;
    let mut higher = high;
    higher[15] = 0x01;
    let replica = &mut Replica::fresh();
    for (hash, label) in [(high, 1), (higher, 2), (low, 3)] {
        assert_eq!(write_to(replica, LOT, 5, &hash, Live(label)), Ok(Changed));
    }
    let leaves = replica.leaves(LOT).expect("the document is there");
    let hashes: Vec<Hash> = leaves.iter().map(|leaf| leaf.revision.hash).collect();
    assert_eq!(hashes, [higher, high, low]);
    let winner = replica.winner(LOT).expect("the document is there");
    assert_eq!(winner.revision, Revision::new(5, higher));
}

#[test]
fn a_deleted_leaf_may_be_edited() {
    let replica = &mut lot();
    let deleted = Some(revision(3, 0x05));
    let number = replica.edit(LOT, hash(0x06), Live(0), deleted);
    assert_eq!(number, Ok(RevisionNumber(4)));
    let (live_06, live_4c) = (leaf(4, 0x06, Live(0)), leaf(2, 0x4c, Live(9)));
    shows(replica, 5, &[live_06, live_4c], live_06);
    // Label 0 is an ordinary label, and no deletion.
    let path = [0x06, 0x05, 0x91, 0x20];
    assert_eq!(write(replica, 4, &path, Live(0)), Ok(Unchanged));
    refused(5, replica, |r| write(r, 4, &path, Deleted));
}

// The order of refusals

/// No room for a document or a revision, and no sequence left. In "lot" 2-4c has the parent 1-20, and
/// 3-70, 2-91, 1-21 and the last number's ff stand apart.
fn brim() -> Replica {
    let mut replica = Replica::fresh();
    for (number, first_bytes) in [
        (2, &[0x4c, 0x20][..]),
        (3, &[0x70]),
        (2, &[0x91]),
        (1, &[0x21]),
        (LAST, &[0xff]),
    ] {
        write(&mut replica, number, first_bytes, Live(9)).expect("accepted");
    }
    let last = DOCUMENTS as u8 - 2;
    for id in 0..last {
        write_to(&mut replica, &[id], 1, &hash(0x20), Live(0)).expect("accepted");
    }
    let rest = long_path(REVISIONS - replica.counts().revisions as usize);
    write_to(&mut replica, &[last], LAST, &rest, Live(0)).expect("accepted");
    let held = Held {
        documents: DOCUMENTS as u32,
        revisions: REVISIONS as u32,
    };
    assert_eq!(replica.counts(), held);
    let image = with_sequences_left(0, replica.image());
    Replica::from_image(&image).expect("the image is sound")
}

/// A refusal, which others hold too, and the id, the number, the path and the content.
type BadWrite<'a> = (u32, &'a str, &'a [u8], u32, &'a [u8], Content);

#[test]
fn the_first_of_several_refusals_of_a_write() {
    let replica = &mut brim();
    let (long, torn) = (long_path(PATH_HASHES + 1), [0x20; 17]);
    let cases: [BadWrite; 14] = [
        (1, "2, 6", b"", 1, &[], Live(9)),
        (1, "2, 3, 6", b"", 0, &torn, Live(9)),
        (1, "3, 6, 7, 8", b"", 0, &path(&[0x20]), Live(9)),
        (1, "6, 7, 8", &[0; 33], 1, &path(&[0x20]), Live(9)),
        (2, "3, 6", b"new", 0, &torn, Live(9)),
        (2, "3, 7, 8", LOT, 5, &long, Live(9)),
        (3, "4, 7, 8", LOT, 2, &path(&[0x4c, 0x33, 0x01]), Live(9)),
        (3, "5", LOT, 2, &path(&[0x4c, 0x20, 0x01]), Live(10)),
        (3, "6, 7, 8", b"new", 0, &path(&[0x20]), Live(9)),
        (4, "5, 7, 8", LOT, 2, &path(&[0x4c, 0x33]), Live(10)),
        (5, "7, 8", LOT, 3, &path(&[0x70, 0x61]), Live(10)),
        (6, "7, 8", b"new", 1, &path(&[0x20]), Live(9)),
        (7, "8", LOT, 1, &path(&[0x22]), Live(9)),
        (8, "nothing", LOT, 3, &path(&[0x70, 0x91]), Live(9)),
    ];
    for (number, also, id, newest, path, content) in cases {
        println!("{number} before {also}");
        refused(number, replica, |r| write_to(r, id, newest, path, content));
    }
}

/// A refusal, which others hold too, and the id, the new hash, the content and the parent.
type BadEdit<'a> = (u32, &'a str, &'a [u8], u8, Content, Option<Revision>);

#[test]
fn the_first_of_several_refusals_of_an_edit() {
    let replica = &mut brim();
    let cases: [BadEdit; 12] = [
        (1, "9, 6, 7, 8", b"", 0x20, Deleted, None),
        (1, "9", b"", 0x20, Live(9), Some(revision(1, 0x21))),
        (1, "6, 7, 8", &[0; 33], 0x20, Live(9), None),
        (9, "6, 7, 8", b"new", 0x20, Deleted, None),
        (9, "6", b"new", 0x20, Live(9), Some(revision(1, 0x21))),
        (9, "7, 8", LOT, 0x44, Live(9), None),
        (9, "11", LOT, 0x44, Live(9), Some(revision(LAST, 0xfe))),
        (9, "10", LOT, 0x4c, Live(9), Some(revision(1, 0x20))),
        (11, "7, 8", LOT, 0x44, Live(9), Some(revision(LAST, 0xff))),
        (10, "8", LOT, 0x91, Live(9), Some(revision(1, 0x21))),
        (6, "7, 8", b"new", 0x20, Live(9), None),
        (7, "8", LOT, 0x44, Live(9), Some(revision(3, 0x70))),
    ];
    for (number, also, id, new, content, parent) in cases {
        println!("{number} before {also}");
        refused(number, replica, |r| r.edit(id, hash(new), content, parent));
    }
}

#[test]
fn the_first_of_several_refusals_of_a_read() {
    let replica = &lot();
    let (known, unknown) = (revision(1, 0x20), revision(2, 0x20));
    for (number, id, asked) in [(1, &b""[..], unknown), (12, b"new", unknown)] {
        read_refused(number, replica, 0, |r, out| r.winner_into(id, out));
        read_refused(number, replica, 0, |r, out| r.leaves_into(id, out));
        read_refused(number, replica, 0, |r, out| r.path_into(id, asked, out));
    }
    read_refused(13, replica, 0, |r, out| r.path_into(LOT, unknown, out));
    read_refused(14, replica, 0, |r, out| r.path_into(LOT, known, out));
    let asked = [known.to_asked(), unknown.to_asked()].concat();
    let torn = &asked[1..];
    read_refused(1, replica, 0, |r, out| r.missing_into(b"", torn, out));
    for id in [LOT, b"new"] {
        read_refused(15, replica, 0, |r, out| r.missing_into(id, torn, out));
        read_refused(14, replica, 1, |r, out| r.missing_into(id, &asked, out));
    }
}

/// Several threads may read one replica at once, and all get the same answers.
#[test]
fn several_threads_read_one_replica() {
    let replica = Replica::from_image(LOT_IMAGE).unwrap();
    std::thread::scope(|scope| {
        for _ in 0..4 {
            scope.spawn(|| {
                for _ in 0..200 {
                    assert_eq!(replica.image(), LOT_IMAGE);
                    assert_eq!(replica.winner(LOT).unwrap().revision, revision(2, 0x4c));
                    assert_eq!(replica.leaves(LOT).unwrap().len(), 2);
                    assert_eq!(replica.path(LOT, revision(3, 0x05)).unwrap().len(), 3);
                }
            });
        }
    });
}

/// The deepest calls run on a thread that has no more stack than the crate says.
#[test]
fn the_stack_suffices() {
    let work = || {
        let mut chain = Replica::fresh();
        let hashes = long_path(PATH_HASHES);
        let written = write_to(&mut chain, LOT, LAST, &hashes, Live(1));
        assert_eq!(written, Ok(Changed));
        let newest = Revision::new(LAST, *hashes.first_chunk().unwrap());
        assert_eq!(chain.path(LOT, newest).unwrap().len(), PATH_HASHES);
        let mut other = Replica::fresh();
        assert_eq!(other.pull(&chain, Sequence::START).changed, 1);
        assert_eq!(report(&other.image()), report(&chain.image()));
        assert!(Replica::from_storage(chain.storage()) == Some(other));
        assert_eq!(chain.leaves(LOT).unwrap().len(), 1);
        let mut taken = Replica::fresh();
        assert_eq!(taken.take_in(&chain.put_out(LOT).unwrap()), Ok(Changed));
        assert_eq!(taken, chain);
    };
    let thread = std::thread::Builder::new().stack_size(STACK_BYTES);
    thread.spawn(work).unwrap().join().unwrap();
}
