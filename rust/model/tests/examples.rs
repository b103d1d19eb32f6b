//! The examples of the document: the fourteen proved ones, the ones that are run and compared only,
//! and the listing of the check program.

use refile_model::images::{self, lot, report, save};
use refile_model::layout::{image_bytes, Image, IMAGE_MOST};
use refile_model::model::{hex, Model, REPORT_MOST};
use refile_model::offers::{hash, path};
use refile_model::sizes::{DOCUMENTS, HASH_BYTES, LEAF_BYTES, PATH_HASHES, REVISIONS};
use refile_model::{Content, Refusal, Replica};
use Content::{Deleted, Live};

const LOT: &[u8] = b"lot";

/// Writes to document "lot" a path whose hashes are given by their first bytes.
fn write(
    replica: &mut Model,
    number: u32,
    first_bytes: &[u8],
    content: Content,
) -> Result<bool, Refusal> {
    replica.write(LOT, number, &path(first_bytes), content)
}

fn refused<T>(number: u32) -> Result<T, Refusal> {
    Err(Refusal { number, place: 0 })
}

fn sequence(replica: &Model) -> u32 {
    replica.update_sequence()
}

/// A leaf, by number and first byte of the hash: "2-91".
fn short(leaf: &[u8]) -> String {
    let number = u32::from_be_bytes(leaf[..4].try_into().unwrap());
    assert_eq!(leaf[5..20], [0; 15], "the rest of the hash is zeros");
    format!("{number}-{:02x}", leaf[4])
}

fn leaves(replica: &Model) -> Vec<String> {
    let mut out = [0; LEAF_BYTES * 8];
    let count = replica.leaves(LOT, &mut out).unwrap() as usize;
    out.chunks(LEAF_BYTES).take(count).map(short).collect()
}

fn winner(replica: &Model) -> String {
    let mut out = [0; 29];
    assert_eq!(replica.winner(LOT, &mut out), Ok(29));
    short(&out)
}

#[test]
fn cases_1_to_8() {
    let replica = &mut Model::fresh();
    // 1: 1-[20] live 7: changed, seq 1
    assert_eq!(write(replica, 1, &[0x20], Live(7)), Ok(true));
    assert_eq!(sequence(replica), 1);
    // 2: 2-[91,20] live 8: one leaf, 2-91
    assert_eq!(write(replica, 2, &[0x91, 0x20], Live(8)), Ok(true));
    assert_eq!(leaves(replica), ["2-91"]);
    // 3: 2-[4c,20] live 9: two leaves, winner 2-91, seq 3
    assert_eq!(write(replica, 2, &[0x4c, 0x20], Live(9)), Ok(true));
    assert_eq!(leaves(replica), ["2-91", "2-4c"]);
    assert_eq!(winner(replica), "2-91");
    assert_eq!(sequence(replica), 3);
    // 4: case 3 again: unchanged, seq 3
    assert_eq!(write(replica, 2, &[0x4c, 0x20], Live(9)), Ok(false));
    assert_eq!(sequence(replica), 3);
    // 5: 3-[05,91,20] deleted: winner 2-4c, seq 4
    assert_eq!(write(replica, 3, &[0x05, 0x91, 0x20], Deleted), Ok(true));
    assert_eq!(leaves(replica), ["3-05", "2-4c"]);
    assert_eq!(winner(replica), "2-4c");
    assert_eq!(sequence(replica), 4);
    assert_eq!(replica.held(), lot().held());
    // 6: 2-[4c,33] live 9: 4
    assert_eq!(write(replica, 2, &[0x4c, 0x33], Live(9)), refused(4));
    // 7: 2-[4c,20] live 10: 5
    assert_eq!(write(replica, 2, &[0x4c, 0x20], Live(10)), refused(5));
    // 8: 1-[20] deleted: unchanged
    assert_eq!(write(replica, 1, &[0x20], Deleted), Ok(false));
    assert_eq!(replica.held(), lot().held());
}

#[test]
fn cases_9_and_10() {
    let replica = &mut Model::fresh();
    // 9: 3-[70] live 1, then 2-[61] live 2: two leaves
    assert_eq!(write(replica, 3, &[0x70], Live(1)), Ok(true));
    assert_eq!(write(replica, 2, &[0x61], Live(2)), Ok(true));
    assert_eq!(leaves(replica), ["3-70", "2-61"]);
    // 10: then 3-[70,61] live 1: changed, one leaf 3-70, seq 3
    assert_eq!(write(replica, 3, &[0x70, 0x61], Live(1)), Ok(true));
    assert_eq!(leaves(replica), ["3-70"]);
    assert_eq!(sequence(replica), 3);
}

#[test]
fn case_11() {
    let replica = &mut Model::fresh();
    assert_eq!(write(replica, 9, &[0xaa], Live(1)), Ok(true));
    assert_eq!(write(replica, 10, &[0x01], Live(1)), Ok(true));
    assert_eq!(winner(replica), "10-01");
}

#[test]
fn case_12() {
    let replica = &mut Model::fresh();
    assert_eq!(write(replica, 2, &[0x10], Deleted), Ok(true));
    assert_eq!(write(replica, 2, &[0x20], Deleted), Ok(true));
    assert_eq!(winner(replica), "2-20");
}

#[test]
fn case_13() {
    let replica = &mut Model::fresh();
    let given = write(replica, 2, &[0x0a, 0x0b, 0x0c], Live(1));
    assert_eq!(given, refused(3));
    assert_eq!(write(replica, 0, &[0x0a], Live(1)), refused(3));
    assert_eq!(replica.held(), Model::fresh().held());
}

#[test]
fn case_14() {
    assert_eq!(
        hex(&save(&Model::fresh())),
        "00010000000000000000000000000010"
    );
}

#[test]
fn the_listing_of_the_check_program() {
    assert_eq!(
        report(&save(&lot())),
        "seq 4 documents 1 revisions 4\n\
         6c6f74 seq 4 winner 2-4c000000000000000000000000000000 leaves 2 conflicts 1\n"
    );
    assert_eq!(report(&[]), "refused 20 at 0\n");
}

/// The rules' own numbers, for a room of 32 documents, 512 revisions and 512 hashes. Whatever else
/// is about the room takes it as it is.
#[test]
fn the_room() {
    assert_eq!((DOCUMENTS, REVISIONS, PATH_HASHES), (32, 512, 512));
    assert_eq!(IMAGE_MOST, 26_000);
    assert_eq!(REPORT_MOST, 5_497);
}

/// So many hashes, all the same.
fn long_path(hashes: usize) -> Vec<u8> {
    [0x11; HASH_BYTES].repeat(hashes)
}

#[test]
fn a_path_of_the_most_hashes_and_one_more() {
    let most = PATH_HASHES as u32;
    let (longest, longer) = (long_path(PATH_HASHES), long_path(PATH_HASHES + 1));
    let replica = &mut Model::fresh();
    assert_eq!(replica.write(LOT, most + 1, &longer, Live(1)), refused(2));
    assert_eq!(replica.write(LOT, most, &longest, Live(1)), Ok(true));
    assert_eq!(replica.counts(), (1, most));
    let mut out = vec![0; longest.len()];
    let read = replica.path(LOT, most, [0x11; HASH_BYTES], &mut out);
    assert_eq!(read, Ok(most));
    assert_eq!(out, longest);
}

#[test]
fn the_last_document_and_one_more() {
    let replica = &mut Model::fresh();
    let most = DOCUMENTS as u8;
    for id in 0..most {
        let written = replica.write(&[id], 1, &hash(1), Live(0));
        assert_eq!(written, Ok(true));
    }
    assert_eq!(replica.write(&[most], 1, &hash(1), Live(0)), refused(6));
    assert_eq!(replica.edit(&[most], hash(1), Live(0), None), refused(6));
    assert_eq!(replica.write(&[most - 1], 1, &hash(2), Live(0)), Ok(true));
    assert_eq!(replica.counts(), (most.into(), u32::from(most) + 1));
}

#[test]
fn the_last_revision_and_one_more() {
    let replica = &mut Model::fresh();
    for number in 1..REVISIONS as u32 {
        let written = replica.write(LOT, number, &long_path(1), Live(1));
        assert_eq!(written, Ok(true));
    }
    assert_eq!(write(replica, 1, &[0x22, 0x23], Live(1)), refused(3));
    assert_eq!(write(replica, 2, &[0x22, 0x23], Live(1)), refused(7));
    assert_eq!(write(replica, 2, &[0x22], Live(1)), Ok(true));
    assert_eq!(write(replica, 3, &[0x22], Live(1)), refused(7));
    let on = Some((2, hash(0x22)));
    assert_eq!(replica.edit(LOT, hash(0x33), Live(1), on), refused(7));
    assert_eq!(save(replica).len(), image_bytes(1, REVISIONS));
}

#[test]
fn the_last_sequence() {
    let mut image = Image::read(&save(&lot())).unwrap();
    image.head.sequence = u32::MAX;
    image.entries[0].sequence = u32::MAX;
    let replica = &mut Model::fresh();
    assert_eq!(replica.load(&image.bytes()), Ok(()));
    assert_eq!(sequence(replica), u32::MAX);
    assert_eq!(write(replica, 2, &[0x4c, 0x20], Live(9)), Ok(false));
    assert_eq!(write(replica, 1, &[0x21], Live(9)), refused(8));
    let on = Some((2, hash(0x4c)));
    assert_eq!(replica.edit(LOT, hash(0x06), Live(1), on), refused(8));
    assert_eq!(save(replica), image.bytes());
    assert_eq!(
        report(&image.bytes()).lines().next(),
        Some("seq 4294967295 documents 1 revisions 4")
    );
}

type Call<'a> = &'a dyn Fn(&mut [u8]) -> Result<u32, Refusal>;

#[test]
fn buffers_one_byte_short() {
    let replica = lot();
    let asked = [&1_u32.to_be_bytes()[..], &hash(0x20)].concat();
    let image = save(&replica);
    let exact: [(usize, Call); 7] = [
        (image.len(), &|out| replica.save(out)),
        (29, &|out| replica.winner(LOT, out)),
        (58, &|out| replica.leaves(LOT, out)),
        (48, &|out| replica.path(LOT, 3, hash(0x05), out)),
        (1, &|out| replica.missing(LOT, &asked, out)),
        (3, &|out| {
            replica.changes(3, out).map(|change| change.unwrap().seq)
        }),
        (report(&image).len(), &|out| Model::report(&image, out)),
    ];
    for (bytes, call) in exact {
        let out = &mut vec![0xee; bytes];
        assert_eq!(call(&mut out[1..]), refused(14));
        assert_eq!(*out, vec![0xee; bytes], "a refusal leaves the buffer");
        assert!(call(out).is_ok());
    }
}

#[test]
fn no_more_and_an_empty_list_fit_every_buffer() {
    assert_eq!(lot().changes(4, &mut []), Ok(None));
    assert_eq!(lot().missing(LOT, &[], &mut []), Ok(0));
}

#[test]
fn edits() {
    let replica = &mut Model::fresh();
    let (first, second) = (hash(0x20), hash(0x91));
    assert_eq!(replica.edit(LOT, first, Deleted, None), refused(9));
    assert_eq!(
        replica.edit(LOT, first, Live(1), Some((0, first))),
        refused(9)
    );
    assert_eq!(replica.edit(LOT, first, Live(1), None), Ok(1));
    assert_eq!(replica.edit(LOT, second, Live(2), None), refused(9));
    assert_eq!(replica.edit(LOT, second, Deleted, Some((1, first))), Ok(2));
    assert_eq!(
        replica.edit(LOT, second, Live(2), Some((1, first))),
        refused(9)
    );
    // The winner is a deletion, so it becomes the parent.
    assert_eq!(replica.edit(LOT, first, Live(3), None), Ok(3));
    assert_eq!(leaves(replica), ["3-20"]);
    assert_eq!(sequence(replica), 3);
}

#[test]
fn an_edit_on_the_last_number() {
    let replica = &mut Model::fresh();
    let last = Some((u32::MAX, hash(0x20)));
    assert_eq!(write(replica, u32::MAX, &[0x20], Deleted), Ok(true));
    assert_eq!(replica.edit(LOT, hash(0x20), Live(1), last), refused(11));
    assert_eq!(replica.edit(LOT, hash(0x21), Live(1), None), refused(11));
}

#[test]
fn the_traps_by_name() {
    let full = format!("seq {DOCUMENTS} documents {DOCUMENTS} revisions {REVISIONS}");
    let expected: [(&str, &str); 20] = [
        ("empty", "refused 20 at 0"),
        ("one byte", "refused 20 at 0"),
        ("fifteen bytes", "refused 20 at 0"),
        ("fresh", "seq 0 documents 0 revisions 0"),
        ("ids that fill alike", "seq 2 documents 2 revisions 2"),
        ("ids that fill alike, reversed", "refused 23 at 1"),
        ("the same id twice", "refused 23 at 1"),
        ("an id and its prefix", "seq 2 documents 2 revisions 2"),
        ("an id before its prefix", "refused 23 at 1"),
        ("a known parent of zeros", "seq 1 documents 1 revisions 2"),
        ("a parent of zeros unknown", "refused 26 at 0"),
        ("a parent of zeros absent", "refused 26 at 0"),
        ("label 0 on a live row", "seq 1 documents 1 revisions 1"),
        ("a label on a deletion", "refused 25 at 0"),
        ("the last number", "seq 1 documents 1 revisions 2"),
        (
            "the last sequence",
            "seq 4294967295 documents 1 revisions 1",
        ),
        ("a bad row in the second document", "refused 25 at 1"),
        ("full", &full),
        ("full and a byte more", "refused 22 at 0"),
        ("far too long", "refused 22 at 0"),
    ];
    let traps = images::traps();
    assert_eq!(traps.len(), expected.len());
    for ((name, image), (expected_name, first_line)) in traps.into_iter().zip(expected) {
        assert_eq!(name, expected_name);
        assert_eq!(report(&image).lines().next(), Some(first_line), "{name}");
    }
}
