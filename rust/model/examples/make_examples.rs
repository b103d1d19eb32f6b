//! Makes the images of the folder `examples/` at the top of the repository, each with the report
//! that the check program must print of it, and the lines of dumps. To make them again, at the top:
//!
//! ```text
//! cargo run --offline --manifest-path rust/Cargo.toml -p refile-model --example make_examples -- examples
//! ```
//!
//! Nothing here is drawn by chance, so the files come out the same every time.

use refile_model::held::Hash;
use refile_model::images::{lot, report, save};
use refile_model::layout::{image_bytes, Image, IMAGE_MOST};
use refile_model::model::Model;
use refile_model::offers::{hash, path};
use refile_model::random::Random;
use refile_model::sizes::{DOCUMENTS, HASH_BYTES, ID_BYTES, REVISIONS};
use refile_model::texts::spelled;
use refile_model::{Content, Counts, Replica};
use std::path::Path;
use std::{env, fs, io};
use Content::{Deleted, Live};

/// An example's name, its bytes, and how its report begins.
struct Example {
    name: String,
    image: Vec<u8>,
    begins: String,
}

fn main() -> io::Result<()> {
    let folder = env::args_os().nth(1).expect("name the folder to write to");
    let mut examples = sound_examples();
    examples.extend(damaged_examples());
    for example in examples {
        let report = report(&example.image);
        assert!(report.starts_with(&example.begins), "{report}");
        let file = |kind: &str| Path::new(&folder).join(format!("{}.{kind}", example.name));
        fs::write(file("image"), &example.image)?;
        fs::write(file("report"), report)?;
    }
    for (name, lines) in lines() {
        fs::write(Path::new(&folder).join(format!("{name}.lines")), lines)?;
    }
    Ok(())
}

fn sound_examples() -> Vec<Example> {
    let (north_after, south_after) = story();
    let most = u32::MAX;
    let full_begins = format!("seq {most} documents {DOCUMENTS} revisions {REVISIONS}\n");
    let sound = [
        (
            "lot",
            save(&lot()),
            "seq 4 documents 1 revisions 4\n\
             6c6f74 seq 4 winner 2-4c000000000000000000000000000000 leaves 2 conflicts 1\n",
        ),
        (
            "fresh",
            save(&Model::fresh()),
            "seq 0 documents 0 revisions 0\n",
        ),
        ("full", full(), &full_begins),
        ("north", save(&north()), "seq 5 documents 4 revisions 7\n"),
        ("south", save(&south()), "seq 5 documents 4 revisions 7\n"),
        (
            "north-after",
            save(&north_after),
            "seq 8 documents 5 revisions 10\n",
        ),
        (
            "south-after",
            save(&south_after),
            "seq 8 documents 5 revisions 10\n",
        ),
    ];
    let sound = sound.into_iter().map(|(name, image, begins)| Example {
        name: name.to_string(),
        image,
        begins: begins.to_string(),
    });
    sound.collect()
}

/// Writes a path, its hashes given by their first bytes, that must be a change.
fn give(replica: &mut Model, id: &[u8], number: u32, first_bytes: &[u8], content: Content) {
    let written = replica.write(id, number, &path(first_bytes), content);
    assert_eq!(written, Ok(true), "{number}-{first_bytes:x?}");
}

/// North's store. Rows: 0 and 1 are the invoice 1041's, 2 is the invoice 1042's, 3 to 5 are the
/// ledger's and 6 is the note's.
fn north() -> Model {
    let mut north = Model::fresh();
    give(&mut north, b"invoice-1041", 2, &[0x91, 0x20], Live(800));
    give(&mut north, b"invoice-1042", 1, &[0x33], Live(5));
    give(&mut north, b"ledger", 2, &[0x4c, 0x31], Live(9));
    give(&mut north, b"ledger", 2, &[0xb7, 0x31], Live(10));
    give(&mut north, b"note", 3, &[0x05], Deleted);
    north
}

/// South's store. Its invoice 1041 has North's revision with another label.
fn south() -> Model {
    let mut south = Model::fresh();
    give(&mut south, b"invoice-1041", 2, &[0x91, 0x20], Live(999));
    give(&mut south, b"ledger", 2, &[0x4c, 0x31], Live(9));
    give(&mut south, b"invoice-1042", 1, &[0x33], Live(5));
    give(&mut south, b"invoice-1042", 2, &[0x44, 0x33], Live(6));
    give(&mut south, b"invoice-1043", 1, &[0x55], Live(11));
    south
}

/// What the manual tells of the two offices: an old body that is offered again is dropped, an offer
/// each way is refused, and one new revision on the disputed one lets both agree. Gives North and
/// South as they are in the end.
fn story() -> (Model, Model) {
    let (mut north, mut south) = (north(), south());
    let former = south.clone();
    let old = south.write(b"invoice-1042", 1, &hash(0x33), Live(5));
    assert_eq!(old, Ok(false));
    assert_eq!(south.held(), former.held());
    let counts = |changed, unchanged, refused| Counts {
        changed,
        unchanged,
        refused,
    };
    assert_eq!(south.pull(&north, 0), counts(2, 2, 1));
    assert_eq!(north.pull(&south, 0), counts(2, 3, 1));
    let disputed = Some((2, hash(0x91)));
    let edited = north.edit(b"invoice-1041", hash(0x62), Live(1041), disputed);
    assert_eq!(edited, Ok(3));
    assert_eq!(south.pull(&north, 0), counts(1, 5, 0));
    assert_eq!(north.pull(&south, 0), counts(0, 6, 0));
    let held = |office: &Model| office.held().without_sequences();
    assert_eq!(held(&north), held(&south));
    (north, south)
}

/// A store with every kind of tree and no room for anything more, be it a document or a revision,
/// and the update sequence at its end.
fn full() -> Vec<u8> {
    let mut store = Filling::new();
    store.odd_ids();
    store.odd_numbers();
    store.odd_hashes();
    store.conflicts();
    store.deletions();
    store.unknown_parents();
    store.the_rest();
    let mut image = Image::read(&save(&store.replica)).expect("a sound image");
    let raise = u32::MAX - image.head.sequence;
    image.head.sequence += raise;
    for entry in &mut image.entries {
        entry.sequence += raise;
    }
    let image = image.bytes();
    assert_eq!(image.len(), IMAGE_MOST);
    image
}

/// A store that is filled, with hashes that look like any.
struct Filling {
    replica: Model,
    hashes: Random,
}

impl Filling {
    fn new() -> Self {
        Filling {
            replica: Model::fresh(),
            hashes: Random::new(1041),
        }
    }

    fn hash(&mut self) -> Hash {
        let bytes = self.hashes.bytes(HASH_BYTES);
        bytes.try_into().expect("as many bytes")
    }

    /// So many new hashes, newest first.
    fn run(&mut self, count: u32) -> Vec<Hash> {
        (0..count).map(|_| self.hash()).collect()
    }

    fn give(&mut self, id: &[u8], number: u32, hashes: &[Hash], content: Content) {
        let written = self.replica.write(id, number, &hashes.concat(), content);
        assert_eq!(written, Ok(true), "{id:x?} {number}");
    }

    /// Revisions in a row from the oldest number to the newest; their hashes, oldest first.
    fn trunk(&mut self, id: &[u8], oldest: u32, newest: u32, content: Content) -> Vec<Hash> {
        let mut hashes = self.run(newest - oldest + 1);
        self.give(id, newest, &hashes, content);
        hashes.reverse();
        hashes
    }

    /// A new revision on a known one.
    fn child(&mut self, id: &[u8], parent: (u32, Hash), content: Content) -> Hash {
        let new = self.hash();
        self.give(id, parent.0 + 1, &[new, parent.1], content);
        new
    }

    /// Ids that fill to the same bytes, a prefix of another, the shortest, the longest, and bytes
    /// that are no letters.
    fn odd_ids(&mut self) {
        self.trunk(b"a\0", 1, 2, Live(1));
        self.trunk(b"a", 1, 1, Live(2));
        self.trunk(b"ab", 1, 3, Live(3));
        self.trunk(b"\0", 1, 1, Live(4));
        self.trunk(&[0xff; ID_BYTES], 1, 4, Live(5));
        self.trunk(b"an id that has thirty-two bytes.", 1, 2, Live(6));
    }

    /// The last revision number, with and without a known parent, and labels at both ends.
    fn odd_numbers(&mut self) {
        let last = u32::MAX;
        let trunk = self.trunk(b"last number", last - 9, last, Live(7));
        self.child(b"last number", (last - 1, trunk[8]), Live(8));
        self.trunk(b"last number alone", last, last, Deleted);
        self.trunk(b"label 0", 1, 2, Live(0));
        self.trunk(b"label most", 1, 2, Live(u64::MAX));
        self.trunk(b"nine and ten", 9, 9, Live(9));
        self.trunk(b"nine and ten", 10, 10, Live(10));
    }

    /// A known parent whose hash is all zeros, a leaf whose hash is, and one hash under three
    /// numbers.
    fn odd_hashes(&mut self) {
        let newest = self.hash();
        self.give(b"parent of zeros", 2, &[newest, [0; 16]], Live(11));
        self.give(b"zeros, parent unknown", 5, &[[0; 16]], Live(12));
        let same = self.hash();
        self.give(b"same hash", 3, &[same; 3], Live(13));
    }

    /// Many leaves on one revision, and forks all along a trunk.
    fn conflicts(&mut self) {
        let root = self.trunk(b"wide", 1, 1, Live(14))[0];
        for label in 0..40 {
            self.child(b"wide", (1, root), Live(label));
        }
        let trunk = self.trunk(b"comb", 1, 24, Live(15));
        for (number, &parent) in (1..24).zip(&trunk) {
            let content = if number % 3 == 0 {
                Deleted
            } else {
                Live(number.into())
            };
            self.child(b"comb", (number, parent), content);
        }
    }

    /// A document whose leaves are all deleted, a deleted leaf above a live one, and a document
    /// that was deleted and made again.
    fn deletions(&mut self) {
        let root = self.trunk(b"all deleted", 1, 1, Live(16))[0];
        for _ in 0..5 {
            self.child(b"all deleted", (1, root), Deleted);
        }
        let trunk = self.trunk(b"deleted above live", 1, 4, Deleted);
        self.child(b"deleted above live", (2, trunk[1]), Live(17));
        let trunk = self.trunk(b"made again", 1, 3, Deleted);
        self.child(b"made again", (3, trunk[2]), Live(18));
    }

    /// Trees that begin above number 1, several in one document, and a parent learnt late.
    fn unknown_parents(&mut self) {
        self.trunk(b"pieces", 3, 6, Live(19));
        self.trunk(b"pieces", 4, 4, Live(20));
        self.trunk(b"pieces", 12, 15, Deleted);
        let (newer, older) = (self.hash(), self.hash());
        self.give(b"joined late", 3, &[newer], Live(21));
        self.give(b"joined late", 2, &[older], Live(22));
        self.give(b"joined late", 3, &[newer, older], Live(21));
    }

    /// Invoices with a conflict each, then a ledger that takes all the room there is left, and the
    /// first invoice once more, so that ids and own sequences don't run alike.
    fn the_rest(&mut self) {
        let mut first = None;
        let (documents, _) = self.replica.counts();
        for invoice in 1..DOCUMENTS as u32 - documents {
            let id = format!("invoice-{invoice:04}");
            let trunk = self.trunk(id.as_bytes(), 1, 6 + (invoice - 1) % 10, Live(100));
            let at = (3, trunk[2]);
            first = first.or(Some(at));
            self.child(id.as_bytes(), at, Live(101));
        }
        self.child(b"invoice-0001", first.expect("an invoice"), Live(102));
        let (_, revisions) = self.replica.counts();
        self.trunk(b"ledger", 1, REVISIONS as u32 - revisions, Live(103));
    }
}

/// North's store with one damage for each refusal; `examples/README.md` says what and where.
fn damaged_examples() -> Vec<Example> {
    let sound = save(&north());
    let damaged = |number: u32, place: u32, image: Vec<u8>| Example {
        name: format!("refused-{number}"),
        image,
        begins: format!("refused {number} at {place}\n"),
    };
    let changed = |at: usize, from: u8, to: u8| {
        let mut image = sound.clone();
        assert_eq!(image[at], from, "the byte at {at}");
        image[at] = to;
        image
    };
    let entry = |index: usize| 16 + 44 * index;
    let row = |index: usize| image_bytes(4, index);
    vec![
        damaged(20, 0, sound[..12].to_vec()),
        damaged(21, 0, changed(1, 1, 2)),
        damaged(22, 0, sound[..sound.len() - 48].to_vec()),
        // The first letter of "ledger" turned into a "b": it then stands after "invoice-1042".
        damaged(23, 2, changed(entry(2) + 1, b'l', b'b')),
        // The note's own sequence turned into the ledger's.
        damaged(24, 3, changed(entry(3) + 39, 5, 4)),
        // The ledger's first row with a kind that isn't there.
        damaged(25, 3, changed(row(3) + 20, 0, 7)),
        // The ledger's second row names a parent that isn't there.
        damaged(26, 4, changed(row(4) + 24, 0x31, 0x30)),
    ]
}

/// Lines, in which `@` and two digits stand for a hash of that first byte: the five worked cases that
/// leave `lot.image`, as a dump of another store might have them. The fourth is the third once more.
const DUMP: &str = concat!(
    r#"{"_id": "lot", "_rev": "1-@20", "label": 7}"#,
    "\n",
    r#"{"_rev":"2-@91","_revisions":{"ids":["@91","@20"],"start":2},"#,
    r#""title":"Lot 14, \"north field\", caf\u00e9","label":8,"_id":"lot"}"#,
    "\n",
    "{\t\"_id\" : \"lot\" ,\t\"weights\" : [ 1.5 , -2e3 , { \"label\" : null , \"_id\" : [ ] } ] ,",
    " \"_rev\" : \"2-@4c\" , \"_revisions\" : { \"start\" : 2 , \"ids\" : [ \"@4c\" , \"@20\" ] } ,",
    " \"label\" : 9 }\n",
    r#"{"label":9,"_id":"lot","_rev":"2-@4c","_revisions":{"start":2,"pruned":false,"ids":["@4c","@20"]}}"#,
    "\n",
    r#"{"_id":"lot","_rev":"3-@05","_revisions":{"start":3,"ids":["@05","@91","@20"]},"#,
    r#""_deleted":true,"by":{"name":"Zoë","by":{"name":null}}}"#,
    "\r\n",
);

/// A line for each refusal of a line: cut off; a revision in capital letters; a start that is not the
/// number of the revision; an id with an escape.
const REFUSED: [(u32, &str); 4] = [
    (40, r#"{"_id":"lot","_rev":"1-@20","lab"#),
    (41, r#"{"_id":"lot","_rev":"2-@4C","label":9}"#),
    (
        42,
        r#"{"_id":"lot","_rev":"2-@4c","_revisions":{"start":3,"ids":["@4c","@20"]},"label":9}"#,
    ),
    (
        43,
        r#"{"_id":"lot 14, caf\u00e9","_rev":"1-@20","label":7}"#,
    ),
];

/// The dump, what putting `lot` out gives after it, and the refused lines.
fn lines() -> Vec<(String, Vec<u8>)> {
    let dump = spelled(DUMP.as_bytes());
    let mut replica = Model::fresh();
    let taken = dump.split_inclusive(|&byte| byte == b'\n');
    let taken: Vec<_> = taken.map(|line| replica.take_in(line)).collect();
    assert_eq!(taken, [true, true, true, false, true].map(Ok));
    assert_eq!(save(&replica), save(&lot()));
    let size = replica.put_out_size(b"lot").expect("a plain id");
    let mut put_out = vec![0; size as usize];
    assert_eq!(replica.put_out(b"lot", &mut put_out), Ok(size));
    let mut lines = vec![("dump".to_string(), dump), ("lot".to_string(), put_out)];
    for (number, line) in REFUSED {
        let line = [spelled(line.as_bytes()), b"\n".to_vec()].concat();
        let refused = replica.take_in(&line).expect_err("a line at fault");
        assert_eq!((refused.number, refused.place), (number, 0));
        lines.push((format!("refused-{number}"), line));
    }
    lines
}
