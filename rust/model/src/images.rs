//! Stored images, sound and damaged, made from a seed, and the traps by name.

use crate::held::Hash;
use crate::layout::{image_bytes, Entry, Image, Row, IMAGE_MOST};
use crate::model::{Model, REPORT_MOST};
use crate::offers::{content, hash, path, some_document, Alphabet, Offer};
use crate::random::Random;
use crate::sizes::{DOCUMENTS, ID_BYTES, PATH_HASHES, REVISIONS};
use crate::{Content, Replica};

/// The image of a seed: sound or damaged in one of several ways, or no image at all.
pub fn image(seed: u64) -> Vec<u8> {
    let random = &mut Random::new(seed);
    let sound = sound(random);
    if random.percent(15) {
        sound
    } else {
        damage(random, &sound)
    }
}

/// The saved image of a replica.
pub fn save(replica: &Model) -> Vec<u8> {
    let mut out = vec![0; IMAGE_MOST];
    let length = replica.save(&mut out).expect("the largest image fits");
    out.truncate(length as usize);
    out
}

/// What the check program prints of an image.
pub fn report(image: &[u8]) -> String {
    let mut out = vec![0; REPORT_MOST];
    let length = Model::report(image, &mut out).expect("no report is longer");
    out.truncate(length as usize);
    String::from_utf8(out).expect("a report is ASCII")
}

/// The image of a random replica. Most are small, some are full, and in some the sequences or the
/// revision numbers end.
pub fn sound(random: &mut Random) -> Vec<u8> {
    let replica = if random.percent(3) {
        full(random)
    } else {
        small(random)
    };
    let image = save(&replica);
    if random.percent(15) {
        end_sequences(random, &image)
    } else {
        image
    }
}

/// A replica after a few writes.
fn small(random: &mut Random) -> Model {
    let alphabet = Alphabet::new(random);
    let mut replica = Model::fresh();
    for _ in 0..random.below(16) {
        let offer = alphabet.offer(random, std::slice::from_ref(&replica));
        // Many offers are refused, and leave the replica as it was.
        let _ = replica.write(
            &offer.id,
            offer.number,
            &offer.hashes.concat(),
            offer.content,
        );
    }
    replica
}

/// A replica with no room left, or nearly none: few documents or all there is room for, and room
/// for at most three revisions more.
pub fn full(random: &mut Random) -> Model {
    let documents = *random.pick(&[1, 2, DOCUMENTS - 1, DOCUMENTS, DOCUMENTS]);
    let revisions = REVISIONS - 3 + random.below(4);
    filled(random, documents, revisions)
}

/// A replica of so many documents and revisions.
fn filled(random: &mut Random, documents: usize, revisions: usize) -> Model {
    let share = (revisions / documents).min(PATH_HASHES);
    let mut replica = Model::fresh();
    let mut made = 0_u16;
    let mut new_hash = || {
        made += 1;
        let mut new = hash(made as u8);
        new[14..].copy_from_slice(&made.to_be_bytes());
        new
    };
    for document in 0..documents {
        let id = format!("document {document}");
        let path: Vec<_> = (0..share).map(|_| new_hash()).collect();
        let number = (share + random.below(3)) as u32;
        let written = replica.write(id.as_bytes(), number, &path.concat(), content(random));
        assert_eq!(written, Ok(true));
    }
    while replica.held().revisions() < revisions {
        let replicas = std::slice::from_ref(&replica);
        let (id, document) = some_document(random, replicas).expect("there are some");
        let known: Vec<_> = document.revisions.iter().copied().collect();
        let parent = *random.pick(&known);
        let path = [new_hash(), parent.hash].concat();
        let id = id.to_vec();
        let written = replica.write(&id, parent.number + 1, &path, content(random));
        assert_eq!(written, Ok(true));
    }
    replica
}

/// The same image with all sequences raised alike, so that at most a few are left. An image without
/// documents stays as it is.
pub fn end_sequences(random: &mut Random, image: &[u8]) -> Vec<u8> {
    let mut image = Image::read(image).expect("a sound image");
    if !image.entries.is_empty() {
        let left = u32::MAX - image.head.sequence;
        let raise = left.saturating_sub(random.below(4) as u32);
        image.head.sequence += raise;
        for entry in &mut image.entries {
            entry.sequence += raise;
        }
    }
    image.bytes()
}

/// A sound image with damage of one kind. The damage may by chance leave it sound.
pub fn damage(random: &mut Random, sound: &[u8]) -> Vec<u8> {
    let mut image = Image::read(sound).expect("a sound image");
    match random.below(100) {
        0..=34 => spoil_field(random, &mut image),
        35..=49 => {
            for _ in 0..2 + random.below(3) {
                spoil_field(random, &mut image);
            }
        }
        50..=69 => rearrange(random, &mut image),
        70..=76 => {
            rearrange(random, &mut image);
            spoil_field(random, &mut image);
        }
        77..=84 => return flip_bits(random, sound),
        85..=93 => return change_length(random, sound),
        _ => return noise(random),
    }
    image.bytes()
}

/// Another value for a field of so many bits: the ends, a neighbour, or anything.
fn other(random: &mut Random, value: u64, bits: u32) -> u64 {
    let most = u64::MAX >> (64 - bits);
    let new = match random.below(7) {
        0 => 0,
        1 => 1,
        2 => 2,
        3 => value.wrapping_add(1),
        4 => value.wrapping_sub(1),
        5 => most,
        _ => random.any(),
    };
    new & most
}

/// Gives one field of the image another value.
fn spoil_field(random: &mut Random, image: &mut Image) {
    match random.below(10) {
        0 | 1 => spoil_head(random, image),
        2..=4 if !image.entries.is_empty() => spoil_entry(random, &mut image.entries),
        5..=9 if !image.rows.is_empty() => spoil_row(random, &mut image.rows),
        _ => spoil_head(random, image),
    }
}

fn spoil_head(random: &mut Random, image: &mut Image) {
    let head = &mut image.head;
    match random.below(6) {
        0 => head.edition = other(random, head.edition.into(), 16) as u16,
        1 => head.documents = other(random, head.documents.into(), 16) as u16,
        2 => head.revisions = other(random, head.revisions.into(), 16) as u16,
        3 => head.zero = other(random, head.zero.into(), 16) as u16,
        4 => head.sequence = other(random, head.sequence.into(), 32) as u32,
        _ => head.total = other(random, head.total.into(), 32) as u32,
    }
}

fn spoil_entry(random: &mut Random, entries: &mut [Entry]) {
    let model = random.pick(entries).clone();
    let at = random.below(entries.len());
    let entry = &mut entries[at];
    match random.below(8) {
        0 => entry.id_length = other(random, entry.id_length.into(), 8) as u8,
        1 => entry.id[random.below(ID_BYTES)] = other(random, 0, 8) as u8,
        2 => entry.id = model.id,
        3 => entry.zero = other(random, 0, 8) as u8,
        4 => entry.rows = other(random, entry.rows.into(), 16) as u16,
        5 => entry.sequence = other(random, entry.sequence.into(), 32) as u32,
        6 => entry.sequence = model.sequence,
        _ => entry.place = other(random, entry.place.into(), 32) as u32,
    }
}

fn spoil_row(random: &mut Random, rows: &mut [Row]) {
    let model = random.pick(rows).clone();
    let at = random.below(rows.len());
    let row = &mut rows[at];
    match random.below(12) {
        0 => row.number = other(random, row.number.into(), 32) as u32,
        1 => row.number = model.number,
        2 => row.hash[random.below(16)] = other(random, 0, 8) as u8,
        3 => row.hash = model.hash,
        4 | 5 => row.kind = random.below(4) as u8,
        6 => row.parent_known = random.below(3) as u8,
        7 => row.zero = other(random, 0, 16) as u16,
        8 => row.parent_hash[random.below(16)] = other(random, 0, 8) as u8,
        9 => row.parent_hash = *random.pick(&[[0; 16], model.hash, model.parent_hash]),
        _ => row.label = other(random, row.label, 64),
    }
}

/// Makes the counts, the places and the total fit the entries and rows that are there.
fn refit(image: &mut Image) {
    image.head.documents = image.entries.len() as u16;
    image.head.revisions = image.rows.len() as u16;
    image.head.total = image_bytes(image.entries.len(), image.rows.len()) as u32;
    let documents = image.entries.len();
    let mut rows = 0;
    for entry in &mut image.entries {
        entry.place = image_bytes(documents, rows) as u32;
        rows += usize::from(entry.rows);
    }
}

/// Changes fields that hang together, so that what a single field would give away is passed, and
/// the later refusals are reached.
fn rearrange(random: &mut Random, image: &mut Image) {
    if image.entries.is_empty() || image.rows.is_empty() {
        return spoil_head(random, image);
    }
    let entry = random.below(image.entries.len());
    let row = random.below(image.rows.len());
    let other_entry = random.below(image.entries.len());
    let other_row = random.below(image.rows.len());
    match random.below(16) {
        // Entries out of order, with and without what belongs to their places.
        0 => image.entries.swap(entry, other_entry),
        1 => {
            image.entries.swap(entry, other_entry);
            refit(image);
        }
        // An id that fills to the same bytes as the one before it.
        2 => {
            let model = image.entries[other_entry].clone();
            let entry = &mut image.entries[entry];
            entry.id = model.id;
            entry.id_length = (model.id_length + 1).min(ID_BYTES as u8);
        }
        // A row given from one document to another.
        3 => {
            let given = &mut image.entries[entry].rows;
            *given = given.wrapping_sub(1);
            image.entries[other_entry].rows += 1;
            refit(image);
        }
        // Rows that run past the last one, or end before it.
        4 => {
            let rows = &mut image.entries[entry].rows;
            *rows = other(random, (*rows).into(), 16) as u16;
            refit(image);
        }
        // A row less, with and without its document's count.
        5 => {
            image.rows.remove(row);
            refit(image);
        }
        6 => {
            let owner = owner(image, row);
            image.rows.remove(row);
            image.entries[owner].rows -= 1;
            refit(image);
        }
        // A document less.
        7 => {
            image.entries.remove(entry);
            refit(image);
        }
        // Rows out of order, and a row twice.
        8 => image.rows.swap(row, other_row),
        9 => {
            let owner = owner(image, row);
            let again = image.rows[row].clone();
            image.rows.insert(row, again);
            image.entries[owner].rows += 1;
            refit(image);
        }
        // A parent forgotten, or invented.
        10 | 11 => {
            image.rows[row].parent_known = 0;
            image.rows[row].parent_hash = [0; 16];
        }
        12 => {
            image.rows[row].parent_known = 1;
            image.rows[row].parent_hash = image.rows[other_row].hash;
        }
        // A leaf marked as having a child, and the reverse.
        13 => {
            image.rows[row].kind = 0;
            image.rows[row].label = 0;
        }
        14 => {
            image.rows[row].kind = 1 + random.below(2) as u8;
            image.rows[row].label = 0;
        }
        // Numbers that end.
        _ => {
            let highest = image.rows.iter().map(|row| row.number).max();
            let raise = u32::MAX - highest.unwrap_or(u32::MAX);
            for row in &mut image.rows {
                row.number = row.number.wrapping_add(raise);
            }
        }
    }
}

/// A sound image with a document more: a copy of one of them, under its id and a zero byte, that was
/// changed last. Where ids, room and sequences allow it, the image is sound.
pub fn grow(random: &mut Random, sound: &[u8]) -> Vec<u8> {
    let mut image = Image::read(sound).expect("a sound image");
    if !image.entries.is_empty() {
        let at = random.below(image.entries.len());
        let (first, rows) = image.bodies()[at];
        let (end, rows) = (first + rows.len(), rows.to_vec());
        let mut entry = image.entries[at].clone();
        entry.id_length += 1;
        entry.sequence = image.head.sequence.wrapping_add(1);
        image.head.sequence = entry.sequence;
        image.entries.insert(at + 1, entry);
        image.rows.splice(end..end, rows);
        refit(&mut image);
    }
    image.bytes()
}

/// The index of the document that the row belongs to.
fn owner(image: &Image, row: usize) -> usize {
    let bodies = image.bodies();
    let holds = |&(first, rows): &(usize, &[Row])| (first..first + rows.len()).contains(&row);
    bodies.iter().position(holds).expect("every row has one")
}

fn flip_bits(random: &mut Random, sound: &[u8]) -> Vec<u8> {
    let mut bytes = sound.to_vec();
    for _ in 0..1 + random.below(3) {
        let at = random.below(bytes.len());
        bytes[at] ^= 1 << random.below(8);
    }
    bytes
}

/// Cuts the image at any length, or adds to it.
fn change_length(random: &mut Random, sound: &[u8]) -> Vec<u8> {
    let mut bytes = sound.to_vec();
    match random.below(4) {
        0 => bytes.push(random.any() as u8),
        1 => {
            let more = random.below(100);
            bytes.extend(random.bytes(more));
        }
        2 => bytes.truncate(random.below(20)),
        _ => bytes.truncate(random.below(sound.len())),
    }
    bytes
}

/// Bytes that were never an image, with and without a good head before them.
fn noise(random: &mut Random) -> Vec<u8> {
    if random.percent(30) {
        let count = random.below(200);
        return random.bytes(count);
    }
    let (documents, revisions) = (random.below(4), random.below(4));
    let total = image_bytes(documents, revisions);
    let mut bytes = random.bytes(total);
    let head = [0, 1, 0, documents as u8, 0, revisions as u8, 0, 0];
    bytes[..8].copy_from_slice(&head);
    bytes[12..16].copy_from_slice(&(total as u32).to_be_bytes());
    bytes
}

/// The replica after cases 1 to 5 of the document's examples.
pub fn lot() -> Model {
    let mut replica = Model::fresh();
    let cases: [(u32, &[u8], Content); 5] = [
        (1, &[0x20], Content::Live(7)),
        (2, &[0x91, 0x20], Content::Live(8)),
        (2, &[0x4c, 0x20], Content::Live(9)),
        (2, &[0x4c, 0x20], Content::Live(9)),
        (3, &[0x05, 0x91, 0x20], Content::Deleted),
    ];
    for (number, first_bytes, content) in cases {
        let written = replica.write(b"lot", number, &path(first_bytes), content);
        written.expect("the cases are accepted");
    }
    replica
}

/// The image of the replica that the offers leave, each accepted.
fn written(offers: &[Offer]) -> Image {
    let mut replica = Model::fresh();
    for offer in offers {
        let path = offer.hashes.concat();
        let written = replica.write(&offer.id, offer.number, &path, offer.content);
        written.expect("the offers are accepted");
    }
    Image::read(&save(&replica)).expect("a sound image")
}

fn offer(id: &[u8], number: u32, hashes: &[Hash], content: Content) -> Offer {
    Offer {
        id: id.to_vec(),
        number,
        hashes: hashes.to_vec(),
        content,
    }
}

/// Images that look right and aren't, or look wrong and are right, by name.
pub fn traps() -> Vec<(&'static str, Vec<u8>)> {
    let live = Content::Live(7);
    let one = [hash(0x20)];

    let alike = written(&[offer(b"a", 1, &one, live), offer(b"a\0", 1, &one, live)]);
    let mut alike_reversed = alike.clone();
    alike_reversed.entries.swap(0, 1);
    refit(&mut alike_reversed);
    let mut same_id = alike.clone();
    same_id.entries[1].id_length = 1;

    let prefixes = written(&[offer(b"a", 1, &one, live), offer(b"ab", 1, &one, live)]);
    let mut prefixes_reversed = prefixes.clone();
    prefixes_reversed.entries.swap(0, 1);
    refit(&mut prefixes_reversed);

    let zero_parent = written(&[offer(b"lot", 2, &[hash(0x91), [0; 16]], live)]);
    let mut zero_parent_unknown = zero_parent.clone();
    zero_parent_unknown.rows[1].parent_known = 0;
    let mut zero_parent_absent = written(&[offer(b"lot", 2, &one, live)]);
    zero_parent_absent.rows[0].parent_known = 1;

    let label_zero = written(&[offer(b"lot", 1, &one, Content::Live(0))]);
    let mut label_on_deletion = written(&[offer(b"lot", 1, &one, Content::Deleted)]);
    label_on_deletion.rows[0].label = 1;

    let last_number = written(&[offer(b"lot", u32::MAX, &[hash(0x91), hash(0x20)], live)]);
    let mut last_sequence = written(&[offer(b"lot", 1, &one, live)]);
    last_sequence.head.sequence = u32::MAX;
    last_sequence.entries[0].sequence = u32::MAX;

    let mut second_row_bad = written(&[offer(b"a", 1, &one, live), offer(b"b", 1, &one, live)]);
    second_row_bad.rows[1].kind = 3;

    let full = save(&filled(&mut Random::new(0), DOCUMENTS, REVISIONS));
    let mut a_byte_more = full.clone();
    a_byte_more.push(0);
    let mut far_too_long = full.clone();
    far_too_long.resize(2 * IMAGE_MOST, 0);

    vec![
        ("empty", Vec::new()),
        ("one byte", vec![0]),
        ("fifteen bytes", save(&Model::fresh())[..15].to_vec()),
        ("fresh", save(&Model::fresh())),
        ("ids that fill alike", alike.bytes()),
        ("ids that fill alike, reversed", alike_reversed.bytes()),
        ("the same id twice", same_id.bytes()),
        ("an id and its prefix", prefixes.bytes()),
        ("an id before its prefix", prefixes_reversed.bytes()),
        ("a known parent of zeros", zero_parent.bytes()),
        ("a parent of zeros unknown", zero_parent_unknown.bytes()),
        ("a parent of zeros absent", zero_parent_absent.bytes()),
        ("label 0 on a live row", label_zero.bytes()),
        ("a label on a deletion", label_on_deletion.bytes()),
        ("the last number", last_number.bytes()),
        ("the last sequence", last_sequence.bytes()),
        ("a bad row in the second document", second_row_bad.bytes()),
        ("full", full),
        ("full and a byte more", a_byte_more),
        ("far too long", far_too_long),
    ]
}
