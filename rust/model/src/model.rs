//! The model: what each call answers and leaves.
//!
//! The sections are those of the document, whose words stand in quotes above what renders them. The
//! rules that decide, each refusal's condition among them, are the functions of [`Rules`].

use crate::held::{Base, Document, Edit, Given, Hash, Held, Leaf, Line, Revision};
use crate::layout::{image_bytes, Entry, Head, Image, Row, IMAGE_MOST};
use crate::rules::{House, Rules};
use crate::sizes::{ASKED_BYTES, DOCUMENTS, HASH_BYTES, ID_BYTES, LEAF_BYTES};
use crate::{Change, Content, Counts, Refusal, Replica};
use std::fmt;

// Writing a path

impl Held {
    /// "A path write checks 1 to 8 in that order."
    fn write(&mut self, rules: &dyn Rules, given: &Given) -> Result<bool, Refusal> {
        let given = &Given {
            content: rules.content(given.content),
            ..*given
        };
        let refused = first_refusal(rules.write_order(), |number| match number {
            1 => rules.bad_id(given.id),
            2 => rules.bad_path(given.path),
            3 => rules.number_too_small(given),
            4 => rules.other_parent(self, given),
            5 => rules.other_content(self, given),
            6 => rules.no_document_room(self, given.id),
            7 => rules.no_revision_room(self, given),
            8 => rules.no_sequence(self, given),
            _ => unreachable!("a path write checks 1 to 8"),
        });
        if let Err(refusal) = refused {
            rules.refused_write(refusal, self, given);
            return Err(refusal);
        }
        Ok(self.accept(rules, given))
    }

    /// "An accepted write adds the revisions and parents that the path gives and the replica lacks.
    /// If the newest revision is new, it gets the content. [..] If it is known and has a child, the
    /// given content is dropped. Where nothing was added the answer is "unchanged" and the sequence
    /// stays. Otherwise it is "changed", the sequence rises by one, and the document takes the new
    /// value."
    fn accept(&mut self, rules: &dyn Rules, given: &Given) -> bool {
        let added = rules.adds(self, given);
        let document = self.documents.entry(rules.key(given.id)).or_default();
        if added {
            for revision in rules.revisions(given) {
                let new = document.revisions.insert(revision);
                if new && given.newest() == Some(revision) {
                    document.contents.insert(revision, given.content);
                }
            }
            for (child, parent) in rules.parents(given) {
                if document.parent(child).is_none() {
                    document.parents.insert(child, parent);
                    rules.gain_child(document, parent);
                }
            }
        }
        let sequence = rules.sequence_after(self.sequence, added);
        if sequence != self.sequence {
            self.sequence = sequence;
            document.sequence = sequence;
        }
        added
    }
}

// Ordinary edit

impl Held {
    /// "An edit checks 1, 9, 11, 10, 6, 7, 8." "An accepted edit leaves what the path write of the
    /// new revision and its parent, if any, would leave, and answers the new number."
    fn edit(&mut self, rules: &dyn Rules, edit: &Edit) -> Result<u32, Refusal> {
        let edit = &Edit {
            content: rules.content(edit.content),
            ..*edit
        };
        let base = rules.base(self, edit);
        let path = match base {
            Some(Base::Parent(parent)) => [edit.hash, parent.hash].concat(),
            _ => edit.hash.to_vec(),
        };
        let number = base.and_then(|base| rules.new_number(base));
        let given = number.map(|number| Given {
            id: edit.id,
            number,
            path: &path,
            content: edit.content,
        });
        first_refusal(rules.edit_order(), |number| match number {
            1 => rules.bad_id(edit.id),
            9 => rules.parent_rule_broken(base),
            11 => base.is_some_and(|base| rules.parent_is_last(base)),
            10 => given.is_some_and(|given| rules.newest_known(self, &given)),
            6 => rules.no_document_room(self, edit.id),
            7 => given.is_some_and(|given| rules.no_revision_room(self, &given)),
            8 => given.is_some_and(|given| rules.no_sequence(self, &given)),
            _ => unreachable!("an edit checks 1 and 6 to 11"),
        })?;
        let given = given.expect("9 and 11 were tried");
        self.accept(rules, &given);
        Ok(given.number)
    }
}

// Refusal numbers and their order

/// The first of the ordered refusals that holds.
fn first_refusal(order: &[u32], holds: impl Fn(u32) -> bool) -> Result<(), Refusal> {
    match order.iter().copied().find(|&number| holds(number)) {
        Some(number) => Err(Refusal { number, place: 0 }),
        None => Ok(()),
    }
}

/// "A refusal [..] alters neither replica nor buffer. An accepted call writes the answer at the
/// front of the buffer and leaves the bytes after it."
fn lend(
    rules: &dyn Rules,
    refused: Result<(), Refusal>,
    answer: &[u8],
    out: &mut [u8],
) -> Result<(), Refusal> {
    match refused {
        Ok(()) => rules.fill(out, answer),
        Err(refusal) => rules.spill(refusal, out, answer),
    }
    refused
}

/// Lends an answer that only a short buffer can refuse: "changes and saving 14".
fn lend_whole(rules: &dyn Rules, answer: &[u8], out: &mut [u8]) -> Result<(), Refusal> {
    let refused = first_refusal(&[14], |_| rules.short(out, Some(answer)));
    lend(rules, refused, answer, out)
}

// Reading

/// "kind (1: 0 has a child, 1 live, 2 deleted)" and "label (8, zero unless live)".
fn kind_and_label(content: Option<Content>) -> (u8, u64) {
    match content {
        None => (0, 0),
        Some(Content::Live(label)) => (1, label),
        Some(Content::Deleted) => (2, 0),
    }
}

impl Leaf {
    /// "29 bytes each: number, hash, kind, label as in an image row".
    fn bytes(&self) -> Vec<u8> {
        let (kind, label) = kind_and_label(Some(self.content));
        let mut bytes = self.revision.number.to_be_bytes().to_vec();
        bytes.extend(self.revision.hash);
        bytes.push(kind);
        bytes.extend(label.to_be_bytes());
        bytes
    }
}

/// An asked revision: "a number of four bytes, big-endian, and a hash".
fn asked_revision(asked: &[u8]) -> Revision {
    let (number, hash) = asked.split_at(4);
    Revision {
        number: u32::from_be_bytes(number.try_into().expect("4 bytes")),
        hash: hash.try_into().expect("16 bytes"),
    }
}

/// "Leaves: highest number first, then highest hash".
fn leaves_in_order(rules: &dyn Rules, document: &Document) -> Vec<Leaf> {
    let mut leaves = document.leaves();
    leaves.sort_by(|a, b| rules.order(b.revision, a.revision));
    leaves
}

impl Held {
    /// "Reads of a document check 1, 12, 13 (path only), 14". The revision is the one that a path
    /// is asked of. Gives the answer back once it is lent.
    fn read(
        &self,
        rules: &dyn Rules,
        id: &[u8],
        revision: Option<Revision>,
        answer: impl Fn(&Document) -> Vec<u8>,
        out: &mut [u8],
    ) -> Result<Vec<u8>, Refusal> {
        let document = rules.document(self, id);
        let unknown = document
            .zip(revision)
            .is_some_and(|(document, revision)| rules.no_revision(document, revision));
        let answer = document.filter(|_| !unknown).map(answer);
        let refused = first_refusal(rules.read_order(), |number| match number {
            1 => rules.bad_id(id),
            12 => rules.no_document(self, id),
            13 => unknown,
            14 => rules.short(out, answer.as_deref()),
            _ => unreachable!("a read checks 1, 12, 13 and 14"),
        });
        let answer = answer.unwrap_or_default();
        lend(rules, refused, &answer, out)?;
        Ok(answer)
    }

    /// "The winner is answered in the same form."
    fn winner(&self, rules: &dyn Rules, id: &[u8], out: &mut [u8]) -> Result<u32, Refusal> {
        let answer = |document: &Document| rules.winner(&document.leaves()).bytes();
        let answer = self.read(rules, id, None, answer, out)?;
        Ok(answer.len() as u32)
    }

    /// "their count is answered."
    fn leaves(&self, rules: &dyn Rules, id: &[u8], out: &mut [u8]) -> Result<u32, Refusal> {
        let answer = |document: &Document| {
            let leaves = leaves_in_order(rules, document);
            leaves.iter().flat_map(Leaf::bytes).collect()
        };
        let answer = self.read(rules, id, None, answer, out)?;
        Ok((answer.len() / LEAF_BYTES) as u32)
    }

    /// "Its hashes are written, 16 bytes each, and their count answered."
    fn path(
        &self,
        rules: &dyn Rules,
        id: &[u8],
        revision: Revision,
        out: &mut [u8],
    ) -> Result<u32, Refusal> {
        let answer = |document: &Document| document.path(revision).concat();
        let answer = self.read(rules, id, Some(revision), answer, out)?;
        Ok((answer.len() / HASH_BYTES) as u32)
    }

    /// "missing revisions 1, 15, 14". "The answer has one byte each, 0 known, 1 missing."
    fn missing(
        &self,
        rules: &dyn Rules,
        id: &[u8],
        asked: &[u8],
        out: &mut [u8],
    ) -> Result<u32, Refusal> {
        let document = rules.document(self, id);
        let revisions = asked.chunks_exact(ASKED_BYTES).map(asked_revision);
        let answer: Vec<u8> = revisions
            .map(|revision| rules.is_missing(document, revision).into())
            .collect();
        let refused = first_refusal(rules.missing_order(), |number| match number {
            1 => rules.bad_id(id),
            15 => rules.bad_asked(asked),
            14 => rules.short(out, Some(&answer)),
            _ => unreachable!("missing revisions check 1, 15 and 14"),
        });
        lend(rules, refused, &answer, out)?;
        Ok(answer.len() as u32)
    }

    /// "Changes after s: the document with the lowest own sequence above s: its id written out, and
    /// answered its id length, that sequence, its leaf count and whether its winner is a deletion;
    /// or "no more", nothing written."
    fn changes(
        &self,
        rules: &dyn Rules,
        after: u32,
        out: &mut [u8],
    ) -> Result<Option<Change>, Refusal> {
        let documents = self.documents.iter();
        let lowest = documents
            .filter(|(_, document)| rules.is_after(document.sequence, after))
            .min_by_key(|(_, document)| document.sequence);
        let Some((id, document)) = lowest else {
            return Ok(None);
        };
        lend_whole(rules, id, out)?;
        let leaves = document.leaves();
        Ok(Some(Change {
            id_len: id.len() as u32,
            seq: document.sequence,
            leaves: leaves.len() as u32,
            deleted: rules.winner(&leaves).content == Content::Deleted,
        }))
    }
}

// Documents as the protocol writes them

impl Held {
    /// "Take these in as path writes": 40 to 43 are "checked in that order, before 1 to 8".
    fn take_in(&mut self, rules: &dyn Rules, line: &[u8]) -> Result<bool, Refusal> {
        let members = rules.members(line);
        let members = members.as_deref();
        let said = members.and_then(|members| rules.line(members));
        let said_so = |holds: &dyn Fn(&Line) -> bool| said.as_ref().is_some_and(holds);
        first_refusal(rules.line_order(), |number| match number {
            40 => members.is_none(),
            41 => rules.bad_member(line, members),
            42 => said_so(&|said| rules.revisions_differ(said)),
            43 => said_so(&|said| rules.unwritable(&said.id)),
            1 => said_so(&|said| rules.bad_id(&said.id)),
            _ => unreachable!("a line checks 40 to 43, and a wrong model 1 among them"),
        })?;
        let said = said.expect("40 and 41 were tried");
        let given = Given {
            id: &said.id,
            number: said.rev.number,
            path: &rules.path_of(&said).concat(),
            content: said.content,
        };
        self.write(rules, &given)
    }

    /// "Putting out checks 1, 12, 43, 14." "put a document's leaves out so, a line each".
    fn put_out(&self, rules: &dyn Rules, id: &[u8], out: &mut [u8]) -> Result<u32, Refusal> {
        let answer = self.lines(rules, id);
        let refused = first_refusal(rules.put_out_order(), |number| match number {
            14 => rules.short(out, answer.as_deref()),
            other => self.put_out_refuses(rules, id, other),
        });
        let answer = answer.unwrap_or_default();
        lend(rules, refused, &answer, out)?;
        Ok(answer.len() as u32)
    }

    /// How many bytes putting out would write. No buffer is lent, so that 14 has nothing to refuse.
    fn put_out_size(&self, rules: &dyn Rules, id: &[u8]) -> Result<u32, Refusal> {
        first_refusal(rules.put_out_order(), |number| match number {
            14 => false,
            other => self.put_out_refuses(rules, id, other),
        })?;
        Ok(self.lines(rules, id).unwrap_or_default().len() as u32)
    }

    fn put_out_refuses(&self, rules: &dyn Rules, id: &[u8], number: u32) -> bool {
        match number {
            1 => rules.bad_id(id),
            12 => rules.no_document(self, id),
            43 => rules.unwritable(id),
            _ => unreachable!("putting out checks 1, 12, 43 and 14"),
        }
    }

    /// The lines of a document's leaves, if there is the document.
    fn lines(&self, rules: &dyn Rules, id: &[u8]) -> Option<Vec<u8>> {
        let document = rules.document(self, id)?;
        let leaves = rules.put_out_leaves(document).into_iter();
        let lines = leaves.map(|leaf| {
            let ids = rules.put_out_ids(document, leaf);
            line_of(rules, id, leaf, ids)
        });
        Some(rules.put_out_lines(lines.collect()))
    }
}

/// A leaf's line: "`_id`, `_rev`, `_revisions` with `start` and `ids`, `_deleted`, and our member
/// `label`, a JSON number", "without spaces, in the order just named".
fn line_of(rules: &dyn Rules, id: &[u8], leaf: Leaf, ids: Option<Vec<Hash>>) -> Vec<u8> {
    let Revision { number, hash } = leaf.revision;
    let mut after_id = format!("\",\"_rev\":\"{number}-{}\"", hex(&hash));
    if let Some(ids) = ids {
        let ids: Vec<String> = ids.iter().map(|id| format!("\"{}\"", hex(id))).collect();
        let ids = ids.join(",");
        after_id += &format!(",\"_revisions\":{{\"start\":{number},\"ids\":[{ids}]}}");
    }
    after_id += &match leaf.content {
        Content::Deleted => ",\"_deleted\":true}".to_string(),
        Content::Live(label) => format!(",\"label\":{}}}", rules.put_out_label(label)),
    };
    [b"{\"_id\":\"", id, after_id.as_bytes()].concat()
}

// Pull

/// "Documents come in order of their sequence, leaves of each highest first".
fn pulled_documents<'a>(
    rules: &dyn Rules,
    source: &'a Held,
    after: u32,
) -> Vec<(&'a [u8], &'a Document)> {
    let mut documents: Vec<_> = source
        .documents
        .iter()
        .filter(|(_, document)| rules.is_pulled(document.sequence, after))
        .map(|(id, document)| (id.as_slice(), document))
        .collect();
    documents.sort_by(|a, b| rules.pull_order(*a, *b));
    documents
}

impl Held {
    /// "Pull reads a source replica after a given sequence and writes a target. [..] A refused
    /// offer is counted and pull goes on with the next leaf. The answer has three counts: changed,
    /// unchanged, refused."
    fn pull(&mut self, rules: &dyn Rules, source: &Held, after: u32) -> Counts {
        let mut counts = Counts::default();
        for (id, document) in pulled_documents(rules, source, after) {
            for leaf in leaves_in_order(rules, document) {
                if rules.skips(self, id, document, leaf) {
                    counts.unchanged += 1;
                    continue;
                }
                let offer = Given {
                    id,
                    number: leaf.revision.number,
                    path: &rules.offered_path(document, leaf).concat(),
                    content: leaf.content,
                };
                match self.write(rules, &offer) {
                    Ok(true) => counts.changed += 1,
                    Ok(false) => counts.unchanged += 1,
                    Err(_) => {
                        counts.refused += 1;
                        if rules.stops_at_refusal() {
                            return counts;
                        }
                    }
                }
            }
        }
        counts
    }
}

// The stored image

impl Held {
    /// "changes and saving 14".
    fn save(&self, rules: &dyn Rules, out: &mut [u8]) -> Result<u32, Refusal> {
        let answer = self.image().bytes();
        lend_whole(rules, &answer, out)?;
        Ok(answer.len() as u32)
    }

    /// The one image of a replica: ids ascend, and the rows of a document by number, then hash.
    fn image(&self) -> Image {
        let documents = self.documents.len();
        let revisions = self.revisions();
        let mut entries = Vec::new();
        let mut rows = Vec::new();
        for (id, document) in &self.documents {
            let mut filled = [0; ID_BYTES];
            filled[..id.len()].copy_from_slice(id);
            entries.push(Entry {
                id_length: id.len() as u8,
                id: filled,
                zero: 0,
                rows: document.revisions.len() as u16,
                sequence: document.sequence,
                place: image_bytes(documents, rows.len()) as u32,
            });
            for &revision in &document.revisions {
                let (kind, label) = kind_and_label(document.contents.get(&revision).copied());
                let parent = document.parent(revision);
                rows.push(Row {
                    number: revision.number,
                    hash: revision.hash,
                    kind,
                    parent_known: parent.is_some().into(),
                    zero: 0,
                    parent_hash: parent.map_or([0; HASH_BYTES], |parent| parent.hash),
                    label,
                });
            }
        }
        Image {
            head: Head {
                edition: 1,
                documents: documents as u16,
                revisions: revisions as u16,
                zero: 0,
                sequence: self.sequence,
                total: image_bytes(documents, revisions) as u32,
            },
            entries,
            rows,
        }
    }

    /// "An image loads exactly if it meets every rule. Refusals, in order, each over the whole
    /// image [..] A failed load leaves the former replica."
    fn load(&mut self, rules: &dyn Rules, bytes: &[u8]) -> Result<(), Refusal> {
        for &number in rules.image_order() {
            if let Some(place) = image_fault(rules, number, bytes) {
                rules.failed_load(self);
                return Err(Refusal { number, place });
            }
        }
        let image = Image::read(bytes).expect("22 was tried");
        *self = Held::of_image(rules, &image);
        Ok(())
    }

    /// What an image that meets every rule says.
    fn of_image(rules: &dyn Rules, image: &Image) -> Held {
        let mut held = Held {
            sequence: image.head.sequence,
            ..Held::default()
        };
        for (entry, (_, rows)) in image.entries.iter().zip(image.bodies()) {
            let mut document = Document {
                sequence: entry.sequence,
                ..Document::default()
            };
            for row in rows {
                let revision = row.revision();
                document.revisions.insert(revision);
                if let Some(parent) = rules.row_parent(row) {
                    document.parents.insert(revision, parent);
                }
                match row.kind {
                    1 => document.contents.insert(revision, Content::Live(row.label)),
                    2 => document.contents.insert(revision, Content::Deleted),
                    _ => None,
                };
            }
            let id = entry.id().expect("23 was tried");
            held.documents.insert(rules.key(id), document);
        }
        held
    }
}

/// The place of the fault of that number in the image, if it has it.
fn image_fault(rules: &dyn Rules, number: u32, bytes: &[u8]) -> Option<u32> {
    let head = Head::read(bytes);
    let image = Image::read(bytes);
    match number {
        20 => rules.image_short(bytes).then_some(0),
        21 => rules.other_edition(&head?).then_some(0),
        22 => rules.bad_head(&head?, bytes).then_some(0),
        23 => rules.contents_fault(&image?),
        24 => rules.sequence_fault(&image?),
        25 => rules.row_fault(&image?),
        26 => rules.parent_fault(&image?),
        _ => unreachable!("an image is refused by 20 to 26"),
    }
}

// The check program

/// "a head line (update sequence, documents, revisions)".
struct HeadLine {
    sequence: u32,
    documents: usize,
    revisions: usize,
}

/// "one line per document in image order: id in hex, own sequence, winner as number and hash, leaf
/// count, conflict count."
struct DocumentLine {
    id: Vec<u8>,
    sequence: u32,
    winner: Revision,
    leaves: usize,
    conflicts: usize,
}

/// "Numbers are decimal, hex is lower case, each line ends with a newline."
impl fmt::Display for HeadLine {
    fn fmt(&self, f: &mut fmt::Formatter) -> fmt::Result {
        writeln!(
            f,
            "seq {} documents {} revisions {}",
            self.sequence, self.documents, self.revisions
        )
    }
}

impl fmt::Display for DocumentLine {
    fn fmt(&self, f: &mut fmt::Formatter) -> fmt::Result {
        writeln!(
            f,
            "{} seq {} winner {}-{} leaves {} conflicts {}",
            hex(&self.id),
            self.sequence,
            self.winner.number,
            hex(&self.winner.hash),
            self.leaves,
            self.conflicts
        )
    }
}

/// Digits of the longest number, 4,294,967,295.
const DIGITS: usize = 10;

/// No report is longer: no number has more digits, and no id more bytes, two digits each.
pub const REPORT_MOST: usize = HEAD_LINE_MOST + DOCUMENTS * DOCUMENT_LINE_MOST;

const HEAD_LINE_MOST: usize = "seq  documents  revisions \n".len() + 3 * DIGITS;

const DOCUMENT_LINE_MOST: usize =
    " seq  winner - leaves  conflicts \n".len() + 2 * ID_BYTES + 2 * HASH_BYTES + 4 * DIGITS;

/// Bytes in lower-case hex.
pub fn hex(bytes: &[u8]) -> String {
    bytes.iter().map(|byte| format!("{byte:02x}")).collect()
}

fn document_line(rules: &dyn Rules, id: &[u8], document: &Document) -> DocumentLine {
    let leaves = document.leaves();
    let winner = rules.winner(&leaves);
    DocumentLine {
        id: id.to_vec(),
        sequence: document.sequence,
        winner: winner.revision,
        leaves: leaves.len(),
        conflicts: rules.conflicts(&leaves, winner),
    }
}

/// "A refused image prints `refused N at P`. An accepted one prints a head line [..] and one line
/// per document in image order".
fn text(rules: &dyn Rules, image: &[u8]) -> String {
    let mut held = Held::default();
    if let Err(Refusal { number, place }) = held.load(rules, image) {
        return format!("refused {number} at {place}\n");
    }
    let head = HeadLine {
        sequence: held.sequence,
        documents: held.documents.len(),
        revisions: held.revisions(),
    };
    let documents = held.documents.iter();
    let lines = documents.map(|(id, document)| document_line(rules, id, document).to_string());
    head.to_string() + &lines.collect::<String>()
}

/// "Input past 26,001 bytes is not read."
const READ_MOST: usize = IMAGE_MOST + 1;

/// "It reads an image from standard input and only reports."
fn report(rules: &dyn Rules, image: &[u8], out: &mut [u8]) -> Result<u32, Refusal> {
    let read = &image[..image.len().min(READ_MOST)];
    let answer = text(rules, read).into_bytes();
    lend_whole(rules, &answer, out)?;
    Ok(answer.len() as u32)
}

// The calls

/// A replica under the given rules.
#[derive(Clone, Default)]
pub struct ModelOf<R> {
    held: Held,
    rules: R,
}

/// The replica under the rules of the document.
pub type Model = ModelOf<House>;

impl<R> ModelOf<R> {
    pub fn held(&self) -> &Held {
        &self.held
    }
}

impl<R: Rules + Clone + Default> Replica for ModelOf<R> {
    fn fresh() -> Self {
        Self::default()
    }

    fn load(&mut self, image: &[u8]) -> Result<(), Refusal> {
        self.held.load(&self.rules, image)
    }

    fn save(&self, out: &mut [u8]) -> Result<u32, Refusal> {
        self.held.save(&self.rules, out)
    }

    fn write(
        &mut self,
        id: &[u8],
        number: u32,
        path: &[u8],
        content: Content,
    ) -> Result<bool, Refusal> {
        let given = Given {
            id,
            number,
            path,
            content,
        };
        self.held.write(&self.rules, &given)
    }

    fn take_in(&mut self, line: &[u8]) -> Result<bool, Refusal> {
        self.held.take_in(&self.rules, line)
    }

    fn edit(
        &mut self,
        id: &[u8],
        hash: Hash,
        content: Content,
        parent: Option<(u32, Hash)>,
    ) -> Result<u32, Refusal> {
        let edit = Edit {
            id,
            hash,
            content,
            parent: parent.map(|(number, hash)| Revision { number, hash }),
        };
        self.held.edit(&self.rules, &edit)
    }

    fn winner(&self, id: &[u8], out: &mut [u8]) -> Result<u32, Refusal> {
        self.held.winner(&self.rules, id, out)
    }

    fn leaves(&self, id: &[u8], out: &mut [u8]) -> Result<u32, Refusal> {
        self.held.leaves(&self.rules, id, out)
    }

    fn path(&self, id: &[u8], number: u32, hash: Hash, out: &mut [u8]) -> Result<u32, Refusal> {
        let revision = Revision { number, hash };
        self.held.path(&self.rules, id, revision, out)
    }

    fn put_out(&self, id: &[u8], out: &mut [u8]) -> Result<u32, Refusal> {
        self.held.put_out(&self.rules, id, out)
    }

    fn put_out_size(&self, id: &[u8]) -> Result<u32, Refusal> {
        self.held.put_out_size(&self.rules, id)
    }

    fn missing(&self, id: &[u8], asked: &[u8], out: &mut [u8]) -> Result<u32, Refusal> {
        self.held.missing(&self.rules, id, asked, out)
    }

    fn changes(&self, after: u32, out: &mut [u8]) -> Result<Option<Change>, Refusal> {
        self.held.changes(&self.rules, after, out)
    }

    fn pull(&mut self, source: &Self, after: u32) -> Counts {
        self.held.pull(&self.rules, &source.held, after)
    }

    fn update_sequence(&self) -> u32 {
        self.held.sequence
    }

    fn counts(&self) -> (u32, u32) {
        let documents = self.held.documents.len();
        (documents as u32, self.held.revisions() as u32)
    }

    fn report(image: &[u8], out: &mut [u8]) -> Result<u32, Refusal> {
        report(&R::default(), image, out)
    }
}
