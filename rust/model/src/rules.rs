//! The rules of the document, a small function each, with its words in quotes above it.
//!
//! They stand in a trait so that a wrong model can be the right one with one rule replaced. The
//! right rule is always the default.

use crate::held::{Base, Document, Edit, Given, Hash, Held, Leaf, Line, Revision, Revisions};
use crate::json::{self, Member, Value};
use crate::layout::{image_bytes, Entry, Head, Image, Row, HEAD_BYTES};
use crate::sizes::{
    ASKED_BYTES, DOCUMENTS, HASH_BYTES, ID_BYTES, LINE_DEPTH, PATH_HASHES, REVISIONS,
};
use crate::{Content, Refusal};
use std::cmp::Ordering;
use std::collections::BTreeSet;

/// The rules as they stand.
#[derive(Clone, Default)]
pub struct House;

impl Rules for House {}

pub trait Rules {
    // What a replica holds

    /// See [`ID_BYTES`].
    fn most_id_bytes(&self) -> usize {
        ID_BYTES
    }

    /// See [`DOCUMENTS`].
    fn most_documents(&self) -> usize {
        DOCUMENTS
    }

    /// See [`REVISIONS`].
    fn most_revisions(&self) -> usize {
        REVISIONS
    }

    /// See [`PATH_HASHES`].
    fn most_hashes(&self) -> usize {
        PATH_HASHES
    }

    /// Two ids are the same document exactly if they are the same bytes.
    fn key(&self, id: &[u8]) -> Vec<u8> {
        id.to_vec()
    }

    fn document<'a>(&self, held: &'a Held, id: &[u8]) -> Option<&'a Document> {
        held.documents.get(&self.key(id))
    }

    /// "Label 0 is an ordinary label."
    fn content(&self, given: Content) -> Content {
        given
    }

    /// "A revision that gains a child loses its content".
    fn gain_child(&self, document: &mut Document, parent: Revision) {
        document.contents.remove(&parent);
    }

    // Writing a path

    /// The revisions that the path gives, newest first. A hash of zeros is one like any other.
    fn revisions(&self, given: &Given) -> Vec<Revision> {
        given.revisions()
    }

    /// "Each hash is the parent of the one before it." Pairs of child and parent.
    fn parents(&self, given: &Given) -> Vec<(Revision, Revision)> {
        let revisions = self.revisions(given);
        let parents = revisions.iter().skip(1);
        revisions.iter().copied().zip(parents.copied()).collect()
    }

    /// Whether there are "revisions and parents that the path gives and the replica lacks".
    /// "Learning only a parent is a change."
    fn adds(&self, held: &Held, given: &Given) -> bool {
        self.new_revisions(held, given) > 0 || self.new_parents(held, given) > 0
    }

    fn new_revisions(&self, held: &Held, given: &Given) -> usize {
        let document = self.document(held, given.id);
        let known = |revision| document.is_some_and(|document| document.knows(revision));
        let revisions = self.revisions(given);
        revisions.into_iter().filter(|&given| !known(given)).count()
    }

    fn new_parents(&self, held: &Held, given: &Given) -> usize {
        let document = self.document(held, given.id);
        let parent = |child| document.and_then(|document| document.parent(child));
        let parents = self.parents(given);
        parents
            .into_iter()
            .filter(|&(child, _)| parent(child).is_none())
            .count()
    }

    /// "Where nothing was added the answer is "unchanged" and the sequence stays. Otherwise it is
    /// "changed", the sequence rises by one".
    fn sequence_after(&self, sequence: u32, added: bool) -> u32 {
        if added {
            sequence + 1
        } else {
            sequence
        }
    }

    // Ordinary edit

    /// "Naming a parent, that parent must be a leaf of the document, live or deleted. Naming none,
    /// the content must be live, and either the document is absent (the new revision has number 1)
    /// or its winner is a deletion, which becomes the parent." None if the rule isn't met.
    fn base(&self, held: &Held, edit: &Edit) -> Option<Base> {
        let document = self.document(held, edit.id);
        match edit.parent {
            Some(parent) => {
                document?.leaf(parent)?;
                Some(Base::Parent(parent))
            }
            None if edit.content == Content::Deleted => None,
            None => match document {
                None => Some(Base::NewDocument),
                Some(document) => {
                    let winner = self.winner(&document.leaves());
                    (winner.content == Content::Deleted).then_some(Base::Parent(winner.revision))
                }
            },
        }
    }

    /// "A parent's number is one lower." A new document begins at number 1.
    fn new_number(&self, base: Base) -> Option<u32> {
        match base {
            Base::NewDocument => Some(1),
            Base::Parent(parent) => parent.number.checked_add(1),
        }
    }

    // Refusal numbers and their order

    /// "A path write checks 1 to 8 in that order."
    fn write_order(&self) -> &'static [u32] {
        &[1, 2, 3, 4, 5, 6, 7, 8]
    }

    /// "An edit checks 1, 9, 11, 10, 6, 7, 8."
    fn edit_order(&self) -> &'static [u32] {
        &[1, 9, 11, 10, 6, 7, 8]
    }

    /// "Reads of a document check 1, 12, 13 (path only), 14".
    fn read_order(&self) -> &'static [u32] {
        &[1, 12, 13, 14]
    }

    /// "missing revisions 1, 15, 14".
    fn missing_order(&self) -> &'static [u32] {
        &[1, 15, 14]
    }

    /// 1: "id empty or over 32 bytes".
    fn bad_id(&self, id: &[u8]) -> bool {
        id.is_empty() || id.len() > self.most_id_bytes()
    }

    /// 2: "path bytes not a multiple of 16, or not 1 to 512 hashes".
    fn bad_path(&self, path: &[u8]) -> bool {
        let hashes = path.len() / HASH_BYTES;
        !path.len().is_multiple_of(HASH_BYTES) || !(1..=self.most_hashes()).contains(&hashes)
    }

    /// 3: "number smaller than the count of hashes".
    fn number_too_small(&self, given: &Given) -> bool {
        (given.number as usize) < given.path.len() / HASH_BYTES
    }

    /// 4: "a revision of the path has a known parent other than the one the path gives it (the
    /// oldest is given none, so never counts)".
    fn other_parent(&self, held: &Held, given: &Given) -> bool {
        let Some(document) = self.document(held, given.id) else {
            return false;
        };
        let parents = self.parents(given);
        parents
            .into_iter()
            .any(|(child, parent)| crossed(document, child, parent))
    }

    /// 5: "the newest is a known leaf with another content".
    fn other_content(&self, held: &Held, given: &Given) -> bool {
        let document = self.document(held, given.id);
        let known = document
            .zip(given.newest())
            .and_then(|(document, newest)| document.leaf(newest));
        known.is_some_and(|leaf| leaf.content != given.content)
    }

    /// 6: "document absent and 32 documents held".
    fn no_document_room(&self, held: &Held, id: &[u8]) -> bool {
        self.document(held, id).is_none() && held.documents.len() == self.most_documents()
    }

    /// 7: "revisions held plus new ones exceed 512".
    fn no_revision_room(&self, held: &Held, given: &Given) -> bool {
        held.revisions() + self.new_revisions(held, given) > self.most_revisions()
    }

    /// 8: "something would be added and the sequence is 4,294,967,295".
    fn no_sequence(&self, held: &Held, given: &Given) -> bool {
        self.adds(held, given) && held.sequence == 4_294_967_295
    }

    /// 9: "edit: the parent rule above isn't met".
    fn parent_rule_broken(&self, base: Option<Base>) -> bool {
        base.is_none()
    }

    /// 10: "edit: the new number and hash are known in the document".
    fn newest_known(&self, held: &Held, given: &Given) -> bool {
        let document = self.document(held, given.id);
        document
            .zip(given.newest())
            .is_some_and(|(document, newest)| document.knows(newest))
    }

    /// 11: "edit: the parent's number is 4,294,967,295".
    fn parent_is_last(&self, base: Base) -> bool {
        matches!(base, Base::Parent(parent) if parent.number == 4_294_967_295)
    }

    /// 12: "read: no such document".
    fn no_document(&self, held: &Held, id: &[u8]) -> bool {
        self.document(held, id).is_none()
    }

    /// 13: "read: no such revision in the document".
    fn no_revision(&self, document: &Document, revision: Revision) -> bool {
        !document.knows(revision)
    }

    /// 14: "a lent output buffer is shorter than the answer". There may be no answer to measure,
    /// where an earlier refusal is due.
    fn short(&self, out: &[u8], answer: Option<&[u8]>) -> bool {
        answer.is_some_and(|answer| out.len() < answer.len())
    }

    /// 15: "asked list not a multiple of 20 bytes".
    fn bad_asked(&self, asked: &[u8]) -> bool {
        !asked.len().is_multiple_of(ASKED_BYTES)
    }

    /// "An accepted call writes the answer at the front of the buffer and leaves the bytes after
    /// it."
    fn fill(&self, out: &mut [u8], answer: &[u8]) {
        out[..answer.len()].copy_from_slice(answer);
    }

    /// "A refusal [..] alters neither replica nor buffer": what a refused call does to the buffer.
    fn spill(&self, _refusal: Refusal, _out: &mut [u8], _answer: &[u8]) {}

    /// The same, of the replica: what a refused write does to it.
    fn refused_write(&self, _refusal: Refusal, _held: &mut Held, _given: &Given) {}

    // Reading

    /// "Winner: among live leaves the highest number, then the highest hash; with no live leaf, the
    /// same among deleted ones".
    fn winner(&self, leaves: &[Leaf]) -> Leaf {
        let highest = self
            .contenders(leaves)
            .into_iter()
            .max_by(|a, b| self.order(a.revision, b.revision));
        highest.expect("a document has a revision, so it has a leaf")
    }

    /// The leaves that the winner is chosen among.
    fn contenders(&self, leaves: &[Leaf]) -> Vec<Leaf> {
        let live: Vec<Leaf> = leaves
            .iter()
            .copied()
            .filter(|leaf| leaf.content != Content::Deleted)
            .collect();
        if live.is_empty() {
            leaves.to_vec()
        } else {
            live
        }
    }

    /// The higher number is higher; of equal ones the higher hash.
    fn order(&self, a: Revision, b: Revision) -> Ordering {
        a.cmp(&b)
    }

    /// "The document's conflicts are its leaves other than the winner."
    fn conflicts(&self, leaves: &[Leaf], winner: Leaf) -> usize {
        leaves.iter().filter(|&&leaf| leaf != winner).count()
    }

    /// "Of an absent document all are missing; so is number 0."
    fn is_missing(&self, document: Option<&Document>, revision: Revision) -> bool {
        !document.is_some_and(|document| document.knows(revision))
    }

    /// "the document with the lowest own sequence above s".
    fn is_after(&self, own_sequence: u32, s: u32) -> bool {
        own_sequence > s
    }

    // Documents as the protocol writes them

    /// "Refusals: 40 [..], 41 [..], 42 [..], 43 [..]; checked in that order, before 1 to 8."
    fn line_order(&self) -> &'static [u32] {
        &[40, 41, 42, 43]
    }

    /// "Putting out checks 1, 12, 43, 14."
    fn put_out_order(&self) -> &'static [u32] {
        &[1, 12, 43, 14]
    }

    /// See [`LINE_DEPTH`].
    fn most_depth(&self) -> usize {
        LINE_DEPTH
    }

    /// The text's value, if it is one "UTF-8 JSON [..] (RFC 8259)" and not "too deep".
    fn value(&self, line: &[u8]) -> Option<Value> {
        json::text(line, self.most_depth())
    }

    /// 40: "not one UTF-8 JSON object (RFC 8259) or too deep". The members of one that is.
    fn members(&self, line: &[u8]) -> Option<Vec<Member>> {
        match self.value(line)? {
            Value::Object(members) => Some(members),
            _ => None,
        }
    }

    /// The values of the members of a name. "a member name with an escape is unknown", so names are
    /// compared as written.
    fn named<'a>(&self, members: &'a [Member], name: &str) -> Vec<&'a Value> {
        let named = members.iter().filter(|m| m.name == name.as_bytes());
        named.map(|member| &member.value).collect()
    }

    /// 41: "member absent, repeated or of the wrong form". The members are none where 40 is due.
    fn bad_member(&self, _line: &[u8], members: Option<&[Member]>) -> bool {
        members.is_some_and(|members| self.line(members).is_none())
    }

    /// What the members say. None if one is "absent, repeated or of the wrong form"; "Unknown members
    /// are passed over whatever they hold".
    fn line(&self, members: &[Member]) -> Option<Line> {
        let [Value::String(id)] = self.named(members, "_id")[..] else {
            return None;
        };
        let [Value::String(rev)] = self.named(members, "_rev")[..] else {
            return None;
        };
        let revisions = match self.named(members, "_revisions")[..] {
            [] => None,
            [Value::Object(inside)] => Some(self.revisions_of(inside)?),
            _ => return None,
        };
        let deleted = self.named(members, "_deleted");
        let label = self.named(members, "label");
        Some(Line {
            id: self.id_of(id),
            rev: self.rev(rev)?,
            revisions,
            content: self.content_of(&deleted, &label)?,
        })
    }

    /// "Ids put out or taken in are, as written": no escape is decoded.
    fn id_of(&self, written: &[u8]) -> Vec<u8> {
        written.to_vec()
    }

    /// A revision as `_rev` has it: its number, a hyphen, its hash.
    fn rev(&self, written: &[u8]) -> Option<Revision> {
        let hyphen = written.iter().position(|&byte| byte == b'-')?;
        let (number, hash) = (&written[..hyphen], &written[hyphen + 1..]);
        Some(Revision {
            number: self.number(number, u32::MAX.into())? as u32,
            hash: self.hash_of(hash)?,
        })
    }

    /// "`_revisions` with `start` and `ids`". Other members there are passed over.
    fn revisions_of(&self, members: &[Member]) -> Option<Revisions> {
        let [Value::Number(start)] = self.named(members, "start")[..] else {
            return None;
        };
        let [Value::Array(ids)] = self.named(members, "ids")[..] else {
            return None;
        };
        let ids = ids.iter().map(|id| match id {
            Value::String(digits) => self.hash_of(digits),
            _ => None,
        });
        Some(Revisions {
            start: self.number(start, u32::MAX.into())? as u32,
            ids: ids.collect::<Option<Vec<Hash>>>()?,
        })
    }

    /// "Every line has `_deleted`, always true, or `label`; both is wrong form."
    fn content_of(&self, deleted: &[&Value], label: &[&Value]) -> Option<Content> {
        match (deleted, label) {
            ([Value::True], []) => Some(Content::Deleted),
            ([], [Value::Number(label)]) => Some(Content::Live(self.number(label, u64::MAX)?)),
            _ => None,
        }
    }

    /// "numbers that exceed their field, aren't bare digits or lead with a spare zero [..] are wrong
    /// form". The field holds the numbers up to the most.
    fn number(&self, written: &[u8], most: u64) -> Option<u64> {
        let bare = !written.is_empty() && written.iter().all(u8::is_ascii_digit);
        let spare_zero = written.len() > 1 && written[0] == b'0';
        if !bare || spare_zero {
            return None;
        }
        let number = written.iter().try_fold(0u64, |number, digit| {
            let digit = u64::from(digit - b'0');
            number.checked_mul(10)?.checked_add(digit)
        });
        number.filter(|&number| number <= most)
    }

    /// "Hashes are 32 lower-case hex digits".
    fn hash_of(&self, written: &[u8]) -> Option<Hash> {
        let digits: &[u8; 2 * HASH_BYTES] = written.try_into().ok()?;
        let mut hash = [0; HASH_BYTES];
        for (index, digit) in digits.iter().enumerate() {
            let value = b"0123456789abcdef"
                .iter()
                .position(|known| known == digit)?;
            hash[index / 2] = hash[index / 2] << 4 | value as u8;
        }
        Some(hash)
    }

    /// 42: "`_rev` and `_revisions` differ or no ids".
    fn revisions_differ(&self, line: &Line) -> bool {
        line.revisions.as_ref().is_some_and(|revisions| {
            revisions.start != line.rev.number || revisions.ids.first() != Some(&line.rev.hash)
        })
    }

    /// 43: "id can't be written". "Ids put out or taken in are, as written, bytes 20 to 7e hex with
    /// no quote or backslash".
    fn unwritable(&self, id: &[u8]) -> bool {
        id.iter()
            .any(|byte| !(0x20..=0x7e).contains(byte) || b"\"\\".contains(byte))
    }

    /// "Without `_revisions` the path is the one revision of `_rev`."
    fn path_of(&self, line: &Line) -> Vec<Hash> {
        match &line.revisions {
            Some(revisions) => revisions.ids.clone(),
            None => vec![line.rev.hash],
        }
    }

    /// "put a document's leaves out so, a line each, highest first".
    fn put_out_leaves(&self, document: &Document) -> Vec<Leaf> {
        let mut leaves = document.leaves();
        leaves.sort_by(|a, b| self.order(b.revision, a.revision));
        leaves
    }

    /// The ids of `_revisions`, which is put out for every leaf: its whole known path, newest first.
    fn put_out_ids(&self, document: &Document, leaf: Leaf) -> Option<Vec<Hash>> {
        Some(document.path(leaf.revision))
    }

    /// The digits of a label.
    fn put_out_label(&self, label: u64) -> String {
        label.to_string()
    }

    /// "a line each": every line ends with a newline, the last too.
    fn put_out_lines(&self, lines: Vec<Vec<u8>>) -> Vec<u8> {
        lines
            .into_iter()
            .flat_map(|line| [line, b"\n".to_vec()].concat())
            .collect()
    }

    // Pull

    /// "Pull reads a source replica after a given sequence".
    fn is_pulled(&self, own_sequence: u32, after: u32) -> bool {
        self.is_after(own_sequence, after)
    }

    /// "Documents come in order of their sequence".
    fn pull_order(&self, a: (&[u8], &Document), b: (&[u8], &Document)) -> Ordering {
        a.1.sequence.cmp(&b.1.sequence)
    }

    /// "every leaf is offered with its whole known path".
    fn offered_path(&self, document: &Document, leaf: Leaf) -> Vec<Hash> {
        document.path(leaf.revision)
    }

    /// "also where the target knows the leaf": no leaf is passed over.
    fn skips(&self, _target: &Held, _id: &[u8], _source: &Document, _leaf: Leaf) -> bool {
        false
    }

    /// "A refused offer is counted and pull goes on with the next leaf."
    fn stops_at_refusal(&self) -> bool {
        false
    }

    // The stored image

    /// "Refusals, in order, each over the whole image".
    fn image_order(&self) -> &'static [u32] {
        &[20, 21, 22, 23, 24, 25, 26]
    }

    /// 20: "fewer than 16 bytes".
    fn image_short(&self, bytes: &[u8]) -> bool {
        bytes.len() < HEAD_BYTES
    }

    /// 21: "edition not 1".
    fn other_edition(&self, head: &Head) -> bool {
        head.edition != 1
    }

    /// 22: "head: zero field not zero, d over 32, r over 512, total not by the formula or not the
    /// given length".
    fn bad_head(&self, head: &Head, bytes: &[u8]) -> bool {
        let documents = usize::from(head.documents);
        let revisions = usize::from(head.revisions);
        head.zero != 0
            || documents > self.most_documents()
            || revisions > self.most_revisions()
            || head.total as usize != image_bytes(documents, revisions)
            || head.total as usize != bytes.len()
    }

    /// 23: "contents entry, sequence aside; or the rows don't sum to r"; at "first bad entry; else
    /// d".
    fn contents_fault(&self, image: &Image) -> Option<u32> {
        let mut rows = 0;
        for (index, entry) in image.entries.iter().enumerate() {
            let before = index.checked_sub(1).map(|before| &image.entries[before]);
            let ascends = before.is_none_or(|before| self.ascend(before, entry));
            if !ascends || self.bad_entry(image, entry, rows) {
                return Some(index as u32);
            }
            rows += usize::from(entry.rows);
        }
        (rows != image.rows.len()).then_some(image.entries.len() as u32)
    }

    /// "id length (1), id filled with zeros (32), zero (1) [..] Rows at least 1. Bodies follow in
    /// this order without a gap." The count is of the rows of all entries before.
    fn bad_entry(&self, image: &Image, entry: &Entry, rows_before: usize) -> bool {
        let Some(id) = entry.id() else {
            return true;
        };
        let filling = &entry.id[id.len()..];
        id.is_empty()
            || filling.iter().any(|&byte| byte != 0)
            || entry.zero != 0
            || entry.rows == 0
            || entry.place as usize != image_bytes(image.entries.len(), rows_before)
    }

    /// "Ids strictly ascend, byte by byte, a prefix first." Of two out of order the later is bad.
    fn ascend(&self, before: &Entry, entry: &Entry) -> bool {
        before.id() < entry.id()
    }

    /// 24: "own sequence 0 or repeated; or the update sequence isn't the largest (0 if d is 0)"; at
    /// "first entry with 0 or repeating an earlier one; else d".
    fn sequence_fault(&self, image: &Image) -> Option<u32> {
        let mut seen = BTreeSet::from([0]);
        for (entry, index) in image.entries.iter().zip(0..) {
            if !seen.insert(entry.sequence) {
                return Some(index);
            }
        }
        let largest = seen.last().copied().expect("0 is in it");
        (!self.update_sequence_fits(image.head.sequence, largest))
            .then_some(image.entries.len() as u32)
    }

    /// "the update sequence isn't the largest" is the fault.
    fn update_sequence_fits(&self, update_sequence: u32, largest: u32) -> bool {
        update_sequence == largest
    }

    /// 25: "row by itself, or not above the row before it in its document"; at "first bad row".
    fn row_fault(&self, image: &Image) -> Option<u32> {
        for (first, rows) in image.bodies() {
            for (index, row) in rows.iter().enumerate() {
                let before = index.checked_sub(1).map(|before| &rows[before]);
                let ascends = before.is_none_or(|before| before.revision() < row.revision());
                if !ascends || self.bad_row(row) {
                    return Some(self.row_place(first, index));
                }
            }
        }
        None
    }

    /// "kind, flag, zeros, number 0, parent at number 1, hash or label not zero": the parent hash
    /// where the parent is unknown, and the label of a row that isn't live.
    fn bad_row(&self, row: &Row) -> bool {
        row.kind > 2
            || row.parent_known > 1
            || row.zero != 0
            || row.number == 0
            || (row.number == 1 && row.parent_known == 1)
            || (row.parent_known == 0 && row.parent_hash != [0; HASH_BYTES])
            || (row.kind != 1 && row.label != 0)
    }

    /// "Rows are counted from 0 through the whole image."
    fn row_place(&self, first: usize, index: usize) -> u32 {
        (first + index) as u32
    }

    /// "parent hash (16, zeros if unknown; a known one may be all zeros)". The parent is numbered
    /// one lower.
    fn row_parent(&self, row: &Row) -> Option<Revision> {
        if row.parent_known == 0 {
            return None;
        }
        Some(Revision {
            number: row.number.checked_sub(1)?,
            hash: row.parent_hash,
        })
    }

    /// 26: "known parent not in the document, or kind not fitting the children"; at "first bad
    /// row".
    fn parent_fault(&self, image: &Image) -> Option<u32> {
        for (first, rows) in image.bodies() {
            let known: BTreeSet<Revision> = rows.iter().map(Row::revision).collect();
            let parents = rows.iter().filter_map(|row| self.row_parent(row));
            let with_child: BTreeSet<Revision> = parents.collect();
            for (index, row) in rows.iter().enumerate() {
                let parent = self.row_parent(row);
                if parent.is_some_and(|parent| !self.parent_is_in(&known, parent))
                    || !self.kind_fits(row.kind, with_child.contains(&row.revision()))
                {
                    return Some(self.row_place(first, index));
                }
            }
        }
        None
    }

    /// "known parent not in the document" is the fault.
    fn parent_is_in(&self, known: &BTreeSet<Revision>, parent: Revision) -> bool {
        known.contains(&parent)
    }

    /// "0 has a child, 1 live, 2 deleted".
    fn kind_fits(&self, kind: u8, has_child: bool) -> bool {
        (kind == 0) == has_child
    }

    /// "A failed load leaves the former replica."
    fn failed_load(&self, _former: &mut Held) {}
}

/// Whether the child has a known parent other than the given one.
pub fn crossed(document: &Document, child: Revision, parent: Revision) -> bool {
    document.parent(child).is_some_and(|known| known != parent)
}
