//! The baseline: the rules as one would write them in Rust without proofs.
//!
//! The rows of all documents stand in one arena, sorted by document and revision as in an image, and
//! a document is a stretch of it. Documents and revisions are found by binary search; along a path,
//! the row next to the last one met is tried first. Answers go into lent buffers, and no call but
//! [`Replica::fresh`], [`Replica::report`] and a clone allocates.

use std::cmp::Ordering;
use std::fmt::Write as _;
use std::iter;
use std::mem;
use std::ops::Range;

use refile_model::sizes::{
    ASKED_BYTES, DOCUMENTS, HASH_BYTES, ID_BYTES, LEAF_BYTES, PATH_HASHES, REVISIONS,
};
use refile_model::{Change, Content, Counts, Refusal, Replica};

use crate::lines::{self, line_bytes, Line, Pen};

const HEAD_BYTES: usize = 16;
const ENTRY_BYTES: usize = 44;
const ROW_BYTES: usize = 48;

pub type Hash = [u8; HASH_BYTES];

/// The derived order is the one of the rules: by number, then by hash.
#[derive(Clone, Copy, PartialEq, Eq, PartialOrd, Ord)]
struct Revision {
    number: u32,
    hash: Hash,
}

#[derive(Clone, Copy)]
struct Row {
    revision: Revision,
    parent: Option<Hash>,
    /// The content of a leaf; none if the revision has a child.
    content: Option<Content>,
}

/// An id, filled with zeros.
#[derive(Clone, Copy)]
struct Id {
    filled: [u8; ID_BYTES],
    length: u8,
}

#[derive(Clone, Copy)]
struct Document {
    id: Id,
    sequence: u32,
    /// Where its rows begin in the arena, and how many there are.
    first: usize,
    rows: usize,
}

/// A replica.
pub struct Baseline {
    sequence: u32,
    /// Sorted by id.
    documents: Vec<Document>,
    /// The rows of each document, sorted by revision, in the order of the documents.
    rows: Vec<Row>,
    /// Room for the path of a line.
    path: Vec<Hash>,
}

/// A path write that is well-formed.
struct Offer<'a> {
    id: &'a [u8],
    number: u32,
    path: &'a [Hash],
    content: Content,
}

/// What an offer would add, found before anything is touched.
struct Plan {
    /// The document's index, or where it would be inserted.
    document: Result<usize, usize>,
    gains: Gains,
}

/// What a document would gain by an offer.
struct Gains {
    /// The newest revision's index in the document, or where it would be inserted.
    newest: Result<usize, usize>,
    new_revisions: usize,
    /// How many revisions of the path, from the newest, gain something or a child; 0 if none do.
    touched: usize,
}

pub const fn refusal(number: u32) -> Refusal {
    Refusal { number, place: 0 }
}

pub fn refuse_if(condition: bool, number: u32) -> Result<(), Refusal> {
    if condition {
        Err(refusal(number))
    } else {
        Ok(())
    }
}

fn check_id(id: &[u8]) -> Result<(), Refusal> {
    refuse_if(id.is_empty() || id.len() > ID_BYTES, 1)
}

/// The front of a lent buffer, if the answer fits.
fn front(out: &mut [u8], length: usize) -> Result<&mut [u8], Refusal> {
    out.get_mut(..length).ok_or(refusal(14))
}

fn find(rows: &[Row], revision: &Revision) -> Result<usize, usize> {
    rows.binary_search_by(|row| row.revision.cmp(revision))
}

/// Finds the parent of the row or gap that stands above these rows. Histories are mostly lines, so
/// the last row is tried first.
fn find_next(rows: &[Row], revision: &Revision) -> Result<usize, usize> {
    let Some((last, lower)) = rows.split_last() else {
        return Err(0);
    };
    match last.revision.cmp(revision) {
        Ordering::Less => Err(rows.len()),
        Ordering::Equal => Ok(lower.len()),
        Ordering::Greater => find(lower, revision),
    }
}

/// The indices of a row and of its ancestors, as far as parents are known.
fn ancestry(rows: &[Row], at: usize) -> impl Iterator<Item = usize> + '_ {
    iter::successors(Some(at), |&at| {
        let parent = Revision {
            number: rows[at].revision.number - 1,
            hash: rows[at].parent?,
        };
        find_next(&rows[..at], &parent).ok()
    })
}

/// The leaves, highest first.
fn leaves(rows: &[Row]) -> impl Iterator<Item = (&Row, Content)> + Clone {
    rows.iter()
        .rev()
        .filter_map(|row| Some((row, row.content?)))
}

/// The winner of a document, which always has a leaf.
fn winner(rows: &[Row]) -> (&Row, Content) {
    let mut leaves = leaves(rows);
    let top = leaves.clone().next();
    leaves
        .find(|(_, content)| matches!(content, Content::Live(_)))
        .or(top)
        .expect("a document has a leaf")
}

/// The paths of all rows of a document, each parent looked for once.
struct Paths<'a> {
    rows: &'a [Row],
    /// The index of each row's parent, where its path is longer than 1.
    parents: [u16; REVISIONS],
    /// How many hashes each row's path has.
    hashes: [u16; REVISIONS],
}

impl<'a> Paths<'a> {
    fn of(rows: &'a [Row]) -> Self {
        let mut paths = Paths {
            rows,
            parents: [0; REVISIONS],
            hashes: [0; REVISIONS],
        };
        for at in 0..rows.len() {
            let parent = ancestry(rows, at).nth(1);
            paths.parents[at] = parent.unwrap_or(0) as u16;
            paths.hashes[at] = 1 + parent.map_or(0, |parent| paths.hashes[parent]);
        }
        paths
    }

    /// The hashes of a row's path, newest first.
    fn hashes(&self, at: usize) -> impl Iterator<Item = &'a Hash> + '_ {
        let parents = iter::successors(Some(at), |&at| Some(self.parents[at].into()));
        parents
            .take(self.hashes[at].into())
            .map(|at| &self.rows[at].revision.hash)
    }

    /// How many bytes the lines of the leaves have.
    fn lines_bytes(&self, id: &[u8]) -> usize {
        let bytes = |(row, hashes): (&Row, &u16)| {
            let number = row.revision.number;
            Some(line_bytes(id, number, (*hashes).into(), row.content?))
        };
        self.rows.iter().zip(&self.hashes).filter_map(bytes).sum()
    }
}

fn put_leaf(out: &mut [u8; LEAF_BYTES], row: &Row, content: Content) {
    let (kind, label) = match content {
        Content::Live(label) => (1, label),
        Content::Deleted => (2, 0),
    };
    out[..4].copy_from_slice(&row.revision.number.to_be_bytes());
    out[4..20].copy_from_slice(&row.revision.hash);
    out[20] = kind;
    out[21..].copy_from_slice(&label.to_be_bytes());
}

impl Row {
    fn encode(&self, out: &mut [u8; ROW_BYTES]) {
        let (kind, label) = match self.content {
            None => (0, 0),
            Some(Content::Live(label)) => (1, label),
            Some(Content::Deleted) => (2, 0),
        };
        out[..4].copy_from_slice(&self.revision.number.to_be_bytes());
        out[4..20].copy_from_slice(&self.revision.hash);
        out[20] = kind;
        out[21] = self.parent.is_some().into();
        out[22..24].fill(0);
        out[24..40].copy_from_slice(&self.parent.unwrap_or_default());
        out[40..].copy_from_slice(&label.to_be_bytes());
    }

    /// Reads a row that was judged sound.
    fn decode(bytes: &[u8; ROW_BYTES]) -> Row {
        Row {
            revision: revision(bytes),
            parent: parent(bytes).map(|parent| parent.hash),
            content: match bytes[20] {
                0 => None,
                1 => Some(Content::Live(u64::from_be_bytes(field(bytes, 40)))),
                _ => Some(Content::Deleted),
            },
        }
    }
}

impl Id {
    fn new(id: &[u8]) -> Id {
        let mut filled = [0; ID_BYTES];
        filled[..id.len()].copy_from_slice(id);
        Id {
            filled,
            length: id.len() as u8,
        }
    }

    fn bytes(&self) -> &[u8] {
        &self.filled[..self.length.into()]
    }
}

impl Document {
    fn range(&self) -> Range<usize> {
        self.first..self.first + self.rows
    }
}

impl Offer<'_> {
    fn revision(&self, k: usize) -> Revision {
        Revision {
            number: self.number - k as u32,
            hash: self.path[k],
        }
    }

    fn parent(&self, k: usize) -> Option<Hash> {
        self.path.get(k + 1).copied()
    }

    fn row(&self, k: usize) -> Row {
        Row {
            revision: self.revision(k),
            parent: self.parent(k),
            content: (k == 0).then_some(self.content),
        }
    }

    /// What a document of these rows would gain. Decides refusals 4 and 5 in one pass over the path.
    fn gains(&self, mut rows: &[Row]) -> Result<Gains, Refusal> {
        let newest = find(rows, &self.revision(0));
        let content_differs =
            newest.is_ok_and(|at| rows[at].content.is_some_and(|held| held != self.content));
        let mut new_revisions = 0;
        let mut touched = 0;
        let mut found = newest;
        for k in 0..self.path.len() {
            if k > 0 {
                found = find_next(rows, &self.revision(k));
            }
            match found {
                Ok(at) => match (rows[at].parent, self.parent(k)) {
                    (Some(known), Some(given)) => refuse_if(known != given, 4)?,
                    (None, Some(_)) => touched = k + 2,
                    (_, None) => {}
                },
                Err(_) => {
                    new_revisions += 1;
                    touched = k + 2;
                }
            }
            // What is older lies below.
            let (Ok(at) | Err(at)) = found;
            rows = &rows[..at];
        }
        refuse_if(content_differs, 5)?;
        Ok(Gains {
            newest,
            new_revisions,
            touched: touched.min(self.path.len()),
        })
    }
}

impl Baseline {
    fn find_document(&self, id: &[u8]) -> Result<usize, usize> {
        self.documents
            .binary_search_by(|document| document.id.bytes().cmp(id))
    }

    fn rows_of(&self, document: &Document) -> &[Row] {
        &self.rows[document.range()]
    }

    /// The rows of a document; none if it is absent.
    fn body(&self, id: &[u8]) -> &[Row] {
        match self.find_document(id) {
            Ok(at) => self.rows_of(&self.documents[at]),
            Err(_) => &[],
        }
    }

    /// The rows of a document that must be there.
    fn read(&self, id: &[u8]) -> Result<&[Row], Refusal> {
        check_id(id)?;
        let rows = self.body(id);
        refuse_if(rows.is_empty(), 12)?;
        Ok(rows)
    }

    /// The document with the lowest own sequence above the given one.
    fn next_changed(&self, after: u32) -> Option<&Document> {
        self.documents
            .iter()
            .filter(|document| document.sequence > after)
            .min_by_key(|document| document.sequence)
    }

    /// Decides refusals 4 to 8.
    fn plan(&self, offer: &Offer) -> Result<Plan, Refusal> {
        let document = self.find_document(offer.id);
        let gains = match document {
            Ok(at) => offer.gains(self.rows_of(&self.documents[at]))?,
            Err(_) => Gains {
                newest: Err(0),
                new_revisions: offer.path.len(),
                touched: offer.path.len(),
            },
        };
        refuse_if(document.is_err() && self.documents.len() == DOCUMENTS, 6)?;
        refuse_if(self.rows.len() + gains.new_revisions > REVISIONS, 7)?;
        refuse_if(gains.touched > 0 && self.sequence == u32::MAX, 8)?;
        Ok(Plan { document, gains })
    }

    /// Makes the planned additions.
    fn apply(&mut self, plan: &Plan, offer: &Offer) {
        let gains = &plan.gains;
        let index = plan.document.unwrap_or_else(|at| {
            self.insert_document(at, offer.id);
            at
        });
        self.sequence += 1;
        let document = &mut self.documents[index];
        let first = document.first;
        document.sequence = self.sequence;
        document.rows += gains.new_revisions;
        for later in &mut self.documents[index + 1..] {
            later.first += gains.new_revisions;
        }
        let mut found = gains.newest;
        let mut k = 0;
        while k < gains.touched {
            let (Ok(at) | Err(at)) = found;
            let place = first + at;
            if found.is_ok() {
                let row = &mut self.rows[place];
                row.parent = row.parent.or(offer.parent(k));
                if k > 0 {
                    row.content = None;
                }
                k += 1;
                if k < gains.touched {
                    found = find_next(&self.rows[first..place], &offer.revision(k));
                }
            } else {
                // New revisions that fall between the same two rows go in together.
                let lower = &self.rows[first..place];
                let mut end = k + 1;
                while end < gains.touched {
                    found = find_next(lower, &offer.revision(end));
                    if found != Err(at) {
                        break;
                    }
                    end += 1;
                }
                let added = (k..end).rev().map(|k| offer.row(k));
                self.rows.splice(place..place, added);
                k = end;
            }
        }
    }

    fn insert_document(&mut self, at: usize, id: &[u8]) {
        let next = self.documents.get(at);
        let document = Document {
            id: Id::new(id),
            sequence: 0,
            first: next.map_or(self.rows.len(), |next| next.first),
            rows: 0,
        };
        self.documents.insert(at, document);
    }

    fn offer(&mut self, offer: &Offer) -> Result<bool, Refusal> {
        let plan = self.plan(offer)?;
        let changed = plan.gains.touched > 0;
        if changed {
            self.apply(&plan, offer);
        }
        Ok(changed)
    }

    /// Takes in what a line says: refusals 1 to 8.
    fn take_line(&mut self, line: &Line, path: &[Hash]) -> Result<bool, Refusal> {
        check_id(line.id)?;
        refuse_if(line.hashes > PATH_HASHES, 2)?;
        refuse_if((line.number as usize) < path.len(), 3)?;
        self.offer(&Offer {
            id: line.id,
            number: line.number,
            path,
            content: line.content,
        })
    }

    /// The rows of a document that can be put out.
    fn read_writable(&self, id: &[u8]) -> Result<&[Row], Refusal> {
        let rows = self.read(id)?;
        refuse_if(!lines::is_writable(id), 43)?;
        Ok(rows)
    }

    fn image_bytes(&self) -> usize {
        HEAD_BYTES + ENTRY_BYTES * self.documents.len() + ROW_BYTES * self.rows.len()
    }

    fn text(&self) -> String {
        let mut text = String::new();
        self.put_text(&mut text).expect("a string takes all text");
        text
    }

    fn put_text(&self, text: &mut String) -> std::fmt::Result {
        let (documents, revisions) = self.counts();
        writeln!(
            text,
            "seq {} documents {documents} revisions {revisions}",
            self.sequence
        )?;
        for document in &self.documents {
            let rows = self.rows_of(document);
            let leaves = leaves(rows).count();
            let Revision { number, hash } = winner(rows).0.revision;
            put_hex(text, document.id.bytes())?;
            write!(text, " seq {} winner {number}-", document.sequence)?;
            put_hex(text, &hash)?;
            writeln!(text, " leaves {leaves} conflicts {}", leaves - 1)?;
        }
        Ok(())
    }
}

fn put_hex(text: &mut String, bytes: &[u8]) -> std::fmt::Result {
    bytes.iter().try_for_each(|byte| write!(text, "{byte:02x}"))
}

impl Clone for Baseline {
    fn clone(&self) -> Self {
        let mut copy = Self::fresh();
        copy.clone_from(self);
        copy
    }

    /// Keeps the room that was allocated for the whole replica.
    fn clone_from(&mut self, source: &Self) {
        self.sequence = source.sequence;
        self.documents.clone_from(&source.documents);
        self.rows.clone_from(&source.rows);
    }
}

impl Replica for Baseline {
    fn fresh() -> Self {
        Baseline {
            sequence: 0,
            documents: Vec::with_capacity(DOCUMENTS),
            rows: Vec::with_capacity(REVISIONS),
            path: Vec::with_capacity(PATH_HASHES),
        }
    }

    fn load(&mut self, image: &[u8]) -> Result<(), Refusal> {
        let image = Image::judge(image)?;
        self.sequence = image.sequence;
        self.rows.clear();
        self.rows.extend(image.rows.iter().map(Row::decode));
        self.documents.clear();
        self.documents
            .extend(image.bodies().map(|(entry, range)| Document {
                id: Id {
                    filled: field(entry, 1),
                    length: entry[0],
                },
                sequence: entry_sequence(entry),
                first: range.start,
                rows: range.len(),
            }));
        Ok(())
    }

    fn save(&self, out: &mut [u8]) -> Result<u32, Refusal> {
        let length = self.image_bytes();
        let out = front(out, length)?;
        let (head, rest) = out.split_at_mut(HEAD_BYTES);
        let (contents, bodies) = rest.split_at_mut(ENTRY_BYTES * self.documents.len());
        head[..2].copy_from_slice(&1u16.to_be_bytes());
        head[2..4].copy_from_slice(&(self.documents.len() as u16).to_be_bytes());
        head[4..6].copy_from_slice(&(self.rows.len() as u16).to_be_bytes());
        head[6..8].fill(0);
        head[8..12].copy_from_slice(&self.sequence.to_be_bytes());
        head[12..].copy_from_slice(&(length as u32).to_be_bytes());
        let first_row = HEAD_BYTES + contents.len();
        let entries = contents.as_chunks_mut::<ENTRY_BYTES>().0;
        for (entry, document) in entries.iter_mut().zip(&self.documents) {
            let place = first_row + ROW_BYTES * document.first;
            entry[0] = document.id.length;
            entry[1..33].copy_from_slice(&document.id.filled);
            entry[33] = 0;
            entry[34..36].copy_from_slice(&(document.rows as u16).to_be_bytes());
            entry[36..40].copy_from_slice(&document.sequence.to_be_bytes());
            entry[40..].copy_from_slice(&(place as u32).to_be_bytes());
        }
        let bodies = bodies.as_chunks_mut::<ROW_BYTES>().0;
        for (bytes, row) in bodies.iter_mut().zip(&self.rows) {
            row.encode(bytes);
        }
        Ok(length as u32)
    }

    fn write(
        &mut self,
        id: &[u8],
        number: u32,
        path: &[u8],
        content: Content,
    ) -> Result<bool, Refusal> {
        check_id(id)?;
        let (path, torn) = path.as_chunks();
        let whole = torn.is_empty() && (1..=PATH_HASHES).contains(&path.len());
        refuse_if(!whole, 2)?;
        refuse_if((number as usize) < path.len(), 3)?;
        self.offer(&Offer {
            id,
            number,
            path,
            content,
        })
    }

    fn take_in(&mut self, line: &[u8]) -> Result<bool, Refusal> {
        let mut path = mem::take(&mut self.path);
        let line = lines::read(line, &mut path);
        let taken = line.and_then(|line| self.take_line(&line, &path));
        self.path = path;
        taken
    }

    fn edit(
        &mut self,
        id: &[u8],
        hash: Hash,
        content: Content,
        parent: Option<(u32, Hash)>,
    ) -> Result<u32, Refusal> {
        check_id(id)?;
        let rows = self.body(id);
        let parent = match parent {
            Some((number, hash)) => {
                let revision = Revision { number, hash };
                let leaf = find(rows, &revision).is_ok_and(|at| rows[at].content.is_some());
                refuse_if(!leaf, 9)?;
                Some(revision)
            }
            None => {
                refuse_if(content == Content::Deleted, 9)?;
                if rows.is_empty() {
                    None
                } else {
                    let (row, content) = winner(rows);
                    refuse_if(content != Content::Deleted, 9)?;
                    Some(row.revision)
                }
            }
        };
        let number = match parent {
            Some(parent) => parent.number.checked_add(1).ok_or(refusal(11))?,
            None => 1,
        };
        refuse_if(find(rows, &Revision { number, hash }).is_ok(), 10)?;
        let path = [hash, parent.map_or(hash, |parent| parent.hash)];
        self.offer(&Offer {
            id,
            number,
            path: &path[..if parent.is_some() { 2 } else { 1 }],
            content,
        })?;
        Ok(number)
    }

    fn winner(&self, id: &[u8], out: &mut [u8]) -> Result<u32, Refusal> {
        let (row, content) = winner(self.read(id)?);
        let out = out.first_chunk_mut().ok_or(refusal(14))?;
        put_leaf(out, row, content);
        Ok(LEAF_BYTES as u32)
    }

    fn leaves(&self, id: &[u8], out: &mut [u8]) -> Result<u32, Refusal> {
        let leaves = leaves(self.read(id)?);
        let count = leaves.clone().count();
        let out = front(out, LEAF_BYTES * count)?.as_chunks_mut().0;
        for (out, (row, content)) in out.iter_mut().zip(leaves) {
            put_leaf(out, row, content);
        }
        Ok(count as u32)
    }

    fn path(&self, id: &[u8], number: u32, hash: Hash, out: &mut [u8]) -> Result<u32, Refusal> {
        let rows = self.read(id)?;
        let at = find(rows, &Revision { number, hash }).map_err(|_| refusal(13))?;
        let count = ancestry(rows, at).count();
        let out = front(out, HASH_BYTES * count)?.as_chunks_mut().0;
        for (out, at) in out.iter_mut().zip(ancestry(rows, at)) {
            *out = rows[at].revision.hash;
        }
        Ok(count as u32)
    }

    fn put_out(&self, id: &[u8], out: &mut [u8]) -> Result<u32, Refusal> {
        let rows = self.read_writable(id)?;
        let paths = Paths::of(rows);
        let length = paths.lines_bytes(id);
        let mut pen = Pen::new(front(out, length)?);
        for (at, row) in rows.iter().enumerate().rev() {
            let Some(content) = row.content else {
                continue;
            };
            pen.put_line(id, row.revision.number, paths.hashes(at), content);
        }
        Ok(length as u32)
    }

    fn put_out_size(&self, id: &[u8]) -> Result<u32, Refusal> {
        let paths = Paths::of(self.read_writable(id)?);
        Ok(paths.lines_bytes(id) as u32)
    }

    fn missing(&self, id: &[u8], asked: &[u8], out: &mut [u8]) -> Result<u32, Refusal> {
        check_id(id)?;
        let (asked, torn) = asked.as_chunks::<ASKED_BYTES>();
        refuse_if(!torn.is_empty(), 15)?;
        let out = front(out, asked.len())?;
        let rows = self.body(id);
        for (out, asked) in out.iter_mut().zip(asked) {
            let revision = Revision {
                number: u32::from_be_bytes(field(asked, 0)),
                hash: field(asked, 4),
            };
            *out = find(rows, &revision).is_err().into();
        }
        Ok(asked.len() as u32)
    }

    fn changes(&self, after: u32, out: &mut [u8]) -> Result<Option<Change>, Refusal> {
        let Some(document) = self.next_changed(after) else {
            return Ok(None);
        };
        let id = document.id.bytes();
        front(out, id.len())?.copy_from_slice(id);
        let rows = self.rows_of(document);
        Ok(Some(Change {
            id_len: id.len() as u32,
            seq: document.sequence,
            leaves: leaves(rows).count() as u32,
            deleted: winner(rows).1 == Content::Deleted,
        }))
    }

    fn pull(&mut self, source: &Self, mut after: u32) -> Counts {
        let mut counts = Counts::default();
        let mut path = [[0; HASH_BYTES]; REVISIONS];
        while let Some(document) = source.next_changed(after) {
            after = document.sequence;
            let rows = source.rows_of(document);
            for (at, leaf) in rows.iter().enumerate().rev() {
                let Some(content) = leaf.content else {
                    continue;
                };
                let mut length = 0;
                for at in ancestry(rows, at) {
                    path[length] = rows[at].revision.hash;
                    length += 1;
                }
                let offered = self.offer(&Offer {
                    id: document.id.bytes(),
                    number: leaf.revision.number,
                    path: &path[..length],
                    content,
                });
                match offered {
                    Ok(true) => counts.changed += 1,
                    Ok(false) => counts.unchanged += 1,
                    Err(_) => counts.refused += 1,
                }
            }
        }
        counts
    }

    fn update_sequence(&self) -> u32 {
        self.sequence
    }

    fn counts(&self) -> (u32, u32) {
        (self.documents.len() as u32, self.rows.len() as u32)
    }

    fn report(image: &[u8], out: &mut [u8]) -> Result<u32, Refusal> {
        let mut replica = Self::fresh();
        let text = match replica.load(image) {
            Ok(()) => replica.text(),
            Err(Refusal { number, place }) => format!("refused {number} at {place}\n"),
        };
        front(out, text.len())?.copy_from_slice(text.as_bytes());
        Ok(text.len() as u32)
    }
}

/// An image that meets every rule, in place.
struct Image<'a> {
    sequence: u32,
    contents: &'a [[u8; ENTRY_BYTES]],
    rows: &'a [[u8; ROW_BYTES]],
}

/// The bytes of a field.
fn field<const N: usize>(bytes: &[u8], at: usize) -> [u8; N] {
    *bytes[at..].first_chunk().expect("the field lies inside")
}

fn entry_rows(entry: &[u8; ENTRY_BYTES]) -> usize {
    u16::from_be_bytes(field(entry, 34)).into()
}

fn entry_sequence(entry: &[u8; ENTRY_BYTES]) -> u32 {
    u32::from_be_bytes(field(entry, 36))
}

fn revision(row: &[u8; ROW_BYTES]) -> Revision {
    Revision {
        number: u32::from_be_bytes(field(row, 0)),
        hash: field(row, 4),
    }
}

/// A row's parent, if it is known; the row is sound, so its number is above 1.
fn parent(row: &[u8; ROW_BYTES]) -> Option<Revision> {
    (row[21] == 1).then(|| Revision {
        number: u32::from_be_bytes(field(row, 0)) - 1,
        hash: field(row, 24),
    })
}

fn row_is_sound(row: &[u8; ROW_BYTES]) -> bool {
    let number = u32::from_be_bytes(field(row, 0));
    let (kind, parent_known) = (row[20], row[21]);
    let parent_fits = match parent_known {
        0 => row[24..40] == [0; HASH_BYTES],
        1 => number > 1,
        _ => false,
    };
    let label_fits = match kind {
        0 | 2 => row[40..] == [0; 8],
        1 => true,
        _ => false,
    };
    number > 0 && parent_fits && label_fits && row[22..24] == [0; 2]
}

impl<'a> Image<'a> {
    /// Tries refusals 20 to 26 in their order.
    fn judge(image: &'a [u8]) -> Result<Self, Refusal> {
        let head: [u8; HEAD_BYTES] = *image.first_chunk().ok_or(refusal(20))?;
        refuse_if(field(&head, 0) != 1u16.to_be_bytes(), 21)?;
        let documents: usize = u16::from_be_bytes(field(&head, 2)).into();
        let revisions: usize = u16::from_be_bytes(field(&head, 4)).into();
        let total = HEAD_BYTES + ENTRY_BYTES * documents + ROW_BYTES * revisions;
        let head_is_sound = head[6..8] == [0; 2]
            && documents <= DOCUMENTS
            && revisions <= REVISIONS
            && u32::from_be_bytes(field(&head, 12)) as usize == total
            && image.len() == total;
        refuse_if(!head_is_sound, 22)?;
        let (contents, rows) = image[HEAD_BYTES..].split_at(ENTRY_BYTES * documents);
        let image = Image {
            sequence: u32::from_be_bytes(field(&head, 8)),
            contents: contents.as_chunks().0,
            rows: rows.as_chunks().0,
        };
        let refused = |number| {
            move |place| Refusal {
                number,
                place: place as u32,
            }
        };
        image.judge_contents(total).map_err(refused(23))?;
        image.judge_sequences().map_err(refused(24))?;
        image.judge_rows().map_err(refused(25))?;
        image.judge_parents().map_err(refused(26))?;
        Ok(image)
    }

    /// Each entry with the range of its rows, once the contents are sound.
    fn bodies(&self) -> impl Iterator<Item = (&'a [u8; ENTRY_BYTES], Range<usize>)> {
        let mut end = 0;
        self.contents.iter().map(move |entry| {
            let first = end;
            end += entry_rows(entry);
            (entry, first..end)
        })
    }

    fn judge_contents(&self, total: usize) -> Result<(), usize> {
        let mut place = HEAD_BYTES + ENTRY_BYTES * self.contents.len();
        let mut before: &[u8] = &[];
        for (i, entry) in self.contents.iter().enumerate() {
            let length: usize = entry[0].into();
            if !(1..=ID_BYTES).contains(&length) {
                return Err(i);
            }
            let (id, filling) = entry[1..34].split_at(length);
            let rows = entry_rows(entry);
            let sound = before < id
                && filling.iter().all(|&byte| byte == 0)
                && rows > 0
                && u32::from_be_bytes(field(entry, 40)) as usize == place;
            if !sound {
                return Err(i);
            }
            before = id;
            place += ROW_BYTES * rows;
        }
        if place == total {
            Ok(())
        } else {
            Err(self.contents.len())
        }
    }

    fn judge_sequences(&self) -> Result<(), usize> {
        let mut largest = 0;
        for (i, entry) in self.contents.iter().enumerate() {
            let own = entry_sequence(entry);
            let repeats = |earlier| entry_sequence(earlier) == own;
            if own == 0 || self.contents[..i].iter().any(repeats) {
                return Err(i);
            }
            largest = own.max(largest);
        }
        if self.sequence == largest {
            Ok(())
        } else {
            Err(self.contents.len())
        }
    }

    fn judge_rows(&self) -> Result<(), usize> {
        for (_, range) in self.bodies() {
            let mut before = None;
            for i in range {
                let revision = Some(revision(&self.rows[i]));
                if !row_is_sound(&self.rows[i]) || revision <= before {
                    return Err(i);
                }
                before = revision;
            }
        }
        Ok(())
    }

    fn judge_parents(&self) -> Result<(), usize> {
        let mut has_child = [false; REVISIONS];
        for (_, range) in self.bodies() {
            let mut first_bad = None;
            let rows = &self.rows[range.clone()];
            for (i, row) in rows.iter().enumerate() {
                let Some(parent) = parent(row) else {
                    continue;
                };
                match rows[..i].binary_search_by(|row| revision(row).cmp(&parent)) {
                    Ok(at) => has_child[range.start + at] = true,
                    Err(_) => first_bad = first_bad.or(Some(range.start + i)),
                }
            }
            let misfit = range
                .clone()
                .find(|&i| (self.rows[i][20] == 0) != has_child[i]);
            if let Some(place) = first_bad.into_iter().chain(misfit).min() {
                return Err(place);
            }
        }
        Ok(())
    }
}
