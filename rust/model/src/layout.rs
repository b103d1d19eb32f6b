//! The bytes of the stored image, field by field. Nothing here judges a field.

use crate::held::{Hash, Revision};
use crate::sizes::{DOCUMENTS, ID_BYTES, REVISIONS};

pub const HEAD_BYTES: usize = 16;
pub const ENTRY_BYTES: usize = 44;
pub const ROW_BYTES: usize = 48;

/// "The largest image has 26,000 bytes."
pub const IMAGE_MOST: usize = image_bytes(DOCUMENTS, REVISIONS);

/// "Head, 16 bytes: edition 1 (2), documents d (2), revisions r (2), zero (2), update sequence (4),
/// total length (4)".
#[derive(Clone, PartialEq, Eq, Debug)]
pub struct Head {
    pub edition: u16,
    pub documents: u16,
    pub revisions: u16,
    pub zero: u16,
    pub sequence: u32,
    pub total: u32,
}

/// "Contents, 44 bytes a document: id length (1), id filled with zeros (32), zero (1), rows (2),
/// own sequence (4), byte place of its first row (4)."
#[derive(Clone, PartialEq, Eq, Debug)]
pub struct Entry {
    pub id_length: u8,
    pub id: [u8; ID_BYTES],
    pub zero: u8,
    pub rows: u16,
    pub sequence: u32,
    pub place: u32,
}

/// "Row, 48 bytes: number (4), hash (16), kind (1: 0 has a child, 1 live, 2 deleted), parent known
/// (1: 0 or 1), zero (2), parent hash (16, zeros if unknown; a known one may be all zeros), label
/// (8, zero unless live)."
#[derive(Clone, PartialEq, Eq, Debug)]
pub struct Row {
    pub number: u32,
    pub hash: Hash,
    pub kind: u8,
    pub parent_known: u8,
    pub zero: u16,
    pub parent_hash: Hash,
    pub label: u64,
}

/// "House layout: table of contents first, then the bodies."
#[derive(Clone, PartialEq, Eq, Debug)]
pub struct Image {
    pub head: Head,
    pub entries: Vec<Entry>,
    pub rows: Vec<Row>,
}

/// Takes fields from the front of bytes that are known to be long enough.
struct Fields<'a>(&'a [u8]);

impl Fields<'_> {
    fn take<const N: usize>(&mut self) -> [u8; N] {
        let (field, rest) = self.0.split_first_chunk().expect("the length was checked");
        self.0 = rest;
        *field
    }

    fn u8(&mut self) -> u8 {
        u8::from_be_bytes(self.take())
    }

    fn u16(&mut self) -> u16 {
        u16::from_be_bytes(self.take())
    }

    fn u32(&mut self) -> u32 {
        u32::from_be_bytes(self.take())
    }

    fn u64(&mut self) -> u64 {
        u64::from_be_bytes(self.take())
    }
}

/// "16 + 44d + 48r".
pub const fn image_bytes(documents: usize, revisions: usize) -> usize {
    HEAD_BYTES + ENTRY_BYTES * documents + ROW_BYTES * revisions
}

impl Head {
    /// The head of an image, if the image is long enough to have one.
    pub fn read(bytes: &[u8]) -> Option<Head> {
        if bytes.len() < HEAD_BYTES {
            return None;
        }
        let mut fields = Fields(bytes);
        Some(Head {
            edition: fields.u16(),
            documents: fields.u16(),
            revisions: fields.u16(),
            zero: fields.u16(),
            sequence: fields.u32(),
            total: fields.u32(),
        })
    }
}

impl Entry {
    fn read(fields: &mut Fields) -> Entry {
        Entry {
            id_length: fields.u8(),
            id: fields.take(),
            zero: fields.u8(),
            rows: fields.u16(),
            sequence: fields.u32(),
            place: fields.u32(),
        }
    }

    /// The id without its filling, if its length fits the field.
    pub fn id(&self) -> Option<&[u8]> {
        self.id.get(..self.id_length.into())
    }
}

impl Row {
    fn read(fields: &mut Fields) -> Row {
        Row {
            number: fields.u32(),
            hash: fields.take(),
            kind: fields.u8(),
            parent_known: fields.u8(),
            zero: fields.u16(),
            parent_hash: fields.take(),
            label: fields.u64(),
        }
    }

    pub fn revision(&self) -> Revision {
        Revision {
            number: self.number,
            hash: self.hash,
        }
    }
}

impl Image {
    /// The fields of an image, if its length is what its head's documents and revisions come to.
    pub fn read(bytes: &[u8]) -> Option<Image> {
        let head = Head::read(bytes)?;
        if bytes.len() != image_bytes(head.documents.into(), head.revisions.into()) {
            return None;
        }
        let mut fields = Fields(&bytes[HEAD_BYTES..]);
        Some(Image {
            entries: (0..head.documents)
                .map(|_| Entry::read(&mut fields))
                .collect(),
            rows: (0..head.revisions)
                .map(|_| Row::read(&mut fields))
                .collect(),
            head,
        })
    }

    /// The bytes of the fields, whatever they say.
    pub fn bytes(&self) -> Vec<u8> {
        let mut bytes = Vec::new();
        bytes.extend(self.head.edition.to_be_bytes());
        bytes.extend(self.head.documents.to_be_bytes());
        bytes.extend(self.head.revisions.to_be_bytes());
        bytes.extend(self.head.zero.to_be_bytes());
        bytes.extend(self.head.sequence.to_be_bytes());
        bytes.extend(self.head.total.to_be_bytes());
        for entry in &self.entries {
            bytes.push(entry.id_length);
            bytes.extend(entry.id);
            bytes.push(entry.zero);
            bytes.extend(entry.rows.to_be_bytes());
            bytes.extend(entry.sequence.to_be_bytes());
            bytes.extend(entry.place.to_be_bytes());
        }
        for row in &self.rows {
            bytes.extend(row.number.to_be_bytes());
            bytes.extend(row.hash);
            bytes.push(row.kind);
            bytes.push(row.parent_known);
            bytes.extend(row.zero.to_be_bytes());
            bytes.extend(row.parent_hash);
            bytes.extend(row.label.to_be_bytes());
        }
        bytes
    }

    /// The rows of each document, with the index of the first one in the whole image. The entries'
    /// counts of rows must sum to the rows.
    pub fn bodies(&self) -> Vec<(usize, &[Row])> {
        let mut first = 0;
        let mut bodies = Vec::new();
        for entry in &self.entries {
            let end = first + usize::from(entry.rows);
            bodies.push((first, &self.rows[first..end]));
            first = end;
        }
        bodies
    }
}
