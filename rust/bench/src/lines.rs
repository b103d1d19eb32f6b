//! Lines of dumps: read in place, the hashes straight into a path, and put out into a lent buffer.

use refile_model::sizes::{HASH_BYTES, LINE_DEPTH, PATH_HASHES};
use refile_model::{Content, Refusal};

use crate::baseline::{refusal, refuse_if, Hash};
use crate::hex::{hash_before_quote, hex};
use crate::json::{NotJson, Reader, Text};

/// What a line says beside its path.
pub struct Line<'a> {
    pub id: &'a [u8],
    pub number: u32,
    /// How many hashes were given; only as many as a path may have are laid down.
    pub hashes: usize,
    pub content: Content,
}

/// How deep the values of the line's members may go, of those of `_revisions`, and of the ids.
const IN_LINE: usize = LINE_DEPTH - 1;
const IN_REVISIONS: usize = IN_LINE - 1;
const IN_IDS: usize = IN_REVISIONS - 1;

/// What was met of our members, while the rest is yet to be read.
struct Members<'a, 'p> {
    id: Option<Text<'a>>,
    rev: Option<(u32, Hash)>,
    start: Option<u32>,
    ids: Option<usize>,
    revisions: bool,
    content: Option<Content>,
    /// A member is repeated or of the wrong form, which is told only once the whole line was read.
    wrong: bool,
    path: &'p mut Vec<Hash>,
}

/// Reads a line: 40 to 43.
pub fn read<'a>(line: &'a [u8], path: &mut Vec<Hash>) -> Result<Line<'a>, Refusal> {
    path.clear();
    let mut members = Members {
        id: None,
        rev: None,
        start: None,
        ids: None,
        revisions: false,
        content: None,
        wrong: false,
        path,
    };
    let mut reader = Reader::new(line);
    reader.ws();
    reader
        .object(|reader, name| members.member(reader, name))
        .and_then(|()| reader.end())
        .map_err(|NotJson| refusal(40))?;
    members.line()
}

impl<'a> Members<'a, '_> {
    /// Reads the value of a member of the line, which begins with the reader's next byte.
    fn member(&mut self, reader: &mut Reader<'a>, name: &[u8]) -> Result<(), NotJson> {
        match (name, reader.next()) {
            (b"_id", b'"') => {
                let id = reader.string()?;
                self.wrong |= self.id.replace(id).is_some();
            }
            (b"_rev", b'"') => match rev(reader) {
                Some(rev) => self.wrong |= self.rev.replace(rev).is_some(),
                None => self.wrong(reader, IN_LINE)?,
            },
            (b"_revisions", b'{') => {
                self.wrong |= self.revisions;
                self.revisions = true;
                reader.object(|reader, name| self.revisions_member(reader, name))?;
            }
            (b"_deleted", b't') => {
                reader.literal(b"true")?;
                self.wrong |= self.content.replace(Content::Deleted).is_some();
            }
            (b"label", b'-' | b'0'..=b'9') => {
                let label = reader.number()?.map(Content::Live);
                self.wrong |= label.is_none() || self.content.is_some();
                self.content = label;
            }
            (b"_id" | b"_rev" | b"_revisions" | b"_deleted" | b"label", _) => {
                self.wrong(reader, IN_LINE)?;
            }
            _ => reader.skip(IN_LINE)?,
        }
        Ok(())
    }

    /// The same of a member of `_revisions`.
    fn revisions_member(&mut self, reader: &mut Reader<'a>, name: &[u8]) -> Result<(), NotJson> {
        match (name, reader.next()) {
            (b"start", b'-' | b'0'..=b'9') => {
                let start = reader.number()?.and_then(|start| start.try_into().ok());
                self.wrong |= start.is_none() || self.start.is_some();
                self.start = start;
            }
            (b"ids", b'[') => {
                let mut ids = 0;
                reader.array(|reader| {
                    ids += 1;
                    self.next_id(reader)
                })?;
                self.wrong |= self.ids.replace(ids).is_some();
            }
            (b"start" | b"ids", _) => self.wrong(reader, IN_REVISIONS)?,
            _ => reader.skip(IN_REVISIONS)?,
        }
        Ok(())
    }

    fn next_id(&mut self, reader: &mut Reader<'a>) -> Result<(), NotJson> {
        match hash(reader) {
            Some(hash) => {
                if self.path.len() < PATH_HASHES {
                    self.path.push(hash);
                }
                Ok(())
            }
            None => self.wrong(reader, IN_IDS),
        }
    }

    /// Notes that a value is of the wrong form, and passes it.
    #[cold]
    fn wrong(&mut self, reader: &mut Reader<'a>, depth: usize) -> Result<(), NotJson> {
        self.wrong = true;
        reader.skip(depth)
    }

    /// What the line says, once it was read: 41 to 43.
    fn line(self) -> Result<Line<'a>, Refusal> {
        refuse_if(self.wrong, 41)?;
        let (Some(id), Some((number, hash)), Some(content)) = (self.id, self.rev, self.content)
        else {
            return Err(refusal(41));
        };
        let hashes = if self.revisions {
            let (Some(start), Some(hashes)) = (self.start, self.ids) else {
                return Err(refusal(41));
            };
            refuse_if(start != number || self.path.first() != Some(&hash), 42)?;
            hashes
        } else {
            self.path.push(hash);
            1
        };
        refuse_if(!id.plain, 43)?;
        Ok(Line {
            id: id.written,
            number,
            hashes,
            content,
        })
    }
}

/// Reads the string of a hash, or reads nothing.
fn hash(reader: &mut Reader) -> Option<Hash> {
    let rest = reader.rest().strip_prefix(b"\"")?;
    let hash = hash_before_quote(rest)?;
    reader.pass(2 * HASH_BYTES + 2);
    Some(hash)
}

/// Reads the string of `_rev`, a number, a hyphen and a hash, or reads nothing.
fn rev(reader: &mut Reader) -> Option<(u32, Hash)> {
    let rest = reader.rest().strip_prefix(b"\"")?;
    let hyphen = rest.iter().take(11).position(|&byte| byte == b'-')?;
    let number = decimal(&rest[..hyphen])?;
    let hash = hash_before_quote(&rest[hyphen + 1..])?;
    reader.pass(hyphen + 2 * HASH_BYTES + 3);
    Some((number, hash))
}

/// The number of some digits, of which there are at most ten.
fn decimal(digits: &[u8]) -> Option<u32> {
    let spare_zero = digits.len() > 1 && digits[0] == b'0';
    if digits.is_empty() || spare_zero || !digits.iter().all(u8::is_ascii_digit) {
        return None;
    }
    let number = digits
        .iter()
        .fold(0, |number, digit| 10 * number + u64::from(digit - b'0'));
    number.try_into().ok()
}

// Putting out

/// Whether a line can have the id.
pub fn is_writable(id: &[u8]) -> bool {
    id.iter()
        .all(|byte| matches!(byte, 0x20..=0x7e) && !matches!(byte, b'"' | b'\\'))
}

const BEFORE_ID: &[u8; 8] = b"{\"_id\":\"";
const BEFORE_REV: &[u8; 10] = b"\",\"_rev\":\"";
const BEFORE_START: &[u8; 24] = b"\",\"_revisions\":{\"start\":";
const BEFORE_IDS: &[u8; 9] = b",\"ids\":[\"";
const DELETED: &[u8; 21] = b"\"]},\"_deleted\":true}\n";
const BEFORE_LABEL: &[u8; 12] = b"\"]},\"label\":";
const AFTER_LABEL: &[u8; 2] = b"}\n";

const BETWEEN_IDS: &[u8; 3] = b"\",\"";

/// How many bytes the line of a leaf has.
pub fn line_bytes(id: &[u8], number: u32, hashes: usize, content: Content) -> usize {
    let content = match content {
        Content::Deleted => DELETED.len(),
        Content::Live(label) => BEFORE_LABEL.len() + digits(label) + AFTER_LABEL.len(),
    };
    let rev = digits(number.into()) + 1 + 2 * HASH_BYTES;
    let ids = 2 * HASH_BYTES * hashes + BETWEEN_IDS.len() * (hashes - 1);
    let revisions = digits(number.into()) + BEFORE_IDS.len() + ids;
    BEFORE_ID.len() + id.len() + BEFORE_REV.len() + rev + BEFORE_START.len() + revisions + content
}

/// How many digits a number has.
fn digits(number: u64) -> usize {
    number.checked_ilog10().map_or(1, |log| log as usize + 1)
}

/// A buffer that the lines fit, and how much of it is written.
pub struct Pen<'a> {
    out: &'a mut [u8],
    at: usize,
}

impl<'a> Pen<'a> {
    pub fn new(out: &'a mut [u8]) -> Self {
        Pen { out, at: 0 }
    }

    /// The next bytes, for the caller to write.
    fn next(&mut self, bytes: usize) -> &mut [u8] {
        let at = self.at;
        self.at += bytes;
        &mut self.out[at..at + bytes]
    }

    fn put(&mut self, bytes: &[u8]) {
        self.next(bytes.len()).copy_from_slice(bytes);
    }

    fn put_decimal(&mut self, mut number: u64) {
        for digit in self.next(digits(number)).iter_mut().rev() {
            *digit = b'0' + (number % 10) as u8;
            number /= 10;
        }
    }

    /// Writes the line of a leaf of this number, whose path begins with its own hash.
    pub fn put_line<'r>(
        &mut self,
        id: &[u8],
        number: u32,
        mut path: impl Iterator<Item = &'r Hash>,
        content: Content,
    ) {
        let newest = hex(path.next().expect("a path has its newest"));
        self.put(BEFORE_ID);
        self.put(id);
        self.put(BEFORE_REV);
        self.put_decimal(number.into());
        self.put(b"-");
        self.put(&newest);
        self.put(BEFORE_START);
        self.put_decimal(number.into());
        self.put(BEFORE_IDS);
        self.put(&newest);
        for hash in path {
            self.put(BETWEEN_IDS);
            self.put(&hex(hash));
        }
        match content {
            Content::Deleted => self.put(DELETED),
            Content::Live(label) => {
                self.put(BEFORE_LABEL);
                self.put_decimal(label);
                self.put(AFTER_LABEL);
            }
        }
    }
}
