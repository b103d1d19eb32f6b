//! Refusals, one variant for each number of the rules.

use std::error::Error;
use std::fmt;

use crate::header::TEXTS;

/// Why a call was refused. A refused call has altered neither the replica nor any lent buffer.
///
/// Each variant stands for one number of the rules, which [`Refusal::number`] gives. The refusals of
/// an image also have a place, which [`Refusal::place`] gives: an entry of the table of contents or
/// a row, both counted from 0 through the whole image.
///
/// ```
/// use refile::{Content, Refusal, Replica, RevisionNumber};
///
/// let mut replica = Replica::fresh();
/// let refused = replica.write_path(b"", RevisionNumber(1), &[[0x20; 16]], Content::Live(7));
/// assert_eq!(refused, Err(Refusal::Id));
/// assert_eq!(Refusal::Id.number(), 1);
/// assert_eq!(
///     Refusal::Id.to_string(),
///     "refused 1: the id is empty or over 32 bytes; give an id of 1 to 32 bytes"
/// );
/// ```
#[derive(Clone, Copy, Debug, PartialEq, Eq, Hash)]
#[non_exhaustive]
pub enum Refusal {
    /// 1: the id is empty or over 32 bytes.
    Id,
    /// 2: the path's bytes are not a multiple of 16, or not 1 to
    /// [`PATH_HASHES`](crate::PATH_HASHES) hashes.
    Path,
    /// 3: the number is smaller than the count of hashes.
    Number,
    /// 4: a revision of the path has a known parent other than the one the path gives it.
    Parent,
    /// 5: the newest revision is a known leaf with another content.
    Content,
    /// 6: the document is absent and [`DOCUMENTS`](crate::DOCUMENTS) documents are held.
    NoDocumentRoom,
    /// 7: the revisions held and the new ones exceed [`REVISIONS`](crate::REVISIONS).
    NoRevisionRoom,
    /// 8: something would be added and the update sequence is 4,294,967,295.
    NoSequence,
    /// 9, of an edit: the named parent is no leaf of the document; or none is named, and the
    /// content is a deletion or the document's winner is live.
    EditParent,
    /// 10, of an edit: the new number and hash are known in the document.
    EditKnown,
    /// 11, of an edit: the parent's number is 4,294,967,295.
    EditLast,
    /// 12, of a read: there is no such document.
    NoDocument,
    /// 13, of a read: there is no such revision in the document.
    NoRevision,
    /// 14: a lent buffer is shorter than the answer.
    ShortBuffer,
    /// 15: the asked list is not a multiple of 20 bytes.
    Asked,
    /// 20, of an image: fewer than 16 bytes.
    ImageShort,
    /// 21, of an image: the edition is not 1.
    ImageEdition,
    /// 22, of an image: the head's zero field isn't zero, it has more documents or revisions than
    /// there is room for, or the total isn't the one they give or not the given length.
    ImageHead,
    /// 23, of an image: an entry of the contents is at fault, its sequence aside, or the rows don't
    /// sum to the head's count.
    ImageContents {
        /// The first bad entry, else the count of documents.
        place: u32,
    },
    /// 24, of an image: an own sequence is 0 or repeated, or the update sequence isn't the largest of
    /// them, 0 if there are none.
    ImageSequence {
        /// The first entry with 0 or repeating an earlier one, else the count of documents.
        place: u32,
    },
    /// 25, of an image: a row is at fault by itself, or isn't above the row before it in its
    /// document.
    ImageRow {
        /// The first bad row.
        place: u32,
    },
    /// 26, of an image: a known parent isn't in the document, or a kind doesn't fit the children.
    ImageParent {
        /// The first bad row.
        place: u32,
    },
    /// 40, of a line: it is not one JSON object in UTF-8, or nested deeper than 16.
    NotJson,
    /// 41, of a line: a member is absent, repeated or of the wrong form.
    BadMember,
    /// 42, of a line: `_rev` and `_revisions` differ, or there are no ids.
    OtherRevisions,
    /// 43, of a line: the id can't be written. As written it has a byte outside 20 to 7e hex, a quote
    /// or a backslash.
    UnwritableId,
}

impl Refusal {
    /// The refusal's number in the rules.
    ///
    /// ```
    /// use refile::{Refusal, Replica};
    ///
    /// assert_eq!(Replica::from_image(b"short"), Err(Refusal::ImageShort));
    /// assert_eq!(Refusal::ImageShort.number(), 20);
    /// ```
    pub fn number(self) -> u32 {
        match self {
            Refusal::Id => 1,
            Refusal::Path => 2,
            Refusal::Number => 3,
            Refusal::Parent => 4,
            Refusal::Content => 5,
            Refusal::NoDocumentRoom => 6,
            Refusal::NoRevisionRoom => 7,
            Refusal::NoSequence => 8,
            Refusal::EditParent => 9,
            Refusal::EditKnown => 10,
            Refusal::EditLast => 11,
            Refusal::NoDocument => 12,
            Refusal::NoRevision => 13,
            Refusal::ShortBuffer => 14,
            Refusal::Asked => 15,
            Refusal::ImageShort => 20,
            Refusal::ImageEdition => 21,
            Refusal::ImageHead => 22,
            Refusal::ImageContents { .. } => 23,
            Refusal::ImageSequence { .. } => 24,
            Refusal::ImageRow { .. } => 25,
            Refusal::ImageParent { .. } => 26,
            Refusal::NotJson => 40,
            Refusal::BadMember => 41,
            Refusal::OtherRevisions => 42,
            Refusal::UnwritableId => 43,
        }
    }

    /// The place of an image's fault; 0 where the rules give place 0 or none.
    ///
    /// ```
    /// use refile::{Refusal, Replica};
    ///
    /// let mut image = Replica::fresh().image();
    /// image[11] = 1; // update sequence 1, with no document that has it
    /// let refused = Replica::from_image(&image).unwrap_err();
    /// assert_eq!(refused, Refusal::ImageSequence { place: 0 });
    /// assert_eq!((refused.number(), refused.place()), (24, 0));
    /// ```
    pub fn place(self) -> u32 {
        match self {
            Refusal::ImageContents { place }
            | Refusal::ImageSequence { place }
            | Refusal::ImageRow { place }
            | Refusal::ImageParent { place } => place,
            _ => 0,
        }
    }

    /// Whether the refusal is one of an image, and so belongs to a place in it.
    ///
    /// ```
    /// use refile::Refusal;
    ///
    /// assert!(Refusal::ImageHead.is_of_image());
    /// assert!(!Refusal::ShortBuffer.is_of_image());
    /// assert!(!Refusal::NotJson.is_of_image());
    /// ```
    pub fn is_of_image(self) -> bool {
        (20..=26).contains(&self.number())
    }

    /// The refusal that the C interface answered as a number and a value.
    ///
    /// A number from 100 up means that a call broke the interface's own terms, which the wrapper's
    /// types rule out; the same goes for any pair that the header doesn't allow.
    #[cold]
    pub(crate) fn from_answer(number: u32, value: u32) -> Refusal {
        let refusal = match number {
            1 => Refusal::Id,
            2 => Refusal::Path,
            3 => Refusal::Number,
            4 => Refusal::Parent,
            5 => Refusal::Content,
            6 => Refusal::NoDocumentRoom,
            7 => Refusal::NoRevisionRoom,
            8 => Refusal::NoSequence,
            9 => Refusal::EditParent,
            10 => Refusal::EditKnown,
            11 => Refusal::EditLast,
            12 => Refusal::NoDocument,
            13 => Refusal::NoRevision,
            14 => Refusal::ShortBuffer,
            15 => Refusal::Asked,
            20 => Refusal::ImageShort,
            21 => Refusal::ImageEdition,
            22 => Refusal::ImageHead,
            23 => Refusal::ImageContents { place: value },
            24 => Refusal::ImageSequence { place: value },
            25 => Refusal::ImageRow { place: value },
            26 => Refusal::ImageParent { place: value },
            40 => Refusal::NotJson,
            41 => Refusal::BadMember,
            42 => Refusal::OtherRevisions,
            43 => Refusal::UnwritableId,
            100.. => unreachable!(
                "house refusal {number}: the wrapper lends only replicas, known kinds and hashes of \
                 16 bytes"
            ),
            _ => unreachable!("refusal {number} is not in the interface's table"),
        };
        assert_eq!(refusal.place(), value, "refusal {number} has no such place");
        refusal
    }

    /// What the refusal means and what to do next, in one line.
    ///
    /// ```
    /// use refile::Refusal;
    ///
    /// let text = "there is no such document here; see that the id is right to the last byte";
    /// assert_eq!(Refusal::NoDocument.text(), text);
    /// ```
    pub fn text(self) -> &'static str {
        text(self.number()).expect("the header has a text for each refusal")
    }
}

/// The line for a refusal's number, house refusals of the C interface included: what it means and
/// what to do next. None for a number that the header doesn't have.
///
/// ```
/// use refile::{text, Refusal};
///
/// assert_eq!(text(12), Some(Refusal::NoDocument.text()));
/// assert!(text(100).is_some());
/// assert_eq!(text(16), None);
/// ```
pub fn text(number: u32) -> Option<&'static str> {
    let known = TEXTS.iter().find(|(known, _)| *known == number);
    known.map(|(_, text)| *text)
}

impl fmt::Display for Refusal {
    fn fmt(&self, f: &mut fmt::Formatter<'_>) -> fmt::Result {
        write!(f, "refused {}", self.number())?;
        if self.is_of_image() {
            write!(f, " at {}", self.place())?;
        }
        write!(f, ": {}", self.text())
    }
}

impl Error for Refusal {}
