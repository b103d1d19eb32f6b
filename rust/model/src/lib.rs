//! An independent model of the replica library, for tests.
//!
//! [`model::Model`] was written from the rules of the document alone: sets and maps, slow and
//! obviously right. [`harness`] runs it beside any other [`Replica`] and compares every answer,
//! refusal, place and byte. [`faults`] holds wrong models, which show that the comparison notices.

pub mod faults;
pub mod harness;
pub mod held;
pub mod images;
pub mod json;
pub mod layout;
pub mod lines;
pub mod misreadings;
pub mod model;
pub mod offers;
pub mod random;
pub mod rules;
pub mod scenario;
pub mod sizes;
pub mod steps;
pub mod text;
pub mod texts;
pub mod trials;

/// What a leaf holds: a live body with its label, or a deletion.
#[derive(Clone, Copy, PartialEq, Eq, Debug)]
pub enum Content {
    Live(u64),
    Deleted,
}

/// A refusal's number, and the place of the fault if an image was refused, else 0.
#[derive(Clone, Copy, PartialEq, Eq, Debug)]
pub struct Refusal {
    pub number: u32,
    pub place: u32,
}

/// What changes answers about a document, beside the id it writes out.
#[derive(Clone, Copy, PartialEq, Eq, Debug)]
pub struct Change {
    pub id_len: u32,
    pub seq: u32,
    pub leaves: u32,
    pub deleted: bool,
}

/// What pull answers: how many offers there were of each kind.
#[derive(Clone, Copy, PartialEq, Eq, Debug, Default)]
pub struct Counts {
    pub changed: u32,
    pub unchanged: u32,
    pub refused: u32,
}

/// The calls of the library, as the harness sees them.
///
/// A buffer `out` is lent: an accepted call writes its answer at the front, and nothing else.
pub trait Replica: Clone {
    fn fresh() -> Self;

    fn load(&mut self, image: &[u8]) -> Result<(), Refusal>;

    /// Answers the image's length.
    fn save(&self, out: &mut [u8]) -> Result<u32, Refusal>;

    /// Answers whether the write changed anything.
    fn write(
        &mut self,
        id: &[u8],
        number: u32,
        path: &[u8],
        content: Content,
    ) -> Result<bool, Refusal>;

    /// Takes in a line of a dump, and answers whether it changed anything.
    fn take_in(&mut self, line: &[u8]) -> Result<bool, Refusal>;

    /// Answers the new revision's number.
    fn edit(
        &mut self,
        id: &[u8],
        hash: [u8; 16],
        content: Content,
        parent: Option<(u32, [u8; 16])>,
    ) -> Result<u32, Refusal>;

    /// Answers 29, the bytes of a leaf.
    fn winner(&self, id: &[u8], out: &mut [u8]) -> Result<u32, Refusal>;

    /// Answers the count of leaves.
    fn leaves(&self, id: &[u8], out: &mut [u8]) -> Result<u32, Refusal>;

    /// Answers the count of hashes.
    fn path(&self, id: &[u8], number: u32, hash: [u8; 16], out: &mut [u8]) -> Result<u32, Refusal>;

    /// Writes the document's leaves, a line each, and answers how many bytes were written.
    fn put_out(&self, id: &[u8], out: &mut [u8]) -> Result<u32, Refusal>;

    /// Answers how many bytes putting out would write.
    fn put_out_size(&self, id: &[u8]) -> Result<u32, Refusal>;

    /// Answers how many bytes were written.
    fn missing(&self, id: &[u8], asked: &[u8], out: &mut [u8]) -> Result<u32, Refusal>;

    /// Answers the next change, or none for "no more".
    fn changes(&self, after: u32, out: &mut [u8]) -> Result<Option<Change>, Refusal>;

    fn pull(&mut self, source: &Self, after: u32) -> Counts;

    fn update_sequence(&self) -> u32;

    /// Answers how many documents and how many revisions are held.
    fn counts(&self) -> (u32, u32);

    /// Writes the text of the check program for an image, and answers the text's length.
    fn report(image: &[u8], out: &mut [u8]) -> Result<u32, Refusal>;
}
