//! Wrong models: the right one with one rule replaced by a mistake that someone could make.
//!
//! Each shows that the comparison notices its kind of mistake. Those about lines stand in
//! [`misreadings`](crate::misreadings).

use crate::harness::{check_image, run_scenario, Difference};
use crate::held::{Base, Document, Edit, Given, Hash, Held, Leaf, Revision};
use crate::layout::{Entry, Image, Row};
use crate::misreadings::*;
use crate::model::ModelOf;
use crate::rules::{self, House, Rules};
use crate::sizes::{DOCUMENTS, HASH_BYTES, ID_BYTES, PATH_HASHES, REVISIONS};
use crate::steps::Scenario;
use crate::{Content, Refusal, Replica};
use std::cmp::Ordering;
use std::collections::BTreeSet;

/// A wrong model, ready to be compared with a right one.
pub struct Fault {
    pub name: &'static str,
    pub run_scenario: fn(&Scenario) -> Result<(), Difference>,
    pub check_image: fn(&[u8]) -> Result<(), Difference>,
}

fn fault<A: Replica, R: Rules + Clone + Default>() -> Fault {
    let path = std::any::type_name::<R>();
    Fault {
        name: path.rsplit("::").next().unwrap_or(path),
        run_scenario: run_scenario::<A, ModelOf<R>>,
        check_image: check_image::<A, ModelOf<R>>,
    }
}

/// All wrong models, each to be compared with the given kind of replica.
pub fn all<A: Replica>() -> Vec<Fault> {
    vec![
        fault::<A, IdsWithoutLength>(),
        fault::<A, LabelZeroDeletes>(),
        fault::<A, ContentKeptByParent>(),
        fault::<A, LongestIdRefused>(),
        fault::<A, DocumentTooMany>(),
        fault::<A, RevisionTooMany>(),
        fault::<A, LongestPathRefused>(),
        fault::<A, ZeroParentUnknown>(),
        fault::<A, AncestryDropped>(),
        fault::<A, ParentAloneIsNoChange>(),
        fault::<A, SequenceRaisedOnUnchanged>(),
        fault::<A, SequenceWraps>(),
        fault::<A, NumberZeroReached>(),
        fault::<A, OldestParentCounts>(),
        fault::<A, CrossedAboveUnnoticed>(),
        fault::<A, OtherContentUnnoticed>(),
        fault::<A, ContentOfParentRefused>(),
        fault::<A, KnownDocumentNeedsRoom>(),
        fault::<A, KnownRevisionsNeedRoom>(),
        fault::<A, UnchangedNeedsSequence>(),
        fault::<A, EditOnLiveWinner>(),
        fault::<A, EditBeginsDeleted>(),
        fault::<A, EditOnAnyRevision>(),
        fault::<A, EditOnDeletedRefused>(),
        fault::<A, PathBeforeId>(),
        fault::<A, NumberBeforePath>(),
        fault::<A, ContentBeforeParent>(),
        fault::<A, RoomBeforeParent>(),
        fault::<A, RoomBeforeContent>(),
        fault::<A, RevisionRoomBeforeDocumentRoom>(),
        fault::<A, SequenceBeforeRoom>(),
        fault::<A, ParentRuleBeforeId>(),
        fault::<A, KnownBeforeLast>(),
        fault::<A, DocumentRoomBeforeParentRule>(),
        fault::<A, EditSequenceBeforeRoom>(),
        fault::<A, DocumentBeforeId>(),
        fault::<A, BufferBeforeDocument>(),
        fault::<A, AskedBeforeId>(),
        fault::<A, BufferBeforeAsked>(),
        fault::<A, BytesAfterCleared>(),
        fault::<A, ShortBufferFilled>(),
        fault::<A, RefusedWriteKept>(),
        fault::<A, DeletedWinsByNumber>(),
        fault::<A, NumberAsText>(),
        fault::<A, HashFromItsEnd>(),
        fault::<A, LowestHashWins>(),
        fault::<A, NumberZeroKnown>(),
        fault::<A, ParentsMissing>(),
        fault::<A, ChangesFromS>(),
        fault::<A, KnownLeafSkipped>(),
        fault::<A, FirstLeafOnly>(),
        fault::<A, BareLeafOffered>(),
        fault::<A, PullStopsAtRefusal>(),
        fault::<A, PullInIdOrder>(),
        fault::<A, PullFromTheBeginning>(),
        fault::<A, TombstonesNoConflicts>(),
        fault::<A, SpareZeroTaken>(),
        fault::<A, MinusZeroTaken>(),
        fault::<A, FractionTaken>(),
        fault::<A, ExponentTaken>(),
        fault::<A, NumberWraps>(),
        fault::<A, NumberSaturates>(),
        fault::<A, LabelsAsDoubles>(),
        fault::<A, LabelsPutOutAsDoubles>(),
        fault::<A, NumberZeroOfWrongForm>(),
        fault::<A, CapitalHashTaken>(),
        fault::<A, EscapedHashDecoded>(),
        fault::<A, EscapedIdDecoded>(),
        fault::<A, EscapedNameKnown>(),
        fault::<A, LastMemberCounts>(),
        fault::<A, FirstMemberCounts>(),
        fault::<A, UnknownRepeatedRefused>(),
        fault::<A, OursFoundDeeper>(),
        fault::<A, RevisionsHoldOursAlone>(),
        fault::<A, LaterIdsUnchecked>(),
        fault::<A, FalsePassedOver>(),
        fault::<A, AnyDeletes>(),
        fault::<A, BothContentsTaken>(),
        fault::<A, NoContentIsZero>(),
        fault::<A, RevisionsTrusted>(),
        fault::<A, StartAloneCompared>(),
        fault::<A, FirstIdAloneCompared>(),
        fault::<A, NoIdsTaken>(),
        fault::<A, NoIdsLeftToTheWrite>(),
        fault::<A, RevisionsWanted>(),
        fault::<A, AncestryPassedOver>(),
        fault::<A, DeleteWritable>(),
        fault::<A, TildeUnwritable>(),
        fault::<A, AnyCharacterWritable>(),
        fault::<A, EmptyUnwritable>(),
        fault::<A, UnwritableBeforeRevisions>(),
        fault::<A, IdBeforeUnwritable>(),
        fault::<A, IdBeforeRevisions>(),
        fault::<A, FormBeforeText>(),
        fault::<A, DeeperTaken>(),
        fault::<A, DeepestRefused>(),
        fault::<A, ObjectsAloneCounted>(),
        fault::<A, OverlongTaken>(),
        fault::<A, SurrogatesTaken>(),
        fault::<A, AboveTheLastTaken>(),
        fault::<A, OctetsUnchecked>(),
        fault::<A, ControlsTaken>(),
        fault::<A, OtherSpacesTaken>(),
        fault::<A, LoneSurrogateRefused>(),
        fault::<A, MarkPassedOver>(),
        fault::<A, RestPassedOver>(),
        fault::<A, ZerosAtTheEndPassedOver>(),
        fault::<A, LastCommaTaken>(),
        fault::<A, NoNumberTaken>(),
        fault::<A, LastNewlineLeftOut>(),
        fault::<A, CarriageReturns>(),
        fault::<A, LowestPutOutFirst>(),
        fault::<A, TombstonesLeftOut>(),
        fault::<A, WinnerAlonePutOut>(),
        fault::<A, ShortRevisionsLeftOut>(),
        fault::<A, OldestIdFirst>(),
        fault::<A, ParentsAlonePutOut>(),
        fault::<A, BufferBeforeUnwritable>(),
        fault::<A, UnwritableBeforeDocument>(),
        fault::<A, UnwritableBeforeId>(),
        fault::<A, LinesClosed>(),
        fault::<A, HeadBeforeEdition>(),
        fault::<A, SequencesBeforeContents>(),
        fault::<A, ParentsBeforeRows>(),
        fault::<A, IdsFilledAlike>(),
        fault::<A, RowsPastTheEndBlamed>(),
        fault::<A, LargerUpdateSequence>(),
        fault::<A, LiveLabelZeroRefused>(),
        fault::<A, PlacePerDocument>(),
        fault::<A, ZeroParentUnknownInImage>(),
        fault::<A, ParentByHashAlone>(),
        fault::<A, KindsAfterParents>(),
        fault::<A, LeafKindWithChild>(),
        fault::<A, FailedLoadEmpties>(),
    ]
}

// What a replica holds

/// Compares ids as they are filled with zeros, so that `a` and `a` with a zero byte are one.
#[derive(Clone, Default)]
pub struct IdsWithoutLength;

impl Rules for IdsWithoutLength {
    fn key(&self, id: &[u8]) -> Vec<u8> {
        let end = id.iter().rposition(|&byte| byte != 0);
        id[..end.map_or(0, |last| last + 1)].to_vec()
    }
}

/// Takes a body of label 0 for a deletion.
#[derive(Clone, Default)]
pub struct LabelZeroDeletes;

impl Rules for LabelZeroDeletes {
    fn content(&self, given: Content) -> Content {
        match given {
            Content::Live(0) => Content::Deleted,
            other => other,
        }
    }
}

/// Leaves a revision its content when it gains a child.
#[derive(Clone, Default)]
pub struct ContentKeptByParent;

impl Rules for ContentKeptByParent {
    fn gain_child(&self, _document: &mut Document, _parent: Revision) {}
}

/// Has an id's length wrong by one.
#[derive(Clone, Default)]
pub struct LongestIdRefused;

impl Rules for LongestIdRefused {
    fn most_id_bytes(&self) -> usize {
        ID_BYTES - 1
    }
}

/// Holds one document too many.
#[derive(Clone, Default)]
pub struct DocumentTooMany;

impl Rules for DocumentTooMany {
    fn most_documents(&self) -> usize {
        DOCUMENTS + 1
    }
}

/// Holds one revision too many.
#[derive(Clone, Default)]
pub struct RevisionTooMany;

impl Rules for RevisionTooMany {
    fn most_revisions(&self) -> usize {
        REVISIONS + 1
    }
}

/// Refuses the longest path.
#[derive(Clone, Default)]
pub struct LongestPathRefused;

impl Rules for LongestPathRefused {
    fn most_hashes(&self) -> usize {
        PATH_HASHES - 1
    }
}

// Writing a path

/// Takes a parent of zeros as "unknown", so that the path ends there.
#[derive(Clone, Default)]
pub struct ZeroParentUnknown;

impl Rules for ZeroParentUnknown {
    fn revisions(&self, given: &Given) -> Vec<Revision> {
        let mut revisions = given.revisions();
        let unknown = |revision: &Revision| revision.hash == [0; HASH_BYTES];
        if let Some(end) = revisions.iter().skip(1).position(unknown) {
            revisions.truncate(end + 1);
        }
        revisions
    }
}

/// Drops the ancestry when the newest revision is known.
#[derive(Clone, Default)]
pub struct AncestryDropped;

impl Rules for AncestryDropped {
    fn adds(&self, held: &Held, given: &Given) -> bool {
        !self.newest_known(held, given)
    }
}

/// Doesn't take learning a parent for a change.
#[derive(Clone, Default)]
pub struct ParentAloneIsNoChange;

impl Rules for ParentAloneIsNoChange {
    fn adds(&self, held: &Held, given: &Given) -> bool {
        self.new_revisions(held, given) > 0
    }
}

/// Raises the sequence at every accepted write.
#[derive(Clone, Default)]
pub struct SequenceRaisedOnUnchanged;

impl Rules for SequenceRaisedOnUnchanged {
    fn sequence_after(&self, sequence: u32, _added: bool) -> u32 {
        sequence.saturating_add(1)
    }
}

/// Goes on from 0 after the last sequence.
#[derive(Clone, Default)]
pub struct SequenceWraps;

impl Rules for SequenceWraps {
    fn no_sequence(&self, _held: &Held, _given: &Given) -> bool {
        false
    }

    fn sequence_after(&self, sequence: u32, added: bool) -> u32 {
        sequence.wrapping_add(added.into())
    }
}

/// Lets a path reach down to number 0.
#[derive(Clone, Default)]
pub struct NumberZeroReached;

impl Rules for NumberZeroReached {
    fn number_too_small(&self, given: &Given) -> bool {
        (given.number as usize) + 1 < given.path.len() / HASH_BYTES
    }
}

/// Takes the oldest revision of a path for one without a parent.
#[derive(Clone, Default)]
pub struct OldestParentCounts;

impl Rules for OldestParentCounts {
    fn other_parent(&self, held: &Held, given: &Given) -> bool {
        let Some(document) = self.document(held, given.id) else {
            return false;
        };
        let parents = self.parents(given);
        given.revisions().into_iter().any(|revision| {
            let given = parents.iter().find(|(child, _)| *child == revision);
            let known = document.parent(revision);
            known.is_some() && known != given.map(|(_, parent)| *parent)
        })
    }
}

/// Joins histories at the deepest common revision alone, so that a crossed parent above it goes
/// unnoticed.
#[derive(Clone, Default)]
pub struct CrossedAboveUnnoticed;

impl Rules for CrossedAboveUnnoticed {
    fn other_parent(&self, held: &Held, given: &Given) -> bool {
        let Some(document) = self.document(held, given.id) else {
            return false;
        };
        let revisions = given.revisions();
        let Some(deepest) = revisions.iter().rposition(|&r| document.knows(r)) else {
            return false;
        };
        let parent = revisions.get(deepest + 1);
        parent.is_some_and(|&parent| rules::crossed(document, revisions[deepest], parent))
    }
}

/// Takes the content of a known leaf on trust.
#[derive(Clone, Default)]
pub struct OtherContentUnnoticed;

impl Rules for OtherContentUnnoticed {
    fn other_content(&self, _held: &Held, _given: &Given) -> bool {
        false
    }
}

/// Refuses the content of a known revision with a child instead of dropping it.
#[derive(Clone, Default)]
pub struct ContentOfParentRefused;

impl Rules for ContentOfParentRefused {
    fn other_content(&self, held: &Held, given: &Given) -> bool {
        let document = self.document(held, given.id);
        let newest = document.zip(given.newest());
        newest.is_some_and(|(document, newest)| {
            document.knows(newest) && document.contents.get(&newest) != Some(&given.content)
        })
    }
}

/// Refuses a write to a known document once there is no room for another.
#[derive(Clone, Default)]
pub struct KnownDocumentNeedsRoom;

impl Rules for KnownDocumentNeedsRoom {
    fn no_document_room(&self, held: &Held, _id: &[u8]) -> bool {
        held.documents.len() == self.most_documents()
    }
}

/// Counts the known revisions of a path as new ones.
#[derive(Clone, Default)]
pub struct KnownRevisionsNeedRoom;

impl Rules for KnownRevisionsNeedRoom {
    fn no_revision_room(&self, held: &Held, given: &Given) -> bool {
        held.revisions() + given.revisions().len() > self.most_revisions()
    }
}

/// Refuses every write at the last sequence, also one that adds nothing.
#[derive(Clone, Default)]
pub struct UnchangedNeedsSequence;

impl Rules for UnchangedNeedsSequence {
    fn no_sequence(&self, held: &Held, _given: &Given) -> bool {
        held.sequence == u32::MAX
    }
}

// Ordinary edit

/// The parent rule with its two conditions left open: what a named parent must be, and what the
/// winner, if there is a document, must be where none is named.
fn base_of(
    rules: &dyn Rules,
    held: &Held,
    edit: &Edit,
    named: impl Fn(&Document, Revision) -> bool,
    unnamed: impl Fn(Option<Leaf>) -> bool,
) -> Option<Base> {
    let document = rules.document(held, edit.id);
    match edit.parent {
        Some(parent) => document
            .is_some_and(|document| named(document, parent))
            .then_some(Base::Parent(parent)),
        None => {
            let winner = document.map(|document| rules.winner(&document.leaves()));
            let base = winner.map_or(Base::NewDocument, |winner| Base::Parent(winner.revision));
            unnamed(winner).then_some(base)
        }
    }
}

fn is_leaf(document: &Document, revision: Revision) -> bool {
    document.leaf(revision).is_some()
}

fn absent_or_deleted(winner: Option<Leaf>) -> bool {
    winner.is_none_or(|winner| winner.content == Content::Deleted)
}

/// Builds on the winner even if it is live.
#[derive(Clone, Default)]
pub struct EditOnLiveWinner;

impl Rules for EditOnLiveWinner {
    fn base(&self, held: &Held, edit: &Edit) -> Option<Base> {
        let live = edit.content != Content::Deleted;
        base_of(self, held, edit, is_leaf, |_| live)
    }
}

/// Lets an edit that names no parent be a deletion.
#[derive(Clone, Default)]
pub struct EditBeginsDeleted;

impl Rules for EditBeginsDeleted {
    fn base(&self, held: &Held, edit: &Edit) -> Option<Base> {
        base_of(self, held, edit, is_leaf, absent_or_deleted)
    }
}

/// Builds on every known revision, also one with a child.
#[derive(Clone, Default)]
pub struct EditOnAnyRevision;

impl Rules for EditOnAnyRevision {
    fn base(&self, held: &Held, edit: &Edit) -> Option<Base> {
        let live = edit.content != Content::Deleted;
        base_of(self, held, edit, Document::knows, |winner| {
            live && absent_or_deleted(winner)
        })
    }
}

/// Builds on no deleted leaf that is named.
#[derive(Clone, Default)]
pub struct EditOnDeletedRefused;

impl Rules for EditOnDeletedRefused {
    fn base(&self, held: &Held, edit: &Edit) -> Option<Base> {
        let live = edit.content != Content::Deleted;
        let live_leaf = |document: &Document, revision| {
            let leaf = document.leaf(revision);
            leaf.is_some_and(|leaf| leaf.content != Content::Deleted)
        };
        base_of(self, held, edit, live_leaf, |winner| {
            live && absent_or_deleted(winner)
        })
    }
}

// Refusal numbers and their order

/// Tries 2 before 1.
#[derive(Clone, Default)]
pub struct PathBeforeId;

impl Rules for PathBeforeId {
    fn write_order(&self) -> &'static [u32] {
        &[2, 1, 3, 4, 5, 6, 7, 8]
    }
}

/// Tries 3 before 2.
#[derive(Clone, Default)]
pub struct NumberBeforePath;

impl Rules for NumberBeforePath {
    fn write_order(&self) -> &'static [u32] {
        &[1, 3, 2, 4, 5, 6, 7, 8]
    }
}

/// Tries 5 before 4.
#[derive(Clone, Default)]
pub struct ContentBeforeParent;

impl Rules for ContentBeforeParent {
    fn write_order(&self) -> &'static [u32] {
        &[1, 2, 3, 5, 4, 6, 7, 8]
    }
}

/// Tries 6, 7 and 8 before 4 and 5.
#[derive(Clone, Default)]
pub struct RoomBeforeParent;

impl Rules for RoomBeforeParent {
    fn write_order(&self) -> &'static [u32] {
        &[1, 2, 3, 6, 7, 8, 4, 5]
    }
}

/// Tries 6, 7 and 8 before 5.
#[derive(Clone, Default)]
pub struct RoomBeforeContent;

impl Rules for RoomBeforeContent {
    fn write_order(&self) -> &'static [u32] {
        &[1, 2, 3, 4, 6, 7, 8, 5]
    }
}

/// Tries 7 before 6.
#[derive(Clone, Default)]
pub struct RevisionRoomBeforeDocumentRoom;

impl Rules for RevisionRoomBeforeDocumentRoom {
    fn write_order(&self) -> &'static [u32] {
        &[1, 2, 3, 4, 5, 7, 6, 8]
    }
}

/// Tries 8 before 7.
#[derive(Clone, Default)]
pub struct SequenceBeforeRoom;

impl Rules for SequenceBeforeRoom {
    fn write_order(&self) -> &'static [u32] {
        &[1, 2, 3, 4, 5, 6, 8, 7]
    }
}

/// Tries 9 before 1.
#[derive(Clone, Default)]
pub struct ParentRuleBeforeId;

impl Rules for ParentRuleBeforeId {
    fn edit_order(&self) -> &'static [u32] {
        &[9, 1, 11, 10, 6, 7, 8]
    }
}

/// Tries 10 before 11, with a number that stops at the last one.
#[derive(Clone, Default)]
pub struct KnownBeforeLast;

impl Rules for KnownBeforeLast {
    fn edit_order(&self) -> &'static [u32] {
        &[1, 9, 10, 11, 6, 7, 8]
    }

    fn new_number(&self, base: Base) -> Option<u32> {
        match base {
            Base::NewDocument => Some(1),
            Base::Parent(parent) => Some(parent.number.saturating_add(1)),
        }
    }
}

/// Tries 6 before 9.
#[derive(Clone, Default)]
pub struct DocumentRoomBeforeParentRule;

impl Rules for DocumentRoomBeforeParentRule {
    fn edit_order(&self) -> &'static [u32] {
        &[1, 6, 9, 11, 10, 7, 8]
    }
}

/// Tries 8 before 7 in an edit.
#[derive(Clone, Default)]
pub struct EditSequenceBeforeRoom;

impl Rules for EditSequenceBeforeRoom {
    fn edit_order(&self) -> &'static [u32] {
        &[1, 9, 11, 10, 6, 8, 7]
    }
}

/// Tries 12 before 1.
#[derive(Clone, Default)]
pub struct DocumentBeforeId;

impl Rules for DocumentBeforeId {
    fn read_order(&self) -> &'static [u32] {
        &[12, 1, 13, 14]
    }
}

/// Tries 14 before 12, with the least that any answer has.
#[derive(Clone, Default)]
pub struct BufferBeforeDocument;

impl Rules for BufferBeforeDocument {
    fn read_order(&self) -> &'static [u32] {
        &[1, 14, 12, 13]
    }

    fn short(&self, out: &[u8], answer: Option<&[u8]>) -> bool {
        out.len() < answer.map_or(16, <[u8]>::len)
    }
}

/// Tries 15 before 1.
#[derive(Clone, Default)]
pub struct AskedBeforeId;

impl Rules for AskedBeforeId {
    fn missing_order(&self) -> &'static [u32] {
        &[15, 1, 14]
    }
}

/// Tries 14 before 15.
#[derive(Clone, Default)]
pub struct BufferBeforeAsked;

impl Rules for BufferBeforeAsked {
    fn missing_order(&self) -> &'static [u32] {
        &[1, 14, 15]
    }
}

/// Clears the buffer before it writes an answer.
#[derive(Clone, Default)]
pub struct BytesAfterCleared;

impl Rules for BytesAfterCleared {
    fn fill(&self, out: &mut [u8], answer: &[u8]) {
        out.fill(0);
        out[..answer.len()].copy_from_slice(answer);
    }
}

/// Writes as much of an answer as fits before it refuses.
#[derive(Clone, Default)]
pub struct ShortBufferFilled;

impl Rules for ShortBufferFilled {
    fn spill(&self, refusal: Refusal, out: &mut [u8], answer: &[u8]) {
        if refusal.number == 14 {
            let fits = out.len();
            out.copy_from_slice(&answer[..fits]);
        }
    }
}

/// Keeps the newest revision of a write that it refuses because the ancestry doesn't fit.
#[derive(Clone, Default)]
pub struct RefusedWriteKept;

impl Rules for RefusedWriteKept {
    fn refused_write(&self, refusal: Refusal, held: &mut Held, given: &Given) {
        let room = held.revisions() < self.most_revisions();
        let document = held.documents.get_mut(given.id);
        if let (7, true, Some(document), Some(newest)) =
            (refusal.number, room, document, given.newest())
        {
            if document.revisions.insert(newest) {
                document.contents.insert(newest, given.content);
            }
        }
    }
}

// Reading

/// Lets a deleted leaf win by its number.
#[derive(Clone, Default)]
pub struct DeletedWinsByNumber;

impl Rules for DeletedWinsByNumber {
    fn contenders(&self, leaves: &[Leaf]) -> Vec<Leaf> {
        leaves.to_vec()
    }
}

/// Compares numbers as text, so that "9-" is above "10-".
#[derive(Clone, Default)]
pub struct NumberAsText;

impl Rules for NumberAsText {
    fn order(&self, a: Revision, b: Revision) -> Ordering {
        let text = |revision: Revision| (revision.number.to_string(), revision.hash);
        text(a).cmp(&text(b))
    }
}

/// Compares hashes last byte first.
#[derive(Clone, Default)]
pub struct HashFromItsEnd;

impl Rules for HashFromItsEnd {
    fn order(&self, a: Revision, b: Revision) -> Ordering {
        let reversed = |revision: Revision| u128::from_le_bytes(revision.hash);
        (a.number, reversed(a)).cmp(&(b.number, reversed(b)))
    }
}

/// Prefers the lowest hash of equal numbers.
#[derive(Clone, Default)]
pub struct LowestHashWins;

impl Rules for LowestHashWins {
    fn order(&self, a: Revision, b: Revision) -> Ordering {
        (a.number, b.hash).cmp(&(b.number, a.hash))
    }
}

/// Takes number 0 for known.
#[derive(Clone, Default)]
pub struct NumberZeroKnown;

impl Rules for NumberZeroKnown {
    fn is_missing(&self, document: Option<&Document>, revision: Revision) -> bool {
        let known = document.is_some_and(|document| document.knows(revision));
        revision.number != 0 && !known
    }
}

/// Takes a revision whose content is gone for a missing one.
#[derive(Clone, Default)]
pub struct ParentsMissing;

impl Rules for ParentsMissing {
    fn is_missing(&self, document: Option<&Document>, revision: Revision) -> bool {
        !document.is_some_and(|document| is_leaf(document, revision))
    }
}

/// Begins the changes at s instead of above it.
#[derive(Clone, Default)]
pub struct ChangesFromS;

impl Rules for ChangesFromS {
    fn is_after(&self, own_sequence: u32, s: u32) -> bool {
        own_sequence >= s
    }
}

// Pull

/// Skips a leaf that the target knows.
#[derive(Clone, Default)]
pub struct KnownLeafSkipped;

impl Rules for KnownLeafSkipped {
    fn skips(&self, target: &Held, id: &[u8], _source: &Document, leaf: Leaf) -> bool {
        let document = self.document(target, id);
        document.is_some_and(|document| document.knows(leaf.revision))
    }
}

/// Writes the first leaf of a document and only counts the rest.
#[derive(Clone, Default)]
pub struct FirstLeafOnly;

impl Rules for FirstLeafOnly {
    fn skips(&self, _target: &Held, _id: &[u8], source: &Document, leaf: Leaf) -> bool {
        source.leaves().last() != Some(&leaf)
    }
}

/// Offers a leaf without its ancestry.
#[derive(Clone, Default)]
pub struct BareLeafOffered;

impl Rules for BareLeafOffered {
    fn offered_path(&self, _document: &Document, leaf: Leaf) -> Vec<Hash> {
        vec![leaf.revision.hash]
    }
}

/// Ends at the first refused offer.
#[derive(Clone, Default)]
pub struct PullStopsAtRefusal;

impl Rules for PullStopsAtRefusal {
    fn stops_at_refusal(&self) -> bool {
        true
    }
}

/// Takes the documents in the order of their ids.
#[derive(Clone, Default)]
pub struct PullInIdOrder;

impl Rules for PullInIdOrder {
    fn pull_order(&self, a: (&[u8], &Document), b: (&[u8], &Document)) -> Ordering {
        a.0.cmp(b.0)
    }
}

/// Takes all documents, whatever the sequence to begin after.
#[derive(Clone, Default)]
pub struct PullFromTheBeginning;

impl Rules for PullFromTheBeginning {
    fn is_pulled(&self, _own_sequence: u32, _after: u32) -> bool {
        true
    }
}

// The check program

/// Counts only live leaves as conflicts.
#[derive(Clone, Default)]
pub struct TombstonesNoConflicts;

impl Rules for TombstonesNoConflicts {
    fn conflicts(&self, leaves: &[Leaf], winner: Leaf) -> usize {
        let conflict = |leaf: &Leaf| *leaf != winner && leaf.content != Content::Deleted;
        leaves.iter().copied().filter(conflict).count()
    }
}

// The stored image

/// Tries 22 before 21.
#[derive(Clone, Default)]
pub struct HeadBeforeEdition;

impl Rules for HeadBeforeEdition {
    fn image_order(&self) -> &'static [u32] {
        &[20, 22, 21, 23, 24, 25, 26]
    }
}

/// Tries 24 before 23.
#[derive(Clone, Default)]
pub struct SequencesBeforeContents;

impl Rules for SequencesBeforeContents {
    fn image_order(&self) -> &'static [u32] {
        &[20, 21, 22, 24, 23, 25, 26]
    }
}

/// Tries 26 before 25.
#[derive(Clone, Default)]
pub struct ParentsBeforeRows;

impl Rules for ParentsBeforeRows {
    fn image_order(&self) -> &'static [u32] {
        &[20, 21, 22, 23, 24, 26, 25]
    }
}

/// Compares the ids of an image with their filling and without their length.
#[derive(Clone, Default)]
pub struct IdsFilledAlike;

impl Rules for IdsFilledAlike {
    fn ascend(&self, before: &Entry, entry: &Entry) -> bool {
        before.id < entry.id
    }
}

/// Blames the entry whose rows run past the last one.
#[derive(Clone, Default)]
pub struct RowsPastTheEndBlamed;

impl Rules for RowsPastTheEndBlamed {
    fn bad_entry(&self, image: &Image, entry: &Entry, rows_before: usize) -> bool {
        House.bad_entry(image, entry, rows_before)
            || rows_before + usize::from(entry.rows) > image.rows.len()
    }
}

/// Lets the update sequence be above the largest own one.
#[derive(Clone, Default)]
pub struct LargerUpdateSequence;

impl Rules for LargerUpdateSequence {
    fn update_sequence_fits(&self, update_sequence: u32, largest: u32) -> bool {
        update_sequence >= largest
    }
}

/// Takes label 0 for none.
#[derive(Clone, Default)]
pub struct LiveLabelZeroRefused;

impl Rules for LiveLabelZeroRefused {
    fn bad_row(&self, row: &Row) -> bool {
        House.bad_row(row) || (row.kind == 1 && row.label == 0)
    }
}

/// Counts rows from the first one of their document.
#[derive(Clone, Default)]
pub struct PlacePerDocument;

impl Rules for PlacePerDocument {
    fn row_place(&self, _first: usize, index: usize) -> u32 {
        index as u32
    }
}

/// Takes a parent of zeros in an image as "unknown".
#[derive(Clone, Default)]
pub struct ZeroParentUnknownInImage;

impl Rules for ZeroParentUnknownInImage {
    fn row_parent(&self, row: &Row) -> Option<Revision> {
        House
            .row_parent(row)
            .filter(|parent| parent.hash != [0; HASH_BYTES])
    }
}

/// Looks for a parent by its hash alone.
#[derive(Clone, Default)]
pub struct ParentByHashAlone;

impl Rules for ParentByHashAlone {
    fn parent_is_in(&self, known: &BTreeSet<Revision>, parent: Revision) -> bool {
        known.iter().any(|revision| revision.hash == parent.hash)
    }
}

/// Tries the parents of all rows before the first kind.
#[derive(Clone, Default)]
pub struct KindsAfterParents;

/// Keeps the half of 26 that is about parents.
#[derive(Clone, Default)]
struct ParentsOnly;

impl Rules for ParentsOnly {
    fn kind_fits(&self, _kind: u8, _has_child: bool) -> bool {
        true
    }
}

/// Keeps the half of 26 that is about kinds.
#[derive(Clone, Default)]
struct KindsOnly;

impl Rules for KindsOnly {
    fn parent_is_in(&self, _known: &BTreeSet<Revision>, _parent: Revision) -> bool {
        true
    }
}

impl Rules for KindsAfterParents {
    fn parent_fault(&self, image: &Image) -> Option<u32> {
        ParentsOnly
            .parent_fault(image)
            .or_else(|| KindsOnly.parent_fault(image))
    }
}

/// Lets a row with a child be a leaf's.
#[derive(Clone, Default)]
pub struct LeafKindWithChild;

impl Rules for LeafKindWithChild {
    fn kind_fits(&self, kind: u8, has_child: bool) -> bool {
        kind != 0 || has_child
    }
}

/// Empties the replica before it has judged the image.
#[derive(Clone, Default)]
pub struct FailedLoadEmpties;

impl Rules for FailedLoadEmpties {
    fn failed_load(&self, former: &mut Held) {
        *former = Held::default();
    }
}
