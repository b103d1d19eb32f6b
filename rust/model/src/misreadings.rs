//! Wrong models of lines: mistakes that someone could make who reads JSON, or puts it out.

use crate::held::{Document, Hash, Leaf, Line, Revision, Revisions};
use crate::json::{self, Member, Value};
use crate::rules::{House, Rules};
use crate::sizes::LINE_DEPTH;
use crate::Content;
use std::collections::BTreeSet;

// Members and their forms

/// Takes numbers with spare zeros.
#[derive(Clone, Default)]
pub struct SpareZeroTaken;

impl Rules for SpareZeroTaken {
    fn number(&self, written: &[u8], most: u64) -> Option<u64> {
        let spare = written.iter().take_while(|&&byte| byte == b'0').count();
        let spare = spare.min(written.len().saturating_sub(1));
        House.number(&written[spare..], most)
    }
}

/// Takes -0 for 0.
#[derive(Clone, Default)]
pub struct MinusZeroTaken;

impl Rules for MinusZeroTaken {
    fn number(&self, written: &[u8], most: u64) -> Option<u64> {
        let written = if written == b"-0" { b"0" } else { written };
        House.number(written, most)
    }
}

/// Takes 7.0 for 7.
#[derive(Clone, Default)]
pub struct FractionTaken;

impl Rules for FractionTaken {
    fn number(&self, written: &[u8], most: u64) -> Option<u64> {
        let whole = written.strip_suffix(b".0").unwrap_or(written);
        House.number(whole, most)
    }
}

/// Takes 7e0 for 7.
#[derive(Clone, Default)]
pub struct ExponentTaken;

impl Rules for ExponentTaken {
    fn number(&self, written: &[u8], most: u64) -> Option<u64> {
        let whole = written.strip_suffix(b"e0").unwrap_or(written);
        House.number(whole, most)
    }
}

/// Lets a number past its field wrap around.
#[derive(Clone, Default)]
pub struct NumberWraps;

impl Rules for NumberWraps {
    fn number(&self, written: &[u8], most: u64) -> Option<u64> {
        let digits = !written.is_empty() && written.iter().all(u8::is_ascii_digit);
        if !digits || (written.len() > 1 && written[0] == b'0') {
            return None;
        }
        let wrapped = written.iter().fold(0u64, |number, digit| {
            number.wrapping_mul(10).wrapping_add((digit - b'0').into())
        });
        Some(wrapped & most)
    }
}

/// Ends a number past its field at the most.
#[derive(Clone, Default)]
pub struct NumberSaturates;

impl Rules for NumberSaturates {
    fn number(&self, written: &[u8], most: u64) -> Option<u64> {
        let number = House.number(written, u64::MAX);
        let past = written.len() >= 10 && written.iter().all(u8::is_ascii_digit);
        match number {
            None if past && written[0] != b'0' => Some(most),
            number => number.map(|number| number.min(most)),
        }
    }
}

/// Reads labels as doubles, which have 53 bits.
#[derive(Clone, Default)]
pub struct LabelsAsDoubles;

impl Rules for LabelsAsDoubles {
    fn number(&self, written: &[u8], most: u64) -> Option<u64> {
        let number = House.number(written, most)?;
        Some(if most == u64::MAX {
            number as f64 as u64
        } else {
            number
        })
    }
}

/// Writes labels as doubles.
#[derive(Clone, Default)]
pub struct LabelsPutOutAsDoubles;

impl Rules for LabelsPutOutAsDoubles {
    fn put_out_label(&self, label: u64) -> String {
        format!("{}", label as f64)
    }
}

/// Takes number 0 in `_rev` for wrong form.
#[derive(Clone, Default)]
pub struct NumberZeroOfWrongForm;

impl Rules for NumberZeroOfWrongForm {
    fn rev(&self, written: &[u8]) -> Option<Revision> {
        House.rev(written).filter(|rev| rev.number != 0)
    }
}

/// Takes hashes in capital letters.
#[derive(Clone, Default)]
pub struct CapitalHashTaken;

impl Rules for CapitalHashTaken {
    fn hash_of(&self, written: &[u8]) -> Option<Hash> {
        House.hash_of(&written.to_ascii_lowercase())
    }
}

/// Takes hashes with their escapes decoded.
#[derive(Clone, Default)]
pub struct EscapedHashDecoded;

impl Rules for EscapedHashDecoded {
    fn hash_of(&self, written: &[u8]) -> Option<Hash> {
        House.hash_of(&decoded(written))
    }
}

/// What a string with escapes stands for.
fn decoded(written: &[u8]) -> Vec<u8> {
    let mut plain = Vec::new();
    let mut left = written;
    while let Some((&byte, after)) = left.split_first() {
        left = after;
        let (true, Some((&kind, after))) = (byte == b'\\', after.split_first()) else {
            plain.push(byte);
            continue;
        };
        left = after;
        match kind {
            b'u' => {
                let (digits, after) = left.split_at(left.len().min(4));
                let digits = std::str::from_utf8(digits).unwrap_or_default();
                let point = u32::from_str_radix(digits, 16)
                    .ok()
                    .and_then(char::from_u32);
                plain.extend(point.unwrap_or('?').to_string().bytes());
                left = after;
            }
            b'b' => plain.push(8),
            b'f' => plain.push(12),
            b'n' => plain.push(b'\n'),
            b'r' => plain.push(b'\r'),
            b't' => plain.push(b'\t'),
            other => plain.push(other),
        }
    }
    plain
}

/// Takes an id with its escapes decoded.
#[derive(Clone, Default)]
pub struct EscapedIdDecoded;

impl Rules for EscapedIdDecoded {
    fn id_of(&self, written: &[u8]) -> Vec<u8> {
        decoded(written)
    }
}

/// Knows a member by its name with the escapes decoded.
#[derive(Clone, Default)]
pub struct EscapedNameKnown;

impl Rules for EscapedNameKnown {
    fn named<'a>(&self, members: &'a [Member], name: &str) -> Vec<&'a Value> {
        let named = members
            .iter()
            .filter(|m| decoded(&m.name) == name.as_bytes());
        named.map(|member| &member.value).collect()
    }
}

/// Lets the last of repeated members count.
#[derive(Clone, Default)]
pub struct LastMemberCounts;

impl Rules for LastMemberCounts {
    fn named<'a>(&self, members: &'a [Member], name: &str) -> Vec<&'a Value> {
        House.named(members, name).pop().into_iter().collect()
    }
}

/// Lets the first of repeated members count.
#[derive(Clone, Default)]
pub struct FirstMemberCounts;

impl Rules for FirstMemberCounts {
    fn named<'a>(&self, members: &'a [Member], name: &str) -> Vec<&'a Value> {
        House.named(members, name).into_iter().take(1).collect()
    }
}

/// Refuses a line in which any name is repeated, known or not.
#[derive(Clone, Default)]
pub struct UnknownRepeatedRefused;

impl Rules for UnknownRepeatedRefused {
    fn line(&self, members: &[Member]) -> Option<Line> {
        let names: BTreeSet<&[u8]> = members.iter().map(|member| &member.name[..]).collect();
        House.line(members).filter(|_| names.len() == members.len())
    }
}

/// Finds our members inside unknown ones too.
#[derive(Clone, Default)]
pub struct OursFoundDeeper;

impl Rules for OursFoundDeeper {
    fn named<'a>(&self, members: &'a [Member], name: &str) -> Vec<&'a Value> {
        let mut found = House.named(members, name);
        for member in members {
            if let (b"x", Value::Object(inside)) = (&member.name[..], &member.value) {
                found.extend(House.named(inside, name));
            }
        }
        found
    }
}

/// Refuses unknown members of `_revisions`.
#[derive(Clone, Default)]
pub struct RevisionsHoldOursAlone;

impl Rules for RevisionsHoldOursAlone {
    fn revisions_of(&self, members: &[Member]) -> Option<Revisions> {
        House.revisions_of(members).filter(|_| members.len() == 2)
    }
}

/// Takes ids after the first that are of wrong form, as far as the first such.
#[derive(Clone, Default)]
pub struct LaterIdsUnchecked;

impl Rules for LaterIdsUnchecked {
    fn revisions_of(&self, members: &[Member]) -> Option<Revisions> {
        let mut members = members.to_vec();
        for member in &mut members {
            if let (b"ids", Value::Array(ids)) = (&member.name[..], &mut member.value) {
                let is_hash =
                    |id: &Value| matches!(id, Value::String(s) if self.hash_of(s).is_some());
                let sound = ids.iter().take_while(|id| is_hash(id)).count();
                ids.truncate(sound.max(1));
            }
        }
        House.revisions_of(&members)
    }
}

/// Passes over a `_deleted` that is false.
#[derive(Clone, Default)]
pub struct FalsePassedOver;

impl Rules for FalsePassedOver {
    fn content_of(&self, deleted: &[&Value], label: &[&Value]) -> Option<Content> {
        let deleted: Vec<&Value> = deleted
            .iter()
            .copied()
            .filter(|v| **v != Value::False)
            .collect();
        House.content_of(&deleted, label)
    }
}

/// Takes any `_deleted` for a deletion.
#[derive(Clone, Default)]
pub struct AnyDeletes;

impl Rules for AnyDeletes {
    fn content_of(&self, deleted: &[&Value], label: &[&Value]) -> Option<Content> {
        match (deleted, label) {
            ([_], []) => Some(Content::Deleted),
            _ => House.content_of(deleted, label),
        }
    }
}

/// Takes a line with both contents for a deletion.
#[derive(Clone, Default)]
pub struct BothContentsTaken;

impl Rules for BothContentsTaken {
    fn content_of(&self, deleted: &[&Value], label: &[&Value]) -> Option<Content> {
        match (deleted, label) {
            ([Value::True], [Value::Number(_)]) => Some(Content::Deleted),
            _ => House.content_of(deleted, label),
        }
    }
}

/// Takes a line with neither content for one of label 0.
#[derive(Clone, Default)]
pub struct NoContentIsZero;

impl Rules for NoContentIsZero {
    fn content_of(&self, deleted: &[&Value], label: &[&Value]) -> Option<Content> {
        match (deleted, label) {
            ([], []) => Some(Content::Live(0)),
            _ => House.content_of(deleted, label),
        }
    }
}

/// Doesn't compare `_rev` with `_revisions`, and goes by `_revisions`.
#[derive(Clone, Default)]
pub struct RevisionsTrusted;

impl Rules for RevisionsTrusted {
    fn revisions_differ(&self, line: &Line) -> bool {
        line.revisions
            .as_ref()
            .is_some_and(|revisions| revisions.ids.is_empty())
    }
}

/// Compares the start alone.
#[derive(Clone, Default)]
pub struct StartAloneCompared;

impl Rules for StartAloneCompared {
    fn revisions_differ(&self, line: &Line) -> bool {
        line.revisions
            .as_ref()
            .is_some_and(|revisions| revisions.start != line.rev.number || revisions.ids.is_empty())
    }
}

/// Compares the first id alone.
#[derive(Clone, Default)]
pub struct FirstIdAloneCompared;

impl Rules for FirstIdAloneCompared {
    fn revisions_differ(&self, line: &Line) -> bool {
        let revisions = line.revisions.as_ref();
        revisions.is_some_and(|revisions| revisions.ids.first() != Some(&line.rev.hash))
    }
}

/// Takes no ids for the one revision of `_rev`.
#[derive(Clone, Default)]
pub struct NoIdsTaken;

impl Rules for NoIdsTaken {
    fn revisions_differ(&self, line: &Line) -> bool {
        let some = line
            .revisions
            .as_ref()
            .is_some_and(|revisions| !revisions.ids.is_empty());
        some && House.revisions_differ(line)
    }

    fn path_of(&self, line: &Line) -> Vec<Hash> {
        match House.path_of(line) {
            path if path.is_empty() => vec![line.rev.hash],
            path => path,
        }
    }
}

/// Leaves no ids to refusal 2.
#[derive(Clone, Default)]
pub struct NoIdsLeftToTheWrite;

impl Rules for NoIdsLeftToTheWrite {
    fn revisions_differ(&self, line: &Line) -> bool {
        let some = line
            .revisions
            .as_ref()
            .is_some_and(|revisions| !revisions.ids.is_empty());
        some && House.revisions_differ(line)
    }
}

/// Wants `_revisions` in every line.
#[derive(Clone, Default)]
pub struct RevisionsWanted;

impl Rules for RevisionsWanted {
    fn line(&self, members: &[Member]) -> Option<Line> {
        House.line(members).filter(|line| line.revisions.is_some())
    }
}

/// Takes the newest revision of a path alone.
#[derive(Clone, Default)]
pub struct AncestryPassedOver;

impl Rules for AncestryPassedOver {
    fn path_of(&self, line: &Line) -> Vec<Hash> {
        vec![line.rev.hash]
    }
}

/// Lets 7f stand in an id.
#[derive(Clone, Default)]
pub struct DeleteWritable;

impl Rules for DeleteWritable {
    fn unwritable(&self, id: &[u8]) -> bool {
        let others: Vec<u8> = id.iter().copied().filter(|&byte| byte != 0x7f).collect();
        House.unwritable(&others)
    }
}

/// Lets no tilde stand in an id.
#[derive(Clone, Default)]
pub struct TildeUnwritable;

impl Rules for TildeUnwritable {
    fn unwritable(&self, id: &[u8]) -> bool {
        House.unwritable(id) || id.contains(&b'~')
    }
}

/// Lets characters above 7f stand in an id.
#[derive(Clone, Default)]
pub struct AnyCharacterWritable;

impl Rules for AnyCharacterWritable {
    fn unwritable(&self, id: &[u8]) -> bool {
        let ascii: Vec<u8> = id.iter().copied().filter(u8::is_ascii).collect();
        House.unwritable(&ascii)
    }
}

/// Has 43 for an empty id too.
#[derive(Clone, Default)]
pub struct EmptyUnwritable;

impl Rules for EmptyUnwritable {
    fn unwritable(&self, id: &[u8]) -> bool {
        House.unwritable(id) || id.is_empty()
    }
}

/// Tries 43 before 42.
#[derive(Clone, Default)]
pub struct UnwritableBeforeRevisions;

impl Rules for UnwritableBeforeRevisions {
    fn line_order(&self) -> &'static [u32] {
        &[40, 41, 43, 42]
    }
}

/// Tries 1 before 43.
#[derive(Clone, Default)]
pub struct IdBeforeUnwritable;

impl Rules for IdBeforeUnwritable {
    fn line_order(&self) -> &'static [u32] {
        &[40, 41, 42, 1, 43]
    }
}

/// Tries 1 before 42.
#[derive(Clone, Default)]
pub struct IdBeforeRevisions;

impl Rules for IdBeforeRevisions {
    fn line_order(&self) -> &'static [u32] {
        &[40, 41, 1, 42, 43]
    }
}

/// Refuses by 41 as soon as it meets a bad member, whatever the rest of the line is.
#[derive(Clone, Default)]
pub struct FormBeforeText;

impl Rules for FormBeforeText {
    fn line_order(&self) -> &'static [u32] {
        &[41, 40, 42, 43]
    }

    fn bad_member(&self, line: &[u8], members: Option<&[Member]>) -> bool {
        if members.is_some() {
            return House.bad_member(line, members);
        }
        let commas = (0..line.len()).filter(|&at| line[at] == b',');
        let fronts = commas.map(|at| [&line[..at], b"}"].concat());
        let mut fronts = fronts.filter_map(|front| House.members(&front));
        fronts.any(|members| {
            let rev = House.named(&members, "_rev");
            let bad =
                |value: &&Value| !matches!(value, Value::String(rev) if self.rev(rev).is_some());
            rev.len() > 1 || rev.iter().any(bad)
        })
    }
}

// The text of a line

/// Goes one deeper.
#[derive(Clone, Default)]
pub struct DeeperTaken;

impl Rules for DeeperTaken {
    fn most_depth(&self) -> usize {
        LINE_DEPTH + 1
    }
}

/// Counts the line as 0 and the most as not allowed.
#[derive(Clone, Default)]
pub struct DeepestRefused;

impl Rules for DeepestRefused {
    fn most_depth(&self) -> usize {
        LINE_DEPTH - 1
    }
}

/// How deep a value is, where only some kinds of values count.
fn depth(value: &Value, counts: fn(&Value) -> bool) -> usize {
    let below = match value {
        Value::Object(members) => members.iter().map(|m| depth(&m.value, counts)).max(),
        Value::Array(values) => values.iter().map(|value| depth(value, counts)).max(),
        _ => None,
    };
    below.unwrap_or_default() + usize::from(counts(value))
}

/// Counts objects alone.
#[derive(Clone, Default)]
pub struct ObjectsAloneCounted;

impl Rules for ObjectsAloneCounted {
    fn value(&self, line: &[u8]) -> Option<Value> {
        let is_object = |value: &Value| matches!(value, Value::Object(_));
        let value = json::text(line, 4 * LINE_DEPTH)?;
        Some(value).filter(|value| depth(value, is_object) <= LINE_DEPTH)
    }
}

/// Reads the line with these sequences of bytes taken for as many question marks.
fn read_with(line: &[u8], taken: &[&[u8]]) -> Option<Value> {
    let mut line = line.to_vec();
    for at in 0..line.len() {
        if let Some(found) = taken.iter().find(|taken| line[at..].starts_with(taken)) {
            line[at..at + found.len()].fill(b'?');
        }
    }
    House.value(&line)
}

/// Takes overlong forms.
#[derive(Clone, Default)]
pub struct OverlongTaken;

impl Rules for OverlongTaken {
    fn value(&self, line: &[u8]) -> Option<Value> {
        read_with(
            line,
            &[b"\xc0\x80", b"\xc1\xbf", b"\xe0\x80\x80", b"\xe0\x9f\xbf"],
        )
    }
}

/// Takes surrogates in UTF-8.
#[derive(Clone, Default)]
pub struct SurrogatesTaken;

impl Rules for SurrogatesTaken {
    fn value(&self, line: &[u8]) -> Option<Value> {
        read_with(line, &[b"\xed\xa0\x80", b"\xed\xbf\xbf"])
    }
}

/// Takes characters above 10FFFF.
#[derive(Clone, Default)]
pub struct AboveTheLastTaken;

impl Rules for AboveTheLastTaken {
    fn value(&self, line: &[u8]) -> Option<Value> {
        read_with(line, &[b"\xf4\x90\x80\x80", b"\xf5\x80\x80\x80"])
    }
}

/// Takes all octets above 7f for characters.
#[derive(Clone, Default)]
pub struct OctetsUnchecked;

impl Rules for OctetsUnchecked {
    fn value(&self, line: &[u8]) -> Option<Value> {
        let ascii = line
            .iter()
            .map(|byte| if byte.is_ascii() { *byte } else { b'?' });
        House.value(&ascii.collect::<Vec<u8>>())
    }
}

/// Takes control characters in strings.
#[derive(Clone, Default)]
pub struct ControlsTaken;

impl Rules for ControlsTaken {
    fn value(&self, line: &[u8]) -> Option<Value> {
        read_with(line, &[b"\0", b"\x0b", b"\x0c", b"\x1f"])
    }
}

/// Takes 0b and 0c for spaces.
#[derive(Clone, Default)]
pub struct OtherSpacesTaken;

impl Rules for OtherSpacesTaken {
    fn value(&self, line: &[u8]) -> Option<Value> {
        let spaces = line.iter().map(|byte| {
            if matches!(byte, 0x0b | 0x0c) {
                b' '
            } else {
                *byte
            }
        });
        House.value(&spaces.collect::<Vec<u8>>())
    }
}

/// Refuses an escape of one surrogate without the other.
#[derive(Clone, Default)]
pub struct LoneSurrogateRefused;

impl Rules for LoneSurrogateRefused {
    fn value(&self, line: &[u8]) -> Option<Value> {
        let lone = |escape: &[u8]| line.windows(escape.len()).any(|bytes| bytes == escape);
        House
            .value(line)
            .filter(|_| !lone(b"\\uDEAD") && !lone(b"\\ud800\""))
    }
}

/// Passes over a byte order mark.
#[derive(Clone, Default)]
pub struct MarkPassedOver;

impl Rules for MarkPassedOver {
    fn value(&self, line: &[u8]) -> Option<Value> {
        House.value(line.strip_prefix(b"\xef\xbb\xbf").unwrap_or(line))
    }
}

/// Passes over what follows the object.
#[derive(Clone, Default)]
pub struct RestPassedOver;

impl Rules for RestPassedOver {
    fn value(&self, line: &[u8]) -> Option<Value> {
        let ends = (0..line.len()).filter(|&at| line[at] == b'}');
        let mut fronts = ends.map(|at| House.value(&line[..=at]));
        fronts.find_map(|value| value)
    }
}

/// Passes over zero bytes at the end, as after a string in C.
#[derive(Clone, Default)]
pub struct ZerosAtTheEndPassedOver;

impl Rules for ZerosAtTheEndPassedOver {
    fn value(&self, line: &[u8]) -> Option<Value> {
        House.value(line.strip_suffix(b"\0").unwrap_or(line))
    }
}

/// Takes a comma before the end of an object.
#[derive(Clone, Default)]
pub struct LastCommaTaken;

impl Rules for LastCommaTaken {
    fn value(&self, line: &[u8]) -> Option<Value> {
        House.value(line).or_else(|| {
            let at = line.windows(2).rposition(|pair| pair == b",}")?;
            House.value(&[&line[..at], &line[at + 1..]].concat())
        })
    }
}

/// Takes NaN for a number.
#[derive(Clone, Default)]
pub struct NoNumberTaken;

impl Rules for NoNumberTaken {
    fn value(&self, line: &[u8]) -> Option<Value> {
        House.value(line).or_else(|| {
            let at = line.windows(3).position(|name| name == b"NaN")?;
            House.value(&[&line[..at], b"0", &line[at + 3..]].concat())
        })
    }
}

// Putting out

/// Leaves out the newline of the last line.
#[derive(Clone, Default)]
pub struct LastNewlineLeftOut;

impl Rules for LastNewlineLeftOut {
    fn put_out_lines(&self, lines: Vec<Vec<u8>>) -> Vec<u8> {
        lines.join(&b"\n"[..])
    }
}

/// Ends lines with a carriage return and a newline.
#[derive(Clone, Default)]
pub struct CarriageReturns;

impl Rules for CarriageReturns {
    fn put_out_lines(&self, lines: Vec<Vec<u8>>) -> Vec<u8> {
        let lines = lines.into_iter();
        lines
            .flat_map(|line| [line, b"\r\n".to_vec()].concat())
            .collect()
    }
}

/// Puts the lowest leaf out first.
#[derive(Clone, Default)]
pub struct LowestPutOutFirst;

impl Rules for LowestPutOutFirst {
    fn put_out_leaves(&self, document: &Document) -> Vec<Leaf> {
        let mut leaves = House.put_out_leaves(document);
        leaves.reverse();
        leaves
    }
}

/// Puts live leaves out alone.
#[derive(Clone, Default)]
pub struct TombstonesLeftOut;

impl Rules for TombstonesLeftOut {
    fn put_out_leaves(&self, document: &Document) -> Vec<Leaf> {
        let mut leaves = House.put_out_leaves(document);
        leaves.retain(|leaf| leaf.content != Content::Deleted);
        leaves
    }
}

/// Puts the winner out alone.
#[derive(Clone, Default)]
pub struct WinnerAlonePutOut;

impl Rules for WinnerAlonePutOut {
    fn put_out_leaves(&self, document: &Document) -> Vec<Leaf> {
        vec![self.winner(&document.leaves())]
    }
}

/// Leaves out `_revisions` of a path of one.
#[derive(Clone, Default)]
pub struct ShortRevisionsLeftOut;

impl Rules for ShortRevisionsLeftOut {
    fn put_out_ids(&self, document: &Document, leaf: Leaf) -> Option<Vec<Hash>> {
        House
            .put_out_ids(document, leaf)
            .filter(|ids| ids.len() > 1)
    }
}

/// Puts ids out oldest first.
#[derive(Clone, Default)]
pub struct OldestIdFirst;

impl Rules for OldestIdFirst {
    fn put_out_ids(&self, document: &Document, leaf: Leaf) -> Option<Vec<Hash>> {
        let ids = House.put_out_ids(document, leaf)?;
        Some(ids.into_iter().rev().collect())
    }
}

/// Leaves the leaf itself out of its ids.
#[derive(Clone, Default)]
pub struct ParentsAlonePutOut;

impl Rules for ParentsAlonePutOut {
    fn put_out_ids(&self, document: &Document, leaf: Leaf) -> Option<Vec<Hash>> {
        Some(House.put_out_ids(document, leaf)?.split_off(1))
    }
}

/// Tries 14 before 43.
#[derive(Clone, Default)]
pub struct BufferBeforeUnwritable;

impl Rules for BufferBeforeUnwritable {
    fn put_out_order(&self) -> &'static [u32] {
        &[1, 12, 14, 43]
    }
}

/// Tries 43 before 12.
#[derive(Clone, Default)]
pub struct UnwritableBeforeDocument;

impl Rules for UnwritableBeforeDocument {
    fn put_out_order(&self) -> &'static [u32] {
        &[1, 43, 12, 14]
    }
}

/// Tries 43 before 1.
#[derive(Clone, Default)]
pub struct UnwritableBeforeId;

impl Rules for UnwritableBeforeId {
    fn put_out_order(&self) -> &'static [u32] {
        &[43, 1, 12, 14]
    }
}

/// Closes the lines that it puts out with a zero byte where there is room, as a string in C.
#[derive(Clone, Default)]
pub struct LinesClosed;

impl Rules for LinesClosed {
    fn fill(&self, out: &mut [u8], answer: &[u8]) {
        House.fill(out, answer);
        if let (Some(after), true) = (out.get_mut(answer.len()), answer.starts_with(b"{")) {
            *after = 0;
        }
    }
}
