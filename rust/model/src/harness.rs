//! Runs scenarios and images on two kinds of replica side by side, and compares every answer,
//! refusal, place and byte.

use crate::images::{lot, report, save};
use crate::layout::IMAGE_MOST;
use crate::model::hex;
use crate::sizes::LEAF_BYTES;
use crate::steps::{Scenario, Step, REPLICAS};
use crate::{Change, Counts, Refusal, Replica};
use std::fmt;

/// What a step answered.
#[derive(Clone, Copy, PartialEq, Eq, Debug)]
pub enum Answer {
    Done,
    Changed(bool),
    Value(u32),
    Change(Change),
    NoMore,
    Pulled(Counts),
    Counts(u32, u32),
    Refused(Refusal),
}

/// What a step answered, and all bytes of the buffer that it was lent, if any.
#[derive(Clone, PartialEq, Eq, Debug)]
pub struct Outcome {
    pub answer: Answer,
    pub buffer: Option<Vec<u8>>,
}

impl fmt::Display for Answer {
    fn fmt(&self, f: &mut fmt::Formatter) -> fmt::Result {
        match *self {
            Answer::Done => write!(f, "done"),
            Answer::Changed(true) => write!(f, "changed"),
            Answer::Changed(false) => write!(f, "unchanged"),
            Answer::Value(value) => write!(f, "value {value}"),
            Answer::Change(Change {
                id_len,
                seq,
                leaves,
                deleted,
            }) => write!(
                f,
                "change length {id_len} seq {seq} leaves {leaves} deleted {}",
                u8::from(deleted)
            ),
            Answer::NoMore => write!(f, "no more"),
            Answer::Pulled(Counts {
                changed,
                unchanged,
                refused,
            }) => write!(
                f,
                "pulled changed {changed} unchanged {unchanged} refused {refused}"
            ),
            Answer::Counts(documents, revisions) => {
                write!(f, "documents {documents} revisions {revisions}")
            }
            Answer::Refused(Refusal { number, place }) => write!(f, "refused {number} at {place}"),
        }
    }
}

impl fmt::Display for Outcome {
    fn fmt(&self, f: &mut fmt::Formatter) -> fmt::Result {
        write!(f, "{}", self.answer)?;
        match &self.buffer {
            Some(buffer) => write!(f, " buffer {}", hex(buffer)),
            None => Ok(()),
        }
    }
}

/// The byte that a lent buffer holds at an index before the call. It differs from place to place,
/// so that bytes moved within a buffer are seen as well as bytes written.
pub fn pattern(index: usize) -> u8 {
    0xa5 ^ (index as u8).wrapping_mul(29)
}

/// A buffer of so many bytes, filled with the pattern.
pub fn buffer(bytes: usize) -> Vec<u8> {
    (0..bytes).map(pattern).collect()
}

/// The image of a replica, which always fits the largest one.
fn image_of<R: Replica>(replica: &R) -> Result<Vec<u8>, Refusal> {
    let mut out = vec![0; IMAGE_MOST];
    let length = replica.save(&mut out)?;
    out.truncate(length as usize);
    Ok(out)
}

/// Pulls into one of the replicas. The source is lent as it stands, so that a pull that alters it
/// is seen; only a replica that is pulled from itself is copied first.
fn pull<R: Replica>(replicas: &mut [R; REPLICAS], at: usize, from: usize, after: u32) -> Counts {
    if at == from {
        let source = replicas[from].clone();
        return replicas[at].pull(&source, after);
    }
    let (low, high) = replicas.split_at_mut(at.max(from));
    if at < from {
        low[at].pull(&high[0], after)
    } else {
        high[0].pull(&low[from], after)
    }
}

/// Three replicas of one kind.
trait Replicas {
    /// Runs a step with the buffer that it is lent, which is empty if it has none.
    fn call(&mut self, step: &Step, out: &mut [u8]) -> Result<Answer, Refusal>;
}

impl<R: Replica> Replicas for [R; REPLICAS] {
    fn call(&mut self, step: &Step, out: &mut [u8]) -> Result<Answer, Refusal> {
        match step {
            Step::Fresh { at } => {
                self[*at] = R::fresh();
                Ok(Answer::Done)
            }
            Step::Load { at, image } => self[*at].load(image).map(|()| Answer::Done),
            Step::Save { at, .. } => self[*at].save(out).map(Answer::Value),
            Step::Write {
                at,
                id,
                number,
                path,
                content,
            } => self[*at]
                .write(id, *number, path, *content)
                .map(Answer::Changed),
            Step::TakeIn { at, line } => self[*at].take_in(line).map(Answer::Changed),
            Step::Edit {
                at,
                id,
                hash,
                content,
                parent,
            } => self[*at]
                .edit(id, *hash, *content, *parent)
                .map(Answer::Value),
            Step::Winner { at, id, .. } => self[*at].winner(id, out).map(Answer::Value),
            Step::Leaves { at, id, .. } => self[*at].leaves(id, out).map(Answer::Value),
            Step::Path {
                at,
                id,
                number,
                hash,
                ..
            } => self[*at].path(id, *number, *hash, out).map(Answer::Value),
            Step::PutOut { at, id, .. } => self[*at].put_out(id, out).map(Answer::Value),
            Step::PutOutSize { at, id } => self[*at].put_out_size(id).map(Answer::Value),
            Step::Missing { at, id, asked, .. } => {
                self[*at].missing(id, asked, out).map(Answer::Value)
            }
            Step::Changes { at, after, .. } => {
                let change = self[*at].changes(*after, out)?;
                Ok(change.map_or(Answer::NoMore, Answer::Change))
            }
            Step::Pull { at, from, after } => Ok(Answer::Pulled(pull(self, *at, *from, *after))),
            Step::Reload { at, from } => {
                let image = image_of(&self[*from])?;
                self[*at].load(&image).map(|()| Answer::Done)
            }
            Step::UpdateSequence { at } => Ok(Answer::Value(self[*at].update_sequence())),
            Step::Counts { at } => {
                let (documents, revisions) = self[*at].counts();
                Ok(Answer::Counts(documents, revisions))
            }
            Step::Report { image, .. } => R::report(image, out).map(Answer::Value),
        }
    }
}

/// Runs one step on a buffer of its room.
pub fn apply<R: Replica>(replicas: &mut [R; REPLICAS], step: &Step) -> Outcome {
    outcome(replicas, step)
}

fn outcome(replicas: &mut dyn Replicas, step: &Step) -> Outcome {
    let mut out = step.room().map(buffer);
    let result = replicas.call(step, out.as_deref_mut().unwrap_or_default());
    Outcome {
        answer: result.unwrap_or_else(Answer::Refused),
        buffer: out,
    }
}

/// The steps that show all of a replica at once. The room is more than any image needs, so that a
/// byte written after one is seen too.
fn looks(at: usize) -> [Step; 3] {
    let room = IMAGE_MOST + 16;
    [
        Step::Save { at, room },
        Step::UpdateSequence { at },
        Step::Counts { at },
    ]
}

/// Where two kinds of replica came apart.
#[derive(Clone, PartialEq, Eq, Debug)]
pub struct Difference {
    /// The index, from 0, of the step that brought it out.
    pub step: usize,
    pub left: Outcome,
    pub right: Outcome,
    /// The steps up to that one, and, where its own outcomes agree, the read that shows the
    /// difference it left.
    pub scenario: Scenario,
}

impl fmt::Display for Difference {
    fn fmt(&self, f: &mut fmt::Formatter) -> fmt::Result {
        writeln!(f, "# a difference at step {} (from 0)", self.step)?;
        writeln!(f, "# left:  {}", self.left)?;
        writeln!(f, "# right: {}", self.right)?;
        if let (Some(left), Some(right)) = (&self.left.buffer, &self.right.buffer) {
            if let Some(byte) = (0..left.len()).find(|&byte| left[byte] != right[byte]) {
                writeln!(f, "# the buffers differ from byte {byte} on")?;
            }
        }
        writeln!(
            f,
            "# the last of these steps shows it when they are replayed:"
        )?;
        write!(f, "{}", self.scenario)
    }
}

impl std::error::Error for Difference {}

/// Runs a scenario on two kinds of replica, and compares the outcome of every step, and after it
/// the saved image, the update sequence and the counts of every replica.
pub fn run_scenario<A: Replica, B: Replica>(scenario: &Scenario) -> Result<(), Difference> {
    let mut left: [A; REPLICAS] = std::array::from_fn(|_| A::fresh());
    let mut right: [B; REPLICAS] = std::array::from_fn(|_| B::fresh());
    compare(&mut left, &mut right, scenario)
}

fn compare(
    left: &mut dyn Replicas,
    right: &mut dyn Replicas,
    scenario: &Scenario,
) -> Result<(), Difference> {
    for (index, step) in scenario.steps.iter().enumerate() {
        let looks = (0..REPLICAS).flat_map(looks);
        for step in std::iter::once(step.clone()).chain(looks) {
            let (left, right) = (outcome(left, &step), outcome(right, &step));
            if left != right {
                let mut steps = scenario.steps[..=index].to_vec();
                if steps[index] != step {
                    steps.push(step);
                }
                return Err(Difference {
                    step: index,
                    left,
                    right,
                    scenario: Scenario { steps },
                });
            }
        }
    }
    Ok(())
}

/// The steps that look at an image: the load on top of a former replica, what is saved after it,
/// the report into a buffer that is exact and into one that is a byte short, and, of a sound image,
/// what the reads and a pull make of it.
pub fn checking(image: &[u8]) -> Scenario {
    let mut loaded = lot();
    let accepted = loaded.load(image).is_ok();
    let report = report(image).len();
    let mut steps = vec![
        Step::Load {
            at: 0,
            image: save(&lot()),
        },
        Step::Load {
            at: 0,
            image: image.to_vec(),
        },
        Step::Save {
            at: 0,
            room: save(&loaded).len() + 9,
        },
    ];
    for room in [report, report - 1] {
        steps.push(Step::Report {
            image: image.to_vec(),
            room,
        });
    }
    if accepted {
        for (id, document) in &loaded.held().documents {
            steps.push(Step::Leaves {
                at: 0,
                id: id.clone(),
                room: LEAF_BYTES * document.leaves().len(),
            });
        }
        steps.push(Step::Pull {
            at: 1,
            from: 0,
            after: 0,
        });
    }
    Scenario { steps }
}

/// Compares what two kinds of replica make of an image, sound or not: the load on top of a former
/// replica, the report, what is saved afterwards, and what the reads and a pull make of it.
pub fn check_image<A: Replica, B: Replica>(image: &[u8]) -> Result<(), Difference> {
    run_scenario::<A, B>(&checking(image))
}
