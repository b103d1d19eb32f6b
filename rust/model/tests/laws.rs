//! Sentences of the document that speak of every replica, tried on those of many scenarios.

use refile_model::harness::{apply, buffer, Answer};
use refile_model::held::{Document, Held, Revision};
use refile_model::json::{self, Member, Value};
use refile_model::lines;
use refile_model::model::Model;
use refile_model::offers::Alphabet;
use refile_model::random::Random;
use refile_model::scenario::{dump, scenario};
use refile_model::sizes::LINE_DEPTH;
use refile_model::steps::{Step, REPLICAS};
use refile_model::{Content, Replica};

const SCENARIOS: u64 = 500;

type Replicas = [Model; REPLICAS];

fn fresh() -> Replicas {
    std::array::from_fn(|_| Model::fresh())
}

/// Runs many scenarios, and shows each step with its answer and the replicas before and after it.
fn each_step(mut law: impl FnMut(&Step, Answer, [&Held; REPLICAS], [&Held; REPLICAS])) {
    for seed in 0..SCENARIOS {
        let mut replicas = fresh();
        for step in scenario(seed).steps {
            let before = replicas.clone();
            let outcome = apply(&mut replicas, &step);
            if let (Answer::Refused(_), Some(lent)) = (outcome.answer, &outcome.buffer) {
                assert_eq!(*lent, buffer(lent.len()), "a refusal leaves the buffer");
            }
            let held = |replicas: &'_ Replicas| replicas.each_ref().map(|r| r.held().clone());
            let (before, after) = (held(&before), held(&replicas));
            law(&step, outcome.answer, before.each_ref(), after.each_ref());
        }
    }
}

#[test]
fn a_refusal_and_a_read_alter_no_replica() {
    each_step(|step, answer, before, after| {
        let alters = matches!(
            step,
            Step::Fresh { .. }
                | Step::Load { .. }
                | Step::Write { .. }
                | Step::TakeIn { .. }
                | Step::Edit { .. }
                | Step::Pull { .. }
                | Step::Reload { .. }
        );
        if !alters || matches!(answer, Answer::Refused(_) | Answer::Changed(false)) {
            assert_eq!(before, after, "{step}");
        }
    });
}

#[test]
fn a_write_to_one_document_leaves_the_others() {
    each_step(|step, _, before, after| {
        if let Step::Write { at, id, .. } | Step::Edit { at, id, .. } = step {
            let others = |held: &Held| {
                let mut documents = held.documents.clone();
                documents.remove(id);
                documents
            };
            assert_eq!(others(before[*at]), others(after[*at]), "{step}");
        }
    });
}

/// "the revisions with no child in it".
fn leaves(document: &Document) -> Vec<Revision> {
    let is_parent = |revision: &Revision| document.parents.values().any(|p| p == revision);
    let revisions = document.revisions.iter().copied();
    revisions.filter(|revision| !is_parent(revision)).collect()
}

#[test]
fn an_accepted_write_leaves_the_union() {
    each_step(|step, answer, before, after| {
        let (
            Step::Write {
                at,
                id,
                number,
                path,
                content,
            },
            Answer::Changed(changed),
        ) = (step, answer)
        else {
            return;
        };
        let (before, after) = (before[*at], after[*at]);
        let given: Vec<Revision> = path
            .chunks(16)
            .zip(0..)
            .map(|(hash, k)| Revision {
                number: number - k,
                hash: hash.try_into().unwrap(),
            })
            .collect();
        let mut union = before.documents.get(id).cloned().unwrap_or_default();
        let known = union.revisions.contains(&given[0]);
        union.revisions.extend(&given);
        union
            .parents
            .extend(given.iter().copied().zip(given[1..].iter().copied()));
        if !known {
            union.contents.insert(given[0], *content);
        }
        let leaves = leaves(&union);
        union
            .contents
            .retain(|revision, _| leaves.contains(revision));
        assert_eq!(
            union.contents.len(),
            leaves.len(),
            "each leaf has a content"
        );
        union.sequence = after.documents[id].sequence;
        assert_eq!(after.documents[id], union, "{step}");

        let own = before.documents.get(id).map(|document| document.sequence);
        assert_eq!(after.sequence, before.sequence + u32::from(changed));
        let new_own = if changed { Some(after.sequence) } else { own };
        assert_eq!(Some(union.sequence), new_own, "{step}");
    });
}

#[test]
fn an_accepted_edit_leaves_what_the_path_write_would() {
    let mut edits = 0;
    for seed in 0..SCENARIOS {
        let mut replicas = fresh();
        for step in scenario(seed).steps {
            let before = replicas.clone();
            let answer = apply(&mut replicas, &step).answer;
            if let (
                Step::Edit {
                    at,
                    id,
                    hash,
                    content,
                    parent,
                },
                Answer::Value(number),
            ) = (&step, answer)
            {
                let mut written = before[*at].clone();
                let mut path = hash.to_vec();
                if let Some((_, parent)) = parent {
                    path.extend(parent);
                } else if number > 1 {
                    let mut winner = [0; 29];
                    written.winner(id, &mut winner).unwrap();
                    path.extend(&winner[4..20]);
                }
                assert_eq!(written.write(id, number, &path, *content), Ok(true));
                assert_eq!(written.held(), replicas[*at].held(), "{step}");
                edits += 1;
            }
        }
    }
    assert!(edits > 1_000, "{edits} edits");
}

#[test]
fn the_counts_of_a_pull_add_up_to_the_leaves_of_the_source() {
    each_step(|step, answer, before, after| {
        if let (Step::Pull { at, from, after: s }, Answer::Pulled(counts)) = (step, answer) {
            let documents = before[*from].documents.values();
            let offered = documents.filter(|document| document.sequence > *s);
            let offered: usize = offered.map(|document| leaves(document).len()).sum();
            let counted = counts.changed + counts.unchanged + counts.refused;
            assert_eq!(counted as usize, offered, "{step}");
            let raised = after[*at].sequence - before[*at].sequence;
            assert_eq!(raised, counts.changed, "{step}");
            if at != from {
                assert_eq!(before[*from], after[*from], "the source stays: {step}");
            } else {
                assert_eq!(
                    counts.unchanged, counted,
                    "its own copy adds nothing: {step}"
                );
            }
        }
    });
}

#[test]
fn the_winner_is_live_if_a_leaf_is() {
    each_step(|step, answer, _, after| {
        if let (Step::Changes { at, .. }, Answer::Change(change)) = (step, answer) {
            let mut documents = after[*at].documents.values();
            let document = documents.find(|document| document.sequence == change.seq);
            let contents = &document.unwrap().contents;
            let all_deleted = contents.values().all(|c| *c == Content::Deleted);
            assert_eq!(change.deleted, all_deleted, "{step}");
        }
    });
}

#[test]
fn replicas_that_pull_without_refusal_agree() {
    let mut agreed = 0;
    for seed in 0..SCENARIOS {
        let mut replicas = fresh();
        for step in scenario(seed).steps {
            apply(&mut replicas, &step);
        }
        let mut refused = 0;
        for (at, from) in [(0, 1), (0, 2), (1, 0), (2, 0)] {
            let source = replicas[from].clone();
            refused += replicas[at].pull(&source, 0).refused;
        }
        if refused == 0 {
            let [first, second, third] = replicas.each_ref().map(|r| r.held().without_sequences());
            assert!(first == second && first == third, "scenario {seed}");
            agreed += 1;
        }
    }
    assert!(agreed > 20, "{agreed} pulled without refusal");
}

/// A document's lines, if its id can be written.
fn put_out(replica: &Model, id: &[u8]) -> Option<Vec<u8>> {
    let size = replica.put_out_size(id).ok()?;
    let mut out = vec![0; size as usize];
    assert_eq!(replica.put_out(id, &mut out), Ok(size));
    Some(out)
}

fn each_line(lines: &[u8]) -> impl Iterator<Item = &[u8]> {
    lines.split_inclusive(|&byte| byte == b'\n')
}

/// "What we put out comes back as the same write": into a fresh replica it brings exactly what was held
/// of the documents whose id can be written, and into the replica itself nothing.
#[test]
fn what_is_put_out_comes_back() {
    let mut documents = 0;
    for seed in 0..SCENARIOS {
        let mut replicas = fresh();
        for step in [scenario(seed).steps, dump(seed).steps].concat() {
            apply(&mut replicas, &step);
        }
        for mut replica in replicas {
            let before = replica.held().clone();
            let mut held = before.without_sequences();
            let mut copy = Model::fresh();
            for id in before.documents.keys() {
                let Some(lines) = put_out(&replica, id) else {
                    held.documents.remove(id);
                    continue;
                };
                for line in each_line(&lines) {
                    assert_eq!(copy.take_in(line), Ok(true));
                    assert_eq!(replica.take_in(line), Ok(false));
                }
                documents += 1;
            }
            assert_eq!(copy.held().without_sequences(), held, "scenario {seed}");
            assert_eq!(*replica.held(), before, "scenario {seed}");
        }
    }
    assert!(documents > 1_000, "{documents} documents");
}

/// "Take these in as path writes", however they are spaced, and whatever stands in unknown members.
#[test]
fn a_sound_line_is_the_write_that_it_says() {
    let mut taken = 0;
    for seed in 0..2_000 {
        let mut random = Random::new(seed);
        let alphabet = Alphabet::new(&mut random);
        let mut replicas = fresh();
        for _ in 0..10 {
            let mut offer = alphabet.offer(&mut random, &replicas);
            offer.id = lines::plain(&offer.id);
            let line = lines::sound(&mut random, &offer);
            let [written, read, _] = &mut replicas;
            let path = offer.hashes.concat();
            let expected = written.write(&offer.id, offer.number, &path, offer.content);
            let shown = String::from_utf8_lossy(&line);
            assert_eq!(read.take_in(&line), expected, "{shown}");
            assert_eq!(read.held(), written.held(), "{shown}");
            taken += usize::from(expected.is_ok());
        }
    }
    assert!(taken > 10_000, "{taken} taken");
}

/// The value's text with any spaces between its tokens.
fn respaced(random: &mut Random, value: &Value) -> Vec<u8> {
    let text = match value {
        Value::False => b"false".to_vec(),
        Value::Null => b"null".to_vec(),
        Value::True => b"true".to_vec(),
        Value::Number(written) => written.clone(),
        Value::String(inside) => [b"\"", &inside[..], b"\""].concat(),
        Value::Array(values) => {
            let values: Vec<_> = values.iter().map(|value| respaced(random, value)).collect();
            [b"[", &values.join(&b","[..])[..], b"]"].concat()
        }
        Value::Object(members) => {
            let members = members.iter().map(|Member { name, value }| {
                let name = respaced(random, &Value::String(name.clone()));
                [&name[..], b":", &respaced(random, value)].concat()
            });
            let members: Vec<_> = members.collect();
            [b"{", &members.join(&b","[..])[..], b"}"].concat()
        }
    };
    let spaces: [&[u8]; 6] = [b"", b"", b" ", b"\t", b"\r\n", b" \n "];
    [*random.pick(&spaces), &text, *random.pick(&spaces)].concat()
}

const OURS: [&[u8]; 5] = [b"_id", b"_rev", b"_revisions", b"_deleted", b"label"];

/// A line with other spaces, without its unknown members, or with more of them, is the same write and
/// has the same refusal.
#[test]
fn spaces_and_unknown_members_say_nothing() {
    let mut lines = 0;
    for seed in 0..1_000 {
        let mut random = Random::new(seed);
        let mut replica = Model::fresh();
        for step in dump(seed).steps {
            let Step::TakeIn { line, .. } = step else {
                continue;
            };
            let before = replica.clone();
            let answer = replica.take_in(&line);
            let Some(Value::Object(members)) = json::text(&line, LINE_DEPTH) else {
                continue;
            };
            let ours = members
                .iter()
                .filter(|member| OURS.contains(&&member.name[..]));
            let ours: Vec<Member> = ours.cloned().collect();
            let mut more = members.clone();
            let name = b"more".to_vec();
            let value = Value::Array(vec![Value::Null]);
            more.insert(random.below(more.len() + 1), Member { name, value });
            for members in [members, ours, more] {
                let other = respaced(&mut random, &Value::Object(members));
                let mut again = before.clone();
                assert_eq!(
                    again.take_in(&other),
                    answer,
                    "{}",
                    String::from_utf8_lossy(&line)
                );
                assert_eq!(again.held(), replica.held());
            }
            lines += 1;
        }
    }
    assert!(lines > 5_000, "{lines} lines");
}
