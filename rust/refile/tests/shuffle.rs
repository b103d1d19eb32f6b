//! Writes in any order, and two replicas that pull both ways: whatever the order, the same is held
//! in the end. The seeds are fixed, and no clock is read.

use std::collections::BTreeMap;
use std::iter::successors;

use refile::{
    Content, Counts, Hash, Held, Leaf, Replica, Revision, RevisionNumber, Sequence, Written,
    DOCUMENTS, ID_BYTES, REVISIONS,
};
use refile_model::offers::hash;
use refile_model::random::Random;
use Content::{Deleted, Live};

#[allow(dead_code)]
#[path = "../examples/two_offices.rs"]
mod example;
use example::without_sequences;

const LAST: u32 = 4_294_967_295;

/// A well-formed path write.
#[derive(Debug)]
struct Write {
    id: Vec<u8>,
    number: u32,
    path: Vec<Hash>,
    content: Content,
}

/// A write to a document, with the hashes of its path given by their first bytes.
type Given<'a> = (&'a [u8], u32, &'a [u8], Content);

fn writes(given: &[Given]) -> Vec<Write> {
    let write = |&(id, number, first_bytes, content): &Given| Write {
        id: id.to_vec(),
        number,
        path: first_bytes.iter().copied().map(hash).collect(),
        content,
    };
    given.iter().map(write).collect()
}

/// Writes of which no two give a revision two parents, or a newest revision two contents.
const FEW: [Given; 32] = [
    // A fork, one end of it deleted, and a history given from its middle on.
    (b"lot", 1, &[0x20], Live(7)),
    (b"lot", 2, &[0x91, 0x20], Live(8)),
    (b"lot", 2, &[0x4c, 0x20], Live(9)),
    (b"lot", 3, &[0x05, 0x91, 0x20], Deleted),
    (b"lot", 4, &[0x06, 0x05], Deleted),
    // Revisions that are also given without their parents.
    (b"apart", 3, &[0x70], Live(1)),
    (b"apart", 2, &[0x61], Live(2)),
    (b"apart", 3, &[0x70, 0x61], Live(1)),
    (b"apart", 5, &[0x72], Live(3)),
    (b"apart", 4, &[0x71, 0x70], Live(4)),
    (b"apart", 5, &[0x72, 0x71], Live(3)),
    // Histories that cross: each gives links that the others lack.
    (b"crossed", 6, &[0xe6, 0xe5], Live(6)),
    (b"crossed", 5, &[0xe5, 0xe4, 0xe3], Deleted),
    (b"crossed", 4, &[0xe4], Live(4)),
    (b"crossed", 3, &[0xe3, 0xe2, 0xe1], Live(3)),
    (b"crossed", 5, &[0xf5, 0xe4], Live(5)),
    (b"crossed", 3, &[0xf3, 0xe2], Deleted),
    // One hash under several numbers, and a parent whose hash is zeros.
    (b"same", 3, &[0xaa, 0xaa, 0xaa], Live(4)),
    (b"same", 2, &[0xaa], Live(5)),
    (b"same", 2, &[0x91, 0x00], Live(8)),
    (b"same", 1, &[0x00], Deleted),
    // Deleted at every end.
    (b"gone", 1, &[0x33], Live(5)),
    (b"gone", 2, &[0x05, 0x33], Deleted),
    (b"gone", 2, &[0x07, 0x33], Deleted),
    // Ids that only their length tells apart, and labels at their ends.
    (b"a", 1, &[0x20], Live(0)),
    (b"a\0", 1, &[0x20], Deleted),
    (b"a\0", 2, &[0x21, 0x20], Live(u64::MAX)),
    // Numbers at their end.
    (b"last", LAST, &[0xff, 0xfe], Live(1)),
    (b"last", LAST - 1, &[0xfe], Deleted),
    (b"last", LAST - 1, &[0xfe, 0xfd], Deleted),
    (b"last", LAST, &[0x01], Deleted),
    (b"last", LAST, &[0x01, 0xfc], Deleted),
];

/// A document's winner, then its other leaves.
type Shown<'a> = (&'a [u8], &'a [(u32, u8, Content)]);

/// What the union of those writes shows.
const FEW_SHOW: [Shown; 8] = [
    (b"lot", &[(2, 0x4c, Live(9)), (4, 0x06, Deleted)]),
    (b"apart", &[(5, 0x72, Live(3))]),
    (
        b"crossed",
        &[(6, 0xe6, Live(6)), (5, 0xf5, Live(5)), (3, 0xf3, Deleted)],
    ),
    (b"same", &[(3, 0xaa, Live(4)), (2, 0x91, Live(8))]),
    (b"gone", &[(2, 0x07, Deleted), (2, 0x05, Deleted)]),
    (b"a", &[(1, 0x20, Live(0))]),
    (b"a\0", &[(2, 0x21, Live(u64::MAX))]),
    (b"last", &[(LAST, 0xff, Live(1)), (LAST, 0x01, Deleted)]),
];

/// Writes that together fill a replica: as many revisions in each document, lines, branches, and
/// revisions that stand apart, each given once or twice with its history to some depth.
fn many() -> Vec<Write> {
    let random = &mut Random::new(512);
    let mut writes = Vec::new();
    for document in 0..DOCUMENTS {
        // Each a prefix of the next, as far as ids go.
        let id = vec![b'd' + (document / ID_BYTES) as u8; 1 + document % ID_BYTES];
        for (number, whole, content) in histories(random) {
            for _ in 0..1 + random.below(2) {
                let depth = 1 + random.below(whole.len());
                writes.push(Write {
                    id: id.clone(),
                    number,
                    path: whole[..depth].to_vec(),
                    content,
                });
            }
        }
    }
    writes
}

/// The number, the whole path and the content of each of a document's revisions.
fn histories(random: &mut Random) -> Vec<(u32, Vec<Hash>, Content)> {
    let mut made: Vec<(u32, Vec<Hash>, Content)> = Vec::new();
    for new in 0..(REVISIONS / DOCUMENTS) as u8 {
        let mut new_hash = hash(random.any() as u8);
        new_hash[15] = new;
        let content = match random.below(4) {
            0 => Deleted,
            label => Live(label as u64),
        };
        let (number, mut path) = if new == 0 || random.percent(20) {
            (1 + random.below(5) as u32, Vec::new())
        } else {
            let (number, path, _) = random.pick(&made);
            (number + 1, path.clone())
        };
        path.insert(0, new_hash);
        made.push((number, path, content));
    }
    made
}

/// The writes in any order, some of them more than once.
fn shuffled<'a>(random: &mut Random, writes: &[&'a Write]) -> Vec<&'a Write> {
    let mut all = writes.to_vec();
    for _ in 0..random.below(2 * writes.len() + 1) {
        all.push(*random.pick(writes));
    }
    random.shuffle(&mut all);
    all
}

/// What the writes leave in a fresh replica. None is refused, and each that changes something raises
/// the sequence by one.
#[track_caller]
fn applied(writes: &[&Write]) -> Replica {
    let mut replica = Replica::fresh();
    let mut changed = 0;
    for write in writes {
        let number = RevisionNumber(write.number);
        match replica.write_path(&write.id, number, &write.path, write.content) {
            Ok(Written::Changed) => changed += 1,
            Ok(Written::Unchanged) => {}
            Err(refusal) => panic!("{write:x?} is {refusal}"),
        }
        assert_eq!(replica.update_sequence(), Sequence(changed));
    }
    replica
}

/// The saved image but for the sequences.
fn held(replica: &Replica) -> Vec<u8> {
    without_sequences(&replica.image())
}

fn ids(replica: &Replica) -> Vec<Vec<u8>> {
    let changes = replica.changes(Sequence::START);
    changes.map(|(id, _)| id).collect()
}

/// How many leaves the documents after a sequence have.
fn leaves_after(replica: &Replica, after: Sequence) -> u32 {
    let changes = replica.changes(after);
    changes.map(|(_, change)| change.leaves).sum()
}

/// Pulls, and holds the counts to the leaves of the source and to the target's sequence. The source
/// stays as it was, byte for byte.
#[track_caller]
fn pull(target: &mut Replica, source: &Replica, after: Sequence) -> Counts {
    let former = source.clone();
    let sequence = target.update_sequence().0;
    let counts = target.pull(source, after);
    let all = counts.changed + counts.unchanged + counts.refused;
    assert_eq!(all, leaves_after(source, after), "the counts add up");
    let raised = target.update_sequence().0 - sequence;
    assert_eq!(raised, counts.changed, "the sequence rises with the counts");
    assert!(*source == former, "the pull altered its source");
    counts
}

/// Pulls all of each into the other. Nothing is refused, both end with the union, and another round
/// changes nothing.
#[track_caller]
fn agree(mut first: Replica, mut second: Replica, union: &Replica) {
    let refused = pull(&mut first, &second, Sequence::START).refused
        + pull(&mut second, &first, Sequence::START).refused;
    assert_eq!(refused, 0, "offers refused");
    for (name, replica) in [("first", &first), ("second", &second)] {
        assert!(held(replica) == held(union), "the {name} is another union");
        for id in ids(union) {
            assert_eq!(replica.winner(&id), union.winner(&id), "{name}, {id:x?}");
        }
    }
    for (target, source) in [(&first, &second), (&second, &first)] {
        let mut after = target.clone();
        let changed = pull(&mut after, source, Sequence::START).changed;
        assert_eq!(changed, 0, "offers that changed something once more");
        assert!(
            after == *target,
            "a pull with nothing new altered its target"
        );
    }
}

/// Shuffles the writes so many times, and holds what each order leaves to the union.
fn all_orders_agree(writes: &[Write], union: &Replica, seeds: u64) {
    let writes: Vec<&Write> = writes.iter().collect();
    for seed in 0..seeds {
        let replica = applied(&shuffled(&mut Random::new(seed), &writes));
        assert_eq!(replica.counts(), union.counts(), "seed {seed}");
        assert!(held(&replica) == held(union), "seed {seed}: another union");
    }
}

/// Gives each write to one of two replicas or to both, and lets them pull both ways.
fn all_parts_agree(writes: &[Write], union: &Replica, seeds: u64) {
    for seed in 0..seeds {
        println!("seed {seed}");
        let random = &mut Random::new(seed);
        let mut parts = [Vec::new(), Vec::new()];
        for write in writes {
            let turn = random.below(5);
            for (part, turns) in parts.iter_mut().zip([0..3, 2..5]) {
                if turns.contains(&turn) {
                    part.push(write);
                }
            }
        }
        let [first, second] = parts.map(|part| applied(&shuffled(random, &part)));
        agree(first, second, union);
    }
}

/// Holds a union to what is given, no write being made: a revision with no child in what is given is
/// a leaf with the content it was given, and its path follows the parents that are given.
fn is_union(union: &Replica, writes: &[Write]) {
    for id in ids(union) {
        let (mut contents, mut parents) = (BTreeMap::new(), BTreeMap::new());
        for write in writes.iter().filter(|write| write.id == id) {
            let numbers = (1..=write.number).rev().map(RevisionNumber);
            let path: Vec<Revision> = numbers
                .zip(write.path.iter().copied())
                .map(|(number, hash)| Revision { number, hash })
                .collect();
            contents.insert(path[0], write.content);
            parents.extend(path.windows(2).map(|pair| (pair[0], pair[1])));
        }
        contents.retain(|revision, _| !parents.values().any(|parent| parent == revision));
        let leaves = contents.into_iter().rev();
        let leaves: Vec<Leaf> = leaves
            .map(|(revision, content)| Leaf { revision, content })
            .collect();
        assert_eq!(union.leaves(&id), Ok(leaves.clone()), "{id:x?}");
        for leaf in leaves {
            let line = successors(Some(leaf.revision), |child| parents.get(child).copied());
            let path: Vec<Hash> = line.map(|revision| revision.hash).collect();
            assert_eq!(union.path(&id, leaf.revision), Ok(path), "{id:x?}");
        }
    }
}

fn in_order(writes: &[Write]) -> Replica {
    applied(&writes.iter().collect::<Vec<_>>())
}

fn leaf((number, first, content): (u32, u8, Content)) -> Leaf {
    Leaf {
        revision: Revision::new(number, hash(first)),
        content,
    }
}

#[test]
fn the_union_of_a_few_writes() {
    let union = in_order(&writes(&FEW));
    let counts = Held {
        documents: 8,
        revisions: 33,
    };
    assert_eq!(union.counts(), counts);
    for (id, shown) in FEW_SHOW {
        assert_eq!(union.winner(id), Ok(leaf(shown[0])), "{id:x?}");
        let mut leaves: Vec<Leaf> = shown.iter().copied().map(leaf).collect();
        leaves.sort_by_key(|leaf| std::cmp::Reverse(leaf.revision));
        assert_eq!(union.leaves(id), Ok(leaves), "{id:x?}");
    }
    let line: Vec<Hash> = (0xe1..=0xe6).rev().map(hash).collect();
    let path = union.path(b"crossed", Revision::new(6, hash(0xe6)));
    assert_eq!(path, Ok(line));
    is_union(&union, &writes(&FEW));
}

#[test]
fn a_few_writes_in_any_order() {
    let writes = writes(&FEW);
    all_orders_agree(&writes, &in_order(&writes), 500);
}

#[test]
fn a_few_writes_in_two_parts() {
    let writes = writes(&FEW);
    all_parts_agree(&writes, &in_order(&writes), 300);
}

#[test]
fn a_full_replica_in_any_order() {
    let writes = many();
    let union = in_order(&writes);
    let full = Held {
        documents: DOCUMENTS as u32,
        revisions: REVISIONS as u32,
    };
    assert_eq!(union.counts(), full);
    is_union(&union, &writes);
    all_orders_agree(&writes, &union, 12);
}

#[test]
fn a_full_replica_in_two_parts() {
    let writes = many();
    all_parts_agree(&writes, &in_order(&writes), 12);
}

#[test]
fn the_pair_of_the_rules() {
    // One side holds 3-[70,61], the other 3-[70] and 2-[61] apart.
    let joined = &in_order(&writes(&[(b"lot", 3, &[0x70, 0x61], Live(1))]));
    let apart: [Given; 2] = [(b"lot", 3, &[0x70], Live(1)), (b"lot", 2, &[0x61], Live(2))];
    let apart = &in_order(&writes(&apart));
    let counts = |changed, unchanged| Counts {
        changed,
        unchanged,
        refused: 0,
    };
    let (north, south) = (&mut joined.clone(), &mut apart.clone());
    assert_eq!(pull(south, north, Sequence::START), counts(1, 0));
    assert_eq!(pull(north, south, Sequence::START), counts(0, 1));
    assert!(held(north) == held(south) && north == joined);
    let (north, south) = (&mut joined.clone(), &mut apart.clone());
    assert_eq!(pull(north, south, Sequence::START), counts(0, 2));
    assert_eq!(pull(south, north, Sequence::START), counts(1, 0));
    assert!(held(north) == held(south) && north == joined);
    let only = leaf((3, 0x70, Live(1)));
    assert_eq!(south.leaves(b"lot"), Ok(vec![only]));
    assert_eq!(south.winner(b"lot"), Ok(only));
    agree(joined.clone(), apart.clone(), joined);
}

#[test]
fn pulls_that_go_on_from_a_sequence() {
    let writes = writes(&FEW);
    let union = in_order(&writes);
    for seed in 0..100 {
        let random = &mut Random::new(seed);
        let all: Vec<&Write> = writes.iter().collect();
        let order = shuffled(random, &all);
        let mut target = Replica::fresh();
        let mut seen = Sequence::START;
        let mut given = 0;
        while given < order.len() {
            given = order.len().min(given + 1 + random.below(9));
            let source = applied(&order[..given]);
            assert_eq!(pull(&mut target, &source, seen).refused, 0, "seed {seed}");
            assert!(held(&target) == held(&source), "seed {seed}");
            seen = source.update_sequence();
        }
        assert!(held(&target) == held(&union), "seed {seed}");
    }
}

#[test]
fn a_refused_offer_does_not_end_a_pull() {
    let source: [Given; 3] = [
        (b"b", 3, &[0x05, 0x91, 0x20], Deleted),
        (b"b", 2, &[0x4c, 0x20], Live(9)),
        (b"a", 1, &[0x20], Live(1)),
    ];
    let source = in_order(&writes(&source));
    let mut target = in_order(&writes(&[(b"b", 3, &[0x05, 0x92], Deleted)]));
    let counts = Counts {
        changed: 2,
        unchanged: 0,
        refused: 1,
    };
    assert_eq!(pull(&mut target, &source, Sequence::START), counts);
    let leaves = [leaf((3, 0x05, Deleted)), leaf((2, 0x4c, Live(9)))];
    assert_eq!(target.leaves(b"b"), Ok(leaves.to_vec()));
    assert_eq!(ids(&target), [b"b", b"a"]);
}

#[test]
fn documents_are_pulled_in_the_order_of_their_sequences() {
    // The target has room for one document more, and the first that is offered gets it.
    let source: [Given; 2] = [(b"y", 1, &[0x20], Live(1)), (b"x", 1, &[0x20], Live(1))];
    let source = in_order(&writes(&source));
    let ids: Vec<[u8; 1]> = (1..DOCUMENTS as u8).map(|id| [id]).collect();
    let held: Vec<Given> = ids
        .iter()
        .map(|id| (&id[..], 1, &[0x20][..], Live(1)))
        .collect();
    let mut target = in_order(&writes(&held));
    let counts = Counts {
        changed: 1,
        unchanged: 0,
        refused: 1,
    };
    assert_eq!(pull(&mut target, &source, Sequence::START), counts);
    assert!(target.winner(b"y").is_ok() && target.winner(b"x").is_err());
}
