//! Lines of dumps through the linked library: the tables of texts, and lines sound, spoiled and damaged
//! beside the independent model.
//!
//! `REFILE_LONG=200 cargo test --release -p refile --test lines` takes 10,000,000 lines.

mod linked;

use std::env;
use std::ops::Range;

use linked::Linked;
use refile::{Refusal, Replica, Written};
use refile_model::harness::{self, Answer};
use refile_model::scenario::{dump, DUMP_LINES};
use refile_model::steps::{Step, REPLICAS};
use refile_model::trials;
use refile_model::Replica as _;

const DUMPS: u64 = 5_000;

const _: () = assert!(DUMPS * DUMP_LINES as u64 == 50_000);

/// The seeds of a run of so many dumps.
fn seeds(dumps: u64) -> Range<u64> {
    let times = env::var("REFILE_LONG").map_or(1, |times| {
        times.parse().expect("REFILE_LONG is a number of times")
    });
    0..dumps * times
}

#[test]
fn values_of_the_table() {
    trials::values::<Linked>();
}

#[test]
fn lines_of_the_table() {
    trials::lines_by_name::<Linked>();
}

/// The stored dump leaves the stored image, which is put out as the stored lines; and the lines at fault
/// are refused, each by its number.
#[test]
fn stored_lines() {
    let dump = include_bytes!("../../../examples/dump.lines");
    let lot = include_bytes!("../../../examples/lot.lines");
    let mut replica = Replica::fresh();
    for line in dump.split_inclusive(|&byte| byte == b'\n') {
        replica.take_in(line).expect("a sound line");
    }
    assert_eq!(
        replica.image(),
        include_bytes!("../../../examples/lot.image")
    );
    assert_eq!(replica.put_out(b"lot").as_deref(), Ok(&lot[..]));
    for line in lot.split_inclusive(|&byte| byte == b'\n') {
        assert_eq!(replica.take_in(line), Ok(Written::Unchanged));
    }
    let refused: [(&[u8], Refusal); 4] = [
        (
            include_bytes!("../../../examples/refused-40.lines"),
            Refusal::NotJson,
        ),
        (
            include_bytes!("../../../examples/refused-41.lines"),
            Refusal::BadMember,
        ),
        (
            include_bytes!("../../../examples/refused-42.lines"),
            Refusal::OtherRevisions,
        ),
        (
            include_bytes!("../../../examples/refused-43.lines"),
            Refusal::UnwritableId,
        ),
    ];
    for (line, refusal) in refused {
        assert_eq!(replica.take_in(line), Err(refusal));
    }
}

#[test]
fn dumps() {
    trials::dumps::<Linked>(seeds(DUMPS));
}

#[test]
fn the_most_put_out() {
    trials::most_put_out::<Linked>();
}

/// What no answer shows: a refused line and one that changes nothing leave every byte of storage, and a
/// line that is taken leaves the storage of what it left.
#[test]
fn storage() {
    let mut taken = 0;
    for seed in seeds(DUMPS / 10) {
        let mut replicas: [Linked; REPLICAS] = std::array::from_fn(|_| Linked::fresh());
        for (index, step) in dump(seed).steps.iter().enumerate() {
            let case = format!("dump {seed}, step {index}");
            let before = replicas.clone();
            let answer = harness::apply(&mut replicas, step).answer;
            let changed = answer == Answer::Changed(true);
            let is_line = matches!(step, Step::TakeIn { .. });
            assert!(changed <= is_line, "{case} changed a replica");
            assert_eq!(
                replicas != before,
                changed,
                "{case} altered a byte, or none"
            );
            for Linked(replica) in &replicas {
                let again = Replica::from_image(&replica.image());
                assert!(again.as_ref() == Ok(replica), "{case} left other bytes");
            }
            taken += usize::from(changed);
        }
    }
    assert!(taken > 1_000, "{taken} lines taken");
}
