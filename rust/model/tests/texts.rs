//! The tables of texts, held to the model, and the model's reader of UTF-8, held to another.

use refile_model::harness::{apply, Answer};
use refile_model::json::{is_utf8, text};
use refile_model::model::Model;
use refile_model::scenario::widest;
use refile_model::sizes::{HASH_BYTES, REVISIONS};
use refile_model::texts::{lines, Outcome, VALUES};
use refile_model::trials;
use refile_model::Replica;

/// Deeper than any text of the table.
const DEPTH: usize = 64;

#[test]
fn values_are_those_of_the_table() {
    let mut texts = 0;
    for group in VALUES {
        for value in group.yes {
            let shown = String::from_utf8_lossy(value);
            assert!(text(value, DEPTH).is_some(), "{shown}: {}", group.says);
        }
        for value in group.no {
            let shown = String::from_utf8_lossy(value);
            assert!(text(value, DEPTH).is_none(), "{shown}: {}", group.says);
        }
        texts += group.yes.len() + group.no.len();
    }
    assert!(texts >= 150, "{texts} texts");
}

#[test]
fn values_in_lines_are_those_of_the_table() {
    trials::values::<Model>();
}

#[test]
fn lines_are_those_of_the_table() {
    trials::lines_by_name::<Model>();
    assert!(lines().len() >= 60);
    for number in [1, 2, 3, 40, 41, 42, 43] {
        let refused = |outcome| matches!(outcome, Outcome::Refused(other) if other == number);
        assert!(
            lines().into_iter().any(|line| refused(line.outcome)),
            "{number}"
        );
    }
}

/// Every sequence of up to three octets, and those of four about the borders.
#[test]
fn utf8_is_what_the_standard_library_takes() {
    for octets in 0..=0xff_ffff_u32 {
        let [_, bytes @ ..] = octets.to_be_bytes();
        assert_eq!(
            is_utf8(&bytes),
            std::str::from_utf8(&bytes).is_ok(),
            "{bytes:x?}"
        );
    }
    let borders = [
        0x00, 0x22, 0x7f, 0x80, 0x8f, 0x90, 0x9f, 0xa0, 0xbf, 0xc0, 0xc1, 0xc2, 0xdf, 0xe0, 0xe1,
        0xec, 0xed, 0xee, 0xef, 0xf0, 0xf1, 0xf3, 0xf4, 0xf5, 0xff,
    ];
    for index in 0..borders.len().pow(4) {
        let at = |power: u32| borders[index / borders.len().pow(power) % borders.len()];
        let bytes = [at(0), at(1), at(2), at(3)];
        for bytes in [&bytes[..], &bytes[1..], &bytes[2..], &bytes[3..]] {
            assert_eq!(
                is_utf8(bytes),
                std::str::from_utf8(bytes).is_ok(),
                "{bytes:x?}"
            );
        }
    }
}

/// The bytes of a line with a path of so many hashes and a label of twenty digits.
fn line_bytes(number: usize) -> usize {
    let words = r#"{"_id":"lot","_rev":"-","_revisions":{"start":,"ids":[]},"label":}"#;
    let hash = 2 * HASH_BYTES;
    let ids = number * (hash + "\"\"".len()) + (number - 1);
    words.len() + 2 * number.to_string().len() + hash + ids + u64::MAX.to_string().len() + 1
}

/// Half of the room as leaves on a trunk of the other half: all of them are put out, and taken again.
#[test]
fn the_most_put_out() {
    let mut replicas = std::array::from_fn(|_| Model::fresh());
    let answers = widest().steps.into_iter();
    let answers: Vec<Answer> = answers
        .map(|step| apply(&mut replicas, &step).answer)
        .collect();
    assert_eq!(answers[1], answers[3], "the size that was answered");
    let half = REVISIONS / 2;
    let size = half * line_bytes(half + 1);
    assert_eq!(answers[3], Answer::Value(size as u32));
    let taken = answers[5..].iter();
    let taken = taken.filter(|answer| **answer == Answer::Changed(true));
    assert_eq!(taken.count(), half);
    let [first, second, _] = replicas
        .each_ref()
        .map(|replica| replica.held().without_sequences());
    assert!(first == second);
}
