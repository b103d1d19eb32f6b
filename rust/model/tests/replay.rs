//! The replay program: what it prints for a stored scenario, for a seed, and for a text that is no
//! scenario.

use refile_model::scenario::scenario;
use std::process::{Command, Output};

const STORED: &str = concat!(env!("CARGO_MANIFEST_DIR"), "/scenarios/cases.txt");

fn replay(arguments: &[&str]) -> Output {
    let mut program = Command::new(env!("CARGO_BIN_EXE_replay"));
    program.args(arguments).output().expect("the program runs")
}

fn printed(arguments: &[&str]) -> String {
    let output = replay(arguments);
    assert!(output.status.success());
    String::from_utf8(output.stdout).expect("plain text")
}

#[test]
fn a_stored_scenario_gives_the_stored_outcomes() {
    assert_eq!(
        printed(&[STORED]),
        include_str!("../scenarios/cases.outcomes")
    );
}

#[test]
fn the_scenario_of_a_seed_is_printed() {
    assert_eq!(printed(&["--seed", "17"]), scenario(17).to_string());
}

#[test]
fn what_is_no_scenario_is_refused() {
    let output = replay(&[concat!(env!("CARGO_MANIFEST_DIR"), "/Cargo.toml")]);
    assert_eq!(output.status.code(), Some(2));
    assert_eq!(output.stdout, b"");
    assert_eq!(output.stderr, b"line 1: `[package]` is no step\n");
}
