//! Prints what the model makes of a scenario in text form, one line a step.

use refile_model::harness::apply;
use refile_model::model::Model;
use refile_model::scenario::scenario;
use refile_model::steps::Scenario;
use refile_model::Replica;
use std::io::{self, Read, Write};
use std::process::ExitCode;

const USAGE: &str = "\
usage: replay [FILE]      run the scenario in FILE, or on standard input
       replay --seed N    print the scenario of seed N instead of running one";

fn main() -> ExitCode {
    let arguments: Vec<String> = std::env::args().skip(1).collect();
    let words: Vec<&str> = arguments.iter().map(String::as_str).collect();
    let printed = match words[..] {
        ["--seed", seed] => print_seed(seed),
        ["--help"] => {
            println!("{USAGE}");
            Ok(())
        }
        [] => read_input().and_then(|text| replay(&text)),
        [file] if !file.starts_with('-') => read_file(file).and_then(|text| replay(&text)),
        _ => Err(USAGE.to_string()),
    };
    match printed {
        Ok(()) => ExitCode::SUCCESS,
        Err(message) => {
            eprintln!("{message}");
            ExitCode::from(2)
        }
    }
}

fn print_seed(seed: &str) -> Result<(), String> {
    let seed = seed.parse().map_err(|_| format!("`{seed}` is no seed"))?;
    print(&scenario(seed).to_string())
}

fn read_input() -> Result<String, String> {
    let mut text = String::new();
    match io::stdin().read_to_string(&mut text) {
        Ok(_) => Ok(text),
        Err(error) => Err(format!("standard input: {error}")),
    }
}

fn read_file(file: &str) -> Result<String, String> {
    std::fs::read_to_string(file).map_err(|error| format!("{file}: {error}"))
}

fn replay(text: &str) -> Result<(), String> {
    let scenario: Scenario = text.parse().map_err(|error| format!("{error}"))?;
    let mut replicas = std::array::from_fn(|_| Model::fresh());
    let lines: String = scenario
        .steps
        .iter()
        .map(|step| format!("{}\n", apply(&mut replicas, step)))
        .collect();
    print(&lines)
}

fn print(text: &str) -> Result<(), String> {
    let written = io::stdout().lock().write_all(text.as_bytes());
    written.map_err(|error| format!("standard output: {error}"))
}
