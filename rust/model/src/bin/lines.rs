//! Prints lines, one a line in hex (`-` for none), each with `yes` if it is one JSON object of no more
//! than the depth that a line may have, and else `no`: what another reader of JSON can be asked about.

use refile_model::model::hex;
use refile_model::rules::{House, Rules};
use refile_model::scenario::dump;
use refile_model::steps::Step;
use refile_model::texts::{holding, lines, VALUES};
use std::io::{self, BufWriter, Write};
use std::process::ExitCode;

const USAGE: &str = "\
usage: lines        print the lines of both tables
       lines A B    print the lines of the dumps of the seeds from A up to B, without B";

fn main() -> ExitCode {
    let arguments: Vec<String> = std::env::args().skip(1).collect();
    let seeds: Option<Vec<u64>> = arguments.iter().map(|word| word.parse().ok()).collect();
    let printed = match seeds.as_deref() {
        Some([]) => print(table()),
        Some([from, to]) => print((*from..*to).flat_map(dumped)),
        _ => {
            eprintln!("{USAGE}");
            return ExitCode::from(2);
        }
    };
    match printed {
        Ok(()) => ExitCode::SUCCESS,
        Err(error) => {
            eprintln!("standard output: {error}");
            ExitCode::from(2)
        }
    }
}

/// The lines of both tables.
fn table() -> impl Iterator<Item = Vec<u8>> {
    let values = VALUES.iter();
    let values = values.flat_map(|group| group.yes.iter().chain(group.no));
    let values = values.flat_map(|value| holding(value));
    values.chain(lines().into_iter().map(|line| line.text))
}

/// The lines of a dump.
fn dumped(seed: u64) -> impl Iterator<Item = Vec<u8>> {
    let steps = dump(seed).steps.into_iter();
    steps.filter_map(|step| match step {
        Step::TakeIn { line, .. } => Some(line),
        _ => None,
    })
}

fn print(lines: impl Iterator<Item = Vec<u8>>) -> io::Result<()> {
    let mut out = BufWriter::new(io::stdout().lock());
    for line in lines {
        let object = if House.members(&line).is_some() {
            "yes"
        } else {
            "no"
        };
        let bytes = if line.is_empty() {
            "-".to_string()
        } else {
            hex(&line)
        };
        writeln!(out, "{bytes} {object}")?;
    }
    out.flush()
}
