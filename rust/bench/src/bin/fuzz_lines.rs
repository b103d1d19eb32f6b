//! Mutation fuzzing of lines: sound lines, altered in bits, bytes, cuts and repeats, spliced with each
//! other or spoiled in their form, are taken in by the linked library beside the model. Every answer and
//! every byte that is left must be the same, and after a change what is put out. An altered line that is
//! still taken is altered further.
//!
//! ```text
//! cargo run --release -p refile-bench --bin fuzz_lines -- --lines 10000000 --seed 1
//! ```
//!
//! A seed means the same lines in the same order. A difference is printed as a scenario to replay, and
//! ends the run. Exit status: 0 no difference, 1 a difference, 2 the arguments are bad.

use std::collections::BTreeMap;
use std::env;
use std::fmt;
use std::process::ExitCode;
use std::time::Instant;

use refile_bench::linked::Linked;
use refile_model::harness::buffer;
use refile_model::images;
use refile_model::lines;
use refile_model::model::Model;
use refile_model::offers::Alphabet;
use refile_model::random::Random;
use refile_model::sizes::ID_BYTES;
use refile_model::steps::{Scenario, Step};
use refile_model::texts::{self, Outcome};
use refile_model::{Refusal, Replica};

const USAGE: &str = "usage: fuzz_lines --lines N --seed S";
/// How many lines there are to alter.
const POOL: usize = 512;
/// Bytes behind an answer, which must stay.
const MORE: usize = 16;

fn main() -> ExitCode {
    let arguments: Vec<String> = env::args().skip(1).collect();
    let Some((count, seed)) = parsed(&arguments) else {
        eprintln!("{USAGE}");
        return ExitCode::from(2);
    };
    let start = Instant::now();
    let mut fuzz = Fuzz::new(seed);
    let difference = (0..count).find_map(|_| fuzz.step().err());
    println!("seed {seed}, {} seconds", start.elapsed().as_secs());
    print!("{}", fuzz.tally);
    match difference {
        Some(difference) => {
            println!("{difference}");
            ExitCode::from(1)
        }
        None => {
            println!("no difference between the library and the model");
            ExitCode::SUCCESS
        }
    }
}

/// The number of lines and the seed, in either order.
fn parsed(arguments: &[String]) -> Option<(u64, u64)> {
    let (mut count, mut seed) = (None, None);
    for pair in arguments.chunks(2) {
        match pair {
            [name, value] if name == "--lines" => count = value.parse().ok(),
            [name, value] if name == "--seed" => seed = value.parse().ok(),
            _ => return None,
        }
    }
    Some((count?, seed?))
}

/// What became of the lines so far.
#[derive(Default)]
struct Tally {
    lines: u64,
    bytes: u64,
    changed: u64,
    unchanged: u64,
    refused: BTreeMap<u32, u64>,
}

impl Tally {
    fn count(&mut self, line: &[u8], answer: Result<bool, Refusal>) {
        self.lines += 1;
        self.bytes += line.len() as u64;
        match answer {
            Ok(true) => self.changed += 1,
            Ok(false) => self.unchanged += 1,
            Err(refusal) => *self.refused.entry(refusal.number).or_default() += 1,
        }
    }
}

impl fmt::Display for Tally {
    fn fmt(&self, f: &mut fmt::Formatter<'_>) -> fmt::Result {
        writeln!(f, "lines      {:>14}", self.lines)?;
        writeln!(f, "bytes      {:>14}", self.bytes)?;
        writeln!(f, "changed    {:>14}", self.changed)?;
        writeln!(f, "unchanged  {:>14}", self.unchanged)?;
        for (number, lines) in &self.refused {
            writeln!(f, "refused {number:<2} {lines:>14}")?;
        }
        Ok(())
    }
}

/// A replica of each kind that holds what an image says.
struct Former {
    image: Vec<u8>,
    linked: Linked,
    model: Model,
}

impl Former {
    fn new(image: &[u8]) -> Former {
        let (mut linked, mut model) = (Linked::fresh(), Model::fresh());
        linked.load(image).expect("the image is sound");
        model.load(image).expect("the image is sound");
        Former {
            image: image.to_vec(),
            linked,
            model,
        }
    }
}

struct Fuzz {
    random: Random,
    alphabet: Alphabet,
    /// Lines that are taken; those from the middle on are replaced by altered ones that are.
    pool: Vec<Vec<u8>>,
    /// What is held before a line is taken in: the last of them is full.
    formers: Vec<Former>,
    linked: Linked,
    tally: Tally,
}

impl Fuzz {
    fn new(seed: u64) -> Fuzz {
        let mut random = Random::new(seed);
        let alphabet = Alphabet::new(&mut random);
        let stored = include_bytes!("../../../../examples/dump.lines");
        let stored = stored.split_inclusive(|&byte| byte == b'\n');
        let mut pool: Vec<Vec<u8>> = stored.map(<[u8]>::to_vec).collect();
        let table = texts::lines().into_iter();
        let taken = table.filter(|line| matches!(line.outcome, Outcome::Put(_)));
        pool.extend(
            taken
                .map(|line| line.text)
                .filter(|line| line.len() < 1_000),
        );
        while pool.len() < POOL {
            let offer = alphabet.offer(&mut random, &[images::lot()]);
            pool.push(lines::sound(&mut random, &offer));
        }
        let formers = [
            &images::save(&Model::fresh())[..],
            include_bytes!("../../../../examples/lot.image"),
            include_bytes!("../../../../examples/north-after.image"),
            include_bytes!("../../../../examples/full.image"),
        ];
        Fuzz {
            random,
            alphabet,
            pool,
            formers: formers.map(Former::new).into(),
            linked: Linked::fresh(),
            tally: Tally::default(),
        }
    }

    /// An altered line of the pool, two of them spliced, or a new one.
    fn line(&mut self) -> Vec<u8> {
        let random = &mut self.random;
        let line = self.pool[random.below(POOL)].clone();
        match random.below(10) {
            0..=5 => lines::damaged(random, &line),
            6 => {
                let other = &self.pool[random.below(POOL)];
                let (front, back) = (random.below(line.len() + 1), random.below(other.len() + 1));
                [&line[..front], &other[back..]].concat()
            }
            7 | 8 => {
                let offer = self.alphabet.offer(random, &[images::lot()]);
                lines::spoiled(random, &offer)
            }
            _ => {
                let mut offer = self.alphabet.offer(random, &[images::lot()]);
                offer.id = lines::plain(&offer.id);
                lines::sound(random, &offer)
            }
        }
    }

    /// Makes a line, tries it, and keeps it to be altered further if it is taken.
    fn step(&mut self) -> Result<(), String> {
        let line = self.line();
        // The full one is slow to copy.
        let full = self.formers.len() - 1;
        let at = if self.random.percent(1) {
            full
        } else {
            self.random.below(full)
        };
        let answer = self.compare(at, &line).map_err(|what| {
            let steps = vec![
                Step::Load {
                    at: 0,
                    image: self.formers[at].image.clone(),
                },
                Step::TakeIn {
                    at: 0,
                    line: line.clone(),
                },
            ];
            let shown = String::from_utf8_lossy(&line);
            let number = self.tally.lines;
            format!(
                "line {number} of this seed: {what}\n{shown}\nas a scenario to replay:\n{}",
                Scenario { steps }
            )
        })?;
        self.tally.count(&line, answer);
        if answer.is_ok() && line.len() < 4_000 {
            let place = POOL / 2 + self.random.below(POOL / 2);
            self.pool[place] = line;
        }
        Ok(())
    }

    /// What both make of the line; or where they differ.
    fn compare(&mut self, at: usize, line: &[u8]) -> Result<Result<bool, Refusal>, String> {
        let former = &self.formers[at];
        self.linked.clone_from(&former.linked);
        let mut model = former.model.clone();
        let (answer, expected) = (self.linked.take_in(line), model.take_in(line));
        if answer != expected {
            return Err(format!("take_in: {answer:?}, the model {expected:?}"));
        }
        if answer != Ok(true) {
            let same = self.linked == former.linked;
            return if same {
                Ok(answer)
            } else {
                Err(format!("take_in: {answer:?} altered a byte"))
            };
        }
        let image = images::save(&model);
        let mut saved = vec![0; image.len()];
        if self.linked.save(&mut saved) != Ok(image.len() as u32) || saved != image {
            return Err("take_in: what is saved differs".to_string());
        }
        self.put_out(&model)?;
        Ok(answer)
    }

    /// Compares what is put out of the document that changed last.
    fn put_out(&self, model: &Model) -> Result<(), String> {
        let mut id = [0; ID_BYTES];
        let changed = model.changes(model.update_sequence() - 1, &mut id);
        let changed = changed.ok().flatten().expect("a document changed last");
        let id = &id[..changed.id_len as usize];
        let size = model.put_out_size(id).expect("an id that was taken in");
        if self.linked.put_out_size(id) != Ok(size) {
            return Err(format!("put_out_size: the model {size}"));
        }
        for room in [size as usize - 1, size as usize, size as usize + MORE] {
            let (mut lent, mut expected) = (buffer(room), buffer(room));
            let answers = (
                self.linked.put_out(id, &mut lent),
                model.put_out(id, &mut expected),
            );
            if answers.0 != answers.1 || lent != expected {
                return Err(format!("put_out into {room}: {answers:?}, or other bytes"));
            }
        }
        Ok(())
    }
}
