//! Mutation fuzzing of stored images: sound images, altered in single fields, several fields, bits,
//! lengths, rows and documents, go through the linked library's load, report and save beside the
//! model's. Every answer, place and byte must be the same. An altered image that is still sound is
//! altered further.
//!
//! ```text
//! cargo run --release -p refile-bench --bin fuzz -- --minutes 30 --seed 1
//! ```
//!
//! A seed means the same images in the same order, however many the minutes allow. A difference is
//! printed as a scenario to replay, and ends the run. Exit status: 0 no difference, 1 a difference, 2
//! the arguments are bad.

use std::collections::BTreeMap;
use std::env;
use std::fmt;
use std::process::ExitCode;
use std::time::{Duration, Instant};

use refile::{DOCUMENTS, HASH_BYTES, IMAGE_MOST, REPORT_MOST};
use refile_bench::linked::Linked;
use refile_model::harness::{buffer, checking};
use refile_model::images;
use refile_model::model::{hex, Model};
use refile_model::random::Random;
use refile_model::{Content, Refusal, Replica};

const USAGE: &str = "usage: fuzz --minutes N --seed S";
/// How many images there are to alter.
const POOL: usize = 512;
/// Bytes behind the longest answer, which must stay.
const MORE: usize = 16;

fn main() -> ExitCode {
    let arguments: Vec<String> = env::args().skip(1).collect();
    let Some((minutes, seed)) = parsed(&arguments) else {
        eprintln!("{USAGE}");
        return ExitCode::from(2);
    };
    let start = Instant::now();
    let limit = Duration::from_secs_f64(60.0 * minutes);
    let mut fuzz = Fuzz::new(seed);
    let mut difference = None;
    while difference.is_none() && start.elapsed() < limit {
        difference = (0..100).find_map(|_| fuzz.step().err());
    }
    println!("seed {seed}, {} seconds", start.elapsed().as_secs());
    print!("{}", fuzz.tally);
    match difference {
        Some(difference) => {
            println!("{difference}");
            ExitCode::from(1)
        }
        None => {
            println!("no difference between the library and the model");
            ExitCode::SUCCESS
        }
    }
}

/// The minutes and the seed, in either order.
fn parsed(arguments: &[String]) -> Option<(f64, u64)> {
    let (mut minutes, mut seed) = (None, None);
    for pair in arguments.chunks(2) {
        match pair {
            [name, value] if name == "--minutes" => minutes = value.parse().ok(),
            [name, value] if name == "--seed" => seed = value.parse().ok(),
            _ => return None,
        }
    }
    let whole = |minutes: &f64| (0.0..=1e6).contains(minutes);
    Some((minutes.filter(whole)?, seed?))
}

/// What became of the images so far.
#[derive(Default)]
struct Tally {
    images: u64,
    bytes: u64,
    accepted: u64,
    refused: BTreeMap<u32, u64>,
}

impl fmt::Display for Tally {
    fn fmt(&self, f: &mut fmt::Formatter<'_>) -> fmt::Result {
        writeln!(f, "images     {:>14}", self.images)?;
        writeln!(f, "bytes      {:>14}", self.bytes)?;
        writeln!(f, "accepted   {:>14}", self.accepted)?;
        for (number, images) in &self.refused {
            writeln!(f, "refused {number} {images:>14}")?;
        }
        Ok(())
    }
}

/// An image of so many documents of one revision each, so that one more shows.
fn small_documents(count: usize) -> Vec<u8> {
    let mut replica = Model::fresh();
    for id in 0..count as u8 {
        let written = replica.write(&[id], 1, &[id; HASH_BYTES], Content::Live(id.into()));
        written.expect("there is room");
    }
    images::save(&replica)
}

struct Fuzz {
    random: Random,
    /// Sound images; those from `made` on are replaced by the altered ones that are sound.
    pool: Vec<Vec<u8>>,
    made: usize,
    judge: Judge,
    tally: Tally,
}

impl Fuzz {
    fn new(seed: u64) -> Fuzz {
        let mut random = Random::new(seed);
        let mut pool: Vec<Vec<u8>> = vec![
            include_bytes!("../../../../examples/lot.image").to_vec(),
            include_bytes!("../../../../examples/full.image").to_vec(),
            include_bytes!("../../../../examples/north-after.image").to_vec(),
            include_bytes!("../../../../examples/south.image").to_vec(),
        ];
        pool.extend([DOCUMENTS - 1, DOCUMENTS].map(small_documents));
        let traps = images::traps().into_iter().map(|(_, image)| image);
        pool.extend(traps.filter(|image| Model::fresh().load(image).is_ok()));
        while pool.len() < POOL {
            pool.push(images::sound(&mut random));
        }
        Fuzz {
            random,
            pool,
            made: POOL / 2,
            judge: Judge::new(),
            tally: Tally::default(),
        }
    }

    /// A place in the pool that may be replaced.
    fn place(&mut self) -> usize {
        self.made + self.random.below(POOL - self.made)
    }

    /// Makes an image, tries it, and keeps it to be altered further if it is sound.
    fn step(&mut self) -> Result<(), String> {
        // Most alterations make an image smaller, so new ones come in.
        if self.random.percent(5) {
            let place = self.place();
            self.pool[place] = images::sound(&mut self.random);
        }
        let sound = &self.pool[self.random.below(POOL)];
        let image = if self.random.percent(5) {
            images::grow(&mut self.random, sound)
        } else {
            images::damage(&mut self.random, sound)
        };
        let verdict = self.judge.compare(&image).map_err(|what| {
            format!(
                "image {} of this seed: {what}\n{}\nas a scenario to replay:\n{}",
                self.tally.images,
                hex(&image),
                checking(&image)
            )
        })?;
        self.tally.images += 1;
        self.tally.bytes += image.len() as u64;
        match verdict {
            Ok(()) => {
                self.tally.accepted += 1;
                let place = self.place();
                self.pool[place] = image;
            }
            Err(refusal) => *self.tally.refused.entry(refusal.number).or_default() += 1,
        }
        Ok(())
    }
}

/// Tries images on the library and on the model.
struct Judge {
    /// What is held before each load.
    former: Linked,
    former_image: Vec<u8>,
    linked: Linked,
    other: Linked,
    /// A buffer for the library and one for the model, and what they are filled with.
    lent: Vec<u8>,
    expected: Vec<u8>,
    pattern: Vec<u8>,
}

impl Judge {
    fn new() -> Judge {
        let former_image = images::save(&images::lot());
        let mut former = Linked::fresh();
        former.load(&former_image).expect("the image is sound");
        let pattern = buffer(IMAGE_MOST.max(REPORT_MOST) + MORE);
        Judge {
            linked: former.clone(),
            other: Linked::fresh(),
            former,
            former_image,
            lent: pattern.clone(),
            expected: pattern.clone(),
            pattern,
        }
    }

    /// What both make of the image; or where they differ.
    fn compare(&mut self, image: &[u8]) -> Result<Result<(), Refusal>, String> {
        let verdict = self.load(image)?;
        self.save(image, verdict.is_ok())?;
        self.report(image)?;
        Ok(verdict)
    }

    /// Loads the image on top of a replica. A refused load must leave every byte; an accepted one the
    /// bytes that it leaves in a fresh replica.
    fn load(&mut self, image: &[u8]) -> Result<Result<(), Refusal>, String> {
        self.linked.clone_from(&self.former);
        let answer = self.linked.load(image);
        let expected = Model::fresh().load(image);
        if answer != expected {
            return Err(format!("load: {answer:?}, the model {expected:?}"));
        }
        let left = match answer {
            Ok(()) => {
                self.other = Linked::fresh();
                self.other
                    .load(image)
                    .map_err(|r| format!("load again: {r:?}"))?;
                &self.other
            }
            Err(_) => &self.former,
        };
        if self.linked != *left {
            return Err(format!("load: {answer:?} left other bytes"));
        }
        Ok(answer)
    }

    /// Saves what the load left: the image itself, since only one image loads as each replica, or
    /// what was held before.
    fn save(&mut self, image: &[u8], accepted: bool) -> Result<(), String> {
        let saved = if accepted { image } else { &self.former_image };
        self.lent.copy_from_slice(&self.pattern);
        self.expected.copy_from_slice(&self.pattern);
        self.expected[..saved.len()].copy_from_slice(saved);
        let answer = self.linked.save(&mut self.lent);
        if answer != Ok(saved.len() as u32) || self.lent != self.expected {
            return Err(format!("save: {answer:?}, or other bytes"));
        }
        let short = &mut self.lent[..saved.len() - 1];
        short.copy_from_slice(&self.pattern[..saved.len() - 1]);
        let answer = self.linked.save(short);
        self.short("save", answer, saved.len() - 1)
    }

    /// A call on a buffer one byte short must be refused by 14 and leave the buffer.
    fn short(&self, call: &str, answer: Result<u32, Refusal>, room: usize) -> Result<(), String> {
        let refused = Err(Refusal {
            number: 14,
            place: 0,
        });
        if answer != refused || self.lent[..room] != self.pattern[..room] {
            return Err(format!("{call}, a byte short: {answer:?}, or other bytes"));
        }
        Ok(())
    }

    fn report(&mut self, image: &[u8]) -> Result<(), String> {
        self.lent.copy_from_slice(&self.pattern);
        self.expected.copy_from_slice(&self.pattern);
        let answer = Linked::report(image, &mut self.lent);
        let expected = Model::report(image, &mut self.expected);
        if answer != expected || self.lent != self.expected {
            return Err(format!(
                "report: {answer:?}, the model {expected:?}, or other bytes"
            ));
        }
        let room = expected.map_or(0, |length| length as usize - 1);
        let short = &mut self.lent[..room];
        short.copy_from_slice(&self.pattern[..room]);
        let answer = Linked::report(image, short);
        self.short("report", answer, room)
    }
}
