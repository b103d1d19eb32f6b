//! The benchmark: the compiled library beside the baseline, beside memcpy and a byte sum of the same
//! size. Prints tables in Markdown.
//!
//! ```text
//! cargo run --release -p refile-bench            # about a second for each row
//! cargo run --release -p refile-bench -- 0.2     # another number of seconds
//! ```
//!
//! `REFILE_CHECK` names the proved check program if it isn't at target/bin/check_main.

mod data;
mod measure;
mod works;

use std::env;
use std::fs;
use std::io;
use std::iter::successors;
use std::path::{Path, PathBuf};
use std::process::Command;
use std::time::Duration;

use refile_bench::baseline::Baseline;
use refile_bench::linked::Linked;
use refile_model::layout::{image_bytes, ROW_BYTES};
use refile_model::random::Random;
use refile_model::sizes::{ASKED_BYTES, DOCUMENTS, LEAF_BYTES, PATH_HASHES, REVISIONS};
use refile_model::Replica;

use data::{Write, HALF, SHARE};
use measure::{interleave, Nanoseconds, Side, Times};

/// The same work by the library and by the baseline.
macro_rules! sides {
    ($work:ident($($argument:expr),*)) => {
        (
            works::$work::<Linked>($($argument),*),
            works::$work::<Baseline>($($argument),*),
        )
    };
}

fn main() {
    let seconds = env::args().nth(1).map_or(1.0, |seconds| {
        seconds
            .parse()
            .expect("the argument is a number of seconds")
    });
    let bench = Bench {
        budget: Duration::from_secs_f64(seconds),
    };
    println!(
        "Times are the minimum and the median over interleaved rounds, for one call unless the row \
         says otherwise; the ratio is that of the minima, library to baseline. Buffers are written \
         over without being cleared, and writes and pulls begin on a copy made before the clock \
         starts.\n"
    );
    bench.main_table();
    bench.first_and_last();
    bench.growth();
}

/// How many writes are measured at either end of a history.
const SOME: usize = 64;

struct Bench {
    budget: Duration,
}

impl Bench {
    fn main_table(&self) {
        let ids = data::ids();
        let mixed = data::mixed();
        let trunk = data::trunk();
        let fresh = data::image(&Baseline::fresh());
        let asked = asked(&mixed);
        let short = data::history(2);
        let full = data::history(PATH_HASHES);
        let whole = &full[PATH_HASHES - 1..PATH_HASHES];
        let bushes = data::bushes(SHARE - 1).layers.concat();

        println!(
            "| Work | library, min / median | baseline, min / median | memcpy | byte sum | ratio | \
             goal | met |\n\
             |---|---|---|---|---|---|---|---|"
        );
        self.row(
            "load and validate the largest image",
            (Some(0.6), Some(mixed.len())),
            sides!(load(&mixed)),
        );
        self.row(
            "save the largest image",
            (Some(0.6), Some(mixed.len())),
            sides!(save(&mixed)),
        );
        self.row(
            &format!("winner, {DOCUMENTS} documents of {SHARE} revisions"),
            (Some(2.0), None),
            sides!(winner(&mixed, &ids)),
        );
        self.row(
            &format!("leaves, {DOCUMENTS} documents of {SHARE} revisions"),
            (Some(1.0), None),
            sides!(leaves(&mixed, &ids, SHARE)),
        );
        self.row(
            &format!("leaves, one document with {HALF}"),
            (Some(1.0), Some(HALF * LEAF_BYTES)),
            sides!(leaves(&trunk, &ids[..1], HALF)),
        );
        self.row(
            &format!(
                "missing, {} asked of each of {DOCUMENTS} documents, half of them known",
                2 * SHARE
            ),
            (None, Some(asked[0].len())),
            sides!(missing(&mixed, &ids, &asked)),
        );
        self.check_process(&mixed);
        self.row(
            &format!("a write that extends one history up to {REVISIONS}, path of 2"),
            (Some(0.5), None),
            sides!(writes(&[], &short, 1)),
        );
        self.row(
            "the same with the full path each time",
            (Some(1.0), None),
            sides!(writes(&[], &full, 1)),
        );
        self.row(
            &format!("one path of {PATH_HASHES} into a fresh replica"),
            (Some(1.0), Some(whole[0].path.len())),
            sides!(writes(&[], whole, 1)),
        );
        self.row(
            "that again, unchanged",
            (Some(1.0), Some(whole[0].path.len())),
            sides!(writes(whole, whole, 1)),
        );
        self.row(
            &format!(
                "{DOCUMENTS} documents of {} leaves, random order, each write repeated",
                SHARE - 1
            ),
            (Some(1.5), None),
            sides!(writes(&[], &bushes, 2)),
        );
        self.row(
            "pull of a full mixed replica into an empty one",
            (Some(1.5), Some(mixed.len())),
            sides!(pull(&mixed, &fresh)),
        );
        self.row(
            "that again, nothing new",
            (Some(1.5), Some(mixed.len())),
            sides!(pull(&mixed, &mixed)),
        );
        self.row(
            &format!("pull of a trunk of {HALF} with {HALF} leaves into an empty one"),
            (Some(1.0), Some(trunk.len())),
            sides!(pull(&trunk, &fresh)),
        );
        self.row(
            "that again, nothing new",
            (Some(1.0), Some(trunk.len())),
            sides!(pull(&trunk, &trunk)),
        );
        self.line_rows();
        println!();
    }

    /// The rows of the main table about lines of dumps.
    fn line_rows(&self) {
        let ids = data::ids();
        let full = data::history(PATH_HASHES);
        let long = [data::line(&full[PATH_HASHES - 1])];
        let history = data::history(2);
        let short: Vec<&[u8]> = history.iter().map(data::line).collect();
        let bytes = short[REVISIONS - 1].len();
        let bushes: Baseline = data::written(&data::bushes(SHARE - 1).layers.concat());
        let lines = |id: &&[u8]| data::lines(&bushes, id).len();
        let room = ids.iter().map(lines).max().expect("some documents");
        self.row(
            &format!("a line with a path of {PATH_HASHES} taken into a fresh replica"),
            (Some(1.0), Some(long[0].len())),
            sides!(take_in(&[], &long)),
        );
        self.row(
            "that again, unchanged",
            (None, Some(long[0].len())),
            sides!(take_in(&long, &long)),
        );
        self.row(
            &format!(
                "a line of {bytes} bytes that extends one history up to {REVISIONS}, path of 2"
            ),
            (Some(1.2), Some(bytes)),
            sides!(take_in(&[], &short)),
        );
        self.row(
            &format!(
                "lines put out, {DOCUMENTS} documents of {} leaves",
                SHARE - 1
            ),
            (Some(1.0), Some(room)),
            sides!(put_out(&data::image(&bushes), &ids, room)),
        );
    }

    /// Measures and prints a row. `bytes` is the size that memcpy and the byte sum are shown for.
    fn row(
        &self,
        work: &str,
        (goal, bytes): (Option<f64>, Option<usize>),
        (mut library, mut baseline): (Side, Side),
    ) {
        assert!(
            library.outcome == baseline.outcome,
            "the library and the baseline disagree about: {work}"
        );
        let (times, plain) = match bytes {
            Some(bytes) => {
                let mut copy = works::memcpy(bytes);
                let mut sum = works::byte_sum(bytes);
                let sides = [&mut library, &mut baseline, &mut copy, &mut sum];
                let [library, baseline, copy, sum] = interleave(self.budget, sides);
                let plain = [copy, sum].map(|times| Nanoseconds(times.least).to_string());
                ([library, baseline], plain)
            }
            None => {
                let sides = [&mut library, &mut baseline];
                let plain = ["–", "–"].map(String::from);
                (interleave(self.budget, sides), plain)
            }
        };
        let [library, baseline] = times;
        let [copy, sum] = plain;
        println!(
            "| {work} | {library} | {baseline} | {copy} | {sum} | {} |",
            Verdict::of(library, baseline, goal)
        );
    }

    /// The whole check process, if the proved program has been built.
    fn check_process(&self, image: &[u8]) {
        let work = "the whole check process, largest image";
        let result = check_programs().and_then(|(proved, plain)| {
            let file = plain.with_file_name("largest.image");
            fs::write(&file, image)?;
            let library = works::process(&proved, &file)?;
            let baseline = works::process(&plain, &file)?;
            self.row(work, (Some(1.0), None), (library, baseline));
            fs::remove_file(&file)
        });
        if let Err(error) = result {
            println!("| {work} | not measured: {error} | – | – | – | – | 1.00 | – |");
        }
    }

    /// Whether a history grows at the same cost however long it is.
    fn first_and_last(&self) {
        let writes = data::history(2);
        let first = &writes[..SOME];
        let (before, last) = writes.split_at(REVISIONS - SOME);
        let (mut library_first, mut baseline_first) = sides!(writes(&[], first, 1));
        let (mut library_last, mut baseline_last) = sides!(writes(before, last, 1));
        let [library_first, library_last, baseline_first, baseline_last] = interleave(
            self.budget,
            [
                &mut library_first,
                &mut library_last,
                &mut baseline_first,
                &mut baseline_last,
            ],
        );
        println!(
            "A write that extends one history, path of 2:\n\n\
             | | first {SOME} | last {SOME} | last to first | goal | met |\n\
             |---|---|---|---|---|---|"
        );
        for (name, first, last, goal) in [
            ("library", library_first, library_last, Some(1.3)),
            ("baseline", baseline_first, baseline_last, None),
        ] {
            let verdict = Verdict::of(last, first, goal);
            println!("| {name} | {first} | {last} | {verdict} |");
        }
        println!();
    }

    /// How a write's cost grows with what is held.
    fn growth(&self) {
        let least = 2 * DOCUMENTS;
        println!(
            "A new revision by a path of 2, the last {DOCUMENTS} of so many held:\n\n\
             | Held | one history: library | baseline | ratio | to {least} held | \
             leaves on {DOCUMENTS} documents: library | baseline | ratio | to {least} held |\n\
             |---|---|---|---|---|---|---|---|---|"
        );
        let line = data::history(2);
        let bushes = data::bushes(SHARE - 1);
        let mut at_least: Option<[Times; 2]> = None;
        let doubled = successors(Some(least), |held| Some(2 * held));
        for held in doubled.take_while(|held| *held <= REVISIONS) {
            let (before, last) = line[..held].split_at(held - DOCUMENTS);
            let one = self.pair(sides!(writes(before, last, 1)));

            let layers = held / DOCUMENTS - 1;
            let (before, last) = bushes.layers[..layers].split_at(layers - 1);
            let before: Vec<Write> = [bushes.roots.clone(), before.concat()].concat();
            let many = self.pair(sides!(writes(&before, &last[0], 1)));

            let at_least = at_least.get_or_insert([one[0], many[0]]);
            println!(
                "| {held} | {} | {} | {:.2} | {:.2} | {} | {} | {:.2} | {:.2} |",
                one[0],
                one[1],
                one[0].least / one[1].least,
                one[0].least / at_least[0].least,
                many[0],
                many[1],
                many[0].least / many[1].least,
                many[0].least / at_least[1].least,
            );
        }
    }

    fn pair(&self, (mut library, mut baseline): (Side, Side)) -> [Times; 2] {
        assert!(library.outcome == baseline.outcome);
        interleave(self.budget, [&mut library, &mut baseline])
    }
}

/// A ratio of minima, the goal for it and whether it is met, as the last cells of a row.
struct Verdict {
    ratio: f64,
    goal: Option<f64>,
}

impl Verdict {
    fn of(measured: Times, against: Times, goal: Option<f64>) -> Verdict {
        Verdict {
            ratio: measured.least / against.least,
            goal,
        }
    }
}

impl std::fmt::Display for Verdict {
    fn fmt(&self, f: &mut std::fmt::Formatter<'_>) -> std::fmt::Result {
        match self.goal {
            Some(goal) => {
                let met = if self.ratio <= goal { "yes" } else { "NO" };
                write!(f, "{:.2} | {goal:.2} | {met}", self.ratio)
            }
            None => write!(f, "{:.2} | none | –", self.ratio),
        }
    }
}

/// For each document a list of its own revisions and as many of the next one's, mixed.
fn asked(mixed: &[u8]) -> Vec<Vec<u8>> {
    let rows: Vec<&[u8]> = mixed[image_bytes(DOCUMENTS, 0)..]
        .chunks(ROW_BYTES)
        .collect();
    let mut random = Random::new(20);
    let list = |document: usize| {
        let own_and_next = rows.iter().cycle().skip(SHARE * document).take(2 * SHARE);
        let mut asked: Vec<&[u8]> = own_and_next.map(|row| &row[..ASKED_BYTES]).collect();
        random.shuffle(&mut asked);
        asked.concat()
    };
    (0..DOCUMENTS).map(list).collect()
}

/// The proved check program and the plain one, which is built first if need be.
fn check_programs() -> io::Result<(PathBuf, PathBuf)> {
    let top = Path::new(env!("CARGO_MANIFEST_DIR")).ancestors().nth(2);
    let top = top.expect("the package is at rust/bench");
    let proved = env::var_os("REFILE_CHECK")
        .map_or_else(|| top.join("target/bin/check_main"), PathBuf::from);
    if !proved.is_file() {
        return Err(io::Error::other(
            "there is no check program; run `./check examples/lot.image` at the top, or set REFILE_CHECK",
        ));
    }
    // `cargo run` builds only the program that it runs.
    let cargo = env::var_os("CARGO").unwrap_or_else(|| "cargo".into());
    let status = Command::new(cargo)
        .args(["build", "--release", "--quiet", "--bin", "check_baseline"])
        .current_dir(env!("CARGO_MANIFEST_DIR"))
        .status()?;
    if !status.success() {
        return Err(io::Error::other("check_baseline was not built"));
    }
    let plain = env::current_exe()?.with_file_name("check_baseline");
    Ok((proved, plain))
}
