//! The model beside itself: a replica that is saved and loaded again after every call, and what the
//! scenarios and images reach.

use refile_model::harness::{apply, Answer};
use refile_model::images::{image, save};
use refile_model::model::Model;
use refile_model::scenario::{dump, scenario, DUMP_LINES};
use refile_model::steps::{Scenario, Step, REPLICAS};
use refile_model::trials;
use refile_model::{Change, Content, Counts, Refusal, Replica};
use std::collections::{BTreeMap, BTreeSet};

const SCENARIOS: u64 = 1_000;
const IMAGES: u64 = 10_000;
const DUMPS: u64 = 2_000;

/// The model, saved and loaded after every call that may alter it.
#[derive(Clone)]
struct Reloaded(Model);

impl Reloaded {
    fn reload(&mut self) {
        let image = save(&self.0);
        let mut loaded = Model::fresh();
        loaded.load(&image).expect("what was saved loads");
        assert_eq!(loaded.held(), self.0.held(), "as the same replica");
        self.0 = loaded;
    }
}

impl Replica for Reloaded {
    fn fresh() -> Self {
        Reloaded(Model::fresh())
    }

    fn load(&mut self, image: &[u8]) -> Result<(), Refusal> {
        let loaded = self.0.load(image);
        if loaded.is_ok() {
            assert_eq!(
                save(&self.0),
                image,
                "what loads is saved as the same bytes"
            );
        }
        self.reload();
        loaded
    }

    fn save(&self, out: &mut [u8]) -> Result<u32, Refusal> {
        self.0.save(out)
    }

    fn write(
        &mut self,
        id: &[u8],
        number: u32,
        path: &[u8],
        content: Content,
    ) -> Result<bool, Refusal> {
        let written = self.0.write(id, number, path, content);
        self.reload();
        written
    }

    fn take_in(&mut self, line: &[u8]) -> Result<bool, Refusal> {
        let taken = self.0.take_in(line);
        self.reload();
        taken
    }

    fn edit(
        &mut self,
        id: &[u8],
        hash: [u8; 16],
        content: Content,
        parent: Option<(u32, [u8; 16])>,
    ) -> Result<u32, Refusal> {
        let edited = self.0.edit(id, hash, content, parent);
        self.reload();
        edited
    }

    fn winner(&self, id: &[u8], out: &mut [u8]) -> Result<u32, Refusal> {
        self.0.winner(id, out)
    }

    fn leaves(&self, id: &[u8], out: &mut [u8]) -> Result<u32, Refusal> {
        self.0.leaves(id, out)
    }

    fn path(&self, id: &[u8], number: u32, hash: [u8; 16], out: &mut [u8]) -> Result<u32, Refusal> {
        self.0.path(id, number, hash, out)
    }

    fn put_out(&self, id: &[u8], out: &mut [u8]) -> Result<u32, Refusal> {
        self.0.put_out(id, out)
    }

    fn put_out_size(&self, id: &[u8]) -> Result<u32, Refusal> {
        self.0.put_out_size(id)
    }

    fn missing(&self, id: &[u8], asked: &[u8], out: &mut [u8]) -> Result<u32, Refusal> {
        self.0.missing(id, asked, out)
    }

    fn changes(&self, after: u32, out: &mut [u8]) -> Result<Option<Change>, Refusal> {
        self.0.changes(after, out)
    }

    fn pull(&mut self, source: &Self, after: u32) -> Counts {
        let counts = self.0.pull(&source.0, after);
        self.reload();
        counts
    }

    fn update_sequence(&self) -> u32 {
        self.0.update_sequence()
    }

    fn counts(&self) -> (u32, u32) {
        self.0.counts()
    }

    fn report(image: &[u8], out: &mut [u8]) -> Result<u32, Refusal> {
        Model::report(image, out)
    }
}

#[test]
fn a_saved_and_loaded_replica_answers_the_same_in_scenarios() {
    trials::scenarios::<Reloaded>(0..SCENARIOS);
}

#[test]
fn a_saved_and_loaded_replica_answers_the_same_about_images() {
    trials::images::<Reloaded>(0..IMAGES);
    trials::traps::<Reloaded>();
}

#[test]
fn a_saved_and_loaded_replica_answers_the_same_about_dumps() {
    trials::dumps::<Reloaded>(0..DUMPS);
}

/// How many lines of so many dumps are refused by each number, and how many are taken (0).
fn tally(dumps: u64) -> BTreeMap<u32, usize> {
    let mut tally = BTreeMap::new();
    for seed in 0..dumps {
        let mut replicas: [Model; REPLICAS] = std::array::from_fn(|_| Model::fresh());
        for step in dump(seed).steps {
            let answer = apply(&mut replicas, &step).answer;
            if let Step::TakeIn { .. } = step {
                let number = match answer {
                    Answer::Refused(refusal) => refusal.number,
                    _ => 0,
                };
                *tally.entry(number).or_default() += 1;
            }
        }
    }
    tally
}

#[test]
fn dumps_reach_every_refusal_of_a_line() {
    let tally = tally(DUMPS);
    let lines: usize = tally.values().sum();
    assert_eq!(lines, DUMPS as usize * DUMP_LINES);
    println!("{tally:?}");
    for (number, percent) in [(0, 20), (40, 20), (41, 10), (42, 1), (43, 1)] {
        let reached = tally.get(&number).copied().unwrap_or_default();
        assert!(
            100 * reached >= percent * lines,
            "{reached} of {lines} are {number}"
        );
    }
}

#[test]
fn a_printed_scenario_is_read_back() {
    for seed in 0..200 {
        let scenario = scenario(seed);
        assert_eq!(
            scenario.to_string().parse(),
            Ok(scenario),
            "scenario {seed}"
        );
    }
}

#[test]
fn a_line_that_is_no_step_is_named() {
    let error = |text: &str| text.parse::<Scenario>().unwrap_err().to_string();
    assert_eq!(
        error("# a remark\n\nfresh 3\n"),
        "line 3: there is no replica 3"
    );
    assert_eq!(error("jump 0"), "line 1: `jump` is no step");
    assert_eq!(
        error("winner 0 6c6f7 room 29"),
        "line 1: `6c6f7` is not bytes in hex"
    );
    assert_eq!(
        error("fresh 0\nfresh 0 1"),
        "line 2: `1` is one word too many"
    );
}

/// The name of a step's call, as its text has it.
fn call(step: &Step) -> String {
    let text = step.to_string();
    text.split(' ').next().unwrap_or_default().to_string()
}

/// Every refusal that a call has, and every other answer of note, as `call: answer`.
fn possible() -> BTreeSet<String> {
    let refusals: [(&str, &[u32]); 13] = [
        ("load", &[20, 21, 22, 23, 24, 25, 26]),
        ("save", &[14]),
        ("write", &[1, 2, 3, 4, 5, 6, 7, 8]),
        ("take_in", &[1, 2, 3, 4, 5, 6, 7, 8, 40, 41, 42, 43]),
        ("edit", &[1, 6, 7, 8, 9, 10, 11]),
        ("winner", &[1, 12, 14]),
        ("leaves", &[1, 12, 14]),
        ("path", &[1, 12, 13, 14]),
        ("put_out", &[1, 12, 14, 43]),
        ("put_out_size", &[1, 12, 43]),
        ("missing", &[1, 14, 15]),
        ("changes", &[14]),
        ("report", &[14]),
    ];
    let mut possible: BTreeSet<String> = [
        "write: changed",
        "write: unchanged",
        "take_in: changed",
        "take_in: unchanged",
        "changes: no more",
    ]
    .map(String::from)
    .into();
    for (call, numbers) in refusals {
        possible.extend(
            numbers
                .iter()
                .map(|number| format!("{call}: refused {number}")),
        );
    }
    for call in [
        "fresh",
        "load",
        "save",
        "edit",
        "winner",
        "leaves",
        "path",
        "put_out",
        "put_out_size",
        "missing",
        "changes",
        "pull",
        "reload",
        "sequence",
        "counts",
        "report",
    ] {
        possible.insert(format!("{call}: accepted"));
    }
    possible
}

#[test]
fn scenarios_reach_every_answer() {
    let mut reached = BTreeSet::new();
    for seed in 0..SCENARIOS {
        let mut replicas: [Model; REPLICAS] = std::array::from_fn(|_| Model::fresh());
        for step in scenario(seed).steps {
            let answer = match apply(&mut replicas, &step).answer {
                Answer::Refused(refusal) => format!("refused {}", refusal.number),
                answer @ (Answer::Changed(_) | Answer::NoMore) => answer.to_string(),
                _ => "accepted".to_string(),
            };
            reached.insert(format!("{}: {answer}", call(&step)));
        }
    }
    assert_eq!(reached, possible());
}

#[test]
fn images_reach_every_refusal_and_many_places() {
    let mut places = BTreeSet::new();
    let mut accepted = 0;
    for seed in 0..IMAGES {
        match Model::fresh().load(&image(seed)) {
            Ok(()) => accepted += 1,
            Err(Refusal { number, place }) => drop(places.insert((number, place))),
        }
    }
    assert!(accepted > IMAGES / 10, "{accepted} accepted");
    // Well below what these seeds reach, which shifts with the room.
    for (number, least) in [
        (20, 1),
        (21, 1),
        (22, 1),
        (23, 12),
        (24, 6),
        (25, 40),
        (26, 40),
    ] {
        let reached = places.iter().filter(|(refused, _)| *refused == number);
        let reached = reached.count();
        assert!(reached >= least, "{number} at {reached} places");
    }
}
