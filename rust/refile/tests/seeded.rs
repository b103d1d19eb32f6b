//! Wrong edits of the library, replayed. The kit builds no archive from unproved code, so a small
//! program over the sources runs a stored scenario under `rt try`. On the sources as they are it
//! prints the model's lines; on a copy with one of the must-fail edits it must not.

use refile_model::harness::{apply, buffer};
use refile_model::images::save;
use refile_model::model::{hex, Model};
use refile_model::sizes::{DOCUMENTS, HASH_BYTES, REVISIONS};
use refile_model::steps::{Scenario, Step};
use refile_model::{Content, Replica};
use std::fs;
use std::path::{Path, PathBuf};
use std::process::Command;

/// The crates that the program runs.
const CRATES: [&str; 15] = [
    "rules", "octets", "layout", "tree", "store", "union", "text", "images", "faults", "codec",
    "report", "reads", "writes", "pulls", "edits",
];

/// Must-fail edits that a scenario brings out: some of each crate.
const EDITS: [(&str, &str); 15] = [
    ("octets", "order-prefix-last"),
    ("layout", "ids-without-length"),
    ("tree", "deleted-wins"),
    ("tree", "zero-parent-unknown"),
    ("reads", "changes-in-id-order"),
    ("writes", "ancestry-dropped"),
    ("writes", "body-put-back"),
    ("writes", "crossed-above"),
    ("writes", "raised-unchanged"),
    ("pulls", "known-leaf-skipped"),
    ("pulls", "stops-at-refusal"),
    ("faults", "parent-unknown"),
    ("faults", "place-in-document"),
    ("codec", "places-left-zero"),
    ("report", "leaves-for-conflicts"),
];

fn top() -> PathBuf {
    let package = Path::new(env!("CARGO_MANIFEST_DIR"));
    package.ancestors().nth(2).unwrap().to_path_buf()
}

/// A folder that is removed at the end.
struct Room(PathBuf);

impl Room {
    fn new(name: &str) -> Room {
        let name = format!("refile-seeded-{}-{name}", std::process::id());
        let folder = std::env::temp_dir().join(name);
        fs::create_dir(&folder).unwrap();
        Room(folder)
    }
}

impl Drop for Room {
    fn drop(&mut self) {
        let _ = fs::remove_dir_all(&self.0);
    }
}

/// A step as the program reads it: fixed fields, the lengths of three runs of bytes, and the runs.
struct Line {
    op: u8,
    at: usize,
    kind: u8,
    number: u32,
    label: u64,
    runs: [Vec<u8>; 3],
}

impl Line {
    fn new(op: u8, at: usize) -> Line {
        Line {
            op,
            at,
            kind: 0,
            number: 0,
            label: 0,
            runs: Default::default(),
        }
    }

    fn content(mut self, content: Content) -> Line {
        (self.kind, self.label) = match content {
            Content::Live(label) => (1, label),
            Content::Deleted => (2, 0),
        };
        self
    }

    fn number(mut self, number: u32) -> Line {
        self.number = number;
        self
    }

    fn from(mut self, from: usize) -> Line {
        self.kind = from as u8;
        self
    }

    fn runs(mut self, first: &[u8], second: &[u8]) -> Line {
        self.runs[0] = first.to_vec();
        self.runs[1] = second.to_vec();
        self
    }

    fn bytes(&self) -> Vec<u8> {
        let mut bytes = vec![self.op, self.at as u8, self.kind, 0];
        bytes.extend(self.number.to_be_bytes());
        bytes.extend(self.label.to_be_bytes());
        for run in &self.runs {
            bytes.extend((run.len() as u16).to_be_bytes());
        }
        bytes.extend(self.runs.concat());
        bytes
    }
}

fn line(step: &Step) -> Line {
    let mut line = match step {
        Step::Fresh { at } => Line::new(1, *at),
        Step::Load { at, image } => Line::new(2, *at).runs(image, &[]),
        Step::Save { at, .. } => Line::new(3, *at),
        Step::Write {
            at,
            id,
            number,
            path,
            content,
        } => Line::new(4, *at)
            .number(*number)
            .content(*content)
            .runs(id, path),
        Step::Edit {
            at,
            id,
            hash,
            content,
            parent,
        } => match parent {
            Some((number, parent)) => Line::new(5, *at)
                .number(*number)
                .content(*content)
                .runs(id, &[*hash, *parent].concat()),
            None => Line::new(5, *at).content(*content).runs(id, hash),
        },
        Step::Winner { at, id, .. } => Line::new(6, *at).runs(id, &[]),
        Step::Leaves { at, id, .. } => Line::new(7, *at).runs(id, &[]),
        Step::Path {
            at,
            id,
            number,
            hash,
            ..
        } => Line::new(8, *at).number(*number).runs(id, hash),
        Step::Missing { at, id, asked, .. } => Line::new(9, *at).runs(id, asked),
        Step::Changes { at, after, .. } => Line::new(10, *at).number(*after),
        Step::Pull { at, from, after } => Line::new(11, *at).number(*after).from(*from),
        Step::Reload { at, from } => Line::new(12, *at).from(*from),
        Step::UpdateSequence { at } => Line::new(13, *at),
        Step::Counts { at } => Line::new(14, *at),
        Step::Report { image, .. } => Line::new(15, 0).runs(image, &[]),
        Step::TakeIn { .. } | Step::PutOut { .. } | Step::PutOutSize { .. } => {
            panic!("the program has no step for lines: {step}")
        }
    };
    line.runs[2] = step.room().map(buffer).unwrap_or_default();
    line
}

/// What the model prints for a scenario.
fn expected(scenario: &Scenario) -> String {
    let mut replicas = std::array::from_fn(|_| Model::fresh());
    let steps = scenario.steps.iter();
    steps
        .map(|step| format!("{}\n", apply(&mut replicas, step)))
        .collect()
}

/// Copies the sources of the crates, and adds the program, its input and what it is to print.
fn lay_out(folder: &Path, scenario: &Scenario) {
    let top = top();
    for name in CRATES {
        let sources = folder.join("crates").join(name).join("src");
        fs::create_dir_all(&sources).unwrap();
        for file in fs::read_dir(top.join("crates").join(name).join("src")).unwrap() {
            let file = file.unwrap();
            fs::copy(file.path(), sources.join(file.file_name())).unwrap();
        }
    }
    let listed = fs::read_to_string(top.join("crates.txt")).unwrap();
    let kept = |line: &&str| CRATES.contains(&line.split(':').next().unwrap());
    let mut lines: Vec<&str> = listed.lines().filter(kept).collect();
    let program = format!("replay: {}", CRATES.join(" "));
    lines.push(&program);
    fs::write(folder.join("crates.txt"), lines.join("\n") + "\n").unwrap();
    let replay = folder.join("crates/replay");
    fs::create_dir_all(replay.join("src")).unwrap();
    let main = top.join("rust/refile/replay/main.rattle");
    fs::copy(main, replay.join("src/main.rt")).unwrap();
    let steps: Vec<u8> = scenario
        .steps
        .iter()
        .flat_map(|step| line(step).bytes())
        .collect();
    let cases = folder.join("cases");
    fs::create_dir(&cases).unwrap();
    fs::write(cases.join("steps"), steps).unwrap();
    fs::write(cases.join("steps.stdout"), expected(scenario)).unwrap();
}

/// The lines of a must-fail edit: those of the file of its name, or those that a line `# name:` begins in a
/// file that holds several.
fn edit_named(name: &str, label: &str) -> String {
    let folder = top().join(format!("crates/{name}/must-fail"));
    if let Ok(text) = fs::read_to_string(folder.join(format!("{label}.edit"))) {
        return text;
    }
    let files = fs::read_dir(folder).unwrap();
    let texts = files.map(|file| fs::read_to_string(file.unwrap().path()).unwrap());
    let heading = format!("# name: {label}\n");
    let found: Vec<String> = texts
        .filter_map(|text| Some(text.split_once(&heading)?.1.to_string()))
        .map(|rest| rest.split("# name: ").next().unwrap().to_string())
        .collect();
    assert_eq!(found.len(), 1, "{name} has one edit {label}");
    found.into_iter().next().unwrap()
}

/// Applies a must-fail edit: a file, then lines `old:` and `new:` in turn.
fn apply_edit(crate_folder: &Path, edit: &str) {
    let mut file = None;
    let mut old = None;
    for line in edit.lines() {
        if let Some(name) = line.strip_prefix("file: ") {
            file = Some(crate_folder.join(name));
        } else if let Some(text) = line.strip_prefix("old: ") {
            old = Some(text);
        } else if let Some(text) = line.strip_prefix("new: ") {
            let file = file.as_ref().expect("an edit names its file first");
            let old = old.take().expect("an edit has old before new");
            let source = fs::read_to_string(file).unwrap();
            assert_eq!(source.matches(old).count(), 1, "`{old}` stands once");
            fs::write(file, source.replacen(old, text, 1)).unwrap();
        }
    }
}

/// Whether the program printed the model's lines, and what was said.
fn runs(folder: &Path) -> (bool, String) {
    let run = Command::new("rt")
        .args(["try", "--cases", "../../cases"])
        .current_dir(folder.join("crates/replay"))
        .output()
        .expect("the kit's command rt is there");
    let said = [run.stdout, run.stderr].concat();
    (
        run.status.success(),
        String::from_utf8_lossy(&said).into_owned(),
    )
}

fn stored(name: &str) -> Scenario {
    let file = top().join(format!("rust/model/scenarios/{name}.txt"));
    fs::read_to_string(file).unwrap().parse().unwrap()
}

/// The borders of the room: the last document that there is room for, and one more; a full replica.
fn borders() -> Scenario {
    let mut nearly = Model::fresh();
    for i in 1..DOCUMENTS as u8 {
        let hash = [i; HASH_BYTES];
        let written = nearly.write(&[0x80, i], 1, &hash, Content::Live(1));
        assert_eq!(written, Ok(true));
    }
    let full = fs::read(top().join("examples/full.image")).unwrap();
    let id_len = full[16] as usize;
    let held = hex(&full[17..17 + id_len]);
    let hash = hex(&[0x4d; HASH_BYTES]);
    let steps = [
        format!("load 0 {}", hex(&save(&nearly))),
        format!("write 0 8000 1 {hash} live 9"),
        format!("write 0 9999 1 {hash} live 9"),
        format!("edit 0 9999 {hash} live 1 on none"),
        format!("load 1 {}", hex(&full)),
        format!("write 1 {held} {REVISIONS} {hash} live 9"),
        format!("write 1 9999 1 {hash} live 9"),
        "pull 1 from 0 after 0".to_string(),
        "counts 0".to_string(),
        "counts 1".to_string(),
    ];
    steps.join("\n").parse().unwrap()
}

/// What is said of an edit that goes unnoticed, or that stops the program in another way.
fn unnoticed(scenario: &Scenario, name: &str, label: &str) -> Option<String> {
    let room = Room::new(&format!("{name}-{label}"));
    lay_out(&room.0, scenario);
    apply_edit(&room.0.join("crates").join(name), &edit_named(name, label));
    let (same, said) = runs(&room.0);
    if !same && said.contains("output=differs") {
        return None;
    }
    Some(format!("{name} {label}:\n{said}"))
}

#[test]
fn the_program_prints_the_models_lines() {
    for (name, scenario) in [
        ("edits", stored("edits")),
        ("damaged", stored("damaged")),
        ("borders", borders()),
    ] {
        let room = Room::new(name);
        lay_out(&room.0, &scenario);
        let (same, said) = runs(&room.0);
        assert!(same, "{said}");
    }
}

#[test]
fn the_borders_are_met() {
    let said = expected(&borders());
    for line in ["refused 6 at 0", "refused 7 at 0"] {
        assert!(said.lines().any(|l| l == line), "{said}");
    }
}

#[test]
fn wrong_edits_are_noticed() {
    let (edits, damaged) = (stored("edits"), stored("damaged"));
    let (left, right) = EDITS.split_at(EDITS.len() / 2);
    let tried = |wrong: &[(&str, &str)]| -> Vec<String> {
        let scenario = |name| if name == "faults" { &damaged } else { &edits };
        let wrong = wrong.iter();
        wrong
            .filter_map(|(name, label)| unnoticed(scenario(*name), name, label))
            .collect()
    };
    let missed = std::thread::scope(|scope| {
        let other = scope.spawn(|| tried(left));
        let mut missed = tried(right);
        missed.extend(other.join().unwrap());
        missed
    });
    assert!(missed.is_empty(), "not noticed:\n{}", missed.join("\n"));
}
