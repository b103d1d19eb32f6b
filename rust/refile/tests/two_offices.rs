//! Runs the worked example, in Rust and in C over the same archive: both say and save the same, and
//! neither writes to a file that is there.

use std::env;
use std::fs;
use std::path::{Path, PathBuf};
use std::process::{self, Command, Output};

use refile::{Content, Hash, Replica, RevisionNumber};

#[allow(dead_code)]
#[path = "../examples/two_offices.rs"]
mod example;

const SMALL_OFFICES: &str = "\
North holds 3 documents and 5 revisions.
South holds 3 documents and 6 revisions.
South pulled from North: 2 offers changed it, 1 changed nothing, 0 were refused.
North pulled from South: 2 offers changed it, 2 changed nothing, 0 were refused.
The offices agree: same documents, revisions, parents and contents.
North's documents now:
  lot: winner 3-70000000000000000000000000000000, label 1, conflicts 0
  note: winner 2-05000000000000000000000000000000, deleted, conflicts 0
  bill: winner 2-91000000000000000000000000000000, label 8, conflicts 1
";

/// Compiles the C example into a file of that name, which each test has for itself.
fn compile(name: &str) -> PathBuf {
    let package = Path::new(env!("CARGO_MANIFEST_DIR"));
    let program = Path::new(env!("CARGO_TARGET_TMPDIR")).join(name);
    let status = Command::new("cc")
        .args(["-std=c11", "-Wall", "-Wextra", "-Werror", "-O2", "-I"])
        .arg(package.join("../../include"))
        .arg("-o")
        .arg(&program)
        .arg(package.join("c/two_offices.c"))
        .arg(env!("REFILE_ARCHIVE"))
        .status()
        .expect("cc runs");
    assert!(status.success(), "the C example compiles and links");
    program
}

fn printed(output: &Output) -> &str {
    std::str::from_utf8(&output.stdout).expect("the text is ASCII")
}

/// Runs the C example on two images, and holds what it says and saves to the Rust one's.
fn compare(name: &str, north: &[u8], south: &[u8]) -> (String, Option<i32>) {
    let folder = Path::new(env!("CARGO_TARGET_TMPDIR"));
    let file = |part: &str| folder.join(format!("{name}.{part}"));
    let files = [
        file("north"),
        file("south"),
        file("north.new"),
        file("south.new"),
    ];
    fs::write(&files[0], north).unwrap();
    fs::write(&files[1], south).unwrap();
    // A former run's are no new names.
    let _ = (fs::remove_file(&files[2]), fs::remove_file(&files[3]));
    let output = Command::new(compile(name)).args(&files).output().unwrap();

    let mut text = Vec::new();
    let merged = example::replicate(north, south, &mut text).unwrap();
    let text = String::from_utf8(text).unwrap();
    assert_eq!(fs::read(&files[0]).unwrap(), north);
    assert_eq!(fs::read(&files[1]).unwrap(), south);
    match merged {
        Some(merged) => {
            let saved = format!(
                "Saved as {} and {}.\n",
                files[2].display(),
                files[3].display()
            );
            assert_eq!(printed(&output), text.clone() + &saved);
            assert_eq!(fs::read(&files[2]).unwrap(), merged.north);
            assert_eq!(fs::read(&files[3]).unwrap(), merged.south);
        }
        None => assert_eq!(printed(&output), text),
    }
    (text, output.status.code())
}

#[test]
fn small_offices_agree() {
    let output = Command::new(compile("small")).output().unwrap();
    assert_eq!(printed(&output), SMALL_OFFICES);
    assert_eq!(output.status.code(), Some(0));

    let [north, south] = example::small_offices().unwrap();
    let (text, status) = compare("merged", &north.image(), &south.image());
    assert_eq!(text, SMALL_OFFICES);
    assert_eq!(status, Some(0));
}

#[test]
fn refused_offers_are_told() {
    let mut north = Replica::fresh();
    let mut south = Replica::fresh();
    let number = RevisionNumber(2);
    for (office, parent) in [(&mut north, [0x20; 16]), (&mut south, [0x33; 16])] {
        let path = [[0x91; 16], parent];
        office
            .write_path(b"a\0b", number, &path, Content::Live(0))
            .unwrap();
    }
    let (text, status) = compare("refused", &north.image(), &south.image());
    assert!(text.contains("SOMETHING OF North IS NOT IN South"));
    assert!(text.contains("THE OFFICES DO NOT AGREE"));
    assert!(text.contains("  a\\x00b: winner 2-9191"));
    assert_eq!(status, Some(1));
}

#[test]
fn a_damaged_image_is_told() {
    let image = Replica::fresh().image();
    let (text, status) = compare("damaged", &image, &image[1..]);
    assert!(text.ends_with("South's image is refused 20 at 0. Nothing was pulled.\n"));
    assert_eq!(status, Some(1));
}

/// In which variable a test names the arguments to the Rust example, a line each.
const ARGUMENTS: &str = "REFILE_TWO_OFFICES_ARGUMENTS";

/// No test by itself: the Rust example as a program of its own, which another test starts.
#[test]
fn as_a_program() {
    if let Ok(arguments) = env::var(ARGUMENTS) {
        let arguments: Vec<String> = arguments.lines().map(str::to_string).collect();
        process::exit(example::status(&arguments).into());
    }
}

/// A folder of a test's own, empty at first, in which a program runs.
struct Room(PathBuf);

impl Room {
    fn new(name: &str) -> Room {
        let folder = Path::new(env!("CARGO_TARGET_TMPDIR")).join(name);
        let _ = fs::remove_dir_all(&folder);
        fs::create_dir(&folder).unwrap();
        Room(folder)
    }

    /// Every file there, by name.
    fn files(&self) -> Vec<(String, Vec<u8>)> {
        let files = fs::read_dir(&self.0).unwrap().map(|file| {
            let file = file.unwrap();
            let name = file.file_name().into_string().unwrap();
            (name, fs::read(file.path()).unwrap())
        });
        let mut files: Vec<_> = files.collect();
        files.sort();
        files
    }

    /// Runs a command there, and answers its exit status and what it said on standard error.
    fn run(&self, command: &mut Command) -> (Option<i32>, String) {
        let output = command.current_dir(&self.0).output().unwrap();
        let said = String::from_utf8(output.stderr).expect("the text is ASCII");
        (output.status.code(), said)
    }
}

fn names(files: &[(String, Vec<u8>)]) -> Vec<&str> {
    files.iter().map(|(name, _)| name.as_str()).collect()
}

/// Lets the C and the Rust example run on the same arguments, each in a folder with the same files,
/// after what a shell is told first.
fn both(
    name: &str,
    files: &[(&str, Vec<u8>)],
    first: &str,
    arguments: &[&str],
    check: impl Fn(Option<i32>, &str, Vec<(String, Vec<u8>)>),
) {
    let c = compile(&format!("{name}-c"));
    let rust = env::current_exe().unwrap();
    let script = format!("{first}\nexec \"$@\"");
    for (language, program) in [("c", c), ("rust", rust)] {
        let room = Room::new(&format!("{name}-{language}-files"));
        for (file, bytes) in files {
            fs::write(room.0.join(file), bytes).unwrap();
        }
        let mut command = Command::new("sh");
        command.args(["-c", &script, "sh"]).arg(program);
        if language == "c" {
            command.args(arguments);
        } else {
            command.args(["--exact", "as_a_program", "--nocapture"]);
            command.env(ARGUMENTS, arguments.join("\n"));
        }
        let (status, said) = room.run(&mut command);
        println!("{name}, {language}: {status:?} {said}");
        check(status, &said, room.files());
    }
}

/// Two images that agree after a pull both ways.
fn two_images() -> [(&'static str, Vec<u8>); 2] {
    let [north, south] = example::small_offices().unwrap();
    [("n.img", north.image()), ("s.img", south.image())]
}

#[test]
fn no_file_that_is_there_is_written_to() {
    for (name, new_names) in [
        ("read", ["n.img", "s.img"]),
        ("crossed", ["s.img", "n.img"]),
        ("first", ["n.img", "new"]),
        ("second", ["new", "s.img"]),
        ("other", ["new", "clerk"]),
        ("twice", ["new", "new"]),
        ("twice-in-other-words", ["new", "./new"]),
        ("no-folder", ["new", "none/new"]),
    ] {
        let mut files = two_images().to_vec();
        files.insert(0, ("clerk", b"of the clerk".to_vec()));
        let arguments = ["n.img", "s.img", new_names[0], new_names[1]];
        both(name, &files, "", &arguments, |status, said, left| {
            assert_eq!(status, Some(2));
            let said = said.to_ascii_lowercase();
            assert!(said.contains("nothing was saved") || said.contains("nothing was done"));
            let left: Vec<_> = left
                .iter()
                .map(|(name, bytes)| (name.as_str(), bytes.clone()))
                .collect();
            assert!(left == files, "{name} alters the files");
        });
    }
}

#[test]
fn both_offices_are_saved() {
    let arguments = ["n.img", "s.img", "n.new", "s.new"];
    both(
        "saved",
        &two_images(),
        "",
        &arguments,
        |status, said, left| {
            assert_eq!((status, said), (Some(0), ""));
            assert_eq!(names(&left), ["n.img", "n.new", "s.img", "s.new"]);
            assert!(Replica::from_image(&left[1].1).is_ok());
            assert!(Replica::from_image(&left[3].1).is_ok());
        },
    );
}

/// An office of one small image and one of a large one, which take nothing from each other.
fn small_and_large() -> [Vec<u8>; 2] {
    let path: Vec<Hash> = (0..100).map(|first| [first; 16]).collect();
    [vec![path[0], [0xee; 16]], path].map(|path| {
        let mut office = Replica::fresh();
        let number = RevisionNumber(100);
        office
            .write_path(b"lot", number, &path, Content::Live(1))
            .unwrap();
        office.image()
    })
}

/// No file may be over one block, so that only the small office can be written.
const LIMITED: &str = "trap '' XFSZ; ulimit -f 1";

#[test]
fn a_failed_second_write_is_told() {
    let [small, large] = small_and_large();
    assert!(small.len() <= 512 && large.len() > 1024);
    let files = [("n.img", small.clone()), ("s.img", large)];
    let arguments = ["n.img", "s.img", "n.new", "s.new"];
    both(
        "second-fails",
        &files,
        LIMITED,
        &arguments,
        |status, said, left| {
            assert_eq!(status, Some(2));
            assert!(said.contains("s.new can't be written: File too large"));
            assert!(said.contains("North is saved as n.new, and South is not saved."));
            assert_eq!(names(&left), ["n.img", "n.new", "s.img"]);
            assert!(left[1].1 == small);
        },
    );
}

#[test]
fn a_failed_first_write_leaves_nothing() {
    let [small, large] = small_and_large();
    let files = [("n.img", large), ("s.img", small)];
    let arguments = ["n.img", "s.img", "n.new", "s.new"];
    both(
        "first-fails",
        &files,
        LIMITED,
        &arguments,
        |status, said, left| {
            assert_eq!(status, Some(2));
            assert!(said.contains("n.new can't be written: File too large"));
            assert!(said.to_ascii_lowercase().contains("nothing was saved."));
            assert_eq!(names(&left), ["n.img", "s.img"]);
        },
    );
}
