//! Runs the example that puts lines out and takes them in, on the files of examples/.

use std::fs;
use std::io::{self, Write};
use std::path::{Path, PathBuf};

use refile::{Content, Replica, RevisionNumber};

#[allow(dead_code)]
#[path = "../examples/lines.rs"]
mod example;

/// The exit status, standard output and standard error.
fn run(arguments: &[&str]) -> (u8, String, String) {
    let arguments: Vec<String> = arguments.iter().map(|word| word.to_string()).collect();
    let (mut out, mut err) = (Vec::new(), Vec::new());
    let status = example::status(&arguments, &mut out, &mut err);
    let [out, err] = [out, err].map(|said| String::from_utf8(said).expect("the text is UTF-8"));
    (status, out, err)
}

/// A file of examples/.
fn stored(name: &str) -> String {
    let examples = Path::new(env!("CARGO_MANIFEST_DIR")).join("../../examples");
    examples.join(name).display().to_string()
}

/// A name in a folder of the test's own.
fn new(name: &str) -> PathBuf {
    let file = Path::new(env!("CARGO_TARGET_TMPDIR")).join(name);
    // A former run's is no new name.
    let _ = fs::remove_file(&file);
    file
}

/// Takes a dump into an image's store; answers the status, what was printed, and the new image.
fn take(image: &str, dump: &[u8], name: &str) -> (u8, String, Vec<u8>) {
    let (file, saved) = (new(&format!("{name}.lines")), new(&format!("{name}.image")));
    fs::write(&file, dump).unwrap();
    let (file, saved) = (file.display().to_string(), saved.display().to_string());
    let (status, out, err) = run(&["take", &stored(image), &file, &saved]);
    assert_eq!(err, "");
    let out = out
        .strip_suffix(&format!("saved as {saved}\n"))
        .expect("it is saved");
    (status, out.to_string(), fs::read(saved).unwrap())
}

fn held(image: &[u8]) -> Replica {
    Replica::from_image(image).expect("a sound image")
}

#[test]
fn lines_are_put() {
    let lot = fs::read_to_string(stored("lot.lines")).unwrap();
    assert_eq!(run(&["put", &stored("lot.image")]), (0, lot, String::new()));
    assert_eq!(
        run(&["put", &stored("fresh.image")]),
        (0, String::new(), String::new())
    );
}

#[test]
fn a_document_that_no_line_can_have_is_told() {
    let mut store = Replica::fresh();
    for id in [b"a\"", b"ok"] {
        let path = [[0x20; 16]];
        store
            .write_path(id, RevisionNumber(1), &path, Content::Live(1))
            .unwrap();
    }
    let image = new("unwritable.image");
    fs::write(&image, store.image()).unwrap();
    let (status, out, err) = run(&["put", &image.display().to_string()]);
    assert_eq!(status, 1);
    assert_eq!(out.lines().count(), 1);
    assert!(out.starts_with("{\"_id\":\"ok\","), "{out}");
    assert!(
        err.starts_with("lines: document 6122: refused 43: "),
        "{err}"
    );
}

#[test]
fn a_dump_is_taken() {
    let dump = fs::read(stored("dump.lines")).unwrap();
    let (status, out, image) = take("fresh.image", &dump, "dump");
    let said =
        "line 1: changed\nline 2: changed\nline 3: changed\nline 4: unchanged\nline 5: changed\n\
                4 changed, 1 unchanged, 0 refused\n";
    assert_eq!((status, out.as_str()), (0, said));
    assert_eq!(image, fs::read(stored("lot.image")).unwrap());

    let lines = fs::read(stored("lot.lines")).unwrap();
    let (status, out, again) = take("lot.image", &lines, "again");
    let said = "line 1: unchanged\nline 2: unchanged\n0 changed, 2 unchanged, 0 refused\n";
    assert_eq!((status, out.as_str()), (0, said));
    assert_eq!(again, image);
}

#[test]
fn refused_lines_are_told_and_the_rest_is_taken() {
    let lot = fs::read(stored("lot.lines")).unwrap();
    for number in 40..=43 {
        let bad = fs::read(stored(&format!("refused-{number}.lines"))).unwrap();
        let dump = [&bad[..], &lot[..]].concat();
        let (status, out, image) = take("fresh.image", &dump, &format!("refused-{number}"));
        let said = format!("line 1: refused {number}: ");
        assert!(out.starts_with(&said), "{out}");
        assert!(out
            .ends_with("\nline 2: changed\nline 3: changed\n2 changed, 0 unchanged, 1 refused\n"));
        assert_eq!(status, 1);
        assert_eq!(held(&image).put_out(b"lot").unwrap(), lot);
    }
}

#[test]
fn empty_lines() {
    let nothing = "0 changed, 0 unchanged, 0 refused\n";
    let (status, out, image) = take("lot.image", b"", "nothing");
    assert_eq!((status, out.as_str()), (0, nothing));
    assert_eq!(image, fs::read(stored("lot.image")).unwrap());

    let line = b"{\"_id\":\"a\",\"_rev\":\"1-20000000000000000000000000000000\",\"label\":1}";
    let text = refile::Refusal::NotJson.text();
    let (status, out, _) = take(
        "fresh.image",
        &[b"\n", &line[..], b"\n\n"].concat(),
        "empty",
    );
    let said = format!(
        "line 1: refused 40: {text}\nline 2: changed\nline 3: refused 40: {text}\n\
         1 changed, 0 unchanged, 2 refused\n"
    );
    assert_eq!((status, out), (1, said));
    let (status, out, _) = take("fresh.image", line, "no-newline");
    assert_eq!(
        (status, out.as_str()),
        (0, "line 1: changed\n1 changed, 0 unchanged, 0 refused\n")
    );
}

#[test]
fn no_file_is_written_over() {
    let image = new("mine.image");
    fs::write(&image, "of the clerk").unwrap();
    let mine = image.display().to_string();
    let (status, _, err) = run(&["take", &stored("lot.image"), &stored("lot.lines"), &mine]);
    assert_eq!(status, 2);
    assert!(err.ends_with("Nothing was saved.\n"), "{err}");
    assert_eq!(fs::read(&image).unwrap(), b"of the clerk");
}

#[test]
fn what_cannot_be_read_is_told() {
    let saved = new("unread.image");
    let name = saved.display().to_string();
    let (lot, lines) = (stored("lot.image"), stored("lot.lines"));
    let damaged = stored("refused-25.image");
    for arguments in [
        &["put", "absent.image"][..],
        &["put", &damaged],
        &["take", "absent.image", &lines, &name],
        &["take", &damaged, &lines, &name],
        &["take", &lot, "absent.lines", &name],
        &["take", &lot, &lines],
        &["list", &lot],
        &[],
    ] {
        let (status, out, err) = run(arguments);
        assert_eq!((status, out.as_str()), (2, ""), "{arguments:?}");
        assert!(err.starts_with("lines: "), "{err}");
        assert!(!saved.exists(), "{arguments:?}");
    }
}

/// Takes nothing.
struct Full;

impl Write for Full {
    fn write(&mut self, _: &[u8]) -> io::Result<usize> {
        Err(io::ErrorKind::StorageFull.into())
    }

    fn flush(&mut self) -> io::Result<()> {
        Ok(())
    }
}

#[test]
fn what_nobody_can_read_is_not_saved() {
    let saved = new("unprinted.image");
    let arguments = [
        "take".to_string(),
        stored("lot.image"),
        stored("lot.lines"),
        saved.display().to_string(),
    ];
    assert_eq!(example::status(&arguments, &mut Full, &mut Vec::new()), 2);
    assert!(!saved.exists());
    let arguments = ["put".to_string(), stored("lot.image")];
    assert_eq!(example::status(&arguments, &mut Full, &mut Vec::new()), 2);
}
