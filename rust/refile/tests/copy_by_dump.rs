//! Runs the example that copies a store through a dump.

use std::path::Path;

use refile::{Content, RevisionNumber};

#[allow(dead_code)]
#[path = "../examples/copy_by_dump.rs"]
mod example;

const SMALL_STORE: &str = "\
The store holds 3 documents and 5 revisions.
  lot: lines 2, bytes 348
  bill: lines 1, bytes 156
  note: lines 1, bytes 137
Taken into a fresh store: 4 lines changed it, 0 changed nothing.
The copy holds the same: documents, revisions, parents and contents.
";

fn run(arguments: &[&str]) -> (Result<bool, String>, String) {
    let arguments: Vec<String> = arguments.iter().map(|word| word.to_string()).collect();
    let mut out = Vec::new();
    let ran = example::run(&arguments, &mut out);
    (ran, String::from_utf8(out).expect("the text is ASCII"))
}

/// An image of examples/.
fn stored(name: &str) -> String {
    let examples = Path::new(env!("CARGO_MANIFEST_DIR")).join("../../examples");
    let image = examples.join(name).display().to_string();
    assert!(Path::new(&image).is_file(), "{image}");
    image
}

#[test]
fn the_small_store_is_copied() {
    assert_eq!(run(&[]), (Ok(true), SMALL_STORE.to_string()));
}

#[test]
fn stored_images_are_copied() {
    for name in ["fresh", "lot", "north", "south", "north-after"] {
        let (ran, text) = run(&[&stored(&format!("{name}.image"))]);
        assert_eq!(ran, Ok(true), "{name}: {text}");
    }
}

#[test]
fn a_document_that_no_line_can_have_is_told() {
    let mut store = example::small_store().unwrap();
    let path = [[0x20; 16]];
    let number = RevisionNumber(1);
    store
        .write_path(b"a\"", number, &path, Content::Live(1))
        .unwrap();
    let mut out = Vec::new();
    assert!(!example::copy(&store, &mut out).unwrap());
    let text = String::from_utf8(out).unwrap();
    assert!(text.contains("\n  a\\\": refused 43: "), "{text}");
    assert!(
        text.contains("\nTHE COPY DOES NOT HOLD THE SAME."),
        "{text}"
    );
}

#[test]
fn what_is_no_image_is_told() {
    let (ran, text) = run(&[&stored("refused-25.image")]);
    assert_eq!(ran, Ok(false));
    assert!(text.starts_with("The image is refused 25: "), "{text}");
    assert!(run(&["absent.image"])
        .0
        .unwrap_err()
        .contains("can't be read"));
    assert!(run(&["a", "b"]).0.is_err());
}
