//! The modules import only from those above them in the README's list.

use std::fs;
use std::path::Path;

const README: &str = include_str!("../README.md");

/// The modules in the order of the list.
fn listed() -> Vec<&'static str> {
    let lines = README.lines();
    let names = lines.filter_map(|line| line.strip_prefix("- `src/")?.split_once(".rs`"));
    names.map(|(name, _)| name).collect()
}

/// The modules that a source names after `crate::`.
fn named(source: &str) -> impl Iterator<Item = &str> {
    let after = source.split("crate::").skip(1);
    let words = after.filter_map(|rest| rest.split(|c: char| !c.is_ascii_lowercase()).next());
    words.filter(|word| !word.is_empty())
}

#[test]
fn modules_import_from_those_above_them() {
    let folder = Path::new(env!("CARGO_MANIFEST_DIR")).join("src");
    let listed = listed();
    let files = fs::read_dir(&folder).unwrap();
    let files = files.filter(|file| file.as_ref().unwrap().path().is_file());
    assert_eq!(files.count(), listed.len(), "the list has every module");
    let mut imports = 0;
    for (at, module) in listed.iter().enumerate() {
        let source = fs::read_to_string(folder.join(format!("{module}.rs"))).unwrap();
        for other in named(&source) {
            let above = listed[..at].contains(&other);
            assert!(above, "{module} imports from {other}");
            imports += 1;
        }
    }
    assert!(imports > listed.len(), "{imports} imports");
}
