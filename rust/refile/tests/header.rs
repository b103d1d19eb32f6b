//! Holds the Rust declarations and numbers to the C header, which nothing else compares.

use std::collections::BTreeMap;
use std::fmt::Write as _;
use std::fs;
use std::path::Path;
use std::process::Command;

use refile::Refusal;
use refile_model::layout::IMAGE_MOST;
use refile_model::model::REPORT_MOST;
use refile_model::sizes::{DOCUMENTS, HASH_BYTES, LEAF_BYTES, PATH_HASHES, REVISIONS};

const HEADER: &str = include_str!("../../../include/refile.h");
const DECLARATIONS: &str = include_str!("../src/sys.rs");

/// A function's parameters, each as its name and its type in C.
type Signatures = BTreeMap<String, Vec<(String, String)>>;

/// The text between the first `open` and the `close` after it, and what follows.
fn between<'a>(text: &'a str, open: &str, close: &str) -> Option<(&'a str, &'a str)> {
    let start = text.find(open)? + open.len();
    let end = start + text[start..].find(close)?;
    Some((&text[start..end], &text[end + close.len()..]))
}

fn without_comments(text: &str) -> String {
    let mut kept = String::new();
    let mut rest = text;
    while let Some((before, after)) = rest.split_once("/*") {
        kept.push_str(before);
        rest = after.split_once("*/").expect("a comment ends").1;
    }
    kept + rest
}

/// Every function of the header that answers a number of 64 bits.
fn in_c() -> Signatures {
    let text = without_comments(HEADER);
    let mut found = Signatures::new();
    let mut rest = text.as_str();
    while let Some((signature, after)) = between(rest, "\nuint64_t ", ");") {
        let (name, parameters) = signature.split_once('(').expect("a function");
        let parameters = parameters
            .split(',')
            .filter(|parameter| *parameter != "void");
        let parameters = parameters.map(|parameter| {
            let parameter = parameter.trim();
            let at = parameter.rfind([' ', '*']).expect("a type and a name") + 1;
            let (kind, name) = parameter.split_at(at);
            (name.to_string(), kind.trim().to_string())
        });
        found.insert(name.to_string(), parameters.collect());
        rest = after;
    }
    found
}

/// Every declared function, with the types put into C.
fn in_rust() -> Signatures {
    let mut found = Signatures::new();
    let mut rest = DECLARATIONS;
    while let Some((signature, after)) = between(rest, "pub fn ", ")") {
        assert!(after.trim_start().starts_with("-> u64;"), "{signature}");
        let (name, parameters) = signature.split_once('(').expect("a function");
        let parameters = parameters.trim().trim_end_matches(',').split(',');
        let parameters = parameters.filter(|parameter| !parameter.is_empty());
        let parameters = parameters.map(|parameter| {
            let (name, kind) = parameter.split_once(": ").expect("a name and a type");
            let kind = match kind {
                "*const u8" => "const uint8_t *",
                "*mut u8" => "uint8_t *",
                "usize" => "size_t",
                "u32" => "uint32_t",
                "u64" => "uint64_t",
                other => panic!("the header has no type for {other}"),
            };
            (name.trim().to_string(), kind.to_string())
        });
        found.insert(name.to_string(), parameters.collect());
        rest = after;
    }
    found
}

/// What a C program prints that has the header and this in its main.
fn printed_by_c(name: &str, statements: &str) -> String {
    let package = Path::new(env!("CARGO_MANIFEST_DIR"));
    let folder = Path::new(env!("CARGO_TARGET_TMPDIR"));
    let (source, program) = (folder.join(format!("{name}.c")), folder.join(name));
    let text = format!(
        "#include <stdio.h>\n#include \"refile.h\"\nint main(void) {{\n{statements}return 0;\n}}\n"
    );
    fs::write(&source, text).unwrap();
    let status = Command::new("cc")
        .args(["-std=c99", "-Wall", "-Wextra", "-Werror", "-I"])
        .arg(package.join("../../include"))
        .arg("-o")
        .args([&program, &source])
        .status()
        .expect("cc runs");
    assert!(status.success(), "the program compiles");
    let output = Command::new(&program).output().unwrap();
    String::from_utf8(output.stdout).expect("the text is ASCII")
}

/// The numbers that the header defines, as C works them out.
fn defined() -> BTreeMap<&'static str, usize> {
    let names = HEADER.lines().filter_map(|line| {
        let name = line.strip_prefix("#define REFILE_")?.split(' ').next()?;
        let plain = name.chars().all(|c| c.is_ascii_uppercase() || c == '_');
        (plain && name != "H" && name != "MUST_CHECK").then_some(name)
    });
    let names: Vec<&str> = names.collect();
    let mut statements = String::new();
    for name in &names {
        writeln!(
            statements,
            "printf(\"%lu\\n\", (unsigned long)REFILE_{name});"
        )
        .unwrap();
    }
    let numbers = printed_by_c("header-numbers", &statements);
    let numbers = numbers.lines().map(|line| line.parse().expect("a number"));
    names.into_iter().zip(numbers).collect()
}

#[test]
fn declarations_are_those_of_the_header() {
    let declared = in_c();
    assert_eq!(declared.len(), 19);
    assert_eq!(in_rust(), declared);
}

/// The sizes that both have.
const SIZES: [(&str, usize); 14] = [
    ("DOCUMENTS", refile::DOCUMENTS),
    ("REVISIONS", refile::REVISIONS),
    ("PATH_HASHES", refile::PATH_HASHES),
    ("ID_BYTES", refile::ID_BYTES),
    ("HASH_BYTES", refile::HASH_BYTES),
    ("LEAF_BYTES", refile::LEAF_BYTES),
    ("ASKED_BYTES", refile::ASKED_BYTES),
    ("REPLICA_BYTES", refile::REPLICA_BYTES),
    ("IMAGE_MOST", refile::IMAGE_MOST),
    ("LEAVES_MOST", refile::LEAVES_MOST),
    ("PATH_MOST", refile::PATH_MOST),
    ("REPORT_MOST", refile::REPORT_MOST),
    ("STACK_BYTES", refile::STACK_BYTES),
    ("VERSION", refile::VERSION as usize),
];

/// The room and what it gives are the model's, whose numbers were not taken from the header.
#[test]
fn sizes_are_the_models() {
    let room = (refile::DOCUMENTS, refile::REVISIONS, refile::PATH_HASHES);
    assert_eq!(room, (DOCUMENTS, REVISIONS, PATH_HASHES));
    let image = (refile::REPLICA_BYTES, refile::IMAGE_MOST);
    assert_eq!(image, (IMAGE_MOST, IMAGE_MOST));
    let answers = (refile::LEAVES_MOST, refile::PATH_MOST);
    assert_eq!(answers, (REVISIONS * LEAF_BYTES, PATH_HASHES * HASH_BYTES));
    assert_eq!(refile::REPORT_MOST, REPORT_MOST);
    assert_eq!(refile::VERSION, 3_000);
}

#[test]
fn refusals_are_those_of_the_header() {
    let refusals = [
        ("ID", Refusal::Id),
        ("PATH", Refusal::Path),
        ("NUMBER", Refusal::Number),
        ("PARENT", Refusal::Parent),
        ("CONTENT", Refusal::Content),
        ("NO_DOCUMENT_ROOM", Refusal::NoDocumentRoom),
        ("NO_REVISION_ROOM", Refusal::NoRevisionRoom),
        ("NO_SEQUENCE", Refusal::NoSequence),
        ("EDIT_PARENT", Refusal::EditParent),
        ("EDIT_KNOWN", Refusal::EditKnown),
        ("EDIT_LAST", Refusal::EditLast),
        ("NO_DOCUMENT", Refusal::NoDocument),
        ("NO_REVISION", Refusal::NoRevision),
        ("SHORT_BUFFER", Refusal::ShortBuffer),
        ("ASKED", Refusal::Asked),
        ("IMAGE_SHORT", Refusal::ImageShort),
        ("IMAGE_EDITION", Refusal::ImageEdition),
        ("IMAGE_HEAD", Refusal::ImageHead),
        ("IMAGE_CONTENTS", Refusal::ImageContents { place: 0 }),
        ("IMAGE_SEQUENCE", Refusal::ImageSequence { place: 0 }),
        ("IMAGE_ROW", Refusal::ImageRow { place: 0 }),
        ("IMAGE_PARENT", Refusal::ImageParent { place: 0 }),
        ("NOT_JSON", Refusal::NotJson),
        ("BAD_MEMBER", Refusal::BadMember),
        ("OTHER_REVISIONS", Refusal::OtherRevisions),
        ("UNWRITABLE_ID", Refusal::UnwritableId),
    ];
    let house = [
        ("BAD_REPLICA", 100),
        ("BAD_KIND", 101),
        ("BAD_LABEL", 102),
        ("BAD_FLAG", 103),
        ("BAD_HASH", 104),
        ("BAD_NO_PARENT", 105),
        ("IMAGE_LENT", 106),
    ];
    let only_in_c = [
        ("CHANGES_BYTES", 16),
        ("PULL_BYTES", 12),
        ("COUNTS_BYTES", 8),
        ("HEAD_LINE_MOST", 57),
        ("DOCUMENT_LINE_MOST", 170),
        ("LIVE", 1),
        ("DELETED", 2),
        ("VERSION_MAJOR", 0),
        ("VERSION_MINOR", 3),
        ("VERSION_PATCH", 0),
    ];
    let expected = refusals.map(|(name, refusal)| (name, refusal.number() as usize));
    let expected = expected.into_iter().chain(SIZES).chain(house);
    assert_eq!(defined(), expected.chain(only_in_c).collect());
}

#[test]
fn texts_are_those_of_the_header() {
    let numbers = 0..=120;
    let statements = "for (unsigned n = 0; n <= 120; n++) printf(\"%s\\n\", refile_text(n));\n";
    let printed = printed_by_c("header-texts", statements);
    let lines: Vec<&str> = printed.lines().collect();
    assert_eq!(lines.len(), 121);
    assert_eq!(lines[0], "accepted");
    let unknown = lines[120];
    assert!(unknown.starts_with("a number that this header does not know"));
    let mut known = 0;
    for number in numbers.skip(1) {
        let text = refile::text(number);
        assert_eq!(text.unwrap_or(unknown), lines[number as usize], "{number}");
        known += usize::from(text.is_some());
    }
    assert_eq!(known, 33);
    let refused = Refusal::ImageRow { place: 7 };
    assert_eq!(
        refused.to_string(),
        format!("refused 25 at 7: {}", lines[25])
    );
}
