//! Copies a store through a dump: puts every document out into lines, takes each line into a fresh
//! store, and sees that the copy holds the same but for sequences.
//!
//! ```text
//! cargo run --example copy_by_dump             # a small store of its own
//! cargo run --example copy_by_dump -- IMAGE    # the store of an image, which is only read
//! ```
//!
//! Exit status: 0 the copy holds the same, 1 it doesn't or the image is refused, 2 something can't be
//! read or written, and standard error says what.

use std::env;
use std::fs;
use std::io::{self, Write};
use std::process::ExitCode;

use refile::{Content, Refusal, Replica, RevisionNumber, Sequence, Written};

fn main() -> ExitCode {
    let arguments: Vec<String> = env::args().skip(1).collect();
    match run(&arguments, &mut io::stdout().lock()) {
        Ok(true) => ExitCode::SUCCESS,
        Ok(false) => ExitCode::from(1),
        Err(error) => {
            eprintln!("copy_by_dump: {error}");
            ExitCode::from(2)
        }
    }
}

/// Answers whether the copy holds the same.
pub fn run(arguments: &[String], out: &mut impl Write) -> Result<bool, String> {
    let unprinted = |error: io::Error| format!("standard output can't be written: {error}.");
    let image = match arguments {
        [] => small_store()
            .expect("the small store breaks no rule")
            .image(),
        [path] => fs::read(path).map_err(|error| format!("{path} can't be read: {error}."))?,
        _ => return Err("name one image, or none.".to_string()),
    };
    let copied = match Replica::from_image(&image) {
        Ok(store) => copy(&store, out),
        Err(refusal) => writeln!(out, "The image is {}", refused(refusal)).map(|()| false),
    };
    let copied = copied.map_err(unprinted)?;
    out.flush().map_err(unprinted)?;
    Ok(copied)
}

/// Copies a store through a dump, and answers whether the copy holds the same.
pub fn copy(store: &Replica, out: &mut impl Write) -> io::Result<bool> {
    let held = store.counts();
    writeln!(
        out,
        "The store holds {} documents and {} revisions.",
        held.documents, held.revisions
    )?;
    let dump = put_out(store, out)?;
    let copy = take_in(&dump, out)?;
    let same = without_sequences(&copy.image()) == without_sequences(&store.image());
    let verdict = if same {
        "The copy holds the same: documents, revisions, parents and contents."
    } else {
        "THE COPY DOES NOT HOLD THE SAME. Look at what was refused, and copy the image instead."
    };
    writeln!(out, "{verdict}")?;
    Ok(same)
}

/// The lines of every document, in the order of their last changes, so that the copy has them in that
/// order too.
fn put_out(store: &Replica, out: &mut impl Write) -> io::Result<Vec<u8>> {
    let mut dump = Vec::new();
    for (id, change) in store.changes(Sequence::START) {
        let name = id.escape_ascii();
        match store.put_out(&id) {
            Ok(lines) => {
                let leaves = change.leaves;
                writeln!(out, "  {name}: lines {leaves}, bytes {}", lines.len())?;
                dump.extend(lines);
            }
            Err(refusal) => writeln!(out, "  {name}: {}", refused(refusal))?,
        }
    }
    Ok(dump)
}

/// A fresh store that every line was taken into.
fn take_in(dump: &[u8], out: &mut impl Write) -> io::Result<Replica> {
    let mut copy = Replica::fresh();
    let (mut changed, mut unchanged) = (0, 0);
    for line in dump.split_inclusive(|&byte| byte == b'\n') {
        match copy.take_in(line) {
            Ok(Written::Changed) => changed += 1,
            Ok(Written::Unchanged) => unchanged += 1,
            Err(refusal) => writeln!(out, "  a line is {}", refused(refusal))?,
        }
    }
    writeln!(
        out,
        "Taken into a fresh store: {changed} lines changed it, {unchanged} changed nothing."
    )?;
    Ok(copy)
}

fn refused(refusal: Refusal) -> String {
    format!("refused {}: {}.", refusal.number(), refusal.text())
}

/// The image with its update sequence and every document's own sequence set to 0.
fn without_sequences(image: &[u8]) -> Vec<u8> {
    let mut image = image.to_vec();
    let documents = u16::from_be_bytes([image[2], image[3]]);
    image[8..12].fill(0);
    for entry in image[16..].chunks_exact_mut(44).take(documents.into()) {
        entry[36..40].fill(0);
    }
    image
}

/// A store with a fork, a deletion, and a revision whose parent isn't known.
pub fn small_store() -> Result<Replica, Refusal> {
    let (one, two, nine) = (RevisionNumber(1), RevisionNumber(2), RevisionNumber(9));
    let mut store = Replica::fresh();
    store.write_path(b"lot", two, &[[0x91; 16], [0x20; 16]], Content::Live(8))?;
    store.write_path(b"lot", two, &[[0x4c; 16], [0x20; 16]], Content::Deleted)?;
    store.write_path(b"bill", nine, &[[0x70; 16]], Content::Live(u64::MAX))?;
    store.write_path(b"note", one, &[[0x33; 16]], Content::Live(0))?;
    Ok(store)
}
