//! Documents as lines of a dump, to try out by hand.
//!
//! ```text
//! cargo run --example lines -- put IMAGE              # prints the lines of every document
//! cargo run --example lines -- take IMAGE DUMP NEW    # takes a dump into a copy, saved as NEW
//! ```
//!
//! `put` prints the documents in the order of their last changes. `take` tells of each line of the file
//! DUMP what became of it, then the totals, and saves the store that IMAGE and the accepted lines make as
//! the new file NEW. No file that is already there is ever written to. The newline at the end of the file
//! begins no line; an empty line elsewhere is refused as any other.
//!
//! Exit status: 0 all well; 1 a line was refused, or a document can't be written as lines; 2 something
//! could not be read or written, an image that is refused among it, and standard error says what.

use std::env;
use std::fs::{self, File};
use std::io::{self, Write};
use std::process::ExitCode;

use refile::{Refusal, Replica, Sequence, Written};

fn main() -> ExitCode {
    let arguments: Vec<String> = env::args().skip(1).collect();
    let (mut out, mut err) = (io::stdout().lock(), io::stderr().lock());
    ExitCode::from(status(&arguments, &mut out, &mut err))
}

/// Runs, and answers the exit status.
pub fn status(arguments: &[String], out: &mut impl Write, err: &mut impl Write) -> u8 {
    let words: Vec<&str> = arguments.iter().map(String::as_str).collect();
    let ran = match words[..] {
        ["put", image] => put(image, out, err),
        ["take", image, dump, new] => take(image, dump, new, out),
        _ => Err("say `put IMAGE` or `take IMAGE DUMP NEW`.".to_string()),
    };
    match ran {
        Ok(true) => 0,
        Ok(false) => 1,
        Err(error) => {
            // Where standard error can't be written either, the status alone tells.
            let _ = writeln!(err, "lines: {error}");
            2
        }
    }
}

/// Prints the lines of every document, and answers whether all could be written.
fn put(image: &str, out: &mut impl Write, err: &mut impl Write) -> Result<bool, String> {
    let store = load(image)?;
    let mut all = true;
    for (id, _) in store.changes(Sequence::START) {
        match store.put_out(&id) {
            Ok(lines) => out.write_all(&lines).map_err(unprinted)?,
            Err(refusal) => {
                all = false;
                let said = writeln!(err, "lines: document {}: {}", hex(&id), refused(refusal));
                said.map_err(|error| format!("standard error can't be written: {error}."))?;
            }
        }
    }
    out.flush().map_err(unprinted)?;
    Ok(all)
}

/// Takes every line of the dump in, tells what became of each, and saves the new store. Answers whether
/// no line was refused.
fn take(image: &str, dump: &str, new: &str, out: &mut impl Write) -> Result<bool, String> {
    let mut store = load(image)?;
    let dump = read(dump)?;
    let taken = take_all(&mut store, &dump, out)
        .and_then(|taken| out.flush().map(|()| taken))
        .map_err(|error| unprinted(error) + " Nothing was saved.")?;
    save(new, &store.image())?;
    writeln!(out, "saved as {new}")
        .and_then(|()| out.flush())
        .map_err(|error| format!("{} The store is saved.", unprinted(error)))?;
    Ok(taken.refused == 0)
}

/// How many lines of a dump there were of each kind.
#[derive(Default)]
struct Taken {
    changed: usize,
    unchanged: usize,
    refused: usize,
}

fn take_all(store: &mut Replica, dump: &[u8], out: &mut impl Write) -> io::Result<Taken> {
    let mut taken = Taken::default();
    for (line, number) in lines(dump).zip(1..) {
        let answer = match store.take_in(line) {
            Ok(Written::Changed) => {
                taken.changed += 1;
                "changed".to_string()
            }
            Ok(Written::Unchanged) => {
                taken.unchanged += 1;
                "unchanged".to_string()
            }
            Err(refusal) => {
                taken.refused += 1;
                refused(refusal)
            }
        };
        writeln!(out, "line {number}: {answer}")?;
    }
    let Taken {
        changed,
        unchanged,
        refused,
    } = taken;
    writeln!(
        out,
        "{changed} changed, {unchanged} unchanged, {refused} refused"
    )?;
    Ok(taken)
}

/// The lines of a dump. What follows the last newline is one too, unless it is empty.
fn lines(dump: &[u8]) -> impl Iterator<Item = &[u8]> {
    let whole = dump.strip_suffix(b"\n").unwrap_or(dump);
    let lines = whole.split(|&byte| byte == b'\n');
    lines.take(if dump.is_empty() { 0 } else { usize::MAX })
}

fn refused(refusal: Refusal) -> String {
    format!("refused {}: {}", refusal.number(), refusal.text())
}

/// The id as the check program prints it.
fn hex(id: &[u8]) -> String {
    id.iter().map(|byte| format!("{byte:02x}")).collect()
}

fn unprinted(error: io::Error) -> String {
    format!("standard output can't be written: {error}.")
}

fn read(path: &str) -> Result<Vec<u8>, String> {
    fs::read(path).map_err(|error| format!("{path} can't be read: {error}."))
}

fn load(path: &str) -> Result<Replica, String> {
    Replica::from_image(&read(path)?).map_err(|refusal| {
        let (number, place) = (refusal.number(), refusal.place());
        format!(
            "the image {path} is refused {number} at {place}: {}.",
            refusal.text()
        )
    })
}

/// Saves an image as a file that was not there before; else no file of that name is left half written.
fn save(new: &str, image: &[u8]) -> Result<(), String> {
    let mut file = File::create_new(new).map_err(|error| {
        format!("{new} is there already or can't be made: {error}. Nothing was saved.")
    })?;
    let written = file.write_all(image).and_then(|()| file.sync_all());
    drop(file);
    written.map_err(|error| match fs::remove_file(new) {
        Ok(()) => format!("{new} can't be written: {error}. Nothing was saved."),
        Err(left) => format!(
            "{new} can't be written: {error}. It is not whole, and can't be removed: {left}. Don't \
             use it."
        ),
    })
}
