//! Two offices that replicate both ways: loads two images, pulls each into the other, saves both,
//! and says what a person should read.
//!
//! ```text
//! cargo run --example two_offices                                 # two small offices of its own
//! cargo run --example two_offices -- NORTH SOUTH                  # two images
//! cargo run --example two_offices -- NORTH SOUTH NEW-NORTH NEW-SOUTH
//! ```
//!
//! The merged images go to the two new files, if these are named. No file that is already there is
//! ever written to, be it an image that was read or not: both new files are made before either is
//! written, and where one of them can't be, nothing is saved. Exit status: 0 the offices agree, 1 they
//! don't or an image is refused, 2 a file can't be read or written, and standard error says which.

use std::env;
use std::fs::{self, File};
use std::io::{self, Write};
use std::process::ExitCode;

use refile::{Content, Counts, Hash, Refusal, Replica, RevisionNumber, Sequence};

fn main() -> ExitCode {
    let arguments: Vec<String> = env::args().skip(1).collect();
    ExitCode::from(status(&arguments))
}

/// Runs, and answers the exit status.
pub fn status(arguments: &[String]) -> u8 {
    match run(arguments) {
        Ok(true) => 0,
        Ok(false) => 1,
        Err(error) => {
            eprintln!("two_offices: {error}");
            2
        }
    }
}

/// Answers whether the offices agree in the end.
fn run(arguments: &[String]) -> Result<bool, String> {
    if let [_, _, new_north, new_south] = arguments {
        if new_north == new_south {
            return Err(format!(
                "both new files are named {new_north}: name two. Nothing was done."
            ));
        }
    }
    let (north, south) = match arguments {
        [] => {
            let [north, south] = small_offices().expect("the small offices break no rule");
            (north.image(), south.image())
        }
        [north, south] | [north, south, _, _] => (read(north)?, read(south)?),
        _ => return Err("name two images, or two images and two new files.".to_string()),
    };
    let mut out = io::stdout().lock();
    let merged = replicate(&north, &south, &mut out).and_then(|merged| {
        out.flush()?;
        Ok(merged)
    });
    let Some(merged) = merged.map_err(|error| unprinted(&error, "Nothing was saved."))? else {
        return Ok(false);
    };
    if let [_, _, new_north, new_south] = arguments {
        save_both(&merged, new_north, new_south)?;
        writeln!(out, "Saved as {new_north} and {new_south}.")
            .and_then(|()| out.flush())
            .map_err(|error| unprinted(&error, "Both offices are saved."))?;
    }
    Ok(merged.agree)
}

fn read(path: &str) -> Result<Vec<u8>, String> {
    fs::read(path).map_err(|error| format!("{path} can't be read: {error}."))
}

fn unprinted(error: &io::Error, then: &str) -> String {
    format!("standard output can't be written: {error}. {then}")
}

/// Makes a file that was not there before.
fn make_file(path: &str) -> Result<File, String> {
    File::create_new(path)
        .map_err(|error| format!("{path} is there already or can't be made: {error}."))
}

/// Takes away a file that this program made and that is not whole.
fn unmake_file(path: &str) -> String {
    match fs::remove_file(path) {
        Ok(()) => String::new(),
        Err(error) => {
            format!(" {path} is not whole, and can't be removed: {error}. Don't use it.")
        }
    }
}

/// Writes an image and sees that all of it arrived; else no file of that name is left.
fn write_image(mut file: File, path: &str, image: &[u8]) -> Result<(), String> {
    let written = file.write_all(image).and_then(|()| file.sync_all());
    drop(file);
    written.map_err(|error| {
        let left = unmake_file(path);
        format!("{path} can't be written: {error}.{left}")
    })
}

/// Saves both offices, or says of each file what became of it.
fn save_both(merged: &Merged, new_north: &str, new_south: &str) -> Result<(), String> {
    let north = make_file(new_north).map_err(|error| error + " Nothing was saved.")?;
    let south = make_file(new_south).map_err(|error| {
        let left = unmake_file(new_north);
        format!("{error}{left} Nothing was saved.")
    })?;
    write_image(north, new_north, &merged.north).map_err(|error| {
        let left = unmake_file(new_south);
        format!("{error}{left} Nothing was saved.")
    })?;
    write_image(south, new_south, &merged.south)
        .map_err(|error| format!("{error} North is saved as {new_north}, and South is not saved."))
}

/// The images after both pulls, and whether they are the same but for sequences.
pub struct Merged {
    pub north: Vec<u8>,
    pub south: Vec<u8>,
    pub agree: bool,
}

/// Pulls both ways and tells what came of it; none if an image is refused.
pub fn replicate(north: &[u8], south: &[u8], out: &mut impl Write) -> io::Result<Option<Merged>> {
    let Some(mut north) = load("North", north, out)? else {
        return Ok(None);
    };
    let Some(mut south) = load("South", south, out)? else {
        return Ok(None);
    };
    let counts = south.pull(&north, Sequence::START);
    tell_pull("South", "North", counts, out)?;
    let counts = north.pull(&south, Sequence::START);
    tell_pull("North", "South", counts, out)?;

    let (north_image, south_image) = (north.image(), south.image());
    let agree = without_sequences(&north_image) == without_sequences(&south_image);
    if agree {
        writeln!(
            out,
            "The offices agree: same documents, revisions, parents and contents."
        )?;
    } else {
        writeln!(
            out,
            "THE OFFICES DO NOT AGREE. Keep both former images and look at the refused offers."
        )?;
    }
    writeln!(out, "North's documents now:")?;
    for (id, _) in north.changes(Sequence::START) {
        tell_document(&north, &id, out)?;
    }
    Ok(Some(Merged {
        north: north_image,
        south: south_image,
        agree,
    }))
}

fn load(name: &str, image: &[u8], out: &mut impl Write) -> io::Result<Option<Replica>> {
    match Replica::from_image(image) {
        Ok(replica) => {
            let held = replica.counts();
            writeln!(
                out,
                "{name} holds {} documents and {} revisions.",
                held.documents, held.revisions
            )?;
            Ok(Some(replica))
        }
        Err(refusal) => {
            writeln!(
                out,
                "{name}'s image is refused {} at {}. Nothing was pulled.",
                refusal.number(),
                refusal.place()
            )?;
            Ok(None)
        }
    }
}

fn tell_pull(target: &str, source: &str, counts: Counts, out: &mut impl Write) -> io::Result<()> {
    writeln!(
        out,
        "{target} pulled from {source}: {} offers changed it, {} changed nothing, {} were refused.",
        counts.changed, counts.unchanged, counts.refused
    )?;
    if counts.refused > 0 {
        writeln!(
            out,
            "  SOMETHING OF {source} IS NOT IN {target}: a refused offer is counted and not stored."
        )?;
    }
    Ok(())
}

fn tell_document(replica: &Replica, id: &[u8], out: &mut impl Write) -> io::Result<()> {
    let winner = replica.winner(id).expect("the document is there");
    let leaves = replica.leaves(id).expect("the document is there");
    write!(out, "  ")?;
    for &byte in id {
        match byte {
            b' '..=b'~' => write!(out, "{}", char::from(byte))?,
            _ => write!(out, "\\x{byte:02x}")?,
        }
    }
    write!(out, ": winner {}", winner.revision)?;
    match winner.content {
        Content::Live(label) => write!(out, ", label {label}")?,
        Content::Deleted => write!(out, ", deleted")?,
        other => write!(out, ", {other:?}")?,
    }
    writeln!(out, ", conflicts {}", leaves.len() - 1)
}

/// The image with its update sequence and every document's own sequence set to 0.
pub fn without_sequences(image: &[u8]) -> Vec<u8> {
    let mut image = image.to_vec();
    let documents = u16::from_be_bytes([image[2], image[3]]);
    image[8..12].fill(0);
    for entry in image[16..].chunks_exact_mut(44).take(documents.into()) {
        entry[36..40].fill(0);
    }
    image
}

/// Two offices that hold the same things in part: a revision whose parent only one of them knows, a
/// bill that both have changed, and a note that one has deleted.
pub fn small_offices() -> Result<[Replica; 2], Refusal> {
    let hash = |first: u8| -> Hash {
        let mut hash = [0; 16];
        hash[0] = first;
        hash
    };
    let mut north = Replica::fresh();
    let mut south = Replica::fresh();
    let (one, two, three) = (RevisionNumber(1), RevisionNumber(2), RevisionNumber(3));

    north.write_path(b"lot", three, &[hash(0x70), hash(0x61)], Content::Live(1))?;
    south.write_path(b"lot", three, &[hash(0x70)], Content::Live(1))?;
    south.write_path(b"lot", two, &[hash(0x61)], Content::Live(2))?;

    north.write_path(b"bill", two, &[hash(0x91), hash(0x20)], Content::Live(8))?;
    south.write_path(b"bill", two, &[hash(0x4c), hash(0x20)], Content::Live(9))?;

    north.write_path(b"note", one, &[hash(0x33)], Content::Live(5))?;
    south.write_path(b"note", two, &[hash(0x05), hash(0x33)], Content::Deleted)?;
    Ok([north, south])
}
