//! The plain text form of scenarios: one line a step, words apart by spaces, bytes in hex (`-` for
//! none). Empty lines and lines that begin with `#` say nothing.

use crate::model::hex;
use crate::steps::{Scenario, Step, REPLICAS};
use crate::Content;
use std::fmt;
use std::str::{FromStr, SplitWhitespace};

/// A line that is no step.
#[derive(Clone, PartialEq, Eq, Debug)]
pub struct ParseError {
    /// Counted from 1.
    pub line: usize,
    pub reason: String,
}

impl fmt::Display for ParseError {
    fn fmt(&self, f: &mut fmt::Formatter) -> fmt::Result {
        write!(f, "line {}: {}", self.line, self.reason)
    }
}

impl std::error::Error for ParseError {}

impl fmt::Display for Scenario {
    fn fmt(&self, f: &mut fmt::Formatter) -> fmt::Result {
        for step in &self.steps {
            writeln!(f, "{step}")?;
        }
        Ok(())
    }
}

/// Bytes as a word, which is never empty.
fn word(bytes: &[u8]) -> String {
    if bytes.is_empty() {
        "-".to_string()
    } else {
        hex(bytes)
    }
}

/// A content as words.
fn words(content: Content) -> String {
    match content {
        Content::Live(label) => format!("live {label}"),
        Content::Deleted => "deleted".to_string(),
    }
}

impl fmt::Display for Step {
    fn fmt(&self, f: &mut fmt::Formatter) -> fmt::Result {
        match self {
            Step::Fresh { at } => write!(f, "fresh {at}"),
            Step::Load { at, image } => write!(f, "load {at} {}", word(image)),
            Step::Save { at, room } => write!(f, "save {at} room {room}"),
            Step::Write {
                at,
                id,
                number,
                path,
                content,
            } => write!(
                f,
                "write {at} {} {number} {} {}",
                word(id),
                word(path),
                words(*content)
            ),
            Step::TakeIn { at, line } => write!(f, "take_in {at} {}", word(line)),
            Step::Edit {
                at,
                id,
                hash,
                content,
                parent,
            } => {
                write!(
                    f,
                    "edit {at} {} {} {} ",
                    word(id),
                    hex(hash),
                    words(*content)
                )?;
                match parent {
                    Some((number, hash)) => write!(f, "on {number} {}", hex(hash)),
                    None => write!(f, "on none"),
                }
            }
            Step::Winner { at, id, room } => write!(f, "winner {at} {} room {room}", word(id)),
            Step::Leaves { at, id, room } => write!(f, "leaves {at} {} room {room}", word(id)),
            Step::Path {
                at,
                id,
                number,
                hash,
                room,
            } => write!(
                f,
                "path {at} {} {number} {} room {room}",
                word(id),
                hex(hash)
            ),
            Step::PutOut { at, id, room } => write!(f, "put_out {at} {} room {room}", word(id)),
            Step::PutOutSize { at, id } => write!(f, "put_out_size {at} {}", word(id)),
            Step::Missing {
                at,
                id,
                asked,
                room,
            } => write!(f, "missing {at} {} {} room {room}", word(id), word(asked)),
            Step::Changes { at, after, room } => {
                write!(f, "changes {at} after {after} room {room}")
            }
            Step::Pull { at, from, after } => write!(f, "pull {at} from {from} after {after}"),
            Step::Reload { at, from } => write!(f, "reload {at} from {from}"),
            Step::UpdateSequence { at } => write!(f, "sequence {at}"),
            Step::Counts { at } => write!(f, "counts {at}"),
            Step::Report { image, room } => write!(f, "report {} room {room}", word(image)),
        }
    }
}

impl FromStr for Scenario {
    type Err = ParseError;

    fn from_str(text: &str) -> Result<Self, ParseError> {
        let mut steps = Vec::new();
        for (line, number) in text.lines().zip(1..) {
            let line = line.trim();
            if line.is_empty() || line.starts_with('#') {
                continue;
            }
            steps.push(line.parse().map_err(|reason| ParseError {
                line: number,
                reason,
            })?);
        }
        Ok(Scenario { steps })
    }
}

impl FromStr for Step {
    type Err = String;

    fn from_str(line: &str) -> Result<Self, String> {
        let mut words = Words(line.split_whitespace());
        let step = match words.next()? {
            "fresh" => Step::Fresh {
                at: words.replica()?,
            },
            "load" => Step::Load {
                at: words.replica()?,
                image: words.bytes()?,
            },
            "save" => Step::Save {
                at: words.replica()?,
                room: words.room()?,
            },
            "write" => Step::Write {
                at: words.replica()?,
                id: words.bytes()?,
                number: words.number()?,
                path: words.bytes()?,
                content: words.content()?,
            },
            "take_in" => Step::TakeIn {
                at: words.replica()?,
                line: words.bytes()?,
            },
            "edit" => Step::Edit {
                at: words.replica()?,
                id: words.bytes()?,
                hash: words.hash()?,
                content: words.content()?,
                parent: words.parent()?,
            },
            "winner" => Step::Winner {
                at: words.replica()?,
                id: words.bytes()?,
                room: words.room()?,
            },
            "leaves" => Step::Leaves {
                at: words.replica()?,
                id: words.bytes()?,
                room: words.room()?,
            },
            "path" => Step::Path {
                at: words.replica()?,
                id: words.bytes()?,
                number: words.number()?,
                hash: words.hash()?,
                room: words.room()?,
            },
            "put_out" => Step::PutOut {
                at: words.replica()?,
                id: words.bytes()?,
                room: words.room()?,
            },
            "put_out_size" => Step::PutOutSize {
                at: words.replica()?,
                id: words.bytes()?,
            },
            "missing" => Step::Missing {
                at: words.replica()?,
                id: words.bytes()?,
                asked: words.bytes()?,
                room: words.room()?,
            },
            "changes" => Step::Changes {
                at: words.replica()?,
                after: words.named("after")?,
                room: words.room()?,
            },
            "pull" => Step::Pull {
                at: words.replica()?,
                from: words.from()?,
                after: words.named("after")?,
            },
            "reload" => Step::Reload {
                at: words.replica()?,
                from: words.from()?,
            },
            "sequence" => Step::UpdateSequence {
                at: words.replica()?,
            },
            "counts" => Step::Counts {
                at: words.replica()?,
            },
            "report" => Step::Report {
                image: words.bytes()?,
                room: words.room()?,
            },
            other => return Err(format!("`{other}` is no step")),
        };
        match words.0.next() {
            Some(word) => Err(format!("`{word}` is one word too many")),
            None => Ok(step),
        }
    }
}

/// The words of a line that are still to be read.
struct Words<'a>(SplitWhitespace<'a>);

impl<'a> Words<'a> {
    fn next(&mut self) -> Result<&'a str, String> {
        self.0
            .next()
            .ok_or_else(|| "the line ends early".to_string())
    }

    fn number<T: FromStr>(&mut self) -> Result<T, String> {
        let word = self.next()?;
        word.parse()
            .map_err(|_| format!("`{word}` is no such number"))
    }

    /// A number after a word that says what it is.
    fn named<T: FromStr>(&mut self, name: &str) -> Result<T, String> {
        let word = self.next()?;
        if word != name {
            return Err(format!("`{word}` stands where `{name}` should"));
        }
        self.number()
    }

    fn room(&mut self) -> Result<usize, String> {
        self.named("room")
    }

    fn replica(&mut self) -> Result<usize, String> {
        let at = self.number()?;
        known_replica(at)
    }

    fn from(&mut self) -> Result<usize, String> {
        let from = self.named("from")?;
        known_replica(from)
    }

    fn bytes(&mut self) -> Result<Vec<u8>, String> {
        let word = self.next()?;
        if word == "-" {
            return Ok(Vec::new());
        }
        let wrong = || format!("`{word}` is not bytes in hex");
        let digits: Option<Vec<u8>> = word
            .chars()
            .map(|digit| Some(digit.to_digit(16)? as u8))
            .collect();
        let digits = digits.filter(|digits| digits.len().is_multiple_of(2));
        let digits = digits.ok_or_else(wrong)?;
        Ok(digits
            .chunks(2)
            .map(|pair| pair[0] << 4 | pair[1])
            .collect())
    }

    fn hash(&mut self) -> Result<[u8; 16], String> {
        let bytes = self.bytes()?;
        let wrong = |bytes: Vec<u8>| format!("a hash of {} bytes", bytes.len());
        bytes.try_into().map_err(wrong)
    }

    fn content(&mut self) -> Result<Content, String> {
        match self.next()? {
            "live" => Ok(Content::Live(self.number()?)),
            "deleted" => Ok(Content::Deleted),
            other => Err(format!("`{other}` is no content")),
        }
    }

    fn parent(&mut self) -> Result<Option<(u32, [u8; 16])>, String> {
        match (self.next()?, self.next()?) {
            ("on", "none") => Ok(None),
            ("on", number) => {
                let wrong = |_| format!("`{number}` is no such number");
                Ok(Some((number.parse().map_err(wrong)?, self.hash()?)))
            }
            (other, _) => Err(format!("`{other}` stands where `on` should")),
        }
    }
}

fn known_replica(at: usize) -> Result<usize, String> {
    if at < REPLICAS {
        Ok(at)
    } else {
        Err(format!("there is no replica {at}"))
    }
}
