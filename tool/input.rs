//! Files and standard input: read whole, or a failure with the name and the system's reason, never a part.

use crate::face;
use crate::output::Status;
use std::ffi::{OsStr, OsString};
use std::fs::File;
use std::io::{self, Read};

/// Why there is no answer, in words, and the status that says so.
pub struct Failure {
    pub why: String,
    pub status: Status,
}

impl Failure {
    pub fn new(why: impl Into<String>) -> Failure {
        Failure { why: why.into(), status: Status::NoAnswer }
    }

    /// What was read is unfit, by a rule of the tool's own.
    pub fn refused(why: impl Into<String>) -> Failure {
        Failure { why: why.into(), status: Status::Refused }
    }
}

/// The bytes of a file, and its name.
pub struct Source {
    pub name: String,
    pub bytes: Vec<u8>,
}

impl Source {
    /// For what is judged line by line: a part of it could be taken for all of it.
    pub fn is_whole(&self, what: &str) -> Result<(), Failure> {
        if self.bytes.len() > MOST_BYTES {
            return Err(Failure::new(format!("{}: over {} bytes, which no {} needs", self.name, MOST_BYTES, what)));
        }
        Ok(())
    }
}

/// More than any sheet, table, trace or list needs: what is longer is not read further, and is refused as too long.
pub const MOST_BYTES: usize = 1 << 20;
pub const STANDARD_INPUT: &str = "standard input";

/// The system's reason, without its number.
pub fn reason(error: &io::Error) -> String {
    let words = error.to_string();
    match words.find(" (os error ") {
        Some(at) => words[..at].to_string(),
        None => words,
    }
}

pub fn failure(name: &str, error: &io::Error) -> Failure {
    Failure::new(format!("{}: {}", name, reason(error)))
}

/// What the words of a command name. Standard input can be read once.
pub struct Inputs {
    taken: bool,
}

impl Inputs {
    pub fn new() -> Inputs {
        Inputs { taken: false }
    }

    /// A file, or standard input for `-` or no name.
    pub fn read(&mut self, name: Option<&OsString>, what: &str) -> Result<Source, Failure> {
        match name {
            Some(n) if n != OsStr::new("-") => read_file(n),
            _ => self.read_standard(name.is_some(), what),
        }
    }

    fn read_standard(&mut self, asked: bool, what: &str) -> Result<Source, Failure> {
        self.take(what)?;
        if !asked && face::is_terminal(0) {
            return Err(Failure::new(format!("no {} is named, and standard input is a terminal: name a file, or `-` to type it", what)));
        }
        let bytes = read_whole(&mut io::stdin().lock()).map_err(|e| failure(STANDARD_INPUT, &e))?;
        Ok(Source { name: STANDARD_INPUT.to_string(), bytes })
    }

    /// Standard input for one use.
    pub fn take(&mut self, what: &str) -> Result<(), Failure> {
        if self.taken {
            return Err(Failure::new(format!("standard input is read already, and cannot be the {} too", what)));
        }
        if face::was_closed(0) {
            return Err(Failure::new("standard input: Bad file descriptor".to_string()));
        }
        self.taken = true;
        Ok(())
    }
}

fn read_file(name: &OsString) -> Result<Source, Failure> {
    let shown = name.to_string_lossy().into_owned();
    let bytes = File::open(name).and_then(|mut f| read_whole(&mut f)).map_err(|e| failure(&shown, &e))?;
    Ok(Source { name: shown, bytes })
}

fn read_whole(from: &mut dyn Read) -> io::Result<Vec<u8>> {
    let mut bytes = Vec::new();
    from.take(MOST_BYTES as u64 + 1).read_to_end(&mut bytes)?;
    Ok(bytes)
}

/// The event numbers of a list, with any white space between them.
pub fn list(source: &Source) -> Result<Vec<u16>, Failure> {
    source.is_whole("list")?;
    let mut events = Vec::new();
    for word in source.bytes.split(|b| b.is_ascii_whitespace()).filter(|w| !w.is_empty()) {
        let number = std::str::from_utf8(word).ok().filter(|w| w.bytes().all(|b| b.is_ascii_digit()));
        match number {
            // a number that is too large for a list is no event of any sheet
            Some(n) => events.push(n.parse::<u16>().unwrap_or(u16::MAX)),
            None => return Err(Failure::new(format!("{}: a list has event numbers alone, and `{}` is none", source.name, shown(word)))),
        }
    }
    Ok(events)
}

/// Bytes as they can be printed on one line: at most 60, and those that are no printable characters by their numbers.
pub fn shown(bytes: &[u8]) -> String {
    let mut out = String::new();
    for b in bytes.iter().take(60) {
        match b {
            b'\t' => out.push_str("\\t"),
            b'\r' => out.push_str("\\r"),
            b' '..=b'~' => out.push(char::from(*b)),
            _ => out.push_str(&format!("\\x{:02x}", b)),
        }
    }
    if bytes.len() > 60 {
        out.push_str("..");
    }
    out
}
