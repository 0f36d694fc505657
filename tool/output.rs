//! What a command answers, and how it is written: through one buffer, whole or not at all.

use crate::face;
use crate::input::{failure, Failure};
use std::ffi::OsString;
use std::fs::{self, File, OpenOptions};
use std::io::{self, Write};
use std::path::{Path, PathBuf};

/// The exit status, from good to none.
#[derive(Clone, Copy, PartialEq, Eq, PartialOrd, Ord)]
pub enum Status {
    Good = 0,
    Bad = 1,
    Refused = 2,
    NoAnswer = 3,
}

/// What goes to standard output or to the file that `-o` names, what goes to standard error, and the status.
pub struct Answer {
    pub out: Vec<u8>,
    pub notes: String,
    pub status: Status,
}

impl Answer {
    pub fn new() -> Answer {
        Answer { out: Vec::new(), notes: String::new(), status: Status::Good }
    }

    pub fn line(&mut self, words: &str) {
        self.out.extend_from_slice(words.as_bytes());
        self.out.push(b'\n');
    }

    pub fn note(&mut self, words: &str) {
        self.notes.push_str(words);
        self.notes.push('\n');
    }

    /// The worse of the status so far and another.
    pub fn worsen(&mut self, status: Status) {
        self.status = self.status.max(status);
    }
}

/// Writes an answer. Notes go last, so that they follow the answer on a terminal.
pub fn write(answer: &Answer, to: Option<&OsString>) -> Result<(), Failure> {
    if !answer.out.is_empty() {
        match to {
            Some(name) => write_file(name, &answer.out).map_err(|e| failure(&name.to_string_lossy(), &e))?,
            None => write_standard(&answer.out)?,
        }
    }
    write_notes(&answer.notes)
}

pub fn write_standard(bytes: &[u8]) -> Result<(), Failure> {
    if face::was_closed(1) {
        return Err(Failure::new("standard output: Bad file descriptor".to_string()));
    }
    let mut out = io::stdout().lock();
    out.write_all(bytes).and_then(|()| out.flush()).map_err(|e| failure("standard output", &e))
}

pub fn write_notes(notes: &str) -> Result<(), Failure> {
    if notes.is_empty() {
        return Ok(());
    }
    if face::was_closed(2) {
        return Err(Failure::new("standard error: Bad file descriptor".to_string()));
    }
    io::stderr().lock().write_all(notes.as_bytes()).map_err(|e| failure("standard error", &e))
}

/// A file is written beside its name, and then renamed: what stands there is never a part. A device or a pipe is written to as it is.
fn write_file(name: &OsString, bytes: &[u8]) -> io::Result<()> {
    let known = fs::metadata(name).ok();
    if let Some(m) = &known {
        if !m.is_file() {
            return OpenOptions::new().write(true).open(name)?.write_all(bytes);
        }
    }
    // a link stays a link: the file that it names is the one that is replaced
    let target = fs::canonicalize(name).unwrap_or_else(|_| PathBuf::from(name));
    let beside = beside(&target)?;
    let written = write_new(&beside, bytes, known.as_ref()).and_then(|()| fs::rename(&beside, &target));
    if written.is_err() {
        // the failure that is told is the first one
        let _ = fs::remove_file(&beside);
    }
    written
}

fn beside(target: &Path) -> io::Result<PathBuf> {
    let name = target.file_name().ok_or_else(|| io::Error::from_raw_os_error(21))?;
    let mut new = OsString::from(".");
    new.push(name);
    new.push(format!(".{}.new", std::process::id()));
    Ok(target.with_file_name(new))
}

fn write_new(path: &Path, bytes: &[u8], known: Option<&fs::Metadata>) -> io::Result<()> {
    let mut file: File = OpenOptions::new().write(true).create_new(true).open(path)?;
    if let Some(m) = known {
        file.set_permissions(m.permissions())?;
    }
    file.write_all(bytes)?;
    file.sync_all()
}
