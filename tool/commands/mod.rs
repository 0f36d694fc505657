//! What several commands share: a call's words, refusals, and the sentences of a run that is stuck.

pub mod check;
pub mod choices;
pub mod cure;
pub mod diagram;
pub mod dispatch;
pub mod messages;
pub mod permitted;
pub mod races;
pub mod replay;
pub mod rounds;
pub mod senders;
pub mod sheet;
pub mod steps;
pub mod taps;
pub mod trace;
pub mod watch;

use crate::face::{self, Lock, Message, Refusal, Standing, Step, Verdict};
use crate::input::{Failure, Inputs, Source};
use crate::output::{Answer, Status};
use crate::refusals::{self, Handed};
use crate::sheet::Sheet;
use crate::words::{self, Named};
use std::ffi::OsString;

/// The words after a command: the channel, if it takes one, the files, and its options.
pub struct Call {
    pub code: Option<u32>,
    pub files: Vec<OsString>,
    pub cured: bool,
    /// A chart of the exchange repeated.
    pub repeated: bool,
    /// Answers go to standard output as they come.
    pub live: bool,
    pub inputs: Inputs,
}

impl Call {
    /// The sheet: the file at this place among the words, or standard input.
    pub fn sheet(&mut self, at: usize) -> Result<Sheet, Failure> {
        crate::sheet::of(self.inputs.read(self.files.get(at), "sheet")?)
    }

    pub fn file(&mut self, at: usize, what: &str) -> Result<Source, Failure> {
        self.inputs.read(self.files.get(at), what)
    }

    pub fn code(&self) -> u32 {
        self.code.unwrap_or(0)
    }

    /// The channel that is named, or all of them.
    pub fn codes(&self) -> Vec<u32> {
        self.code.map_or_else(|| (0..face::CHANNELS).collect(), |c| vec![c])
    }
}

/// Tells a refusal of a sheet.
pub fn refuse(answer: &mut Answer, sheet: &Sheet, r: Refusal, handed: &Handed) {
    answer.note(&format!("{}: {}", sheet.name, refusals::of_sheet(r, sheet, handed)));
    answer.worsen(Status::Refused);
}

/// Tells a refusal of a trace.
pub fn refuse_trace(answer: &mut Answer, trace: &Source, r: Refusal, length: usize) {
    answer.note(&format!("{}: {}", trace.name, refusals::of_trace(r, length)));
    answer.worsen(Status::Refused);
}

/// Tells a refusal of a table of permitted senders.
pub fn refuse_table(answer: &mut Answer, table: &Source, r: Refusal) {
    answer.note(&format!("{}: {}", table.name, refusals::of_table(r, &table.bytes)));
    answer.worsen(Status::Refused);
}

/// The messages of a sheet that a call accepted.
pub fn named(sheet: &Sheet) -> Result<Named, Failure> {
    Ok(Named::of(listed(&sheet.bytes)?, sheet))
}

/// The messages of a text that a call accepted.
pub fn listed(text: &[u8]) -> Result<Vec<Message>, Failure> {
    face::messages(text).map_err(|r| Failure::new(format!("the library lists no messages of a sheet that it accepted: {}", words::refusal(r))))
}

pub fn trace_bytes(steps: &[Step]) -> Vec<u8> {
    steps.iter().flat_map(|s| [s.kind, s.message]).collect()
}

/// The steps of a lock, and what each board then waits for.
pub fn say_lock(answer: &mut Answer, text: &[u8], code: u32, lock: &Lock, named: &Named) {
    answer.worsen(Status::Bad);
    lock.steps.iter().for_each(|s| answer.line(&named.step(*s)));
    if let Ok(Standing::Stuck(waits)) = face::replay(text, code, &trace_bytes(&lock.steps)) {
        named.stuck(&waits, &named.held(&lock.steps)).iter().for_each(|l| answer.line(l));
    }
}

/// The answer of a check on a channel: its line as the paper prints it and, where it is locked, the steps. A refusal is handed back.
pub fn say_verdict(answer: &mut Answer, sheet: &Sheet, code: u32, verdict: &Verdict) -> Result<Option<Refusal>, Failure> {
    answer.line(&words::paper_line(code, verdict));
    match verdict {
        Verdict::Free => Ok(None),
        Verdict::Locked(lock) => {
            say_lock(answer, &sheet.bytes, code, lock, &named(sheet)?);
            Ok(None)
        }
        Verdict::Refused(r) => Ok(Some(*r)),
    }
}
