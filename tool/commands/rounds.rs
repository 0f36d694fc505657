//! `rounds`: an exchange that is repeated, on a channel or on each.

use super::{named, refuse, say_lock, Call};
use crate::chosen;
use crate::face::{self, Lock, Race, Rounds};
use crate::input::Failure;
use crate::output::{Answer, Status};
use crate::refusals::Handed;
use crate::sheet::Sheet;
use crate::words::{self, Named};

pub fn run(call: &mut Call) -> Result<Answer, Failure> {
    let sheet = call.sheet(0)?;
    let mut answer = Answer::new();
    for code in call.codes() {
        match face::rounds(&sheet.bytes, code) {
            Ok(Rounds::Free) => answer.line(&format!("{}: {}", words::channel(code), FREE)),
            Ok(Rounds::Locked { lock, rounds }) => say_locked(&mut answer, &sheet, code, &lock, rounds)?,
            Err(r) => {
                refuse(&mut answer, &sheet, r, &Handed { code, repeated: true, ..Handed::default() });
                return Ok(answer);
            }
        }
    }
    Ok(answer)
}

pub const FREE: &str = "free, however often it is repeated";

/// The round, and the race with both messages' rounds.
pub fn locked(named: &Named, lock: &Lock, rounds: usize) -> String {
    format!("locked on round {}: {}", rounds, named.race(Race { message: lock.message, event: lock.event }))
}

fn say_locked(answer: &mut Answer, sheet: &Sheet, code: u32, lock: &Lock, rounds: usize) -> Result<(), Failure> {
    let named = named(sheet)?.repeated(rounds);
    answer.line(&format!("{}: {}", words::channel(code), locked(&named, lock, rounds)));
    match text_of(sheet, rounds) {
        Some(text) => say_lock(answer, &text, code, lock, &named),
        None => {
            answer.worsen(Status::Bad);
            lock.steps.iter().for_each(|s| answer.line(&named.step(*s)));
            answer.note(&format!("what the boards wait for is not told: {}", NO_TEXT));
        }
    }
    Ok(())
}

/// Why two rounds have no sheet file.
pub const NO_TEXT: &str = "two rounds of the sheet do not fit one sheet file";

/// So many rounds as one walk.
pub fn text_of(sheet: &Sheet, rounds: usize) -> Option<Vec<u8>> {
    if rounds == 1 {
        return Some(sheet.bytes.clone());
    }
    chosen::twice(sheet)
}
