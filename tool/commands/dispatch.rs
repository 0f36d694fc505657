//! `dispatch`: several jobs, a turn at a time, with the turn and the answer of each.

use super::{named, refuse, say_lock, Call};
use crate::face::{Dispatch, Turn, Verdict};
use crate::input::Failure;
use crate::output::Answer;
use crate::refusals::Handed;
use crate::sheet::{self, Sheet};
use crate::words;
use std::collections::BTreeMap;
use std::ffi::OsString;

struct Job {
    sheet: Sheet,
    code: u32,
}

/// A word `SHEETFILE:CHANNEL`.
fn job(word: &OsString, call: &mut Call) -> Result<Job, Failure> {
    let text = word.to_string_lossy();
    let parts = text.rsplit_once(':').and_then(|(name, code)| Some((name, words::channel_code(code)?)));
    let (name, code) = match parts {
        Some(p) => p,
        None => return Err(Failure::new(format!("`{}` is no job: SHEETFILE:CHANNEL", text))),
    };
    let sheet = sheet::of(call.inputs.read(Some(&OsString::from(name)), "sheet")?)?;
    Ok(Job { sheet, code })
}

pub fn run(call: &mut Call) -> Result<Answer, Failure> {
    let words: Vec<OsString> = call.files.clone();
    let jobs = words.iter().map(|w| job(w, call)).collect::<Result<Vec<Job>, Failure>>()?;
    let (mut dispatch, mut held, mut answer) = (Dispatch::new(), BTreeMap::new(), Answer::new());
    for j in &jobs {
        match dispatch.admit(&j.sheet.bytes, j.code) {
            Ok((number, place)) => {
                let messages = named(&j.sheet)?.messages.len();
                let told = words::count(messages, "message");
                answer.line(&format!("job {} in place {}: {}, {}, {}", number, place, j.sheet.name, words::channel(j.code), told));
                held.insert(number, j);
            }
            Err(r) => {
                answer.line(&format!("{}: {}", j.sheet.name, words::refusal(r)));
                refuse(&mut answer, &j.sheet, r, &Handed { code: j.code, ..Handed::default() });
            }
        }
    }
    take_turns(&mut dispatch, &held, &mut answer)?;
    Ok(answer)
}

fn take_turns(dispatch: &mut Dispatch, held: &BTreeMap<u32, &Job>, answer: &mut Answer) -> Result<(), Failure> {
    for turn in 1u32.. {
        match dispatch.turn() {
            Turn::Idle => break,
            Turn::Unanswered => {}
            Turn::Answered { number, verdict } => match held.get(&number) {
                Some(job) => say_answer(answer, turn, number, job, &verdict)?,
                None => return Err(Failure::new(format!("the library answers job {}, which was not admitted", number))),
            },
            Turn::Refused(r) => return Err(Failure::new(format!("the library refuses a turn: {}", words::refusal(r)))),
        }
    }
    Ok(())
}

fn say_answer(answer: &mut Answer, turn: u32, number: u32, job: &Job, verdict: &Verdict) -> Result<(), Failure> {
    let told = match verdict {
        Verdict::Free => "free".to_string(),
        Verdict::Locked(lock) => words::locked(lock),
        Verdict::Refused(r) => words::refusal(*r),
    };
    answer.line(&format!("turn {}: job {} answered: {}", turn, number, told));
    if let Verdict::Locked(lock) = verdict {
        say_lock(answer, &job.sheet.bytes, job.code, lock, &named(&job.sheet)?);
    }
    Ok(())
}
