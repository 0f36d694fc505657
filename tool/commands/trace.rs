//! `trace`: the steps of a locked sheet as bytes, two a step.

use super::{refuse, trace_bytes, Call};
use crate::face::{self, Verdict};
use crate::input::Failure;
use crate::output::{Answer, Status};
use crate::refusals::Handed;
use crate::words;

pub fn run(call: &mut Call) -> Result<Answer, Failure> {
    let (sheet, code) = (call.sheet(0)?, call.code());
    let mut answer = Answer::new();
    match face::check(&sheet.bytes, code) {
        Verdict::Free => answer.note(&format!("{}: free on {}: there are no steps that stop the boards", sheet.name, words::channel(code))),
        Verdict::Locked(lock) => {
            answer.worsen(Status::Bad);
            answer.out = trace_bytes(&lock.steps);
        }
        Verdict::Refused(r) => refuse(&mut answer, &sheet, r, &Handed { code, ..Handed::default() }),
    }
    Ok(answer)
}
