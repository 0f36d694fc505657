//! `choices`: the answer over all choice lists of a file with A rows.

use super::{refuse, say_lock, Call};
use crate::chosen;
use crate::face::{self, Choices};
use crate::input::Failure;
use crate::output::{Answer, Status};
use crate::refusals::Handed;
use crate::words;

pub fn run(call: &mut Call) -> Result<Answer, Failure> {
    let (sheet, code) = (call.sheet(0)?, call.code());
    let mut answer = Answer::new();
    match face::choices(&sheet.bytes, code) {
        Choices::Free => answer.line(&format!("{} free 0 0 0", code)),
        Choices::Refused(r) => {
            answer.line(&format!("{} {}", code, words::refused(r)));
            refuse(&mut answer, &sheet, r, &Handed { code, choices: true, ..Handed::default() });
        }
        Choices::Locked { lock, length, second } => {
            answer.worsen(Status::Bad);
            answer.line(&format!("{} {}", code, words::locked(&lock)));
            chosen::options(&sheet, length, second).iter().for_each(|o| answer.line(o));
            match chosen::sheet(&sheet, second) {
                Some(c) => say_lock(&mut answer, &c.text, code, &lock, &c.named),
                None => {
                    lock.steps.iter().for_each(|s| answer.line(&words::step(*s)));
                    answer.note(&format!("what the boards wait for is not told: {}", chosen::NO_SHEET));
                }
            }
        }
    }
    Ok(answer)
}
