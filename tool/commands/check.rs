//! `check`: a line a channel, as the paper prints it.

use super::{refuse, Call};
use crate::face::{self, Verdict};
use crate::input::Failure;
use crate::output::{Answer, Status};
use crate::refusals::Handed;
use crate::words;

pub fn run(call: &mut Call) -> Result<Answer, Failure> {
    let sheet = call.sheet(0)?;
    let mut answer = Answer::new();
    let mut first = None;
    answer.line("channel answer one two three");
    for code in 0..face::CHANNELS {
        let verdict = face::check(&sheet.bytes, code);
        answer.line(&words::paper_line(code, &verdict));
        match verdict {
            Verdict::Free => {}
            Verdict::Locked(_) => answer.worsen(Status::Bad),
            // a sheet that is refused is refused alike on every channel
            Verdict::Refused(r) => first = first.or(Some(r)),
        }
    }
    if let Some(r) = first {
        refuse(&mut answer, &sheet, r, &Handed::default());
    }
    Ok(answer)
}
