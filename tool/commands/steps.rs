//! `steps`: the answer on a channel and, where it is locked, the steps, and what each jammed board waits for.

use super::{refuse, say_verdict, Call};
use crate::face;
use crate::input::Failure;
use crate::output::Answer;
use crate::refusals::Handed;

pub fn run(call: &mut Call) -> Result<Answer, Failure> {
    let (sheet, code) = (call.sheet(0)?, call.code());
    let mut answer = Answer::new();
    if let Some(r) = say_verdict(&mut answer, &sheet, code, &face::check(&sheet.bytes, code))? {
        refuse(&mut answer, &sheet, r, &Handed { code, ..Handed::default() });
    }
    Ok(answer)
}
