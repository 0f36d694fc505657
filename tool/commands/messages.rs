//! `messages`: the messages of a sheet's walk, with their boards, lines and events.

use super::{refuse, Call};
use crate::face;
use crate::input::Failure;
use crate::output::Answer;
use crate::refusals::Handed;
use crate::words::Named;

pub fn run(call: &mut Call) -> Result<Answer, Failure> {
    let sheet = call.sheet(0)?;
    let mut answer = Answer::new();
    match face::messages(&sheet.bytes) {
        Ok(messages) => {
            let named = Named::of(messages, &sheet);
            for m in 0..named.messages.len() {
                answer.line(&format!("{}: send is event {}, receive is event {}", named.message(m), 2 * m, 2 * m + 1));
            }
            if named.messages.is_empty() {
                answer.line("no messages");
            }
        }
        Err(r) => refuse(&mut answer, &sheet, r, &Handed::default()),
    }
    Ok(answer)
}
