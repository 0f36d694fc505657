//! `senders`: whether a table of permitted senders is sound.

use super::{refuse_table, Call};
use crate::face::{self, Senders};
use crate::input::Failure;
use crate::output::{Answer, Status};
use crate::refusals;

pub fn run(call: &mut Call) -> Result<Answer, Failure> {
    let table = call.file(0, "table")?;
    let mut answer = Answer::new();
    let judged = face::senders(&table.bytes);
    match judged {
        Senders::Refused(r) => refuse_table(&mut answer, &table, r),
        Senders::Sound => answer.line("sound"),
        Senders::Gap(_) | Senders::Clash { .. } => {
            answer.line(&refusals::judgement(&judged));
            answer.worsen(Status::Bad);
        }
    }
    Ok(answer)
}
