//! `permitted`: the answer on a channel with a table of permitted senders.

use super::{refuse, refuse_table, say_verdict, Call};
use crate::face;
use crate::input::Failure;
use crate::output::Answer;
use crate::refusals::{Handed, TABLE};

pub fn run(call: &mut Call) -> Result<Answer, Failure> {
    let (table, sheet, code) = (call.file(0, "table")?, call.sheet(1)?, call.code());
    let mut answer = Answer::new();
    let verdict = face::permitted(&sheet.bytes, code, &table.bytes);
    match say_verdict(&mut answer, &sheet, code, &verdict)? {
        None => {}
        Some(r) if r.number == TABLE => refuse_table(&mut answer, &table, r),
        Some(r) => refuse(&mut answer, &sheet, r, &Handed { code, ..Handed::default() }),
    }
    Ok(answer)
}
