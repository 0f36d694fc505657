//! `cure`: the loosest free sheet of the same messages, and which orders it gives up.

use super::{named, refuse, Call};
use crate::face;
use crate::input::Failure;
use crate::output::Answer;
use crate::refusals::Handed;
use crate::sheet::Sheet;
use crate::words;

/// The orders that a cure gives up are the races of channel 0.
const GIVEN_UP: u32 = 0;

pub fn run(call: &mut Call) -> Result<Answer, Failure> {
    let sheet = call.sheet(0)?;
    let mut answer = Answer::new();
    match face::cure(&sheet.bytes) {
        Ok(text) => {
            answer.out = text;
            say_given_up(&mut answer, &sheet)?;
        }
        Err(r) => refuse(&mut answer, &sheet, r, &Handed::default()),
    }
    Ok(answer)
}

fn say_given_up(answer: &mut Answer, sheet: &Sheet) -> Result<(), Failure> {
    let races = match face::races(&sheet.bytes, GIVEN_UP) {
        Ok(races) => races,
        Err(r) => return Err(Failure::new(format!("the library lists no races of a sheet that it cured: {}", words::refusal(r)))),
    };
    if races.is_empty() {
        answer.note("no order is given up: the sheet is free on every channel already");
        return Ok(());
    }
    answer.note(&format!("{} given up:", words::count(races.len(), "order")));
    let named = named(sheet)?;
    races.iter().for_each(|r| answer.note(&named.given_up(*r)));
    Ok(())
}
