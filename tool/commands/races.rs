//! `races`: all races of a channel, or of every channel, in words.

use super::{named, refuse, Call};
use crate::face;
use crate::input::Failure;
use crate::output::{Answer, Status};
use crate::refusals::Handed;
use crate::words;

pub fn run(call: &mut Call) -> Result<Answer, Failure> {
    let sheet = call.sheet(0)?;
    let mut answer = Answer::new();
    for code in call.codes() {
        let races = match face::races(&sheet.bytes, code) {
            Ok(races) => races,
            Err(r) => {
                refuse(&mut answer, &sheet, r, &Handed { code, ..Handed::default() });
                return Ok(answer);
            }
        };
        let number = if races.is_empty() { "no races".to_string() } else { words::count(races.len(), "race") };
        answer.line(&format!("{}: {}", words::channel(code), number));
        if !races.is_empty() {
            answer.worsen(Status::Bad);
            let named = named(&sheet)?;
            races.iter().for_each(|r| answer.line(&named.race(*r)));
        }
    }
    Ok(answer)
}
