//! `sheet`: the sheet that a diagram is judged as.

use super::Call;
use crate::input::Failure;
use crate::output::Answer;

pub fn run(call: &mut Call) -> Result<Answer, Failure> {
    let sheet = call.sheet(0)?;
    if sheet.drawn.is_none() {
        return Err(Failure::new(format!("{}: no diagram: its first word is not `sequenceDiagram`", sheet.name)));
    }
    let mut answer = Answer::new();
    answer.out = sheet.bytes;
    Ok(answer)
}
