//! `taps`: one course of all events that two lists of event numbers fit.

use super::{named, refuse, Call};
use crate::face::{self, Taps};
use crate::input::{list, Failure};
use crate::output::{Answer, Status};
use crate::refusals::Handed;

pub fn run(call: &mut Call) -> Result<Answer, Failure> {
    let (first, second) = (call.file(0, "first list")?, call.file(1, "second list")?);
    let sheet = call.sheet(2)?;
    let (first, second) = (list(&first)?, list(&second)?);
    let mut answer = Answer::new();
    match face::taps(&sheet.bytes, &first, &second) {
        Taps::Fit(course) => {
            let named = named(&sheet)?;
            answer.line("fit");
            course.iter().for_each(|e| answer.line(&named.event(*e)));
        }
        Taps::Clash(e) => {
            let named = named(&sheet)?;
            answer.line(&format!("clash: {} would have to precede itself", named.event(e)));
            answer.worsen(Status::Bad);
        }
        Taps::Refused(r) => refuse(&mut answer, &sheet, r, &Handed { lists: [&first, &second], ..Handed::default() }),
    }
    Ok(answer)
}
