//! `replay`: what the step rules say of a trace, from bytes or from text.

use super::{named, refuse, refuse_trace, trace_bytes, Call};
use crate::face::{self, Monitor, Standing, Step, Taken};
use crate::input::{Failure, Source};
use crate::output::{Answer, Status};
use crate::refusals::{Handed, TRACE};
use crate::run::Run;
use crate::steps_text::{self, Line};
use crate::words::{self, Named};

/// The code of no step: for a message that the bytes of a trace cannot name.
const NO_STEP: u8 = u8::MAX;

/// A trace as the library takes it, and of each step the words and the message, which a text may name beyond those of any sheet.
pub struct Trace {
    pub bytes: Vec<u8>,
    pub told: Vec<String>,
    messages: Vec<usize>,
}

impl Trace {
    fn of_bytes(bytes: &[u8]) -> Trace {
        let steps = bytes.chunks(2).map(|b| Step { kind: b[0], message: b.get(1).copied().unwrap_or(0) });
        let (told, messages) = steps.map(|s| (words::step(s), usize::from(s.message))).unzip();
        Trace { bytes: bytes.to_vec(), told, messages }
    }

    fn push(&mut self, kind: u8, message: u32) {
        let step = u8::try_from(message).map_or(Step { kind: NO_STEP, message: 0 }, |m| Step { kind, message: m });
        self.bytes.extend(trace_bytes(&[step]));
        self.told.push(format!("{} {}", words::step_word(kind).unwrap_or(""), message));
        self.messages.push(message as usize);
    }

    pub fn steps(&self) -> Vec<Step> {
        self.bytes.chunks_exact(2).map(|b| Step { kind: b[0], message: b[1] }).collect()
    }
}

/// The trace of a file: its bytes as they are, or the steps of its text.
pub fn trace(source: &Source) -> Result<Trace, Failure> {
    if !steps_text::is_text(&source.bytes) {
        return Ok(Trace::of_bytes(&source.bytes));
    }
    source.is_whole("trace")?;
    let mut trace = Trace::of_bytes(&[]);
    for (i, line) in source.bytes.split(|b| *b == b'\n').enumerate() {
        match steps_text::line(line) {
            Line::Step(kind, message) => trace.push(kind, message),
            Line::Remark => {}
            _ => return Err(Failure::new(format!("{}: line {} is no step: send M, deliver M or consume M", source.name, i + 1))),
        }
    }
    Ok(trace)
}

pub fn run(call: &mut Call) -> Result<Answer, Failure> {
    let (source, sheet, code) = (call.file(0, "trace")?, call.sheet(1)?, call.code());
    let trace = trace(&source)?;
    let mut answer = Answer::new();
    match face::replay(&sheet.bytes, code, &trace.bytes) {
        Ok(Standing::Finished) => answer.line("finished"),
        Ok(Standing::Open) => answer.line("open"),
        Ok(Standing::Stuck(waits)) => {
            let named = named(&sheet)?;
            answer.worsen(Status::Bad);
            answer.line("stuck");
            named.stuck(&waits, &named.held(&trace.steps())).iter().for_each(|l| answer.line(l));
        }
        Ok(Standing::NotAllowed(index)) => {
            answer.worsen(Status::Bad);
            answer.line(&format!("step {} is not allowed: {}", index, trace.told[index]));
            if let Some(why) = why(&sheet.bytes, code, &trace, index, &named(&sheet)?) {
                answer.line(&why);
            }
        }
        Err(r) if r.number == TRACE => refuse_trace(&mut answer, &source, r, trace.bytes.len()),
        Err(r) => refuse(&mut answer, &sheet, r, &Handed { code, ..Handed::default() }),
    }
    Ok(answer)
}

/// Why a step is not allowed, in the state that the steps ahead of it leave.
fn why(text: &[u8], code: u32, trace: &Trace, index: usize, named: &Named) -> Option<String> {
    let mut state = opened(Monitor::open(text, code))?;
    for b in trace.bytes.chunks_exact(2).take(index) {
        state = opened(state.step(u32::from(b[0]), u32::from(b[1]), text))?;
    }
    let (kind, message) = (trace.bytes[2 * index], trace.messages[index]);
    // the code of a byte that is no step was told with the step
    if words::step_word(kind).is_none() && message < face::MESSAGES {
        return None;
    }
    Some(Run { text, named, state: &state }.why_forbidden(u32::from(kind), message))
}

fn opened(taken: Taken) -> Option<Monitor> {
    match taken {
        Taken::Taken(state) => Some(*state),
        _ => None,
    }
}
