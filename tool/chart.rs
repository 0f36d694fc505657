//! `chart`: a picture of the answer on a channel, of a trace, or of the cured sheet. It is drawn from what the library answers.

use crate::chosen::{self, Chosen};
use crate::commands::replay::{self, Trace};
use crate::commands::{self, Call};
use crate::drawing::{self, Subject};
use crate::face::{self, Choices, Lock, Race, Refusal, Rounds, Standing, Taps, Verdict, Waits, BOARDS};
use crate::input::Failure;
use crate::output::Answer;
use crate::refusals::{Handed, TRACE};
use crate::rows;
use crate::sheet::Sheet;
use crate::words::{self, Named};

const NO_WAITS: Waits = [None; BOARDS];

/// A course of all events of a sheet that was accepted.
fn course(text: &[u8]) -> Vec<usize> {
    match face::taps(text, &[], &[]) {
        Taps::Fit(course) => course,
        _ => Vec::new(),
    }
}

fn title(verdict: &str, code: u32) -> String {
    format!("{} on {}", verdict, words::channel(code))
}

/// The chart of a free sheet: a course of its events.
pub fn of_free(text: &[u8], named: &Named, title: &str, remark: &str) -> String {
    let course = course(text);
    drawing::draw(&Subject {
        title,
        remark,
        named,
        steps: &[],
        waits: &NO_WAITS,
        course: &course,
        free: true,
        race: None,
        not_allowed: None,
    })
}

/// The chart of a locked sheet: the steps that stop the boards, and what the boards wait for.
pub fn of_lock(text: &[u8], code: u32, named: &Named, lock: &Lock, choices: &[String]) -> String {
    let waits = match face::replay(text, code, &commands::trace_bytes(&lock.steps)) {
        Ok(Standing::Stuck(waits)) => waits,
        _ => NO_WAITS,
    };
    let mut remark = format!("race: {}, {}; steps: {}", named.short(lock.message), named.event_short(lock.event), lock.steps.len());
    choices.iter().for_each(|c| remark.push_str(&format!("; {}", c)));
    drawing::draw(&Subject {
        title: &title("locked", code),
        remark: &remark,
        named,
        steps: &lock.steps,
        waits: &waits,
        course: &course(text),
        free: false,
        race: Some(Race { message: lock.message, event: lock.event }),
        not_allowed: None,
    })
}

/// The chart of a trace, up to the first step that is not allowed.
fn of_trace(text: &[u8], code: u32, trace: &Trace, standing: Standing, named: &Named) -> String {
    let steps = trace.steps();
    let (verdict, waits, taken) = match standing {
        Standing::Finished => ("trace finished", NO_WAITS, steps.len()),
        Standing::Stuck(waits) => ("trace stuck", waits, steps.len()),
        Standing::NotAllowed(index) => ("step not allowed", NO_WAITS, index),
        Standing::Open => ("trace open", NO_WAITS, steps.len()),
    };
    let not_allowed = steps.get(taken).map(|s| (*s, trace.told[taken].as_str()));
    drawing::draw(&Subject {
        title: &title(verdict, code),
        remark: &format!("steps: {}", taken),
        named,
        steps: &steps[..taken],
        waits: &waits,
        course: &course(text),
        free: false,
        race: None,
        not_allowed,
    })
}

pub fn run(call: &mut Call) -> Result<Answer, Failure> {
    let code = call.code();
    if call.files.len() > 1 {
        return run_trace(call, code);
    }
    let sheet = call.sheet(0)?;
    let mut answer = Answer::new();
    let drawn = match (call.cured, call.repeated) {
        (true, _) => cured(&sheet, code),
        (_, true) => in_rounds(&sheet, code),
        _ => answered(&sheet, code),
    };
    match drawn? {
        Ok(svg) => answer.out = svg.into_bytes(),
        Err(r) => commands::refuse(&mut answer, &sheet, r, &Handed { code, choices: has_choices(&sheet), repeated: call.repeated, ..Handed::default() }),
    }
    Ok(answer)
}

fn run_trace(call: &mut Call, code: u32) -> Result<Answer, Failure> {
    if call.cured || call.repeated {
        return Err(Failure::new("a chart of a trace is neither of the cured sheet nor of rounds"));
    }
    let (source, sheet) = (call.file(0, "trace")?, call.sheet(1)?);
    let trace = replay::trace(&source)?;
    let mut answer = Answer::new();
    match face::replay(&sheet.bytes, code, &trace.bytes) {
        Ok(standing) => {
            let named = commands::named(&sheet)?;
            answer.out = of_trace(&sheet.bytes, code, &trace, standing, &named).into_bytes();
        }
        Err(r) if r.number == TRACE => commands::refuse_trace(&mut answer, &source, r, trace.bytes.len()),
        Err(r) => commands::refuse(&mut answer, &sheet, r, &Handed { code, ..Handed::default() }),
    }
    Ok(answer)
}

fn has_choices(sheet: &Sheet) -> bool {
    rows::rows(&sheet.bytes, usize::MAX).iter().any(|r| r.kind == b'A')
}

type Drawn = Result<Result<String, Refusal>, Failure>;

fn answered(sheet: &Sheet, code: u32) -> Drawn {
    if has_choices(sheet) {
        return chosen_chart(sheet, code);
    }
    let text = &sheet.bytes;
    Ok(match face::check(text, code) {
        Verdict::Free => Ok(of_free(text, &commands::named(sheet)?, &title("free", code), "a course of its events")),
        Verdict::Locked(lock) => Ok(of_lock(text, code, &commands::named(sheet)?, &lock, &[])),
        Verdict::Refused(r) => Err(r),
    })
}

/// Of a file with choices, the first list that locks; where none does, the first list.
fn chosen_chart(sheet: &Sheet, code: u32) -> Drawn {
    let text = &sheet.bytes;
    let (second, lock, options) = match face::choices(text, code) {
        Choices::Refused(r) => return Ok(Err(r)),
        Choices::Free => (0, None, chosen::options(sheet, u32::MAX, 0)),
        Choices::Locked { lock, length, second } => (second, Some(lock), chosen::options(sheet, length, second)),
    };
    let c: Chosen = match chosen::sheet(sheet, second) {
        Some(c) => c,
        None => return Err(Failure::new(format!("{}: no chart: {}", sheet.name, chosen::NO_SHEET))),
    };
    Ok(Ok(match lock {
        Some(lock) => of_lock(&c.text, code, &c.named, &lock, &options),
        None => of_free(&c.text, &c.named, &title("free", code), &format!("on every choice; a course of its events with {}", options.join("; "))),
    }))
}

/// Of an exchange that is repeated: the rounds that lock or, where none do, two rounds.
fn in_rounds(sheet: &Sheet, code: u32) -> Drawn {
    let judged = match face::rounds(&sheet.bytes, code) {
        Ok(judged) => judged,
        Err(r) => return Ok(Err(r)),
    };
    let rounds = if let Rounds::Locked { rounds, .. } = &judged { *rounds } else { 2 };
    let text = match commands::rounds::text_of(sheet, rounds) {
        Some(text) => text,
        None => return Err(Failure::new(format!("{}: no chart: {}", sheet.name, commands::rounds::NO_TEXT))),
    };
    let named = commands::named(sheet)?.repeated(rounds);
    Ok(Ok(match judged {
        Rounds::Free => of_free(&text, &named, &format!("{}, however often it is repeated", title("free", code)), "a course of the events of two rounds"),
        Rounds::Locked { lock, .. } => of_lock(&text, code, &named, &lock, &[format!("on round {}", rounds)]),
    }))
}

fn cured(sheet: &Sheet, code: u32) -> Drawn {
    let text = match face::cure(&sheet.bytes) {
        Ok(text) => text,
        Err(r) => return Ok(Err(r)),
    };
    match face::check(&text, code) {
        Verdict::Refused(r) => Ok(Err(r)),
        _ => {
            let named = commands::named(sheet)?.in_text(commands::listed(&text)?);
            Ok(Ok(of_free(&text, &named, &format!("cured: {}", title("free", code)), "a course of the cured sheet's events")))
        }
    }
}
