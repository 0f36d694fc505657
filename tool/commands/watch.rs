//! `watch`: a run that is fed step by step, each line echoed with its answer.

use super::replay::trace;
use super::{named, refuse, Call};
use crate::face::{self, Monitor, Refusal, Standing, Taken};
use crate::input::{failure, Failure, Source, STANDARD_INPUT};
use crate::output::{self, Answer, Status};
use crate::refusals::{Handed, CHANNEL, SWITCH};
use crate::run::{self, Run};
use crate::sheet::Sheet;
use crate::steps_text::{self, Line};
use crate::words::{self, Named};
use std::io::{self, BufRead, BufReader, Read};

/// No line of steps is longer.
const LINE_BYTES: u64 = 4096;

struct Watch {
    sheet: Sheet,
    named: Named,
    state: Monitor,
    answer: Answer,
}

pub fn run(call: &mut Call) -> Result<Answer, Failure> {
    let (sheet, code) = (call.sheet(0)?, call.code());
    let fed = if call.files.len() > 1 { Some(call.file(1, "trace")?) } else { None };
    let mut answer = Answer::new();
    let state = match Monitor::open(&sheet.bytes, code) {
        Taken::Taken(state) => *state,
        Taken::Forbidden => return Err(Failure::new("the library forbids the opening of a run".to_string())),
        Taken::Refused(r) => {
            refuse(&mut answer, &sheet, r, &Handed { code, ..Handed::default() });
            return Ok(answer);
        }
    };
    let named = named(&sheet)?;
    answer.line(&format!("opened on {}: {}", words::channel(code), words::count(named.messages.len(), "message")));
    let mut watch = Watch { sheet, named, state, answer };
    match fed {
        Some(source) => watch.feed_file(&source)?,
        None => watch.feed_live(call)?,
    }
    watch.end();
    Ok(watch.answer)
}

impl Watch {
    fn feed_file(&mut self, source: &Source) -> Result<(), Failure> {
        source.is_whole("trace")?;
        if steps_text::is_text(&source.bytes) {
            source.bytes.split(|b| *b == b'\n').for_each(|l| self.take_line(l));
            return Ok(());
        }
        let trace = trace(source)?;
        if trace.bytes.len() % 2 == 1 {
            return Err(Failure::new(format!("{}: {} bytes, and a step has two", source.name, trace.bytes.len())));
        }
        for (s, echo) in trace.steps().iter().zip(&trace.told) {
            self.step(u32::from(s.kind), u32::from(s.message), echo);
        }
        Ok(())
    }

    /// Each line as it comes; what is answered goes out before another read may wait.
    fn feed_live(&mut self, call: &mut Call) -> Result<(), Failure> {
        call.inputs.take("steps")?;
        if face::is_terminal(0) {
            self.answer.note("steps, one a line: send M, deliver M, consume M, switch CHANNEL; ? lists what is allowed; end with Ctrl-D");
        }
        let mut from = BufReader::new(io::stdin());
        loop {
            if call.live && from.buffer().is_empty() {
                self.hand_out()?;
            }
            let mut line = Vec::new();
            let read = (&mut from).take(LINE_BYTES).read_until(b'\n', &mut line).map_err(|e| failure(STANDARD_INPUT, &e))?;
            if read == 0 {
                return Ok(());
            }
            if read as u64 == LINE_BYTES && line.last() != Some(&b'\n') {
                return Err(Failure::new(format!("{}: a line of over {} bytes is no step", STANDARD_INPUT, LINE_BYTES)));
            }
            self.take_line(&line);
        }
    }

    fn hand_out(&mut self) -> Result<(), Failure> {
        output::write_standard(&self.answer.out)?;
        output::write_notes(&self.answer.notes)?;
        self.answer.out.clear();
        self.answer.notes.clear();
        Ok(())
    }

    fn take_line(&mut self, line: &[u8]) {
        match steps_text::line(line) {
            Line::Remark => {}
            Line::Step(kind, m) => self.step(u32::from(kind), m, &format!("{} {}", words::step_word(kind).unwrap_or(""), m)),
            Line::Switch(code) => self.switch(code),
            Line::Ask => {
                let steps = run::allowed(&self.state, &self.sheet.bytes, self.named.messages.len());
                self.answer.line(&format!("allowed: {}", if steps.is_empty() { "no step".to_string() } else { steps.join(", ") }));
            }
            Line::Unknown => {
                let shown = crate::input::shown(line.strip_suffix(b"\n").unwrap_or(line));
                self.answer.line(&format!("{}: no step; send M, deliver M, consume M, switch CHANNEL or ?", shown));
                self.answer.worsen(Status::NoAnswer);
            }
        }
    }

    fn step(&mut self, kind: u32, message: u32, echo: &str) {
        match self.state.step(kind, message, &self.sheet.bytes) {
            Taken::Taken(next) => {
                self.state = *next;
                self.answer.line(&format!("{}: taken, {}", echo, self.named.message(message as usize)));
                self.say_state();
            }
            Taken::Forbidden => {
                let why = Run { text: &self.sheet.bytes, named: &self.named, state: &self.state }.why_forbidden(kind, message as usize);
                self.answer.line(&format!("{}: forbidden, {}", echo, why));
                self.answer.worsen(Status::Bad);
            }
            Taken::Refused(r) => self.refused(echo, r),
        }
    }

    fn switch(&mut self, code: u32) {
        let echo = format!("switch {}", code);
        match self.state.switch(code, &self.sheet.bytes) {
            Taken::Taken(next) => {
                self.state = *next;
                self.answer.line(&format!("{}: taken, {}", echo, words::channel(code)));
                self.say_state();
            }
            Taken::Forbidden => self.answer.line(&format!("{}: forbidden", echo)),
            Taken::Refused(r) if r.number == SWITCH => {
                self.answer.line(&format!("{}: {}: {}", echo, words::refusal(r), self.why_no_switch()));
                self.answer.worsen(Status::Refused);
            }
            Taken::Refused(r) if r.number == CHANNEL => {
                self.answer.line(&format!("{}: {}: no channel has the code {}", echo, words::refusal(r), code));
                self.answer.worsen(Status::Refused);
            }
            Taken::Refused(r) => self.refused(&echo, r),
        }
    }

    fn refused(&mut self, echo: &str, r: Refusal) {
        self.answer.line(&format!("{}: {}", echo, words::refusal(r)));
        self.answer.worsen(Status::Refused);
    }

    /// What stands against a switch: a board with two messages or more, or as many under way.
    fn why_no_switch(&self) -> String {
        let full = (0..face::BOARDS).map(|b| (b, self.state.held(b))).find(|(_, held)| held.len() > 1);
        match full {
            Some((board, held)) => format!("{} holds {}", self.named.board_name(board), self.named.several(&held)),
            None => format!("under way: {}", self.named.several(&self.state.under_way())),
        }
    }

    fn say_state(&mut self) {
        let way = self.state.under_way();
        let way = if way.is_empty() { "none".to_string() } else { self.named.several(&way) };
        let mut words = format!("channel {}; under way: {}", self.state.code(), way);
        for board in 0..face::BOARDS {
            let held = self.state.held(board);
            if !held.is_empty() {
                words.push_str(&format!("; {} holds {}", self.named.board_name(board), self.named.several(&held)));
            }
        }
        self.answer.line(&words);
        match self.state.standing(&self.sheet.bytes) {
            Ok(Standing::Finished) => self.answer.line("finished"),
            Ok(Standing::Stuck(waits)) => {
                let held: Vec<Vec<usize>> = (0..face::BOARDS).map(|b| self.state.held(b)).collect();
                self.answer.line("stuck");
                self.named.stuck(&waits, &held).iter().for_each(|l| self.answer.line(l));
            }
            Ok(_) => {}
            Err(r) => self.refused("where the run stands", r),
        }
    }

    /// How the run ended, for the exit status.
    fn end(&mut self) {
        match self.state.standing(&self.sheet.bytes) {
            Ok(Standing::Finished) => self.answer.line("ended finished"),
            Ok(Standing::Stuck(_)) => {
                self.answer.line("ended stuck");
                self.answer.worsen(Status::Bad);
            }
            Ok(_) => self.answer.line("ended open"),
            Err(r) => self.refused("where the run ended", r),
        }
    }
}
