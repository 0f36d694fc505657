//! Traces of every kind through `trace_check`, held to the plain reference: allowed orders cut anywhere, the check's own steps, both
//! with single bytes changed, bytes at random, whole orders of the most messages, and lengths from nothing to beyond the limit.

use crate::reference::{self, Refusal, Replay, Scenario, State, Step, MESSAGES, SCRATCH_LEAST, TRACE_LEAST};
use crate::texts::Random;
use crate::{allowed_from, bytes, fail, length, Buffers, BESIDE};

#[repr(C)]
struct Numbers {
    word: u32,
    one: u32,
    two: u32,
    waits: [u16; 16],
}

extern "C" {
    fn trace_check(
        text: *const u8, text_len: usize, code: u32, scratch: *mut u64, scratch_len: usize, trace: *const u8, trace_len: usize,
    ) -> Numbers;
}

/// What was seen, by word, and of the refusals the one that this call adds; and finished traces of the most messages.
#[derive(Default)]
pub struct Seen {
    words: [u64; 5],
    twelve: u64,
    waiting: u64,
    longest: u64,
}

impl Seen {
    pub fn add(&mut self, o: &Seen) {
        self.words.iter_mut().zip(o.words).for_each(|(a, b)| *a += b);
        self.twelve += o.twelve;
        self.waiting += o.waiting;
        self.longest += o.longest;
    }

    pub fn print(&self) {
        println!("foreign traces finished, stuck, open, not allowed, refused: {:?}, refusal 12: {}", self.words, self.twelve);
        println!("boards that wait where a trace is stuck: {}, finished traces of {} bytes: {}", self.waiting, TRACE_LEAST, self.longest);
    }

    pub fn whole(&self) -> bool {
        self.words.iter().all(|n| *n > 0) && self.twelve * self.waiting * self.longest > 0
    }
}

/// An allowed order, taken at random for so many steps or until none is left.
fn order(r: &mut Random, s: &Scenario, code: u32, most: usize) -> Vec<Step> {
    let mut state = State::start(s);
    let mut taken = Vec::new();
    while taken.len() < most {
        let Some(step) = allowed_from(r, s, &state, code) else { break };
        state.take(s, step);
        taken.push(step);
    }
    taken
}

fn trace(r: &mut Random, sheet: &Result<Scenario, Refusal>, code: u32, own: &[u8]) -> Vec<u8> {
    let mut out = match sheet {
        // left as it is: sheets of the most messages are few
        Ok(s) if code < 6 && s.messages.len() == MESSAGES && r.one_in(2) => return bytes(&order(r, s, code, 3 * MESSAGES)),
        Ok(s) if code < 6 && s.messages.len() <= 24 && !r.one_in(4) => {
            let most = if r.one_in(2) { 3 * s.messages.len() } else { r.below(3 * s.messages.len() + 1) };
            bytes(&order(r, s, code, most))
        }
        _ => own.to_vec(),
    };
    if r.one_in(3) && !out.is_empty() {
        let at = r.below(out.len());
        out[at] = if r.one_in(2) { r.below(4) as u8 } else { r.next() as u8 };
    }
    if r.one_in(6) {
        let len = r.below(TRACE_LEAST + 3);
        out = (0..len).map(|i| if i % 2 == 0 { r.below(3) as u8 } else { r.below(6) as u8 }).collect();
    }
    if r.one_in(8) {
        out.extend([r.below(3) as u8, r.below(8) as u8]);
    }
    if r.one_in(12) {
        out.truncate(r.below(out.len() + 1));
    }
    out
}

pub fn try_traces(r: &mut Random, seen: &mut Seen, text: &[u8], sheet: &Result<Scenario, Refusal>, code: u32, own: &[u8]) {
    let trace = trace(r, sheet, code, own);
    let scratch_len = length(r, SCRATCH_LEAST);
    let mut b = Buffers::lent(r, scratch_len, 0);
    let (lent_text, lent_trace) = (text.to_vec(), trace.clone());
    let expected = reference::replay(sheet, code, scratch_len, &trace);
    let scratch = b.scratch[BESIDE..].as_mut_ptr();
    let waits = reference::waits(sheet, code, scratch_len, &trace);
    let got = unsafe {
        trace_check(lent_text.as_ptr(), lent_text.len(), code, scratch, scratch_len, lent_trace.as_ptr(), lent_trace.len())
    };
    let numbers = match expected {
        Replay::Finished => [0, 0, 0],
        Replay::Stuck => [1, 0, 0],
        Replay::Open => [2, 0, 0],
        Replay::NotAllowed(i) => [3, i as u32, 0],
        Replay::Refused((n, line)) => [4, n, line],
    };
    if [got.word, got.one, got.two] != numbers {
        println!("expected {:?}, got {:?} on the trace {:?}", numbers, [got.word, got.one, got.two], trace);
        fail("trace check", text, code);
    }
    if got.waits != waits {
        println!("expected {:?}, got {:?} on the trace {:?}", waits, got.waits, trace);
        fail("trace check: waits", text, code);
    }
    if !b.scratch_holds(if matches!(expected, Replay::Refused((1 | 2, _))) { 0 } else { SCRATCH_LEAST }) {
        fail("trace check: scratch", text, code);
    }
    if lent_text != text || lent_trace != trace {
        fail("trace check: what was lent to be read was written to", text, code);
    }
    seen.words[got.word as usize] += 1;
    seen.twelve += u64::from(got.word == 4 && got.one == 12);
    seen.longest += u64::from(got.word == 0 && trace.len() == TRACE_LEAST);
    seen.waiting += waits.iter().filter(|w| **w != u16::MAX).count() as u64;
}
