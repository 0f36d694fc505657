//! An exchange that is repeated, through `rounds_check`, held to the plain reference: answers, traces and buffers; up to four rounds unrolled, and of small
//! sheets every state searched on up to three.

use crate::reference::{self, Answer, Refusal, Row, Scenario, MESSAGES, SCRATCH_LEAST, TRACE_LEAST};
use crate::texts::Random;
use crate::{bytes, fail, length, replay, Buffers, BESIDE};

#[repr(C)]
struct Numbers {
    word: u32,
    one: u32,
    two: u32,
    three: u32,
    rounds: u32,
}

extern "C" {
    fn rounds_check(
        text: *const u8, text_len: usize, code: u32, scratch: *mut u64, scratch_len: usize, trace: *mut u8, trace_len: usize,
    ) -> Numbers;
}

const KINDS: [&str; 6] = ["free", "locked once", "locked twice", "refused by the sheet", "by the second walk", "1 or 2"];

/// What was seen, by kind; sheets unrolled to four rounds, and those searched whole.
#[derive(Default)]
pub struct Seen {
    kinds: [u64; KINDS.len()],
    unrolled: u64,
    searched: u64,
}

impl Seen {
    pub fn add(&mut self, o: &Seen) {
        self.kinds.iter_mut().zip(o.kinds).for_each(|(a, b)| *a += b);
        self.unrolled += o.unrolled;
        self.searched += o.searched;
    }

    pub fn print(&self) {
        println!("repeated, {}: {:?}, unrolled {}, searched {}", KINDS.join(", "), self.kinds, self.unrolled, self.searched);
    }

    pub fn whole(&self) -> bool {
        self.kinds.iter().all(|n| *n > 0) && self.unrolled * self.searched > 0
    }
}

/// The answer on three and four rounds is that of two: locked exactly where the call says so.
fn unroll(seen: &mut Seen, text: &[u8], rows: &[Row], n: usize, code: u32, locked: bool) {
    for k in (1..=4).filter(|k| k * n <= MESSAGES.min(96)) {
        let Ok(s) = reference::rounds(rows, k) else { fail("rounds: refused where two are taken", text, code) };
        let one_is_free = k == 1 && !matches!(reference::verdict(&s, code), Answer::Locked { .. });
        if !one_is_free && matches!(reference::verdict(&s, code), Answer::Locked { .. }) != locked {
            fail("rounds: another number of rounds has another answer", text, code);
        }
        seen.unrolled += u64::from(k == 4);
    }
}

/// Every order of up to three rounds taken, by the step rules alone.
fn search(seen: &mut Seen, text: &[u8], rows: &[Row], n: usize, code: u32, fewest: u32) {
    for k in (1..=3).filter(|k| k * n <= 5) {
        let Ok(s) = reference::rounds(rows, k) else { fail("rounds: refused where two are taken", text, code) };
        let locked = fewest != 0 && k >= fewest as usize;
        if reference::can_stop(&s, code) != locked {
            fail("rounds: the answer is not what the whole search says", text, code);
        }
        seen.searched += 1;
    }
}

fn kind(one: &Result<Scenario, Refusal>, expected: &Answer, fewest: u32) -> usize {
    match expected {
        Answer::Free => 0,
        Answer::Locked { .. } => fewest as usize,
        Answer::Refused((1 | 2, _)) => 5,
        Answer::Refused(_) => 3 + usize::from(one.is_ok()),
    }
}

pub fn try_rounds(r: &mut Random, seen: &mut Seen, text: &[u8], one: &Result<Scenario, Refusal>) {
    let (code, scratch_len, trace_len) = (r.below(7) as u32, length(r, SCRATCH_LEAST), length(r, TRACE_LEAST));
    let mut b = Buffers::lent(r, scratch_len, trace_len);
    let lent = text.to_vec();
    let (fewest, expected) = reference::repeated(text, code, scratch_len, trace_len);
    let (scratch, trace) = (b.scratch[BESIDE..].as_mut_ptr(), b.trace[BESIDE..].as_mut_ptr());
    let got = unsafe { rounds_check(lent.as_ptr(), lent.len(), code, scratch, scratch_len, trace, trace_len) };
    let (numbers, steps) = match &expected {
        Answer::Free => ([0, 0, 0, 0], vec![]),
        Answer::Locked { e, x, steps } => ([1, *e as u32, *x as u32, steps.len() as u32], bytes(steps)),
        Answer::Refused((n, line)) => ([2, *n, *line, 0], vec![]),
    };
    if ([got.word, got.one, got.two, got.three], got.rounds) != (numbers, fewest) {
        println!("expected {:?} rounds {}, got {:?} rounds {}", numbers, fewest, [got.word, got.one, got.two, got.three], got.rounds);
        fail("rounds: answer", text, code);
    }
    b.left(text, &lent, code, &steps, matches!(expected, Answer::Refused((1 | 2, _))));
    seen.kinds[kind(one, &expected, fewest)] += 1;
    if let (Ok(s), false) = (one, matches!(expected, Answer::Refused(_))) {
        judge(seen, text, s.messages.len(), code, fewest, &steps);
    }
}

/// The steps end stuck on so many rounds, and other numbers of rounds agree.
fn judge(seen: &mut Seen, text: &[u8], n: usize, code: u32, fewest: u32, steps: &[u8]) {
    let rows = reference::read(text, false).expect("a sheet that was accepted is read");
    if fewest > 0 {
        let Ok(s) = reference::rounds(&rows, fewest as usize) else { fail("rounds: refused where locked", text, code) };
        replay(steps, text, &s, code);
    }
    unroll(seen, text, &rows, n, code, fewest > 0);
    search(seen, text, &rows, n, code, fewest);
}
