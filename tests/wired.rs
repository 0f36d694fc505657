//! Request (j): the check's own answers on the six channels side by side, for sheets and for files with choices; and every finished order
//! of a small sheet, its sends and consumptions held to "before".

use crate::choices::{self, Numbers};
use crate::reference::{self, List, Scenario, State, Step, SCRATCH_LEAST, TRACE_LEAST};
use crate::texts::{self, Random};
use crate::{channel_check, fail, CODES};

/// FIFO, synchronous and token ring
const WIRED: [usize; 3] = [2, 4, 5];

/// Sheets of more messages have too many orders to take them all.
const MESSAGES: usize = 3;

/// What was seen: by word on the wired codes, sheets locked on 0 at a lower message, sheets locked on 0 alone, finished orders by code, and
/// files with choices by word, and locked on 0 on a list further ahead.
#[derive(Default)]
pub struct Seen {
    words: [u64; 3],
    lower: u64,
    alone: u64,
    orders: [u64; CODES],
    choices: [u64; 3],
    ahead: u64,
}

impl Seen {
    pub fn add(&mut self, o: &Seen) {
        let sums = |a: &mut [u64], b: &[u64]| a.iter_mut().zip(b).for_each(|(x, y)| *x += y);
        sums(&mut self.words, &o.words);
        sums(&mut self.orders, &o.orders);
        sums(&mut self.choices, &o.choices);
        self.lower += o.lower;
        self.alone += o.alone;
        self.ahead += o.ahead;
    }

    pub fn print(&self) {
        println!("wired models alike, free, locked, refused: {:?}, locked on 0 at a lower message {}, on 0 alone {}", self.words, self.lower, self.alone);
        println!("wired models alike on choices: {:?}, locked on 0 on a list ahead {}", self.choices, self.ahead);
        println!("finished orders by code 0 to 5: {:?}", self.orders);
    }

    pub fn whole(&self) -> bool {
        let some = |all: &[u64]| all.iter().all(|n| *n > 0);
        some(&self.words) && some(&self.orders) && some(&self.choices) && self.lower * self.alone * self.ahead > 0
    }
}

/// The check's word and two numbers on a code.
fn checked(text: &[u8], code: usize) -> [u32; 3] {
    let (mut scratch, mut trace) = (vec![0u64; SCRATCH_LEAST], vec![0u8; TRACE_LEAST]);
    let a = unsafe {
        channel_check(text.as_ptr(), text.len(), code as u32, scratch.as_mut_ptr(), scratch.len(), trace.as_mut_ptr(), trace.len())
    };
    [a.word, a.one, a.two]
}

/// One verdict on the wired codes; locked anywhere is locked on 0, no higher; free on 0 is free everywhere.
fn one_verdict(seen: &mut Seen, text: &[u8]) {
    let answers: Vec<[u32; 3]> = (0..CODES).map(|code| checked(text, code)).collect();
    let zero = answers[0];
    for code in WIRED {
        if answers[code] != answers[WIRED[0]] {
            fail("wired: not the verdict of FIFO", text, code as u32);
        }
    }
    for (code, a) in answers.iter().enumerate() {
        if a[0] == 1 && (zero[0] != 1 || zero[1] > a[1]) {
            fail("wired: locked, and on 0 not or higher", text, code as u32);
        }
        if zero[0] == 0 && a[0] != 0 {
            fail("wired: free on 0 alone", text, code as u32);
        }
    }
    let wired = answers[WIRED[0]];
    seen.words[wired[0] as usize] += 1;
    seen.lower += u64::from(wired[0] == 1 && zero[1] < wired[1]);
    seen.alone += u64::from(zero[0] == 1 && wired[0] == 0);
}

/// The list that an answer names, by its place among the lists of the file.
fn named(lists: &[List], a: &Numbers) -> Option<usize> {
    let number = |l: &List| l.options.iter().enumerate().map(|(k, n)| u32::from(*n) << k).sum::<u32>();
    lists.iter().position(|l| l.options.len() == a.length as usize && number(l) == a.choices)
}

/// The same for a file with choices, the first locked list told by its place.
fn one_choice_verdict(seen: &mut Seen, text: &[u8]) {
    let answers: Vec<Numbers> = (0..CODES).map(|code| choices::checked(text, code as u32)).collect();
    let told = |a: &Numbers| [a.word, a.one, a.two, a.length, a.choices];
    for code in WIRED {
        if told(&answers[code]) != told(&answers[WIRED[0]]) {
            fail("wired: not the verdict of FIFO over choice lists", text, code as u32);
        }
    }
    let (zero, wired) = (&answers[0], &answers[WIRED[0]]);
    seen.choices[wired.word as usize] += 1;
    if zero.word == 0 && answers.iter().any(|a| a.word != 0) {
        fail("wired: free on 0 alone over choice lists", text, 0);
    }
    if wired.word != 1 {
        return;
    }
    let lists = reference::lists(&reference::read(text, true).unwrap());
    let (first, then) = (named(&lists, zero), named(&lists, wired));
    if zero.word != 1 || first.is_none() || first > then || (first == then && zero.one > wired.one) {
        fail("wired: a list locked, and on 0 none ahead of it", text, 0);
    }
    seen.ahead += u64::from(first < then);
}

/// The order of the events of a finished run: each once, and none ahead of one that is before it.
fn rearranged(s: &Scenario, run: &[Step]) -> bool {
    let event = |t: &Step| match *t {
        Step::Send(m) => Some(2 * m),
        Step::Deliver(_) => None,
        Step::Consume(m) => Some(2 * m + 1),
    };
    let events: Vec<usize> = run.iter().filter_map(event).collect();
    let mut sorted = events.clone();
    sorted.sort_unstable();
    let each_once = sorted.iter().copied().eq(0..2 * s.messages.len());
    let allowed = (0..events.len()).all(|i| events[i + 1..].iter().all(|y| !s.before[*y][events[i]]));
    each_once && allowed
}

/// Every order from a state on that finishes.
fn finish(seen: &mut Seen, text: &[u8], s: &Scenario, code: u32, state: &State, run: &mut Vec<Step>) {
    if state.finished() {
        if !rearranged(s, run) {
            fail("wired: a finished run against \"before\"", text, code);
        }
        seen.orders[code as usize] += 1;
        return;
    }
    for step in state.steps(s, code) {
        let mut next = state.clone();
        next.take(s, step);
        run.push(step);
        finish(seen, text, s, code, &next, run);
        run.pop();
    }
}

/// One text on all six channels, and a file with choices.
pub fn try_wired(r: &mut Random, seen: &mut Seen, text: &[u8], sheet: Option<&Scenario>) {
    one_verdict(seen, text);
    one_choice_verdict(seen, &texts::choice_text(r));
    if let Some(s) = sheet.filter(|s| s.messages.len() <= MESSAGES) {
        for code in 0..CODES as u32 {
            finish(seen, text, s, code, &State::start(s), &mut Vec::new());
        }
    }
}
