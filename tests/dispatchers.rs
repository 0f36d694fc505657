//! Request (k): random lists of calls through the dispatcher, held to a plain reference made from the request's words: the queue, the places,
//! the numbers, every answer with its trace, and every word lent. Besides, eight jobs of the most messages, all the numbers there are, and
//! dispatchers of random bytes.

use crate::reference::{self, Answer, Scenario, EVENTS, MESSAGES, SCRATCH_LEAST, TRACE_LEAST};
use crate::texts::{self, Random};
use crate::{bytes, fail};
use std::collections::VecDeque;

const PLACES: usize = 8;
const SLOT: usize = 8192;
const WORDS: usize = PLACES * SCRATCH_LEAST;
const NUMBERS: u32 = 65536;

#[repr(C)]
#[derive(Clone, Copy, Debug, PartialEq)]
struct Job {
    number: u32,
    turns: u32,
    count: u16,
    place: u8,
    code: u8,
}

#[repr(C)]
#[derive(Clone, Copy, Debug, PartialEq)]
struct Queue {
    jobs: [Job; PLACES],
    held: u32,
}

#[repr(C)]
#[derive(Clone, Copy, Debug, PartialEq)]
struct Race {
    found: u32,
    message: u32,
    event: u32,
}

#[repr(C)]
#[derive(Clone, Copy, Debug, PartialEq)]
struct Boards {
    on: [u8; EVENTS],
}

#[repr(C)]
#[derive(Clone, Copy, Debug, PartialEq)]
struct Dispatcher {
    queue: Queue,
    given: u32,
    races: [Race; PLACES],
    boards: [Boards; PLACES],
}

#[repr(C)]
#[derive(Clone, Copy)]
struct Told {
    word: u32,
    one: u32,
    two: u32,
    answer: [u32; 4],
    next: Dispatcher,
}

extern "C" {
    fn dispatcher_empty() -> Dispatcher;
    fn dispatcher_admit(
        state: Dispatcher, sheets: *const u8, sheets_len: usize, lengths: *const u32, lengths_len: usize, codes: *const u32, codes_len: usize,
        words: *mut u64, words_len: usize,
    ) -> Told;
    fn dispatcher_turn(
        state: Dispatcher, sheets: *const u8, sheets_len: usize, lengths: *const u32, lengths_len: usize, codes: *const u32, codes_len: usize,
        words: *mut u64, words_len: usize, trace: *mut u8, trace_len: usize,
    ) -> Told;
    fn dispatcher_cancel(
        state: Dispatcher, number: u32, sheets: *const u8, sheets_len: usize, lengths: *const u32, lengths_len: usize, codes: *const u32,
        codes_len: usize, words: *mut u64, words_len: usize,
    ) -> Told;
}

/// What was seen: calls by word, refusals by number, jobs answered free and locked, calls with a held job's words changed, calls refused with 2 that were
/// lent any words, forged values.
#[derive(Default)]
pub struct Seen {
    words: [u64; 6],
    refused: [u64; 18],
    answered: [u64; 2],
    changed: u64,
    other: u64,
    forged: u64,
}

impl Seen {
    pub fn add(&mut self, o: &Seen) {
        let sums = |a: &mut [u64], b: &[u64]| a.iter_mut().zip(b).for_each(|(x, y)| *x += y);
        sums(&mut self.words, &o.words);
        sums(&mut self.refused, &o.refused);
        sums(&mut self.answered, &o.answered);
        self.changed += o.changed;
        self.other += o.other;
        self.forged += o.forged;
    }

    pub fn print(&self) {
        println!("dispatcher admitted, idle, taken, answered, cancelled, refused: {:?}, answered free, locked: {:?}", self.words, self.answered);
        println!("dispatcher refused by number 1 to 17: {:?}, a held job's words changed {}, any words lent to a refused call {}, forged {}", &self.refused[1..], self.changed, self.other, self.forged);
    }

    pub fn whole(&self) -> bool {
        let some = |all: &[u64]| all.iter().all(|n| *n > 0);
        let refusals = [1, 2, 3, 4, 5, 6, 16, 17].iter().all(|n| self.refused[*n] > 0);
        some(&self.words) && some(&self.answered) && refusals && self.changed * self.other * self.forged > 0
    }
}

/// A job as the request tells it.
struct Held {
    number: u32,
    place: usize,
    code: u32,
    count: usize,
    turns: usize,
    answer: Answer,
    /// its words as the last call left them, and whether every call that was not refused with 1 or 2 was lent them so
    words: Vec<u64>,
    kept: bool,
}

/// What every call is lent.
struct Lent {
    sheets: Vec<u8>,
    lengths: Vec<u32>,
    codes: Vec<u32>,
    words: Vec<u64>,
    trace: Vec<u8>,
}

enum Call {
    Admit,
    Turn,
    Cancel(u32),
}

struct Counter {
    state: Dispatcher,
    queue: VecDeque<Held>,
    given: u32,
    last: Vec<u64>,
}

fn place_of(words: &[u64], p: usize) -> &[u64] {
    &words[p * SCRATCH_LEAST..(p + 1) * SCRATCH_LEAST]
}

impl Counter {
    fn new() -> Counter {
        Counter { state: unsafe { dispatcher_empty() }, queue: VecDeque::new(), given: 0, last: vec![0; WORDS] }
    }

    fn free(&self) -> Option<usize> {
        (0..PLACES).find(|p| !self.queue.iter().any(|j| j.place == *p))
    }

    /// The words to lend: those of held jobs mostly as they were left, all others with any content.
    fn words(&mut self, r: &mut Random, seen: &mut Seen, length: usize) -> Vec<u64> {
        let mut words: Vec<u64> = (0..length).map(|_| r.next()).collect();
        for j in &self.queue {
            let at = j.place * SCRATCH_LEAST;
            for i in 0..SCRATCH_LEAST.min(length.saturating_sub(at)) {
                words[at + i] = self.last[at + i];
            }
        }
        if length >= WORDS && r.one_in(60) {
            if let Some(j) = self.queue.back_mut() {
                words[j.place * SCRATCH_LEAST + r.below(SCRATCH_LEAST)] ^= 1 << r.below(64);
                j.kept = false;
                seen.changed += 1;
            }
        }
        words
    }

    /// What the call must answer, and the jobs behind it.
    fn expected(&mut self, c: &Call, l: &Lent) -> ([u32; 3], Option<Held>) {
        let short = l.words.len() < WORDS;
        match *c {
            Call::Admit => (self.admitted(l, short), None),
            Call::Turn if short || l.trace.len() < TRACE_LEAST => ([5, 2, 0], None),
            Call::Turn => match self.queue.pop_front() {
                None => ([1, 0, 0], None),
                Some(j) if j.turns == 2 * j.count => ([3, j.number, 0], Some(j)),
                Some(mut j) => {
                    j.turns += 1;
                    let number = j.number;
                    self.queue.push_back(j);
                    ([2, number, 0], None)
                }
            },
            Call::Cancel(_) if short => ([5, 2, 0], None),
            Call::Cancel(n) => match self.queue.iter().position(|j| j.number == n) {
                None => ([5, 17, 0], None),
                Some(i) => {
                    self.queue.remove(i);
                    ([4, n, 0], None)
                }
            },
        }
    }

    fn admitted(&mut self, l: &Lent, short: bool) -> [u32; 3] {
        let Some(p) = self.free() else { return if short { [5, 2, 0] } else { [5, 16, 0] } };
        let code = l.codes.get(p).copied().unwrap_or(6);
        if code > 5 {
            return [5, 1, 0];
        }
        if short {
            return [5, 2, 0];
        }
        if self.given == NUMBERS {
            return [5, 16, 0];
        }
        let size = l.lengths.get(p).copied().unwrap_or(0) as usize;
        if size > SLOT {
            return [5, 3, 0];
        }
        let from = (p * SLOT).min(l.sheets.len());
        let text = &l.sheets[from..(p * SLOT + size).min(l.sheets.len()).max(from)];
        match reference::sheet(text) {
            Err((number, line)) => [5, number, line],
            Ok(s) => {
                self.hold(p, code, &s);
                [0, self.given - 1, p as u32]
            }
        }
    }

    fn hold(&mut self, place: usize, code: u32, s: &Scenario) {
        let answer = reference::verdict(s, code);
        let count = s.messages.len();
        self.queue.push_back(Held { number: self.given, place, code, count, turns: 0, answer, words: vec![], kept: true });
        self.given += 1;
    }

    /// One call: its answer, its trace, every word lent, and the dispatcher handed back.
    fn call(&mut self, seen: &mut Seen, c: Call, mut l: Lent) {
        let (before, words, trace) = (self.state, l.words.clone(), l.trace.clone());
        let lent = (l.sheets.clone(), l.lengths.clone(), l.codes.clone());
        let (numbers, answered) = self.expected(&c, &l);
        let (s, n, k) = (l.sheets.as_ptr(), l.lengths.as_ptr(), l.codes.as_ptr());
        let (a, b, d) = (l.sheets.len(), l.lengths.len(), l.codes.len());
        let (w, t) = (l.words.as_mut_ptr(), l.trace.as_mut_ptr());
        let told = unsafe {
            match c {
                Call::Admit => dispatcher_admit(before, s, a, n, b, k, d, w, words.len()),
                Call::Turn => dispatcher_turn(before, s, a, n, b, k, d, w, words.len(), t, trace.len()),
                Call::Cancel(number) => dispatcher_cancel(before, number, s, a, n, b, k, d, w, words.len()),
            }
        };
        if [told.word, told.one, told.two] != numbers {
            println!("expected {:?}, got {:?}", numbers, [told.word, told.one, told.two]);
            fail("dispatcher: answer", &l.sheets, told.word);
        }
        if (l.sheets.clone(), l.lengths.clone(), l.codes.clone()) != lent {
            fail("dispatcher: what is only read was written", &l.sheets, told.word);
        }
        seen.words[told.word as usize] += 1;
        if told.word == 5 {
            seen.refused[told.one as usize] += 1;
        }
        self.judged(seen, answered, &told, &l, &trace);
        self.left(&told, &before, &l, &words);
        self.state = told.next;
        if told.word != 5 || told.one > 2 {
            self.last = l.words[..WORDS].to_vec();
        }
    }

    /// The check's own answer on the last turn, and nothing of it on any other; the trace changes on locked alone.
    fn judged(&self, seen: &mut Seen, answered: Option<Held>, told: &Told, l: &Lent, trace: &[u8]) {
        let Some(j) = answered else {
            if told.answer != [0; 4] || l.trace != trace {
                fail("dispatcher: an answer or a trace out of turn", &l.sheets, told.word);
            }
            return;
        };
        if !j.kept {
            return;
        }
        let (numbers, steps) = match &j.answer {
            Answer::Locked { e, x, steps } => ([1, *e as u32, *x as u32, steps.len() as u32], bytes(steps)),
            _ => ([0; 4], vec![]),
        };
        seen.answered[numbers[0] as usize] += 1;
        if told.answer != numbers || l.trace[..steps.len()] != steps[..] || l.trace[steps.len()..] != trace[steps.len()..] {
            println!("expected {:?}, got {:?}", numbers, told.answer);
            fail("dispatcher: not the check's answer", &l.sheets, j.code);
        }
    }

    /// The words and the dispatcher behind a call.
    fn left(&mut self, told: &Told, before: &Dispatcher, l: &Lent, words: &[u64]) {
        if told.word == 5 && told.one <= 2 {
            if l.words != words {
                fail("dispatcher: refusal 1 or 2 touched the words", &l.sheets, told.one);
            }
        } else {
            for p in 0..PLACES {
                let zero = || place_of(&l.words, p).iter().all(|w| *w == 0);
                match self.queue.iter_mut().find(|j| j.place == p) {
                    None if zero() => {}
                    Some(j) if j.words.is_empty() => j.words = place_of(&l.words, p).to_vec(),
                    Some(_) if place_of(&l.words, p) == place_of(words, p) => {}
                    _ => fail("dispatcher: the words of a place", &l.sheets, p as u32),
                }
            }
            if l.words[WORDS..] != words[WORDS..] {
                fail("dispatcher: words behind the last place", &l.sheets, told.word);
            }
        }
        if (told.word == 5 || told.word == 1) && told.next != *before {
            fail("dispatcher: idle or refused, and not as it was", &l.sheets, told.word);
        }
        let q = &told.next.queue;
        let same = |(i, j): (usize, &Held)| {
            let k = q.jobs[i];
            [k.number, k.turns, k.count.into(), k.place.into(), k.code.into()] == [j.number, j.turns as u32, j.count as u32, j.place as u32, j.code]
        };
        if q.held as usize != self.queue.len() || told.next.given != self.given || !self.queue.iter().enumerate().all(same) {
            fail("dispatcher: the queue", &l.sheets, told.word);
        }
    }
}

/// Everything lent to a call, with any content but for the words of held jobs; an admission has a text in the place that it takes.
fn lent(r: &mut Random, seen: &mut Seen, c: &mut Counter, text: &[u8]) -> Lent {
    let place = c.free().unwrap_or(0);
    let mut sheets: Vec<u8> = if r.one_in(20) { vec![b'x'; r.below(PLACES * SLOT)] } else { vec![b'\n'; PLACES * SLOT + r.below(3)] };
    for (i, b) in text.iter().take(SLOT).enumerate() {
        if let Some(to) = sheets.get_mut(place * SLOT + i) {
            *to = *b;
        }
    }
    let mut lengths: Vec<u32> = (0..PLACES).map(|_| r.below(SLOT + 2) as u32).collect();
    lengths[place] = if r.one_in(60) { 8193 + r.below(3) as u32 } else { text.len() as u32 };
    let mut codes: Vec<u32> = (0..PLACES).map(|_| r.next() as u32).collect();
    codes[place] = if r.one_in(40) { 6 + r.below(3) as u32 } else { r.below(6) as u32 };
    if r.one_in(60) {
        lengths.truncate(r.below(PLACES));
        codes.truncate(r.below(PLACES));
    }
    let short = r.one_in(50);
    let words_len = if short { r.below(WORDS) } else { WORDS + r.below(3) };
    let trace_len = if r.one_in(50) { r.below(TRACE_LEAST) } else { TRACE_LEAST + r.below(3) };
    let words = c.words(r, seen, words_len);
    let trace = (0..trace_len).map(|_| r.next() as u8).collect();
    Lent { sheets, lengths, codes, words, trace }
}

/// A dispatcher of random bytes: it is read safely, and what lies behind the words and the trace stays.
fn forge(r: &mut Random, seen: &mut Seen) {
    let mut c = Counter::new();
    let mut any: Vec<u8> = (0..std::mem::size_of::<Dispatcher>()).map(|_| r.next() as u8).collect();
    if r.one_in(2) {
        any.iter_mut().for_each(|b| *b %= 9);
    }
    let state = unsafe { std::ptr::read_unaligned(any.as_ptr() as *const Dispatcher) };
    let mut l = lent(r, seen, &mut c, b"kind one two\nS 0 0\nM 0 1\n");
    l.words.truncate(WORDS);
    l.words.resize(WORDS + 8, 7);
    l.trace.truncate(TRACE_LEAST);
    l.trace.resize(TRACE_LEAST + 8, 7);
    let (s, n, k) = (l.sheets.as_ptr(), l.lengths.as_ptr(), l.codes.as_ptr());
    let (a, b, d) = (l.sheets.len(), l.lengths.len(), l.codes.len());
    let (w, t) = (l.words.as_mut_ptr(), l.trace.as_mut_ptr());
    let told = unsafe {
        match r.below(3) {
            0 => dispatcher_admit(state, s, a, n, b, k, d, w, WORDS),
            1 => dispatcher_turn(state, s, a, n, b, k, d, w, WORDS, t, TRACE_LEAST),
            _ => dispatcher_cancel(state, state.queue.jobs[0].number, s, a, n, b, k, d, w, WORDS),
        }
    };
    if told.word > 5 || l.words[WORDS..] != [7; 8] || l.trace[TRACE_LEAST..] != [7; 8] {
        fail("dispatcher: a forged value", &l.sheets, told.word);
    }
    seen.forged += 1;
}

/// Sheets that are soon answered: the paper's cases 2, 3, 5 and 6.
const SHORT: [&[u8]; 4] = [
    b"kind one two\nS 0 0\nM 0 1\nM 2 1\nP 1 3\n",
    b"kind one two\nS 0 0\nM 0 1\nM 0 1\nP 0 2\nP 1 3\n",
    b"kind one two\nS 0 0\nM 0 1\nM 1 2\nP 2 1\n",
    b"kind one two\nS 0 0\nM 3 3\n",
];

/// A list of calls from the empty dispatcher.
pub fn try_dispatcher(r: &mut Random, seen: &mut Seen) {
    let mut c = Counter::new();
    for _ in 0..100 {
        let text = if r.one_in(2) { r.pick(&SHORT).to_vec() } else { texts::text(r) };
        let mut l = lent(r, seen, &mut c, &text);
        let call = match r.below(12) {
            0..=3 => Call::Admit,
            4 => Call::Cancel(if r.one_in(3) { r.next() as u32 } else { c.queue.get(r.below(PLACES)).map_or(c.given, |j| j.number) }),
            _ => Call::Turn,
        };
        let short = l.words.len() < WORDS || matches!(call, Call::Turn) && l.trace.len() < TRACE_LEAST;
        if short && !c.queue.is_empty() {
            l.words.iter_mut().for_each(|w| *w = r.next());
            seen.other += 1;
        }
        c.call(seen, call, l);
    }
    forge(r, seen);
}

/// What is lent with a sheet in each of the places that it is wanted in.
fn fixed(c: &Counter, text: &[u8]) -> Lent {
    let mut sheets = vec![0; PLACES * SLOT];
    (0..PLACES).for_each(|p| sheets[p * SLOT..p * SLOT + text.len()].copy_from_slice(text));
    let lengths = vec![text.len() as u32; PLACES];
    Lent { sheets, lengths, codes: vec![0; PLACES], words: c.last.clone(), trace: vec![0; TRACE_LEAST] }
}

/// Eight jobs of the most messages: the last is answered on turn 8 (2n + 1), and none before its own turn 2n + 1.
fn full(seen: &mut Seen) {
    let text = ["kind one two\nS 0 0\n".to_string(), "M 0 1\n".repeat(MESSAGES)].concat().into_bytes();
    let mut c = Counter::new();
    for _ in 0..PLACES {
        let l = fixed(&c, &text);
        c.call(seen, Call::Admit, l);
    }
    let l = fixed(&c, &text);
    c.call(seen, Call::Admit, l);
    let most = PLACES * (2 * MESSAGES + 1);
    for turn in 1..=most {
        let held = c.queue.len();
        let l = fixed(&c, &text);
        c.call(seen, Call::Turn, l);
        if (turn > most - PLACES) != (c.queue.len() < held) {
            fail("dispatcher: a job answered early or late", &text, turn as u32);
        }
    }
    if !c.queue.is_empty() {
        fail("dispatcher: a job not answered within its turns", &text, 0);
    }
}

/// All 65,536 numbers, and then 16.
fn numbers(seen: &mut Seen) {
    let text = b"kind one two\nS 0 0\n";
    let mut l = fixed(&Counter::new(), text);
    let mut state = unsafe { dispatcher_empty() };
    let (s, n, k) = (l.sheets.as_ptr(), l.lengths.as_ptr(), l.codes.as_ptr());
    let (a, b, d) = (l.sheets.len(), l.lengths.len(), l.codes.len());
    let mut told = |state: &mut Dispatcher, cancelled: Option<u32>| {
        let w = l.words.as_mut_ptr();
        let t = unsafe {
            match cancelled {
                None => dispatcher_admit(*state, s, a, n, b, k, d, w, WORDS),
                Some(number) => dispatcher_cancel(*state, number, s, a, n, b, k, d, w, WORDS),
            }
        };
        *state = t.next;
        [t.word, t.one, t.two]
    };
    for number in 0..NUMBERS {
        if told(&mut state, None) != [0, number, 0] || told(&mut state, Some(number)) != [4, number, 0] {
            fail("dispatcher: a number given out", text, number);
        }
    }
    if told(&mut state, None) != [5, 16, 0] {
        fail("dispatcher: number 65,536", text, 0);
    }
    seen.refused[16] += 1;
}

/// The lists of calls that are the same each time.
pub fn try_limits(seen: &mut Seen) {
    full(seen);
    numbers(seen);
}
