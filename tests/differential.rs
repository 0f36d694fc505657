//! Holds the proved check, through its C face, to the plain reference: answers, traces and buffers over many texts. Every locked
//! trace is replayed by the step rules, orders of free sheets are taken at random to their end, and small sheets are searched whole.
//! usage: differential [TEXTS [SEED]]

#[path = "choices.rs"]
mod choices;
#[path = "cures.rs"]
mod cures;
#[path = "dispatchers.rs"]
mod dispatchers;
#[path = "holdings.rs"]
mod holdings;
#[path = "monitors.rs"]
mod monitors;
#[path = "reference.rs"]
mod reference;
#[path = "rounds.rs"]
mod rounds;
#[path = "senders.rs"]
mod senders;
#[path = "taps.rs"]
mod taps;
#[path = "texts.rs"]
mod texts;
#[path = "traces.rs"]
mod traces;
#[path = "wired.rs"]
mod wired;

use reference::{Answer, Refusal, Scenario, State, Step, SCRATCH_LEAST, TRACE_LEAST};
use std::sync::atomic::{AtomicU64, Ordering};
use texts::Random;

#[repr(C)]
struct Numbers {
    word: u32,
    one: u32,
    two: u32,
    three: u32,
}

extern "C" {
    fn channel_check(
        text: *const u8, text_len: usize, code: u32, scratch: *mut u64, scratch_len: usize, trace: *mut u8, trace_len: usize,
    ) -> Numbers;
}

fn fail(what: &str, text: &[u8], code: u32) -> ! {
    println!("FAILED: {}, channel code {}, on the text\n{}", what, code, String::from_utf8_lossy(text));
    std::process::exit(1);
}

// ---------------------------------------------------------------- one call

/// Words or bytes on either side of what is lent, which must stay as they were.
const BESIDE: usize = 16;

struct Buffers {
    scratch: Vec<u64>,
    trace: Vec<u8>,
    key: u64,
}

/// Each place of a buffer has a value of its own before the call.
fn mark(key: u64, place: usize) -> u64 {
    key.wrapping_mul(place as u64 + 1)
}

impl Buffers {
    fn lent(r: &mut Random, scratch_len: usize, trace_len: usize) -> Buffers {
        let key = r.next() | 1;
        let scratch = (0..scratch_len + 2 * BESIDE).map(|i| mark(key, i)).collect();
        let trace = (0..trace_len + 2 * BESIDE).map(|i| mark(key, i) as u8).collect();
        Buffers { scratch, trace, key }
    }

    /// The steps stand at the start of the trace, and everything else is as it was.
    fn trace_holds(&self, steps: &[u8]) -> bool {
        let written = BESIDE..BESIDE + steps.len();
        let kept = |i: usize| written.contains(&i) || self.trace[i] == mark(self.key, i) as u8;
        self.trace[written.clone()] == *steps && (0..self.trace.len()).all(kept)
    }

    /// What a call that may write steps leaves: the steps, the scratch, untouched on refusals 1 and 2, and the text that it was lent.
    fn left(&self, text: &[u8], lent: &[u8], code: u32, steps: &[u8], untouched: bool) {
        if !self.trace_holds(steps) {
            fail("trace", text, code);
        }
        if !self.scratch_holds(if untouched { 0 } else { SCRATCH_LEAST }) {
            fail("scratch", text, code);
        }
        if lent != text {
            fail("the text was written to", text, code);
        }
    }

    fn scratch_holds(&self, cleared: usize) -> bool {
        let zero = BESIDE..BESIDE + cleared;
        self.scratch.iter().enumerate().all(|(i, w)| *w == if zero.contains(&i) { 0 } else { mark(self.key, i) })
    }
}

fn bytes(steps: &[Step]) -> Vec<u8> {
    let pair = |t: &Step| match *t {
        Step::Send(m) => [0, m as u8],
        Step::Deliver(m) => [1, m as u8],
        Step::Consume(m) => [2, m as u8],
    };
    steps.iter().flat_map(pair).collect()
}

/// Mostly enough, exactly or more; now and then too little.
fn length(r: &mut Random, least: usize) -> usize {
    if r.one_in(40) {
        *r.pick(&[0, 1, least / 2, least - 1])
    } else {
        *r.pick(&[least, least, least + 1, least + 7, 2 * least])
    }
}

/// Calls the check and holds it to the reference; what it answered, and the bytes of its steps.
fn compare(r: &mut Random, text: &[u8], sheet: &Result<Scenario, Refusal>, code: u32) -> (Answer, Vec<u8>) {
    let (scratch_len, trace_len) = (length(r, SCRATCH_LEAST), length(r, TRACE_LEAST));
    let mut b = Buffers::lent(r, scratch_len, trace_len);
    let lent = text.to_vec();
    let expected = reference::answer(sheet, code, scratch_len, trace_len);
    let (scratch, trace) = (b.scratch[BESIDE..].as_mut_ptr(), b.trace[BESIDE..].as_mut_ptr());
    let got = unsafe { channel_check(lent.as_ptr(), lent.len(), code, scratch, scratch_len, trace, trace_len) };
    let (numbers, steps) = match &expected {
        Answer::Free => ([0, 0, 0, 0], vec![]),
        Answer::Locked { e, x, steps } => ([1, *e as u32, *x as u32, steps.len() as u32], bytes(steps)),
        Answer::Refused((n, line)) => ([2, *n, *line, 0], vec![]),
    };
    if [got.word, got.one, got.two, got.three] != numbers {
        println!("expected {:?}, got {:?}", numbers, [got.word, got.one, got.two, got.three]);
        fail("answer", text, code);
    }
    b.left(text, &lent, code, &steps, matches!(expected, Answer::Refused((1 | 2, _))));
    let written = b.trace[BESIDE..BESIDE + steps.len()].to_vec();
    (expected, written)
}

// ---------------------------------------------------------------- the step rules

/// The bytes handed back are an allowed order that ends stuck.
fn replay(trace: &[u8], text: &[u8], s: &Scenario, code: u32) {
    let mut state = State::start(s);
    for pair in trace.chunks(2) {
        match reference::told(pair).filter(|t| state.allowed(s, code, *t)) {
            Some(t) => state.take(s, t),
            None => fail("replay: a step is not allowed", text, code),
        }
    }
    if state.finished() || !state.steps(s, code).is_empty() {
        fail("replay: not stuck", text, code);
    }
}

/// The first step that is allowed, from one at random on and behind the last from the first; None where there is none.
fn allowed_from(r: &mut Random, s: &Scenario, state: &State, code: u32) -> Option<Step> {
    let all = 3 * s.messages.len();
    let from = r.below(all.max(1));
    let step = |i: usize| [Step::Send, Step::Deliver, Step::Consume][i % 3](i / 3);
    (0..all).map(|i| step((from + i) % all)).find(|t| state.allowed(s, code, *t))
}

/// An order of a free sheet, taken at random, finishes with three steps a message.
fn wander(r: &mut Random, text: &[u8], s: &Scenario, code: u32) {
    let mut state = State::start(s);
    let mut taken = 0;
    while let Some(t) = allowed_from(r, s, &state, code) {
        state.take(s, t);
        taken += 1;
    }
    if !state.finished() || taken != 3 * s.messages.len() {
        fail("a free sheet was stopped", text, code);
    }
}

// ---------------------------------------------------------------- all texts

const CODES: usize = 6;
const LIMITS: [&str; 4] = ["512 rows", "the most messages", "1,024 calls", "level 8"];

/// What was seen: a run in which some kind of answer never came has tried less than it says.
#[derive(Default)]
struct Seen {
    free: [u64; CODES],
    locked: [u64; CODES],
    refused: [u64; 12],
    limits: [u64; LIMITS.len()],
    replayed: u64,
    wandered: u64,
    searched: u64,
    traces: traces::Seen,
    choices: choices::Seen,
    monitors: monitors::Seen,
    cures: cures::Seen,
    wired: wired::Seen,
    dispatchers: dispatchers::Seen,
    senders: senders::Seen,
    taps: taps::Seen,
    holdings: holdings::Seen,
    rounds: rounds::Seen,
}

impl Seen {
    fn add(&mut self, o: &Seen) {
        let sums = |a: &mut [u64], b: &[u64]| a.iter_mut().zip(b).for_each(|(x, y)| *x += y);
        sums(&mut self.free, &o.free);
        sums(&mut self.locked, &o.locked);
        sums(&mut self.refused, &o.refused);
        sums(&mut self.limits, &o.limits);
        self.replayed += o.replayed;
        self.wandered += o.wandered;
        self.searched += o.searched;
        self.traces.add(&o.traces);
        self.choices.add(&o.choices);
        self.monitors.add(&o.monitors);
        self.cures.add(&o.cures);
        self.wired.add(&o.wired);
        self.dispatchers.add(&o.dispatchers);
        self.senders.add(&o.senders);
        self.taps.add(&o.taps);
        self.holdings.add(&o.holdings);
        self.rounds.add(&o.rounds);
    }

    fn limits_of(&mut self, s: &Scenario) {
        let at = [s.rows == reference::ROWS, s.messages.len() == reference::MESSAGES, s.calls == 1024, s.deepest == 8];
        at.iter().zip(self.limits.iter_mut()).for_each(|(hit, n)| *n += u64::from(*hit));
    }

    fn print(&self) {
        println!("free by code 0 to 5: {:?}", self.free);
        println!("locked by code 0 to 5: {:?}", self.locked);
        println!("refused by number 1 to 11: {:?}", &self.refused[1..]);
        println!("accepted at a limit, {}: {:?}", LIMITS.join(", "), self.limits);
        self.traces.print();
        self.choices.print();
        self.monitors.print();
        self.cures.print();
        self.wired.print();
        self.dispatchers.print();
        self.senders.print();
        self.taps.print();
        self.holdings.print();
        self.rounds.print();
        println!("traces replayed {}, free orders taken {}, sheets searched whole {}", self.replayed, self.wandered, self.searched);
    }

    fn whole(&self) -> bool {
        let eager = [0, 2, 4, 5].iter().all(|c| self.locked[*c] > 0);
        let some = |all: &[u64]| all.iter().all(|n| *n > 0);
        let judged = self.replayed * self.wandered * self.searched > 0;
        let calls = self.traces.whole() && self.choices.whole() && self.monitors.whole() && self.cures.whole() && self.wired.whole() && self.dispatchers.whole() && self.senders.whole() && self.taps.whole() && self.holdings.whole() && self.rounds.whole();
        eager && some(&self.free) && some(&self.refused[1..]) && some(&self.limits) && judged && calls
    }
}

/// The step rules' say on an accepted sheet's answer.
fn judge(r: &mut Random, seen: &mut Seen, text: &[u8], s: &Scenario, code: u32, steps: Option<&[u8]>, search: bool) {
    if let Some(steps) = steps {
        seen.locked[code as usize] += 1;
        replay(steps, text, s, code);
        seen.replayed += 1;
    } else {
        seen.free[code as usize] += 1;
        if s.messages.len() <= 40 || search {
            wander(r, text, s, code);
            seen.wandered += 1;
        }
    }
    if search && s.messages.len() <= 5 {
        if reference::can_stop(s, code) != steps.is_some() {
            fail("the answer is not what the whole search says", text, code);
        }
        seen.searched += 1;
    }
}

/// A text on a code that is no channel.
fn try_no_channel(r: &mut Random, seen: &mut Seen, text: &[u8], sheet: &Result<Scenario, Refusal>) {
    let code = *r.pick(&[6, 255, 256, u32::MAX]);
    if let (Answer::Refused((n, _)), _) = compare(r, text, sheet, code) {
        seen.refused[n as usize] += 1;
    }
}

/// The check on a channel, and now and then the check of a trace.
fn try_channel(r: &mut Random, seen: &mut Seen, text: &[u8], sheet: &Result<Scenario, Refusal>, code: u32, search: bool) {
    let (answer, trace) = compare(r, text, sheet, code);
    match (&answer, sheet) {
        (Answer::Refused((n, _)), _) => seen.refused[*n as usize] += 1,
        (Answer::Locked { .. }, Ok(s)) => judge(r, seen, text, s, code, Some(&trace), search),
        (Answer::Free, Ok(s)) => judge(r, seen, text, s, code, None, search),
        _ => fail("an answer to no sheet", text, code),
    }
    if r.one_in(4) {
        traces::try_traces(r, &mut seen.traces, text, sheet, code, &trace);
    }
}

/// The calls of the requests, each now and then.
fn try_requests(r: &mut Random, seen: &mut Seen, text: &[u8], sheet: &Result<Scenario, Refusal>) {
    if r.one_in(8) {
        choices::try_choices(r, &mut seen.choices, text);
    }
    if r.one_in(8) {
        monitors::try_monitors(r, &mut seen.monitors, text, sheet);
    }
    if r.one_in(8) {
        cures::try_cure(r, &mut seen.cures, text);
    }
    if r.one_in(8) {
        wired::try_wired(r, &mut seen.wired, text, sheet.as_ref().ok());
    }
    if r.one_in(64) {
        dispatchers::try_dispatcher(r, &mut seen.dispatchers);
    }
    if r.one_in(8) {
        senders::try_senders(r, &mut seen.senders, text);
    }
    if r.one_in(8) {
        taps::try_taps(r, &mut seen.taps, text);
    }
    if r.one_in(4) {
        holdings::try_holdings(r, &mut seen.holdings, text, sheet);
    }
    if r.one_in(4) {
        rounds::try_rounds(r, &mut seen.rounds, text, sheet);
    }
}

/// One text on all six channels, and now and then on a code that is none.
fn try_text(r: &mut Random, seen: &mut Seen) {
    let text = texts::text(r);
    let sheet = reference::sheet(&text);
    let search = r.one_in(8);
    if r.one_in(16) {
        try_no_channel(r, seen, &text, &sheet);
    }
    if let Ok(s) = &sheet {
        seen.limits_of(s);
    }
    for code in 0..CODES as u32 {
        try_channel(r, seen, &text, &sheet, code, search);
    }
    try_requests(r, seen, &text, &sheet);
}

fn main() {
    let number = |a: String| a.parse::<u64>().expect("usage: differential [TEXTS [SEED]]");
    let arguments: Vec<u64> = std::env::args().skip(1).map(number).collect();
    let time = std::time::SystemTime::now().duration_since(std::time::UNIX_EPOCH).map_or(1, |d| d.as_nanos() as u64);
    let (texts, seed) = (*arguments.first().unwrap_or(&200_000), *arguments.get(1).unwrap_or(&time));
    let threads = std::thread::available_parallelism().map_or(1, |n| n.get()).min(4);
    println!("differential: {} texts, seed {}", texts, seed);
    // each text has random numbers of its own, so a seed gives the same texts on any number of threads
    let next = AtomicU64::new(0);
    let work = || {
        let mut seen = Seen::default();
        loop {
            let i = next.fetch_add(1, Ordering::Relaxed);
            if i >= texts {
                return seen;
            }
            try_text(&mut Random::new(seed, i), &mut seen);
        }
    };
    let mut seen = Seen::default();
    dispatchers::try_limits(&mut seen.dispatchers);
    std::thread::scope(|all| {
        let started: Vec<_> = (0..threads).map(|_| all.spawn(work)).collect();
        started.into_iter().for_each(|t| seen.add(&t.join().expect("a thread of the test failed")));
    });
    seen.print();
    if !seen.whole() {
        println!("FAILED: some kind of answer never came");
        std::process::exit(1);
    }
    println!("differential: ok");
}
