//! Lists of steps and switches through the monitor's calls, held to the plain reference's own step rules: words, states field by field,
//! scratch; on large sheets a few calls, on their highest messages. And monitors of random bits, of which only the refusals, the scratch and what is handed back unchanged are promised.

use crate::reference::{self, Refusal, Scenario, State, Step, MESSAGES, ROW_WORDS as WIDTH, SCRATCH_LEAST};
use crate::texts::Random;
use crate::{bytes, fail, length, Buffers, BESIDE};

const BOARDS: usize = 16;

/// Sheets of more messages are large: a session on one is short, and takes one of so many highest steps.
const FOLLOWED_MOST: usize = 24;
const SHORT: usize = 60;
const HIGHEST: usize = 6;

#[repr(C)]
#[derive(Clone, Copy, Debug, PartialEq)]
struct Buffer {
    held: [u64; WIDTH],
}

#[repr(C)]
#[derive(Clone, Copy, Debug, PartialEq)]
struct Monitor {
    done: [u64; WIDTH],
    way: [u64; WIDTH],
    buffers: [Buffer; BOARDS],
    code: u32,
}

#[repr(C)]
#[derive(Clone, Copy, Debug)]
struct Answer {
    word: u32,
    one: u32,
    two: u32,
    next: Monitor,
}

extern "C" {
    fn monitor_open(text: *const u8, text_len: usize, code: u32, scratch: *mut u64, scratch_len: usize) -> Answer;
    fn monitor_step(
        state: Monitor, kind: u32, message: u32, text: *const u8, text_len: usize, scratch: *mut u64, scratch_len: usize,
    ) -> Answer;
    fn monitor_switch(state: Monitor, code: u32, text: *const u8, text_len: usize, scratch: *mut u64, scratch_len: usize) -> Answer;
    fn monitor_standing(state: Monitor, text: *const u8, text_len: usize, scratch: *mut u64, scratch_len: usize) -> Standing;
}

/// Where a run stands: finished, stuck, open or refused.
#[repr(C)]
#[derive(Clone, Copy, Debug, PartialEq)]
struct Standing {
    word: u32,
    one: u32,
    two: u32,
    waits: [u16; BOARDS],
}

const NO_WAITS: [u16; BOARDS] = [u16::MAX; BOARDS];

#[derive(Clone, Copy, Debug)]
enum Call {
    Open(u32),
    Step(u32, u32),
    Switch(u32),
}

const ZERO: Monitor = Monitor { done: [0; WIDTH], way: [0; WIDTH], buffers: [Buffer { held: [0; WIDTH] }; BOARDS], code: 0 };

fn marked(row: &mut [u64; WIDTH], x: usize) {
    row[x / 64] |= 1 << (x % 64);
}

/// The reference's state as the header lays a monitor out.
fn laid_out(s: &State, code: u32) -> Monitor {
    let mut m = ZERO;
    (0..s.done.len()).filter(|x| s.done[*x]).for_each(|x| marked(&mut m.done, x));
    s.under_way.iter().for_each(|k| marked(&mut m.way, 2 * k));
    for (b, held) in s.buffers.iter().enumerate() {
        held.iter().for_each(|k| marked(&mut m.buffers[b].held, 2 * k));
    }
    m.code = code;
    m
}

/// What was seen: by call and word, 14, switches with something under way, runs that were followed to their end, forged monitors, and steps taken
/// of messages in the upper half of a full sheet, and where runs stood.
#[derive(Default)]
pub struct Seen {
    words: [[u64; 3]; 3],
    fourteen: u64,
    under_way: u64,
    ended: u64,
    forged: u64,
    high: u64,
    stood: [u64; 3],
}

impl Seen {
    pub fn add(&mut self, o: &Seen) {
        for (a, b) in self.words.iter_mut().flatten().zip(o.words.iter().flatten()) {
            *a += b;
        }
        self.fourteen += o.fourteen;
        self.under_way += o.under_way;
        self.ended += o.ended;
        self.forged += o.forged;
        self.high += o.high;
        self.stood.iter_mut().zip(o.stood).for_each(|(a, b)| *a += b);
    }

    pub fn print(&self) {
        println!("monitors opened, stepped, switched, each taken, forbidden, refused: {:?}, refusal 14: {}", self.words, self.fourteen);
        println!("switched with messages under way {}, followed to the end {}, forged monitors {}", self.under_way, self.ended, self.forged);
        println!("runs found finished, stuck and open: {:?}", self.stood);
        println!("monitors' steps taken of messages from {} on: {}", MESSAGES / 2, self.high);
    }

    pub fn whole(&self) -> bool {
        let [open, step, switch] = self.words;
        let all = [open[0], open[2], step[0], step[1], step[2], switch[0], switch[2]].iter().all(|n| *n > 0);
        all && self.fourteen * self.under_way * self.ended * self.forged * self.high > 0 && self.stood.iter().all(|n| *n > 0)
    }
}

/// One call; the scratch is as the check leaves it, and the text is only read.
fn call(r: &mut Random, text: &[u8], sheet: &Result<Scenario, Refusal>, m: Monitor, c: Call, scratch_len: usize) -> Answer {
    let mut b = Buffers::lent(r, scratch_len, 0);
    let lent = text.to_vec();
    let (at, len, scratch) = (lent.as_ptr(), lent.len(), b.scratch[BESIDE..].as_mut_ptr());
    let (code, a) = unsafe {
        match c {
            Call::Open(code) => (code, monitor_open(at, len, code, scratch, scratch_len)),
            Call::Step(kind, message) => (m.code, monitor_step(m, kind, message, at, len, scratch, scratch_len)),
            Call::Switch(code) => (code, monitor_switch(m, code, at, len, scratch, scratch_len)),
        }
    };
    let refusal = reference::watchable(sheet, code, scratch_len).err();
    if let Some((number, line)) = refusal {
        let back = if matches!(c, Call::Open(_)) { ZERO } else { m };
        if [a.word, a.one, a.two] != [2, number, line] || a.next != back {
            println!("expected refusal {} {}, got {:?} on {:?}", number, line, a, c);
            fail("monitor: refusal", text, code);
        }
    }
    if !b.scratch_holds(if matches!(refusal, Some((1 | 2, _))) { 0 } else { SCRATCH_LEAST }) || lent != text {
        fail("monitor: scratch or text", text, code);
    }
    a
}

/// Where a monitor's run stands; the refusals and the scratch are looked at here.
fn stand(r: &mut Random, text: &[u8], sheet: &Result<Scenario, Refusal>, m: Monitor) -> Option<Standing> {
    let scratch_len = length(r, SCRATCH_LEAST);
    let mut b = Buffers::lent(r, scratch_len, 0);
    let lent = text.to_vec();
    let a = unsafe { monitor_standing(m, lent.as_ptr(), lent.len(), b.scratch[BESIDE..].as_mut_ptr(), scratch_len) };
    let refusal = reference::watchable(sheet, m.code, scratch_len).err();
    if !b.scratch_holds(if matches!(refusal, Some((1 | 2, _))) { 0 } else { SCRATCH_LEAST }) || lent != text {
        fail("standing: scratch or text", text, m.code);
    }
    let refused = refusal.map(|(number, line)| Standing { word: 3, one: number, two: line, waits: NO_WAITS });
    if refused.map_or(a.word > 2 || (a.word != 1 && a.waits != NO_WAITS), |e| a != e) {
        println!("got {:?}, refusal {:?}", a, refusal);
        fail("standing: refusal or waits", text, m.code);
    }
    if refusal.is_some() { None } else { Some(a) }
}

/// Where the rules say that a state stands.
fn standing(s: &Scenario, state: &State, code: u32) -> Standing {
    let stuck = !state.finished() && state.steps(s, code).is_empty();
    let word = if state.finished() { 0 } else { 2 - u32::from(stuck) };
    Standing { word, one: 0, two: 0, waits: if stuck { reference::waits_in(s, state) } else { NO_WAITS } }
}

fn told(kind: u32, message: u32) -> Option<Step> {
    let m = message as usize;
    match kind {
        0 => Some(Step::Send(m)),
        1 => Some(Step::Deliver(m)),
        2 => Some(Step::Consume(m)),
        _ => None,
    }
}

/// Mostly a step that is allowed, else any step, a wrong one, or a switch.
fn next_call(r: &mut Random, s: &Scenario, state: &State, code: u32) -> Call {
    let steps = state.steps(s, code); // by message
    let from = if s.messages.len() > FOLLOWED_MOST { steps.len().saturating_sub(HIGHEST) } else { 0 };
    match r.below(8) {
        0 => Call::Switch(*r.pick(&[0, 1, 2, 3, 4, 5, 5, 6, u32::MAX])),
        1 => Call::Step(*r.pick(&[0, 1, 2, 3, 255, u32::MAX]), *r.pick(&[0, 1, 2, MESSAGES as u32 - 1, MESSAGES as u32, 2 * MESSAGES as u32 - 1, u32::MAX])),
        _ if steps.is_empty() => Call::Switch(r.below(6) as u32),
        _ => {
            let pair = bytes(&[*r.pick(&steps[from..])]);
            Call::Step(u32::from(pair[0]), u32::from(pair[1]))
        }
    }
}

/// What the rules say of a call that is not refused for its code, scratch or sheet: the word, and the state behind it in `state` and `code`.
fn followed(s: &Scenario, state: &mut State, code: &mut u32, c: Call) -> [u32; 3] {
    match c {
        Call::Step(kind, message) => match told(kind, message).filter(|t| state.allowed(s, *code, *t)) {
            Some(t) => {
                state.take(s, t);
                [0, 0, 0]
            }
            None => [1, 0, 0],
        },
        Call::Switch(to) if state.bars(to) => [2, 14, 0],
        Call::Switch(to) => {
            *code = to;
            [0, 0, 0]
        }
        Call::Open(_) => panic!("opened twice"),
    }
}

/// A session on an accepted sheet: every state and word as the rules say.
fn session(r: &mut Random, seen: &mut Seen, text: &[u8], sheet: &Result<Scenario, Refusal>, s: &Scenario, opened: u32) {
    let (mut state, mut code) = (State::start(s), opened);
    let mut m = call(r, text, sheet, ZERO, Call::Open(code), SCRATCH_LEAST).next;
    let calls = if s.messages.len() > FOLLOWED_MOST { SHORT } else { 4 * s.messages.len() + 4 };
    for _ in 0..calls {
        let c = next_call(r, s, &state, code);
        let scratch_len = length(r, SCRATCH_LEAST);
        let a = call(r, text, sheet, m, c, scratch_len);
        let judged = if let Call::Switch(to) = c { to } else { code };
        if reference::watchable(sheet, judged, scratch_len).is_ok() {
            seen.under_way += u64::from(matches!(c, Call::Switch(_)) && !state.under_way.is_empty());
            let word = followed(s, &mut state, &mut code, c);
            if [a.word, a.one, a.two] != word {
                println!("expected {:?}, got {:?} on {:?}", word, a, c);
                fail("monitor: answer", text, code);
            }
        }
        if a.next != laid_out(&state, code) {
            fail("monitor: state", text, code);
        }
        seen.words[if let Call::Step(..) = c { 1 } else { 2 }][a.word as usize] += 1;
        seen.fourteen += u64::from(a.word == 2 && a.one == 14);
        seen.high += u64::from(matches!(c, Call::Step(_, m) if a.word == 0 && m as usize >= MESSAGES / 2));
        m = a.next;
        if let Some(got) = stand(r, text, sheet, m) {
            if got != standing(s, &state, code) {
                println!("expected {:?}, got {:?}", standing(s, &state, code), got);
                fail("standing: not what the rules say", text, code);
            }
            seen.stood[got.word as usize] += 1;
        }
    }
    seen.ended += u64::from(state.finished());
}

/// A monitor of random bits: refusals as ever, 14 from the state alone, and what is forbidden or refused is handed back as it was.
fn forge(r: &mut Random, seen: &mut Seen, text: &[u8], sheet: &Result<Scenario, Refusal>) {
    let mut m = ZERO;
    let sparse = r.one_in(2);
    let mut word = || if sparse { 1u64 << (r.next() % 64) & r.next() } else { r.next() << 32 | r.next() >> 8 };
    m.done = std::array::from_fn(|_| word());
    m.way = std::array::from_fn(|_| word());
    m.buffers.iter_mut().for_each(|b| b.held = std::array::from_fn(|_| word()));
    m.code = *r.pick(&[0, 1, 2, 3, 4, 5, 6, u32::MAX]);
    let sends = |row: &[u64; WIDTH]| row.iter().map(|w| (w & 0x5555_5555_5555_5555).count_ones()).sum::<u32>();
    let to = r.below(6) as u32;
    let a = call(r, text, sheet, m, Call::Switch(to), SCRATCH_LEAST);
    if sheet.is_ok() {
        let barred = (to != 1 && to != 3 && m.buffers.iter().any(|b| sends(&b.held) >= 2)) || (to == 5 && sends(&m.way) >= 2);
        if barred != (a.word == 2 && a.one == 14) || (barred && a.next != m) {
            fail("monitor: 14 from a forged state", text, to);
        }
    }
    let any = Call::Step(r.below(4) as u32, r.below(MESSAGES + 2) as u32);
    let a = call(r, text, sheet, m, any, SCRATCH_LEAST);
    if a.word != 0 && a.next != m {
        fail("monitor: forbidden or refused, and not handed back", text, m.code);
    }
    stand(r, text, sheet, m);
    seen.forged += 1;
}

pub fn try_monitors(r: &mut Random, seen: &mut Seen, text: &[u8], sheet: &Result<Scenario, Refusal>) {
    let code = r.below(7) as u32;
    let scratch_len = length(r, SCRATCH_LEAST);
    let a = call(r, text, sheet, ZERO, Call::Open(code), scratch_len);
    seen.words[0][a.word as usize] += 1;
    if let Ok(s) = reference::watchable(sheet, code, scratch_len) {
        if [a.word, a.one, a.two] != [0, 0, 0] || a.next != laid_out(&State::start(s), code) {
            fail("monitor: opened", text, code);
        }
        session(r, seen, text, sheet, s, code);
    } else {
        for c in [Call::Step(0, 0), Call::Switch(r.below(6) as u32)] {
            let a = call(r, text, sheet, ZERO, c, scratch_len);
            seen.words[if let Call::Step(..) = c { 1 } else { 2 }][a.word as usize] += 1;
        }
    }
    forge(r, seen, text, sheet);
}
