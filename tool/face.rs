//! The C face of the library, declared once, and a safe function for each call: slices in, an enum out.
//! All that is `unsafe` in the tool stands here.

use std::os::raw::c_int;
use std::sync::atomic::{AtomicU8, Ordering};

pub const MESSAGES: usize = 256;
pub const EVENTS: usize = 2 * MESSAGES;
pub const BOARDS: usize = 16;
pub const CHANNELS: u32 = 6;
pub const TEXT_BYTES: usize = 8192;
pub const TRACE_BYTES: usize = 2 * 3 * MESSAGES;
pub const PLACES: usize = 8;
const ROW_WORDS: usize = EVENTS / 64;
const SCRATCH_WORDS: usize = EVENTS * ROW_WORDS;
const NO_WAIT: u16 = u16::MAX;

#[repr(C)]
#[derive(Clone, Copy)]
struct CheckAnswer {
    word: u32,
    one: u32,
    two: u32,
    three: u32,
}

#[repr(C)]
struct RoundsAnswer {
    word: u32,
    one: u32,
    two: u32,
    three: u32,
    rounds: u32,
}

#[repr(C)]
struct ThreeAnswer {
    word: u32,
    one: u32,
    two: u32,
}

#[repr(C)]
struct WaitsAnswer {
    word: u32,
    one: u32,
    two: u32,
    waits: [u16; BOARDS],
}

#[repr(C)]
struct ChoiceAnswer {
    word: u32,
    one: u32,
    two: u32,
    three: u32,
    length: u32,
    choices: u32,
}

/// The state of one run, as the library hands it back.
#[repr(C)]
#[derive(Clone, Copy)]
pub struct Monitor {
    done: [u64; ROW_WORDS],
    way: [u64; ROW_WORDS],
    buffers: [[u64; ROW_WORDS]; BOARDS],
    code: u32,
}

#[repr(C)]
struct MonitorAnswer {
    word: u32,
    one: u32,
    two: u32,
    next: Monitor,
}

#[repr(C)]
#[derive(Clone, Copy)]
struct Job {
    number: u32,
    turns: u32,
    count: u16,
    place: u8,
    code: u8,
}

#[repr(C)]
#[derive(Clone, Copy)]
struct Queue {
    jobs: [Job; PLACES],
    held: u32,
}

#[repr(C)]
#[derive(Clone, Copy)]
struct FoundRace {
    found: u32,
    message: u32,
    event: u32,
}

#[repr(C)]
#[derive(Clone, Copy)]
struct Dispatcher {
    queue: Queue,
    given: u32,
    races: [FoundRace; PLACES],
    boards: [[u8; EVENTS]; PLACES],
}

#[repr(C)]
struct DispatcherAnswer {
    word: u32,
    one: u32,
    two: u32,
    answer: CheckAnswer,
    next: Dispatcher,
}

#[rustfmt::skip]
extern "C" {
    fn channel_check(text: *const u8, text_len: usize, code: u32, scratch: *mut u64, scratch_len: usize, trace: *mut u8, trace_len: usize) -> CheckAnswer;
    fn rounds_check(text: *const u8, text_len: usize, code: u32, scratch: *mut u64, scratch_len: usize, trace: *mut u8, trace_len: usize) -> RoundsAnswer;
    fn trace_check(text: *const u8, text_len: usize, code: u32, scratch: *mut u64, scratch_len: usize, trace: *const u8, trace_len: usize) -> WaitsAnswer;
    fn choice_check(text: *const u8, text_len: usize, code: u32, scratch: *mut u64, scratch_len: usize, trace: *mut u8, trace_len: usize) -> ChoiceAnswer;
    fn monitor_open(text: *const u8, text_len: usize, code: u32, scratch: *mut u64, scratch_len: usize) -> MonitorAnswer;
    fn monitor_step(state: Monitor, kind: u32, message: u32, text: *const u8, text_len: usize, scratch: *mut u64, scratch_len: usize) -> MonitorAnswer;
    fn monitor_switch(state: Monitor, code: u32, text: *const u8, text_len: usize, scratch: *mut u64, scratch_len: usize) -> MonitorAnswer;
    fn monitor_standing(state: Monitor, text: *const u8, text_len: usize, scratch: *mut u64, scratch_len: usize) -> WaitsAnswer;
    fn cure_sheet(text: *const u8, text_len: usize, scratch: *mut u64, scratch_len: usize, output: *mut u8, output_len: usize) -> ThreeAnswer;
    fn dispatcher_empty() -> Dispatcher;
    fn dispatcher_admit(state: Dispatcher, sheets: *const u8, sheets_len: usize, lengths: *const u32, lengths_len: usize, codes: *const u32, codes_len: usize,
        words: *mut u64, words_len: usize) -> DispatcherAnswer;
    fn dispatcher_turn(state: Dispatcher, sheets: *const u8, sheets_len: usize, lengths: *const u32, lengths_len: usize, codes: *const u32, codes_len: usize,
        words: *mut u64, words_len: usize, trace: *mut u8, trace_len: usize) -> DispatcherAnswer;
    fn senders_check(table: *const u8, table_len: usize) -> CheckAnswer;
    fn permitted_check(text: *const u8, text_len: usize, code: u32, scratch: *mut u64, scratch_len: usize, trace: *mut u8, trace_len: usize,
        table: *const u8, table_len: usize) -> CheckAnswer;
    fn taps_check(text: *const u8, text_len: usize, scratch: *mut u64, scratch_len: usize, first: *const u16, first_len: usize,
        second: *const u16, second_len: usize, output: *mut u16, output_len: usize) -> ThreeAnswer;
    fn sheet_messages(text: *const u8, text_len: usize, scratch: *mut u64, scratch_len: usize, output: *mut u16, output_len: usize) -> ThreeAnswer;
    fn sheet_races(text: *const u8, text_len: usize, code: u32, scratch: *mut u64, scratch_len: usize, output: *mut u16, output_len: usize) -> ThreeAnswer;
    fn channel_check_version() -> u32;
    fn isatty(file: c_int) -> c_int;
    fn fcntl(file: c_int, command: c_int) -> c_int;
}

/// A refusal: its number, and its line, 0 where it has none.
#[derive(Clone, Copy)]
pub struct Refusal {
    pub number: u32,
    pub line: u32,
}

/// A step of a trace: its code (0 send, 1 deliver, 2 consume) and its message.
#[derive(Clone, Copy, PartialEq, Eq)]
pub struct Step {
    pub kind: u8,
    pub message: u8,
}

/// A locked sheet: the race's message, the event that it races with, and the steps that stop the boards.
pub struct Lock {
    pub message: usize,
    pub event: usize,
    pub steps: Vec<Step>,
}

pub enum Verdict {
    Free,
    Locked(Lock),
    Refused(Refusal),
}

/// What is so of a sheet however often it is repeated, or the fewest rounds that lock.
pub enum Rounds {
    Free,
    Locked { lock: Lock, rounds: usize },
}

/// The event that each board waits for, if any.
pub type Waits = [Option<usize>; BOARDS];

pub enum Standing {
    Finished,
    Stuck(Waits),
    Open,
    NotAllowed(usize),
}

pub enum Choices {
    Free,
    Locked { lock: Lock, length: u32, second: u32 },
    Refused(Refusal),
}

pub enum Taken {
    Taken(Box<Monitor>),
    Forbidden,
    Refused(Refusal),
}

pub enum Senders {
    Sound,
    Gap(u32),
    Clash { pair: u32, first: u32, second: u32 },
    Refused(Refusal),
}

pub enum Taps {
    Fit(Vec<usize>),
    Clash(usize),
    Refused(Refusal),
}

/// A message of the walk: the line of its M row, its sender and its receiver.
#[derive(Clone, Copy)]
pub struct Message {
    pub line: usize,
    pub from: usize,
    pub to: usize,
}

/// A message and the event that it races with.
#[derive(Clone, Copy)]
pub struct Race {
    pub message: usize,
    pub event: usize,
}

fn refusal(one: u32, two: u32) -> Refusal {
    Refusal { number: one, line: two }
}

fn steps(trace: &[u8], count: u32) -> Vec<Step> {
    trace.chunks_exact(2).take(count as usize).map(|b| Step { kind: b[0], message: b[1] }).collect()
}

fn verdict(a: CheckAnswer, trace: &[u8]) -> Verdict {
    match a.word {
        0 => Verdict::Free,
        1 => Verdict::Locked(Lock { message: a.one as usize, event: a.two as usize, steps: steps(trace, a.three) }),
        _ => Verdict::Refused(refusal(a.one, a.two)),
    }
}

fn waits(numbers: [u16; BOARDS]) -> Waits {
    numbers.map(|n| if n == NO_WAIT { None } else { Some(usize::from(n)) })
}

pub fn check(text: &[u8], code: u32) -> Verdict {
    let (mut scratch, mut trace) = ([0u64; SCRATCH_WORDS], [0u8; TRACE_BYTES]);
    let a = unsafe { channel_check(text.as_ptr(), text.len(), code, scratch.as_mut_ptr(), SCRATCH_WORDS, trace.as_mut_ptr(), TRACE_BYTES) };
    verdict(a, &trace)
}

pub fn rounds(text: &[u8], code: u32) -> Result<Rounds, Refusal> {
    let (mut scratch, mut trace) = ([0u64; SCRATCH_WORDS], [0u8; TRACE_BYTES]);
    let a = unsafe { rounds_check(text.as_ptr(), text.len(), code, scratch.as_mut_ptr(), SCRATCH_WORDS, trace.as_mut_ptr(), TRACE_BYTES) };
    match a.word {
        0 => Ok(Rounds::Free),
        1 => {
            let lock = Lock { message: a.one as usize, event: a.two as usize, steps: steps(&trace, a.three) };
            Ok(Rounds::Locked { lock, rounds: a.rounds as usize })
        }
        _ => Err(refusal(a.one, a.two)),
    }
}

pub fn permitted(text: &[u8], code: u32, table: &[u8]) -> Verdict {
    let (mut scratch, mut trace) = ([0u64; SCRATCH_WORDS], [0u8; TRACE_BYTES]);
    let a = unsafe {
        permitted_check(
            text.as_ptr(),
            text.len(),
            code,
            scratch.as_mut_ptr(),
            SCRATCH_WORDS,
            trace.as_mut_ptr(),
            TRACE_BYTES,
            table.as_ptr(),
            table.len(),
        )
    };
    verdict(a, &trace)
}

pub fn replay(text: &[u8], code: u32, trace: &[u8]) -> Result<Standing, Refusal> {
    let mut scratch = [0u64; SCRATCH_WORDS];
    let a = unsafe { trace_check(text.as_ptr(), text.len(), code, scratch.as_mut_ptr(), SCRATCH_WORDS, trace.as_ptr(), trace.len()) };
    match a.word {
        0 => Ok(Standing::Finished),
        1 => Ok(Standing::Stuck(waits(a.waits))),
        2 => Ok(Standing::Open),
        3 => Ok(Standing::NotAllowed(a.one as usize)),
        _ => Err(refusal(a.one, a.two)),
    }
}

pub fn choices(text: &[u8], code: u32) -> Choices {
    let (mut scratch, mut trace) = ([0u64; SCRATCH_WORDS], [0u8; TRACE_BYTES]);
    let a = unsafe { choice_check(text.as_ptr(), text.len(), code, scratch.as_mut_ptr(), SCRATCH_WORDS, trace.as_mut_ptr(), TRACE_BYTES) };
    match a.word {
        0 => Choices::Free,
        1 => {
            let lock = Lock { message: a.one as usize, event: a.two as usize, steps: steps(&trace, a.three) };
            Choices::Locked { lock, length: a.length, second: a.choices }
        }
        _ => Choices::Refused(refusal(a.one, a.two)),
    }
}

fn taken(a: MonitorAnswer) -> Taken {
    match a.word {
        0 => Taken::Taken(Box::new(a.next)),
        1 => Taken::Forbidden,
        _ => Taken::Refused(refusal(a.one, a.two)),
    }
}

impl Monitor {
    pub fn open(text: &[u8], code: u32) -> Taken {
        let mut scratch = [0u64; SCRATCH_WORDS];
        taken(unsafe { monitor_open(text.as_ptr(), text.len(), code, scratch.as_mut_ptr(), SCRATCH_WORDS) })
    }

    pub fn step(&self, kind: u32, message: u32, text: &[u8]) -> Taken {
        let mut scratch = [0u64; SCRATCH_WORDS];
        taken(unsafe { monitor_step(*self, kind, message, text.as_ptr(), text.len(), scratch.as_mut_ptr(), SCRATCH_WORDS) })
    }

    pub fn switch(&self, code: u32, text: &[u8]) -> Taken {
        let mut scratch = [0u64; SCRATCH_WORDS];
        taken(unsafe { monitor_switch(*self, code, text.as_ptr(), text.len(), scratch.as_mut_ptr(), SCRATCH_WORDS) })
    }

    pub fn standing(&self, text: &[u8]) -> Result<Standing, Refusal> {
        let mut scratch = [0u64; SCRATCH_WORDS];
        let a = unsafe { monitor_standing(*self, text.as_ptr(), text.len(), scratch.as_mut_ptr(), SCRATCH_WORDS) };
        match a.word {
            0 => Ok(Standing::Finished),
            1 => Ok(Standing::Stuck(waits(a.waits))),
            2 => Ok(Standing::Open),
            _ => Err(refusal(a.one, a.two)),
        }
    }

    pub fn code(&self) -> u32 {
        self.code
    }

    pub fn is_done(&self, event: usize) -> bool {
        has(&self.done, event)
    }

    pub fn is_under_way(&self, message: usize) -> bool {
        has(&self.way, 2 * message)
    }

    pub fn is_held(&self, board: usize, message: usize) -> bool {
        has(&self.buffers[board], 2 * message)
    }

    pub fn under_way(&self) -> Vec<usize> {
        (0..MESSAGES).filter(|m| self.is_under_way(*m)).collect()
    }

    pub fn held(&self, board: usize) -> Vec<usize> {
        (0..MESSAGES).filter(|m| self.is_held(board, *m)).collect()
    }
}

fn has(row: &[u64; ROW_WORDS], event: usize) -> bool {
    event < EVENTS && (row[event / 64] >> (event % 64)) & 1 == 1
}

pub fn cure(text: &[u8]) -> Result<Vec<u8>, Refusal> {
    let mut scratch = [0u64; SCRATCH_WORDS];
    let mut output = vec![0u8; TEXT_BYTES];
    let a = unsafe { cure_sheet(text.as_ptr(), text.len(), scratch.as_mut_ptr(), SCRATCH_WORDS, output.as_mut_ptr(), TEXT_BYTES) };
    if a.word != 0 {
        return Err(refusal(a.one, a.two));
    }
    output.truncate(a.one as usize);
    Ok(output)
}

pub fn senders(table: &[u8]) -> Senders {
    let a = unsafe { senders_check(table.as_ptr(), table.len()) };
    match a.word {
        0 => Senders::Sound,
        1 => Senders::Gap(a.one),
        2 => Senders::Clash { pair: a.one, first: a.two, second: a.three },
        _ => Senders::Refused(refusal(a.one, a.two)),
    }
}

pub fn taps(text: &[u8], first: &[u16], second: &[u16]) -> Taps {
    let (mut scratch, mut output) = ([0u64; SCRATCH_WORDS], [0u16; EVENTS]);
    let a = unsafe {
        taps_check(
            text.as_ptr(),
            text.len(),
            scratch.as_mut_ptr(),
            SCRATCH_WORDS,
            first.as_ptr(),
            first.len(),
            second.as_ptr(),
            second.len(),
            output.as_mut_ptr(),
            EVENTS,
        )
    };
    match a.word {
        0 => Taps::Fit(output.iter().take(a.one as usize).map(|e| usize::from(*e)).collect()),
        1 => Taps::Clash(a.one as usize),
        _ => Taps::Refused(refusal(a.one, a.two)),
    }
}

pub fn messages(text: &[u8]) -> Result<Vec<Message>, Refusal> {
    let (mut scratch, mut output) = ([0u64; SCRATCH_WORDS], [0u16; 3 * MESSAGES]);
    let a = unsafe { sheet_messages(text.as_ptr(), text.len(), scratch.as_mut_ptr(), SCRATCH_WORDS, output.as_mut_ptr(), output.len()) };
    if a.word != 0 {
        return Err(refusal(a.one, a.two));
    }
    let wide = |n: u16| usize::from(n);
    Ok(output.chunks_exact(3).take(a.one as usize).map(|m| Message { line: wide(m[0]), from: wide(m[1]), to: wide(m[2]) }).collect())
}

pub fn races(text: &[u8], code: u32) -> Result<Vec<Race>, Refusal> {
    let mut scratch = [0u64; SCRATCH_WORDS];
    // a race is a message and an event: this holds all that there can be
    let mut output = vec![0u16; 2 * MESSAGES * EVENTS];
    let a = unsafe { sheet_races(text.as_ptr(), text.len(), code, scratch.as_mut_ptr(), SCRATCH_WORDS, output.as_mut_ptr(), output.len()) };
    if a.word != 0 {
        return Err(refusal(a.one, a.two));
    }
    Ok(output.chunks_exact(2).take(a.two as usize).map(|r| Race { message: usize::from(r[0]), event: usize::from(r[1]) }).collect())
}

pub fn version() -> u32 {
    unsafe { channel_check_version() }
}

pub enum Turn {
    Idle,
    Unanswered,
    Answered { number: u32, verdict: Verdict },
    Refused(Refusal),
}

/// A dispatcher with the places that every call of it is lent.
pub struct Dispatch {
    state: Dispatcher,
    sheets: Vec<u8>,
    lengths: [u32; PLACES],
    codes: [u32; PLACES],
    words: Vec<u64>,
    taken: [Option<u32>; PLACES],
}

impl Dispatch {
    pub fn new() -> Dispatch {
        Dispatch {
            state: unsafe { dispatcher_empty() },
            sheets: vec![0; PLACES * TEXT_BYTES],
            lengths: [0; PLACES],
            codes: [0; PLACES],
            words: vec![0; PLACES * SCRATCH_WORDS],
            taken: [None; PLACES],
        }
    }

    /// The new job's number and place.
    pub fn admit(&mut self, text: &[u8], code: u32) -> Result<(u32, usize), Refusal> {
        let free = self.taken.iter().position(|t| t.is_none());
        if let Some(p) = free {
            let kept = text.len().min(TEXT_BYTES);
            self.sheets[p * TEXT_BYTES..p * TEXT_BYTES + kept].copy_from_slice(&text[..kept]);
            self.lengths[p] = u32::try_from(text.len()).unwrap_or(u32::MAX);
            self.codes[p] = code;
        }
        let a = unsafe {
            dispatcher_admit(
                self.state,
                self.sheets.as_ptr(),
                self.sheets.len(),
                self.lengths.as_ptr(),
                PLACES,
                self.codes.as_ptr(),
                PLACES,
                self.words.as_mut_ptr(),
                self.words.len(),
            )
        };
        self.state = a.next;
        if a.word != 0 {
            return Err(refusal(a.one, a.two));
        }
        let place = a.two as usize % PLACES;
        self.taken[place] = Some(a.one);
        Ok((a.one, place))
    }

    pub fn turn(&mut self) -> Turn {
        let mut trace = [0u8; TRACE_BYTES];
        let a = unsafe {
            dispatcher_turn(
                self.state,
                self.sheets.as_ptr(),
                self.sheets.len(),
                self.lengths.as_ptr(),
                PLACES,
                self.codes.as_ptr(),
                PLACES,
                self.words.as_mut_ptr(),
                self.words.len(),
                trace.as_mut_ptr(),
                TRACE_BYTES,
            )
        };
        self.state = a.next;
        match a.word {
            1 => Turn::Idle,
            2 => Turn::Unanswered,
            3 => {
                self.taken.iter_mut().filter(|t| **t == Some(a.one)).for_each(|t| *t = None);
                Turn::Answered { number: a.one, verdict: verdict(a.answer, &trace) }
            }
            _ => Turn::Refused(refusal(a.one, a.two)),
        }
    }
}

pub fn is_terminal(file: i32) -> bool {
    unsafe { isatty(file) == 1 }
}

const F_GETFD: c_int = 1;
static CLOSED: AtomicU8 = AtomicU8::new(0);

// Rust opens /dev/null in place of a standard file that is closed: this notes it ahead of that, so that it can be told.
extern "C" fn note_closed() {
    for file in 0..3 {
        if unsafe { fcntl(file, F_GETFD) } < 0 {
            CLOSED.fetch_or(1 << file, Ordering::Relaxed);
        }
    }
}

#[used]
#[link_section = ".init_array"]
static NOTE_CLOSED: extern "C" fn() = note_closed;

/// Whether a standard file (0 input, 1 output, 2 errors) was closed when the program began.
pub fn was_closed(file: u8) -> bool {
    CLOSED.load(Ordering::Relaxed) >> file & 1 == 1
}
