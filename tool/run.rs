//! Why a step of a run is forbidden: the rule and the message in the way, looked for in the state that the library handed back.
//! What comes before what is asked of the library, by `taps_check`.

use crate::face::{self, Message, Monitor, Taken, Taps};
use crate::words::{self, Named};

/// Which rules a channel adds, in the words of the paper's table.
struct Rules {
    eager: bool,
    in_order: bool,
    synchronous: bool,
    one_at_a_time: bool,
}

fn rules(code: u32) -> Rules {
    Rules { eager: matches!(code, 0 | 2 | 4 | 5), in_order: matches!(code, 2 | 3), synchronous: code == 4, one_at_a_time: code == 5 }
}

/// Whether some event of a list comes before an event: a course in which it stands ahead of them all does not fit then.
/// The list is in the order of a course, so that its own order never is the reason.
fn some_before(text: &[u8], list: &[usize], event: usize) -> bool {
    let mut tap = vec![event as u16];
    tap.extend(list.iter().filter(|x| **x != event).map(|x| *x as u16));
    matches!(face::taps(text, &tap, &[]), Taps::Clash(_))
}

/// The lowest of some events that comes before an event.
fn lowest_before(text: &[u8], events: &[usize], event: usize) -> Option<usize> {
    let course = match face::taps(text, &[], &[]) {
        Taps::Fit(c) => c,
        _ => return None,
    };
    let in_course = |few: &[usize]| -> Vec<usize> { course.iter().copied().filter(|x| few.contains(x)).collect() };
    if !some_before(text, &in_course(events), event) {
        return None;
    }
    let mut few = events.to_vec();
    few.sort_unstable();
    while few.len() > 1 {
        let (low, high) = few.split_at(few.len() / 2);
        few = if some_before(text, &in_course(low), event) { low.to_vec() } else { high.to_vec() };
    }
    few.first().copied()
}

/// Whether the rules allow a step in a state.
pub fn is_allowed(state: &Monitor, kind: u8, message: usize, text: &[u8]) -> bool {
    matches!(state.step(u32::from(kind), message as u32, text), Taken::Taken(_))
}

/// The steps that are allowed in a state.
pub fn allowed(state: &Monitor, text: &[u8], messages: usize) -> Vec<String> {
    let mut out = Vec::new();
    for (kind, word) in ["send", "deliver", "consume"].iter().enumerate() {
        out.extend((0..messages).filter(|m| is_allowed(state, kind as u8, *m, text)).map(|m| format!("{} {}", word, m)));
    }
    out
}

/// A run's sheet and state, to say why a step of it is forbidden.
pub struct Run<'a> {
    pub text: &'a [u8],
    pub named: &'a Named,
    pub state: &'a Monitor,
}

impl Run<'_> {
    pub fn why_forbidden(&self, kind: u32, message: usize) -> String {
        let of = match self.named.messages.get(message) {
            Some(m) => *m,
            None => return format!("message {} is unknown: the sheet has {}", message, words::count(self.named.messages.len(), "message")),
        };
        let found = match kind {
            0 => self.against_send(message, of),
            1 => self.against_delivery(message, of),
            2 => self.against_consumption(message, of),
            _ => Some(format!("no step has the code {}", kind)),
        };
        found.unwrap_or_else(|| "the rules of the channel forbid it".to_string())
    }

    fn against_send(&self, m: usize, of: Message) -> Option<String> {
        if self.state.is_done(2 * m) {
            return Some(format!("{} is sent already", self.named.message(m)));
        }
        let r = rules(self.state.code());
        self.not_ready(2 * m)
            .or_else(|| self.full(of.from, r.eager))
            .or_else(|| if r.one_at_a_time { self.taken() } else { None })
            .or_else(|| if r.synchronous { self.earlier(2 * m + 1, None) } else { None })
    }

    fn against_delivery(&self, m: usize, of: Message) -> Option<String> {
        if !self.state.is_under_way(m) {
            let why = if self.state.is_done(2 * m) { "it is delivered already" } else { "it is not sent yet" };
            return Some(format!("{} is not under way: {}", self.named.message(m), why));
        }
        let r = rules(self.state.code());
        self.full(of.to, r.eager)
            .or_else(|| if r.in_order { self.earlier(2 * m, Some(of.to)) } else { None })
            .or_else(|| if r.one_at_a_time { self.other(m) } else { None })
    }

    fn against_consumption(&self, m: usize, of: Message) -> Option<String> {
        if self.state.is_done(2 * m + 1) {
            return Some(format!("{} is consumed already", self.named.message(m)));
        }
        if !self.state.is_held(of.to, m) {
            return Some(format!("{} is not in the buffer of {}", self.named.message(m), self.named.board_name(of.to)));
        }
        self.not_ready(2 * m + 1)
    }

    /// The lowest event of the board that has to be done first.
    fn not_ready(&self, event: usize) -> Option<String> {
        let board = self.named.board(event);
        let events = 0..2 * self.named.messages.len();
        let left: Vec<usize> = events.filter(|x| *x != event && self.named.board(*x) == board && !self.state.is_done(*x)).collect();
        let first = lowest_before(self.text, &left, event)?;
        Some(format!("{} is not ready: {} waits for {}", self.named.event(event), self.named.board_name(board), self.named.event(first)))
    }

    fn full(&self, board: usize, eager: bool) -> Option<String> {
        let m = *self.state.held(board).first().filter(|_| eager)?;
        Some(format!("the buffer of {} is full: it holds {}", self.named.board_name(board), self.named.message(m)))
    }

    fn taken(&self) -> Option<String> {
        let m = *self.state.under_way().first()?;
        Some(format!("the channel is taken: {} is under way", self.named.message(m)))
    }

    fn other(&self, m: usize) -> Option<String> {
        let f = self.state.under_way().into_iter().find(|f| *f != m)?;
        Some(format!("the channel is taken: {} is under way too", self.named.message(f)))
    }

    /// An earlier message under way, to a board or to any.
    fn earlier(&self, event: usize, to: Option<usize>) -> Option<String> {
        let goes = |f: usize| to.map_or(true, |b| self.named.messages.get(f).map_or(false, |t| t.to == b));
        let sends: Vec<usize> = self.state.under_way().into_iter().filter(|f| goes(*f)).map(|f| 2 * f).filter(|s| *s != event).collect();
        let first = lowest_before(self.text, &sends, event)?;
        Some(format!("an earlier message is under way: {}", self.named.message(first / 2)))
    }
}
