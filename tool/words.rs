//! Channels, messages with their boards and lines, events, races, and what boards wait for, in words.

use crate::face::{Lock, Message, Race, Refusal, Step, Verdict, Waits};
use crate::sheet::Sheet;

pub const CHANNEL_NAMES: [&str; 6] =
    ["eager free-running", "lazy free-running", "eager FIFO", "lazy FIFO", "synchronous, eager", "token ring, eager"];

/// The words that a command takes for a channel.
pub const CHANNEL_WORDS: [&str; 6] = ["free-running", "lazy-free-running", "fifo", "lazy-fifo", "synchronous", "token-ring"];

const STEP_WORDS: [&str; 3] = ["send", "deliver", "consume"];

pub const REFUSAL_WORDS: [&str; 21] = [
    "", "channel", "bench", "length", "heading", "row", "place", "absent", "depth", "calls", "messages", "circle", "trace", "choices", "switch",
    "rows", "jobs", "held", "table", "forbidden", "tap",
];

/// The code that a word names: digits, or a channel's name. The library judges the number.
pub fn channel_code(word: &str) -> Option<u32> {
    if !word.is_empty() && word.bytes().all(|b| b.is_ascii_digit()) {
        return word.parse().ok();
    }
    let plain = word.to_ascii_lowercase();
    let plain = plain.strip_prefix("eager-").unwrap_or(&plain);
    CHANNEL_WORDS.iter().position(|w| *w == plain).map(|p| p as u32)
}

pub fn channel(code: u32) -> String {
    match CHANNEL_NAMES.get(code as usize) {
        Some(name) => format!("channel {}, {}", code, name),
        None => format!("channel {}", code),
    }
}

pub fn step_word(kind: u8) -> Option<&'static str> {
    STEP_WORDS.get(usize::from(kind)).copied()
}

pub fn step_kind(word: &str) -> Option<u8> {
    STEP_WORDS.iter().position(|w| w.eq_ignore_ascii_case(word)).map(|p| p as u8)
}

pub fn step(s: Step) -> String {
    match step_word(s.kind) {
        Some(word) => format!("{} {}", word, s.message),
        None => format!("no step has the code {}", s.kind),
    }
}

pub fn refusal(r: Refusal) -> String {
    let word = REFUSAL_WORDS.get(r.number as usize).copied().unwrap_or("unknown");
    format!("refused {} ({})", r.number, word)
}

/// `send of message 0`
pub fn deed(event: usize) -> String {
    format!("{} of message {}", ["send", "receive"][event % 2], event / 2)
}

/// A number and its noun: `1 race`, `2 races`.
pub fn count(number: usize, noun: &str) -> String {
    format!("{} {}{}", number, noun, if number == 1 { "" } else { "s" })
}

/// The line of an answer as the paper prints it.
pub fn paper_line(code: u32, verdict: &Verdict) -> String {
    match verdict {
        Verdict::Free => format!("{} free 0 0 0", code),
        Verdict::Locked(l) => format!("{} {}", code, locked(l)),
        Verdict::Refused(r) => format!("{} {}", code, refused(*r)),
    }
}

pub fn locked(l: &Lock) -> String {
    format!("locked {} {} {}", l.message, l.event, l.steps.len())
}

pub fn refused(r: Refusal) -> String {
    format!("refused {} {} 0", r.number, r.line)
}

/// The messages of a walk, to name them by: with the numbers and lines of a sheet, or with the names, words and lines of the diagram that it was made from.
#[derive(Clone)]
pub struct Named {
    pub messages: Vec<Message>,
    boards: Vec<String>,
    labels: Vec<String>,
    line: &'static str,
    /// The messages of one round, where the exchange is repeated.
    round: Option<usize>,
}

impl Named {
    pub fn of(messages: Vec<Message>, sheet: &Sheet) -> Named {
        let mut named = Named { messages, boards: Vec::new(), labels: Vec::new(), line: "line", round: None };
        if let Some(drawn) = &sheet.drawn {
            named.boards = drawn.names.clone();
            named.line = "diagram line";
            for m in named.messages.iter_mut() {
                let (line, label) = drawn.rows.get(m.line.wrapping_sub(1)).cloned().unwrap_or_default();
                m.line = line;
                named.labels.push(label);
            }
        }
        named
    }

    /// The same boards and words, with the lines of another text of the same messages.
    pub fn in_text(&self, messages: Vec<Message>) -> Named {
        Named { messages, boards: self.boards.clone(), labels: self.labels.clone(), line: "line", round: None }
    }

    /// The messages of so many rounds, numbered on.
    pub fn repeated(&self, rounds: usize) -> Named {
        let mut named = self.clone();
        named.messages = self.messages.repeat(rounds);
        named.labels = std::iter::repeat(self.labels.clone()).take(rounds).flatten().collect();
        named.round = Some(self.messages.len());
        named
    }

    /// `board 1`, or its name.
    pub fn board_name(&self, board: usize) -> String {
        self.boards.get(board).cloned().unwrap_or_else(|| format!("board {}", board))
    }

    /// `message 4`, and its words if it has some: `message 4 "clamped"`
    pub fn short(&self, m: usize) -> String {
        format!("message {}{}", m, self.quoted(m))
    }

    fn place(&self, m: usize) -> String {
        match self.messages.get(m) {
            Some(t) => format!("{}{} to {}, {} {}", self.round_of(m), self.board_name(t.from), self.board_name(t.to), self.line, t.line),
            None => "not in the sheet".to_string(),
        }
    }

    /// `round 2, ` of a message of the second round, where the exchange is repeated
    fn round_of(&self, m: usize) -> String {
        self.round.filter(|n| *n > 0).map_or(String::new(), |n| format!("round {}, ", m / n + 1))
    }

    /// `message 4 (board 1 to board 0, line 7)`
    pub fn message(&self, m: usize) -> String {
        format!("{} ({})", self.short(m), self.place(m))
    }

    /// `send 4 (board 1 to board 0, line 7)`, and the message's words ahead of its place if it has some
    pub fn step(&self, s: Step) -> String {
        let m = usize::from(s.message);
        format!("{}{} ({})", step(s), self.quoted(m), self.place(m))
    }

    fn quoted(&self, m: usize) -> String {
        self.labels.get(m).filter(|l| !l.is_empty()).map_or(String::new(), |l| format!(" \"{}\"", l))
    }

    /// `message 1 (..), message 4 (..)`
    pub fn several(&self, messages: &[usize]) -> String {
        messages.iter().map(|m| self.message(*m)).collect::<Vec<_>>().join(", ")
    }

    fn deed(&self, e: usize) -> String {
        format!("{} of {}", ["send", "receive"][e % 2], self.short(e / 2))
    }

    /// `event 1 (receive of message 0)`
    pub fn event_short(&self, e: usize) -> String {
        format!("event {} ({})", e, self.deed(e))
    }

    /// `event 1 (receive of message 0, board 0 to board 1, line 3)`
    pub fn event(&self, e: usize) -> String {
        format!("event {} ({}, {})", e, self.deed(e), self.place(e / 2))
    }

    /// The board that an event is on.
    pub fn board(&self, e: usize) -> usize {
        let m = &self.messages[e / 2];
        if e % 2 == 0 {
            m.from
        } else {
            m.to
        }
    }

    pub fn race(&self, r: Race) -> String {
        format!("{} races with {}", self.message(r.message), self.event(r.event))
    }

    /// The order that a cure gives up for a race.
    pub fn given_up(&self, r: Race) -> String {
        format!("{} before {}", self.event(r.event), self.event(2 * r.message + 1))
    }

    /// The messages that each board's buffer holds after steps that are allowed.
    pub fn held(&self, steps: &[Step]) -> Vec<Vec<usize>> {
        let mut held = vec![Vec::new(); crate::face::BOARDS];
        for s in steps {
            let m = usize::from(s.message);
            let to = self.messages.get(m).map_or(0, |t| t.to);
            match s.kind {
                1 => held[to].push(m),
                2 => held[to].retain(|h| *h != m),
                _ => {}
            }
        }
        held.iter_mut().for_each(|h| h.sort_unstable());
        held
    }

    /// `board 1 holds message 1 and waits for event 1 (receive of message 0)`
    pub fn jam(&self, board: usize, held: usize, event: usize) -> String {
        format!("{} holds {} and waits for {}", self.board_name(board), self.short(held), self.event_short(event))
    }

    /// A sentence for each board that waits, and then the messages that the sentences name.
    pub fn stuck(&self, waits: &Waits, held: &[Vec<usize>]) -> Vec<String> {
        let (mut lines, mut named) = (Vec::new(), Vec::new());
        for (board, wait) in waits.iter().enumerate() {
            if let (Some(e), Some(m)) = (wait, held[board].first()) {
                lines.push(self.jam(board, *m, *e));
                named.extend([*m, e / 2]);
            }
        }
        named.sort_unstable();
        named.dedup();
        lines.extend(named.iter().map(|m| self.message(*m)));
        lines
    }
}
