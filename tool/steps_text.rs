//! Steps as text, one a line. Carriage returns, tabs and more spaces don't matter, and what `steps` prints besides its steps is passed over.

use crate::words;

pub enum Line {
    Step(u8, u32),
    Switch(u32),
    Ask,
    Remark,
    Unknown,
}

/// The first words of lines that `steps`, `choices` and `replay` print besides steps.
const REMARKS: [&str; 8] = ["board", "message", "A", "choice", "stuck", "finished", "open", "#"];
const ANSWERS: [&str; 3] = ["free", "locked", "refused"];

/// Whether a trace is text: the bytes of a trace begin with a step code, which no text has.
pub fn is_text(bytes: &[u8]) -> bool {
    !bytes.is_empty() && bytes.iter().all(|b| b.is_ascii_graphic() || b.is_ascii_whitespace())
}

pub fn line(bytes: &[u8]) -> Line {
    let text = String::from_utf8_lossy(bytes);
    let words: Vec<&str> = text.split_ascii_whitespace().collect();
    match words[..] {
        [] => Line::Remark,
        ["?"] => Line::Ask,
        [first, ..] if REMARKS.contains(&first) => Line::Remark,
        [code, answer, _, _, _] if words::channel_code(code).is_some() && ANSWERS.contains(&answer) => Line::Remark,
        [word, number] if word.eq_ignore_ascii_case("switch") => words::channel_code(number).map_or(Line::Unknown, Line::Switch),
        [word, number] => step(word, number),
        // as `steps` has it, with the message's words, boards and line
        [word, number, place, ..] if place.starts_with(['(', '"']) => step(word, number),
        // what a board with a name of its own waits for
        _ if text.contains(" holds message ") => Line::Remark,
        _ => Line::Unknown,
    }
}

fn step(word: &str, number: &str) -> Line {
    let message = if number.bytes().all(|b| b.is_ascii_digit()) { number.parse().ok() } else { None };
    match (words::step_kind(word), message) {
        (Some(kind), Some(m)) => Line::Step(kind, m),
        _ => Line::Unknown,
    }
}
