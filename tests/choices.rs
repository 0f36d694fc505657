//! Files with choices through `choice_check`, held to the plain reference, which walks all 256 ways: the word, the first locked list with
//! its race and steps, the buffers; on files without A rows the check's own answer; and the step rules' say on every list of a small file.

use crate::reference::{self, Answer, Choice, List, Refusal, Row, SCRATCH_LEAST, TRACE_LEAST};
use crate::texts::{self, Random};
use crate::{bytes, channel_check, fail, length, replay, Buffers, BESIDE, CODES};

#[repr(C)]
#[derive(Clone, Copy, Debug, PartialEq)]
pub struct Numbers {
    pub word: u32,
    pub one: u32,
    pub two: u32,
    pub three: u32,
    pub length: u32,
    pub choices: u32,
}

extern "C" {
    fn choice_check(
        text: *const u8, text_len: usize, code: u32, scratch: *mut u64, scratch_len: usize, trace: *mut u8, trace_len: usize,
    ) -> Numbers;
}

/// What was seen: by word, the two refusals that only a walk with choices gets, a lock behind the first list, a file of 256 lists, files
/// without A rows, and small files searched whole.
#[derive(Default)]
pub struct Seen {
    words: [u64; 3],
    thirteen: u64,
    behind: u64,
    full: u64,
    plain: u64,
    searched: u64,
}

impl Seen {
    pub fn add(&mut self, o: &Seen) {
        self.words.iter_mut().zip(o.words).for_each(|(a, b)| *a += b);
        self.thirteen += o.thirteen;
        self.behind += o.behind;
        self.full += o.full;
        self.plain += o.plain;
        self.searched += o.searched;
    }

    pub fn print(&self) {
        println!("choices free, locked, refused: {:?}, refusal 13: {}, locked behind the first list: {}", self.words, self.thirteen, self.behind);
        println!("files of 256 lists {}, without A rows {}, all lists searched whole {}", self.full, self.plain, self.searched);
    }

    pub fn whole(&self) -> bool {
        self.words.iter().all(|n| *n > 0) && self.thirteen * self.behind * self.full * self.plain * self.searched > 0
    }
}

/// The call's answer on a code, with buffers of the least length.
pub fn checked(text: &[u8], code: u32) -> Numbers {
    let (mut scratch, mut trace) = (vec![0u64; SCRATCH_LEAST], vec![0u8; TRACE_LEAST]);
    unsafe { choice_check(text.as_ptr(), text.len(), code, scratch.as_mut_ptr(), scratch.len(), trace.as_mut_ptr(), trace.len()) }
}

/// The numbers that the request fixes, and the bytes of the steps.
fn expected(lists: &Result<Vec<List>, Refusal>, answer: &Choice) -> (Numbers, Vec<u8>) {
    let none = Numbers { word: 0, one: 0, two: 0, three: 0, length: 0, choices: 0 };
    match (answer, lists) {
        (Choice::Refused((n, line)), _) => (Numbers { word: 2, one: *n, two: *line, ..none }, vec![]),
        (Choice::Locked { list, answer: Answer::Locked { e, x, steps } }, Ok(lists)) => {
            let options = &lists[*list].options;
            let choices = options.iter().enumerate().map(|(k, n)| u32::from(*n) << k).sum();
            let numbers = [*e, *x, steps.len(), options.len()].map(|n| n as u32);
            (Numbers { word: 1, one: numbers[0], two: numbers[1], three: numbers[2], length: numbers[3], choices }, bytes(steps))
        }
        _ => (none, vec![]),
    }
}

/// The step rules alone: locked if some order of some list ends stuck.
fn search(seen: &mut Seen, text: &[u8], lists: &[List], code: u32, answer: &Choice) {
    let sheets: Option<Vec<_>> = lists.iter().map(|l| l.sheet.as_ref().ok()).collect();
    let Some(sheets) = sheets else { return };
    if sheets.len() > 8 || sheets.iter().any(|s| s.messages.len() > 4) {
        return;
    }
    let first = sheets.iter().position(|s| reference::can_stop(s, code));
    let named = if let Choice::Locked { list, .. } = answer { Some(*list) } else { None };
    if first != named {
        fail("choices: the first list that the whole search stops", text, code);
    }
    seen.searched += 1;
}

/// On a file without A rows the check says the same.
fn agree(seen: &mut Seen, text: &[u8], code: u32, got: Numbers, trace: &[u8]) {
    let (mut scratch, mut own) = (vec![0u64; SCRATCH_LEAST], vec![0u8; TRACE_LEAST]);
    let a = unsafe { channel_check(text.as_ptr(), text.len(), code, scratch.as_mut_ptr(), scratch.len(), own.as_mut_ptr(), own.len()) };
    if [a.word, a.one, a.two, a.three, 0, 0] != [got.word, got.one, got.two, got.three, got.length, got.choices] {
        fail("choices: the check says something else", text, code);
    }
    if own[..trace.len()] != *trace {
        fail("choices: the check's steps are others", text, code);
    }
    seen.plain += 1;
}

fn try_code(r: &mut Random, seen: &mut Seen, text: &[u8], file: &Result<Vec<List>, Refusal>, plain: bool, code: u32) {
    let (scratch_len, trace_len) = (length(r, SCRATCH_LEAST), length(r, TRACE_LEAST));
    let mut b = Buffers::lent(r, scratch_len, trace_len);
    let lent = text.to_vec();
    let answer = reference::choose(file, code, scratch_len, trace_len);
    let (numbers, steps) = expected(file, &answer);
    let (scratch, trace) = (b.scratch[BESIDE..].as_mut_ptr(), b.trace[BESIDE..].as_mut_ptr());
    let got = unsafe { choice_check(lent.as_ptr(), lent.len(), code, scratch, scratch_len, trace, trace_len) };
    if got != numbers {
        println!("expected {:?}, got {:?}", numbers, got);
        fail("choices: answer", text, code);
    }
    b.left(text, &lent, code, &steps, matches!(answer, Choice::Refused((1 | 2, _))));
    seen.words[got.word as usize] += 1;
    seen.thirteen += u64::from(got.word == 2 && got.one == 13);
    let lists = match file {
        Ok(lists) if !matches!(answer, Choice::Refused(_)) => lists,
        _ => return,
    };
    if let Choice::Locked { list, .. } = answer {
        seen.behind += u64::from(list > 0);
        replay(&steps, text, lists[list].sheet.as_ref().ok().unwrap(), code);
    }
    seen.full += u64::from(lists.len() == 256);
    search(seen, text, lists, code, &answer);
    if plain {
        agree(seen, text, code, got, &steps);
    }
}

/// One file with choices, or a text of any kind, on all six channels and on a code that is none.
pub fn try_choices(r: &mut Random, seen: &mut Seen, any: &[u8]) {
    let text = if r.one_in(6) { any.to_vec() } else { texts::choice_text(r) };
    let rows = reference::read(&text, true);
    let plain = rows.as_ref().map_or(false, |rows| !rows.iter().any(|r| matches!(r, Row::Choice(..))));
    let file = rows.map(|rows| reference::lists(&rows));
    for code in 0..CODES as u32 + 1 {
        try_code(r, seen, &text, &file, plain, code);
    }
}
