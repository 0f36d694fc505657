//! Sheets through `cure_sheet`, held to the plain reference, which makes the cured order from the request's words: the text byte for byte,
//! the buffers; the text is cured to itself, and free on all six channels; and orders inside the old one that are free lie inside the cured.

use crate::reference::{self, Answer, Scenario, OUTPUT_LEAST, SCRATCH_LEAST, TRACE_LEAST};
use crate::texts::{self, Random};
use crate::{channel_check, fail, length, Buffers, BESIDE, CODES};

#[repr(C)]
#[derive(Clone, Copy, Debug, PartialEq)]
struct Numbers {
    word: u32,
    one: u32,
    two: u32,
}

extern "C" {
    fn cure_sheet(
        text: *const u8, text_len: usize, scratch: *mut u64, scratch_len: usize, output: *mut u8, output_len: usize,
    ) -> Numbers;
}

/// What was seen: texts written, among them the cures of locked sheets and those of 512 rows; refusals 2, of the sheet, and 15; free
/// orders inside the old one.
#[derive(Default)]
pub struct Seen {
    written: u64,
    locked: u64,
    full: u64,
    short: u64,
    sheets: u64,
    fifteen: u64,
    inside: u64,
}

impl Seen {
    fn all(&mut self) -> [&mut u64; 7] {
        [&mut self.written, &mut self.locked, &mut self.full, &mut self.short, &mut self.sheets, &mut self.fifteen, &mut self.inside]
    }

    pub fn add(&mut self, o: &Seen) {
        let others = [o.written, o.locked, o.full, o.short, o.sheets, o.fifteen, o.inside];
        self.all().into_iter().zip(others).for_each(|(a, b)| *a += b);
    }

    pub fn print(&self) {
        println!("cures written {}, of locked sheets {}, of 512 rows {}", self.written, self.locked, self.full);
        println!("cures refused with 2, as the sheet is, with 15: {:?}, free orders inside the old {}", [self.short, self.sheets, self.fifteen], self.inside);
    }

    pub fn whole(&self) -> bool {
        [self.written, self.locked, self.full, self.short, self.sheets, self.fifteen, self.inside].iter().all(|n| *n > 0)
    }
}

/// One call, on buffers that may be too short; the text written.
fn call(r: &mut Random, seen: &mut Seen, text: &[u8], sheet: &Result<Scenario, reference::Refusal>) -> Option<Vec<u8>> {
    let (scratch_len, output_len) = (length(r, SCRATCH_LEAST), length(r, OUTPUT_LEAST));
    let mut b = Buffers::lent(r, scratch_len, output_len);
    let lent = text.to_vec();
    let expected = reference::cure(sheet, scratch_len, output_len);
    let (scratch, output) = (b.scratch[BESIDE..].as_mut_ptr(), b.trace[BESIDE..].as_mut_ptr());
    let got = unsafe { cure_sheet(lent.as_ptr(), lent.len(), scratch, scratch_len, output, output_len) };
    let (numbers, written) = match &expected {
        Ok(written) => (Numbers { word: 0, one: written.len() as u32, two: 0 }, &written[..]),
        Err((number, line)) => (Numbers { word: 1, one: *number, two: *line }, &[][..]),
    };
    if got != numbers {
        println!("expected {:?}, got {:?}", numbers, got);
        fail("cure: answer", text, 0);
    }
    b.left(text, &lent, 0, written, matches!(expected, Err((2, _))));
    match expected {
        Ok(_) => seen.written += 1,
        Err((2, _)) => seen.short += 1,
        Err((15, _)) => seen.fifteen += 1,
        Err(_) => seen.sheets += 1,
    }
    expected.ok()
}

/// The check says free on all six channels.
fn is_free(text: &[u8]) {
    let (mut scratch, mut trace) = (vec![0u64; SCRATCH_LEAST], vec![0u8; TRACE_LEAST]);
    for code in 0..CODES as u32 {
        let a = unsafe { channel_check(text.as_ptr(), text.len(), code, scratch.as_mut_ptr(), scratch.len(), trace.as_mut_ptr(), trace.len()) };
        if a.word != 0 {
            fail("a cured sheet is not free", text, code);
        }
    }
}

/// Some of the old order's pairs, as a sheet of the same messages: where it is free on code 0, its order lies inside the cured one.
fn is_loosest(r: &mut Random, seen: &mut Seen, text: &[u8], s: &Scenario) {
    let n = 2 * s.messages.len();
    let mut other = "kind one two\nS 0 0\n".to_string();
    s.messages.iter().for_each(|(a, b)| other += &format!("M {} {}\n", a, b));
    for (x, y) in (0..n * n).map(|i| (i / n, i % n)) {
        if s.before[x][y] && s.board(x) == s.board(y) && r.one_in(3) {
            other += &format!("P {} {}\n", x, y);
        }
    }
    let Ok(o) = reference::sheet(other.as_bytes()) else { return };
    if !matches!(reference::verdict(&o, 0), Answer::Free) {
        return;
    }
    let order = reference::cured(s);
    if (0..n).any(|x| (0..n).any(|y| o.before[x][y] && !order[x][y])) {
        fail("a free sheet is ordered outside the cured order", text, 0);
    }
    seen.inside += 1;
}

/// One text, and where it is cured what was written.
pub fn try_cure(r: &mut Random, seen: &mut Seen, any: &[u8]) {
    let text = if r.one_in(4) { any.to_vec() } else { texts::cure_text(r) };
    let sheet = reference::sheet(&text);
    let Some(written) = call(r, seen, &text, &sheet) else { return };
    let again = reference::sheet(&written);
    if reference::cure(&again, SCRATCH_LEAST, OUTPUT_LEAST).as_ref() != Ok(&written) {
        fail("cure: the reference does not cure the text to itself", &text, 0);
    }
    call(r, seen, &written, &again);
    is_free(&written);
    let Ok(s) = &sheet else { fail("cure: a text written for no sheet", &text, 0) };
    seen.locked += u64::from(matches!(reference::verdict(s, 0), Answer::Locked { .. }));
    seen.full += u64::from(written.iter().filter(|b| **b == 10).count() == 513);
    if s.messages.len() <= 8 {
        is_loosest(r, seen, &text, s);
    }
}
