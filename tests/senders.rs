//! Tables through `senders_check`, and sheets with a table through `permitted_check`, held to the plain reference: partitions made at random,
//! with one bit changed, with bytes changed; the answer, the trace and the scratch.

use crate::reference::{self, Answer, Soundness, SCRATCH_LEAST, TRACE_LEAST};
use crate::texts::{self, Random};
use crate::{bytes, fail, length, Buffers, Numbers, BESIDE, CODES};

extern "C" {
    fn senders_check(table: *const u8, table_len: usize) -> Numbers;
    fn permitted_check(
        text: *const u8, text_len: usize, code: u32, scratch: *mut u64, scratch_len: usize, trace: *mut u8, trace_len: usize,
        table: *const u8, table_len: usize,
    ) -> Numbers;
}

/// What was seen: tables by word; tables of 64 rules; of sheets with a table free, locked, refused as the sheet is, 18 with and without a
/// line, 19, and 19 in a sheet that is called.
#[derive(Default)]
pub struct Seen {
    words: [u64; 4],
    full: u64,
    sheets: [u64; 6],
    later: u64,
}

impl Seen {
    pub fn add(&mut self, o: &Seen) {
        self.words.iter_mut().zip(o.words).for_each(|(a, b)| *a += b);
        self.sheets.iter_mut().zip(o.sheets).for_each(|(a, b)| *a += b);
        self.full += o.full;
        self.later += o.later;
    }

    pub fn print(&self) {
        println!("tables sound, gap, clash, refused: {:?}, sound with 64 rules {}", self.words, self.full);
        println!("with a table free, locked, refused as the sheet, 18 with a line, 18 without, 19: {:?}, 19 not at the lowest line {}", self.sheets, self.later);
    }

    pub fn whole(&self) -> bool {
        self.words.iter().chain(&self.sheets).all(|n| *n > 0) && self.full * self.later > 0
    }
}

fn judge(seen: &mut Seen, table: &[u8]) {
    let lent = table.to_vec();
    let got = unsafe { senders_check(lent.as_ptr(), lent.len()) };
    let expected = match reference::rules(table) {
        Err(line) => [3, 18, line, 0],
        Ok(rules) => match reference::soundness(&rules) {
            Soundness::Sound => {
                seen.full += u64::from(rules.len() == 64);
                [0, 0, 0, 0]
            }
            Soundness::Gap(pair) => [1, pair as u32, 0, 0],
            Soundness::Clash(pair, a, b) => [2, pair as u32, a as u32, b as u32],
        },
    };
    if [got.word, got.one, got.two, got.three] != expected || lent != table {
        println!("expected {:?}, got {:?}", expected, [got.word, got.one, got.two, got.three]);
        fail("the judgement of a table", table, 0);
    }
    seen.words[got.word as usize] += 1;
}

fn permit(r: &mut Random, seen: &mut Seen, text: &[u8], table: &[u8], code: u32) {
    let (scratch_len, trace_len) = (length(r, SCRATCH_LEAST), length(r, TRACE_LEAST));
    let mut b = Buffers::lent(r, scratch_len, trace_len);
    let lent = text.to_vec();
    let expected = reference::permit(text, code, scratch_len, trace_len, table);
    let (scratch, trace) = (b.scratch[BESIDE..].as_mut_ptr(), b.trace[BESIDE..].as_mut_ptr());
    let got = unsafe { permitted_check(lent.as_ptr(), lent.len(), code, scratch, scratch_len, trace, trace_len, table.as_ptr(), table.len()) };
    let (numbers, steps) = match &expected {
        Answer::Free => ([0, 0, 0, 0], vec![]),
        Answer::Locked { e, x, steps } => ([1, *e as u32, *x as u32, steps.len() as u32], bytes(steps)),
        Answer::Refused((n, line)) => ([2, *n, *line, 0], vec![]),
    };
    if [got.word, got.one, got.two, got.three] != numbers {
        println!("with the table\n{}\nexpected {:?}, got {:?}", String::from_utf8_lossy(table), numbers, [got.word, got.one, got.two, got.three]);
        fail("the check with a table", text, code);
    }
    b.left(text, &lent, code, &steps, matches!(expected, Answer::Refused((1 | 2, _))));
    let kind = match expected {
        Answer::Free => 0,
        Answer::Locked { .. } => 1,
        Answer::Refused((18, 0)) => 4,
        Answer::Refused((18, _)) => 3,
        Answer::Refused((19, line)) => {
            seen.later += u64::from(reference::lowest_forbidden_line(text, table) != Some(line));
            5
        }
        Answer::Refused(_) => 2,
    };
    seen.sheets[kind] += 1;
}

/// One table, and a text with it on all six channels and a code that is none.
pub fn try_senders(r: &mut Random, seen: &mut Seen, any: &[u8]) {
    let table = texts::table(r);
    judge(seen, &table);
    let text = if r.one_in(2) { any.to_vec() } else { texts::cure_text(r) };
    for code in 0..CODES as u32 + 1 {
        permit(r, seen, &text, &table, code);
    }
}
