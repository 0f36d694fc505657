//! What a sheet holds, through `sheet_messages` and `sheet_races`, held to the plain reference: every message with its line and boards, and every race in
//! order, in outputs of any length.

use crate::reference::{self, Refusal, Scenario, MESSAGES, SCRATCH_LEAST};
use crate::texts::Random;
use crate::{fail, length, Buffers, BESIDE};

#[repr(C)]
#[derive(Clone, Copy, Debug, PartialEq)]
struct Numbers {
    word: u32,
    one: u32,
    two: u32,
}

extern "C" {
    fn sheet_messages(text: *const u8, text_len: usize, scratch: *mut u64, scratch_len: usize, output: *mut u16, output_len: usize) -> Numbers;
    fn sheet_races(
        text: *const u8, text_len: usize, code: u32, scratch: *mut u64, scratch_len: usize, output: *mut u16, output_len: usize,
    ) -> Numbers;
}

/// The least output for messages, in numbers of 16 bits.
const OUTPUT_LEAST: usize = 3 * MESSAGES;

const KINDS: [&str; 8] =
    ["messages listed", "refused 2", "the sheet's", "races listed whole", "cut off", "an odd output", "refused 1 or 2", "the sheet's"];

/// What was seen, by kind, and lists with a message of a sheet that is called.
#[derive(Default)]
pub struct Seen {
    kinds: [u64; KINDS.len()],
    called: u64,
}

impl Seen {
    pub fn add(&mut self, o: &Seen) {
        self.kinds.iter_mut().zip(o.kinds).for_each(|(a, b)| *a += b);
        self.called += o.called;
    }

    pub fn print(&self) {
        println!("what a sheet holds, {}: {:?}, with calls {}", KINDS.join(", "), self.kinds, self.called);
    }

    pub fn whole(&self) -> bool {
        self.kinds.iter().all(|n| *n > 0) && self.called > 0
    }
}

fn same(got: Numbers, expected: Numbers, what: &str, text: &[u8], code: u32) {
    if got != expected {
        println!("expected {:?}, got {:?}", expected, got);
        fail(what, text, code);
    }
}

fn in_bytes(numbers: &[u16]) -> Vec<u8> {
    numbers.iter().flat_map(|k| k.to_ne_bytes()).collect()
}

fn try_messages(r: &mut Random, seen: &mut Seen, text: &[u8], sheet: &Result<Scenario, Refusal>) {
    let (scratch_len, output_len) = (length(r, SCRATCH_LEAST), length(r, OUTPUT_LEAST));
    let mut b = Buffers::lent(r, scratch_len, 2 * output_len);
    let lent = text.to_vec();
    let (scratch, output) = (b.scratch[BESIDE..].as_mut_ptr(), b.trace[BESIDE..].as_mut_ptr() as *mut u16);
    let got = unsafe { sheet_messages(lent.as_ptr(), lent.len(), scratch, scratch_len, output, output_len) };
    let short = scratch_len < SCRATCH_LEAST || output_len < OUTPUT_LEAST;
    let refusal = if short { Some((2, 0)) } else { sheet.as_ref().err().copied() };
    let told: Vec<u16> = match refusal {
        Some(_) => Vec::new(),
        None => reference::messages(text).iter().flat_map(|(line, a, b)| [*line as u16, *a as u16, *b as u16]).collect(),
    };
    let expected = refusal.map_or(Numbers { word: 0, one: told.len() as u32 / 3, two: 0 }, |(number, line)| Numbers { word: 1, one: number, two: line });
    same(got, expected, "messages: answer", text, 0);
    b.left(text, &lent, 0, &in_bytes(&told), short);
    seen.kinds[if short { 1 } else { 2 * usize::from(refusal.is_some()) }] += 1;
    seen.called += u64::from(refusal.is_none() && sheet.as_ref().map_or(false, |s| s.calls > 0));
}

fn races(s: &Scenario, code: u32) -> Vec<u16> {
    let n = s.messages.len();
    let pairs = (0..n).flat_map(|e| (0..2 * n).map(move |x| (e, x)));
    pairs.filter(|(e, x)| s.is_race(code, *e, *x)).flat_map(|(e, x)| [e as u16, x as u16]).collect()
}

fn try_races(r: &mut Random, seen: &mut Seen, text: &[u8], sheet: &Result<Scenario, Refusal>, code: u32) {
    let scratch_len = length(r, SCRATCH_LEAST);
    let all = sheet.as_ref().map_or(Vec::new(), |s| races(s, code));
    let output_len = *r.pick(&[0, 1, 2, 3, all.len().saturating_sub(1), all.len(), all.len() + 1, all.len() + 8, all.len() / 2]);
    let mut b = Buffers::lent(r, scratch_len, 2 * output_len);
    let lent = text.to_vec();
    let (scratch, output) = (b.scratch[BESIDE..].as_mut_ptr(), b.trace[BESIDE..].as_mut_ptr() as *mut u16);
    let got = unsafe { sheet_races(lent.as_ptr(), lent.len(), code, scratch, scratch_len, output, output_len) };
    let refusal = reference::watchable(sheet, code, scratch_len).err();
    let listed = if refusal.is_some() { 0 } else { (all.len() / 2).min(output_len / 2) };
    let expected = match refusal {
        None => Numbers { word: 0, one: all.len() as u32 / 2, two: listed as u32 },
        Some((number, line)) => Numbers { word: 1, one: number, two: line },
    };
    same(got, expected, "races: answer", text, code);
    let untouched = matches!(refusal, Some((1 | 2, _)));
    b.left(text, &lent, code, &in_bytes(&all[..2 * listed]), untouched);
    let kind = match refusal {
        None => 3 + usize::from(2 * listed < all.len()),
        Some(_) => 7 - usize::from(untouched),
    };
    seen.kinds[kind] += 1;
    seen.kinds[5] += u64::from(refusal.is_none() && output_len % 2 == 1);
}

pub fn try_holdings(r: &mut Random, seen: &mut Seen, text: &[u8], sheet: &Result<Scenario, Refusal>) {
    try_messages(r, seen, text, sheet);
    let code = r.below(7) as u32;
    try_races(r, seen, text, sheet, code);
}
