//! Two lists of events through `taps_check`, held to the plain reference: lists cut from orders of the sheet, with a pair exchanged or an event
//! too many. On small sheets all orders of the events are gone through, the lowest first: fit exactly if some one obeys, and it is the first.

use crate::reference::{self, Refusal, Scenario, Tapped, EVENTS, NUMBERS_LEAST, SCRATCH_LEAST};
use crate::texts::{self, Random};
use crate::{fail, length, Buffers, BESIDE};

#[repr(C)]
#[derive(Clone, Copy, Debug, PartialEq)]
struct Numbers {
    word: u32,
    one: u32,
    two: u32,
}

extern "C" {
    fn taps_check(
        text: *const u8, text_len: usize, scratch: *mut u64, scratch_len: usize, first: *const u16, first_len: usize, second: *const u16,
        second_len: usize, output: *mut u16, output_len: usize,
    ) -> Numbers;
}

const KINDS: [&str; 8] = ["fit", "clash", "2", "the sheet's", "20 for list 1", "20 for list 2", "orders of all events that fit", "clashes of all events"];

/// What was seen: answers by kind, and small sheets gone through whole that fit and that clash.
#[derive(Default)]
pub struct Seen {
    kinds: [u64; KINDS.len()],
    whole: [u64; 2],
}

impl Seen {
    pub fn add(&mut self, o: &Seen) {
        self.kinds.iter_mut().zip(o.kinds).for_each(|(a, b)| *a += b);
        self.whole.iter_mut().zip(o.whole).for_each(|(a, b)| *a += b);
    }

    pub fn print(&self) {
        println!("two taps, {}: {:?}, all orders gone through, fit and clash: {:?}", KINDS.join(", "), self.kinds, self.whole);
    }

    pub fn whole(&self) -> bool {
        self.kinds.iter().chain(&self.whole).all(|n| *n > 0)
    }
}

/// An order of all events that obeys "before", taken at random.
fn order(r: &mut Random, s: &Scenario) -> Vec<u16> {
    let n = 2 * s.messages.len();
    let mut waits: Vec<usize> = (0..n).map(|y| (0..n).filter(|x| s.before[*x][y]).count()).collect();
    let mut free: Vec<usize> = (0..n).filter(|x| waits[*x] == 0).collect();
    let mut out = Vec::new();
    while !free.is_empty() {
        let x = free.swap_remove(r.below(free.len()));
        out.push(x as u16);
        for y in (0..n).filter(|y| s.before[x][*y]) {
            waits[y] -= 1;
            if waits[y] == 0 {
                free.push(y);
            }
        }
    }
    out
}

/// Some of an order, in its order; now and then with two of its events exchanged, or with one too many.
fn cut(r: &mut Random, order: &[u16]) -> Vec<u16> {
    let keep = *r.pick(&[0, 1, 2, 4, 4, 4]);
    let mut list: Vec<u16> = order.iter().filter(|_| r.below(4) < keep).copied().collect();
    if list.len() > 1 && r.one_in(4) {
        let (i, j) = (r.below(list.len()), r.below(list.len()));
        list.swap(i, j);
    }
    if r.one_in(16) {
        let wrong = *r.pick(&[order.len() as u16, list.first().copied().unwrap_or(0), EVENTS as u16 - 1, EVENTS as u16, u16::MAX]);
        let at = r.below(list.len() + 1);
        list.insert(at, wrong);
    }
    if r.one_in(64) {
        list.extend_from_slice(&order.repeat(3));
    }
    list
}

/// The first of all orders of the events, by number, in which nothing comes behind what it is sooner than.
fn first_order(sooner: &[Vec<bool>], taken: &mut Vec<u16>) -> bool {
    let n = sooner.len();
    if taken.len() == n {
        let at: Vec<usize> = (0..n).map(|x| taken.iter().position(|k| usize::from(*k) == x).expect("an event left out")).collect();
        return (0..n).all(|x| (0..n).all(|y| !sooner[x][y] || at[x] < at[y]));
    }
    for k in 0..n as u16 {
        if !taken.contains(&k) {
            taken.push(k);
            if first_order(sooner, taken) {
                return true;
            }
            taken.pop();
        }
    }
    false
}

/// All orders of a small sheet's events against what was answered.
fn go_through(seen: &mut Seen, text: &[u8], s: &Scenario, lists: [&[u16]; 2], answer: &Tapped) {
    let mut first = Vec::new();
    let found = first_order(&reference::sooner(s, lists), &mut first);
    match answer {
        Tapped::Fit(course) if found && *course == first => seen.whole[0] += 1,
        Tapped::Clash(_) if !found => seen.whole[1] += 1,
        _ => fail("two taps: not what all orders say", text, 0),
    }
}

/// One call, on buffers that may be too short.
fn call(r: &mut Random, text: &[u8], sheet: &Result<Scenario, Refusal>, lists: [&[u16]; 2]) -> Tapped {
    let (scratch_len, output_len) = (length(r, SCRATCH_LEAST), length(r, NUMBERS_LEAST));
    let mut b = Buffers::lent(r, scratch_len, 2 * output_len);
    let (lent, first, second) = (text.to_vec(), lists[0].to_vec(), lists[1].to_vec());
    let expected = reference::tapped(sheet, scratch_len, lists, output_len);
    let (scratch, output) = (b.scratch[BESIDE..].as_mut_ptr(), b.trace[BESIDE..].as_mut_ptr() as *mut u16);
    assert!(output.is_aligned());
    let (one, two) = (first.as_ptr(), second.as_ptr());
    let got = unsafe { taps_check(lent.as_ptr(), lent.len(), scratch, scratch_len, one, first.len(), two, second.len(), output, output_len) };
    let (numbers, written) = match &expected {
        Tapped::Fit(course) => (Numbers { word: 0, one: course.len() as u32, two: 0 }, &course[..]),
        Tapped::Clash(x) => (Numbers { word: 1, one: *x as u32, two: 0 }, &[][..]),
        Tapped::Refused((number, line)) => (Numbers { word: 2, one: *number, two: *line }, &[][..]),
    };
    if got != numbers {
        println!("lists {:?}, expected {:?}, got {:?}", lists, numbers, got);
        fail("two taps: answer", text, 0);
    }
    let bytes: Vec<u8> = written.iter().flat_map(|k| k.to_ne_bytes()).collect();
    b.left(text, &lent, 0, &bytes, matches!(expected, Tapped::Refused((2, _))));
    if first != lists[0] || second != lists[1] {
        fail("two taps: a list was written to", text, 0);
    }
    expected
}

/// One text with two lists: mostly of a sheet that is accepted, cut from one order of its events or from two.
pub fn try_taps(r: &mut Random, seen: &mut Seen, any: &[u8]) {
    let text = if r.one_in(4) { any.to_vec() } else { texts::tap_text(r) };
    let sheet = reference::sheet(&text);
    let one = sheet.as_ref().map_or(vec![0, 1], |s| order(r, s));
    let other = if r.one_in(2) { one.clone() } else { sheet.as_ref().map_or(vec![2], |s| order(r, s)) };
    let (first, second) = (cut(r, &one), cut(r, &other));
    let lists = [&first[..], &second[..]];
    let answer = call(r, &text, &sheet, lists);
    let kind = match &answer {
        Tapped::Fit(_) => 0,
        Tapped::Clash(_) => 1,
        Tapped::Refused((2, _)) => 2,
        Tapped::Refused((20, list)) => 3 + *list as usize,
        Tapped::Refused(_) => 3,
    };
    seen.kinds[kind] += 1;
    let Ok(s) = &sheet else { return };
    if kind < 2 {
        seen.kinds[6 + kind] += u64::from(s.messages.len() == reference::MESSAGES);
        if s.messages.len() <= 3 || (s.messages.len() == 4 && r.one_in(20)) {
            go_through(seen, &text, s, lists, &answer);
        }
    }
}
