//! Holds the sheets that `channel_tool sheet` makes from diagrams to their meaning: random diagrams, and the causal order of each sheet, asked of the
//! library pair by pair, against the order computed from the drawing itself. A diagram with choices is judged as the drawings of its choice lists are, one by
//! one. What `diagram` writes is read back to the same order where the drawing has a total order on each board.
//! usage: diagrams PROGRAM FOLDER DIAGRAMS SEED

use std::process::{Command, Output, Stdio};

const SCRATCH_WORDS: usize = 4096;
const EVENTS: usize = 512;
const CLASH: u32 = 1;
const REFUSED: u32 = 2;

#[repr(C)]
struct TapsAnswer {
    word: u32,
    one: u32,
    two: u32,
}

#[rustfmt::skip]
extern "C" {
    fn taps_check(text: *const u8, text_len: usize, scratch: *mut u64, scratch_len: usize, first: *const u16, first_len: usize,
        second: *const u16, second_len: usize, output: *mut u16, output_len: usize) -> TapsAnswer;
}

struct Random(u64);

impl Random {
    fn below(&mut self, n: usize) -> usize {
        self.0 ^= self.0 << 13;
        self.0 ^= self.0 >> 7;
        self.0 ^= self.0 << 17;
        (self.0 >> 11) as usize % n
    }
}

fn fail(why: &str) -> ! {
    println!("FAILED: diagrams: {}", why);
    std::process::exit(1);
}

/// What is drawn.
#[derive(Clone)]
enum Item {
    Arrow(usize, usize),
    Choice(Vec<Item>, Vec<Item>),
    Beside(Vec<Vec<Item>>),
    Frame(Vec<Item>),
    Remark(&'static str),
}

const REMARKS: [&str; 6] = ["Note over P0: all is well", "%% a remark", "autonumber", "activate P0", "deactivate P0", "title: a drawing"];
const ARROWS: [&str; 8] = ["->>", "-->>", "->", "-->", "-x", "--x", "-)", "--)"];

fn items(r: &mut Random, boards: usize, depth: usize, choices: &mut usize, beside: bool) -> Vec<Item> {
    let mut out = Vec::new();
    for _ in 0..r.below(5) {
        let item = match r.below(12) {
            0 if depth > 0 => Item::Beside((0..1 + r.below(3)).map(|_| items(r, boards, depth - 1, choices, true)).collect()),
            1 if depth > 0 => Item::Frame(items(r, boards, depth - 1, choices, beside)),
            2 if depth > 0 && *choices > 0 && !beside => {
                *choices -= 1;
                let first = items(r, boards, depth - 1, choices, false);
                let second = if r.below(2) == 0 { Vec::new() } else { items(r, boards, depth - 1, choices, false) };
                Item::Choice(first, second)
            }
            3 => Item::Remark(REMARKS[r.below(REMARKS.len())]),
            _ => Item::Arrow(r.below(boards), r.below(boards)),
        };
        out.push(item);
    }
    out
}

/// The text of a drawing, with arrows of any kind.
fn text(r: &mut Random, items: &[Item], out: &mut String) {
    for item in items {
        match item {
            Item::Arrow(a, b) => *out += &format!("  P{}{}{}P{}: m\n", a, ARROWS[r.below(8)], ["", "+", "-"][r.below(3)], b),
            Item::Remark(words) => *out += &format!("{}\r\n", words),
            Item::Frame(inner) => framed(r, "rect rgb(0, 0, 0)", &[inner], "", out),
            Item::Beside(branches) => framed(r, "par here", &branches.iter().collect::<Vec<_>>(), "and there", out),
            Item::Choice(first, second) if second.is_empty() => framed(r, "opt perhaps", &[first], "", out),
            Item::Choice(first, second) => framed(r, "alt so", &[first, second], "else not", out),
        }
    }
}

fn framed(r: &mut Random, open: &str, parts: &[&Vec<Item>], between: &str, out: &mut String) {
    *out += &format!("{}\n", open);
    for (i, part) in parts.iter().enumerate() {
        if i > 0 {
            *out += &format!("{}\n", between);
        }
        text(r, part, out);
    }
    *out += "end\n";
}

fn drawing(r: &mut Random, boards: usize, items: &[Item]) -> String {
    let mut out = String::from("sequenceDiagram\n");
    (0..boards).for_each(|b| out += &format!("    participant P{} as board number {}\n", b, b));
    text(r, items, &mut out);
    out
}

/// The events of a drawing, a list of `before` pairs, and the events on each board: what stands below on one board is after what stands above, but for
/// branches that stand beside each other.
#[derive(Default)]
struct Order {
    messages: usize,
    before: Vec<(usize, usize)>,
}

impl Order {
    /// Adds items after the events `ahead` (with their boards), and gives the events that they add.
    fn add(&mut self, items: &[Item], ahead: &[(usize, usize)]) -> Vec<(usize, usize)> {
        let (mut added, mut all): (Vec<(usize, usize)>, Vec<(usize, usize)>) = (Vec::new(), ahead.to_vec());
        for item in items {
            let new = match item {
                Item::Arrow(a, b) => self.arrow(*a, *b, &all),
                Item::Beside(branches) => branches.iter().flat_map(|branch| self.add(branch, &all)).collect(),
                Item::Frame(inner) => self.add(inner, &all),
                Item::Remark(_) => Vec::new(),
                Item::Choice(..) => fail("a choice in a drawing without choices"),
            };
            all.extend(&new);
            added.extend(&new);
        }
        added
    }

    fn arrow(&mut self, a: usize, b: usize, ahead: &[(usize, usize)]) -> Vec<(usize, usize)> {
        let new = vec![(2 * self.messages, a), (2 * self.messages + 1, b)];
        self.messages += 1;
        for (y, board) in &new {
            ahead.iter().filter(|(_, other)| other == board).for_each(|(x, _)| self.before.push((*x, *y)));
        }
        self.before.push((new[0].0, new[1].0));
        new
    }

    fn closed(&self) -> Vec<Vec<bool>> {
        let n = 2 * self.messages;
        let mut closed = vec![vec![false; n]; n];
        self.before.iter().for_each(|(x, y)| closed[*x][*y] = true);
        for k in 0..n {
            for x in 0..n {
                for y in 0..n {
                    closed[x][y] |= closed[x][k] && closed[k][y];
                }
            }
        }
        closed
    }
}

/// Whether x is before y in a sheet: a list with y ahead of x does not fit.
fn is_before(sheet: &[u8], x: usize, y: usize) -> bool {
    let (mut scratch, mut output) = ([0u64; SCRATCH_WORDS], [0u16; EVENTS]);
    let list = [y as u16, x as u16];
    let a = unsafe {
        taps_check(sheet.as_ptr(), sheet.len(), scratch.as_mut_ptr(), SCRATCH_WORDS, list.as_ptr(), 2, list.as_ptr(), 0, output.as_mut_ptr(), EVENTS)
    };
    if a.word == REFUSED {
        fail(&format!("refused {} {}\n{}", a.one, a.two, String::from_utf8_lossy(sheet)));
    }
    a.word == CLASH
}

fn run(program: &str, words: &[&str], input: &str, folder: &str) -> Output {
    let file = format!("{}/input", folder);
    std::fs::write(&file, input).expect("the input is written");
    let from = std::fs::File::open(&file).expect("the input is there");
    Command::new(program).args(words).stdin(Stdio::from(from)).output().expect("the program starts")
}

fn sheet_of(program: &str, drawing: &str, folder: &str) -> Vec<u8> {
    let out = run(program, &["sheet"], drawing, folder);
    if out.status.code() != Some(0) {
        fail(&format!("no sheet: {}\n{}", String::from_utf8_lossy(&out.stderr), drawing));
    }
    out.stdout
}

fn hold_order(sheet: &[u8], order: &[Vec<bool>], drawing: &str) {
    for (x, row) in order.iter().enumerate() {
        for (y, before) in row.iter().enumerate() {
            if x != y && is_before(sheet, x, y) != *before {
                fail(&format!("event {} before event {} should be {}\n{}{}", x, y, before, drawing, String::from_utf8_lossy(sheet)));
            }
        }
    }
}

fn is_total(items: &[Item]) -> bool {
    items.iter().all(|i| match i {
        Item::Beside(branches) => branches.len() < 2 && branches.iter().all(|b| is_total(b)),
        Item::Frame(inner) => is_total(inner),
        _ => true,
    })
}

/// A drawing without choices: its sheet's order, and that of its sheet drawn again.
fn try_order(r: &mut Random, program: &str, folder: &str) {
    let (boards, mut none) = (1 + r.below(5), 0);
    let items = items(r, boards, 2, &mut none, false);
    let mut order = Order::default();
    order.add(&items, &[]);
    if order.messages > 12 {
        return;
    }
    let closed = order.closed();
    let drawing = drawing(r, boards, &items);
    let sheet = sheet_of(program, &drawing, folder);
    hold_order(&sheet, &closed, &drawing);
    let again = run(program, &["diagram"], &drawing, folder);
    if again.status.code() != Some(0) {
        fail(&format!("no diagram: {}\n{}", String::from_utf8_lossy(&again.stderr), drawing));
    }
    let again = String::from_utf8(again.stdout).expect("a diagram is text");
    let sheet = sheet_of(program, &again, folder);
    if is_total(&items) {
        hold_order(&sheet, &closed, &again);
    }
}

/// The items of a choice list: bit k decides choice k in the order met.
fn chosen(items: &[Item], list: usize, met: &mut usize) -> Vec<Item> {
    let mut out = Vec::new();
    for item in items {
        match item {
            Item::Choice(first, second) => {
                let taken = if list >> *met & 1 == 1 { second } else { first };
                *met += 1;
                out.extend(chosen(taken, list, met));
            }
            Item::Frame(inner) => out.extend(chosen(inner, list, met)),
            other => out.push(other.clone()),
        }
    }
    out
}

/// A drawing with choices: locked exactly if that of some choice list is.
fn try_choices(r: &mut Random, program: &str, folder: &str) -> bool {
    let (boards, mut choices) = (2 + r.below(3), 3);
    let items = items(r, boards, 2, &mut choices, false);
    let code = ["0", "2", "5"][r.below(3)];
    let drawing = drawing(r, boards, &items);
    let whole = run(program, &["choices", code], &drawing, folder).status.code();
    let mut locked = false;
    for list in 0..8 {
        let one = self::drawing(r, boards, &chosen(&items, list, &mut 0));
        locked |= run(program, &["steps", code], &one, folder).status.code() == Some(1);
    }
    if whole != Some(i32::from(locked)) {
        fail(&format!("choices on {} has status {:?}, and its lists are {}\n{}", code, whole, if locked { "locked" } else { "free" }, drawing));
    }
    locked
}

fn main() {
    let words: Vec<String> = std::env::args().collect();
    let (program, folder) = (words[1].as_str(), words[2].as_str());
    let (count, seed): (usize, u64) = (words[3].parse().expect("how many"), words[4].parse().expect("a seed"));
    std::fs::create_dir_all(folder).expect("a folder");
    let mut r = Random(seed.wrapping_mul(0x9e37_79b9_7f4a_7c15) | 1);
    let mut locked = 0;
    for _ in 0..count {
        try_order(&mut r, program, folder);
        locked += usize::from(try_choices(&mut r, program, folder));
    }
    if locked == 0 || locked == count {
        fail("the drawings with choices are all alike");
    }
    println!("diagrams: {} with the order of their drawing, and {} with choices, {} of them locked; seed {}", count, count, locked, seed);
}
