//! The generator of sheet files for the differential test: sheets that fit, sheets at every limit, damaged ones, and noise.

use crate::reference::{MESSAGES, NUMBER_MOST, ROWS};

pub struct Random(u64);

impl Random {
    /// Stream `number` of a seed; neighbours share nothing, so that texts can be tried in any order.
    pub fn new(seed: u64, number: u64) -> Random {
        let mut z = seed ^ number.wrapping_add(1).wrapping_mul(0x9E37_79B9_7F4A_7C15);
        z = (z ^ (z >> 30)).wrapping_mul(0xBF58_476D_1CE4_E5B9);
        z = (z ^ (z >> 27)).wrapping_mul(0x94D0_49BB_1331_11EB);
        Random((z ^ (z >> 31)).max(1))
    }

    pub fn next(&mut self) -> u64 {
        self.0 ^= self.0 << 13;
        self.0 ^= self.0 >> 7;
        self.0 ^= self.0 << 17;
        self.0.wrapping_mul(0x2545_F491_4F6C_DD1D) >> 11
    }

    pub fn below(&mut self, n: usize) -> usize {
        (self.next() % n as u64) as usize
    }

    pub fn one_in(&mut self, n: usize) -> bool {
        self.below(n) == 0
    }

    pub fn pick<'a, T>(&mut self, all: &'a [T]) -> &'a T {
        &all[self.below(all.len())]
    }
}

type Rows = Vec<(char, usize, usize)>;

/// A block's rows: messages over a few boards, and P rows that fit.
fn block(r: &mut Random, out: &mut Rows, messages: usize, boards: usize, orders: usize) {
    let mut on: Vec<usize> = Vec::new();
    let mut left = orders;
    for _ in 0..messages {
        let (a, b) = (r.below(boards), r.below(boards));
        out.push(('M', a, b));
        on.extend([a, b]);
        while left > 0 && r.one_in(2) {
            left -= 1;
            order(r, out, &on);
        }
    }
    for _ in 0..left {
        order(r, out, &on);
    }
}

fn order(r: &mut Random, out: &mut Rows, on: &[usize]) {
    if on.is_empty() {
        return;
    }
    let x = r.below(on.len());
    let same: Vec<usize> = (0..on.len()).filter(|y| *y != x && on[*y] == on[x]).collect();
    if let Some(y) = (!same.is_empty()).then(|| *r.pick(&same)) {
        // mostly forwards, so that most sheets have no circle
        let (x, y) = if x > y && !r.one_in(12) { (y, x) } else { (x, y) };
        out.push(('P', x, y));
    }
}

/// A few sheets with a few blocks each.
fn small(r: &mut Random) -> Rows {
    let mut out = Vec::new();
    let many = if r.one_in(10) { 10 } else { 3 };
    let sheets = 1 + r.below(many);
    let size = *r.pick(&[1, 2, 3, 4, 5, 6, 8, 12]);
    let most = *r.pick(&[2, 3, 4, 6, 16]);
    let boards = 1 + r.below(most);
    let mut names: Vec<usize> = (0..sheets).collect();
    if r.one_in(3) {
        names.reverse();
    }
    for n in &names {
        out.push(('S', *n, 0));
        for part in 0..1 + r.below(3) {
            if part > 0 {
                if r.one_in(2) && sheets > 1 {
                    let to = if r.one_in(20) { r.below(sheets) } else { (n + 1 + r.below(sheets)).min(sheets - 1).max(1) };
                    if to != *n || r.one_in(30) {
                        out.push(('C', to, 0));
                    }
                } else {
                    out.push(('B', 0, 0));
                }
            }
            let messages = r.below(size + 1);
            let orders = r.below(2 * messages + 1);
            block(r, &mut out, messages, boards, orders);
        }
    }
    out
}

/// Messages at the limit of a block, in one block or spread over some.
fn many_messages(r: &mut Random, out: &mut Rows) {
    let boards = 1 + r.below(16);
    if r.one_in(2) {
        let messages = *r.pick(&[60, MESSAGES - 1, MESSAGES, MESSAGES, MESSAGES, MESSAGES + 1]);
        let orders = *r.pick(&[0, 1, 10, 100, ROWS - 1 - MESSAGES]);
        block(r, out, messages, boards, orders);
    } else {
        let part = *r.pick(&[8, 16, 32]);
        let room = ROWS * part / MESSAGES - part;
        for i in 0..MESSAGES / part {
            let (messages, orders) = (part + usize::from(i == 0 && r.one_in(6)), r.below(room));
            block(r, out, messages, boards, orders);
            out.push(('B', 0, 0));
        }
    }
}

/// A chain over the boards, so that the order of all events is deep, with at most one race at its end.
fn chained(r: &mut Random, out: &mut Rows) {
    let (n, boards) = (*r.pick(&[64, MESSAGES - 1, MESSAGES]), 2 + r.below(15));
    for m in 0..n {
        out.push(('M', m % boards, (m + 1) % boards));
        if m > 0 && !r.one_in(100) {
            out.push(('P', 2 * m - 1, 2 * m));
        }
    }
}

/// Sheets that call each other down to the deepest level, or past it.
fn deep(r: &mut Random, out: &mut Rows) {
    let deepest = *r.pick(&[7, 8, 8, 9]);
    for n in 0..=deepest {
        if n > 0 {
            out.push(('S', n, 0));
        }
        block(r, out, 2, 4, 2);
        if n < deepest {
            out.push(('C', n + 1, 0));
        }
        if r.one_in(3) {
            block(r, out, 2, 4, 2);
        }
    }
}

/// As many calls as a walk may make, or some more or fewer: `many` calls of sheet 1, with 32 calls each, and some of sheet 2.
fn many_calls(r: &mut Random, out: &mut Rows) {
    let total = *r.pick(&[1022, 1023, 1024, 1024, 1025, 1026]);
    out.extend(std::iter::repeat(('C', 1, 0)).take(total / 33));
    out.extend(std::iter::repeat(('C', 2, 0)).take(total % 33));
    out.push(('S', 1, 0));
    let messages = r.below(6);
    block(r, out, messages, 4, messages);
    out.extend(std::iter::repeat(('C', 2, 0)).take(32));
    out.push(('S', 2, 0));
    out.extend(std::iter::repeat(('B', 0, 0)).take(r.below(3)));
}

/// A sheet called some times: the walk's messages at their limit.
fn called_messages(r: &mut Random, out: &mut Rows) {
    let times = *r.pick(&[1, 2, 3, 4]);
    out.extend(std::iter::repeat(('C', 1, 0)).take(times));
    if r.one_in(3) {
        block(r, out, 1, 3, 1);
    }
    out.push(('S', 1, 0));
    let messages = *r.pick(&[MESSAGES / 4, MESSAGES / 3, MESSAGES / 3 + 1, MESSAGES / 2 - 1, MESSAGES / 2]);
    let boards = 1 + r.below(16);
    let orders = *r.pick(&[0, 2, 40]);
    block(r, out, messages, boards, orders);
}

/// All 32 sheets, each called once, in any order of the file.
fn all_sheets(r: &mut Random, out: &mut Rows) {
    for n in 1..32 {
        out.push(('C', n, 0));
    }
    for i in 1..32 {
        let n = if i % 2 == 1 { 32 - i } else { i };
        out.push(('S', n, 0));
        let messages = r.below(5);
        block(r, out, messages, 6, messages);
    }
    if r.one_in(4) {
        out.push(('S', *r.pick(&[0, 31, 32]), 0));
    }
}

/// Rows at the limit of a file.
fn many_rows(r: &mut Random, out: &mut Rows) {
    let most = *r.pick(&[511, 512, 512, 513]);
    let messages = r.below(MESSAGES);
    block(r, out, messages, 16, messages);
    out.truncate(most);
    while out.len() < most {
        out.push(('B', 0, 0));
    }
}

/// A few messages that matter behind many that do not, so that theirs are the high events, in the later words of a row.
fn shifted(r: &mut Random, out: &mut Rows) {
    let messages = 2 + r.below(12);
    out.extend(std::iter::repeat(('M', 15, 15)).take(r.below(MESSAGES + 1 - messages)));
    out.push(('B', 0, 0));
    let (boards, orders) = (2 + r.below(6), r.below(2 * messages));
    block(r, out, messages, boards, orders);
}

const AT_LIMITS: [fn(&mut Random, &mut Rows); 10] =
    [many_messages, chained, deep, many_calls, called_messages, all_sheets, many_rows, shifted, shifted, shifted];

fn large(r: &mut Random) -> Rows {
    let mut out = vec![('S', 0, 0)];
    r.pick(&AT_LIMITS)(r, &mut out);
    out
}

fn write(r: &mut Random, rows: &[(char, usize, usize)]) -> Vec<u8> {
    let columns = *r.pick(&[[0, 1, 2], [0, 2, 1], [1, 0, 2], [1, 2, 0], [2, 0, 1], [2, 1, 0]]);
    let line = |fields: [String; 3]| columns.map(|c| fields[c].clone()).join(" ") + "\n";
    let mut text = line(["kind".into(), "one".into(), "two".into()]);
    for (k, a, b) in rows {
        text += &line([k.to_string(), a.to_string(), b.to_string()]);
    }
    text.into_bytes()
}

/// A row is taken out, doubled or moved, or one of its values becomes another, mostly next to a limit.
fn damage_rows(r: &mut Random, rows: &mut Rows) {
    let at = r.below(rows.len());
    match r.below(6) {
        0 => {
            rows.remove(at);
        }
        1 => rows.insert(at, rows[at]),
        2 => {
            let to = r.below(rows.len());
            rows.swap(at, to);
        }
        3 => rows[at].0 = *r.pick(&['S', 'M', 'P', 'B', 'C', 'A', 's']),
        4 => rows[at].1 = *r.pick(&[0, 1, 15, 16, 31, 32, MESSAGES - 1, MESSAGES, NUMBER_MOST, NUMBER_MOST + 1, 1000]),
        _ => rows[at].2 = *r.pick(&[0, 1, 15, 16, 31, 32, MESSAGES - 1, MESSAGES, NUMBER_MOST, NUMBER_MOST + 1, 1000]),
    }
}

fn damage(r: &mut Random, text: &mut Vec<u8>) {
    for _ in 0..1 + r.below(3) {
        if text.is_empty() {
            return;
        }
        // the heading is short, and would be spared in most texts
        let near = if r.one_in(6) { text.len().min(14) } else { text.len() };
        let at = r.below(near);
        match r.below(8) {
            0 => {
                text.remove(at);
            }
            1 => text.insert(at, *r.pick(b"0123456789 SMPBCX\n\r-")),
            2 => text[at] = r.below(256) as u8,
            3 => text.truncate(at),
            4 => text[at] = *r.pick(b"0123456789 \n"),
            5 => {
                text.pop();
            }
            6 => text.push(10),
            _ => {
                let piece: Vec<u8> = text[at..(at + r.below(12)).min(text.len())].to_vec();
                text.splice(at..at, piece);
            }
        }
    }
}

/// Bytes of no form, and texts about as long as the longest that is read.
fn noise(r: &mut Random) -> Vec<u8> {
    let length = *r.pick(&[0, 1, 8191, 8192, 8193, 20_000]);
    match r.below(3) {
        0 => (0..r.below(60)).map(|_| r.below(256) as u8).collect(),
        1 => vec![*r.pick(b"S 0\n"); length],
        _ => {
            let rows = small(r);
            let mut text = write(r, &rows);
            text.resize(length.max(1), *r.pick(b"0 \n"));
            text
        }
    }
}

pub fn text(r: &mut Random) -> Vec<u8> {
    let kind = r.below(100);
    if kind < 2 {
        return noise(r);
    }
    let mut rows = if kind < 5 || kind == 99 { large(r) } else { small(r) };
    if (20..32).contains(&kind) {
        damage_rows(r, &mut rows);
    }
    let mut text = write(r, &rows);
    if kind == 99 || (5..20).contains(&kind) {
        damage(r, &mut text);
    }
    text
}

// ---------------------------------------------------------------- request (c)

/// A row that leads to later sheets of the file: a choice, or a call.
fn leading(r: &mut Random, out: &mut Rows, n: usize, sheets: usize) {
    let later = |r: &mut Random| if r.one_in(40) { r.below(sheets + 1) } else { n + 1 + r.below(sheets - n - 1) };
    if n + 1 >= sheets {
        return;
    }
    let (one, two) = (later(r), later(r));
    if r.one_in(4) {
        out.push(('C', one, 0));
    } else {
        out.push(('A', one, two));
    }
}

/// A few sheets, each with some choices among the later ones.
fn choosing(r: &mut Random) -> Rows {
    let mut out = Vec::new();
    let (sheets, most) = (2 + r.below(4), 1 + r.below(3));
    let (size, boards) = (1 + r.below(3), 2 + r.below(3));
    for n in 0..sheets {
        out.push(('S', n, 0));
        for part in 0..1 + r.below(most) {
            if part > 0 || r.one_in(3) {
                leading(r, &mut out, n, sheets);
            }
            let messages = r.below(size + 1);
            let orders = r.below(2 * messages + 1);
            block(r, &mut out, messages, boards, orders);
        }
    }
    out
}

/// As many A rows as a walk may meet, one more or some fewer; met in a row, or at each of the levels of calls.
fn many_choices(r: &mut Random) -> Rows {
    let met = *r.pick(&[6, 7, 8, 8, 8, 9, 10]);
    let mut out = vec![('S', 0, 0)];
    let (messages, orders) = (r.below(3), r.below(3));
    if r.one_in(3) {
        for n in 1..=met.min(9) {
            out.extend([('A', n, if r.one_in(4) { 31 } else { n }), ('M', 0, 1), ('S', n, 0)]);
        }
    } else {
        out.extend(std::iter::repeat(('A', 30, 31)).take(met));
        out.push(('S', 30, 0));
        block(r, &mut out, messages, 3, orders);
    }
    out.push(('S', 31, 0));
    let (messages, orders) = (r.below(3), r.below(3));
    block(r, &mut out, messages, 3, orders);
    out
}

/// A choice that leads past the limit of calls or of messages, or just to it, on one of its options.
fn near_limits(r: &mut Random) -> Rows {
    let mut out = vec![('S', 0, 0), ('A', 1, 2), ('A', 2, 1)];
    out.push(('S', 1, 0));
    if r.one_in(2) {
        out.extend(std::iter::repeat(('M', 0, 1)).take(*r.pick(&[MESSAGES / 2 - 1, MESSAGES / 2, MESSAGES / 2, MESSAGES / 2 + 1, MESSAGES - 2, MESSAGES - 1])));
        out.extend([('S', 2, 0), ('M', 2, 1), ('M', 0, 1), ('P', 1, 3)]);
    } else {
        let calls = *r.pick(&[510, 511, 511, 512]);
        out.extend(std::iter::repeat(('C', 3, 0)).take(calls / 33));
        out.extend(std::iter::repeat(('C', 4, 0)).take(calls % 33));
        out.extend([('S', 2, 0), ('S', 3, 0)]);
        out.extend(std::iter::repeat(('C', 4, 0)).take(32));
        out.push(('S', 4, 0));
    }
    out
}

/// A file with A rows; now and then a damaged one.
pub fn choice_text(r: &mut Random) -> Vec<u8> {
    let mut rows = match r.below(12) {
        0 => many_choices(r),
        1 => near_limits(r),
        _ => choosing(r),
    };
    if r.one_in(12) {
        damage_rows(r, &mut rows);
    }
    let mut text = write(r, &rows);
    if r.one_in(16) {
        damage(r, &mut text);
    }
    text
}

/// Sheets whose cure is about as long as one may be: on board 0 each of some receives is directly before each of some sends, a block
/// later, and messages of a board of their own fill up to near 512 rows.
fn many_covers(r: &mut Random) -> Rows {
    let receives = 12 + r.below(20);
    let sends = 390 / receives + 1;
    let more = *r.pick(&[511, 512, 512, 513, 513, 514]) - (1 + receives + sends + receives * sends);
    let mut out = vec![('S', 0, 0)];
    (0..receives).for_each(|i| out.push(('M', 1 + i % 14, 0)));
    out.push(('B', 0, 0));
    (0..sends).for_each(|i| out.push(('M', 0, 1 + i % 14)));
    (0..more).for_each(|_| out.push(('M', 15, 15)));
    out
}

/// A text for the cure: mostly sheets that are accepted, some with a cure near the limit.
pub fn cure_text(r: &mut Random) -> Vec<u8> {
    let rows = match r.below(24) {
        0 => many_covers(r),
        1 => large(r),
        _ => small(r),
    };
    write(r, &rows)
}

/// Rules that partition the 256 pairs: the square of all boards is cut along senders or receivers, again and again.
fn partition(r: &mut Random) -> Vec<(usize, usize, usize)> {
    let most = *r.pick(&[1, 2, 4, 8, 16, 40, 64]);
    let mut parts = vec![(65535, 65535)];
    for _ in 1..6 * most {
        if parts.len() == most {
            break;
        }
        let k = r.below(parts.len());
        let (from, to): (usize, usize) = parts[k];
        let set = if r.one_in(2) { from } else { to };
        let cut = set & r.next() as usize;
        if cut != 0 && cut != set {
            parts[k] = if set == from { (cut, to) } else { (from, cut) };
            parts.push(if set == from { (set & !cut, to) } else { (from, set & !cut) });
        }
    }
    let forbids = *r.pick(&[2, 4, 50, 1000]);
    parts.into_iter().map(|(from, to)| (from, to, usize::from(!r.one_in(forbids)))).collect()
}

/// A table: mostly a partition, some with one bit changed, a rule too many or one left out, some with bytes changed.
pub fn table(r: &mut Random) -> Vec<u8> {
    let mut rules = partition(r);
    let at = r.below(rules.len());
    match r.below(10) {
        0 => rules[at].0 ^= 1 << r.below(16),
        1 => rules[at].1 ^= 1 << r.below(16),
        2 => rules.push((r.below(65536), r.below(65536), r.below(2))),
        3 => {
            rules.remove(at);
        }
        4 => rules[at] = (*r.pick(&[0, 65535, 65536]), rules[at].1, *r.pick(&[0, 1, 2])),
        5 => (0..r.below(3)).for_each(|_| rules.push((0, r.below(65536), 1))),
        _ => {}
    }
    while r.one_in(30) && rules.len() < 66 || (rules.len() > 60 && rules.len() < 65 && r.one_in(2)) {
        rules.push((0, 0, 0));
    }
    let mut text = b"from to verdict\n".to_vec();
    rules.iter().for_each(|(a, b, v)| text.extend(format!("{} {} {}\n", a, b, v).bytes()));
    if r.one_in(4) {
        damage(r, &mut text);
    }
    if r.one_in(60) {
        text.resize(*r.pick(&[0, 8192, 8193]), 10);
    }
    text
}

/// A text for two taps: mostly small sheets, some of the most messages with few orders or many.
pub fn tap_text(r: &mut Random) -> Vec<u8> {
    let mut rows = vec![('S', 0, 0)];
    match r.below(24) {
        0 => rows = large(r),
        1 => chained(r, &mut rows),
        2 => {
            let (boards, orders) = (1 + r.below(16), *r.pick(&[0, 10, 100]));
            block(r, &mut rows, MESSAGES, boards, orders);
        }
        _ => rows = small(r),
    }
    write(r, &rows)
}
