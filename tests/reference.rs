//! The paper, written plainly and slowly in Rust, with nothing of crates/ in it: the reader, the expansion, the causal order,
//! the races, the step rules and the schedule. The differential test holds the proved check to it.

use std::collections::{BTreeSet, HashSet};

#[derive(Clone, Copy, PartialEq, Eq, Debug)]
pub enum Row {
    Sheet(usize),
    Message(usize, usize),
    Order(usize, usize),
    Block,
    Call(usize),
    /// request (c)
    Choice(usize, usize),
}

/// A refusal: its number and its line.
pub type Refusal = (u32, u32);

#[derive(Clone, PartialEq, Eq, Debug)]
pub enum Answer {
    Free,
    Locked { e: usize, x: usize, steps: Vec<Step> },
    Refused(Refusal),
}

#[derive(Clone, Copy, PartialEq, Eq, Debug)]
pub enum Step {
    Send(usize),
    Deliver(usize),
    Consume(usize),
}

/// The limits that request (n) moves: messages, the largest number of a field, the words of a row; and what follows from them.
pub const MESSAGES: usize = 256;
pub const NUMBER_MOST: usize = 511;
pub const ROW_WORDS: usize = 8;
pub const EVENTS: usize = 2 * MESSAGES;
pub const TRACE_LEAST: usize = 2 * 3 * MESSAGES;
pub const SCRATCH_LEAST: usize = EVENTS * ROW_WORDS;
pub const ROWS: usize = 512;

// ---------------------------------------------------------------- the sheet file

fn number(field: &[u8]) -> Option<usize> {
    if field.is_empty() || !field.iter().all(|b| b.is_ascii_digit()) || (field.len() > 1 && field[0] == b'0') {
        return None;
    }
    if field.len() > 3 {
        return None;
    }
    let value = field.iter().fold(0usize, |n, b| n * 10 + usize::from(b - b'0'));
    (value <= NUMBER_MOST).then_some(value)
}

/// The lines without their ends, and whether each has its end.
fn lines(text: &[u8]) -> Vec<(&[u8], bool)> {
    let mut out = Vec::new();
    let mut from = 0;
    for (i, b) in text.iter().enumerate() {
        if *b == 10 {
            out.push((&text[from..i], true));
            from = i + 1;
        }
    }
    if from < text.len() {
        out.push((&text[from..], false));
    }
    out
}

fn heading(line: (&[u8], bool)) -> Option<[usize; 3]> {
    if !line.1 {
        return None;
    }
    let fields: Vec<&[u8]> = line.0.split(|b| *b == 32).collect();
    if fields.len() != 3 {
        return None;
    }
    let at = |name: &[u8]| fields.iter().position(|f| *f == name);
    Some([at(b"kind")?, at(b"one")?, at(b"two")?])
}

fn row(columns: [usize; 3], line: (&[u8], bool), choices: bool) -> Option<Row> {
    if !line.1 {
        return None;
    }
    let fields: Vec<&[u8]> = line.0.split(|b| *b == 32).collect();
    if fields.len() != 3 || fields[columns[0]].len() != 1 {
        return None;
    }
    let (one, two) = (number(fields[columns[1]])?, number(fields[columns[2]])?);
    match (fields[columns[0]][0], one, two) {
        (b'S', n, 0) => Some(Row::Sheet(n)),
        (b'M', a, b) => Some(Row::Message(a, b)),
        (b'P', x, y) => Some(Row::Order(x, y)),
        (b'B', 0, 0) => Some(Row::Block),
        (b'C', n, 0) => Some(Row::Call(n)),
        (b'A', m, n) if choices => Some(Row::Choice(m, n)),
        _ => None,
    }
}

/// Event x of a block is before itself: over its P rows, and from a message's send to its receive, one comes from x back to x.
fn circles(orders: &BTreeSet<(usize, usize)>, x: usize) -> bool {
    let behind = |a: usize| {
        let rows = orders.range((a, 0)..(a + 1, 0)).map(|p| p.1);
        rows.chain((a % 2 == 0).then_some(a + 1)).collect::<Vec<usize>>()
    };
    let mut reached = BTreeSet::new();
    let mut next = behind(x);
    while let Some(a) = next.pop() {
        if reached.insert(a) {
            next.extend(behind(a));
        }
    }
    reached.contains(&x)
}

/// What the rows so far have opened: sheets, and the block with its messages and P rows.
#[derive(Default)]
struct Opened {
    sheets: BTreeSet<usize>,
    messages: Vec<(usize, usize)>,
    orders: BTreeSet<(usize, usize)>,
}

impl Opened {
    /// The row may stand behind those so far; if not it is refusal 6.
    fn places(&self, r: Row) -> bool {
        let events = 2 * self.messages.len();
        let board = |x: usize| if x % 2 == 0 { self.messages[x / 2].0 } else { self.messages[x / 2].1 };
        match r {
            Row::Sheet(n) => n <= 31 && !self.sheets.contains(&n),
            _ if self.sheets.is_empty() => false,
            Row::Message(a, b) => a <= 15 && b <= 15 && self.messages.len() < MESSAGES,
            Row::Order(x, y) => x < events && y < events && x != y && board(x) == board(y),
            Row::Block => true,
            Row::Call(n) => n <= 31,
            Row::Choice(m, n) => m <= 31 && n <= 31,
        }
    }

    /// The row is put behind those so far. What is handed back is false where it puts an event of its block before itself, refusal 11.
    fn put(&mut self, r: Row) -> bool {
        match r {
            Row::Message(a, b) => self.messages.push((a, b)),
            Row::Order(x, y) => {
                self.orders.insert((x, y));
                return !circles(&self.orders, x);
            }
            _ => {
                self.messages.clear();
                self.orders.clear();
            }
        }
        if let Row::Sheet(n) = r {
            self.sheets.insert(n);
        }
        true
    }

    /// The row calls a sheet that is not there.
    fn lacks(&self, r: &Row) -> bool {
        match r {
            Row::Call(n) => !self.sheets.contains(n),
            Row::Choice(m, n) => !self.sheets.contains(m) || !self.sheets.contains(n),
            _ => false,
        }
    }
}

/// The rows of a text; A rows are rows where `choices` says so.
pub fn read(text: &[u8], choices: bool) -> Result<Vec<Row>, Refusal> {
    if text.is_empty() || text.len() > 8192 {
        return Err((3, 0));
    }
    let lines = lines(text);
    let columns = heading(lines[0]).ok_or((4, 1))?;
    let (mut rows, mut opened) = (Vec::new(), Opened::default());
    for (i, line) in lines[1..].iter().enumerate() {
        let at = i as u32 + 2;
        let r = row(columns, *line, choices).filter(|_| i < ROWS).ok_or((5, at))?;
        if !opened.places(r) {
            return Err((6, at));
        }
        if !opened.put(r) {
            return Err((11, at));
        }
        rows.push(r);
    }
    match rows.iter().position(|r| opened.lacks(r)) {
        _ if !opened.sheets.contains(&0) => Err((7, 0)),
        Some(i) => Err((7, i as u32 + 2)),
        None => Ok(rows),
    }
}

// ---------------------------------------------------------------- expansion

#[derive(Default)]
struct Walk {
    /// request (c): an option for each A row, true for n, and how many A rows were met
    options: Vec<bool>,
    choices: usize,
    calls: usize,
    deepest: usize,
    block: usize,
    /// source, target and block of each message
    messages: Vec<(usize, usize, usize)>,
    orders: BTreeSet<(usize, usize)>,
}

/// The sheet that a C row calls, or an A row by its option; 13 at the ninth A row.
fn called(row: Row, line: u32, w: &mut Walk) -> Result<usize, Refusal> {
    match row {
        Row::Call(n) => Ok(n),
        Row::Choice(..) if w.choices == 8 => Err((13, line)),
        Row::Choice(m, n) => {
            w.choices += 1;
            Ok(if w.options[w.choices - 1] { n } else { m })
        }
        _ => panic!("no call"),
    }
}

fn walk(rows: &[Row], sheet: usize, level: usize, w: &mut Walk) -> Result<(), Refusal> {
    let start = rows.iter().position(|r| *r == Row::Sheet(sheet)).unwrap() + 1;
    w.deepest = w.deepest.max(level);
    let mut first = w.messages.len();
    for (i, r) in rows.iter().enumerate().skip(start) {
        let line = i as u32 + 2;
        match *r {
            Row::Sheet(_) => break,
            Row::Message(a, b) => {
                if w.messages.len() == MESSAGES {
                    return Err((10, line));
                }
                w.messages.push((a, b, w.block));
            }
            Row::Order(x, y) => {
                w.orders.insert((2 * first + x, 2 * first + y));
            }
            Row::Block => {
                w.block += 1;
                first = w.messages.len();
            }
            Row::Call(_) | Row::Choice(..) => {
                if level == 8 {
                    return Err((8, line));
                }
                if w.calls == 1024 {
                    return Err((9, line));
                }
                w.calls += 1;
                w.block += 1;
                let to = called(*r, line, w)?;
                walk(rows, to, level + 1, w)?;
                w.block += 1;
                first = w.messages.len();
            }
        }
    }
    Ok(())
}

pub struct Scenario {
    pub messages: Vec<(usize, usize)>,
    /// before[x][y]: event x is before event y
    pub before: Vec<Vec<bool>>,
    /// how near the walk came to its limits, for the count of what was tried
    pub rows: usize,
    pub calls: usize,
    pub deepest: usize,
}

pub fn expand(rows: &[Row]) -> Result<Scenario, Refusal> {
    let mut w = Walk::default();
    walk(rows, 0, 0, &mut w)?;
    scenario(rows, &w)
}

/// So many rounds: the walk of sheet 0 made so often, one after the other, each beginning with a new block; the limits are counted over all.
pub fn rounds(rows: &[Row], count: usize) -> Result<Scenario, Refusal> {
    let mut w = Walk::default();
    for _ in 0..count {
        walk(rows, 0, 0, &mut w)?;
        w.block += 1;
    }
    scenario(rows, &w)
}

/// The answer for an exchange that is repeated, and the rounds: 0, or the fewest that lock.
pub fn repeated(text: &[u8], code: u32, scratch: usize, trace: usize) -> (u32, Answer) {
    let one = sheet(text);
    let once = answer(&one, code, scratch, trace);
    if matches!(once, Answer::Refused(_)) {
        return (0, once);
    }
    let rows = read(text, false).expect("a sheet that was accepted is read");
    match (rounds(&rows, 2), once) {
        (Err(refusal), _) => (0, Answer::Refused(refusal)),
        (Ok(_), locked @ Answer::Locked { .. }) => (1, locked),
        (Ok(two), _) => match verdict(&two, code) {
            Answer::Free => (0, Answer::Free),
            locked => (2, locked),
        },
    }
}

/// The causal order of what a walk met.
fn scenario(rows: &[Row], w: &Walk) -> Result<Scenario, Refusal> {
    let n = 2 * w.messages.len();
    let board = |x: usize| if x % 2 == 0 { w.messages[x / 2].0 } else { w.messages[x / 2].1 };
    let mut before = vec![vec![false; n]; n];
    for x in 0..n {
        for y in 0..n {
            before[x][y] = w.orders.contains(&(x, y))
                || (x % 2 == 0 && y == x + 1)
                || (board(x) == board(y) && w.messages[x / 2].2 < w.messages[y / 2].2);
        }
    }
    for k in 0..n {
        let through = before[k].clone();
        for x in 0..n {
            if before[x][k] {
                for y in 0..n {
                    before[x][y] |= through[y];
                }
            }
        }
    }
    if (0..n).any(|x| before[x][x]) {
        return Err((11, 0));
    }
    let messages = w.messages.iter().map(|m| (m.0, m.1)).collect();
    Ok(Scenario { messages, before, rows: rows.len(), calls: w.calls, deepest: w.deepest })
}

impl Scenario {
    pub fn board(&self, x: usize) -> usize {
        let m = self.messages[x / 2];
        if x % 2 == 0 { m.0 } else { m.1 }
    }

    fn at_or_before(&self, x: usize, y: usize) -> bool {
        x == y || self.before[x][y]
    }

    pub fn is_race(&self, code: u32, e: usize, x: usize) -> bool {
        let origin = if x % 2 == 0 { x } else { x - 1 };
        self.board(x) == self.messages[e].1
            && self.before[x][2 * e + 1]
            && match code {
                0 => !self.at_or_before(x, 2 * e),
                2 | 4 | 5 => !self.at_or_before(origin, 2 * e),
                _ => false,
            }
    }
}

// ---------------------------------------------------------------- steps of a run

#[derive(Clone, PartialEq, Eq, Hash)]
pub struct State {
    pub done: Vec<bool>,
    pub under_way: BTreeSet<usize>,
    pub buffers: Vec<BTreeSet<usize>>,
}

impl State {
    pub fn start(s: &Scenario) -> State {
        State { done: vec![false; 2 * s.messages.len()], under_way: BTreeSet::new(), buffers: vec![BTreeSet::new(); 16] }
    }

    fn ready(&self, s: &Scenario, x: usize) -> bool {
        !self.done[x] && (0..self.done.len()).all(|y| !(s.before[y][x] && s.board(y) == s.board(x)) || self.done[y])
    }

    pub fn allowed(&self, s: &Scenario, code: u32, step: Step) -> bool {
        let eager = code != 1 && code != 3;
        match step {
            Step::Send(m) => {
                m < s.messages.len()
                    && self.ready(s, 2 * m)
                    && (!eager || self.buffers[s.messages[m].0].is_empty())
                    && match code {
                        4 => !self.under_way.iter().any(|f| s.before[2 * f][2 * m + 1]),
                        5 => self.under_way.is_empty(),
                        _ => true,
                    }
            }
            Step::Deliver(m) => {
                let to = |f: usize| s.messages[f].1;
                self.under_way.contains(&m)
                    && (!eager || self.buffers[to(m)].is_empty())
                    && match code {
                        2 | 3 => !self.under_way.iter().any(|f| *f != m && to(*f) == to(m) && s.before[2 * f][2 * m]),
                        5 => self.under_way.len() == 1,
                        _ => true,
                    }
            }
            Step::Consume(m) => m < s.messages.len() && self.buffers[s.messages[m].1].contains(&m) && self.ready(s, 2 * m + 1),
        }
    }

    pub fn take(&mut self, s: &Scenario, step: Step) {
        match step {
            Step::Send(m) => {
                self.done[2 * m] = true;
                self.under_way.insert(m);
            }
            Step::Deliver(m) => {
                self.under_way.remove(&m);
                self.buffers[s.messages[m].1].insert(m);
            }
            Step::Consume(m) => {
                self.buffers[s.messages[m].1].remove(&m);
                self.done[2 * m + 1] = true;
            }
        }
    }

    pub fn finished(&self) -> bool {
        self.done.iter().all(|d| *d)
    }

    pub fn steps(&self, s: &Scenario, code: u32) -> Vec<Step> {
        let n = s.messages.len();
        let all = (0..n).flat_map(|m| [Step::Send(m), Step::Deliver(m), Step::Consume(m)]);
        all.filter(|t| self.allowed(s, code, *t)).collect()
    }
}

/// Whether some allowed order ends stuck, found by taking every order: the step rules alone, with no word of races.
pub fn can_stop(s: &Scenario, code: u32) -> bool {
    let mut seen = HashSet::new();
    let mut open = vec![State::start(s)];
    while let Some(state) = open.pop() {
        let steps = state.steps(s, code);
        if steps.is_empty() && !state.finished() {
            return true;
        }
        for step in steps {
            let mut next = state.clone();
            next.take(s, step);
            if seen.insert(next.clone()) {
                open.push(next);
            }
        }
    }
    false
}

pub fn schedule(s: &Scenario, code: u32, e: usize) -> Vec<Step> {
    let n = s.messages.len();
    let mut state = State::start(s);
    let mut out = Vec::new();
    loop {
        let may = |t: &Step| state.allowed(s, code, *t);
        let next = (0..n)
            .map(Step::Consume)
            .find(may)
            .or_else(|| Some(Step::Deliver(e)).filter(may))
            .or_else(|| (0..n).filter(|m| s.before[2 * m + 1][2 * e]).map(Step::Deliver).find(may))
            .or_else(|| (0..n).filter(|m| s.at_or_before(2 * m, 2 * e)).map(Step::Send).find(may))
            .or_else(|| (0..n).map(Step::Deliver).find(may))
            .or_else(|| (0..n).map(Step::Send).find(may));
        match next {
            None => return out,
            Some(step) => {
                state.take(s, step);
                out.push(step);
            }
        }
    }
}

// ---------------------------------------------------------------- the answer

pub fn sheet(text: &[u8]) -> Result<Scenario, Refusal> {
    expand(&read(text, false)?)
}

pub fn verdict(s: &Scenario, code: u32) -> Answer {
    for e in 0..s.messages.len() {
        for x in 0..2 * s.messages.len() {
            if s.is_race(code, e, x) {
                return Answer::Locked { e, x, steps: schedule(s, code, e) };
            }
        }
    }
    Answer::Free
}

pub fn answer(sheet: &Result<Scenario, Refusal>, code: u32, scratch: usize, trace: usize) -> Answer {
    if code > 5 {
        return Answer::Refused((1, 0));
    }
    if scratch < SCRATCH_LEAST || trace < TRACE_LEAST {
        return Answer::Refused((2, 0));
    }
    match sheet {
        Err(refusal) => Answer::Refused(*refusal),
        Ok(s) => verdict(s, code),
    }
}

// ---------------------------------------------------------------- request (a): a trace from another tool

#[derive(Debug, PartialEq)]
pub enum Replay {
    Finished,
    Stuck,
    Open,
    NotAllowed(usize),
    Refused(Refusal),
}

/// The step that two bytes tell.
pub fn told(pair: &[u8]) -> Option<Step> {
    let m = usize::from(pair[1]);
    match pair[0] {
        0 => Some(Step::Send(m)),
        1 => Some(Step::Deliver(m)),
        2 => Some(Step::Consume(m)),
        _ => None,
    }
}

/// The verdict on a trace by the step rules, as the request words it.
pub fn replay(sheet: &Result<Scenario, Refusal>, code: u32, scratch: usize, trace: &[u8]) -> Replay {
    if code > 5 {
        return Replay::Refused((1, 0));
    }
    if scratch < SCRATCH_LEAST {
        return Replay::Refused((2, 0));
    }
    if trace.len() % 2 == 1 || trace.len() > TRACE_LEAST {
        return Replay::Refused((12, 0));
    }
    let s = match sheet {
        Err(refusal) => return Replay::Refused(*refusal),
        Ok(s) => s,
    };
    let mut state = State::start(s);
    for (i, pair) in trace.chunks(2).enumerate() {
        match told(pair).filter(|t| state.allowed(s, code, *t)) {
            Some(t) => state.take(s, t),
            None => return Replay::NotAllowed(i),
        }
    }
    if state.finished() {
        Replay::Finished
    } else if state.steps(s, code).is_empty() {
        Replay::Stuck
    } else {
        Replay::Open
    }
}

// ---------------------------------------------------------------- request (f): which event a board waits for

/// On stuck, for each board, the event that the lowest message of its buffer whose receive is unready waits for; 65,535 otherwise.
pub fn waits(sheet: &Result<Scenario, Refusal>, code: u32, scratch: usize, trace: &[u8]) -> [u16; 16] {
    let (Replay::Stuck, Ok(s)) = (replay(sheet, code, scratch, trace), sheet) else { return [u16::MAX; 16] };
    let mut state = State::start(s);
    trace.chunks(2).filter_map(told).for_each(|t| state.take(s, t));
    waits_in(s, &state)
}

/// The same of a state that is stuck.
pub fn waits_in(s: &Scenario, state: &State) -> [u16; 16] {
    let mut out = [u16::MAX; 16];
    for (board, held) in state.buffers.iter().enumerate() {
        if let Some(m) = held.iter().find(|m| !state.ready(s, 2 * **m + 1)) {
            let outstanding = |k: &usize| s.before[*k][2 * m + 1] && s.board(*k) == board && !state.done[*k];
            out[board] = (0..state.done.len()).find(outstanding).unwrap() as u16;
        }
    }
    out
}

// ---------------------------------------------------------------- request (c): a choice between two subprograms

/// A choice list of a file, true where its A row takes n, and what its walk gives.
pub struct List {
    pub options: Vec<bool>,
    pub sheet: Result<Scenario, Refusal>,
}

/// Every choice list of a file, in order: all 256 ways to decide eight A rows are walked, the earlier A row deciding first and m ahead of
/// n, and those that differ only where no A row was met are one list.
pub fn lists(rows: &[Row]) -> Vec<List> {
    let mut out: Vec<List> = Vec::new();
    for way in 0..256 {
        let options: Vec<bool> = (0..8).map(|k| way >> (7 - k) & 1 == 1).collect();
        let mut w = Walk { options: options.clone(), ..Walk::default() };
        let walked = walk(rows, 0, 0, &mut w);
        let met = &options[..w.choices];
        if out.last().map_or(true, |last| last.options != met) {
            out.push(List { options: met.to_vec(), sheet: walked.and_then(|()| scenario(rows, &w)) });
        }
    }
    out
}

#[derive(Clone, PartialEq, Eq, Debug)]
pub enum Choice {
    Free,
    /// which list locks first, and its answer
    Locked { list: usize, answer: Answer },
    Refused(Refusal),
}

/// The answer over all lists, as the request words it.
pub fn choose(file: &Result<Vec<List>, Refusal>, code: u32, scratch: usize, trace: usize) -> Choice {
    if code > 5 {
        return Choice::Refused((1, 0));
    }
    if scratch < SCRATCH_LEAST || trace < TRACE_LEAST {
        return Choice::Refused((2, 0));
    }
    let lists = match file {
        Err(refusal) => return Choice::Refused(*refusal),
        Ok(lists) => lists,
    };
    if let Some(refusal) = lists.iter().find_map(|l| l.sheet.as_ref().err()) {
        return Choice::Refused(*refusal);
    }
    for (list, l) in lists.iter().enumerate() {
        let answer = verdict(l.sheet.as_ref().ok().unwrap(), code);
        if answer != Answer::Free {
            return Choice::Locked { list, answer };
        }
    }
    Choice::Free
}

// ---------------------------------------------------------------- request (g): a live monitor

impl State {
    /// A switch to the code is refused with 14.
    pub fn bars(&self, code: u32) -> bool {
        let crowded = self.buffers.iter().any(|b| b.len() >= 2);
        (code != 1 && code != 3 && crowded) || (code == 5 && self.under_way.len() >= 2)
    }
}

/// The refusals of a monitor's call with a code, before 14.
pub fn watchable(sheet: &Result<Scenario, Refusal>, code: u32, scratch: usize) -> Result<&Scenario, Refusal> {
    if code > 5 {
        return Err((1, 0));
    }
    if scratch < SCRATCH_LEAST {
        return Err((2, 0));
    }
    sheet.as_ref().map_err(|refusal| *refusal)
}

// ---------------------------------------------------------------- request (l): who may send to whom

/// Two sets of boards and a verdict.
pub struct Rule {
    pub from: usize,
    pub to: usize,
    pub permits: bool,
}

#[derive(Clone, Copy, Debug, PartialEq)]
pub enum Soundness {
    Sound,
    Gap(usize),
    Clash(usize, usize, usize),
}

fn up_to(field: &[u8], most: usize) -> Option<usize> {
    let plain = !field.is_empty() && field.len() <= 5 && field.iter().all(u8::is_ascii_digit) && (field.len() == 1 || field[0] != b'0');
    let n = field.iter().fold(0, |n, d| 10 * n + usize::from(d.wrapping_sub(b'0')));
    (plain && n <= most).then_some(n)
}

/// The rules of a table, or the line that 18 reports.
pub fn rules(table: &[u8]) -> Result<Vec<Rule>, u32> {
    if table.is_empty() || table.len() > 8192 {
        return Err(0);
    }
    let mut rules = Vec::new();
    for (i, (line, ended)) in lines(table).into_iter().enumerate() {
        let fields: Vec<&[u8]> = line.split(|b| *b == b' ').collect();
        let number = |k: usize, most: usize| fields.get(k).and_then(|f| up_to(f, most));
        if !ended || fields.len() != 3 || i > 64 {
            return Err(i as u32 + 1);
        }
        if i == 0 {
            if line != b"from to verdict" {
                return Err(1);
            }
            continue;
        }
        match (number(0, 65535), number(1, 65535), number(2, 1)) {
            (Some(from), Some(to), Some(verdict)) => rules.push(Rule { from, to, permits: verdict == 1 }),
            _ => return Err(i as u32 + 1),
        }
    }
    Ok(rules)
}

/// Each of the 256 pairs is in exactly one rule, else the lowest that is not.
pub fn soundness(rules: &[Rule]) -> Soundness {
    for pair in 0..256 {
        let with: Vec<usize> = (0..rules.len()).filter(|k| covers(&rules[*k], pair / 16, pair % 16)).collect();
        match with[..] {
            [] => return Soundness::Gap(pair),
            [_] => {}
            [a, b, ..] => return Soundness::Clash(pair, a + 2, b + 2),
        }
    }
    Soundness::Sound
}

pub fn covers(rule: &Rule, sender: usize, receiver: usize) -> bool {
    (rule.from >> sender) & 1 == 1 && (rule.to >> receiver) & 1 == 1
}

/// The check with a table: 1, 2, 3, then 18, then the sheet's refusals, then 19 for the first message met that is forbidden.
pub fn permit(text: &[u8], code: u32, scratch: usize, trace: usize, table: &[u8]) -> Answer {
    let plain = answer(&sheet(text), code, scratch, trace);
    if let Answer::Refused((1..=3, _)) = plain {
        return plain;
    }
    let rules = match rules(table) {
        Err(line) => return Answer::Refused((18, line)),
        Ok(rules) if soundness(&rules) != Soundness::Sound => return Answer::Refused((18, 0)),
        Ok(rules) => rules,
    };
    if matches!(plain, Answer::Refused(_)) {
        return plain;
    }
    let rows = read(text, false).expect("a sheet that is accepted");
    let mut met = Vec::new();
    walked(&rows, 0, &mut met);
    let forbidden = |(_, a, b): &&(u32, usize, usize)| rules.iter().any(|r| covers(r, *a, *b) && !r.permits);
    match met.iter().find(forbidden) {
        Some((line, _, _)) => Answer::Refused((19, *line)),
        None => plain,
    }
}

/// The lowest line of a message met that is forbidden, which need not be the first met.
pub fn lowest_forbidden_line(text: &[u8], table: &[u8]) -> Option<u32> {
    let (rows, rules) = (read(text, false).ok()?, rules(table).ok()?);
    let mut met = Vec::new();
    walked(&rows, 0, &mut met);
    met.iter().filter(|(_, a, b)| rules.iter().any(|r| covers(r, *a, *b) && !r.permits)).map(|m| m.0).min()
}

/// The messages of an accepted sheet, in walk order: the line of the M row, the sender and the receiver of each.
pub fn messages(text: &[u8]) -> Vec<(u32, usize, usize)> {
    let rows = read(text, false).expect("a sheet that is accepted");
    let mut met = Vec::new();
    walked(&rows, 0, &mut met);
    met
}

/// The messages of an accepted sheet in walk order, each with the line of its M row.
fn walked(rows: &[Row], sheet: usize, met: &mut Vec<(u32, usize, usize)>) {
    let start = rows.iter().position(|r| matches!(r, Row::Sheet(n) if *n == sheet)).expect("a sheet that is there");
    for (i, row) in rows.iter().enumerate().skip(start + 1) {
        match row {
            Row::Sheet(_) => return,
            Row::Message(a, b) => met.push((i as u32 + 2, *a, *b)),
            Row::Call(n) => walked(rows, *n, met),
            _ => {}
        }
    }
}

// ---------------------------------------------------------------- request (i): the loosest change that cures a sheet

pub const OUTPUT_LEAST: usize = 8192;

/// The cured order, from the request's words: sends before receives, and an order only where it ends in a send, closed transitively.
pub fn cured(s: &Scenario) -> Vec<Vec<bool>> {
    let n = 2 * s.messages.len();
    let own = |x: usize, y: usize| x % 2 == 0 && y == x + 1;
    let mut order: Vec<Vec<bool>> = (0..n).map(|x| (0..n).map(|y| own(x, y) || (y % 2 == 0 && s.before[x][y])).collect()).collect();
    close(&mut order);
    order
}

/// The order, closed transitively.
fn close(order: &mut [Vec<bool>]) {
    for k in 0..order.len() {
        let through = order[k].clone();
        for row in order.iter_mut().filter(|row| row[k]) {
            row.iter_mut().zip(&through).for_each(|(a, b)| *a |= b);
        }
    }
}

/// The rows of the cured sheet: the M rows, then a P row for each same-board pair of the cured order with no event of any board between
/// them, unless they are a message's own two, by x and then y.
fn cured_rows(s: &Scenario) -> Vec<String> {
    let n = 2 * s.messages.len();
    let order = cured(s);
    let mut rows = vec!["S 0 0\n".to_string()];
    rows.extend(s.messages.iter().map(|(a, b)| format!("M {} {}\n", a, b)));
    for x in 0..n {
        for y in 0..n {
            let own = x % 2 == 0 && y == x + 1;
            if order[x][y] && !own && s.board(x) == s.board(y) && !(0..n).any(|z| order[x][z] && order[z][y]) {
                rows.push(format!("P {} {}\n", x, y));
            }
        }
    }
    rows
}

/// The text, or the refusal: 2 for the scratch or the output, then the sheet's, and 15 last.
pub fn cure(sheet: &Result<Scenario, Refusal>, scratch: usize, output: usize) -> Result<Vec<u8>, Refusal> {
    if scratch < SCRATCH_LEAST || output < OUTPUT_LEAST {
        return Err((2, 0));
    }
    let rows = cured_rows(sheet.as_ref().map_err(|refusal| *refusal)?);
    if rows.len() > ROWS {
        return Err((15, 0));
    }
    Ok(["kind one two\n", &rows.concat()].concat().into_bytes())
}

// ---------------------------------------------------------------- request (m): two taps on one machine

pub const NUMBERS_LEAST: usize = 512;

#[derive(Clone, PartialEq, Eq, Debug)]
pub enum Tapped {
    Fit(Vec<u16>),
    Clash(usize),
    Refused(Refusal),
}

/// The events are in the sheet, and none is twice in the list.
fn is_list(s: &Scenario, list: &[u16]) -> bool {
    list.iter().all(|x| usize::from(*x) < 2 * s.messages.len()) && list.iter().collect::<BTreeSet<_>>().len() == list.len()
}

/// What is sooner than what: by "before", and by each list for all its pairs.
pub fn sooner(s: &Scenario, lists: [&[u16]; 2]) -> Vec<Vec<bool>> {
    let mut order = s.before.clone();
    for list in lists {
        for (i, x) in list.iter().enumerate() {
            list[i + 1..].iter().for_each(|y| order[usize::from(*x)][usize::from(*y)] = true);
        }
    }
    order
}

/// All events: always the lowest that has nothing left before it. None where there is no such event.
fn course(order: &[Vec<bool>]) -> Option<Vec<u16>> {
    let n = order.len();
    let mut left: Vec<bool> = vec![true; n];
    let mut course = Vec::new();
    for _ in 0..n {
        let next = (0..n).find(|k| left[*k] && !(0..n).any(|x| left[x] && order[x][*k]))?;
        left[next] = false;
        course.push(next as u16);
    }
    Some(course)
}

/// The answer on two taps: 2 for the scratch or the output, then the sheet's refusal, then 20, the first list first.
pub fn tapped(sheet: &Result<Scenario, Refusal>, scratch: usize, lists: [&[u16]; 2], output: usize) -> Tapped {
    if scratch < SCRATCH_LEAST || output < NUMBERS_LEAST {
        return Tapped::Refused((2, 0));
    }
    let s = match sheet {
        Ok(s) => s,
        Err(refusal) => return Tapped::Refused(*refusal),
    };
    if let Some(wrong) = lists.iter().position(|list| !is_list(s, list)) {
        return Tapped::Refused((20, wrong as u32 + 1));
    }
    let mut order = sooner(s, lists);
    match course(&order) {
        Some(course) => Tapped::Fit(course),
        None => {
            close(&mut order);
            Tapped::Clash((0..order.len()).find(|x| order[*x][*x]).expect("no course, and no circle"))
        }
    }
}
