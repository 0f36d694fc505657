//! A refusal in words: its number and word, its line and that line's text, and the cause where the line shows it.
//! The cause is looked for in the line that the library named; what the line does not show is left at the library's word.

use crate::face::{self, Refusal, Senders};
use crate::input::{shown, MOST_BYTES};
use crate::rows::{self, Row};
use crate::sheet::{Drawn, Sheet};
use crate::words;

/// The refusals by their numbers, as the paper and the requests count them.
pub const CHANNEL: u32 = 1;
const LENGTH: u32 = 3;
const HEADING: u32 = 4;
const ROW: u32 = 5;
const PLACE: u32 = 6;
const ABSENT: u32 = 7;
const DEPTH: u32 = 8;
const CALLS: u32 = 9;
const MESSAGES: u32 = 10;
const CIRCLE: u32 = 11;
pub const TRACE: u32 = 12;
const CHOICES: u32 = 13;
pub const SWITCH: u32 = 14;
const ROWS: u32 = 15;
const JOBS: u32 = 16;
pub const TABLE: u32 = 18;
const FORBIDDEN: u32 = 19;
const TAP: u32 = 20;

const NUMBER_MOST: usize = face::EVENTS - 1;
const SET_MOST: usize = 65_535;
pub const ROWS_MOST: usize = 512;
const RULES_MOST: usize = 64;
pub const SHEET_MOST: usize = 31;
const LEVEL_MOST: usize = 8;
const CALLS_MOST: usize = 1024;
const CHOICES_MOST: usize = 8;

/// What was handed to the library besides the sheet, as far as a refusal may be about it.
#[derive(Clone, Copy, Default)]
pub struct Handed<'a> {
    pub code: u32,
    pub lists: [&'a [u16]; 2],
    pub choices: bool,
    /// Two walks were made.
    pub repeated: bool,
}

/// The refusal of a sheet, as one line.
pub fn of_sheet(r: Refusal, sheet: &Sheet, handed: &Handed) -> String {
    let text = &sheet.bytes;
    if let Some(drawn) = &sheet.drawn {
        return of_drawn(r, drawn, handed);
    }
    let cause = match r.number {
        CHANNEL => Some(channel_cause(handed.code)),
        LENGTH => Some(length_cause(text.len())),
        HEADING => heading_cause(text, "kind, one and two", rows::order(first_line(text)).is_some()),
        ROW => row_cause(text, r.line as usize, handed.choices),
        PLACE => place_cause(text, r.line as usize),
        ABSENT => Some(absent_cause(text, r.line as usize)),
        DEPTH => depth_cause(text, r.line as usize),
        CALLS => Some(format!("the walk makes call {} here, and may make {}{}", CALLS_MOST + 1, CALLS_MOST, over_both(handed))),
        MESSAGES => Some(messages_cause(handed)),
        CIRCLE => circle_cause(text, r.line as usize),
        CHOICES => Some(choices_cause()),
        ROWS => Some(rows_cause(text)),
        JOBS => Some(jobs_cause()),
        FORBIDDEN => forbidden_cause(text, r.line as usize),
        TAP => tap_cause(text, handed.lists, r.line as usize),
        _ => None,
    };
    // the line of this one is the number of a list, and no line of the sheet
    let line = if r.number == TAP { 0 } else { r.line as usize };
    sentence(r, line, text, cause)
}

/// The refusal of a trace, as one line.
pub fn of_trace(r: Refusal, length: usize) -> String {
    sentence(r, 0, b"", Some(trace_cause(length)))
}

/// The refusal of a sheet that was made from a diagram: in the diagram's lines.
fn of_drawn(r: Refusal, drawn: &Drawn, handed: &Handed) -> String {
    let row = (r.line as usize).checked_sub(1).and_then(|at| drawn.rows.get(at));
    let cause = match r.number {
        CHANNEL => Some(channel_cause(handed.code)),
        ROW => Some("an `alt` or `opt` is a choice between two ways: use `channel_tool choices`".to_string()),
        DEPTH => Some(format!("choices inside choices: {} may be open", LEVEL_MOST)),
        MESSAGES => Some(messages_cause(handed)),
        CHOICES => Some(choices_cause()),
        FORBIDDEN => Some("the table does not permit this message".to_string()),
        JOBS => Some(jobs_cause()),
        _ => None,
    };
    let line = row.filter(|_| r.number != TAP).map_or(0, |(line, _)| *line);
    sentence(r, line, &drawn.text, cause).replacen(", line ", ", diagram line ", 1)
}

fn channel_cause(code: u32) -> String {
    format!("no channel has the code {}: they are 0 to {}", code, face::CHANNELS - 1)
}

fn messages_cause(handed: &Handed) -> String {
    format!("the walk meets message {} here, and may meet {}{}", face::MESSAGES + 1, face::MESSAGES, over_both(handed))
}

/// Where a sheet is judged repeated, two walks of it are made, and a limit is for both.
fn over_both(handed: &Handed) -> &'static str {
    if handed.repeated {
        "; two rounds are walked, and the limit is for both"
    } else {
        ""
    }
}

fn choices_cause() -> String {
    format!("the walk meets A row {} here, and may meet {}", CHOICES_MOST + 1, CHOICES_MOST)
}

fn jobs_cause() -> String {
    format!("{} jobs are held already", face::PLACES)
}

/// The refusal of a table of permitted senders, as one line.
pub fn of_table(r: Refusal, table: &[u8]) -> String {
    let cause = match r.line as usize {
        0 => match face::senders(table) {
            Senders::Refused(_) => Some(length_cause(table.len())),
            other => Some(format!("the table is not sound: {}", judgement(&other))),
        },
        1 => heading_cause(table, "from, to and verdict", first_line(table) == b"from to verdict"),
        line => rule_cause(table, line),
    };
    sentence(r, r.line as usize, table, cause)
}

/// What the library says of a table that it read.
pub fn judgement(senders: &Senders) -> String {
    let pair = |p: u32| format!("board {} to board {}", p as usize / face::BOARDS, p as usize % face::BOARDS);
    match senders {
        Senders::Sound => "sound".to_string(),
        Senders::Gap(p) => format!("{} is in no rule", pair(*p)),
        Senders::Clash { pair: p, first, second } => format!("{} is in two rules, lines {} and {}", pair(*p), first, second),
        Senders::Refused(r) => words::refusal(*r),
    }
}

fn sentence(r: Refusal, line: usize, text: &[u8], cause: Option<String>) -> String {
    let mut out = words::refusal(r);
    if line > 0 {
        let (all, _) = rows::lines(text);
        let words = all.get(line - 1).map_or(String::new(), |l| shown(l));
        out.push_str(&format!(", line {}, `{}`", line, words));
    }
    if let Some(c) = cause {
        out.push_str(": ");
        out.push_str(&c);
    }
    out
}

fn length_cause(length: usize) -> String {
    match length {
        0 => "there is nothing in it".to_string(),
        n => length_words("it", n, face::TEXT_BYTES),
    }
}

/// A length that is over its most. What is longer than any input may be was not read to its end.
fn length_words(what: &str, length: usize, most: usize) -> String {
    let (over, told) = if length > MOST_BYTES { ("over ", MOST_BYTES) } else { ("", length) };
    format!("{} has {}{} bytes, and may have {}", what, over, told, most)
}

fn first_line(text: &[u8]) -> &[u8] {
    rows::lines(text).0.first().copied().unwrap_or(b"")
}

/// What is wrong with the bytes of a line, whatever its words are.
fn spacing_cause(line: &[u8], ended: bool) -> Option<String> {
    let says = |words: &str| Some(words.to_string());
    if line.starts_with(b"\xef\xbb\xbf") {
        return says("it begins with a byte order mark: save it as plain text without one");
    }
    if line.contains(&b'\r') {
        return says("it has a carriage return (saved on Windows?): a line ends with a line feed alone");
    }
    if line.contains(&b'\t') {
        return says("it has a tab: one space stands between two fields");
    }
    if let Some(b) = line.iter().find(|b| !(b' '..=b'~').contains(b)) {
        return Some(format!("it has a byte {}, which is no plain letter, digit or space", b));
    }
    if line.is_empty() {
        return says("the line is empty");
    }
    if line.windows(2).any(|w| w == b"  ") {
        return says("it has two spaces side by side");
    }
    if line.ends_with(b" ") {
        return says("it has a space at the end");
    }
    if line.starts_with(b" ") {
        return says("it has a space at the start");
    }
    if !ended {
        return says("the last line has no line end");
    }
    None
}

/// A line, and whether it has its end.
fn line_of(text: &[u8], line: usize) -> (&[u8], bool) {
    let (all, ended) = rows::lines(text);
    (all.get(line - 1).copied().unwrap_or(b""), ended || line < all.len())
}

fn heading_cause(text: &[u8], names: &str, right: bool) -> Option<String> {
    let (line, ended) = line_of(text, 1);
    let told = spacing_cause(line, ended);
    if told.is_none() && right {
        return None;
    }
    told.or_else(|| Some(format!("the first line has the names {}, one space between", names)))
}

/// What is wrong with a number: no digits, a leading zero, or too large.
fn number_cause(field: &[u8], most: usize) -> Option<String> {
    let words = shown(field);
    if field.is_empty() || !field.iter().all(|b| b.is_ascii_digit()) {
        return Some(format!("`{}` is no number", words));
    }
    if field.len() > 1 && field[0] == b'0' {
        return Some(format!("{} has a leading zero", words));
    }
    let fits = words.parse::<usize>().map_or(false, |n| n <= most);
    if fits {
        None
    } else {
        Some(format!("{} is over {}", words, most))
    }
}

/// The three fields of a line, or why it has them not.
fn three_fields<'a>(text: &'a [u8], line: usize, what: &str) -> Result<Vec<&'a [u8]>, String> {
    let (words, ended) = line_of(text, line);
    if let Some(cause) = spacing_cause(words, ended) {
        return Err(cause);
    }
    let fields: Vec<&[u8]> = words.split(|b| *b == b' ').collect();
    if fields.len() != 3 {
        return Err(format!("it has {}, and a {} has three", words::count(fields.len(), "field"), what));
    }
    Ok(fields)
}

fn row_cause(text: &[u8], line: usize, choices: bool) -> Option<String> {
    if line > ROWS_MOST + 1 {
        return Some(format!("it is row {}, and a sheet file has at most {}", line - 1, ROWS_MOST));
    }
    let fields = match three_fields(text, line, "row") {
        Ok(fields) => fields,
        Err(cause) => return Some(cause),
    };
    let order = rows::order(first_line(text))?;
    letter_cause(fields[order[0]], choices)
        .or_else(|| number_cause(fields[order[1]], NUMBER_MOST))
        .or_else(|| number_cause(fields[order[2]], NUMBER_MOST))
        .or_else(|| unused_cause(fields[order[0]], fields[order[1]], fields[order[2]]))
}

fn letter_cause(field: &[u8], choices: bool) -> Option<String> {
    match field {
        b"S" | b"M" | b"P" | b"B" | b"C" => None,
        b"A" if choices => None,
        b"A" => Some("an A row is a choice between two sheets: use `channel_tool choices`".to_string()),
        _ => Some(format!("`{}` is no kind of row: S, M, P, B, C, and A with `choices`", shown(field))),
    }
}

fn unused_cause(kind: &[u8], one: &[u8], two: &[u8]) -> Option<String> {
    let unused = match kind {
        b"B" if one != b"0" => "one",
        b"B" | b"S" | b"C" if two != b"0" => "two",
        _ => return None,
    };
    Some(format!("the field `{}` of such a row is not used, and must be 0", unused))
}

fn place_cause(text: &[u8], line: usize) -> Option<String> {
    let all = rows::rows(text, line);
    let (row, before) = all.split_last()?;
    if row.kind != b'S' && !before.iter().any(|r| r.kind == b'S') {
        return Some("it stands ahead of any S row: no sheet is open".to_string());
    }
    match row.kind {
        b'S' | b'C' | b'A' => sheet_cause(row, before),
        b'M' => message_cause(row, before),
        b'P' => order_cause(row, before),
        _ => None,
    }
}

fn sheet_cause(row: &Row, before: &[Row]) -> Option<String> {
    let over = if row.kind == b'A' { row.one.max(row.two) } else { row.one };
    if over > SHEET_MOST {
        return Some(format!("sheet {} is over {}", over, SHEET_MOST));
    }
    let first = before.iter().find(|r| r.kind == b'S' && r.one == row.one)?;
    Some(format!("sheet {} is opened twice: line {} opens it", row.one, first.line))
}

/// The M rows of the open block.
fn open_block(before: &[Row]) -> Vec<&Row> {
    let from = before.iter().rposition(|r| matches!(r.kind, b'S' | b'B' | b'C' | b'A')).map_or(0, |p| p + 1);
    before[from..].iter().filter(|r| r.kind == b'M').collect()
}

fn message_cause(row: &Row, before: &[Row]) -> Option<String> {
    let over = row.one.max(row.two);
    if over >= face::BOARDS {
        let first = if row.one >= face::BOARDS { row.one } else { row.two };
        return Some(format!("board {} is over {}", first, face::BOARDS - 1));
    }
    if open_block(before).len() < face::MESSAGES {
        return None;
    }
    Some(format!("it is message {} of its block, which may have {}", face::MESSAGES + 1, face::MESSAGES))
}

fn order_cause(row: &Row, before: &[Row]) -> Option<String> {
    let block = open_block(before);
    for e in [row.one, row.two] {
        if e / 2 >= block.len() {
            let have = words::count(block.len(), "message");
            return Some(format!("event {} ({} of the block) is not there yet: the block has {} so far", e, words::deed(e), have));
        }
    }
    if row.one == row.two {
        return Some("an event cannot come before itself".to_string());
    }
    let board = |e: usize| if e % 2 == 0 { block[e / 2].one } else { block[e / 2].two };
    let (x, y) = (board(row.one), board(row.two));
    if x == y {
        return None;
    }
    Some(format!("event {} is on board {} and event {} on board {}: a P row orders events of one board", row.one, x, row.two, y))
}

fn absent_cause(text: &[u8], line: usize) -> String {
    let all = rows::rows(text, usize::MAX);
    let row = match all.iter().find(|r| r.line == line) {
        Some(r) => r,
        None => return "sheet 0 is never opened: no row is `S 0 0`".to_string(),
    };
    let opened = |n: usize| all.iter().any(|r| r.kind == b'S' && r.one == n);
    let absent = if row.kind == b'A' && opened(row.one) { row.two } else { row.one };
    format!("it calls sheet {}, which no row opens", absent)
}

/// The calls that lead from sheet 0 to a row at the deepest level, in the walk's order.
fn path_to(all: &[Row], line: usize, number: usize, tried: &mut Vec<(usize, usize)>, path: &mut Vec<Row>) -> bool {
    if tried.contains(&(number, path.len())) {
        return false;
    }
    tried.push((number, path.len()));
    for row in rows::sheet(all, number).iter().filter(|r| r.kind == b'C' || r.kind == b'A') {
        path.push(*row);
        if path.len() > LEVEL_MOST {
            if row.line == line {
                return true;
            }
        } else if path_to(all, line, row.one, tried, path) || (row.kind == b'A' && path_to(all, line, row.two, tried, path)) {
            return true;
        }
        path.pop();
    }
    false
}

fn depth_cause(text: &[u8], line: usize) -> Option<String> {
    let all = rows::rows(text, usize::MAX);
    let (mut tried, mut path) = (Vec::new(), Vec::new());
    if !path_to(&all, line, 0, &mut tried, &mut path) {
        return None;
    }
    let lines: Vec<String> = path.iter().map(|r| r.line.to_string()).collect();
    Some(format!("the path of calls is too deep: lines {}, and {} calls may be open", lines.join(", "), LEVEL_MOST))
}

fn circle_cause(text: &[u8], line: usize) -> Option<String> {
    let all = rows::rows(text, line);
    let row = all.last()?;
    Some(format!("the rows of the block above it put event {} before event {} already, so that an event would come before itself", row.two, row.one))
}

/// The rows that a cure has in any case, and what it has room for.
fn rows_cause(text: &[u8]) -> String {
    let messages = face::messages(text).map_or(0, |m| m.len());
    let room = ROWS_MOST.saturating_sub(1 + messages);
    format!("the cure has over {} rows: one S row, {}, and more than {} P rows", ROWS_MOST, words::count(messages, "M row"), room)
}

fn trace_cause(length: usize) -> String {
    if length > face::TRACE_BYTES {
        return length_words("the trace", length, face::TRACE_BYTES);
    }
    format!("the trace has {}, and a step has two", words::count(length, "byte"))
}

fn forbidden_cause(text: &[u8], line: usize) -> Option<String> {
    let all = rows::rows(text, line);
    let row = all.last()?;
    Some(format!("the table does not permit board {} to send to board {}", row.one, row.two))
}

fn tap_cause(text: &[u8], lists: [&[u16]; 2], which: usize) -> Option<String> {
    let at = which.checked_sub(1)?;
    let (list, name) = (lists.get(at)?, ["first", "second"].get(at)?);
    let events = 2 * face::messages(text).ok()?.len();
    for (i, e) in list.iter().enumerate() {
        if usize::from(*e) >= events {
            // what is too large for a list was read as the largest number of one
            let over = if *e == u16::MAX { " or more" } else { "" };
            return Some(format!("the {} list has event {}{}, and the sheet has {} only", name, e, over, words::count(events, "event")));
        }
        if list[..i].contains(e) {
            return Some(format!("the {} list has event {} twice", name, e));
        }
    }
    None
}

fn rule_cause(table: &[u8], line: usize) -> Option<String> {
    if line > RULES_MOST + 1 {
        return Some(format!("it is rule {}, and a table has at most {}", line - 1, RULES_MOST));
    }
    let fields = match three_fields(table, line, "rule") {
        Ok(fields) => fields,
        Err(cause) => return Some(cause),
    };
    number_cause(fields[0], SET_MOST).or_else(|| number_cause(fields[1], SET_MOST)).or_else(|| match fields[2] {
        b"0" | b"1" => None,
        other => Some(format!("`{}` is no verdict: 1 is permitted and 0 is not", shown(other))),
    })
}
