//! The sheet of one choice list: a file without A rows that has the same walk, so that the other calls can speak of it.

use crate::face;
use crate::refusals::SHEET_MOST;
use crate::rows::{self, Met, Row};
use crate::sheet::Sheet;
use crate::words::Named;

/// Why a choice list has no sheet file of its own.
pub const NO_SHEET: &str = "one A row takes both of its sheets, and the walk does not fit one sheet file";

pub struct Chosen {
    pub text: Vec<u8>,
    /// The messages, with the lines of the file that has the choices.
    pub named: Named,
}

/// A line for each A row that the walk meets, with the sheet that it takes; of a diagram, for each choice, the way that it takes.
pub fn options(sheet: &Sheet, length: u32, second: u32) -> Vec<String> {
    let mut out = Vec::new();
    for met in rows::walk(&rows::rows(&sheet.bytes, usize::MAX), second) {
        if let Met::Choice(row, taken) = met {
            out.push(option(sheet, out.len(), &row, taken, second));
        }
    }
    out.truncate(length as usize);
    out
}

fn option(sheet: &Sheet, k: usize, row: &Row, taken: usize, second: u32) -> String {
    match sheet.drawn.as_ref().and_then(|d| d.rows.get(row.line.wrapping_sub(1))) {
        Some((line, _)) => format!("choice {}, diagram line {}: the {} way", k, line, ["first", "second"][(second >> (k % 32) & 1) as usize]),
        None => format!("A row {}, line {}: sheet {}", k, row.line, taken),
    }
}

/// The sheet of a list, where a sheet file can have it.
pub fn sheet(sheet: &Sheet, second: u32) -> Option<Chosen> {
    let all = rows::rows(&sheet.bytes, usize::MAX);
    let met = rows::walk(&all, second);
    with_calls(sheet, &all, &met).or_else(|| in_one_sheet(sheet, &met))
}

/// Each A row as a call of the sheet that it takes, where it always takes the same one: all lines stay where they are.
fn with_calls(sheet: &Sheet, all: &[Row], met: &[Met]) -> Option<Chosen> {
    let mut out = b"kind one two\n".to_vec();
    for row in all {
        let mut taken = met.iter().filter_map(|m| match m {
            Met::Choice(r, taken) if r.line == row.line => Some(*taken),
            _ => None,
        });
        let first = taken.next().unwrap_or(row.one);
        if taken.any(|t| t != first) {
            return None;
        }
        let words = if row.kind == b'A' { format!("C {} 0\n", first) } else { words(row) };
        out.extend_from_slice(words.as_bytes());
    }
    let lines = rows::lines(&sheet.bytes).0.len();
    if rows::lines(&out).0.len() != lines {
        return None;
    }
    named(out, sheet, |line| line)
}

fn words(row: &Row) -> String {
    format!("{} {} {}\n", char::from(row.kind), row.one, row.two)
}

/// Two rounds of a sheet as one walk: a sheet that calls it twice or, where that does not fit, its rows twice as one sheet.
pub fn twice(sheet: &Sheet) -> Option<Vec<u8>> {
    let all = rows::rows(&sheet.bytes, usize::MAX);
    let fits = |text: &Vec<u8>| face::messages(text).is_ok();
    called_twice(&all).filter(fits).or_else(|| {
        let met = rows::walk(&all, 0);
        in_one_sheet(sheet, &[&met[..], &[Met::BlockEnd], &met[..]].concat()).map(|c| c.text).filter(fits)
    })
}

fn called_twice(all: &[Row]) -> Option<Vec<u8>> {
    let free = (1..=SHEET_MOST).find(|n| !all.iter().any(|r| r.kind == b'S' && r.one == *n))?;
    let mut out = format!("kind one two\nS 0 0\nC {0} 0\nC {0} 0\n", free).into_bytes();
    for row in all {
        let moved = matches!(row.kind, b'S' | b'C') && row.one == 0;
        out.extend_from_slice(words(&Row { one: if moved { free } else { row.one }, ..*row }).as_bytes());
    }
    Some(out)
}

/// The rows of the walk as one sheet, block after block, where they fit.
fn in_one_sheet(sheet: &Sheet, met: &[Met]) -> Option<Chosen> {
    let (mut out, mut lines, mut ended) = (b"kind one two\nS 0 0\n".to_vec(), vec![0, 0, 0], false);
    for m in met {
        match m {
            Met::Row(row) => {
                if ended {
                    out.extend_from_slice(b"B 0 0\n");
                    lines.push(0);
                    ended = false;
                }
                out.extend_from_slice(words(row).as_bytes());
                lines.push(row.line);
            }
            // blocks without rows change nothing
            Met::BlockEnd | Met::Choice(..) => ended = true,
        }
    }
    named(out, sheet, |line| lines.get(line).copied().unwrap_or(0))
}

fn named(text: Vec<u8>, sheet: &Sheet, line: impl Fn(usize) -> usize) -> Option<Chosen> {
    let mut messages = face::messages(&text).ok()?;
    messages.iter_mut().for_each(|m| m.line = line(m.line));
    Some(Chosen { text, named: Named::of(messages, sheet) })
}
