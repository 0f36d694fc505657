//! A sheet to judge, as its file has it or made from a diagram; and what it is called by.

use crate::diagram::{self, Arrow, Diagram, Item, Unfit};
use crate::face::{BOARDS, MESSAGES, TEXT_BYTES};
use crate::input::{Failure, Source};
use crate::refusals::{ROWS_MOST, SHEET_MOST};
use crate::rows;

pub struct Sheet {
    pub name: String,
    pub bytes: Vec<u8>,
    /// What it was made from, if it was drawn.
    pub drawn: Option<Drawn>,
}

/// The diagram of a sheet: its text, its participants by board, and of each row of the sheet, by line, the line that it was drawn on and its words.
pub struct Drawn {
    pub text: Vec<u8>,
    pub names: Vec<String>,
    pub rows: Vec<(usize, String)>,
}

impl Sheet {
    /// The text that a person wrote.
    pub fn written(&self) -> &[u8] {
        self.drawn.as_ref().map_or(&self.bytes, |d| &d.text)
    }
}

/// A file as a sheet: as it is, or made from the diagram in it.
pub fn of(source: Source) -> Result<Sheet, Failure> {
    if !diagram::is_diagram(&source.bytes) {
        return Ok(Sheet { name: source.name, bytes: source.bytes, drawn: None });
    }
    source.is_whole("diagram")?;
    match diagram::read(&source.bytes).and_then(|d| made(&d)) {
        Ok((bytes, names, rows)) => Ok(Sheet { name: source.name, bytes, drawn: Some(Drawn { text: source.bytes, names, rows }) }),
        Err(u) => {
            let words = rows::lines(&source.bytes).0.get(u.line - 1).map_or(String::new(), |l| crate::input::shown(trimmed(l)));
            Err(Failure::refused(format!("{}: diagram line {}, `{}`: {}", source.name, u.line, words, u.why)))
        }
    }
}

type Made = (Vec<u8>, Vec<String>, Vec<(usize, String)>);

fn made(d: &Diagram) -> Result<Made, Unfit> {
    let mut w = Writer { text: Vec::new(), rows: Vec::new(), sheets: 1, empty: None, messages: 0, last: Default::default() };
    w.row("kind one two", 0, "")?;
    w.sheet(0, &d.items, 0)?;
    Ok((w.text, d.names.clone(), w.rows))
}

/// Writes the rows of a diagram. `last` has, for each board, the events of the open block that nothing follows yet.
struct Writer {
    text: Vec<u8>,
    rows: Vec<(usize, String)>,
    sheets: usize,
    empty: Option<usize>,
    messages: usize,
    last: [Vec<usize>; BOARDS],
}

impl Writer {
    fn row(&mut self, words: &str, line: usize, label: &str) -> Result<(), Unfit> {
        self.text.extend_from_slice(words.as_bytes());
        self.text.push(b'\n');
        self.rows.push((line, label.to_string()));
        let unfit = |why: String| Err(Unfit { line, why });
        if self.rows.len() > ROWS_MOST + 1 {
            return unfit(format!("the sheet of this diagram has its row {} here, and may have {}", ROWS_MOST + 1, ROWS_MOST));
        }
        if self.text.len() > TEXT_BYTES {
            return unfit(format!("the sheet of this diagram passes {} bytes here", TEXT_BYTES));
        }
        Ok(())
    }

    fn new_sheet(&mut self, line: usize) -> Result<usize, Unfit> {
        if self.sheets > SHEET_MOST {
            return Err(Unfit { line, why: format!("the choices of this diagram make more than {} sheets", SHEET_MOST + 1) });
        }
        self.sheets += 1;
        Ok(self.sheets - 1)
    }

    fn block(&mut self) {
        self.messages = 0;
        self.last = Default::default();
    }

    /// A sheet with these items, and after it those that it chooses between.
    fn sheet(&mut self, number: usize, items: &[Item], line: usize) -> Result<(), Unfit> {
        self.row(&format!("S {} 0", number), line, "")?;
        self.block();
        let mut ways = Vec::new();
        for item in items {
            if let Item::Choice { line, ways: [first, second] } = item {
                let m = self.new_sheet(*line)?;
                ways.push((m, first, *line));
                let n = self.other(second, *line, &mut ways)?;
                self.row(&format!("A {} {}", m, n), *line, "")?;
                self.block();
            } else {
                self.item(item)?;
            }
        }
        ways.into_iter().try_for_each(|(number, items, line)| self.sheet(number, items, line))
    }

    /// The second sheet of a choice; all that are empty are one.
    fn other<'a>(&mut self, items: &'a Vec<Item>, line: usize, ways: &mut Vec<(usize, &'a Vec<Item>, usize)>) -> Result<usize, Unfit> {
        match self.empty {
            Some(n) if items.is_empty() => return Ok(n),
            _ => {}
        }
        let n = self.new_sheet(line)?;
        ways.push((n, items, line));
        if items.is_empty() {
            self.empty = Some(n);
        }
        Ok(n)
    }

    fn item(&mut self, item: &Item) -> Result<(), Unfit> {
        match item {
            Item::Arrow(a) => self.arrow(a),
            Item::Beside(branches) => self.beside(branches),
            // the reader takes no choice beside other branches, and a sheet's own are written with it
            Item::Choice { line, .. } => Err(Unfit { line: *line, why: "a choice cannot stand here".to_string() }),
        }
    }

    fn arrow(&mut self, a: &Arrow) -> Result<(), Unfit> {
        if self.messages == MESSAGES {
            return Err(Unfit { line: a.line, why: format!("it is arrow {} of its block, which may have {}", MESSAGES + 1, MESSAGES) });
        }
        let (send, receive) = (2 * self.messages, 2 * self.messages + 1);
        self.messages += 1;
        self.row(&format!("M {} {}", a.from, a.to), a.line, &a.label)?;
        self.event(a.from, send, a.line)?;
        self.event(a.to, receive, a.line)
    }

    /// An event after those that nothing follows yet; a message's own send and receive need no row.
    fn event(&mut self, board: usize, event: usize, line: usize) -> Result<(), Unfit> {
        let ahead = std::mem::replace(&mut self.last[board], vec![event]);
        for x in ahead.into_iter().filter(|x| x / 2 != event / 2) {
            self.row(&format!("P {} {}", x, event), line, "")?;
        }
        Ok(())
    }

    /// Each branch goes on from what was last; after them all, what is last in any.
    fn beside(&mut self, branches: &[Vec<Item>]) -> Result<(), Unfit> {
        let ahead = self.last.clone();
        let mut after: [Vec<usize>; BOARDS] = Default::default();
        for branch in branches {
            self.last = ahead.clone();
            branch.iter().try_for_each(|i| self.item(i))?;
            for board in (0..BOARDS).filter(|b| self.last[*b] != ahead[*b]) {
                after[board].append(&mut self.last[board].clone());
            }
        }
        for board in 0..BOARDS {
            self.last[board] = if after[board].is_empty() { ahead[board].clone() } else { after[board].clone() };
        }
        Ok(())
    }
}

/// A line without the white space around its words.
pub fn trimmed(line: &[u8]) -> &[u8] {
    let start = line.iter().position(|b| !b.is_ascii_whitespace()).unwrap_or(line.len());
    let end = line.iter().rposition(|b| !b.is_ascii_whitespace()).map_or(start, |e| e + 1);
    &line[start..end]
}
