//! A sequence diagram in Mermaid's text, read: its participants, and its arrows in the order drawn. Nothing is guessed: what has no meaning here is
//! passed over, and what could have another is refused with its line and its word. docs/TOOL.md has the meaning.

use crate::face::BOARDS;
use crate::input::shown;

/// What a drawing has, one thing below the other.
pub enum Item {
    Arrow(Arrow),
    /// One of two ways. An `opt` has a second way with nothing in it.
    Choice { line: usize, ways: [Vec<Item>; 2] },
    /// Branches side by side, with no order between them.
    Beside(Vec<Vec<Item>>),
}

/// A message: its boards, its words, and the line where it is drawn.
pub struct Arrow {
    pub line: usize,
    pub from: usize,
    pub to: usize,
    pub label: String,
}

pub struct Diagram {
    /// The participants' names, by board.
    pub names: Vec<String>,
    pub items: Vec<Item>,
}

/// Why a drawing is refused: its line, and what is wrong there.
pub struct Unfit {
    pub line: usize,
    pub why: String,
}

const FIRST_WORD: &[u8] = b"sequenceDiagram";

/// Whether a text is a diagram: its first word says so.
pub fn is_diagram(text: &[u8]) -> bool {
    let start = text.iter().position(|b| !b.is_ascii_whitespace()).unwrap_or(text.len());
    let rest = &text[start..];
    rest.starts_with(FIRST_WORD) && rest.get(FIRST_WORD.len()).map_or(true, |b| b.is_ascii_whitespace())
}

/// The frames that are open while a diagram is read.
enum Open {
    /// `rect` and `box`: what is in them stands where it would without them.
    Frame,
    Alt { line: usize, first: Option<Vec<Item>> },
    Opt { line: usize },
    Par { branches: Vec<Vec<Item>> },
}

struct Reader {
    ids: Vec<String>,
    names: Vec<String>,
    /// Each open frame, its word, and the items ahead of it in the frame around it.
    open: Vec<(Open, &'static str, Vec<Item>)>,
    items: Vec<Item>,
    line: usize,
}

pub fn read(text: &[u8]) -> Result<Diagram, Unfit> {
    let mut r = Reader { ids: Vec::new(), names: Vec::new(), open: Vec::new(), items: Vec::new(), line: 0 };
    let mut begun = false;
    for (i, line) in text.split(|b| *b == b'\n').enumerate() {
        r.line = i + 1;
        let words = match std::str::from_utf8(line) {
            Ok(w) => w.trim(),
            Err(_) => return Err(r.unfit(format!("`{}` is no text in UTF-8", shown(line)))),
        };
        if words.is_empty() || words.starts_with("%%") {
            continue;
        }
        if !begun {
            begun = true;
            r.heading(words)?;
            continue;
        }
        r.statement(words)?;
    }
    if let Some((_, word, _)) = r.open.last() {
        return Err(r.unfit(format!("`{}` has no `end`", word)));
    }
    Ok(Diagram { names: r.names, items: r.items })
}

/// A line's first word, and the rest of it.
fn cut(words: &str) -> (&str, &str) {
    match words.split_once(|c: char| c.is_whitespace()) {
        Some((first, rest)) => (first, rest.trim()),
        None => (words, ""),
    }
}

impl Reader {
    fn unfit(&self, why: String) -> Unfit {
        Unfit { line: self.line, why }
    }

    fn heading(&self, words: &str) -> Result<(), Unfit> {
        if words.as_bytes() == FIRST_WORD {
            return Ok(());
        }
        Err(self.unfit("the first line has `sequenceDiagram` alone".to_string()))
    }

    fn statement(&mut self, words: &str) -> Result<(), Unfit> {
        if words.chars().any(|c| c.is_control() && c != '\t') {
            return Err(self.unfit("it has a control character".to_string()));
        }
        if words.contains(';') {
            return Err(self.unfit("a `;` ends a statement: put each on a line of its own".to_string()));
        }
        let (first, rest) = cut(words);
        match first.trim_end_matches(':') {
            "participant" | "actor" => self.participant(rest),
            "Note" | "note" | "autonumber" | "activate" | "deactivate" | "title" | "accTitle" | "accDescr" => Ok(()),
            "rect" => self.open_frame(Open::Frame, "rect"),
            "box" => self.open_frame(Open::Frame, "box"),
            "alt" => self.open_frame(Open::Alt { line: self.line, first: None }, "alt"),
            "opt" => self.open_frame(Open::Opt { line: self.line }, "opt"),
            "par" => self.open_frame(Open::Par { branches: Vec::new() }, "par"),
            "else" => self.other_way(),
            "and" => self.next_branch(),
            "end" if rest.is_empty() => self.close_frame(),
            "loop" => Err(self.unfit("a `loop` has no end in a sheet: put what is in it into a file of its own, and ask `channel_tool rounds`".to_string())),
            word @ ("critical" | "option" | "break" | "create" | "destroy") => Err(self.unfit(format!("`{}` has no meaning in a sheet", word))),
            word => self.arrow(words, word),
        }
    }

    fn participant(&mut self, rest: &str) -> Result<(), Unfit> {
        let (id, name) = match rest.split_once(" as ") {
            Some((id, name)) => (id.trim(), name.trim()),
            None => (rest, rest),
        };
        if id.is_empty() || name.is_empty() {
            return Err(self.unfit("a participant without a name".to_string()));
        }
        if self.ids.iter().any(|known| known == id) {
            return Err(self.unfit(format!("participant `{}` is there already", id)));
        }
        self.board(id, name).map(|_| ())
    }

    /// The board of a participant; one that is new gets the next.
    fn board(&mut self, id: &str, name: &str) -> Result<usize, Unfit> {
        if let Some(at) = self.ids.iter().position(|known| known == id) {
            return Ok(at);
        }
        if self.ids.len() == BOARDS {
            return Err(self.unfit(format!("`{}` is participant {}, and a sheet has {} boards", id, BOARDS + 1, BOARDS)));
        }
        self.ids.push(id.to_string());
        self.names.push(name.to_string());
        Ok(self.ids.len() - 1)
    }

    /// A frame holds choices only where an order goes through it: not beside other branches.
    fn open_frame(&mut self, open: Open, word: &'static str) -> Result<(), Unfit> {
        let is_choice = matches!(open, Open::Alt { .. } | Open::Opt { .. });
        if is_choice && self.open.iter().any(|(o, _, _)| matches!(o, Open::Par { .. })) {
            return Err(self.unfit(format!("`{}` inside `par`: a sheet orders its blocks one after the other, so a choice cannot stand beside another branch", word)));
        }
        let ahead = std::mem::take(&mut self.items);
        // what a frame without meaning holds goes on in the same list
        if matches!(open, Open::Frame) {
            self.items = ahead;
            self.open.push((open, word, Vec::new()));
        } else {
            self.open.push((open, word, ahead));
        }
        Ok(())
    }

    fn other_way(&mut self) -> Result<(), Unfit> {
        let here = std::mem::take(&mut self.items);
        match self.open.last_mut() {
            Some((Open::Alt { first, .. }, _, _)) if first.is_none() => {
                *first = Some(here);
                Ok(())
            }
            Some((Open::Alt { .. }, _, _)) => Err(self.unfit("an `alt` has one `else`: a choice is between two".to_string())),
            _ => Err(self.unfit("an `else` outside of `alt`".to_string())),
        }
    }

    fn next_branch(&mut self) -> Result<(), Unfit> {
        let here = std::mem::take(&mut self.items);
        match self.open.last_mut() {
            Some((Open::Par { branches }, _, _)) => {
                branches.push(here);
                Ok(())
            }
            _ => Err(self.unfit("an `and` outside of `par`".to_string())),
        }
    }

    fn close_frame(&mut self) -> Result<(), Unfit> {
        let (open, _, ahead) = match self.open.pop() {
            Some(o) => o,
            None => return Err(self.unfit("an `end` with nothing open".to_string())),
        };
        if matches!(open, Open::Frame) {
            return Ok(());
        }
        let here = std::mem::replace(&mut self.items, ahead);
        let item = match open {
            Open::Alt { line, first: Some(first) } => Item::Choice { line, ways: [first, here] },
            Open::Alt { line, first: None } => return Err(Unfit { line, why: "an `alt` without `else`: use `opt`".to_string() }),
            Open::Opt { line } => Item::Choice { line, ways: [here, Vec::new()] },
            Open::Par { mut branches } => {
                branches.push(here);
                Item::Beside(branches)
            }
            Open::Frame => return Ok(()),
        };
        self.items.push(item);
        Ok(())
    }

    fn arrow(&mut self, words: &str, word: &str) -> Result<(), Unfit> {
        let (ends, label) = match words.split_once(':') {
            Some((e, l)) => (e.trim(), l.trim()),
            None => (words, ""),
        };
        let found = splits(ends);
        let known: Vec<&(&str, &str)> = found.iter().filter(|(a, b)| self.ids.iter().any(|i| i == a) && self.ids.iter().any(|i| i == b)).collect();
        let (from, to) = match (&known[..], &found[..]) {
            ([one], _) => **one,
            (_, [one]) => *one,
            (_, []) => return Err(self.unfit(format!("`{}` begins nothing that is known here", shown(word.as_bytes())))),
            _ => return Err(self.unfit("this arrow can be read in two ways: declare its participants ahead of it".to_string())),
        };
        let (from, to) = (self.board(from, from)?, self.board(to, to)?);
        self.items.push(Item::Arrow(Arrow { line: self.line, from, to, label: label.to_string() }));
        Ok(())
    }
}

/// The arrows, the longer ahead of those that they begin with.
const ARROWS: [&str; 8] = ["-->>", "->>", "-->", "--x", "--)", "->", "-x", "-)"];

/// The ways to read a line as a participant, an arrow and a participant. A sign after the arrow opens or closes a bar, and has no meaning.
fn splits(words: &str) -> Vec<(&str, &str)> {
    let (mut found, mut at) = (Vec::new(), 0);
    while at < words.len() {
        let rest = &words[at..];
        let arrow = ARROWS.iter().find(|a| rest.starts_with(**a));
        let (from, to) = (words[..at].trim(), arrow.map(|a| rest[a.len()..].trim_start_matches(['+', '-']).trim()));
        match to {
            Some(to) if !from.is_empty() && !to.is_empty() && !from.ends_with('<') => found.push((from, to)),
            _ => {}
        }
        at += arrow.map_or_else(|| rest.chars().next().map_or(1, char::len_utf8), |a| a.len());
    }
    found
}
