//! A chart: the boards side by side, time down the page, and what each jammed board waits for. Labels and dots are drawn after all arrows, so that none
//! lies under one.

use crate::face::{Race, Step, Waits};
use crate::layout::{self, Layout, Scene, BASE, HEAD_HEIGHT, HEAD_WIDTH, MARGIN, MIDDLE, ROW_HEIGHT, RULER};
use crate::svg::Picture;
use crate::words::{self, Named};

/// From a board's line to the side of a message's box, to that of a receive's disc, and to a number beside the line.
const HALF_BOX: usize = 15;
const DISC: usize = 6;
const DOT: usize = 3;
const BESIDE: usize = 10;
/// An arrow under way ends so far from its receiver's line.
const SHORT: usize = 16;
const LOOP: usize = 40;
const BAND_WIDTH: usize = 16;
const CROSS: usize = 9;
const CROSS_SPACE: usize = 16;
/// Bytes that tell no step have their words right of their row's.
const NO_STEP_LEFT: usize = 230;
/// A letter of the callout's font is this wide, in tenths; and the space around its words.
const LETTER_TENTHS: usize = 75;
const AROUND: usize = 8;
/// The letters that a board's head has room for.
const HEAD_LETTERS: usize = 10;

/// What a chart shows.
pub struct Subject<'a> {
    pub title: &'a str,
    pub remark: &'a str,
    pub named: &'a Named,
    pub steps: &'a [Step],
    pub waits: &'a Waits,
    pub course: &'a [usize],
    pub free: bool,
    pub race: Option<Race>,
    /// The step after the others that is not allowed, and its words.
    pub not_allowed: Option<(Step, &'a str)>,
}

struct Drawing<'a> {
    of: &'a Subject<'a>,
    at: Layout,
    held: Vec<Vec<usize>>,
    picture: Picture,
}

pub fn draw(of: &Subject) -> String {
    let scene = Scene {
        messages: &of.named.messages,
        steps: of.steps,
        waits: of.waits,
        course: of.course,
        free: of.free,
        not_allowed: of.not_allowed.is_some(),
    };
    let at = Layout::of(&scene);
    let picture = Picture::new(at.width, at.height(), &format!("{}; {}", of.title, of.remark));
    let mut d = Drawing { of, at, held: of.named.held(of.steps), picture };
    d.picture.text('t', MARGIN, layout::TITLE_BASE, of.title);
    d.picture.text('r', MARGIN, layout::REMARK_BASE, of.remark);
    d.rows();
    d.lines();
    d.bands();
    d.heads();
    d.arrows();
    d.ties();
    d.rulers();
    d.deliveries();
    d.events();
    d.callouts();
    d.not_allowed();
    d.legend();
    d.picture.end()
}

impl Drawing<'_> {
    fn row_words(&mut self, class: char, row: usize, words: &str) {
        let (top, right) = (self.at.top(row), self.at.right());
        self.picture.line('h', (MARGIN, top + MIDDLE), (right, top + MIDDLE));
        self.picture.text(class, MARGIN, top + BASE, words);
    }

    /// The steps and the outstanding events in words, a row each.
    fn rows(&mut self) {
        for (i, s) in self.of.steps.iter().enumerate() {
            self.row_words('g', i, &format!("{} {}", i, words::step(*s)));
        }
        if let Some((_, told)) = self.of.not_allowed {
            let row = self.of.steps.len();
            self.row_words('g', row, &format!("{} {}", row, told));
        }
        for e in 0..2 * self.of.named.messages.len() {
            if let Some(row) = self.at.later(e) {
                let class = if self.of.free { 'g' } else { 'p' };
                self.row_words(class, row, &format!("event {} {} {}", e, ["send", "receive"][e % 2], e / 2));
            }
        }
    }

    fn lines(&mut self) {
        for board in self.at.boards() {
            let x = self.at.line(board);
            self.picture.line('l', (x, self.at.head), (x, self.at.foot()));
        }
    }

    /// The jammed boards with the place of each among them, the message held and the event waited for.
    fn jams(&self) -> Vec<(usize, usize, usize, usize)> {
        let jammed = self.of.waits.iter().enumerate().filter_map(|(board, w)| Some((board, *self.held[board].first()?, (*w)?)));
        jammed.enumerate().map(|(place, (board, held, event))| (place, board, held, event)).collect()
    }

    fn is_race(&self, board: usize, held: usize) -> bool {
        self.of.race.map_or(false, |r| r.message == held && self.of.named.messages[held].to == board)
    }

    /// A jammed board's line from the delivery on, and its words above the heads.
    fn bands(&mut self) {
        for (place, board, held, event) in self.jams() {
            let x = self.at.line(board);
            let top = self.at.row(held, 1).map_or(0, |r| self.at.middle(r));
            let end = self.at.middle(self.at.jammed + place);
            self.picture.rect('y', [x - BAND_WIDTH / 2, top, BAND_WIDTH, end.saturating_sub(top)]);
            let (words, base) = (self.of.named.jam(board, held, event), layout::JAMS_BASE + ROW_HEIGHT * place);
            self.picture.text('j', MARGIN, base, &words);
            if self.is_race(board, held) {
                self.picture.text('q', MARGIN + words.len() * 86 / 10 + 8, base, "the race");
            }
        }
    }

    fn heads(&mut self) {
        for board in self.at.boards() {
            let (frame, name) = if self.of.waits[board].is_some() { ('n', 'a') } else { ('k', 'b') };
            let x = self.at.line(board);
            for top in [self.at.head, self.at.foot()] {
                self.picture.rect(frame, [x - HEAD_WIDTH / 2, top, HEAD_WIDTH, HEAD_HEIGHT]);
                self.picture.text(name, x, top + 17, &clipped(&self.of.named.board_name(board)));
            }
        }
    }

    /// The boards' numbers again, after every so many rows.
    fn rulers(&mut self) {
        for i in 1..=self.at.rows / RULER {
            let top = self.at.top(i * RULER - 1) + ROW_HEIGHT;
            for board in self.at.boards() {
                self.picture.text('b', self.at.line(board), top + BASE, &board.to_string());
            }
        }
    }

    /// An arrow between the lines of two boards, or a bend from one line to itself. It ends so near to the line.
    fn arrow(&mut self, class: char, from: (usize, usize), to: (usize, usize), near: usize) {
        if from.0 == to.0 {
            self.picture.bend(class, from, from.0 + LOOP, (to.0 + near, to.1));
        } else {
            self.picture.line(class, from, (near_to(from.0, to.0, near), to.1));
        }
    }

    /// Where the arrow of a message under way ends: in the open, short of its own receiver's line.
    fn open_end(&self, m: usize) -> Option<(usize, usize)> {
        let row = self.at.row(m, 0)?;
        let (from, to) = self.ends(m);
        Some((near_to(from, to, SHORT), self.at.middle(row) + BASE))
    }

    fn ends(&self, m: usize) -> (usize, usize) {
        let t = &self.of.named.messages[m];
        (self.at.line(t.from), self.at.line(t.to))
    }

    fn arrows(&mut self) {
        let pale = if self.of.free { 'm' } else { 'o' };
        for m in 0..self.of.named.messages.len() {
            let (from, to) = self.ends(m);
            let later = (self.at.later(2 * m), self.at.later(2 * m + 1));
            match (self.at.row(m, 0), self.at.row(m, 1), later) {
                (Some(sent), Some(row), _) => {
                    let near = if self.at.is_held(m) { HALF_BOX } else { 0 };
                    self.arrow('m', (from, self.at.middle(sent)), (to, self.at.middle(row)), near);
                }
                (Some(sent), None, _) => {
                    let y = self.at.middle(sent);
                    self.arrow('d', (from, y), (to, y + BASE), SHORT);
                }
                (None, _, (Some(send), Some(receive))) => self.arrow(pale, (from, self.at.middle(send)), (to, self.at.middle(receive)), DISC),
                _ => {}
            }
        }
    }

    /// A late message that is under way is tied to the event that a board waits for.
    fn ties(&mut self) {
        for (_, _, _, event) in self.jams() {
            let (m, ring) = (event / 2, self.at.later(event));
            if let (1, Some(end), Some(row)) = (event % 2, self.open_end(m), ring) {
                let (from, to) = self.ends(m);
                let y = self.at.middle(row);
                self.picture.corner('q', [end, (end.0, y), (near_to(from, to, DISC), y)]);
            }
        }
    }

    /// A message's number beside a board's line, right or left of it.
    fn number(&mut self, pale: bool, right: bool, x: usize, row: usize, message: usize) {
        let class = match (right, pale) {
            (true, false) => 's',
            (true, true) => 'p',
            (false, false) => 'e',
            (false, true) => 'f',
        };
        let place = if right { x + BESIDE } else { x - BESIDE };
        self.picture.text(class, place, self.at.top(row) + BASE, &message.to_string());
    }

    /// A delivery: the message's number past the arrow's end, or its box.
    fn deliveries(&mut self) {
        for m in 0..self.of.named.messages.len() {
            let row = match self.at.row(m, 1) {
                Some(r) => r,
                None => continue,
            };
            let ((from, to), board) = (self.ends(m), self.of.named.messages[m].to);
            if !self.at.is_held(m) {
                self.number(false, from < to, to, row, m);
                continue;
            }
            let class = if self.of.waits[board].is_some() { 'v' } else { 'z' };
            let top = self.at.top(row);
            self.picture.rect(class, [to - HALF_BOX, top + 1, 2 * HALF_BOX, 18]);
            self.picture.text('b', to, top + BASE, &m.to_string());
            if self.is_race(board, m) && self.at.has_jams() {
                self.picture.rect('q', [to - HALF_BOX - 4, top - 3, 2 * HALF_BOX + 8, 26]);
            }
        }
    }

    /// An event's disc, in the row of its step or where the order would put it, and its message's number.
    fn events(&mut self) {
        for e in 0..2 * self.of.named.messages.len() {
            let (done, later) = (self.at.done(e), self.at.later(e));
            let row = match done.or(later) {
                Some(r) => r,
                None => continue,
            };
            let awaited = self.of.waits[self.of.named.board(e)] == Some(e);
            let class = if done.is_some() || self.of.free {
                'i'
            } else if awaited {
                'u'
            } else {
                'c'
            };
            let (from, to) = self.ends(e / 2);
            let (x, radius, right) = if e % 2 == 0 { (from, DOT, to < from) } else { (to, DISC, from < to) };
            self.picture.circle(class, x, self.at.middle(row), radius);
            self.number(class != 'i', right, x, row, e / 2);
        }
    }

    /// A box with words, from `left` on, or up to `otherwise` where the page would end.
    fn callout(&mut self, left: usize, otherwise: usize, row: usize, words: &str) {
        let width = words.len() * LETTER_TENTHS / 10 + 2 * AROUND;
        let from = if left + width <= self.at.right() { left } else { otherwise.saturating_sub(width) };
        let top = self.at.top(row);
        self.picture.rect('n', [from, top, width, ROW_HEIGHT]);
        self.picture.text('w', from + AROUND, top + BASE, words);
    }

    /// What each jammed board waits for, at the end of its line.
    fn callouts(&mut self) {
        for (place, board, held, event) in self.jams() {
            let (left, right) = (self.at.line(board) - layout::LINE / 2, self.at.right());
            self.callout(left, right, self.at.jammed + place, &self.of.named.jam(board, held, event));
        }
    }

    /// The step that is not allowed: its words, and a cross on its board's line where it tells one.
    fn not_allowed(&mut self) {
        let (step, told) = match self.of.not_allowed {
            Some(s) => s,
            None => return,
        };
        let row = self.of.steps.len();
        let words = format!("step {} is not allowed: {}", row, told);
        let of = self.of.named.messages.get(usize::from(step.message)).filter(|_| step.kind < 3);
        match of {
            Some(m) => {
                let (x, top) = (self.at.line(if step.kind == 0 { m.from } else { m.to }), self.at.top(row));
                self.callout(x + CROSS_SPACE, x - CROSS_SPACE, row, &words);
                self.picture.line('x', (x - CROSS, top + 1), (x + CROSS, top + 19));
                self.picture.line('x', (x - CROSS, top + 19), (x + CROSS, top + 1));
            }
            None => self.callout(NO_STEP_LEFT, NO_STEP_LEFT, row, &words),
        }
    }

    fn legend(&mut self) {
        let words = if self.of.free {
            "arrow: send to receive"
        } else {
            "arrow: send to delivery; disc: consumed; box: in the buffer; dashed: under way; pale: outstanding"
        };
        self.picture.text('g', MARGIN, self.at.foot() + HEAD_HEIGHT + ROW_HEIGHT, words);
    }
}

/// A place so near to a line, on the side that an arrow comes from; a bend comes from the right.
fn near_to(from: usize, to: usize, near: usize) -> usize {
    if from < to {
        to - near
    } else {
        to + near
    }
}

/// A name as a head has room for it.
fn clipped(name: &str) -> String {
    if name.chars().count() <= HEAD_LETTERS {
        return name.to_string();
    }
    name.chars().take(HEAD_LETTERS - 2).chain("..".chars()).collect()
}
