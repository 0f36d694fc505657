//! Where things stand in a chart: a column for each board that the sheet uses, and a row for each step and each outstanding event.

use crate::face::{Message, Step, Waits, BOARDS};

/// In a row, from its upper side: its middle and the base of a text.
pub const MIDDLE: usize = 10;
pub const BASE: usize = 14;
pub const ROW_HEIGHT: usize = 20;
pub const HEAD_WIDTH: usize = 72;
pub const HEAD_HEIGHT: usize = 26;
pub const TITLE_BASE: usize = 34;
pub const REMARK_BASE: usize = 58;
pub const JAMS_BASE: usize = 82;
pub const MARGIN: usize = 12;
/// The rows from one line of board numbers to the next.
pub const RULER: usize = 32;
/// From a column's left side to its board's line.
pub const LINE: usize = 40;
const CELL: usize = 80;
const HEADS_TOP: usize = 80;
/// Left of the columns is room for the steps in words.
const GUTTER: usize = 150;
const WIDTH_LEAST: usize = 720;

/// What is to be drawn: the run's messages, steps and waits, and a course of all events.
pub struct Scene<'a> {
    pub messages: &'a [Message],
    pub steps: &'a [Step],
    pub waits: &'a Waits,
    pub course: &'a [usize],
    /// All events stand in their course, as done.
    pub free: bool,
    /// A row after the steps is kept for one that is not allowed.
    pub not_allowed: bool,
}

pub struct Layout {
    pub width: usize,
    pub head: usize,
    pub rows: usize,
    /// The row of the first jammed board's words.
    pub jammed: usize,
    columns: [Option<usize>; BOARDS],
    /// By message: the rows of its send, delivery and consumption.
    taken: Vec<[Option<usize>; 3]>,
    /// By event: the row of an outstanding one.
    later: Vec<Option<usize>>,
    jams: usize,
}

/// From one column to the next: wide where they are few.
fn span(columns: usize) -> usize {
    match columns {
        0..=4 => 2 * CELL,
        5..=8 => 8 * CELL / columns,
        _ => CELL,
    }
}

impl Layout {
    pub fn of(scene: &Scene) -> Layout {
        let mut used = [false; BOARDS];
        scene.messages.iter().for_each(|m| {
            used[m.from] = true;
            used[m.to] = true;
        });
        let step = span(used.iter().filter(|u| **u).count());
        let (mut columns, mut x) = ([None; BOARDS], GUTTER);
        for board in (0..BOARDS).filter(|b| used[*b]) {
            columns[board] = Some(x + LINE);
            x += step;
        }
        let mut taken = vec![[None; 3]; scene.messages.len()];
        for (row, s) in scene.steps.iter().enumerate() {
            taken[usize::from(s.message)][usize::from(s.kind)] = Some(row);
        }
        let jams = scene.waits.iter().flatten().count();
        let after = scene.steps.len() + usize::from(scene.not_allowed);
        let mut rows = if scene.free { 0 } else { after + jams + 2 };
        let mut later = vec![None; 2 * scene.messages.len()];
        for e in scene.course {
            if taken[e / 2][2 * (e % 2)].is_none() {
                later[*e] = Some(rows);
                rows += 1;
            }
        }
        Layout { width: x.max(WIDTH_LEAST), head: HEADS_TOP + ROW_HEIGHT * jams, rows, jammed: after + 1, columns, taken, later, jams }
    }

    /// The right side of what the page holds.
    pub fn right(&self) -> usize {
        self.width - MARGIN
    }

    /// The upper side of a row.
    pub fn top(&self, row: usize) -> usize {
        self.head + HEAD_HEIGHT + ROW_HEIGHT + ROW_HEIGHT * row + ROW_HEIGHT * (row / RULER)
    }

    pub fn middle(&self, row: usize) -> usize {
        self.top(row) + MIDDLE
    }

    /// The upper side of the boards' feet.
    pub fn foot(&self) -> usize {
        self.top(self.rows) + MIDDLE
    }

    /// Below the feet is a line for the legend.
    pub fn height(&self) -> usize {
        self.foot() + HEAD_HEIGHT + 2 * ROW_HEIGHT
    }

    /// A board's line, and the boards that have one.
    pub fn line(&self, board: usize) -> usize {
        self.columns[board].unwrap_or(GUTTER)
    }

    pub fn boards(&self) -> Vec<usize> {
        (0..BOARDS).filter(|b| self.columns[*b].is_some()).collect()
    }

    /// The row of a step of a message: 0 its send, 1 its delivery, 2 its consumption.
    pub fn row(&self, message: usize, kind: usize) -> Option<usize> {
        self.taken[message][kind]
    }

    /// The row of an event that is done, and of one that is not.
    pub fn done(&self, event: usize) -> Option<usize> {
        self.row(event / 2, 2 * (event % 2))
    }

    pub fn later(&self, event: usize) -> Option<usize> {
        self.later[event]
    }

    pub fn is_held(&self, message: usize) -> bool {
        self.row(message, 1).is_some() && self.row(message, 2).is_none()
    }

    pub fn has_jams(&self) -> bool {
        self.jams > 0
    }
}
