//! The rows of a sheet file, read to name things in them: a refusal's cause, and the choices of a list. Whether they are right says the library.

/// A row: its line, its letter and its two numbers.
#[derive(Clone, Copy)]
pub struct Row {
    pub line: usize,
    pub kind: u8,
    pub one: usize,
    pub two: usize,
}

/// The lines of a text, without their ends, and whether the last one has its end.
pub fn lines(text: &[u8]) -> (Vec<&[u8]>, bool) {
    let mut all: Vec<&[u8]> = text.split(|b| *b == b'\n').collect();
    let ended = all.last().map_or(true, |l| l.is_empty());
    if ended {
        all.pop();
    }
    (all, ended)
}

/// Where `kind`, `one` and `two` stand in a row, by the heading.
pub fn order(heading: &[u8]) -> Option<[usize; 3]> {
    let names: Vec<&[u8]> = heading.split(|b| *b == b' ').collect();
    let at = |name: &[u8]| names.iter().position(|n| *n == name);
    match (names.len(), at(b"kind"), at(b"one"), at(b"two")) {
        (3, Some(k), Some(a), Some(b)) => Some([k, a, b]),
        _ => None,
    }
}

fn number(field: &[u8]) -> Option<usize> {
    std::str::from_utf8(field).ok()?.parse().ok()
}

fn row(order: [usize; 3], line: usize, text: &[u8]) -> Option<Row> {
    let fields: Vec<&[u8]> = text.split(|b| *b == b' ').collect();
    if fields.len() != 3 {
        return None;
    }
    Some(Row { line, kind: *fields[order[0]].first()?, one: number(fields[order[1]])?, two: number(fields[order[2]])? })
}

/// The rows up to and with a line; those that cannot be read are left out.
pub fn rows(text: &[u8], last: usize) -> Vec<Row> {
    let (all, _) = lines(text);
    let order = match all.first().and_then(|h| order(h)) {
        Some(o) => o,
        None => return Vec::new(),
    };
    all.iter().enumerate().take(last).skip(1).filter_map(|(i, l)| row(order, i + 1, l)).collect()
}

/// The rows of a sheet, after its S row.
pub fn sheet(rows: &[Row], number: usize) -> &[Row] {
    let start = rows.iter().position(|r| r.kind == b'S' && r.one == number).map_or(rows.len(), |s| s + 1);
    let length = rows[start..].iter().position(|r| r.kind == b'S').unwrap_or(rows.len() - start);
    &rows[start..start + length]
}

/// What a walk meets under a choice list: a row of a block, an A row with the sheet that it takes, or the end of a block.
#[derive(Clone, Copy)]
pub enum Met {
    Row(Row),
    Choice(Row, usize),
    BlockEnd,
}

/// The walk of sheet 0 under a choice list, bit k of `second` set where A row k takes its second sheet. The text was accepted, so the walk
/// has an end within the paper's limits.
pub fn walk(rows: &[Row], second: u32) -> Vec<Met> {
    let (mut met, mut open, mut options) = (Vec::new(), vec![sheet(rows, 0)], 0u32);
    while let Some(rest) = open.pop() {
        let (row, after) = match rest.split_first() {
            Some((r, rest)) => (*r, rest),
            None => {
                met.push(Met::BlockEnd);
                continue;
            }
        };
        open.push(after);
        match row.kind {
            b'A' => {
                let taken = if second >> (options % 32) & 1 == 1 { row.two } else { row.one };
                options += 1;
                met.push(Met::Choice(row, taken));
                met.push(Met::BlockEnd);
                open.push(sheet(rows, taken));
            }
            b'C' => {
                met.push(Met::BlockEnd);
                open.push(sheet(rows, row.one));
            }
            b'B' => met.push(Met::BlockEnd),
            _ => met.push(Met::Row(row)),
        }
    }
    met
}
