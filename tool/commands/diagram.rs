//! `diagram`: a sheet, or its jam on a channel, as the text of a sequence diagram.

use super::{named, refuse, trace_bytes, Call};
use crate::face::{self, Lock, Standing, Verdict};
use crate::input::Failure;
use crate::output::Answer;
use crate::refusals::Handed;
use crate::rows::{self, Met};
use crate::sheet::Sheet;
use crate::words::{self, Named};

pub fn run(call: &mut Call) -> Result<Answer, Failure> {
    let sheet = call.sheet(0)?;
    let mut answer = Answer::new();
    let code = call.code;
    match face::check(&sheet.bytes, code.unwrap_or(0)) {
        Verdict::Refused(r) => refuse(&mut answer, &sheet, r, &Handed { code: call.code(), ..Handed::default() }),
        Verdict::Locked(lock) if code.is_some() => draw_jam(&mut answer, &sheet, call.code(), &lock)?,
        _ => draw(&mut answer, &sheet, code)?,
    }
    Ok(answer)
}

fn head(answer: &mut Answer, named: &Named) {
    answer.line("sequenceDiagram");
    let mut used: Vec<usize> = named.messages.iter().flat_map(|m| [m.from, m.to]).collect();
    used.sort_unstable();
    used.dedup();
    used.iter().for_each(|b| answer.line(&format!("    participant B{} as {}", b, named.board_name(*b))));
}

fn arrow(answer: &mut Answer, named: &Named, m: usize, kind: &str, words: &str) {
    let t = &named.messages[m];
    answer.line(&format!("    B{}{}B{}: {}{}", t.from, kind, t.to, named.short(m), words));
}

fn draw(answer: &mut Answer, sheet: &Sheet, code: Option<u32>) -> Result<(), Failure> {
    let named = named(sheet)?;
    let order = order(sheet, &named).map_err(|m| {
        Failure::new(format!("{}: no diagram: the arrow of {} would have to stand ahead of itself, since messages cross", sheet.name, named.message(m)))
    })?;
    head(answer, &named);
    if let Some(c) = code {
        answer.line(&format!("    %% free on {}", words::channel(c)));
    }
    answer.line("    %% on each board its events as they are drawn here; the sheet may order fewer");
    order.iter().for_each(|m| arrow(answer, &named, *m, "->>", ""));
    Ok(())
}

/// An order of the arrows that has every order of the sheet's rows; or a message that none has a place for.
fn order(sheet: &Sheet, named: &Named) -> Result<Vec<usize>, usize> {
    let after = followers(sheet, named);
    let mut ahead = vec![0usize; named.messages.len()];
    after.iter().flatten().for_each(|m| ahead[*m] += 1);
    let (mut order, mut left): (Vec<usize>, Vec<usize>) = (Vec::new(), (0..named.messages.len()).collect());
    while let Some(first) = left.first().copied() {
        let next = *left.iter().find(|m| ahead[**m] == 0).ok_or(first)?;
        left.retain(|m| *m != next);
        after[next].iter().for_each(|m| ahead[*m] -= 1);
        order.push(next);
    }
    Ok(order)
}

/// For each message those whose arrows come after its own: by P rows, and on a board by blocks.
fn followers(sheet: &Sheet, named: &Named) -> Vec<Vec<usize>> {
    let mut after = vec![Vec::new(); named.messages.len()];
    let (mut block, mut met) = (0, 0);
    let mut last: Vec<(Vec<usize>, Vec<usize>)> = vec![(Vec::new(), Vec::new()); face::BOARDS];
    for m in rows::walk(&rows::rows(&sheet.bytes, usize::MAX), 0) {
        match m {
            Met::Row(row) if row.kind == b'M' => {
                let boards = [named.messages[met].from, named.messages[met].to];
                for b in boards {
                    last[b].0.iter().for_each(|x| after[*x].push(met));
                    last[b].1.push(met);
                }
                met += 1;
            }
            Met::Row(row) if row.one / 2 != row.two / 2 => after[block + row.one / 2].push(block + row.two / 2),
            Met::Row(_) => {}
            Met::BlockEnd | Met::Choice(..) => {
                block = met;
                // a board without a message in this block goes on from the one before it
                last.iter_mut().filter(|l| !l.1.is_empty()).for_each(|l| *l = (std::mem::take(&mut l.1), Vec::new()));
            }
        }
    }
    after
}

/// The steps of a lock: an arrow a message, where its last step stands, and a note at each board that waits.
fn draw_jam(answer: &mut Answer, sheet: &Sheet, code: u32, lock: &Lock) -> Result<(), Failure> {
    let named = named(sheet)?;
    let held = named.held(&lock.steps);
    head(answer, &named);
    answer.line(&format!("    %% locked on {}", words::channel(code)));
    let last = |i: usize| !lock.steps[i + 1..].iter().any(|s| s.message == lock.steps[i].message);
    for (_, s) in lock.steps.iter().enumerate().filter(|(i, _)| last(*i)) {
        let m = usize::from(s.message);
        match s.kind {
            0 => arrow(answer, &named, m, "-)", ", under way"),
            1 => arrow(answer, &named, m, "->>", ", in the buffer"),
            _ => arrow(answer, &named, m, "->>", ""),
        }
    }
    if let Ok(Standing::Stuck(waits)) = face::replay(&sheet.bytes, code, &trace_bytes(&lock.steps)) {
        for (board, wait) in waits.iter().enumerate() {
            if let (Some(e), Some(m)) = (wait, held[board].first()) {
                answer.line(&format!("    Note over B{}: {}", board, named.jam(board, *m, *e)));
            }
        }
    }
    Ok(())
}
