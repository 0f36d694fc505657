//! Holds the charts of `channel_tool chart` to what its other commands print: `steps` (the answer, the steps, what each jammed board waits for),
//! `taps` with two empty lists (the course, and where each event is) and `replay` (the verdict on a trace). Of each chart, every row, arrow, disc,
//! box and number must stand where these say; no two labels may overlap or leave the page. The sheets are those of examples/, random ones, and two of the
//! most messages on all boards.
//! usage: charts PROGRAM MESSAGES FOLDER [SHEETS [SEED]], where MESSAGES is the most that a sheet may have. Charts of the two largest sheets are left
//! in the folder, to be rendered.

#[path = "reference.rs"]
#[allow(dead_code)] // its limits alone
mod reference;
#[path = "texts.rs"]
#[allow(dead_code)] // files with choices are for the other test
mod texts;

use std::collections::BTreeMap;
use std::io::Write;
use std::process::{Command, Stdio};
use texts::Random;

const CODES: usize = 6;
const NAMES: [&str; CODES] = ["eager free-running", "lazy free-running", "eager FIFO", "lazy FIFO", "synchronous, eager", "token ring, eager"];
const STEPS: [&str; 3] = ["send", "deliver", "consume"];

fn fail(why: &str) -> ! {
    println!("FAILED: {}", why);
    std::process::exit(1);
}

/// What the program writes to standard output and to standard error.
fn run(program: &str, words: &[&str], text: &[u8]) -> (String, String) {
    let mut child = Command::new(program)
        .args(words)
        .stdin(Stdio::piped())
        .stdout(Stdio::piped())
        .stderr(Stdio::piped())
        .spawn()
        .expect("the program starts");
    // a text that is too long is not read to its end
    let _ = child.stdin.take().expect("its input").write_all(text);
    let out = child.wait_with_output().expect("the program ends");
    (String::from_utf8(out.stdout).expect("plain text"), String::from_utf8(out.stderr).expect("plain text"))
}

/// The numbers in a line, in their order.
fn numbers(line: &str) -> Vec<usize> {
    line.split(|c: char| !c.is_ascii_digit()).filter(|n| !n.is_empty()).map(|n| n.parse().expect("a number")).collect()
}

struct Mark {
    name: String,
    class: String,
    numbers: Vec<usize>,
    words: String,
}

/// The marks that have a class, in their order: a path's points, a text's place and words, a box's corner and size, a disc's middle and radius.
fn marks(svg: &str) -> Vec<Mark> {
    let mut out = Vec::new();
    for piece in svg.split('<') {
        let Some((head, words)) = piece.split_once('>') else { continue };
        let Some((name, rest)) = head.split_once(" class=\"") else { continue };
        let (class, rest) = rest.split_once('"').expect("a class ends");
        out.push(Mark { name: name.into(), class: class.into(), numbers: numbers(rest), words: words.trim().into() });
    }
    out
}

/// What a chart has to show.
struct Facts {
    title: String,
    remark: String,
    boards: Vec<usize>,
    course: Vec<usize>,
    steps: Vec<(usize, usize)>,
    jams: Vec<String>,
    not_allowed: Option<String>,
    free: bool,
}

impl Facts {
    fn row(&self, kind: usize, m: usize) -> Option<usize> {
        self.steps.iter().position(|s| *s == (kind, m))
    }

    fn is_done(&self, e: usize) -> bool {
        self.row(2 * (e % 2), e / 2).is_some()
    }
}

/// The boards of all events and their course.
fn course(program: &str, text: &[u8]) -> (Vec<usize>, Vec<usize>) {
    let (out, _) = run(program, &["taps", "/dev/null", "/dev/null"], text);
    let lines: Vec<Vec<usize>> = out.lines().filter(|l| l.starts_with("event ")).map(numbers).collect();
    let mut boards = vec![0; lines.len()];
    for l in &lines {
        // the event, its message, the message's boards and line
        boards[l[0]] = l[2 + l[0] % 2];
    }
    (boards, lines.iter().map(|l| l[0]).collect())
}

fn step_of(line: &str) -> Option<(usize, usize)> {
    let mut words = line.split(' ');
    let word = words.next()?;
    Some((STEPS.iter().position(|s| *s == word)?, words.next()?.parse().ok()?))
}

/// What a board waits for, as the other commands say it.
fn jams(out: &str) -> Vec<String> {
    out.lines().filter(|l| l.starts_with("board ")).map(String::from).collect()
}

fn event(e: usize) -> String {
    format!("event {} ({} of message {})", e, ["send", "receive"][e % 2], e / 2)
}

/// Where the boards' lines and the rows of steps and events are.
struct Places {
    boards: BTreeMap<usize, usize>,
    steps: BTreeMap<usize, usize>,
    events: BTreeMap<usize, usize>,
}

impl Places {
    /// From the words that stand at them.
    fn of(all: &[Mark]) -> Places {
        let mut p = Places { boards: BTreeMap::new(), steps: BTreeMap::new(), events: BTreeMap::new() };
        for t in all.iter().filter(|t| t.name == "text") {
            let n = numbers(&t.words);
            if (t.class == "b" || t.class == "a") && t.words.starts_with("board ") {
                p.boards.insert(n[0], t.numbers[0]);
            } else if t.numbers[0] == 12 && t.words.starts_with("event ") {
                p.events.insert(n[0], t.numbers[1] - 4);
            } else if t.numbers[0] == 12 && t.class == "g" && t.words.starts_with(|c: char| c.is_ascii_digit()) {
                p.steps.insert(n[0], t.numbers[1] - 4);
            }
        }
        p
    }
}

/// The words of the rows, from the top down.
fn rows(facts: &Facts) -> Vec<String> {
    let mut out: Vec<String> = facts.steps.iter().enumerate().map(|(i, (k, m))| format!("{} {} {}", i, STEPS[*k], m)).collect();
    if let Some(words) = &facts.not_allowed {
        let (index, told) = words.strip_prefix("step ").expect("a step").split_once(" is not allowed: ").expect("its words");
        out.push(format!("{} {}", index, told));
    }
    let later = facts.course.iter().filter(|e| !facts.is_done(**e));
    out.extend(later.map(|e| format!("event {} {} {}", e, ["send", "receive"][e % 2], e / 2)));
    out
}

fn check_words(svg: &str, all: &[Mark], facts: &Facts) -> Result<(), String> {
    let texts = |class: &str| -> Vec<&str> { all.iter().filter(|t| t.name == "text" && t.class == class).map(|t| t.words.as_str()).collect() };
    if !svg.contains(&format!("<title>{}; {}</title>", facts.title, facts.remark)) || texts("t") != [facts.title.as_str()] || texts("r") != [facts.remark.as_str()] {
        return Err(format!("its title is not: {}; {}", facts.title, facts.remark));
    }
    if texts("j") != facts.jams {
        return Err(format!("the jams above the boards are not {:?}", facts.jams));
    }
    let mut ends = facts.jams.clone();
    ends.extend(facts.not_allowed.clone());
    if texts("w") != ends {
        return Err(format!("the words at the ends of the lines are not {:?}", ends));
    }
    let mut printed: Vec<(usize, &str)> =
        all.iter().filter(|t| t.name == "text" && t.numbers[0] == 12 && "gp".contains(&t.class) && !t.words.starts_with("arrow")).map(|t| (t.numbers[1], t.words.as_str())).collect();
    printed.sort();
    let printed: Vec<&str> = printed.iter().map(|t| t.1).collect();
    if printed != rows(facts) {
        return Err(format!("the rows are not {:?}", rows(facts)));
    }
    Ok(())
}

/// Each message's arrow, of its class, from its send to its end; and that there is no other arrow.
fn check_arrows(all: &[Mark], facts: &Facts, p: &Places) -> Result<(), String> {
    let mut expected = 0;
    for m in 0..facts.boards.len() / 2 {
        let (x, to) = (p.boards[&facts.boards[2 * m]], p.boards[&facts.boards[2 * m + 1]]);
        let (send, delivery, consumption) = (facts.row(0, m), facts.row(1, m), facts.row(2, m));
        let y = send.map_or_else(|| p.events[&(2 * m)], |r| p.steps[&r]);
        let class = match (send, delivery) {
            (None, _) if facts.free => "m",
            (None, _) => "o",
            (Some(_), None) => "d",
            (Some(_), Some(_)) => "m",
        };
        let here: Vec<&Mark> = all.iter().filter(|a| a.name == "path" && a.class == class && a.numbers[..2] == [x, y]).collect();
        let [arrow] = here[..] else { return Err(format!("message {} has {} arrows", m, here.len())) };
        expected += 1;
        let (end_x, end_y) = (arrow.numbers[arrow.numbers.len() - 2], arrow.numbers[arrow.numbers.len() - 1]);
        if class == "d" {
            let open = if x == to { end_x > x } else { (end_x > x.min(to)) && (end_x < x.max(to)) };
            let near = end_x.max(to) - end_x.min(to) <= 20;
            if !open || !near || end_y <= y {
                return Err(format!("message {} does not end in the open, short of its own receiver", m));
            }
            continue;
        }
        let near = if send.is_none() { 6 } else if consumption.is_none() { 15 } else { 0 };
        let row = delivery.map_or_else(|| p.events[&(2 * m + 1)], |r| p.steps[&r]);
        let end = if x < to { to - near } else { to + near };
        if (end_x, end_y) != (end, row) || end_y <= y {
            return Err(format!("message {} ends at {} {}, not {} {}", m, end_x, end_y, end, row));
        }
    }
    let arrows = all.iter().filter(|a| a.name == "path" && ["m", "o", "d"].contains(&a.class.as_str())).count();
    if arrows != expected { Err(format!("{} arrows, not {}", arrows, expected)) } else { Ok(()) }
}

/// Each event's disc, and the box of each message in a buffer; and that there is no other.
fn check_events(all: &[Mark], facts: &Facts, p: &Places) -> Result<(), String> {
    let awaited: Vec<usize> = facts.jams.iter().map(|j| numbers(j)[2]).collect();
    for e in 0..facts.boards.len() {
        let x = p.boards[&facts.boards[e]];
        let done = facts.row(2 * (e % 2), e / 2);
        let y = done.map_or_else(|| p.events[&e], |r| p.steps[&r]);
        let class = if done.is_some() || facts.free { "i" } else if awaited.contains(&e) { "u" } else { "c" };
        let disc = [x, y, [3, 6][e % 2]];
        if all.iter().filter(|d| d.name == "circle" && d.class == class && d.numbers == disc).count() != 1 {
            return Err(format!("event {} has no disc at {} {}", e, x, y));
        }
    }
    if all.iter().filter(|d| d.name == "circle").count() != facts.boards.len() {
        return Err("there are other discs".into());
    }
    let mut boxes = Vec::new();
    for m in 0..facts.boards.len() / 2 {
        let jammed = facts.jams.iter().any(|j| numbers(j)[0] == facts.boards[2 * m + 1]);
        if let (Some(r), None) = (facts.row(1, m), facts.row(2, m)) {
            boxes.push((if jammed { "v" } else { "z" }, p.boards[&facts.boards[2 * m + 1]] - 15, p.steps[&r] - 9));
        }
    }
    let mut drawn: Vec<(&str, usize, usize)> =
        all.iter().filter(|b| b.name == "rect" && (b.class == "v" || b.class == "z")).map(|b| (b.class.as_str(), b.numbers[0], b.numbers[1])).collect();
    drawn.retain(|b| *b != ("z", 0, 0)); // the background
    drawn.sort();
    boxes.sort();
    if drawn != boxes { Err(format!("the boxes are {:?}, not {:?}", drawn, boxes)) } else { Ok(()) }
}

/// Each number beside a board's line, on the side that the arrow does not take, and in each box; and that there is no other. The numbers between the
/// rows are those of the boards.
fn check_numbers(all: &[Mark], facts: &Facts, p: &Places) -> Result<(), String> {
    let mut expected = Vec::new();
    let beside = |x: usize, y: usize, right: bool, pale: bool, m: usize| match (right, pale) {
        (true, false) => ("s", x + 10, y + 4, m),
        (true, true) => ("p", x + 10, y + 4, m),
        (false, false) => ("e", x - 10, y + 4, m),
        (false, true) => ("f", x - 10, y + 4, m),
    };
    for m in 0..facts.boards.len() / 2 {
        let (from, to) = (p.boards[&facts.boards[2 * m]], p.boards[&facts.boards[2 * m + 1]]);
        for (e, x, right) in [(2 * m, from, to < from), (2 * m + 1, to, from < to)] {
            let done = facts.row(2 * (e % 2), m);
            let y = done.map_or_else(|| p.events[&e], |r| p.steps[&r]);
            expected.push(beside(x, y, right, done.is_none() && !facts.free, m));
        }
        match (facts.row(1, m), facts.row(2, m)) {
            (Some(r), Some(_)) => expected.push(beside(to, p.steps[&r], from < to, false, m)),
            (Some(r), None) => expected.push(("b", to, p.steps[&r] + 4, m)),
            (None, _) => {}
        }
    }
    let rows: Vec<usize> = p.steps.values().map(|y| y + 4).collect();
    let mut drawn = Vec::new();
    for t in all.iter().filter(|t| t.name == "text" && t.numbers[0] != 12) {
        let Ok(number) = t.words.parse::<usize>() else { continue };
        if t.class == "b" && !rows.contains(&t.numbers[1]) {
            if p.boards.get(&number) != Some(&t.numbers[0]) {
                return Err(format!("board {} is not at {}", number, t.numbers[0]));
            }
        } else {
            drawn.push((t.class.as_str(), t.numbers[0], t.numbers[1], number));
        }
    }
    expected.sort();
    drawn.sort();
    if drawn != expected { Err(format!("the numbers are {:?}, not {:?}", drawn, expected)) } else { Ok(()) }
}

/// The place of a text: its sides, by the letters' width of a monospaced font, rounded up.
fn sides(t: &Mark) -> [f64; 4] {
    let size = match t.class.as_str() {
        "t" => 20.0,
        "r" => 13.0,
        "j" => 14.0,
        "w" => 12.0,
        _ => 11.0,
    };
    let (x, y, wide) = (t.numbers[0] as f64, t.numbers[1] as f64, t.words.len() as f64 * size * 0.61);
    let left = match t.class.as_str() {
        "b" | "a" => x - wide / 2.0,
        "e" | "f" => x - wide,
        _ => x,
    };
    [left, y - size * 0.8, left + wide, y + size * 0.2]
}

/// No label, dot or box lies under an arrow: all arrows are drawn ahead of them.
fn check_over(all: &[Mark]) -> Result<(), String> {
    let arrow = |m: &Mark| m.name == "path" && ["m", "o", "d", "q"].contains(&m.class.as_str());
    let last = all.iter().rposition(arrow).unwrap_or(0);
    let over = |m: &Mark| m.name == "circle" || (m.name == "text" && ["s", "p", "e", "f", "w"].contains(&m.class.as_str()) && m.numbers[0] != 12);
    match all[..last].iter().find(|m| over(m)) {
        Some(m) => Err(format!("a {} `{}` lies under an arrow", m.name, m.words)),
        None => Ok(()),
    }
}

/// Where a jammed board waits for a message under way, a tie leads from the arrow's end to the ring; the race's own jam is marked.
fn check_ties(all: &[Mark], facts: &Facts) -> Result<(), String> {
    let late = |j: &&String| numbers(j)[2] % 2 == 1 && facts.row(0, numbers(j)[2] / 2).is_some() && facts.row(1, numbers(j)[2] / 2).is_none();
    let ties = all.iter().filter(|m| m.name == "path" && m.class == "q").count();
    if ties != facts.jams.iter().filter(late).count() {
        return Err(format!("{} ties for {:?}", ties, facts.jams));
    }
    let marked = all.iter().filter(|m| m.name == "text" && m.class == "q").count();
    let race = facts.remark.strip_prefix("race: ").map(|r| numbers(r)[0]);
    let own = facts.jams.iter().filter(|j| Some(numbers(j)[1]) == race).count();
    if marked != own { Err(format!("{} jams are marked as the race's, not {}", marked, own)) } else { Ok(()) }
}

/// No two texts overlap, none leaves the page, and the words of a callout fit their box.
fn check_labels(svg: &str, all: &[Mark]) -> Result<(), String> {
    let page: Vec<usize> = numbers(svg.lines().next().and_then(|l| l.split("width=").nth(1)).unwrap_or(""));
    let mut texts: Vec<(&Mark, [f64; 4])> = all.iter().filter(|t| t.name == "text").map(|t| (t, sides(t))).collect();
    texts.sort_by(|a, b| a.1[1].total_cmp(&b.1[1]));
    for (i, (t, a)) in texts.iter().enumerate() {
        if a[0] < 0.0 || a[2] > page[0] as f64 || a[3] > page[1] as f64 {
            return Err(format!("`{}` leaves the page", t.words));
        }
        for (u, b) in texts[i + 1..].iter().take_while(|(_, b)| b[1] < a[3]) {
            if a[0] < b[2] && b[0] < a[2] {
                return Err(format!("`{}` and `{}` overlap", t.words, u.words));
            }
        }
        let crossed = |x: &&Mark| x.name == "path" && x.class == "x" && (x.numbers[0] as f64) < a[2] + 8.0 && a[0] - 8.0 < x.numbers[2] as f64;
        if t.class == "w" && all.iter().any(|x| crossed(&x)) {
            return Err(format!("a cross is over `{}`", t.words));
        }
        let fits = |b: &&Mark| b.name == "rect" && b.class == "n" && b.numbers[0] as f64 <= a[0] && a[2] <= (b.numbers[0] + b.numbers[2]) as f64;
        if t.class == "w" && !all.iter().any(|b| fits(&b)) {
            return Err(format!("`{}` has no box around it", t.words));
        }
    }
    Ok(())
}

/// Columns and rows are evenly spaced. The jammed boards, and they alone, have the jam's colour in head and foot and a hatched line.
fn check_boards(all: &[Mark], facts: &Facts, p: &Places) -> Result<(), String> {
    let mut used = facts.boards.clone();
    used.sort();
    used.dedup();
    if p.boards.keys().copied().collect::<Vec<_>>() != used {
        return Err(format!("the boards are not {:?}", used));
    }
    let columns: Vec<usize> = p.boards.values().copied().collect();
    let apart = |pair: &[usize]| pair[1].checked_sub(pair[0]);
    if columns.windows(2).any(|c| apart(c) < Some(80) || apart(c) != apart(&columns[..2])) {
        return Err(format!("the columns are at {:?}", columns));
    }
    let mut rows: Vec<usize> = p.steps.values().chain(p.events.values()).copied().collect();
    rows.sort();
    if rows.windows(2).any(|r| apart(r) == Some(0) || (r[1] - r[0]) % 20 != 0) {
        return Err(format!("the rows are at {:?}", rows));
    }
    let jammed: Vec<usize> = facts.jams.iter().map(|j| numbers(j)[0]).collect();
    for (board, x) in &p.boards {
        let heads = |class: &str| all.iter().filter(|b| b.name == "rect" && b.class == class && b.numbers[0] == x - 36 && b.numbers[2] == 72).count();
        let bands = all.iter().filter(|b| b.name == "rect" && b.class == "y" && b.numbers[0] == x - 8).count();
        let is_jammed = jammed.contains(board);
        if (heads("n"), heads("k"), bands) != if is_jammed { (2, 0, 1) } else { (0, 2, 0) } {
            return Err(format!("board {} is not shown as it is", board));
        }
    }
    Ok(())
}

fn check(svg: &str, facts: &Facts) -> Result<(), String> {
    if ["<script", "href", "<image", "@import"].iter().any(|w| svg.contains(w)) || svg.matches("http").count() != 1 {
        return Err("it is not self-contained".into());
    }
    let all = marks(svg);
    let p = Places::of(&all);
    check_words(svg, &all, facts)?;
    check_boards(&all, facts, &p)?;
    check_arrows(&all, facts, &p)?;
    check_events(&all, facts, &p)?;
    check_numbers(&all, facts, &p)?;
    check_over(&all)?;
    check_ties(&all, facts)?;
    check_labels(svg, &all)
}

fn hold(svg: &str, facts: &Facts, what: &str, text: &[u8]) {
    if let Err(why) = check(svg, facts) {
        fail(&format!("chart of {}: {}\n{}", what, why, String::from_utf8_lossy(text)));
    }
}

#[derive(Default)]
struct Count {
    locked: usize,
    free: usize,
    refused: usize,
    traces: usize,
    not_allowed: usize,
}

/// The chart of a trace in a file, held to what `replay` says of it.
fn try_trace(program: &str, file: &str, text: &[u8], code: usize, bytes: &[u8], of: &(Vec<usize>, Vec<usize>), count: &mut Count) {
    std::fs::write(file, bytes).expect("the trace is written");
    let c = code.to_string();
    let (told, _) = run(program, &["replay", &c, file], text);
    let (svg, _) = run(program, &["chart", &c, file, "-"], text);
    let line = told.lines().next().unwrap_or("");
    let not_allowed = line.starts_with("step ").then(|| line.to_string());
    let taken = if not_allowed.is_some() { numbers(line)[0] } else { bytes.len() / 2 };
    let steps: Vec<(usize, usize)> = bytes.chunks(2).take(taken).map(|b| (b[0] as usize, b[1] as usize)).collect();
    let verdict = if not_allowed.is_some() { "step not allowed".to_string() } else { format!("trace {}", line) };
    let facts = Facts {
        title: format!("{} on channel {}, {}", verdict, code, NAMES[code]),
        remark: format!("steps: {}", steps.len()),
        boards: of.0.clone(),
        course: of.1.clone(),
        steps,
        jams: jams(&told),
        not_allowed,
        free: false,
    };
    count.traces += 1;
    count.not_allowed += facts.not_allowed.is_some() as usize;
    hold(&svg, &facts, &format!("a trace on channel {}", code), text);
}

/// Charts of a locked sheet's steps as a trace, of part of them, and of two with a step that is not allowed.
fn try_traces(program: &str, folder: &str, text: &[u8], code: usize, steps: &[(usize, usize)], of: &(Vec<usize>, Vec<usize>), count: &mut Count) {
    let file = format!("{}/try.trace", folder);
    let bytes: Vec<u8> = steps.iter().flat_map(|s| [s.0 as u8, s.1 as u8]).collect();
    let half = bytes.len() / 4 * 2;
    try_trace(program, &file, text, code, &bytes, of, count);
    try_trace(program, &file, text, code, &bytes[..half], of, count);
    try_trace(program, &file, text, code, &[&bytes[..half], &bytes[..2]].concat(), of, count);
    try_trace(program, &file, text, code, &[&bytes[..], &[7, 0]].concat(), of, count);
}

/// The chart of a sheet on a channel, and those of its traces; a refused sheet has none.
fn try_channel(program: &str, folder: &str, text: &[u8], code: usize, of: &(Vec<usize>, Vec<usize>), count: &mut Count) -> Option<String> {
    let c = code.to_string();
    let (svg, error) = run(program, &["chart", &c], text);
    let (told, _) = run(program, &["steps", &c], text);
    let answer = told.lines().next().expect("an answer");
    let n = numbers(answer);
    let chosen = run(program, &["choices", &c], text).0;
    if answer.contains("refused 5") && !chosen.contains("refused") {
        // a file with choices: its chart is that of the list that `choices` names
        let word = if chosen.contains("locked") { "<title>locked" } else { "<title>free" };
        if !svg.contains(word) {
            fail(&format!("the chart of a file with choices has no {}\n{}", word, String::from_utf8_lossy(text)));
        }
        return None;
    }
    if answer.contains("refused") {
        count.refused += 1;
        // a file with an A row is charted by its choice lists, and refused as they are
        let number = if answer.contains("refused 5") { numbers(chosen.lines().next().expect("an answer"))[1] } else { n[1] };
        if !svg.is_empty() || !error.starts_with(&format!("standard input: refused {} (", number)) {
            fail(&format!("a refused sheet has a chart, or another refusal: {}\n{}", error, String::from_utf8_lossy(text)));
        }
        return None;
    }
    let free = answer.contains("free");
    let facts = Facts {
        title: format!("{} on channel {}, {}", if free { "free" } else { "locked" }, code, NAMES[code]),
        remark: if free { "a course of its events".into() } else { format!("race: message {}, {}; steps: {}", n[1], event(n[2]), n[3]) },
        boards: of.0.clone(),
        course: of.1.clone(),
        steps: told.lines().skip(1).filter_map(step_of).collect(),
        jams: jams(&told),
        not_allowed: None,
        free,
    };
    hold(&svg, &facts, &format!("channel {}", code), text);
    if free {
        count.free += 1;
    } else {
        count.locked += 1;
        try_traces(program, folder, text, code, &facts.steps, of, count);
    }
    Some(svg)
}

/// The charts of a sheet, on all channels.
fn try_sheet(program: &str, folder: &str, text: &[u8], count: &mut Count) -> Vec<String> {
    let of = course(program, text);
    (0..CODES).filter_map(|code| try_channel(program, folder, text, code, &of, count)).collect()
}

/// As many messages as a sheet may have, on all boards. In all but the last each board answers the one before it; the last goes to the same board as the
/// one before it, and races with it.
fn largest(messages: usize) -> String {
    let mut out = String::from("kind one two\nS 0 0\n");
    let ring = messages - 1;
    for m in 0..ring {
        out += &format!("M {} {}\n", m % 16, (m + 1) % 16);
        // a block orders each board's events behind those of the blocks before it
        out += "B 0 0\n";
    }
    let last = ring % 16;
    // it is sent by a board that no longer waits for the ring, to one that does
    out += &format!("M {} {}\n", (last + 8) % 16, last);
    out
}

/// As many messages as a sheet may have, between boards at random, in blocks of three: many boards jam.
fn crowded(messages: usize, r: &mut Random) -> String {
    let mut out = String::from("kind one two\nS 0 0\n");
    for m in 0..messages {
        out += &format!("M {} {}\n", r.below(16), r.below(16));
        if m % 3 == 2 {
            out += "B 0 0\n";
        }
    }
    out
}

/// The charts of a sheet with as many messages as it may have. That on channel 0, which is locked, and that on channel 1, which is free, are kept.
fn try_large(program: &str, folder: &str, name: &str, text: &str, count: &mut Count) {
    let charts = try_sheet(program, folder, text.as_bytes(), count);
    if charts.len() != CODES || !charts[0].contains("<title>locked") || !charts[1].contains("<title>free") {
        fail(&format!("the {} sheet is refused, or not locked on 0 and free on 1", name));
    }
    for (code, svg) in charts[..2].iter().enumerate() {
        std::fs::write(format!("{}/{}-{}.svg", folder, name, code), svg).expect("the chart is written");
    }
}

fn main() {
    let arguments: Vec<String> = std::env::args().collect();
    let number = |i: usize, otherwise: u64| arguments.get(i).map_or(otherwise, |a| a.parse().expect("a number"));
    let time = std::time::SystemTime::now().duration_since(std::time::UNIX_EPOCH).map_or(1, |d| d.as_nanos() as u64);
    let (program, messages, folder) = (&arguments[1], number(2, 0) as usize, &arguments[3]);
    let (sheets, seed) = (number(4, 40), number(5, time));
    let mut count = Count::default();
    let mut files: Vec<_> = std::fs::read_dir("examples").expect("examples/").map(|f| f.expect("a file").path()).collect();
    files.retain(|f| f.extension().map_or(false, |e| e == "sheet"));
    for f in &files {
        try_sheet(program, folder, &std::fs::read(f).expect("a sheet"), &mut count);
    }
    for i in 0..sheets {
        try_sheet(program, folder, &texts::text(&mut Random::new(seed, i)), &mut count);
    }
    try_large(program, folder, "largest", &largest(messages), &mut count);
    try_large(program, folder, "crowded", &crowded(messages, &mut Random::new(seed, sheets)), &mut count);
    if count.locked * count.free * count.refused * count.not_allowed == 0 {
        fail("no sheet was locked, free or refused, or had no step that is not allowed");
    }
    println!(
        "charts: {} locked, {} free, {} refused, {} of traces, {} with a step not allowed; {} examples, {} random sheets, seed {}",
        count.locked,
        count.free,
        count.refused,
        count.traces,
        count.not_allowed,
        files.len(),
        sheets,
        seed
    );
}
