//! Random bytes as sheet, trace, table and list to every command of the tool: no crash, a status from 0 to 3, and an answer or a reason.
//! Half of the inputs are bytes; the others are rows, rules and steps in a random order, so that some are accepted. Then every command on the largest
//! sheets; the longest time of one is printed.
//! usage: random_bytes PROGRAM FOLDER RUNS SEED [diagrams], with which every sheet is a diagram

use std::fs;
use std::path::Path;
use std::process::{Command, Output, Stdio};
use std::time::{Duration, Instant};

struct Random(u64);

impl Random {
    fn below(&mut self, n: usize) -> usize {
        self.0 ^= self.0 << 13;
        self.0 ^= self.0 >> 7;
        self.0 ^= self.0 << 17;
        (self.0 >> 11) as usize % n
    }
}

/// The words of every command; `{sheet}` and the others are files of random bytes.
const COMMANDS: [&str; 27] = [
    "check {sheet}",
    "steps {code} {sheet}",
    "messages {sheet}",
    "races {sheet}",
    "races {code} {sheet}",
    "report {sheet}",
    "chart {code} {sheet}",
    "chart {code} {trace} {sheet}",
    "chart {code} --cured {sheet}",
    "cure {sheet}",
    "choices {code} {sheet}",
    "trace {code} {sheet}",
    "replay {code} {trace} {sheet}",
    "watch {code} {sheet} {trace}",
    "watch {code} {sheet}",
    "dispatch {sheet}:{code} {table}:{code} {sheet}:{code}",
    "senders {table}",
    "permitted {code} {table} {sheet}",
    "taps {list} {list} {sheet}",
    "rounds {sheet}",
    "rounds {code} {sheet}",
    "chart {code} --rounds {sheet}",
    "sheet {sheet}",
    "diagram {sheet}",
    "diagram {code} {sheet}",
    "help {code}",
    "{code} {sheet}",
];

fn bytes(r: &mut Random) -> Vec<u8> {
    let most = [4, 60, 600, 9000][r.below(4)];
    let length = r.below(most);
    let few = b"SMPBCA 0123456789\n\n\r\t";
    let plain = r.below(2) == 0;
    (0..length).map(|_| if plain { few[r.below(few.len())] } else { r.below(256) as u8 }).collect()
}

/// A diagram of random statements, or of random bytes after its first word.
fn diagram(r: &mut Random) -> Vec<u8> {
    let mut out = b"sequenceDiagram\n".to_vec();
    if r.below(2) == 0 {
        out.extend(bytes(r));
        return out;
    }
    let words = ["A->>B: x", "B-->>A: y", "C-)A: z", "A->>A: self", "alt a", "else b", "opt c", "par d", "and e", "rect f", "end", "end", "end", "loop g", "Note over A: n", "%% r",
        "participant D as d", "A->B", "break h", "activate A", "A-x->>B: two", "\t\u{fc}->>B: u"];
    for _ in 0..r.below(40) {
        out.extend(words[r.below(words.len())].bytes());
        out.push(b'\n');
    }
    out
}

fn sheet(r: &mut Random) -> Vec<u8> {
    match r.below(6) {
        0 | 1 => return bytes(r),
        2 => return diagram(r),
        _ => {}
    }
    let (boards, mut out) = (1 + r.below(6), String::from("kind one two\nS 0 0\n"));
    let mut on: Vec<usize> = Vec::new(); // the boards of the open block's events
    for _ in 0..r.below(30) {
        let row = match r.below(64) {
            0 => format!("S {} 0\n", r.below(4)),
            1 => format!("P {} {}\n", r.below(9), r.below(9)),
            2 | 3 => format!("A {} {}\n", 1 + r.below(2), 1 + r.below(2)),
            4..=9 => format!("C {} 0\n", 1 + r.below(2)),
            10..=15 => "B 0 0\n".to_string(),
            16..=35 if !on.is_empty() => {
                let x = r.below(on.len());
                let y = (x + 1..on.len()).find(|y| on[*y] == on[x]).unwrap_or(x);
                if x == y {
                    continue;
                }
                format!("P {} {}\n", x, y)
            }
            _ => format!("M {} {}\n", r.below(boards), r.below(boards)),
        };
        match row.as_bytes()[0] {
            b'M' => on.extend(row.split_whitespace().skip(1).map(|n| n.parse::<usize>().expect("a board"))),
            b'P' => {}
            _ => on.clear(),
        }
        out += &row;
    }
    for n in 1..3 {
        out += &format!("S {} 0\nM {} {}\n", n, r.below(boards), r.below(boards));
    }
    out.into_bytes()
}

fn trace(r: &mut Random) -> Vec<u8> {
    match r.below(3) {
        0 => bytes(r),
        1 => (0..2 * r.below(30)).map(|i| if i % 2 == 0 { r.below(3) } else { r.below(5) } as u8).collect(),
        _ => {
            let words = ["send", "deliver", "consume", "switch", "?", "board"];
            (0..r.below(30)).map(|_| format!("{} {}\r\n", words[r.below(6)], r.below(6))).collect::<String>().into_bytes()
        }
    }
}

fn table(r: &mut Random) -> Vec<u8> {
    match r.below(3) {
        0 => bytes(r),
        1 => b"from to verdict\n65535 65535 1\n".to_vec(),
        _ => {
            let mut out = String::from("from to verdict\n");
            for _ in 0..r.below(70) {
                out += &format!("{} {} {}\n", r.below(70_000), r.below(65_536), r.below(3));
            }
            out.into_bytes()
        }
    }
}

fn list(r: &mut Random) -> Vec<u8> {
    if r.below(3) == 0 {
        return bytes(r);
    }
    (0..r.below(6)).map(|_| format!("{} ", r.below(20))).collect::<String>().into_bytes()
}

fn fail(why: &str) -> ! {
    println!("FAILED: {}", why);
    std::process::exit(1);
}

fn run(program: &str, words: &[String], input: &Path) -> Output {
    let from = fs::File::open(input).expect("the input is there");
    Command::new(program).args(words).stdin(Stdio::from(from)).output().expect("the program starts")
}

fn judge(out: &Output, what: &str) -> usize {
    let status = match out.status.code() {
        Some(s) if (0..=3).contains(&s) => s as usize,
        other => fail(&format!("{}: status {:?}\n{}", what, other, String::from_utf8_lossy(&out.stderr))),
    };
    if String::from_utf8_lossy(&out.stderr).contains("panicked") {
        fail(&format!("{}: {}", what, String::from_utf8_lossy(&out.stderr)));
    }
    if status >= 2 && out.stderr.is_empty() && !what.starts_with("watch") {
        fail(&format!("{}: status {} without a reason", what, status));
    }
    status
}

/// As many messages as a sheet may have, on all boards: a ring, and one that races at the end; or all to one board.
fn largest(ring: bool) -> String {
    let mut out = String::from("kind one two\nS 0 0\n");
    for m in 0..255 {
        let row = if ring { format!("M {} {}\nB 0 0\n", m % 16, (m + 1) % 16) } else { format!("M {} 0\n", 1 + m % 15) };
        out += &row;
    }
    out += if ring { "M 3 15\n" } else { "M 2 0\nP 1 511\nP 509 511\n" };
    out
}

fn time_largest(program: &str, folder: &Path) -> Duration {
    let mut longest = Duration::ZERO;
    for ring in [true, false] {
        let file = |name: &str, bytes: &[u8]| {
            fs::write(folder.join(name), bytes).expect("a file is written");
            folder.join(name).to_string_lossy().into_owned()
        };
        let (sheet, table, list) = (file("sheet", largest(ring).as_bytes()), file("table", b"from to verdict\n65535 65535 1\n"), file("list", b"0 1"));
        let trace = file("trace", &(0..=255u8).flat_map(|m| [0, m]).collect::<Vec<u8>>());
        for command in COMMANDS {
            let code = "0";
            let words = command.replace("{sheet}", &sheet).replace("{table}", &table).replace("{list}", &list).replace("{trace}", &trace).replace("{code}", code);
            let words: Vec<String> = words.split(' ').map(String::from).collect();
            let began = Instant::now();
            judge(&run(program, &words, &folder.join("trace")), command);
            longest = longest.max(began.elapsed());
        }
    }
    longest
}

fn main() {
    let words: Vec<String> = std::env::args().collect();
    let (program, folder) = (words[1].as_str(), Path::new(&words[2]));
    let (runs, seed): (usize, u64) = (words[3].parse().expect("runs"), words[4].parse().expect("a seed"));
    fs::create_dir_all(folder).expect("a folder");
    let mut r = Random(seed.wrapping_mul(0x9e37_79b9_7f4a_7c15) | 1);
    let sheets: fn(&mut Random) -> Vec<u8> = if words.get(5).map(String::as_str) == Some("diagrams") { diagram } else { sheet };
    let mut count = [0; 4];
    for i in 0..runs {
        let mut words = COMMANDS[i % COMMANDS.len()].to_string();
        for (name, make) in [("sheet", sheets), ("trace", trace as fn(&mut Random) -> Vec<u8>), ("table", table), ("list", list)] {
            let file = folder.join(name);
            fs::write(&file, make(&mut r)).expect("a file is written");
            words = words.replace(&format!("{{{}}}", name), &file.to_string_lossy());
        }
        let code = ["0", "1", "2", "3", "4", "5", "fifo", "token-ring", "9"][r.below(9)];
        let list: Vec<String> = words.replace("{code}", code).split(' ').map(String::from).collect();
        let out = run(program, &list, &folder.join("trace"));
        count[judge(&out, &format!("{} (run {}, seed {})", list.join(" "), i, seed))] += 1;
    }
    let longest = time_largest(program, folder);
    println!("random: {} runs, seed {}: status 0 {}, 1 {}, 2 {}, 3 {}; the longest command on the largest sheets {:?}", runs, seed, count[0], count[1], count[2], count[3], longest);
}
