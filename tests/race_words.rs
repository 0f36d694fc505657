//! Holds the race words that the program race_words prints to the plain reference's definition of a race: on random sheets, for each
//! channel code and message, a bit is set exactly for each event that races with it.
//! usage: race_words PROGRAM [SHEETS [SEED]]

#[path = "reference.rs"]
#[allow(dead_code)]
mod reference;
#[path = "texts.rs"]
#[allow(dead_code)] // files with choices are for the other test
mod texts;

use std::io::Write;
use std::process::{Command, Stdio};
use texts::Random;

const CODES: u32 = 6;
const WORDS: usize = reference::ROW_WORDS;

fn printed(program: &str, text: &[u8]) -> String {
    let mut child = Command::new(program).stdin(Stdio::piped()).stdout(Stdio::piped()).spawn().expect("the program starts");
    // a text that is too long is not read to its end
    let _ = child.stdin.take().expect("its input").write_all(text);
    let out = child.wait_with_output().expect("the program ends");
    String::from_utf8(out.stdout).expect("it prints plain text")
}

/// The words of message e under a code, bit by bit from the definition of a race.
fn words(s: &reference::Scenario, code: u32, e: usize) -> [u64; WORDS] {
    let mut out = [0; WORDS];
    for x in (0..2 * s.messages.len()).filter(|x| s.is_race(code, e, *x)) {
        out[x / 64] |= 1 << (x % 64);
    }
    out
}

fn main() {
    let arguments: Vec<String> = std::env::args().collect();
    let number = |i: usize, otherwise: u64| arguments.get(i).map_or(otherwise, |a| a.parse().expect("a number"));
    let time = std::time::SystemTime::now().duration_since(std::time::UNIX_EPOCH).map_or(1, |d| d.as_nanos() as u64);
    let (program, sheets, seed) = (&arguments[1], number(2, 1_000), number(3, time));
    println!("race words: {} sheets, seed {}", sheets, seed);
    let (mut tried, mut compared, mut raced, mut text) = (0, 0, 0, 0);
    while tried < sheets {
        let sheet = texts::text(&mut Random::new(seed, text));
        text += 1;
        let Ok(s) = reference::sheet(&sheet) else { continue };
        let mut expected = String::new();
        for code in 0..CODES {
            for e in 0..s.messages.len() {
                let row = words(&s, code, e);
                let numbers: Vec<String> = row.iter().map(u64::to_string).collect();
                expected += &format!("{} {} {}\n", code, e, numbers.join(" "));
                compared += WORDS;
                raced += row.iter().filter(|w| **w != 0).count();
            }
        }
        if printed(program, &sheet) != expected {
            println!("FAILED: other race words on the text\n{}", String::from_utf8_lossy(&sheet));
            std::process::exit(1);
        }
        tried += 1;
    }
    if raced == 0 && sheets > 0 {
        println!("FAILED: no sheet raced");
        std::process::exit(1);
    }
    println!("race words: {} words compared, {} with a race, 0 differences", compared, raced);
}
