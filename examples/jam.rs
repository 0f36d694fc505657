//! jam.rs: what jam.c says, from Rust over the shared library.
//! rustc jam.rs -L FOLDER -l channel_check, and at run time LD_LIBRARY_PATH=FOLDER

use std::io::Read;
use std::process::exit;

const TEXT_BYTES: usize = 8192;
const SCRATCH_WORDS: usize = 4096;
const TRACE_BYTES: usize = 1536;
const EAGER_FREE_RUNNING: u32 = 0;
const REFUSALS: [&str; 12] = ["", "channel", "bench", "length", "heading", "row", "place", "absent", "depth", "calls", "messages", "circle"];
const STEPS: [&str; 3] = ["send", "deliver", "consume"];

#[repr(C)]
struct Answer {
    word: u32,
    one: u32,
    two: u32,
    three: u32,
}

extern "C" {
    fn channel_check(text: *const u8, text_len: usize, code: u32, scratch: *mut u64, scratch_len: usize, trace: *mut u8, trace_len: usize) -> Answer;
}

fn main() {
    let mut text = Vec::new();
    if let Err(e) = std::io::stdin().take(TEXT_BYTES as u64 + 1).read_to_end(&mut text) {
        eprintln!("standard input: {}", e);
        exit(3);
    }
    let (mut scratch, mut trace) = ([0u64; SCRATCH_WORDS], [0u8; TRACE_BYTES]);
    // the pointers are those of live buffers, with their own lengths
    let a = unsafe { channel_check(text.as_ptr(), text.len(), EAGER_FREE_RUNNING, scratch.as_mut_ptr(), SCRATCH_WORDS, trace.as_mut_ptr(), TRACE_BYTES) };
    match a.word {
        0 => println!("free"),
        1 => println!("locked: message {} races with event {}", a.one, a.two),
        _ => println!("refused: {}, line {}", REFUSALS[a.one as usize], a.two),
    }
    for step in trace.chunks_exact(2).take(a.three as usize) {
        println!("{} {}", STEPS[usize::from(step[0])], step[1]);
    }
    exit(a.word as i32);
}
