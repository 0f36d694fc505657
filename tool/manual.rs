//! The manual page, in roff, from the words of `help`.

use crate::help::{Command, COMMANDS, INPUT, OTHERS, STATUS};
use crate::output::Answer;
use crate::words;

const LINE_MOST: usize = 60;

/// Text as roff takes it: no line begins with a mark of roff's own, and a hyphen stays one.
fn roff(text: &str) -> String {
    let plain = text.replace('\\', "\\e").replace('-', "\\-");
    match plain.chars().next() {
        Some('.') | Some('\'') => format!("\\&{}", plain),
        _ => plain,
    }
}

fn heading(answer: &mut Answer, words: &str) {
    answer.line(&format!(".SH {}", words));
}

/// Words in lines that are no longer than manual pages have them, with `more` at the end of those that go on.
fn wrapped(answer: &mut Answer, text: &str, more: &str) {
    let mut line = String::new();
    for word in text.split(' ') {
        if !line.is_empty() && line.len() + word.len() > LINE_MOST {
            answer.line(&format!("{}{}", roff(&line), more));
            line.clear();
        } else if !line.is_empty() {
            line.push(' ');
        }
        line.push_str(word);
    }
    answer.line(&roff(&line));
}

/// Each sentence begins a line, as manual pages have it.
fn sentences(answer: &mut Answer, text: &str) {
    for s in text.split(". ") {
        let end = if s.ends_with('.') { "" } else { "." };
        wrapped(answer, &format!("{}{}", s, end), "");
    }
}

fn entry(answer: &mut Answer, c: &Command) {
    answer.line(".TP");
    answer.line(&format!(".B {}", roff(c.name)));
    sentences(answer, c.phrase);
    answer.line(".IP");
    answer.line(".nf");
    wrapped(answer, &format!("$ {}", c.example), " \\e");
    answer.line(".fi");
}

pub fn say(version: &str) -> Answer {
    let mut answer = Answer::new();
    answer.line(&format!(".TH CHANNEL_TOOL 1 \"\" \"Channel check {}\" \"Channel check\"", version));
    heading(&mut answer, "NAME");
    answer.line("channel_tool \\- checks, replays, watches, draws and cures message sheets");
    heading(&mut answer, "SYNOPSIS");
    answer.line(".nf");
    COMMANDS.iter().for_each(|c| answer.line(&roff(&format!("channel_tool {}", c.usage))));
    OTHERS.iter().for_each(|(usage, _)| answer.line(&roff(&format!("channel_tool {}", usage))));
    answer.line(".fi");
    heading(&mut answer, "DESCRIPTION");
    sentences(&mut answer, INPUT);
    COMMANDS.iter().for_each(|c| entry(&mut answer, c));
    for (usage, phrase) in OTHERS {
        answer.line(".TP");
        answer.line(&format!(".B {}", roff(usage)));
        sentences(&mut answer, phrase);
    }
    heading(&mut answer, "CHANNELS");
    answer.line("A channel is named by its code or by its word.");
    for (code, word) in words::CHANNEL_WORDS.iter().enumerate() {
        answer.line(".TP");
        answer.line(&format!(".B {} {}", code, roff(word)));
        answer.line(&roff(words::CHANNEL_NAMES[code]));
    }
    heading(&mut answer, "EXIT STATUS");
    for (status, meaning) in STATUS.iter().enumerate() {
        answer.line(".TP");
        answer.line(&format!(".B {}", status));
        wrapped(&mut answer, meaning, "");
    }
    heading(&mut answer, "SEE ALSO");
    answer.line(".BR check_sheet (1)");
    answer
}
