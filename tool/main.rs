//! `channel_tool`: words, pictures and pages about message sheets, over the C face of the proved library. It decides nothing.

mod chart;
mod chosen;
mod commands;
mod diagram;
mod drawing;
mod face;
mod help;
mod input;
mod layout;
mod manual;
mod output;
mod refusals;
mod report;
mod rows;
mod run;
mod sheet;
mod steps_text;
mod svg;
mod words;

use commands::Call;
use help::{Code, Command};
use input::{Failure, Inputs};
use output::{Answer, Status};
use std::ffi::OsString;
use std::process::ExitCode;

const VERSION: &str = include_str!("../VERSION");

/// The words of the command line, with the options taken out.
struct Words {
    words: Vec<OsString>,
    to: Option<OsString>,
    cured: bool,
    repeated: bool,
}

fn wrong(why: &str, command: Option<&str>) -> Failure {
    Failure::new(format!("{}\n{}", why, help::short(command)))
}

fn split(all: Vec<OsString>) -> Result<Words, Failure> {
    let mut out = Words { words: Vec::new(), to: None, cured: false, repeated: false };
    let mut rest = all.into_iter();
    while let Some(word) = rest.next() {
        match word.to_str() {
            Some("-o") => match rest.next() {
                Some(name) if out.to.is_none() => out.to = Some(name),
                Some(_) => return Err(wrong("`-o` is there twice", None)),
                None => return Err(wrong("`-o` names no file", None)),
            },
            Some("--cured") => out.cured = true,
            Some("--rounds") => out.repeated = true,
            Some("--help") | Some("-h") => out.words.insert(0, OsString::from("help")),
            Some("--version") => out.words.insert(0, OsString::from("version")),
            Some(w) if w.starts_with('-') && w != "-" && !w.starts_with("-:") => return Err(wrong(&format!("`{}` is no option", w), None)),
            _ => out.words.push(word),
        }
    }
    Ok(out)
}

fn say_help(words: &[OsString]) -> Result<Answer, Failure> {
    let name = words.first().map(|w| w.to_string_lossy().into_owned());
    no_more(&words[words.len().min(1)..], "help")?;
    let none = || wrong(&format!("`{}` is no command", name.as_deref().unwrap_or("")), None);
    match name.as_deref() {
        Some("help") | Some("version") | Some("manual") => help::say(None).ok_or_else(none),
        other => help::say(other).ok_or_else(none),
    }
}

fn no_more(words: &[OsString], after: &str) -> Result<(), Failure> {
    if words.is_empty() {
        return Ok(());
    }
    Err(wrong(&format!("surplus words after `{}`", after), None))
}

fn say_version() -> Answer {
    let library = face::version();
    let mut answer = Answer::new();
    answer.line(&format!("channel_tool {}", VERSION.trim()));
    answer.line(&format!("library {}.{}.{}", library / 10_000, library / 100 % 100, library % 100));
    answer
}

/// The channel, where the words have one: a command that may have none takes the first word for it if it names a channel.
fn take_code(command: &Command, words: &mut Vec<OsString>) -> Result<Option<u32>, Failure> {
    if command.code == Code::None {
        return Ok(None);
    }
    let code = words.first().and_then(|w| w.to_str()).and_then(words::channel_code);
    if code.is_none() && command.code == Code::Must {
        let why = match words.first() {
            Some(w) => format!("`{}` is no channel: a digit, or {}", w.to_string_lossy(), words::CHANNEL_WORDS.join(", ")),
            None => "no channel is named".to_string(),
        };
        return Err(wrong(&why, Some(command.name)));
    }
    if code.is_some() {
        words.remove(0);
        return Ok(code);
    }
    // a channel that need not be there may come last too
    let last = words.last().filter(|_| words.len() > command.files.1).and_then(|w| w.to_str()).and_then(words::channel_code);
    if last.is_some() {
        words.pop();
    }
    Ok(last)
}

fn call(command: &Command, mut words: Vec<OsString>, all: &Words) -> Result<Answer, Failure> {
    let code = take_code(command, &mut words)?;
    if words.len() < command.files.0 {
        return Err(wrong("a file is missing", Some(command.name)));
    }
    if words.len() > command.files.1 {
        let surplus = words[command.files.1].to_string_lossy().into_owned();
        return Err(wrong(&format!("`{}` is a word too many", surplus), Some(command.name)));
    }
    if (all.cured || all.repeated) && command.name != "chart" {
        return Err(wrong("`--cured` and `--rounds` are for charts", Some(command.name)));
    }
    if all.cured && all.repeated {
        return Err(wrong("a chart is of the cured sheet or of rounds, not both", Some(command.name)));
    }
    (command.run)(&mut Call { code, files: words, cured: all.cured, repeated: all.repeated, live: all.to.is_none(), inputs: Inputs::new() })
}

fn answer(all: &Words) -> Result<Answer, Failure> {
    let (first, rest) = match all.words.split_first() {
        Some((f, r)) => (f.to_string_lossy().into_owned(), r.to_vec()),
        None => return Err(wrong("no command is named", None)),
    };
    match first.as_str() {
        "help" => say_help(&rest),
        "version" => no_more(&rest, "version").map(|()| say_version()),
        "manual" => no_more(&rest, "manual").map(|()| manual::say(VERSION.trim())),
        name => match help::command(name) {
            Some(c) => call(c, rest, all),
            None => Err(wrong(&format!("`{}` is no command", name), None)),
        },
    }
}

fn run() -> Result<Status, Failure> {
    let all = split(std::env::args_os().skip(1).collect())?;
    let answer = answer(&all)?;
    output::write(&answer, all.to.as_ref())?;
    Ok(answer.status)
}

fn main() -> ExitCode {
    match run() {
        Ok(status) => ExitCode::from(status as u8),
        Err(failure) => {
            // where standard error fails too, the status is all that can be told
            let _ = output::write_notes(&format!("{}\n", failure.why));
            ExitCode::from(failure.status as u8)
        }
    }
}
