//! The commands, each with its words, a phrase and an example; `help` and the manual page speak from this table.

use crate::commands::{self, Call};
use crate::input::Failure;
use crate::output::Answer;
use crate::{chart, report, words};

/// Whether a command takes a channel.
#[derive(Clone, Copy, PartialEq, Eq)]
pub enum Code {
    None,
    May,
    Must,
}

pub struct Command {
    pub name: &'static str,
    pub code: Code,
    /// The fewest and the most files after the command.
    pub files: (usize, usize),
    pub usage: &'static str,
    pub phrase: &'static str,
    pub example: &'static str,
    pub run: fn(&mut Call) -> Result<Answer, Failure>,
}

const MANY: usize = usize::MAX;

pub const COMMANDS: [Command; 18] = [
    Command {
        name: "check",
        code: Code::None,
        files: (0, 1),
        usage: "check [SHEET]",
        phrase: "A line for each of the six channels: free, locked or refused, with three numbers.",
        example: "channel_tool check case-2-two-senders-race.sheet",
        run: commands::check::run,
    },
    Command {
        name: "steps",
        code: Code::Must,
        files: (0, 1),
        usage: "steps CHANNEL [SHEET]",
        phrase: "The answer on one channel and, where it is locked, the steps that stop the boards and what each board waits for.",
        example: "channel_tool steps fifo jam-fifo.sheet",
        run: commands::steps::run,
    },
    Command {
        name: "rounds",
        code: Code::May,
        files: (0, 1),
        usage: "rounds [CHANNEL] [SHEET]",
        phrase: "The answer for an exchange that is repeated any number of times: free, or the round that locks, with its race and steps.",
        example: "channel_tool rounds 0 one-message.sheet",
        run: commands::rounds::run,
    },
    Command {
        name: "messages",
        code: Code::None,
        files: (0, 1),
        usage: "messages [SHEET]",
        phrase: "The messages that the walk of a sheet meets, with their boards, lines and events.",
        example: "channel_tool messages two-requests.sheet",
        run: commands::messages::run,
    },
    Command {
        name: "races",
        code: Code::May,
        files: (0, 1),
        usage: "races [CHANNEL] [SHEET]",
        phrase: "All races of a channel, or of every channel, in words.",
        example: "channel_tool races 0 two-requests.sheet",
        run: commands::races::run,
    },
    Command {
        name: "report",
        code: Code::None,
        files: (0, 1),
        usage: "report [SHEET] [-o PAGE.html]",
        phrase: "The whole picture of a sheet on one page, for a screen and for paper.",
        example: "channel_tool report two-requests.sheet -o two-requests.html",
        run: report::run,
    },
    Command {
        name: "chart",
        code: Code::Must,
        files: (0, 2),
        usage: "chart CHANNEL [TRACE] [SHEET] [--cured | --rounds] [-o CHART.svg]",
        phrase: "A picture of the answer on a channel, of a trace (two files: trace and sheet), of the cured sheet, or of rounds.",
        example: "channel_tool chart 0 case-2-two-senders-race.sheet -o case-2.svg",
        run: chart::run,
    },
    Command {
        name: "sheet",
        code: Code::None,
        files: (0, 1),
        usage: "sheet [DIAGRAM] [-o NEW.sheet]",
        phrase: "The sheet of a sequence diagram in Mermaid's text; every command takes such a diagram where it takes a sheet.",
        example: "channel_tool sheet tool-change.mmd -o tool-change.sheet",
        run: commands::sheet::run,
    },
    Command {
        name: "diagram",
        code: Code::May,
        files: (0, 1),
        usage: "diagram [CHANNEL] [SHEET] [-o NEW.mmd]",
        phrase: "A sheet, or its jam on a channel, as such a diagram, with a note at each board that waits.",
        example: "channel_tool diagram fifo tool-change-both-at-once.sheet",
        run: commands::diagram::run,
    },
    Command {
        name: "cure",
        code: Code::None,
        files: (0, 1),
        usage: "cure [SHEET] [-o NEW.sheet]",
        phrase: "The loosest sheet of the same messages that is free on every channel; standard error has the orders that it gives up.",
        example: "channel_tool cure two-requests.sheet -o new.sheet",
        run: commands::cure::run,
    },
    Command {
        name: "choices",
        code: Code::Must,
        files: (0, 1),
        usage: "choices CHANNEL [SHEET]",
        phrase: "The answer over all choice lists of a file with A rows, and where it is locked the first list that locks.",
        example: "channel_tool choices 0 choice-of-tool-holder.sheet",
        run: commands::choices::run,
    },
    Command {
        name: "trace",
        code: Code::Must,
        files: (0, 1),
        usage: "trace CHANNEL [SHEET] [-o TRACE]",
        phrase: "The steps that stop the boards as bytes, two a step: 0 send, 1 deliver, 2 consume, and then the message.",
        example: "channel_tool trace 0 case-2-two-senders-race.sheet -o case-2.trace",
        run: commands::trace::run,
    },
    Command {
        name: "replay",
        code: Code::Must,
        files: (1, 2),
        usage: "replay CHANNEL TRACE [SHEET]",
        phrase: "What the step rules say of a trace, bytes or text: finished, stuck, open, or the first step that is not allowed.",
        example: "channel_tool replay 0 case-2.trace case-2-two-senders-race.sheet",
        run: commands::replay::run,
    },
    Command {
        name: "watch",
        code: Code::Must,
        files: (1, 2),
        usage: "watch CHANNEL SHEET [TRACE]",
        phrase: "A run fed line by line (send 1, deliver 1, consume 1, switch 4; ? lists what is allowed), each line with its answer.",
        example: "channel_tool watch 0 case-2-two-senders-race.sheet < watch-case-2.steps",
        run: commands::watch::run,
    },
    Command {
        name: "dispatch",
        code: Code::None,
        files: (1, MANY),
        usage: "dispatch SHEET:CHANNEL ...",
        phrase: "Up to eight jobs at a time, a turn each in order: every job's admission or refusal, and the turn and the answer of each.",
        example: "channel_tool dispatch two-requests.sheet:0 jam-fifo.sheet:fifo",
        run: commands::dispatch::run,
    },
    Command {
        name: "senders",
        code: Code::None,
        files: (0, 1),
        usage: "senders [TABLE]",
        phrase: "Whether a table of permitted senders is sound, or its lowest faulty pair of boards.",
        example: "channel_tool senders one-master.table",
        run: commands::senders::run,
    },
    Command {
        name: "permitted",
        code: Code::Must,
        files: (1, 2),
        usage: "permitted CHANNEL TABLE [SHEET]",
        phrase: "The answer on a channel with such a table and, where it is locked, the steps and what each board waits for.",
        example: "channel_tool permitted 0 one-master.table case-3-message-overtakes.sheet",
        run: commands::permitted::run,
    },
    Command {
        name: "taps",
        code: Code::None,
        files: (2, 3),
        usage: "taps LIST LIST [SHEET]",
        phrase: "One course of all events that two lists of event numbers fit, or the event that would have to precede itself.",
        example: "channel_tool taps two-taps-fit-first.list two-taps-fit-second.list two-taps.sheet",
        run: commands::taps::run,
    },
];

/// What is asked of the tool itself.
pub const OTHERS: [(&str, &str); 3] = [
    ("help [COMMAND]", "These words, or those of one command."),
    ("version", "The versions of the tool and of the library."),
    ("manual", "The manual page, from these words: channel_tool manual | man -l - shows it."),
];

pub fn command(name: &str) -> Option<&'static Command> {
    COMMANDS.iter().find(|c| c.name == name)
}

fn one(answer: &mut Answer, c: &Command) {
    answer.line(&format!("channel_tool {}", c.usage));
    answer.line(&format!("    {}", c.phrase));
    answer.line(&format!("    $ {}", c.example));
}

fn channels(answer: &mut Answer) {
    answer.line("The channels, by code or by word:");
    for (code, word) in words::CHANNEL_WORDS.iter().enumerate() {
        answer.line(&format!("    {}  {:<18} {}", code, word, words::CHANNEL_NAMES[code]));
    }
}

pub const INPUT: &str =
    "A sheet is a file, or `-` or nothing for standard input. With `-o FILE` the answer is written there, whole or not at all.";

/// The exit status, by its number.
pub const STATUS: [&str; 4] = [
    "the answer is good: free, fit, sound, finished, open, written",
    "it is not: locked, stuck, not allowed, clash, gap",
    "refused, and standard error says why",
    "no answer: wrong words, or something could not be read or written",
];

/// All commands, or the one that is named.
pub fn say(name: Option<&str>) -> Option<Answer> {
    let mut answer = Answer::new();
    if let Some(n) = name {
        one(&mut answer, command(n)?);
        if command(n)?.code != Code::None {
            channels(&mut answer);
        }
        return Some(answer);
    }
    answer.line("usage: channel_tool COMMAND [CHANNEL] [FILES] [-o FILE]");
    answer.line(INPUT);
    answer.line("");
    for c in &COMMANDS {
        one(&mut answer, c);
    }
    for (usage, phrase) in OTHERS {
        answer.line(&format!("channel_tool {}", usage));
        answer.line(&format!("    {}", phrase));
    }
    answer.line("");
    channels(&mut answer);
    answer.line("");
    answer.line("Exit status:");
    STATUS.iter().enumerate().for_each(|(status, meaning)| answer.line(&format!("    {}  {}", status, meaning)));
    Some(answer)
}

/// The words to send someone to `help` with.
pub fn short(name: Option<&str>) -> String {
    match name.and_then(command) {
        Some(c) => format!("usage: channel_tool {}", c.usage),
        None => "usage: channel_tool COMMAND [CHANNEL] [FILES] [-o FILE]; `channel_tool help` lists the commands".to_string(),
    }
}
