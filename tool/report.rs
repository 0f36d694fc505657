//! `report`: the whole picture of a sheet on one page, for a screen and for paper, without script or network.

use crate::chart;
use crate::chosen;
use crate::commands::{self, rounds, Call};
use crate::face::{self, Choices, Lock, Race, Refusal, Rounds, Standing, Verdict};
use crate::input::{shown, Failure};
use crate::output::{Answer, Status};
use crate::refusals::Handed;
use crate::rows;
use crate::sheet::{trimmed, Sheet};
use crate::svg::escaped;
use crate::words::{self, Named};

const STYLE: &str = "\
body{font:16px/1.5 sans-serif;color:#222;background:#fff;max-width:60em;margin:0 auto;padding:1em}
h1{font-size:1.5em}h2{font-size:1.2em;border-top:1px solid #ccc;padding-top:1em;margin-top:2em}h3{font-size:1em}
table{border-collapse:collapse}td,th{border:1px solid #ccc;padding:.2em .6em;text-align:left;vertical-align:top}
pre{background:#f4f4f4;padding:.6em;overflow-wrap:anywhere;white-space:pre-wrap}
.locked{color:#a00018;font-weight:bold}.free{color:#135c1d;font-weight:bold}
.wide{overflow-x:auto}svg{max-width:100%;height:auto}li{overflow-wrap:anywhere}
@media print{body{font-size:11pt;max-width:none;padding:0}@page{size:A4;margin:12mm}h2,h3{break-after:avoid}tr,li{break-inside:avoid}}";

/// What the library answers on every channel.
struct Page<'a> {
    sheet: &'a Sheet,
    /// The text that is drawn: the sheet's own, or that of the choice list named.
    text: &'a [u8],
    named: Named,
    locks: Vec<Option<Lock>>,
    choices: Vec<String>,
    out: String,
}

pub fn run(call: &mut Call) -> Result<Answer, Failure> {
    let sheet = call.sheet(0)?;
    let mut answer = Answer::new();
    match page(&sheet)? {
        Ok(html) => answer.out = html.into_bytes(),
        Err(r) => {
            let choices = rows::rows(&sheet.bytes, usize::MAX).iter().any(|row| row.kind == b'A');
            commands::refuse(&mut answer, &sheet, r, &Handed { choices, ..Handed::default() });
        }
    }
    if answer.out.is_empty() {
        answer.worsen(Status::Refused);
    }
    Ok(answer)
}

fn page(sheet: &Sheet) -> Result<Result<String, Refusal>, Failure> {
    if rows::rows(&sheet.bytes, usize::MAX).iter().any(|row| row.kind == b'A') {
        return page_of_choices(sheet);
    }
    let mut locks = Vec::new();
    for code in 0..face::CHANNELS {
        match face::check(&sheet.bytes, code) {
            Verdict::Free => locks.push(None),
            Verdict::Locked(lock) => locks.push(Some(lock)),
            Verdict::Refused(r) => return Ok(Err(r)),
        }
    }
    let named = commands::named(sheet)?;
    Ok(Ok(Page { sheet, text: &sheet.bytes, named, locks, choices: Vec::new(), out: String::new() }.written()?))
}

/// Of a file with choices: the list that locks on channel 0, or the first.
fn page_of_choices(sheet: &Sheet) -> Result<Result<String, Refusal>, Failure> {
    let (second, options) = match face::choices(&sheet.bytes, 0) {
        Choices::Refused(r) => return Ok(Err(r)),
        Choices::Free => (0, chosen::options(sheet, u32::MAX, 0)),
        Choices::Locked { length, second, .. } => (second, chosen::options(sheet, length, second)),
    };
    let c = match chosen::sheet(sheet, second) {
        Some(c) => c,
        None => return Err(Failure::new(format!("{}: no page: {}", sheet.name, chosen::NO_SHEET))),
    };
    let mut locks = Vec::new();
    for code in 0..face::CHANNELS {
        match face::check(&c.text, code) {
            Verdict::Free => locks.push(None),
            Verdict::Locked(lock) => locks.push(Some(lock)),
            Verdict::Refused(r) => return Err(Failure::new(format!("the library refuses the sheet of a choice list that it accepted: {}", words::refusal(r)))),
        }
    }
    let page = Page { sheet, text: &c.text, named: c.named.clone(), locks, choices: options, out: String::new() };
    Ok(Ok(page.written()?))
}

impl Page<'_> {
    fn put(&mut self, html: &str) {
        self.out.push_str(html);
        self.out.push('\n');
    }

    fn heading(&mut self, words: &str) {
        self.put(&format!("<h2>{}</h2>", escaped(words)));
    }

    fn paragraph(&mut self, words: &str) {
        self.put(&format!("<p>{}</p>", escaped(words)));
    }

    fn list(&mut self, items: &[String]) {
        self.put("<ul>");
        items.iter().for_each(|i| self.put(&format!("<li>{}</li>", escaped(i))));
        self.put("</ul>");
    }

    fn written(mut self) -> Result<String, Failure> {
        let title = escaped(&format!("Channel check of {}", self.sheet.name));
        self.put("<!DOCTYPE html>\n<html xmlns=\"http://www.w3.org/1999/xhtml\" lang=\"en\">\n<head>\n<meta charset=\"utf-8\"/>");
        self.put("<meta name=\"viewport\" content=\"width=device-width, initial-scale=1\"/>");
        self.put(&format!("<title>{}</title>\n<style>{}</style>\n</head>\n<body>\n<h1>{}</h1>", title, STYLE, title));
        self.channels();
        self.messages();
        self.races()?;
        self.jams();
        self.cure()?;
        self.texts();
        self.put("</body>\n</html>");
        Ok(self.out)
    }

    /// The six channels in words.
    fn channels(&mut self) {
        self.heading("The six channels");
        if !self.choices.is_empty() {
            let options = self.choices.join("; ");
            self.paragraph("The file has choices. Over all choice lists:");
            let over_all: Vec<String> = (0..face::CHANNELS).map(|code| over_all_lists(self.sheet, code)).collect();
            self.list(&over_all);
            self.paragraph(&format!("All that follows is of one choice list alone: {}.", options));
        }
        self.put("<table>\n<tr><th>channel</th><th>answer</th></tr>");
        for code in 0..face::CHANNELS {
            let (class, words) = match &self.locks[code as usize] {
                None => ("free", "free: no timing that the channel allows can stop the boards".to_string()),
                Some(l) => ("locked", format!("locked: {}; {} stop the boards", self.named.race(Race { message: l.message, event: l.event }), words::count(l.steps.len(), "step"))),
            };
            self.put(&format!("<tr><td>{}</td><td class=\"{}\">{}</td></tr>", escaped(&words::channel(code)), class, escaped(&words)));
        }
        self.put("</table>");
        self.repeated();
    }

    /// What is so where the exchange is repeated.
    fn repeated(&mut self) {
        self.put("<h3>Repeated, each board beginning its next round as soon as it has done its own part of the last</h3>");
        let mut items = Vec::new();
        for code in 0..face::CHANNELS {
            let told = match face::rounds(self.text, code) {
                Ok(Rounds::Free) => rounds::FREE.to_string(),
                Ok(Rounds::Locked { lock, rounds }) => rounds::locked(&self.named.repeated(rounds), &lock, rounds),
                Err(r) => format!("not judged: {}; two rounds are walked, and a limit is for both", words::refusal(r)),
            };
            items.push(format!("{}: {}", words::channel(code), told));
        }
        self.list(&items);
    }

    fn messages(&mut self) {
        self.heading("Messages");
        self.put("<div class=\"wide\"><table>\n<tr><th>message</th><th>from</th><th>to</th><th>send</th><th>receive</th><th>line</th><th>row</th></tr>");
        let lines = rows::lines(self.sheet.written()).0;
        let mut table = String::new();
        for (i, m) in self.named.messages.iter().enumerate() {
            let row = lines.get(m.line.wrapping_sub(1)).map_or(String::new(), |l| shown(trimmed(l)));
            let boards = [m.from, m.to].map(|b| format!("<td>{}</td>", escaped(&self.named.board_name(b)))).concat();
            let places = format!("{}<td>event {}</td><td>event {}</td>", boards, 2 * i, 2 * i + 1);
            table.push_str(&format!("<tr><td>{}</td>{}<td>line {}</td><td>{}</td></tr>\n", escaped(&self.named.short(i)), places, m.line, escaped(&row)));
        }
        self.put(&table);
        self.put("</table></div>");
    }

    fn races(&mut self) -> Result<(), Failure> {
        self.heading("Races");
        for code in 0..face::CHANNELS {
            let races = listed(self.text, code)?;
            let number = if races.is_empty() { "no races".to_string() } else { words::count(races.len(), "race") };
            self.put(&format!("<h3>{}: {}</h3>", escaped(&words::channel(code)), number));
            let items: Vec<String> = races.iter().map(|r| self.named.race(*r)).collect();
            if !items.is_empty() {
                self.list(&items);
            }
        }
        Ok(())
    }

    /// The jam on each channel that locks, with its chart.
    fn jams(&mut self) {
        self.heading("How the boards stop");
        if self.locks.iter().all(|l| l.is_none()) {
            self.paragraph("No timing stops them, on any channel. One course of all events:");
            let drawn = chart::of_free(self.text, &self.named, "free on every channel", "a course of its events");
            self.put(&drawn);
        }
        for code in 0..face::CHANNELS {
            let lock = match self.locks[code as usize].take() {
                Some(l) => l,
                None => continue,
            };
            self.put(&format!("<h3>{}</h3>", escaped(&words::channel(code))));
            if let Ok(Standing::Stuck(waits)) = face::replay(self.text, code, &commands::trace_bytes(&lock.steps)) {
                let sentences = self.named.stuck(&waits, &self.named.held(&lock.steps));
                self.list(&sentences);
            }
            let drawn = chart::of_lock(self.text, code, &self.named, &lock, &self.choices);
            self.put(&drawn);
        }
    }

    /// What a cure gives up, its text and its chart.
    fn cure(&mut self) -> Result<(), Failure> {
        self.heading("Cure");
        let cured = match face::cure(self.text) {
            Ok(text) => text,
            Err(r) => {
                self.paragraph(&format!("No sheet file has room for the cure: {}.", words::refusal(r)));
                return Ok(());
            }
        };
        let given_up: Vec<String> = listed(self.text, 0)?.iter().map(|r| self.named.given_up(*r)).collect();
        if given_up.is_empty() {
            self.paragraph("The sheet is free on every channel already: a cure gives up no order.");
            return Ok(());
        }
        self.paragraph(&format!("The loosest sheet of the same messages that is free on every channel gives up {}:", words::count(given_up.len(), "order")));
        self.list(&given_up);
        self.put(&format!("<pre>{}</pre>", escaped(&String::from_utf8_lossy(&cured))));
        let named = self.named.in_text(commands::listed(&cured)?);
        let drawn = chart::of_free(&cured, &named, "cured: free on every channel", "a course of the cured sheet's events");
        self.put(&drawn);
        Ok(())
    }

    /// The sheet itself, and the diagram that it was made from.
    fn texts(&mut self) {
        if self.sheet.drawn.is_some() {
            self.text("The diagram", self.sheet.written());
        }
        self.text("The sheet", &self.sheet.bytes);
    }

    /// A text with the numbers of its lines.
    fn text(&mut self, heading: &str, text: &[u8]) {
        self.heading(heading);
        let lines = rows::lines(text).0;
        let numbered: Vec<String> = lines.iter().enumerate().map(|(i, l)| format!("{:>4}  {}", i + 1, shown(l))).collect();
        self.put(&format!("<pre>{}</pre>", escaped(&numbered.join("\n"))));
    }
}

/// The answer over all choice lists of a file: another list than the one on the page may lock.
fn over_all_lists(sheet: &Sheet, code: u32) -> String {
    let told = match face::choices(&sheet.bytes, code) {
        Choices::Free => "free on every list".to_string(),
        Choices::Locked { length, second, .. } => format!("locked, first with {}", chosen::options(sheet, length, second).join("; ")),
        Choices::Refused(r) => words::refusal(r),
    };
    format!("{}: {}", words::channel(code), told)
}

fn listed(text: &[u8], code: u32) -> Result<Vec<Race>, Failure> {
    face::races(text, code).map_err(|r| Failure::new(format!("the library lists no races of a sheet that it accepted: {}", words::refusal(r))))
}
