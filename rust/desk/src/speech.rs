//! Answers as people read them.

use std::fmt::Write;
use std::io::{stdout, IsTerminal};

use crate::explain::{visible, Explanation, Shown};

/// Whether words are coloured: on a terminal, unless NO_COLOR asks for none.
#[derive(Clone, Copy)]
pub struct Colour(bool);

impl Colour {
    pub fn on_terminal() -> Colour {
        Colour(stdout().is_terminal() && std::env::var_os("NO_COLOR").is_none_or(|value| value.is_empty()))
    }

    fn paint(self, code: &str, text: &str) -> String {
        match self.0 {
            true => format!("\x1b[{code}m{text}\x1b[0m"),
            false => text.to_string(),
        }
    }

    pub fn good(self, text: &str) -> String {
        self.paint("1;32", text)
    }

    pub fn bad(self, text: &str) -> String {
        self.paint("1;31", text)
    }

    pub fn open(self, text: &str) -> String {
        self.paint("1;33", text)
    }

    pub fn strong(self, text: &str) -> String {
        self.paint("1", text)
    }
}

/// How wide a line is shown.
const SHOWN: usize = 100;

/// A refusal, what it is and what is to be done.
pub fn refusal(told: &Explanation, colour: Colour) -> String {
    let mut text = format!("{}: {}\n", colour.bad(&format!("Refused {}", told.number)), told.meaning);
    let mut row = |name: &str, said: &str| {
        // Writing to a String does not fail.
        let _ = writeln!(text, "  {name:<9} {said}");
    };
    if let Some(place) = place(told) {
        row("where", &place);
    }
    let labelled = told.shown.len() > 1;
    for shown in &told.shown {
        let label = if labelled { shown.label.as_str() } else { "" };
        let (line, mark) = line_and_mark(shown);
        row(label, &line);
        if let Some(mark) = mark {
            row("", &colour.bad(&mark));
        }
    }
    if let Some(found) = &told.found {
        row("found", found);
    }
    if let Some(expected) = &told.expected {
        row("expected", expected);
    }
    row("to do", &told.advice);
    text
}

fn place(told: &Explanation) -> Option<String> {
    if told.file.is_empty() {
        return None;
    }
    let line = told.file_line.map(|line| format!(", line {line}")).unwrap_or_default();
    let block = match (told.ordinal, &told.service) {
        (0, _) => String::new(),
        (ordinal, Some(service)) => {
            format!(" (block {ordinal}, service {service}, line {} of the block)", told.line)
        }
        (ordinal, None) => format!(" (block {ordinal}, line {} of the block)", told.line),
    };
    Some(format!("{}{line}{block}", told.file))
}

/// A line, or the part of it around the mark where it is long, and the mark.
fn line_and_mark(shown: &Shown) -> (String, Option<String>) {
    let (first, last) = shown.mark.unwrap_or((1, 1));
    let skipped = if last > SHOWN { first.saturating_sub(SHOWN / 2) } else { 0 };
    let from = skipped.min(shown.text.len());
    let to = shown.text.len().min(from + SHOWN);
    let before = if from > 0 { "…" } else { "" };
    let behind = if to < shown.text.len() { "…" } else { "" };
    let line = format!("{before}{}{behind}", visible(&shown.text[from..to]));
    let mark = shown.mark.map(|_| {
        let blanks = (first - 1).saturating_sub(from) + before.chars().count();
        let width = last.min(from + SHOWN).saturating_sub(first - 1).max(1);
        format!("{}{}", " ".repeat(blanks), "^".repeat(width))
    });
    (line, mark)
}

/// `1 day`, `2 days`.
pub fn counted(count: u64, what: &str) -> String {
    match count {
        1 => format!("1 {what}"),
        _ => format!("{count} {what}s"),
    }
}
