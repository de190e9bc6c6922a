//! 4 and 6: a line's first byte, length, commas, bytes and end; first lines.

use super::order::{due, names_of};
use super::{quoted, Case, Finding, Shown};
use crate::files::place::*;
use crate::files::{lines, NAMES};
use crate::records::{is_allowed, letters, Kind, Record, FIRST};

pub fn find(case: &Case) -> Option<Finding> {
    line_end_lost(case)
        .or_else(|| unknown_letter(case))
        .or_else(|| length(case))
        .or_else(|| comma(case))
        .or_else(|| byte(case))
        .or_else(|| unended(case))
}

/// A CR or an LF by itself: the line goes on behind it.
fn line_end_lost(case: &Case) -> Option<Finding> {
    let text = case.text();
    let at = text.iter().position(|byte| matches!(byte, b'\r' | b'\n'))?;
    let which = if text[at] == b'\n' { "LF alone (byte 10)" } else { "CR alone (byte 13)" };
    let advice =
        "CR LF was lost on the way: fetch the file again in binary mode, without any change of line ends.";
    let expected = "CR LF (bytes 13 and 10) at the end of every line";
    Some(
        Finding::at((at + 1, at + 1), format!("a line that ends in {which}, in column {}", at + 1), expected)
            .advising_of_delivery(case, advice),
    )
}

fn unknown_letter(case: &Case) -> Option<Finding> {
    let known = letters(case.file).filter(|_| case.at > 0)?;
    let letter = case.letter();
    if letter.is_some_and(|letter| letter == b'@' || known.contains(&letter)) {
        return None;
    }
    let found = match letter {
        None => "an empty line".to_string(),
        Some(letter) => {
            format!("a line that begins with {}, as no record of {} does", a_byte(letter), NAMES[case.file])
        }
    };
    let may_follow = due(case.file, case.at.checked_sub(1).map(|at| &case.lines[..=at])?);
    Some(Finding::at((1, 1), found, format!("here {}", names_of(case.file, may_follow))))
}

/// A byte in words.
fn a_byte(byte: u8) -> String {
    match byte {
        b' ' => "a blank".into(),
        b if is_allowed(b) => format!("`{}`", char::from(b)),
        b => format!("byte {b}"),
    }
}

fn length(case: &Case) -> Option<Finding> {
    let (what, length) = match case.record() {
        Some(record) => (record.what, record.length),
        None => ("a vector", case.days()?),
    };
    let text = case.text();
    if text.len() == length {
        return None;
    }
    let mark = match text.len() > length {
        true => (length + 1, text.len()),
        false => (text.len() + 1, length),
    };
    let (found, expected) = (
        format!("a line of {} columns", text.len()),
        match case.record() {
            Some(_) => format!("{length} columns, as {what} has"),
            None => format!("{length} columns, one for each day of validity"),
        },
    );
    let finding = Finding::at(mark, found, expected);
    let ends_in_text =
        case.record().and_then(|record| record.fields.last()).is_some_and(|field| field.kind == Kind::Text);
    let advice = match text.len() < length {
        true if ends_in_text => "Blanks at the end may have been cut off, as editors and mail programs do: fetch the file again in binary mode.",
        true if !case.line().ended => "The file is cut short: fetch it again, and compare its size with the supplier's.",
        _ => return Some(finding),
    };
    Some(finding.advising_of_delivery(case, advice))
}

/// The columns between fields, which hold commas.
fn gaps(record: &Record) -> impl Iterator<Item = usize> + '_ {
    record.fields.windows(2).map(|pair| pair[0].to + 1)
}

fn comma(case: &Case) -> Option<Finding> {
    let (record, text) = (case.record()?, case.text());
    let column = gaps(record).find(|&column| text.get(column - 1).is_some_and(|&byte| byte != b','))?;
    let found = format!("{} in column {column}", a_byte(text[column - 1]));
    let behind = record.fields.iter().find(|field| field.to + 1 == column)?.what;
    Some(Finding::at((column, column), found, format!("a comma, behind {behind}")))
}

fn byte(case: &Case) -> Option<Finding> {
    let text = case.text();
    let at = text.iter().position(|&byte| !is_allowed(byte))?;
    let found = format!("byte {} in column {}", text[at], at + 1);
    let advice = match text[at] {
        b'\t' => "A tab stands in the place of blanks: fetch the file as it was delivered.",
        0x80..=0x9f => "The text may have been turned into another alphabet on the way (IFF is Latin-1): fetch the file in binary mode.",
        _ => "The file may have been damaged on the way: fetch it again.",
    };
    Some(
        Finding::at((at + 1, at + 1), found, "bytes 32 to 126 and 160 to 255 alone")
            .advising_of_delivery(case, advice),
    )
}

fn unended(case: &Case) -> Option<Finding> {
    if case.line().ended {
        return None;
    }
    let end = case.text().len() + 1;
    let advice =
        "The file may be cut short, or an editor took the last line's end away: fetch the file again.";
    let finding = Finding::at(
        (end, end),
        "the end of the file, without CR LF",
        "CR LF (bytes 13 and 10) at the end of every line",
    );
    Some(finding.advising_of_delivery(case, advice))
}

/// 6: where the line differs from DELIVERY's.
pub fn first_line(case: &Case) -> Option<Finding> {
    let wanted = lines(case.texts[DELIVERY]).next()?.text;
    let text = case.text();
    let differs = |at: &usize| text.get(*at) != wanted.get(*at);
    let first = (0..text.len().max(wanted.len())).find(differs)?;
    let last = (0..text.len().max(wanted.len())).rev().find(differs)?;
    let field = FIRST.fields.iter().find(|field| (field.from - 1..field.to).contains(&first));
    let mark = field.map_or((first + 1, last + 1), |field| (field.from, field.to));
    let part = |line: &[u8]| quoted(line.get(mark.0 - 1..mark.1.min(line.len())).unwrap_or_default());
    let finding = Finding {
        field: field.map(|field| field.what),
        ..Finding::at(mark, part(text), format!("{}, as in DELIVERY", part(wanted)))
    };
    let beside = Shown { label: "DELIVERY".into(), text: wanted.to_vec(), mark: Some(mark) };
    let advice = "The file belongs to another delivery than DELIVERY: take all files from one delivery.";
    Some(finding.beside(beside).advising_of_delivery(case, advice))
}
