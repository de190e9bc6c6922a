//! 7: a record that may not stand where it does, or a group unfinished.

use super::{Case, Finding, Whose};
use crate::files::place::*;
use crate::files::{Line, NAMES};
use crate::records::record_of;

/// The first bytes that may follow the lines so far; `$` stands for the end.
pub fn due(file: usize, so_far: &[Line]) -> &'static [u8] {
    let letter = |back: usize| so_far.len().checked_sub(back).and_then(|at| so_far[at].text.first().copied());
    if so_far.len() == 1 {
        return match file {
            DELIVERY => b"$",
            _ => b"#$",
        };
    }
    match (file, letter(1).unwrap_or(0)) {
        (TIMEZONE, b'#') => b"+-",
        (TIMEZONE, _) => b"+-#$",
        (FOOTNOTE | XFOOTNOTE, b'#') => b"01",
        (FOOTNOTE | XFOOTNOTE, _) => b"#$",
        (CHANGES | XCHANGES, _) => b"-#$",
        (_, b'#') => b"%",
        (_, b'%') => b"%-",
        (_, b'-') => b"-&",
        (_, b'&') => b"&*>",
        (_, b'*') => b"*>",
        (_, b'>' | b'.' | b'+') => b".+;<?",
        (_, b'<') => b"?#$",
        (_, b'?') if letter(2) == Some(b'<') => b"#$",
        (_, b'?' | b';') => b".+;<",
        _ => b"#$",
    }
}

/// Records by their first bytes, in words.
pub fn names_of(file: usize, letters: &[u8]) -> String {
    let mut names: Vec<&str> = Vec::new();
    for &letter in letters {
        let name = match (file, letter) {
            (_, b'$') => "the end of the file",
            (FOOTNOTE | XFOOTNOTE, b'0' | b'1') => "a vector of 0 and 1, one for each day of validity",
            _ => record_of(file, letter).map_or("a row", |record| record.what),
        };
        if !names.contains(&name) {
            names.push(name);
        }
    }
    listed(&names)
}

/// Words with commas, and an `or` before the last.
pub fn listed(words: &[&str]) -> String {
    match words {
        [] => "nothing".into(),
        [only] => only.to_string(),
        [firsts @ .., last] => format!("{} or {last}", firsts.join(", ")),
    }
}

pub fn find(case: &Case) -> Option<Finding> {
    match case.at {
        0 => Some(no_first_line(case)),
        _ if case.file == DELIVERY => Some(second_line(case)),
        _ => Some(in_group(case)),
    }
}

fn no_first_line(case: &Case) -> Finding {
    let found = match case.letter() {
        None => "an empty first line".to_string(),
        Some(letter) => format!("a first line that begins with {}", super::quoted(&[letter])),
    };
    let expected = "`@` with company, first day, last day, version and text, as in every file";
    let unmarked = case.letter() == Some(0xef) || case.letter() == Some(0xff) || case.letter() == Some(0xfe);
    let finding = Finding::at((1, 1), found, expected);
    match unmarked {
        true => finding.advising("A mark of another alphabet (BOM) stands before the text: fetch the file in binary mode, as it was delivered."),
        false => finding.advising(format!("Is this file {}? Else its beginning was lost: fetch it again.", NAMES[case.file])),
    }
}

fn second_line(case: &Case) -> Finding {
    let end = case.text().len().max(1);
    Finding::at((1, end), "a second line", "one line alone in DELIVERY")
        .advising("Take what stands behind the first line away, or fetch the file again.")
}

fn in_group(case: &Case) -> Finding {
    let may_follow = due(case.file, &case.lines[..case.at]);
    let letter = case.letter().unwrap_or(0);
    if !may_follow.contains(&letter) {
        let what = match record_of(case.file, letter) {
            _ if letter == b'@' => "a first line `@`",
            _ if matches!((case.file, letter), (FOOTNOTE | XFOOTNOTE, b'0' | b'1')) => "a vector",
            Some(record) => record.what,
            None => "a record",
        };
        return Finding::at(
            (1, 1),
            format!("{what}, where it may not stand"),
            format!("here {}", names_of(case.file, may_follow)),
        );
    }
    let end = case.text().len().max(1);
    let still_due = due(case.file, &case.lines[..=case.at]);
    let behind = match case.lines.get(case.at + 1) {
        Some(_) => "the next `#`",
        None if case.whose == Whose::Block => "nothing more",
        None => "the end of the file",
    };
    let expected = format!("behind it {}", names_of(case.file, still_due));
    let group = if case.file == TIMETBLS { "block" } else { "group" };
    let finding =
        Finding::at((1, end), format!("the last line of its {group}; behind it comes {behind}"), expected);
    match case.lines.get(case.at + 1) {
        Some(_) => finding,
        None => finding.advising_of_delivery(
            case,
            "The file may be cut short: fetch it again, and compare its size with the supplier's.",
        ),
    }
}
