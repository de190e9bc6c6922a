//! 8 and 9: what comes twice, and what is named and is not there.

use super::{quoted, Case, Finding, Whose};
use crate::dates;
use crate::files::place::*;
use crate::files::{latin, NAMES};
use crate::records::{is_any, key_of, keys, number, part, Field};

/// What must be unique in a record: its name, its columns, and whether within
/// its group alone.
type Unique = (&'static str, &'static [(usize, usize)], bool);

fn unique(file: usize, letter: u8) -> &'static [Unique] {
    match (file, letter) {
        (COMPANY, _) => &[
            ("company number", &[(1, 3)], false),
            ("company code", &[(5, 14)], false),
            ("company name", &[(16, 45)], false),
        ],
        (COUNTRY, _) => &[("country code", &[(1, 4)], false), ("country name", &[(8, 37)], false)],
        (TRNSMODE, _) => &[("mode code", &[(1, 4)], false), ("mode text", &[(6, 35)], false)],
        (STATIONS, _) => &[("short name", &[(3, 9)], false)],
        (TIMEZONE, b'#') => &[("zone", &[(2, 5)], false)],
        (FOOTNOTE | XFOOTNOTE, b'#') => &[("footnote", &[(2, 6)], false)],
        (TIMETBLS, b'#') => &[("service", &[(2, 9)], false)],
        (CHANGES | XCHANGES, b'#') => &[("station", &[(2, 8)], false)],
        (CHANGES, b'-') => &[("pair of services", &[(2, 18)], true)],
        (XCHANGES, b'-') => &[("set of four keys with footnote", &[(2, 18), (24, 28)], true)],
        _ => &[],
    }
}

pub fn twice(case: &Case) -> Option<Finding> {
    let letter = case.letter()?;
    if case.file == TIMEZONE && matches!(letter, b'+' | b'-') {
        return overlap(case);
    }
    let lettered = !matches!(case.file, COMPANY | COUNTRY | TRNSMODE | STATIONS);
    unique(case.file, letter).iter().find_map(|&(what, columns, in_group)| {
        let key = |at: usize| -> Option<Vec<&[u8]>> {
            let text = case.lines[at].text;
            (!lettered || text.first() == Some(&letter)).then_some(())?;
            columns.iter().map(|&(from, to)| text.get(from - 1..to)).collect()
        };
        let wanted = key(case.at)?;
        let start = if in_group { case.opening()? } else { 1 };
        let first = (start..case.at).find(|&at| key(at).as_ref() == Some(&wanted))?;
        let mark = (columns[0].0, columns[columns.len() - 1].1);
        let parts: Vec<String> = wanted.iter().map(|part| quoted(part)).collect();
        let found = format!("{what} {}, which {} has already", parts.join(" and "), case.label(first));
        let expected = match in_group {
            true => format!("each {what} once under a station"),
            false => format!("each {what} once in {}", NAMES[case.file]),
        };
        let advice = "Which of the two lines counts? Ask the supplier; then take the other away.";
        Some(Finding::of(what, mark, found, expected).beside(case.show(first, Some(mark))).advising(advice))
    })
}

fn overlap(case: &Case) -> Option<Finding> {
    const DAYS: (usize, usize) = (5, 21);
    let days = |at: usize| {
        let text = case.lines[at].text;
        let day = |from: usize, to: usize| text.get(from - 1..to).and_then(number);
        let (first, last) = (day(5, 12)?, day(14, 21)?);
        Some((dates::count(first)?, dates::count(last)?, first, last))
    };
    let (from, to, ..) = days(case.at)?;
    let shares = |at: &usize| days(*at).is_some_and(|(first, last, ..)| first <= to && from <= last);
    let other = (case.opening()? + 1..case.at).find(shares)?;
    let (_, _, first, last) = days(other)?;
    let found = format!(
        "a period that shares days with {}: {} to {}",
        case.label(other),
        dates::date(first),
        dates::date(last)
    );
    let advice = "Which period counts on the days that both have? Ask the supplier.";
    let finding = Finding::of("days", DAYS, found, "periods of one zone that share no day");
    Some(finding.beside(case.show(other, Some(DAYS))).advising(advice))
}

pub fn missing(case: &Case) -> Option<Finding> {
    let (record, text) = (case.record()?, case.text());
    record.fields.iter().find_map(|field| {
        let file = field.kind.named_in()?;
        let key = part(text, field)?;
        if field.kind.may_be_any() && is_any(key) {
            return None;
        }
        let there = keys(file, case.texts[file]).any(|held| held == key);
        (!there).then(|| not_there(case, field, file, key))
    })
}

fn not_there(case: &Case, field: &Field, file: usize, key: &[u8]) -> Finding {
    let (_, from, to) = key_of(file);
    let name = NAMES[file];
    let what = field.what.trim_start_matches("from ").trim_start_matches("to ").trim_start_matches("passed ");
    let expected = format!("a {what} that {name} has in columns {from}-{to}");
    let near = near(case, file, key);
    let advice = match (&near, case.whose) {
        (Some(near), Whose::Block) => format!("{name} has {near}: is that meant?"),
        (Some(near), Whose::Delivery) => format!(
            "{name} has {near}: is that meant? Correct the line, or have {what} {} added to {name}.",
            quoted(key)
        ),
        (None, Whose::Delivery) => {
            format!("Ask the supplier for {what} {} in {name}, or for a corrected line.", quoted(key))
        }
        (None, Whose::Block) => {
            format!("Take a {what} that {name} has; what it lacks, only a new delivery can bring.")
        }
    };
    let found = format!("{what} {}, which {name} does not have", quoted(key));
    Finding::of(field.what, (field.from, field.to), found, expected).advising(advice)
}

/// A key like this one, which may have been meant.
fn near(case: &Case, file: usize, key: &[u8]) -> Option<String> {
    let like = |held: &[u8]| {
        held.eq_ignore_ascii_case(key) || held.iter().zip(key).filter(|(a, b)| a != b).count() == 1
    };
    let spelt = matches!(file, STATIONS | COUNTRY | TRNSMODE);
    let found = keys(file, case.texts[file]).find(|held| spelt && like(held))?;
    Some(latin(found).trim_end().to_string())
}
