//! 5: a value that its field may not hold.

use super::{quoted, Case, Finding};
use crate::dates;
use crate::files::place::*;
use crate::records::{is_any, is_blank, is_number, number, part, Field, Kind, Record};

const MOST_DAYS: i64 = 800;
const MOST_MODES: usize = 64;
const MOST_STOPS: usize = 998;

pub fn find(case: &Case) -> Option<Finding> {
    let Some(record) = case.record() else { return vector(case) };
    let text = case.text();
    let single = record.fields.iter().find_map(|field| value(field, part(text, field)?));
    single.or_else(|| together(case, record)).or_else(|| beyond(case))
}

/// A field by itself.
fn value(field: &Field, text: &[u8]) -> Option<Finding> {
    let digits = is_number(text);
    let value = number(text);
    let expected = match field.kind {
        Kind::Text | Kind::Unread => return None,
        Kind::Code | Kind::CodeIn(_) => (is_blank(text)).then(|| "a code that is not all blank".to_string()),
        Kind::CodeOrAnyIn(_) => {
            (is_blank(text)).then(|| "a code that is not all blank, or `*` and blanks".to_string())
        }
        Kind::NumberOrAnyIn(_) => {
            (!digits && !is_any(text)).then(|| format!("{} digits, or `*` and blanks", text.len()))
        }
        _ if !digits => Some(digits_of(text.len())),
        Kind::FromOne => (value == Some(0)).then(|| "a number of 1 or more".to_string()),
        Kind::Inland => value.filter(|&value| value > 1).map(|_| "0 or 1".to_string()),
        Kind::DayTurn => value
            .filter(|&value| value >= 2400 || value % 100 > 59)
            .map(|_| "a time below 2400 with minutes below 60".to_string()),
        Kind::Possibility => value.filter(|&value| value > 2).map(|_| "00, 01 or 02".to_string()),
        Kind::Day => dates::count(value?)
            .is_none()
            .then(|| "a day as DDMMYYYY that the calendar has, in the years 1600 to 9999".to_string()),
        Kind::Time => (value? % 100 > 59).then(|| match value {
            Some(9999) => "a time: 9999 (no time) may stand in `+` alone".to_string(),
            _ => "a time as HHMM, hours 00 to 99, minutes 00 to 59".to_string(),
        }),
        Kind::TimeOrNone => (value? % 100 > 59 && value != Some(9999)).then(|| {
            "a time as HHMM, hours 00 to 99, minutes 00 to 59; or 9999 where nobody alights or boards"
                .to_string()
        }),
        Kind::Number | Kind::NumberIn(_) => None,
    }?;
    Some(Finding::of(
        field.what,
        (field.from, field.to),
        format!("{} {}", field.what, quoted(text)),
        expected,
    ))
}

fn digits_of(width: usize) -> String {
    match width {
        1 => "one digit".into(),
        _ => format!("{width} digits"),
    }
}

/// Two fields that do not go together.
fn together(case: &Case, record: &Record) -> Option<Finding> {
    let text = case.text();
    let days: Vec<&Field> = record.fields.iter().filter(|field| field.kind == Kind::Day).collect();
    let times: Vec<&Field> = record.fields.iter().filter(|field| field.kind == Kind::TimeOrNone).collect();
    let read = |field: &Field| part(text, field).and_then(number);
    if let [first, last] = days[..] {
        let (from, to) = (read(first)?, read(last)?);
        let span = dates::count(to)? - dates::count(from)? + 1;
        let found = format!("{} to {}", dates::date(from), dates::date(to));
        if span < 1 {
            return Some(Finding::of(
                "days",
                (first.from, last.to),
                found,
                "a first day that is not after the last",
            ));
        }
        if case.at == 0 && span > MOST_DAYS {
            let found = format!("{found}, which is {span} days");
            return Some(
                Finding::of("days", (first.from, last.to), found, format!("at most {MOST_DAYS} days"))
                    .advising("Ask the supplier for a delivery of a shorter time."),
            );
        }
    }
    if let [arrival, departure] = times[..] {
        let (came, went) = (read(arrival)?, read(departure)?);
        let mark = (arrival.from, departure.to);
        if came == 9999 && went == 9999 {
            let expected =
                "9999 in one of the two at most: a stop where nobody alights and nobody boards is a `;`";
            return Some(Finding::of("times", mark, "9999 for arrival and departure", expected));
        }
        if came != 9999 && went != 9999 && came >= went {
            let found = format!("arrival {came:04} and departure {went:04}");
            return Some(Finding::of("times", mark, found, "an arrival before the departure"));
        }
    }
    None
}

/// One line more than may be.
fn beyond(case: &Case) -> Option<Finding> {
    let whole = (1, case.text().len());
    match case.file {
        TRNSMODE if case.at > MOST_MODES => {
            Some(Finding::at(whole, format!("mode {}", case.at), format!("at most {MOST_MODES} modes")))
        }
        TIMETBLS => {
            let stops = (case.opening()?..=case.at)
                .filter(|&at| matches!(case.lines[at].text.first(), Some(b'>' | b'.' | b'+' | b'<')))
                .count();
            (stops > MOST_STOPS).then(|| {
                Finding::at(
                    whole,
                    format!("stop {stops}"),
                    format!("at most {MOST_STOPS} stops in a service"),
                )
            })
        }
        _ => None,
    }
}

fn vector(case: &Case) -> Option<Finding> {
    let at = case.text().iter().position(|byte| !matches!(byte, b'0' | b'1'))?;
    let found = format!("{} in column {}", quoted(&case.text()[at..=at]), at + 1);
    Some(Finding::of("vector", (at + 1, at + 1), found, "0 or 1 for each day of validity"))
}
