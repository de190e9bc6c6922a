//! The records of a delivery by column, in the words in which they are shown.

use crate::files::place::*;

/// A record: what it is, its length, its fields.
pub struct Record {
    pub what: &'static str,
    pub length: usize,
    pub fields: &'static [Field],
}

/// A field: columns from 1, both included.
pub struct Field {
    pub what: &'static str,
    pub from: usize,
    pub to: usize,
    pub kind: Kind,
}

/// What a field may hold.
#[derive(Clone, Copy, PartialEq)]
pub enum Kind {
    Number,
    /// A number that is 1 or more.
    FromOne,
    Inland,
    DayTurn,
    Possibility,
    Day,
    Time,
    TimeOrNone,
    Code,
    /// A number that another file has.
    NumberIn(usize),
    /// A code that another file has.
    CodeIn(usize),
    /// The same, or `*` and blanks.
    NumberOrAnyIn(usize),
    CodeOrAnyIn(usize),
    Text,
    Unread,
}

impl Kind {
    /// The file that must have what the field names.
    pub fn named_in(self) -> Option<usize> {
        match self {
            Kind::NumberIn(file)
            | Kind::CodeIn(file)
            | Kind::NumberOrAnyIn(file)
            | Kind::CodeOrAnyIn(file) => Some(file),
            _ => None,
        }
    }

    pub fn may_be_any(self) -> bool {
        matches!(self, Kind::NumberOrAnyIn(_) | Kind::CodeOrAnyIn(_))
    }
}

const fn field(what: &'static str, from: usize, to: usize, kind: Kind) -> Field {
    Field { what, from, to, kind }
}

macro_rules! record {
    ($name:ident, $what:expr, $length:expr, [$(($field:expr, $from:expr, $to:expr, $kind:expr)),* $(,)?]) => {
        pub const $name: Record =
            Record { what: $what, length: $length, fields: &[$(field($field, $from, $to, $kind)),*] };
    };
}

use Kind::*;

record!(
    FIRST,
    "the file's first line `@`",
    58,
    [
        ("company", 2, 4, NumberIn(COMPANY)),
        ("first day", 6, 13, Day),
        ("last day", 15, 22, Day),
        ("version", 24, 27, Number),
        ("text", 29, 58, Text),
    ]
);
record!(
    COMPANY_ROW,
    "a company",
    50,
    [
        ("company number", 1, 3, FromOne),
        ("company code", 5, 14, Text),
        ("company name", 16, 45, Text),
        ("day turn", 47, 50, DayTurn),
    ]
);
record!(
    COUNTRY_ROW,
    "a country",
    37,
    [("country code", 1, 4, Code), ("inland", 6, 6, Inland), ("country name", 8, 37, Text),]
);
record!(MODE_ROW, "a mode of transport", 35, [("mode code", 1, 4, Code), ("mode text", 6, 35, Text)]);
record!(ZONE, "a time zone `#`", 5, [("zone", 2, 5, Number)]);
record!(
    PERIOD,
    "a period of a time zone, `+` or `-`",
    21,
    [("hours", 2, 3, Number), ("first day", 5, 12, Day), ("last day", 14, 21, Day),]
);
record!(
    STATION_ROW,
    "a station",
    73,
    [
        ("change flag", 1, 1, Number),
        ("short name", 3, 9, Code),
        ("change time", 11, 12, Number),
        ("maximum change time, not read", 14, 15, Unread),
        ("country", 17, 20, CodeIn(COUNTRY)),
        ("zone", 22, 25, NumberIn(TIMEZONE)),
        ("columns 27-28, not read", 27, 28, Unread),
        ("x, not read", 30, 35, Unread),
        ("y, not read", 37, 42, Unread),
        ("station name", 44, 73, Text),
    ]
);
record!(FOOTNOTE_NUMBER, "a footnote `#`", 6, [("footnote", 2, 6, Number)]);
record!(SERVICE, "a service `#`", 9, [("service", 2, 9, Number)]);
record!(
    NUMBER,
    "a service number `%`",
    57,
    [
        ("company", 2, 4, NumberIn(COMPANY)),
        ("service number", 6, 10, Number),
        ("variant", 12, 18, Text),
        ("first stop", 20, 22, Number),
        ("last stop", 24, 26, Number),
        ("service name", 28, 57, Text),
    ]
);
record!(
    VALIDITY,
    "a validity `-`",
    14,
    [("footnote", 2, 6, NumberIn(FOOTNOTE)), ("first stop", 8, 10, Number), ("last stop", 12, 14, Number),]
);
record!(
    MODE,
    "a mode of transport `&`",
    13,
    [("mode", 2, 5, CodeIn(TRNSMODE)), ("first stop", 7, 9, Number), ("last stop", 11, 13, Number),]
);
record!(
    ATTRIBUTE,
    "an attribute `*`",
    19,
    [
        ("attribute", 2, 5, Code),
        ("first stop", 7, 9, Number),
        ("last stop", 11, 13, Number),
        ("footnote", 15, 19, NumberIn(FOOTNOTE)),
    ]
);
record!(START, "the first stop `>`", 13, [("station", 2, 8, CodeIn(STATIONS)), ("departure", 10, 13, Time)]);
record!(SHORT_STOP, "a stop `.`", 13, [("station", 2, 8, CodeIn(STATIONS)), ("time", 10, 13, Time)]);
record!(END, "the last stop `<`", 13, [("station", 2, 8, CodeIn(STATIONS)), ("arrival", 10, 13, Time)]);
record!(
    LONG_STOP,
    "a stop with two times `+`",
    18,
    [("station", 2, 8, CodeIn(STATIONS)), ("arrival", 10, 13, TimeOrNone), ("departure", 15, 18, TimeOrNone),]
);
record!(PASSED, "a passed station `;`", 8, [("passed station", 2, 8, CodeIn(STATIONS))]);
record!(
    PLATFORM,
    "a platform `?`",
    18,
    [
        ("arrival platform", 2, 6, Text),
        ("departure platform", 8, 12, Text),
        ("footnote", 14, 18, NumberIn(FOOTNOTE)),
    ]
);
record!(CHANGE_STATION, "a station `#`", 8, [("station", 2, 8, CodeIn(STATIONS))]);
record!(
    PAIR,
    "a pair of services `-`",
    21,
    [
        ("from service", 2, 9, NumberIn(TIMETBLS)),
        ("to service", 11, 18, NumberIn(TIMETBLS)),
        ("possibility", 20, 21, Possibility),
    ]
);
record!(
    EXCEPTION,
    "an exception `-`",
    28,
    [
        ("from company", 2, 4, NumberOrAnyIn(COMPANY)),
        ("from mode", 6, 9, CodeOrAnyIn(TRNSMODE)),
        ("to company", 11, 13, NumberOrAnyIn(COMPANY)),
        ("to mode", 15, 18, CodeOrAnyIn(TRNSMODE)),
        ("change time", 20, 22, Number),
        ("footnote", 24, 28, NumberIn(XFOOTNOTE)),
    ]
);

/// The record of a line after the file's first one, by its first byte. A vector
/// is none: its length is the delivery's days.
pub fn record_of(file: usize, letter: u8) -> Option<&'static Record> {
    Some(match (file, letter) {
        (COMPANY, _) => &COMPANY_ROW,
        (COUNTRY, _) => &COUNTRY_ROW,
        (TRNSMODE, _) => &MODE_ROW,
        (STATIONS, _) => &STATION_ROW,
        (TIMEZONE, b'#') => &ZONE,
        (TIMEZONE, b'+' | b'-') => &PERIOD,
        (FOOTNOTE | XFOOTNOTE, b'#') => &FOOTNOTE_NUMBER,
        (CHANGES | XCHANGES, b'#') => &CHANGE_STATION,
        (CHANGES, b'-') => &PAIR,
        (XCHANGES, b'-') => &EXCEPTION,
        (TIMETBLS, b'#') => &SERVICE,
        (TIMETBLS, b'%') => &NUMBER,
        (TIMETBLS, b'-') => &VALIDITY,
        (TIMETBLS, b'&') => &MODE,
        (TIMETBLS, b'*') => &ATTRIBUTE,
        (TIMETBLS, b'>') => &START,
        (TIMETBLS, b'.') => &SHORT_STOP,
        (TIMETBLS, b'<') => &END,
        (TIMETBLS, b'+') => &LONG_STOP,
        (TIMETBLS, b';') => &PASSED,
        (TIMETBLS, b'?') => &PLATFORM,
        _ => return None,
    })
}

/// The first bytes that lines of a file may have, if it has any of its own.
pub fn letters(file: usize) -> Option<&'static [u8]> {
    match file {
        DELIVERY => Some(b"@"),
        TIMEZONE => Some(b"#+-"),
        FOOTNOTE | XFOOTNOTE => Some(b"#01"),
        CHANGES | XCHANGES => Some(b"#-"),
        TIMETBLS => Some(b"#%-&*>.+;<?"),
        _ => None,
    }
}

/// The columns of the key that other files name, and the letter that its lines
/// begin with, if any.
pub fn key_of(file: usize) -> (Option<u8>, usize, usize) {
    match file {
        COMPANY => (None, 1, 3),
        COUNTRY | TRNSMODE => (None, 1, 4),
        STATIONS => (None, 3, 9),
        TIMEZONE => (Some(b'#'), 2, 5),
        FOOTNOTE | XFOOTNOTE => (Some(b'#'), 2, 6),
        TIMETBLS => (Some(b'#'), 2, 9),
        _ => (Some(b'#'), 2, 8),
    }
}

/// The keys of a file, as its lines have them.
pub fn keys(file: usize, text: &[u8]) -> impl Iterator<Item = &[u8]> {
    let (letter, from, to) = key_of(file);
    crate::files::lines(text)
        .skip(1)
        .filter(move |line| letter.is_none_or(|letter| line.text.first() == Some(&letter)))
        .filter_map(move |line| line.text.get(from - 1..to))
}

/// The columns of a field, where the line has them.
pub fn part<'a>(line: &'a [u8], field: &Field) -> Option<&'a [u8]> {
    line.get(field.from - 1..field.to)
}

pub fn is_number(field: &[u8]) -> bool {
    field.iter().all(u8::is_ascii_digit)
}

/// A field of digits as a number.
pub fn number(field: &[u8]) -> Option<u64> {
    (is_number(field) && !field.is_empty() && field.len() < 19)
        .then(|| field.iter().fold(0, |so_far, &digit| so_far * 10 + u64::from(digit - b'0')))
}

pub fn is_blank(field: &[u8]) -> bool {
    field.iter().all(|&byte| byte == b' ')
}

pub fn is_any(field: &[u8]) -> bool {
    field.first() == Some(&b'*') && is_blank(&field[1..])
}

pub fn is_allowed(byte: u8) -> bool {
    matches!(byte, 32..=126 | 160..=255)
}

/// A code as one word, its first byte highest.
pub fn pack(code: &[u8]) -> u64 {
    code.iter().fold(0, |word, &byte| word << 8 | u64::from(byte))
}

/// A packed code of so many bytes.
pub fn unpack(word: u64, width: usize) -> Vec<u8> {
    word.to_be_bytes()[8 - width..].to_vec()
}
