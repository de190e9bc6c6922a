//! The records of every file and their fields, for setting them to other values.

use crate::place::*;

/// What a field holds.
#[derive(Clone, Copy, Debug, PartialEq)]
pub enum Class {
    Number,
    Code,
    Day,
    Time,
    Stop,
    Text,
}

/// A field from one column to another, both from 1 and included.
#[derive(Clone, Copy, Debug)]
pub struct Field {
    pub name: &'static str,
    pub first: usize,
    pub last: usize,
    pub class: Class,
}

impl Field {
    pub fn width(&self) -> usize {
        self.last + 1 - self.first
    }
}

const fn field(name: &'static str, first: usize, last: usize, class: Class) -> Field {
    Field { name, first, last, class }
}

/// A kind of record: the file it stands in, its letter if the file has letters,
/// and its fields. It ends with its last field, and a comma stands in each gap.
#[derive(Clone, Copy, Debug)]
pub struct Record {
    pub file: usize,
    pub letter: Option<u8>,
    pub fields: &'static [Field],
}

impl Record {
    /// Whether a line after the first is such a record.
    pub fn is(&self, line: &[u8]) -> bool {
        self.letter.is_none() || line.first().copied() == self.letter
    }

    /// The columns of the commas, from 1.
    pub fn commas(&self) -> impl Iterator<Item = usize> {
        self.fields.windows(2).map(|pair| pair[0].last + 1)
    }

    pub fn field(&self, name: &str) -> Field {
        *self.fields.iter().find(|field| field.name == name).expect("a field of the record")
    }
}

use Class::*;

pub const FIRST_LINE: &[Field] = &[
    field("company", 2, 4, Number),
    field("first day", 6, 13, Day),
    field("last day", 15, 22, Day),
    field("version", 24, 27, Number),
    field("text", 29, 58, Text),
];
const COMPANY_ROW: &[Field] = &[
    field("number", 1, 3, Number),
    field("code", 5, 14, Text),
    field("name", 16, 45, Text),
    field("day turn", 47, 50, Time),
];
const COUNTRY_ROW: &[Field] =
    &[field("code", 1, 4, Code), field("inland", 6, 6, Number), field("name", 8, 37, Text)];
const MODE_ROW: &[Field] = &[field("code", 1, 4, Code), field("text", 6, 35, Text)];
const ZONE: &[Field] = &[field("zone", 2, 5, Number)];
const PERIOD: &[Field] =
    &[field("hours", 2, 3, Number), field("first day", 5, 12, Day), field("last day", 14, 21, Day)];
const STATION_ROW: &[Field] = &[
    field("flag", 1, 1, Number),
    field("short name", 3, 9, Code),
    field("change time", 11, 12, Number),
    field("maximum", 14, 15, Text),
    field("country", 17, 20, Code),
    field("zone", 22, 25, Number),
    field("27-28", 27, 28, Text),
    field("x", 30, 35, Text),
    field("y", 37, 42, Text),
    field("name", 44, 73, Text),
];
const FOOTNOTE_NUMBER: &[Field] = &[field("number", 2, 6, Number)];
const SERVICE: &[Field] = &[field("service", 2, 9, Number)];
const SERVICE_NUMBER: &[Field] = &[
    field("company", 2, 4, Number),
    field("number", 6, 10, Number),
    field("variant", 12, 18, Text),
    field("first", 20, 22, Stop),
    field("last", 24, 26, Stop),
    field("name", 28, 57, Text),
];
const VALIDITY: &[Field] =
    &[field("footnote", 2, 6, Number), field("first", 8, 10, Stop), field("last", 12, 14, Stop)];
const MODE: &[Field] = &[field("mode", 2, 5, Code), field("first", 7, 9, Stop), field("last", 11, 13, Stop)];
const ATTRIBUTE: &[Field] = &[
    field("attribute", 2, 5, Code),
    field("first", 7, 9, Stop),
    field("last", 11, 13, Stop),
    field("footnote", 15, 19, Number),
];
const ONE_TIME_STOP: &[Field] = &[field("station", 2, 8, Code), field("time", 10, 13, Time)];
const INTERVAL: &[Field] =
    &[field("station", 2, 8, Code), field("arrival", 10, 13, Time), field("departure", 15, 18, Time)];
const STATION: &[Field] = &[field("station", 2, 8, Code)];
const PLATFORM: &[Field] =
    &[field("platform", 2, 6, Text), field("platform", 8, 12, Text), field("footnote", 14, 18, Number)];
const PAIR: &[Field] =
    &[field("from", 2, 9, Number), field("to", 11, 18, Number), field("possibility", 20, 21, Number)];
const XCHANGE: &[Field] = &[
    field("from company", 2, 4, Number),
    field("from mode", 6, 9, Code),
    field("to company", 11, 13, Number),
    field("to mode", 15, 18, Code),
    field("time", 20, 22, Number),
    field("footnote", 24, 28, Number),
];

const fn row(file: usize, fields: &'static [Field]) -> Record {
    Record { file, letter: None, fields }
}

const fn lettered(file: usize, letter: u8, fields: &'static [Field]) -> Record {
    Record { file, letter: Some(letter), fields }
}

/// Every kind of record but the first lines and the vectors.
pub const RECORDS: &[Record] = &[
    row(COMPANY, COMPANY_ROW),
    row(COUNTRY, COUNTRY_ROW),
    row(TRNSMODE, MODE_ROW),
    lettered(TIMEZONE, b'#', ZONE),
    lettered(TIMEZONE, b'+', PERIOD),
    lettered(TIMEZONE, b'-', PERIOD),
    row(STATIONS, STATION_ROW),
    lettered(FOOTNOTE, b'#', FOOTNOTE_NUMBER),
    lettered(TIMETBLS, b'#', SERVICE),
    lettered(TIMETBLS, b'%', SERVICE_NUMBER),
    lettered(TIMETBLS, b'-', VALIDITY),
    lettered(TIMETBLS, b'&', MODE),
    lettered(TIMETBLS, b'*', ATTRIBUTE),
    lettered(TIMETBLS, b'>', ONE_TIME_STOP),
    lettered(TIMETBLS, b'.', ONE_TIME_STOP),
    lettered(TIMETBLS, b'+', INTERVAL),
    lettered(TIMETBLS, b'<', ONE_TIME_STOP),
    lettered(TIMETBLS, b';', STATION),
    lettered(TIMETBLS, b'?', PLATFORM),
    lettered(CHANGES, b'#', STATION),
    lettered(CHANGES, b'-', PAIR),
    lettered(XFOOTNOTE, b'#', FOOTNOTE_NUMBER),
    lettered(XCHANGES, b'#', STATION),
    lettered(XCHANGES, b'-', XCHANGE),
];

/// The kind of record with this letter in a file, or the file's rows.
pub fn record(file: usize, letter: Option<u8>) -> Record {
    let is_meant = |record: &&Record| record.file == file && record.letter == letter;
    *RECORDS.iter().find(is_meant).expect("a kind of record")
}

/// The fields of a line after the first; none for a vector or an unknown record.
pub fn of(file: usize, line: &[u8]) -> &'static [Field] {
    RECORDS.iter().find(|record| record.file == file && record.is(line)).map_or(&[], |record| record.fields)
}

/// Puts a value into a field, unless the line is too short for it.
pub fn put(line: &mut [u8], field: Field, value: &[u8]) {
    if line.len() >= field.last {
        line[field.first - 1..field.last].copy_from_slice(value);
    }
}

/// What a field holds; blanks if the line is too short for it.
pub fn get(line: &[u8], field: Field) -> Vec<u8> {
    line.get(field.first - 1..field.last).map_or_else(|| vec![b' '; field.width()], <[u8]>::to_vec)
}
