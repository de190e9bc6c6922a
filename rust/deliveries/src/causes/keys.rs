//! Refusals 8 and 9: keys that come again, and keys that are named and not held.

use crate::calendar;
use crate::cases::Case;
use crate::fields::{get, put, record, Class, Field, Record, FIRST_LINE};
use crate::place::*;
use crate::rng::Rng;
use crate::text::{number, split};

use super::{any, edit_lines, named, other_byte, places_of, Cause, Lines, Place};

pub fn causes() -> Vec<Cause> {
    let mut causes: Vec<Cause> =
        UNIQUE.into_iter().map(|(file, letter, name)| twice(file, letter, name)).collect();
    causes.extend(TEXTS.into_iter().map(|(file, name)| blank_twice(file, name)));
    causes.extend([CHANGES, XCHANGES].into_iter().flat_map(row_twice));
    causes.extend(overlaps());
    causes.extend(NAMED.into_iter().flat_map(|(file, letter, name, key)| unmet(file, letter, name, key)));
    causes.extend(footnotes_of_the_other_file());
    causes.extend(deliverys_company());
    causes
}

const HASH: Option<u8> = Some(b'#');

/// What must differ from row to row, or from group to group.
pub(super) const UNIQUE: [(usize, Option<u8>, &str); 14] = [
    (COMPANY, None, "number"),
    (COMPANY, None, "code"),
    (COMPANY, None, "name"),
    (COUNTRY, None, "code"),
    (COUNTRY, None, "name"),
    (TRNSMODE, None, "code"),
    (TRNSMODE, None, "text"),
    (TIMEZONE, HASH, "zone"),
    (STATIONS, None, "short name"),
    (FOOTNOTE, HASH, "number"),
    (TIMETBLS, HASH, "service"),
    (CHANGES, HASH, "station"),
    (XFOOTNOTE, HASH, "number"),
    (XCHANGES, HASH, "station"),
];

/// The unique fields that may be blank, but only once.
const TEXTS: [(usize, &str); 4] =
    [(COMPANY, "code"), (COMPANY, "name"), (COUNTRY, "name"), (TRNSMODE, "text")];

/// The value of an earlier row in a later one.
fn twice(file: usize, letter: Option<u8>, name: &'static str) -> Cause {
    let kind = record(file, letter);
    let field = kind.field(name);
    Cause::in_lines(8, file, named(&kind), format!("{name} twice"), move |rng, lines| {
        copy_earlier(rng, lines, &kind, field)
    })
}

/// Copies a field of some record to a later one; answers the later one's place.
pub(super) fn copy_earlier(rng: &mut Rng, lines: &mut Lines, kind: &Record, field: Field) -> Option<usize> {
    let places = places_of(kind, lines);
    let later = 1 + rng.below(places.len().checked_sub(1).filter(|&others| others > 0)?);
    let value = get(&lines[places[rng.below(later)]], field);
    put(&mut lines[places[later]], field, &value);
    Some(places[later])
}

fn blank_twice(file: usize, name: &'static str) -> Cause {
    let kind = record(file, None);
    let field = kind.field(name);
    Cause::in_lines(8, file, named(&kind), format!("{name} blank twice"), move |_, lines| {
        for line in [1, 2] {
            put(lines.get_mut(line)?, field, &vec![b' '; field.width()]);
        }
        Some(2)
    })
}

/// A row again in its group: as it is, and with another possibility or time,
/// which is no part of the key.
fn row_twice(file: usize) -> [Cause; 2] {
    let kind = record(file, Some(b'-'));
    let beside = kind.field(if file == CHANGES { "possibility" } else { "time" });
    let again = move |rng: &mut Rng, lines: &mut Lines| {
        let first = any(rng, places_of(&kind, lines))?;
        let group = lines[first..].iter().take_while(|line| !line.starts_with(b"#")).count();
        let at = first + 1 + rng.below(group);
        lines.insert(at, lines[first].clone());
        Some(at)
    };
    let same = Cause::in_lines(8, file, named(&kind), "keys twice", again);
    let what = format!("keys twice, another {}", beside.name);
    let other = Cause::in_lines(8, file, named(&kind), what, move |rng, lines| {
        let at = again(rng, lines)?;
        let column = beside.last - 1;
        lines[at][column] = other_byte(rng, lines[at][column], b"012");
        Some(at)
    });
    [same, other]
}

/// A group of TIMEZONE: the place after its last line, and its periods in days.
pub(super) struct ZoneGroup {
    pub end: usize,
    pub periods: Vec<(i64, i64)>,
}

pub(super) fn any_zone(rng: &mut Rng, lines: &Lines) -> Option<ZoneGroup> {
    let opening = any(rng, places_of(&record(TIMEZONE, HASH), lines))?;
    let period = record(TIMEZONE, Some(b'+'));
    let day = |line: &[u8], name: &str| {
        let date = String::from_utf8(get(line, period.field(name))).ok()?.parse().ok()?;
        Some(calendar::counted(date))
    };
    let group = lines[opening + 1..].iter().take_while(|line| !line.starts_with(b"#"));
    let periods: Option<Vec<_>> =
        group.map(|line| Some((day(line, "first day")?, day(line, "last day")?))).collect();
    let periods = periods?;
    Some(ZoneGroup { end: opening + 1 + periods.len(), periods })
}

/// A period from one day to another, if the calendar has them.
pub(super) fn period_line(rng: &mut Rng, (first, last): (i64, i64)) -> Option<Vec<u8>> {
    let date = |day: i64| number(calendar::written(day), 8);
    let in_calendar = 0 <= first && first <= last && last <= calendar::LAST;
    in_calendar.then(|| [&[*rng.pick(b"+-")], &b"01,"[..], &date(first), b",", &date(last)].concat())
}

/// A period more for a zone, which shares a day with one that it has.
fn overlaps() -> Vec<Cause> {
    type Choice = fn(&mut Rng, &[(i64, i64)]) -> (i64, i64);
    let choices: [(&str, Choice); 6] = [
        ("period shares its last day with the earliest", |_, held| {
            (earliest_day(held) - 3, earliest_day(held))
        }),
        ("period shares its first day with the latest", |_, held| (latest_day(held), latest_day(held) + 3)),
        ("period of one day within another", |rng, held| {
            let &(first, last) = rng.pick(held);
            let day = first + rng.below((last - first + 1) as usize) as i64;
            (day, day)
        }),
        ("period twice", |rng, held| *rng.pick(held)),
        ("period around another", |rng, held| {
            let &(first, last) = rng.pick(held);
            (first - 1, last + 1)
        }),
        ("period around all", |_, held| (earliest_day(held) - 2, latest_day(held) + 2)),
    ];
    choices
        .map(|(what, choice)| {
            Cause::in_lines(8, TIMEZONE, "period", what, move |rng, lines| {
                let zone = any_zone(rng, lines)?;
                let chosen = choice(rng, &zone.periods);
                lines.insert(zone.end, period_line(rng, chosen)?);
                Some(zone.end)
            })
        })
        .into()
}

pub(super) fn earliest_day(periods: &[(i64, i64)]) -> i64 {
    periods.iter().map(|period| period.0).min().expect("a zone has a period")
}

pub(super) fn latest_day(periods: &[(i64, i64)]) -> i64 {
    periods.iter().map(|period| period.1).max().expect("a zone has a period")
}

/// The file, letter and field that hold a key.
pub(super) type Key = (usize, Option<u8>, &'static str);

const COMPANY_KEY: Key = UNIQUE[0];
const COUNTRY_KEY: Key = UNIQUE[3];
const MODE_KEY: Key = UNIQUE[5];
pub(super) const ZONE_KEY: Key = UNIQUE[7];
const STATION_KEY: Key = UNIQUE[8];
const FOOTNOTE_KEY: Key = UNIQUE[9];
const SERVICE_KEY: Key = UNIQUE[10];
const XFOOTNOTE_KEY: Key = UNIQUE[12];

/// Where keys are named, first lines apart: file, letter, field, and the key.
pub(super) const NAMED: [(usize, Option<u8>, &str, Key); 20] = [
    (STATIONS, None, "country", COUNTRY_KEY),
    (STATIONS, None, "zone", ZONE_KEY),
    (TIMETBLS, Some(b'%'), "company", COMPANY_KEY),
    (TIMETBLS, Some(b'-'), "footnote", FOOTNOTE_KEY),
    (TIMETBLS, Some(b'&'), "mode", MODE_KEY),
    (TIMETBLS, Some(b'*'), "footnote", FOOTNOTE_KEY),
    (TIMETBLS, Some(b'>'), "station", STATION_KEY),
    (TIMETBLS, Some(b'.'), "station", STATION_KEY),
    (TIMETBLS, Some(b'+'), "station", STATION_KEY),
    (TIMETBLS, Some(b'<'), "station", STATION_KEY),
    (TIMETBLS, Some(b';'), "station", STATION_KEY),
    (TIMETBLS, Some(b'?'), "footnote", FOOTNOTE_KEY),
    (CHANGES, HASH, "station", STATION_KEY),
    (CHANGES, Some(b'-'), "from", SERVICE_KEY),
    (CHANGES, Some(b'-'), "to", SERVICE_KEY),
    (XCHANGES, HASH, "station", STATION_KEY),
    (XCHANGES, Some(b'-'), "from company", COMPANY_KEY),
    (XCHANGES, Some(b'-'), "to company", COMPANY_KEY),
    (XCHANGES, Some(b'-'), "from mode", MODE_KEY),
    (XCHANGES, Some(b'-'), "to mode", MODE_KEY),
];

/// The keys that a delivery holds, in order.
fn held(case: &Case, (file, letter, name): Key) -> Vec<Vec<u8>> {
    let kind = record(file, letter);
    let lines = split(&case.files[file]);
    let mut keys: Vec<Vec<u8>> =
        places_of(&kind, &lines).into_iter().map(|at| get(&lines[at], kind.field(name))).collect();
    keys.sort();
    keys
}

/// Edits some record of a kind; answers where.
pub(super) fn edit_somewhere(
    rng: &mut Rng,
    case: &mut Case,
    kind: &Record,
    edit: impl FnOnce(&mut Rng, &mut Vec<u8>),
) -> Option<Place> {
    edit_lines(case, kind.file, |lines| {
        let at = any(rng, places_of(kind, lines))?;
        edit(rng, &mut lines[at]);
        Some(at)
    })
}

/// A key for a field, made from those that are held; by chance held itself.
pub(super) type Unheld = fn(&mut Rng, &[Vec<u8>], Field) -> Vec<u8>;

/// One byte of a held key changed, wherever it stands.
pub(super) fn one_byte_off(rng: &mut Rng, held: &[Vec<u8>], field: Field) -> Vec<u8> {
    let mut value = rng.pick(held).clone();
    let column = rng.below(field.width());
    let bytes: &[u8] = if field.class == Class::Code { b"abz ~\xff" } else { b"0123456789" };
    value[column] = other_byte(rng, value[column], bytes);
    value
}

fn zero(_: &mut Rng, _: &[Vec<u8>], field: Field) -> Vec<u8> {
    vec![b'0'; field.width()]
}

/// A held key one column to the right, its last byte lost.
fn moved(rng: &mut Rng, held: &[Vec<u8>], field: Field) -> Vec<u8> {
    [b" ", &rng.pick(held)[..field.width() - 1]].concat()
}

/// A blank code is 5, and a star alone may be a wildcard.
fn is_blank_or_star(value: &[u8]) -> bool {
    matches!(value[0], b' ' | b'*') && value[1..].iter().all(|&byte| byte == b' ')
}

/// A key that is not held and breaks no other rule.
pub(super) fn free_key(
    rng: &mut Rng,
    case: &Case,
    key: Key,
    field: Field,
    unheld: Unheld,
) -> Option<Vec<u8>> {
    let keys = held(case, key);
    let value = unheld(rng, &keys, field);
    (!keys.contains(&value) && !is_blank_or_star(&value)).then_some(value)
}

fn unmet(file: usize, letter: Option<u8>, name: &'static str, key: Key) -> [Cause; 2] {
    let kind = record(file, letter);
    let field = kind.field(name);
    let cause = |what: &str, unheld: Unheld| {
        Cause::new(9, file, named(&kind), format!("{name} {what}"), move |rng, case| {
            let value = free_key(rng, case, key, field, unheld)?;
            edit_somewhere(rng, case, &kind, |_, line| put(line, field, &value))
        })
    };
    let second = match field.class {
        Class::Code => cause("held one column to the left", moved),
        _ => cause("0 and not held", zero),
    };
    [cause("not held", one_byte_off), second]
}

/// FOOTNOTE's footnotes in XCHANGES, and XFOOTNOTE's in TIMETBLS.
fn footnotes_of_the_other_file() -> Vec<Cause> {
    let cause = |file: usize, letter: u8, own: Key, other: Key| {
        let kind = record(file, Some(letter));
        Cause::new(9, file, named(&kind), "footnote of the other file", move |rng, case| {
            let own = held(case, own);
            let others = held(case, other).into_iter().filter(|key| !own.contains(key));
            let others: Vec<Vec<u8>> = others.collect();
            let value = (!others.is_empty()).then(|| rng.field(&others))?;
            edit_somewhere(rng, case, &kind, |_, line| put(line, kind.field("footnote"), value))
        })
    };
    let mut causes: Vec<Cause> =
        b"-*?".iter().map(|&letter| cause(TIMETBLS, letter, FOOTNOTE_KEY, XFOOTNOTE_KEY)).collect();
    causes.push(cause(XCHANGES, b'-', XFOOTNOTE_KEY, FOOTNOTE_KEY));
    causes
}

/// DELIVERY's company, in all first lines alike.
fn deliverys_company() -> [Cause; 2] {
    let field = FIRST_LINE[0];
    let cause = |what: &str, unheld: Unheld| {
        Cause::new(9, DELIVERY, "first line", format!("company {what}"), move |rng, case| {
            let keys = held(case, COMPANY_KEY);
            let value = unheld(rng, &keys, field);
            for file in &mut case.files {
                put(file, field, &value);
            }
            (!keys.contains(&value)).then_some(Place::FIRST_LINE)
        })
    };
    [cause("not held", one_byte_off), cause("0", zero)]
}
