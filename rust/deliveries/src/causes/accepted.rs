//! Borders on the side that is accepted, and what a reader could take for a
//! fault: the delivery stays sound.

use crate::fields::{get, put, record, Class, Field, Record, RECORDS};
use crate::place::*;
use crate::rng::Rng;
use crate::text::{join, split};

use super::keys::{any_zone, earliest_day, latest_day, period_line};
use super::{any, named, places_of, Cause, Lines, Place, ACCEPTED};

pub fn causes() -> Vec<Cause> {
    let mut causes: Vec<Cause> = RECORDS.iter().flat_map(|record| texts(*record)).collect();
    causes.extend(values());
    causes.extend(intervals());
    causes.extend(attributes());
    causes.extend(stars());
    causes.extend(next_to_each_other());
    causes.extend([CHANGES, XCHANGES].map(row_under_another_station));
    causes.extend([pair_turned_round(), row_with_another_footnote(), station_names_twice()]);
    causes.extend([CHANGES, XFOOTNOTE, XCHANGES].map(first_line_alone));
    causes.extend([absent(&[CHANGES]), absent(&[XCHANGES]), absent(&[XFOOTNOTE, XCHANGES])]);
    causes.extend(platforms());
    causes
}

/// A cause in one record that leaves the delivery sound.
fn fine(
    record: Record,
    what: impl Into<String>,
    edit: impl Fn(&mut Rng, &mut Vec<u8>) + Send + Sync + 'static,
) -> Cause {
    Cause::in_record(ACCEPTED, record, what, move |rng, line| {
        edit(rng, line);
        Some(())
    })
}

/// Free texts with all that is allowed: the bytes at the borders, and commas.
fn texts(record: Record) -> impl Iterator<Item = Cause> {
    let free = record.fields.iter().filter(|field| field.class == Class::Text);
    free.map(move |&field| {
        fine(record, format!("{} of any allowed bytes", field.name), move |rng, line| {
            let text: Vec<u8> = (0..field.width()).map(|_| *rng.pick(b" ,~\xa0\xff@#*0")).collect();
            put(line, field, &text);
        })
    })
}

fn values() -> Vec<Cause> {
    let (company, station) = (record(COMPANY, None), record(STATIONS, None));
    let (pair, xchange) = (record(CHANGES, Some(b'-')), record(XCHANGES, Some(b'-')));
    let mut causes = Vec::new();
    let mut add = |record: Record, name: &str, values: &[&'static [u8]]| {
        let field: Field = record.field(name);
        causes.extend(values.iter().map(|value| Cause::value(ACCEPTED, record, field, value)));
    };
    add(company, "day turn", &[b"0000", b"2359", b"2300", b"0059"]);
    add(record(COUNTRY, None), "inland", &[b"0", b"1"]);
    add(station, "flag", &[b"0", b"1", b"2", b"9"]);
    add(station, "change time", &[b"00", b"01", b"98", b"99"]);
    add(pair, "possibility", &[b"00", b"01", b"02"]);
    add(xchange, "time", &[b"000", b"099", b"998", b"999"]);
    add(record(TIMETBLS, Some(b'%')), "number", &[b"00000", b"99999"]);
    for sign in [b'+', b'-'] {
        add(record(TIMEZONE, Some(sign)), "hours", &[b"00", b"99"]);
    }
    for letter in [b'>', b'.', b'<'] {
        add(record(TIMETBLS, Some(letter)), "time", &[b"0000", b"0059", b"2359", b"2400", b"9959"]);
    }
    causes
}

fn intervals() -> [Cause; 5] {
    let interval = record(TIMETBLS, Some(b'+'));
    let times: [(&str, &[u8]); 5] = [
        ("a minute's stop", b"0959,1000"),
        ("arrival 0000", b"0000,0001"),
        ("departure 9959", b"9958,9959"),
        ("nobody alights", b"9999,0000"),
        ("nobody boards", b"9959,9999"),
    ];
    times.map(|(what, value)| fine(interval, what, move |_, line| line[9..].copy_from_slice(value)))
}

/// Attributes at a single stop, and over all.
fn attributes() -> [Cause; 6] {
    let attribute = record(TIMETBLS, Some(b'*'));
    let spans = ["000,000", "999,999", "001,001", "002,002", "000,999", "001,002"];
    spans.map(|span| {
        fine(attribute, format!("from and to {span}"), move |_, line| {
            line[6..13].copy_from_slice(span.as_bytes());
        })
    })
}

/// A mode `*`, which XCHANGES does not mean by its wildcard.
fn stars() -> [Cause; 2] {
    let held = Cause::in_lines(ACCEPTED, TRNSMODE, "row", "code *", |_, lines| {
        let is_held = lines.iter().any(|line| line.starts_with(b"*   ,"));
        (!is_held).then(|| lines.push(format!("*   ,{:30}", "~~ star").into_bytes()))?;
        Some(0)
    });
    let xchange = record(XCHANGES, Some(b'-'));
    let wildcards = Cause::in_lines(ACCEPTED, XCHANGES, "-", "all four keys wildcards", move |rng, lines| {
        let footnote = xchange.field("footnote");
        let at = any(rng, places_of(&xchange, lines))?;
        let row = [&b"-*  ,*   ,*  ,*   ,000,"[..], &get(&lines[at], footnote)].concat();
        let keys = |line: &Vec<u8>| [line[..19].to_vec(), get(line, footnote)];
        let is_held = lines[1..].iter().any(|line| line[0] == b'-' && keys(line) == keys(&row));
        (!is_held).then(|| lines[at] = row)?;
        Some(0)
    });
    [held, wildcards]
}

/// Periods that begin the day after another's last day, or end the day before.
fn next_to_each_other() -> [Cause; 2] {
    type Choice = fn(&[(i64, i64)]) -> (i64, i64);
    let choices: [(&str, Choice); 2] = [
        ("period ends the day before another", |held| (earliest_day(held) - 3, earliest_day(held) - 1)),
        ("period begins the day after another", |held| (latest_day(held) + 1, latest_day(held) + 3)),
    ];
    choices.map(|(what, choice)| {
        Cause::in_lines(ACCEPTED, TIMEZONE, "period", what, move |rng, lines| {
            let zone = any_zone(rng, lines)?;
            lines.insert(zone.end, period_line(rng, choice(&zone.periods))?);
            Some(zone.end)
        })
    })
}

/// The lines after a `#` up to the next.
fn group_at(lines: &Lines, opening: usize) -> &[Vec<u8>] {
    let count = lines[opening + 1..].iter().take_while(|line| !line.starts_with(b"#")).count();
    &lines[opening + 1..][..count]
}

fn row_under_another_station(file: usize) -> Cause {
    let kind = record(file, Some(b'-'));
    Cause::in_lines(ACCEPTED, file, named(&kind), "under another station too", move |rng, lines| {
        let row = lines[any(rng, places_of(&kind, lines))?].clone();
        let openings = places_of(&record(file, Some(b'#')), lines);
        let key = if file == CHANGES { 18 } else { 19 };
        let is_new = |opening: &usize| group_at(lines, *opening).iter().all(|held| held[..key] != row[..key]);
        let opening = any(rng, openings.into_iter().filter(is_new).collect())?;
        lines.insert(opening + 1, row);
        Some(0)
    })
}

/// From and to exchanged, beside the pair itself.
fn pair_turned_round() -> Cause {
    let kind = record(CHANGES, Some(b'-'));
    Cause::in_lines(ACCEPTED, CHANGES, "-", "pair turned round", move |rng, lines| {
        let at = any(rng, places_of(&kind, lines))?;
        let [from, to] = ["from", "to"].map(|name| kind.field(name));
        let mut turned = lines[at].clone();
        put(&mut turned, from, &get(&lines[at], to));
        put(&mut turned, to, &get(&lines[at], from));
        let opening = (1..at).rev().find(|&at| lines[at].starts_with(b"#"))?;
        let is_held = group_at(lines, opening).iter().any(|held| held[..18] == turned[..18]);
        (!is_held).then(|| lines.insert(at + 1, turned))?;
        Some(0)
    })
}

fn row_with_another_footnote() -> Cause {
    let (file, kind) = (XCHANGES, record(XCHANGES, Some(b'-')));
    Cause::new(ACCEPTED, file, "-", "keys twice, another footnote", move |rng, case| {
        let footnotes = split(&case.files[XFOOTNOTE]);
        let footnotes: Vec<Vec<u8>> =
            footnotes[1..].iter().step_by(2).map(|line| line[1..].to_vec()).collect();
        let mut lines = split(&case.files[file]);
        let at = any(rng, places_of(&kind, &lines))?;
        let opening = (1..at).rev().find(|&at| lines[at].starts_with(b"#"))?;
        let mut other = lines[at].clone();
        put(&mut other, kind.field("footnote"), rng.field(&footnotes));
        let keys = |line: &[u8]| [line[..19].to_vec(), line[23..].to_vec()];
        let is_held = group_at(&lines, opening).iter().any(|held| keys(held) == keys(&other));
        (!is_held).then(|| lines.insert(at + 1, other))?;
        case.files[file] = join(&lines);
        Some(Place::FILE)
    })
}

/// Names of stations need not be unique.
fn station_names_twice() -> Cause {
    Cause::in_lines(ACCEPTED, STATIONS, "row", "name twice", |_, lines| {
        let name = record(STATIONS, None).field("name");
        let value = get(&lines[1], name);
        put(&mut lines[2], name, &value);
        Some(0)
    })
}

/// A file that is there with its first line only. XCHANGES then has none either
/// where the file is XFOOTNOTE, whose footnotes it names.
fn first_line_alone(file: usize) -> Cause {
    Cause::new(ACCEPTED, file, "file", "first line alone", move |_, case| {
        let emptied = if file == XFOOTNOTE { vec![XFOOTNOTE, XCHANGES] } else { vec![file] };
        for file in emptied {
            let first = split(&case.files[file]).remove(0);
            case.files[file] = join(&[first]);
        }
        Some(Place::FILE)
    })
}

fn absent(files: &'static [usize]) -> Cause {
    Cause::new(ACCEPTED, files[0], "file", "absent", move |_, case| {
        for &file in files {
            case.files[file].clear();
        }
        Some(Place::FILE)
    })
}

/// A platform record after each kind of stop, and passed stations after it.
fn platforms() -> [Cause; 4] {
    [b'>', b'.', b'+', b'<'].map(|letter| {
        let stop = record(TIMETBLS, Some(letter));
        Cause::new(ACCEPTED, TIMETBLS, named(&stop), "? follows", move |rng, case| {
            let footnote = split(&case.files[FOOTNOTE])[1][1..].to_vec();
            let mut lines = split(&case.files[TIMETBLS]);
            let has_none = |at: &usize| lines.get(at + 1).is_none_or(|next| next[0] != b'?');
            let at = any(rng, places_of(&stop, &lines).into_iter().filter(has_none).collect())?;
            lines.insert(at + 1, [&b"?     ,     ,"[..], &footnote].concat());
            if letter != b'<' {
                let station = lines[at][1..8].to_vec();
                lines.insert(at + 2, [&b";"[..], &station].concat());
            }
            case.files[TIMETBLS] = join(&lines);
            Some(Place::FILE)
        })
    })
}
