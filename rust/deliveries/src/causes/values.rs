//! Refusal 5.

use crate::calendar;
use crate::fields::{get, put, record, Class, Field, Record, FIRST_LINE, RECORDS};
use crate::place::*;
use crate::rng::Rng;
use crate::text::{number, Lines as Text};

use super::{any, named, other_byte, places_of, Cause, Lines};

/// Allowed bytes that are no digits, their neighbours among them.
const NO_DIGITS: &[u8] = b"/: x*,-+\xb2";

const NO_DAYS: [&[u8]; 12] = [
    b"29021900",
    b"29022015",
    b"29022100",
    b"31121599",
    b"01010000",
    b"00012015",
    b"32012015",
    b"31042015",
    b"30022016",
    b"01002015",
    b"01132015",
    b"99999999",
];

pub fn causes() -> Vec<Cause> {
    let mut causes: Vec<Cause> = RECORDS.iter().flat_map(|record| of_fields(*record)).collect();
    causes.extend(delivery());
    causes.extend([b'+', b'-'].into_iter().flat_map(|sign| of_days(record(TIMEZONE, Some(sign)))));
    causes.extend(companies());
    causes.extend((b'2'..=b'9').map(inland));
    causes.extend(times());
    causes.extend(["03", "10", "20", "99"].map(possibility));
    causes.extend(["from company", "to company"].into_iter().flat_map(wildcards));
    causes.extend([FOOTNOTE, XFOOTNOTE].into_iter().flat_map(vectors));
    causes.push(one_mode_too_many());
    causes.extend([b'.', b'+', b'<'].map(one_stop_too_many));
    causes
}

fn of_fields(record: Record) -> impl Iterator<Item = Cause> {
    let values = record.fields.iter().filter(|field| field.class != Class::Text);
    values.map(move |&field| {
        Cause::in_record(5, record, spoiled(field), move |rng, line| {
            spoil(rng, line, field);
            Some(())
        })
    })
}

/// What a field is after [`spoil`].
pub(super) fn spoiled(field: Field) -> String {
    let fault = if field.class == Class::Code { "blank" } else { "not a number" };
    format!("{} {fault}", field.name)
}

/// Makes a code blank, and anything else no number.
pub(super) fn spoil(rng: &mut Rng, line: &mut [u8], field: Field) {
    if field.class == Class::Code {
        return put(line, field, &vec![b' '; field.width()]);
    }
    let column = field.first - 1 + rng.below(field.width());
    line[column] = other_byte(rng, line[column], NO_DIGITS);
}

/// A cause in DELIVERY's line, the only first line whose values are tested.
fn in_delivery(
    what: String,
    edit: impl Fn(&mut Rng, &mut Vec<u8>) -> Option<()> + Send + Sync + 'static,
) -> Cause {
    Cause::in_lines(5, DELIVERY, "first line", what, move |rng, lines| {
        edit(rng, &mut lines[0])?;
        Some(0)
    })
}

fn delivery() -> Vec<Cause> {
    let numbers = FIRST_LINE.iter().filter(|field| field.class != Class::Text);
    let mut causes: Vec<Cause> = numbers
        .map(|&field| {
            in_delivery(spoiled(field), move |rng, line| {
                spoil(rng, line, field);
                Some(())
            })
        })
        .collect();
    for field in [FIRST_LINE[1], FIRST_LINE[2]] {
        causes.extend(NO_DAYS.map(|value| {
            in_delivery(format!("{} {}", field.name, String::from_utf8_lossy(value)), move |_, line| {
                put(line, field, value);
                Some(())
            })
        }));
    }
    causes.extend(NO_SPANS.map(no_span));
    let [first, last] = [FIRST_LINE[1], FIRST_LINE[2]];
    causes.push(in_delivery("first day after the last".into(), move |_, line| {
        put_day_after(line, last, 1, first)
    }));
    causes.push(in_delivery("801 days".into(), move |_, line| put_day_after(line, first, 800, last)));
    causes
}

/// First and last days that would be a right span if both were days.
const NO_SPANS: [[&str; 2]; 8] = [
    ["29021900", "05031900"],
    ["29022015", "05032015"],
    ["31042015", "05052015"],
    ["00012015", "05012015"],
    ["31121599", "05011600"],
    ["25021900", "29021900"],
    ["25022015", "29022015"],
    ["25042015", "31042015"],
];

fn no_span([first, last]: [&'static str; 2]) -> Cause {
    in_delivery(format!("{first} to {last}"), move |_, line| {
        put(line, FIRST_LINE[1], first.as_bytes());
        put(line, FIRST_LINE[2], last.as_bytes());
        Some(())
    })
}

/// Puts into a field the day so many days after that of another.
fn put_day_after(line: &mut [u8], from: Field, days: i64, to: Field) -> Option<()> {
    let date = std::str::from_utf8(&get(line, from)).ok()?.parse().ok()?;
    let day = calendar::counted(date) + days;
    (day <= calendar::LAST).then(|| put(line, to, &number(calendar::written(day), 8)))
}

fn of_days(record: Record) -> Vec<Cause> {
    let [first, last] = ["first day", "last day"].map(|name| record.field(name));
    let no_days = |field: Field| NO_DAYS.map(|value| Cause::value(5, record, field, value));
    let mut causes: Vec<Cause> = [first, last].into_iter().flat_map(no_days).collect();
    causes.push(Cause::in_record(5, record, "first day after the last", move |_, line| {
        put_day_after(line, last, 1, first)
    }));
    causes
}

fn companies() -> Vec<Cause> {
    let row = record(COMPANY, None);
    let turns: [&[u8]; 7] = [b"2400", b"2401", b"2360", b"0060", b"0099", b"9900", b"9999"];
    let mut causes: Vec<Cause> = turns.map(|turn| Cause::value(5, row, row.field("day turn"), turn)).into();
    causes.push(Cause::value(5, row, row.field("number"), b"000"));
    causes
}

fn inland(digit: u8) -> Cause {
    let row = record(COUNTRY, None);
    let what = format!("inland {}", char::from(digit));
    Cause::in_record(5, row, what, move |_, line| {
        put(line, row.field("inland"), &[digit]);
        Some(())
    })
}

fn times() -> Vec<Cause> {
    let no_times: [&[u8]; 5] = [b"9960", b"0060", b"2399", b"9998", b"1260"];
    let mut causes = Vec::new();
    for letter in [b'>', b'.', b'<'] {
        let stop = record(TIMETBLS, Some(letter));
        causes.extend(no_times.map(|time| Cause::value(5, stop, stop.field("time"), time)));
        causes.push(Cause::value(5, stop, stop.field("time"), b"9999"));
    }
    let interval = record(TIMETBLS, Some(b'+'));
    let [arrival, departure] = ["arrival", "departure"].map(|name| interval.field(name));
    for field in [arrival, departure] {
        causes.extend(no_times.map(|time| Cause::value(5, interval, field, time)));
    }
    // Equal, a minute apart, an hour apart with the minutes the other way, and
    // no time at all.
    let pairs: [(&str, [&[u8]; 2]); 6] = [
        ("arrival equal to departure", [b"1000", b"1000"]),
        ("both 0000", [b"0000", b"0000"]),
        ("arrival a minute after departure", [b"1001", b"1000"]),
        ("arrival an hour after departure", [b"1100", b"1059"]),
        ("both 9959", [b"9959", b"9959"]),
        ("9999 twice", [b"9999", b"9999"]),
    ];
    causes.extend(pairs.map(|(what, [arrives, leaves])| {
        Cause::in_record(5, interval, what, move |_, line| {
            put(line, arrival, arrives);
            put(line, departure, leaves);
            Some(())
        })
    }));
    causes
}

fn possibility(value: &'static str) -> Cause {
    let pair = record(CHANGES, Some(b'-'));
    Cause::value(5, pair, pair.field("possibility"), value.as_bytes())
}

/// Fields that are nearly a wildcard.
fn wildcards(name: &'static str) -> [Cause; 4] {
    let row = record(XCHANGES, Some(b'-'));
    let fields: [&[u8]; 4] = [b" * ", b"  *", b"** ", b"* 1"];
    fields.map(|value| Cause::value(5, row, row.field(name), value))
}

/// Wrong characters after the first place: the second, the last, any.
fn vectors(file: usize) -> Vec<Cause> {
    let days: [(&str, fn(&mut Rng, usize) -> usize); 3] = [
        ("wrong second character", |_, _| 1),
        ("wrong last character", |_, days| days - 1),
        ("wrong character", |rng, days| 1 + rng.below(days - 1)),
    ];
    let cause = |(what, day): (&'static str, fn(&mut Rng, usize) -> usize)| {
        Cause::in_lines(5, file, "vector", what, move |rng, lines| {
            let vectors = (1..lines.len()).filter(|&at| matches!(lines[at][0], b'0' | b'1')).collect();
            let at = any(rng, vectors)?;
            let day = day(rng, lines[at].len());
            lines[at][day] = *rng.pick(b"2/ x,:9");
            Some(at)
        })
    };
    days.map(cause).into()
}

/// The 65th mode is 5, even where it is the mode of another row again.
fn one_mode_too_many() -> Cause {
    Cause::in_lines(5, TRNSMODE, "row", "the 65th", |rng, lines| {
        let first = lines[1].clone();
        for mode in lines.len()..=65 {
            lines.push(format!("~{mode:03},~{mode:029}").into_bytes());
        }
        if rng.percent(30) {
            lines[65] = first;
        }
        Some(65)
    })
}

/// A block in which the 999th stop is a record with this letter.
fn one_stop_too_many(letter: u8) -> Cause {
    let kind = record(TIMETBLS, Some(letter));
    Cause::in_lines(5, TIMETBLS, named(&kind), "the 999th stop", move |rng, lines| {
        let last = any(rng, places_of(&record(TIMETBLS, Some(b'<')), lines))?;
        let station = lines[last][1..8].to_vec();
        let stops = stops_before(lines, last);
        let mut more = Text::default();
        for _ in stops..998 {
            more.line(&[b".", &station, b",1200"]);
        }
        match letter {
            b'.' => more.line(&[b".", &station, b",1200"]),
            b'+' => more.line(&[b"+", &station, b",1200,1201"]),
            _ => (),
        }
        let more = crate::text::split(&more.0);
        let at = last + more.len() - usize::from(letter != b'<');
        lines.splice(last..last, more);
        Some(at)
    })
}

/// The stops of the block before its last one.
fn stops_before(lines: &Lines, last: usize) -> usize {
    let in_block = lines[..last].iter().rev().take_while(|line| !line.starts_with(b"#"));
    in_block.filter(|line| matches!(line[0], b'>' | b'.' | b'+')).count()
}
