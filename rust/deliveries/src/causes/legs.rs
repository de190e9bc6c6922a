//! Refusal 10: first or last out of range, legs uncovered or covered twice.

use crate::fields::{get, put, record, Record};
use crate::place::TIMETBLS;
use crate::rng::Rng;
use crate::text::number;

use super::{any, named, places_of, Cause, Lines};

pub fn causes() -> Vec<Cause> {
    let mut causes: Vec<Cause> = b"%-&".iter().flat_map(|&letter| of_legs(letter)).collect();
    causes.extend(of_attributes());
    causes
}

/// A record of some block, the block's `#` and its number of stops.
#[derive(Clone, Copy)]
struct Found {
    at: usize,
    opening: usize,
    stops: usize,
}

fn any_record(rng: &mut Rng, kind: &Record, lines: &Lines) -> Option<Found> {
    let at = any(rng, places_of(kind, lines))?;
    let opening = (1..=at).rev().find(|&at| lines[at].starts_with(b"#"))?;
    let block = lines[opening + 1..].iter().take_while(|line| !line.starts_with(b"#"));
    let stops = block.filter(|line| matches!(line[0], b'>' | b'.' | b'+' | b'<')).count();
    Some(Found { at, opening, stops })
}

fn put_span(line: &mut [u8], kind: &Record, first: usize, last: usize) {
    put(line, kind.field("first"), &number(first as u64, 3));
    put(line, kind.field("last"), &number(last as u64, 3));
}

/// First and last, 000 and 999 as stop numbers.
fn span(line: &[u8], kind: &Record, stops: usize) -> Option<(usize, usize)> {
    let written = |name: &str| String::from_utf8(get(line, kind.field(name))).ok()?.parse::<usize>().ok();
    let stop = |written: usize| match written {
        0 => 1,
        999 => stops,
        stop => stop,
    };
    Some((stop(written("first")?), stop(written("last")?)))
}

/// One record more of the kind, with a first and last for the number of stops.
fn one_more(kind: Record, what: &str, choice: fn(&mut Rng, usize) -> (usize, usize)) -> Cause {
    Cause::in_lines(10, TIMETBLS, named(&kind), what, move |rng, lines| {
        let Found { at, opening, stops } = any_record(rng, &kind, lines)?;
        let mut line = lines[at].clone();
        let (first, last) = choice(rng, stops);
        put_span(&mut line, &kind, first, last);
        lines.insert(at + rng.below(2), line);
        Some(opening)
    })
}

/// Another first and last for a record that has one.
fn changed(
    kind: Record,
    what: &str,
    choice: fn(&mut Rng, usize, (usize, usize)) -> Option<(usize, usize)>,
) -> Cause {
    Cause::in_lines(10, TIMETBLS, named(&kind), what, move |rng, lines| {
        let Found { at, opening, stops } = any_record(rng, &kind, lines)?;
        let (first, last) = choice(rng, stops, span(&lines[at], &kind, stops)?)?;
        put_span(&mut lines[at], &kind, first, last);
        Some(opening)
    })
}

fn of_legs(letter: u8) -> Vec<Cause> {
    let kind = record(TIMETBLS, Some(letter));
    vec![
        one_more(kind, "first equal to last", |rng, stops| {
            let stop = 1 + rng.below(stops);
            (stop, stop)
        }),
        one_more(kind, "000 to 000", |_, _| (0, 0)),
        one_more(kind, "999 to 999", |_, _| (999, 999)),
        one_more(kind, "999 to 000", |_, _| (999, 0)),
        one_more(kind, "first after last", |rng, stops| {
            let last = 1 + rng.below(stops - 1);
            (last + 1 + rng.below(stops - last), last)
        }),
        one_more(kind, "a leg twice", |rng, stops| {
            let first = 1 + rng.below(stops - 1);
            (first, first + 1)
        }),
        one_more(kind, "all legs twice", |_, _| (0, 999)),
        one_more(kind, "beyond the last stop", |rng, stops| (stops, stops + 1 + rng.below(3))),
        changed(kind, "last beyond the last stop", |_, stops, (first, last)| {
            (last == stops).then_some((first, stops + 1))
        }),
        changed(kind, "last 998", |_, stops, (first, last)| (last == stops).then_some((first, 998))),
        changed(kind, "first leg of a record lacking", |_, _, (first, last)| {
            (first + 1 < last).then_some((first + 1, last))
        }),
        changed(kind, "last leg of a record lacking", |_, _, (first, last)| {
            (first + 1 < last).then_some((first, last - 1))
        }),
        // As many legs as before, so that their number tells nothing.
        changed(kind, "a leg twice and another lacking", |_, _, (first, last)| {
            (first > 1).then_some((first - 1, last - 1))
        }),
        lost(kind),
    ]
}

/// One of several records of a kind taken away.
fn lost(kind: Record) -> Cause {
    Cause::in_lines(10, TIMETBLS, named(&kind), "a record's legs lacking", move |rng, lines| {
        let Found { at, opening, .. } = any_record(rng, &kind, lines)?;
        let has_sibling = kind.is(&lines[at - 1]) || lines.get(at + 1).is_some_and(|line| kind.is(line));
        has_sibling.then(|| drop(lines.remove(at)))?;
        Some(opening)
    })
}

fn of_attributes() -> Vec<Cause> {
    let kind = record(TIMETBLS, Some(b'*'));
    vec![
        one_more(kind, "first after last", |rng, stops| {
            let last = 1 + rng.below(stops - 1);
            (last + 1 + rng.below(stops - last), last)
        }),
        one_more(kind, "999 to 000", |_, _| (999, 0)),
        one_more(kind, "last beyond the last stop", |rng, stops| (1 + rng.below(stops), stops + 1)),
        one_more(kind, "first beyond the last stop", |_, stops| (stops + 1, 999)),
        one_more(kind, "both beyond the last stop", |_, stops| (stops + 1, stops + 1)),
    ]
}
