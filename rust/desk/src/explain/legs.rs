//! 10: first and last stops out of range, legs uncovered or covered twice.

use super::{Case, Finding};
use crate::files::latin;
use crate::files::place::TIMETBLS;
use crate::records::{number, part, record_of};

/// A record of a block with first and last stop.
struct Span {
    at: usize,
    first: u64,
    last: u64,
    mark: (usize, usize),
}

const KINDS: [(u8, &str); 4] = [
    (b'%', "service number records `%`"),
    (b'-', "validity records `-`"),
    (b'&', "mode records `&`"),
    (b'*', "attribute records `*`"),
];

pub fn find(case: &Case) -> Option<Finding> {
    let stops: Vec<String> = case
        .group()
        .filter(|&at| matches!(case.lines[at].text.first(), Some(b'>' | b'.' | b'+' | b'<')))
        .map(|at| latin(case.lines[at].text.get(1..8).unwrap_or_default()).trim_end().to_string())
        .collect();
    KINDS.iter().find_map(|&(letter, kind)| {
        let spans = spans(case, letter, stops.len() as u64);
        out_of_range(case, letter, &spans, &stops).or_else(|| match letter {
            b'*' => None,
            _ => uncovered(case, kind, &spans, &stops),
        })
    })
}

fn spans(case: &Case, letter: u8, stops: u64) -> Vec<Span> {
    let record = record_of(TIMETBLS, letter);
    let fields = record.map_or(&[][..], |record| record.fields);
    let columns = fields
        .iter()
        .find(|field| field.what == "first stop")
        .zip(fields.iter().find(|field| field.what == "last stop"));
    let Some((first, last)) = columns else { return Vec::new() };
    let span = |at: usize| {
        let text = case.lines[at].text;
        (text.first() == Some(&letter)).then_some(())?;
        let read = |field| {
            part(text, field).and_then(number).map(|stop| match stop {
                0 => 1,
                999 => stops,
                stop => stop,
            })
        };
        Some(Span { at, first: read(first)?, last: read(last)?, mark: (first.from, last.to) })
    };
    case.group().filter_map(span).collect()
}

fn out_of_range(case: &Case, letter: u8, spans: &[Span], stops: &[String]) -> Option<Finding> {
    let n = stops.len() as u64;
    let wrong = |span: &&Span| match letter {
        b'*' => span.first > span.last || span.last > n,
        _ => span.first >= span.last || span.last > n,
    };
    let span = spans.iter().find(wrong)?;
    let found = format!(
        "stops {} to {} in {}, of a service with {n} stops",
        span.first,
        span.last,
        case.label(span.at)
    );
    let expected = match letter {
        b'*' => format!("a first stop not behind the last, both from 1 to {n}"),
        _ => format!("a first stop before the last, both from 1 to {n}"),
    };
    Some(whole(case, found, expected).beside(case.show(span.at, Some(span.mark))))
}

fn uncovered(case: &Case, kind: &str, spans: &[Span], stops: &[String]) -> Option<Finding> {
    let covering = |leg: u64| spans.iter().filter(move |span| span.first <= leg && leg < span.last);
    let leg = (1..stops.len() as u64).find(|&leg| covering(leg).count() != 1)?;
    let name = |stop: u64| stops.get(stop as usize - 1).map_or("", String::as_str);
    let named = format!("leg {leg}, from stop {leg} {} to stop {} {}", name(leg), leg + 1, name(leg + 1));
    let over = covering(leg).count();
    let found = match over {
        0 => format!("{named}, in none of its {kind}"),
        2 => format!("{named}, in two of its {kind}"),
        _ => format!("{named}, in {over} of its {kind}"),
    };
    let shown: Vec<&Span> = if over == 0 { spans.iter().collect() } else { covering(leg).collect() };
    let finding = whole(case, found, format!("every leg in exactly one of the {kind}"));
    Some(
        shown
            .into_iter()
            .take(6)
            .fold(finding, |finding, span| finding.beside(case.show(span.at, Some(span.mark)))),
    )
}

fn whole(case: &Case, found: String, expected: String) -> Finding {
    Finding::of("first and last stop", (1, case.text().len().max(1)), found, expected).advising(
        match case.whose {
            super::Whose::Delivery => "Ask the supplier which stops the record goes from and to.",
            super::Whose::Block => "Correct first and last stop in the block's file and amend again.",
        },
    )
}
