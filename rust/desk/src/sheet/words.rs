//! What is said beside the arrivals and departures of a sheet.

use proved::{Change, Reason, Refusal, Source, Verdict};

use crate::answers::{Date, Onward, Sheet, SheetCall};
use crate::commands::source_name;
use crate::dates;
use crate::explain::meaning;
use crate::speech::counted;

pub const UNSETTLED: &str = "Unsettled: the needed time is the highest number that its columns can hold, 99 in \
                             STATIONS or 999 in XCHANGES, so the real time may be longer. Ask the supplier before \
                             selling.";

/// The verdict in a word; `Refused 15` where there is none.
pub fn verdict(answer: &Result<Change, Refusal>) -> String {
    match answer {
        Ok(change) => match change.verdict {
            Verdict::Yes => "Yes".into(),
            Verdict::No(_) => "No".into(),
            Verdict::Unsettled => "Unsettled".into(),
        },
        Err(Refusal(number)) => format!("Refused {number}"),
    }
}

/// Why an answer is what it is, in some words, and what it rests on.
pub fn why(onward: &Onward) -> String {
    let change = match &onward.answer {
        Ok(change) => change,
        Err(Refusal(number)) => return meaning(*number).into(),
    };
    let why = match change.verdict {
        Verdict::Yes => String::new(),
        Verdict::No(Reason::PairImpossible) => "this pair is forbidden; ".into(),
        Verdict::No(Reason::NoChangesHere) => "no changes are made here, flag 0; ".into(),
        Verdict::No(_) => {
            let short = change.spare().map_or(0, i64::unsigned_abs);
            format!("{} too short; ", counted(short, "minute"))
        }
        Verdict::Unsettled if change.source == Some(Source::XChanges) => {
            "rests on the exception's 999; ".into()
        }
        Verdict::Unsettled => "rests on the station's 99; ".into(),
    };
    why + &rests_on(change, onward.line)
}

/// `XCHANGES, line 3`.
fn rests_on(change: &Change, line: Option<u64>) -> String {
    let file = change.source.map_or("", source_name);
    line.map_or(file.into(), |line| format!("{file}, line {line}"))
}

/// The day of a call's time, where it is not the sheet's: `on Wed 16 Dec 2015`; and as
/// it stands in TIMETBLS where it is not the service's: `24:40 of service day 15 Dec 2015`.
pub fn day_of(call: &SheetCall, sheet: &Sheet) -> [Option<String>; 2] {
    let Date(service_day) = call.service_date;
    let on = match call.date {
        None => dates::day_of(call.local, service_day),
        Some(Date(date)) => format!("on {}", dates::weekday(date)),
    };
    let of = || format!("{} of service day {}", dates::hours(call.local), dates::date(service_day));
    [(call.date != Some(sheet.date)).then_some(on), (call.local >= dates::MINUTES_IN_DAY).then(of)]
}

/// What the station's clocks show between arrival and departure, where they change.
pub fn by_clocks(from: &SheetCall, onward: &Onward) -> Option<String> {
    let gap = onward.answer.ok()?.gap?;
    let time = |call: &SheetCall| (call.local, call.service_date.0);
    let shown = dates::between(time(from), time(onward.to)).filter(|&shown| shown != i64::from(gap))?;
    Some(format!("{shown} by the station's clocks, which change in between"))
}

/// What is said beside an arrival.
pub fn remarks_on_arrival(from: &SheetCall, sheet: &Sheet) -> String {
    day_of(from, sheet).into_iter().flatten().collect::<Vec<_>>().join(", ")
}

/// What is said beside a departure.
pub fn remarks(from: &SheetCall, onward: &Onward, sheet: &Sheet) -> String {
    let [on, of] = day_of(onward.to, sheet);
    let said = [on, of, by_clocks(from, onward), Some(why(onward))];
    said.into_iter().flatten().filter(|said| !said.is_empty()).collect::<Vec<_>>().join("; ")
}

/// Operator, mode and number: `STENA SHIP 12`.
pub fn train(call: &SheetCall) -> String {
    let operator = call.company_code.as_deref().unwrap_or("");
    format!("{operator} {} {}", call.mode.trim_end(), call.number).trim_start().into()
}

/// Code and name of the station where a service begins or ends.
pub fn end(call: &SheetCall) -> String {
    let end = call.origin.as_ref().or(call.destination.as_ref());
    let both = end.map(|end| format!("{} {}", end.station.trim_end(), end.name.as_deref().unwrap_or("")));
    both.unwrap_or_default().trim_end().into()
}

/// The hours that arrivals are wanted of, where it is not the whole day.
pub fn in_hours(sheet: &Sheet) -> String {
    match (sheet.from, sheet.to) {
        (0, to) if to == dates::MINUTES_IN_DAY - 1 => String::new(),
        (from, to) => format!(" from {} to {}", dates::face(from), dates::face(to)),
    }
}

/// What a sheet without an arrival says.
pub fn none_arrives(sheet: &Sheet) -> String {
    let (station, day) = (sheet.station.trim_end(), dates::weekday(sheet.date.0));
    format!("Nothing arrives at {station} on {day}{}.", in_hours(sheet))
}
