//! Answers in JSON. The keys are written down in docs/PROGRAM.md.

use proved::{Answer, Change, Reason, Refusal, Running, Source, StopTimes, Time, Verdict};
use serde::{Serialize, Serializer};
use serde_derive::Serialize;

use crate::dates;
use crate::explain::Explanation;
use crate::files::{latin, NAMES};
use crate::records::unpack;

#[derive(Serialize)]
pub struct Accepted {
    pub accepted: Counts,
    /// The number that an amendment has in the journal.
    #[serde(skip_serializing_if = "Option::is_none")]
    pub amendment: Option<u64>,
    /// Lines that the tables have room for beyond the file's own, by file.
    #[serde(skip_serializing_if = "Option::is_none")]
    pub room: Option<usize>,
}

#[derive(Serialize)]
pub struct Counts {
    pub days: u64,
    pub services: u64,
}

impl Accepted {
    pub fn of(answer: &Answer) -> Accepted {
        Accepted {
            accepted: Counts { days: answer.days, services: answer.services },
            amendment: None,
            room: None,
        }
    }
}

#[derive(Serialize)]
pub struct Refused<P> {
    pub refused: P,
}

/// Where a refusal is: no file, 0 and 0 where there is no place.
#[derive(Serialize)]
pub struct Place {
    pub number: u64,
    pub file: &'static str,
    pub ordinal: u64,
    pub line: u64,
}

impl Refused<Place> {
    pub fn of(answer: &Answer) -> Refused<Place> {
        let file = NAMES.get((answer.file as usize).wrapping_sub(1)).copied().unwrap_or("");
        Refused { refused: Place { number: answer.number, file, ordinal: answer.ordinal, line: answer.line } }
    }

    pub fn nowhere(Refusal(number): Refusal) -> Refused<Place> {
        Refused { refused: Place { number, file: "", ordinal: 0, line: 0 } }
    }
}

/// The same with what a person is told.
#[derive(Serialize)]
pub struct ToldPlace<'a> {
    number: u64,
    file: &'static str,
    ordinal: u64,
    line: u64,
    meaning: &'static str,
    #[serde(skip_serializing_if = "Option::is_none")]
    file_line: Option<u64>,
    #[serde(skip_serializing_if = "Option::is_none")]
    service: Option<&'a str>,
    #[serde(skip_serializing_if = "Option::is_none")]
    text: Option<String>,
    #[serde(skip_serializing_if = "Option::is_none")]
    columns: Option<(usize, usize)>,
    #[serde(skip_serializing_if = "Option::is_none")]
    field: Option<&'a str>,
    #[serde(skip_serializing_if = "Option::is_none")]
    found: Option<&'a str>,
    #[serde(skip_serializing_if = "Option::is_none")]
    expected: Option<&'a str>,
    advice: &'a str,
}

impl<'a> Refused<ToldPlace<'a>> {
    pub fn told(told: &'a Explanation) -> Refused<ToldPlace<'a>> {
        let shown = told.shown.first();
        Refused {
            refused: ToldPlace {
                number: told.number,
                file: told.file,
                ordinal: told.ordinal,
                line: told.line,
                meaning: told.meaning,
                file_line: told.file_line,
                service: told.service.as_deref(),
                text: shown.map(|shown| latin(&shown.text)),
                columns: shown.and_then(|shown| shown.mark),
                field: told.field.as_deref(),
                found: told.found.as_deref(),
                expected: told.expected.as_deref(),
                advice: &told.advice,
            },
        }
    }
}

#[derive(Serialize)]
pub struct Runs {
    pub runs: bool,
}

impl Runs {
    pub fn of(running: Running) -> Runs {
        Runs { runs: running == Running::Runs }
    }
}

/// The date DDMMYYYY on which minutes from 0000 of a service day fall; a day after
/// 31 December 9999 has none.
pub fn date_of(local: i64, service_day: u64) -> Option<String> {
    dates::date_of(local, service_day).map(|date| format!("{date:08}"))
}

/// Minutes from 0000 of the service day, and the date on which the local ones fall.
#[derive(Serialize)]
pub struct Minutes {
    pub local: i32,
    pub reference: i32,
    pub date: Option<String>,
}

impl Minutes {
    fn of(time: Time, service_day: u64) -> Minutes {
        let (local, reference) = (time.local.0, time.reference.0);
        Minutes { local, reference, date: date_of(local.into(), service_day) }
    }
}

#[derive(Serialize)]
pub struct Stop {
    pub station: String,
    pub arrival: Option<Minutes>,
    pub departure: Option<Minutes>,
    #[serde(skip_serializing_if = "Option::is_none")]
    pub name: Option<String>,
}

impl Stop {
    pub fn of(times: &StopTimes, service_day: u64) -> Stop {
        Stop {
            station: latin(&unpack(times.station, 7)),
            arrival: times.arrival.map(|time| Minutes::of(time, service_day)),
            departure: times.departure.map(|time| Minutes::of(time, service_day)),
            name: None,
        }
    }
}

/// A change; what is not reached is left out.
#[derive(Serialize)]
pub struct Changed {
    pub change: &'static str,
    #[serde(skip_serializing_if = "Option::is_none")]
    pub reason: Option<&'static str>,
    #[serde(skip_serializing_if = "Option::is_none")]
    pub gap: Option<i32>,
    #[serde(skip_serializing_if = "Option::is_none")]
    pub source: Option<&'static str>,
    #[serde(skip_serializing_if = "Option::is_none")]
    pub needed: Option<u64>,
    #[serde(skip_serializing_if = "Option::is_none")]
    pub from: Option<Side>,
    #[serde(skip_serializing_if = "Option::is_none")]
    pub to: Option<Side>,
    /// Where the needed time is that of XCHANGES: the exceptions that apply, and why
    /// the first of them counts.
    #[serde(skip_serializing_if = "Option::is_none")]
    pub exceptions: Option<Vec<Exception>>,
    #[serde(skip_serializing_if = "Option::is_none")]
    pub because: Option<&'static str>,
}

/// An exception that applies to a change; its keys are as they were written.
#[derive(Serialize)]
pub struct Exception {
    pub line: u64,
    pub from_company: String,
    pub from_mode: String,
    pub to_company: String,
    pub to_mode: String,
    pub time: u64,
    pub footnote: u64,
    pub pattern: String,
    pub place: u64,
    pub counts: bool,
}

/// The desk's card.
#[derive(Serialize)]
pub struct Card {
    pub card: Vec<CardEntry>,
    pub rule: &'static str,
}

/// A pattern on the card: which keys are named.
#[derive(Serialize)]
pub struct CardEntry {
    pub place: u64,
    pub pattern: String,
    pub from_company: bool,
    pub from_mode: bool,
    pub to_company: bool,
    pub to_mode: bool,
    pub meaning: String,
}

/// One side of a change, where it is at.
#[derive(Serialize)]
pub struct Side {
    pub station: String,
    pub name: Option<String>,
    /// Minutes on the station's clocks from 0000 of the service day: the arrival
    /// of the one, the departure of the other.
    pub local: Option<i64>,
    /// The date on which they fall.
    pub date: Option<String>,
}

impl Changed {
    pub fn of(change: &Change) -> Changed {
        let (verdict, reason) = match change.verdict {
            Verdict::Yes => ("yes", None),
            Verdict::No(reason) => ("no", Some(reason_of(reason))),
            Verdict::Unsettled => ("unsettled", None),
        };
        Changed {
            change: verdict,
            reason,
            gap: change.gap,
            source: change.source.map(source_of),
            needed: change.needed,
            from: None,
            to: None,
            exceptions: None,
            because: None,
        }
    }
}

fn reason_of(reason: Reason) -> &'static str {
    match reason {
        Reason::SameServiceAndDate => "same-service-and-date",
        Reason::FromDoesNotRun => "from-rests",
        Reason::ToDoesNotRun => "to-rests",
        Reason::StationsDiffer => "stations-differ",
        Reason::NobodyAlights => "nobody-alights",
        Reason::NobodyBoards => "nobody-boards",
        Reason::PairImpossible => "pair-00",
        Reason::NoChangesHere => "flag-0",
        Reason::GapTooShort => "gap-below-needed",
    }
}

fn source_of(source: Source) -> &'static str {
    match source {
        Source::Changes => "changes",
        Source::Stations => "stations",
        Source::XChanges => "xchanges",
    }
}

#[derive(Serialize)]
pub struct Name {
    pub name: String,
}

#[derive(Serialize)]
pub struct TextLines {
    pub lines: String,
}

#[derive(Serialize)]
pub struct Error {
    pub error: String,
}

/// A service as it stands.
#[derive(Serialize)]
pub struct Service {
    pub service: u64,
    pub numbers: Vec<Number>,
    pub validities: Vec<Validity>,
    pub modes: Vec<Mode>,
    pub attributes: Vec<Attribute>,
    pub stops: Vec<Called>,
}

#[derive(Serialize)]
pub struct Number {
    pub company: u64,
    pub name: Option<String>,
    pub number: u64,
    pub first: u64,
    pub last: u64,
}

#[derive(Serialize)]
pub struct Validity {
    pub footnote: u64,
    pub first: u64,
    pub last: u64,
    /// On how many days of validity it runs there.
    pub days: usize,
    /// Whether it runs there on the date that was asked for.
    #[serde(skip_serializing_if = "Option::is_none")]
    pub runs: Option<bool>,
}

#[derive(Serialize)]
pub struct Mode {
    pub mode: String,
    pub name: Option<String>,
    pub first: u64,
    pub last: u64,
}

#[derive(Serialize)]
pub struct Attribute {
    pub attribute: String,
    pub first: u64,
    pub last: u64,
    pub footnote: u64,
}

/// A stop, or a station that is passed, which has no number.
#[derive(Serialize)]
pub struct Called {
    pub stop: Option<u64>,
    pub station: String,
    pub name: Option<String>,
    pub arrival: Option<i64>,
    pub departure: Option<i64>,
    /// The dates on which these fall, where a date was asked for.
    #[serde(skip_serializing_if = "Option::is_none")]
    pub arrival_date: Option<String>,
    #[serde(skip_serializing_if = "Option::is_none")]
    pub departure_date: Option<String>,
    pub alight: bool,
    pub board: bool,
}

#[derive(Serialize)]
pub struct Station {
    pub station: String,
    pub name: Option<String>,
    pub flag: u64,
    pub change_time: u64,
    pub country: String,
    pub zone: u64,
    pub calls: Vec<Caller>,
}

#[derive(Serialize)]
pub struct Caller {
    pub service: u64,
    pub stop: u64,
    pub arrival: Option<i64>,
    pub departure: Option<i64>,
}

/// A date DDMMYYYY, told with its eight digits.
#[derive(Clone, Copy, Debug, PartialEq, Eq)]
pub struct Date(pub u64);

impl Serialize for Date {
    fn serialize<S: Serializer>(&self, serializer: S) -> Result<S::Ok, S::Error> {
        serializer.collect_str(&format_args!("{:08}", self.0))
    }
}

/// The connection sheet of a station on a date.
#[derive(Serialize)]
pub struct Sheet<'a> {
    pub station: String,
    pub name: Option<String>,
    pub date: Date,
    /// The first and the last minute of the day of which arrivals are told.
    pub from: i64,
    pub to: i64,
    /// Departures are told up to so many minutes after an arrival.
    pub within: i64,
    pub delivery: SheetDelivery,
    pub counts: SheetCounts,
    pub arrivals: Vec<Arrival<'a>>,
    /// What the sheet lacks, since the delivery does.
    pub notes: Vec<String>,
}

/// The delivery that a sheet is from.
#[derive(Serialize)]
pub struct SheetDelivery {
    pub version: u64,
    pub first: Date,
    pub last: Date,
    pub amendments: u64,
}

#[derive(Serialize, Default)]
pub struct SheetCounts {
    pub arrivals: usize,
    pub changes: usize,
    pub yes: usize,
    pub no: usize,
    pub unsettled: usize,
    pub refused: usize,
}

impl SheetCounts {
    pub fn count(&mut self, answer: &Result<Change, Refusal>) {
        self.changes += 1;
        *match answer.map(|change| change.verdict) {
            Ok(Verdict::Yes) => &mut self.yes,
            Ok(Verdict::No(_)) => &mut self.no,
            Ok(Verdict::Unsettled) => &mut self.unsettled,
            Err(_) => &mut self.refused,
        } += 1;
    }
}

/// An arrival, and the changes from it.
#[derive(Serialize)]
pub struct Arrival<'a> {
    #[serde(flatten)]
    pub call: &'a SheetCall,
    pub changes: Vec<Onward<'a>>,
}

/// A service at the sheet's station.
#[derive(Serialize)]
pub struct SheetCall {
    pub service: u64,
    pub stop: u64,
    /// The date of its first departure, by which a change is asked for.
    pub service_date: Date,
    /// Minutes on the station's clocks from 0000 of that day, and the date on which
    /// they fall.
    pub local: i64,
    pub date: Option<Date>,
    pub company: u64,
    pub company_code: Option<String>,
    pub company_name: Option<String>,
    pub number: u64,
    pub mode: String,
    /// Where a service that arrives begins.
    #[serde(skip_serializing_if = "Option::is_none")]
    pub origin: Option<Named>,
    /// Where a service that departs ends.
    #[serde(skip_serializing_if = "Option::is_none")]
    pub destination: Option<Named>,
}

#[derive(Serialize)]
pub struct Named {
    pub station: String,
    pub name: Option<String>,
}

/// A change from an arrival to a departure.
pub struct Onward<'a> {
    pub answer: Result<Change, Refusal>,
    /// The line of the source that it rests on.
    pub line: Option<u64>,
    pub to: &'a SheetCall,
}

impl Serialize for Onward<'_> {
    fn serialize<S: Serializer>(&self, serializer: S) -> Result<S::Ok, S::Error> {
        #[derive(Serialize)]
        struct Told<'a, A> {
            #[serde(flatten)]
            answer: A,
            #[serde(skip_serializing_if = "Option::is_none")]
            line: Option<u64>,
            to: &'a SheetCall,
        }
        let Onward { answer, line, to } = *self;
        match answer {
            Ok(change) => Told { answer: Changed::of(&change), line, to }.serialize(serializer),
            Err(refusal) => Told { answer: Refused::nowhere(refusal), line, to }.serialize(serializer),
        }
    }
}

/// One line of JSON.
pub fn json(answer: &impl serde::Serialize) -> String {
    serde_json::to_string(answer).unwrap_or_else(|error| format!("{{\"error\":\"{error}\"}}"))
}
