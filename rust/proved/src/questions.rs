//! Soundness and the desk's questions. Tables are read where they stand.

use std::fmt::Debug;

use crate::{archive, FILES, UNANSWERED};

/// Why a question is not answered: the number of document 01. It has no place.
#[derive(Clone, Copy, Debug, PartialEq, Eq)]
pub struct Refusal(pub u64);

/// Whether a service runs on a leg on a date.
#[derive(Clone, Copy, Debug, PartialEq, Eq)]
pub enum Running {
    Runs,
    Rests,
}

/// Minutes on the clocks of a station's zone, from 0000 of the service day.
#[derive(Clone, Copy, Debug, PartialEq, Eq, PartialOrd, Ord)]
pub struct LocalMinutes(pub i32);

/// Minutes on the reference clock, from 0000 of the service day.
#[derive(Clone, Copy, Debug, PartialEq, Eq, PartialOrd, Ord)]
pub struct ReferenceMinutes(pub i32);

/// An arrival or a departure by both clocks.
#[derive(Clone, Copy, Debug, PartialEq, Eq)]
pub struct Time {
    pub local: LocalMinutes,
    pub reference: ReferenceMinutes,
}

/// When a service calls at a stop; the station is its packed short name.
#[derive(Clone, Copy, Debug, PartialEq, Eq)]
pub struct StopTimes {
    pub station: u64,
    pub arrival: Option<Time>,
    pub departure: Option<Time>,
}

/// One side of a change: a service at a stop on its date, a number DDMMYYYY.
#[derive(Clone, Copy, Debug, PartialEq, Eq)]
pub struct Side {
    pub service: u64,
    pub stop: u64,
    pub date: u64,
}

/// Whether a change holds, and gap, source and needed time as far as reached.
#[derive(Clone, Copy, Debug, PartialEq, Eq)]
pub struct Change {
    pub verdict: Verdict,
    pub gap: Option<i32>,
    pub source: Option<Source>,
    pub needed: Option<u64>,
}

impl Change {
    /// How many minutes the gap has more than are needed, where both are reached.
    pub fn spare(&self) -> Option<i64> {
        let needed = i64::try_from(self.needed?).ok()?;
        Some(i64::from(self.gap?) - needed)
    }
}

#[derive(Clone, Copy, Debug, PartialEq, Eq)]
pub enum Verdict {
    No(Reason),
    Yes,
    Unsettled,
}

/// Why not, in document 01's order.
#[derive(Clone, Copy, Debug, PartialEq, Eq)]
pub enum Reason {
    SameServiceAndDate,
    FromDoesNotRun,
    ToDoesNotRun,
    StationsDiffer,
    NobodyAlights,
    NobodyBoards,
    /// The pair is in CHANGES with 00.
    PairImpossible,
    /// The station's flag is 0.
    NoChangesHere,
    GapTooShort,
}

/// The file that the needed time, or the No in its stead, comes from.
#[derive(Clone, Copy, Debug, PartialEq, Eq)]
pub enum Source {
    Changes,
    Stations,
    XChanges,
}

/// The four keys of an exception as the table of XCHANGES holds them (docs/TABLES.md):
/// a company's number or the packed field `*` and two blanks, a mode's packed field.
#[derive(Clone, Copy, Debug, PartialEq, Eq)]
pub struct Keys {
    pub from_company: u64,
    pub from_mode: u64,
    pub to_company: u64,
    pub to_mode: u64,
}

/// The words of a question on a sheet: service, stop and date of the side that one
/// changes from, then those of the other.
pub const QUESTION_WORDS: usize = 6;

/// The words of an answer on a sheet: the seven of a single change (the refusal's
/// number; verdict; why not; whether the gap was reached; source; whether the needed
/// time was reached; that time), then the gap's two's complement.
pub const ANSWER_WORDS: usize = 8;

/// How many patterns stand on the desk's card.
pub const PATTERNS: u64 = 16;

/// Whether eleven tables are sound: what a load could have left.
pub fn is_sound(tables: [&[u64]; FILES]) -> bool {
    let number = archive::is_sound(tables);
    let sound = match number {
        0 => Some(true),
        16 => Some(false),
        _ => None,
    };
    by_contract(sound, number)
}

/// Whether a service runs on a leg on a date. 16, then 12, 13, 14.
pub fn running_day(tables: [&[u64]; FILES], service: u64, leg: u64, date: u64) -> Result<Running, Refusal> {
    let mut words = [UNANSWERED; 2];
    archive::running_day(tables, service, leg, date, &mut words);
    let answer = match words {
        [0, 1] => Some(Ok(Running::Runs)),
        [0, 2] => Some(Ok(Running::Rests)),
        [number, 0] if number != 0 => Some(Err(Refusal(number))),
        _ => None,
    };
    by_contract(answer, words)
}

/// When a service calls at a stop on a date, whether or not it runs then; each time
/// by its zone's clocks on the day that it falls on. 16, then 12, 13, 14, 15.
pub fn stop_time(tables: [&[u64]; FILES], service: u64, stop: u64, date: u64) -> Result<StopTimes, Refusal> {
    let (mut words, mut minutes) = ([UNANSWERED; 4], [i32::MIN; 4]);
    archive::stop_time(tables, service, stop, date, &mut words, &mut minutes);
    by_contract(stop_times(words, minutes), (words, minutes))
}

fn stop_times(words: [u64; 4], minutes: [i32; 4]) -> Option<Result<StopTimes, Refusal>> {
    let [number, station, arrives, departs] = words;
    if number != 0 {
        return (words[1..] == [0; 3] && minutes == [0; 4]).then_some(Err(Refusal(number)));
    }
    let [arrival, arrival_reference, departure, departure_reference] = minutes;
    let time =
        |(local, reference)| Time { local: LocalMinutes(local), reference: ReferenceMinutes(reference) };
    Some(Ok(StopTimes {
        station,
        arrival: reached(arrives, (arrival, arrival_reference))?.map(time),
        departure: reached(departs, (departure, departure_reference))?.map(time),
    }))
}

/// Whether one can change from one service to another. 16, then 12, 13, 14 for
/// each side, and 15, by the day that either time falls on.
pub fn change(tables: [&[u64]; FILES], from: Side, to: Side) -> Result<Change, Refusal> {
    change_of(change_words(tables, from, to))
}

/// The same in words, as a sheet has them.
pub fn change_words(tables: [&[u64]; FILES], from: Side, to: Side) -> [u64; ANSWER_WORDS] {
    let (mut words, mut gap) = ([UNANSWERED; 7], [i32::MIN; 1]);
    archive::change(tables, from, to, &mut words, &mut gap);
    let [number, verdict, reason, with_gap, source, with_needed, needed] = words;
    // The sign goes along.
    [number, verdict, reason, with_gap, source, with_needed, needed, i64::from(gap[0]) as u64]
}

/// Answers every change by one call, which tests the tables once; 16 where they are
/// not sound. A change that is refused does not stop the others.
pub fn sheet(
    tables: [&[u64]; FILES],
    changes: &[(Side, Side)],
) -> Result<Vec<Result<Change, Refusal>>, Refusal> {
    let questions: Vec<u64> = changes.iter().flat_map(question_words).collect();
    let mut answers = vec![UNANSWERED; changes.len() * ANSWER_WORDS];
    let number = sheet_words(tables, &questions, &mut answers);
    let answered = match number {
        0 => Some(Ok(answers.as_chunks().0.iter().copied().map(change_of).collect())),
        16 => Some(Err(Refusal(number))),
        // There is room for every answer.
        _ => None,
    };
    by_contract(answered, number)
}

fn question_words((from, to): &(Side, Side)) -> [u64; QUESTION_WORDS] {
    [from.service, from.stop, from.date, to.service, to.stop, to.date]
}

/// The same in words as they stand: a list has as many entries as its length divided
/// by an entry's words, rounded down. Answers 0, 16, or 23 where there is room for
/// fewer answers than questions; both leave every word of the answers as it was, and
/// words behind the answers stay in any case.
pub fn sheet_words(tables: [&[u64]; FILES], questions: &[u64], answers: &mut [u64]) -> u64 {
    let number = archive::sheet(tables, questions, answers);
    by_contract(matches!(number, 0 | 16 | 23).then_some(number), number)
}

fn change_of(words: [u64; ANSWER_WORDS]) -> Result<Change, Refusal> {
    by_contract(change_in(words), words)
}

fn change_in(words: [u64; ANSWER_WORDS]) -> Option<Result<Change, Refusal>> {
    let [number, verdict, reason, with_gap, source, with_needed, needed, gap] = words;
    if number != 0 {
        return (words[1..] == [0; 7]).then_some(Err(Refusal(number)));
    }
    let gap = i32::try_from(gap as i64).ok()?;
    Some(Ok(Change {
        verdict: verdict_of(verdict, reason)?,
        gap: reached(with_gap, gap)?,
        source: source_of(source)?,
        needed: reached(with_needed, needed)?,
    }))
}

fn verdict_of(verdict: u64, reason: u64) -> Option<Verdict> {
    match (verdict, reason) {
        (1, _) => reason_of(reason).map(Verdict::No),
        (2, 0) => Some(Verdict::Yes),
        (3, 0) => Some(Verdict::Unsettled),
        _ => None,
    }
}

fn reason_of(word: u64) -> Option<Reason> {
    Some(match word {
        1 => Reason::SameServiceAndDate,
        2 => Reason::FromDoesNotRun,
        3 => Reason::ToDoesNotRun,
        4 => Reason::StationsDiffer,
        5 => Reason::NobodyAlights,
        6 => Reason::NobodyBoards,
        7 => Reason::PairImpossible,
        8 => Reason::NoChangesHere,
        9 => Reason::GapTooShort,
        _ => return None,
    })
}

fn source_of(word: u64) -> Option<Option<Source>> {
    Some(match word {
        0 => None,
        1 => Some(Source::Changes),
        2 => Some(Source::Stations),
        3 => Some(Source::XChanges),
        _ => return None,
    })
}

/// The rank of an exception: the place of its keys' pattern on the desk's card, from
/// 0, all wildcards, to 15, none. Nothing is asked of the keys.
pub fn rank(keys: Keys) -> u64 {
    let place = archive::rank(keys);
    by_contract((place < PATTERNS).then_some(place), place)
}

/// The name of the first row of a STATIONS file with this packed short name, a
/// part of the file. Else 17.
pub fn name(stations: &[u8], short: u64) -> Result<&[u8], Refusal> {
    let mut words = [UNANSWERED; 3];
    archive::name(stations, short, &mut words);
    let answer = match words {
        [0, from, to] => part(stations, from, to).map(Ok),
        [number, 0, 0] => Some(Err(Refusal(number))),
        _ => None,
    };
    by_contract(answer, words)
}

/// The lines of a service as they stand now: the block if it amends that
/// service, else a part of the TIMETBLS text. Else 12.
pub fn lines_now<'a>(text: &'a [u8], block: &'a [u8], service: u64) -> Result<&'a [u8], Refusal> {
    let mut words = [UNANSWERED; 4];
    archive::lines_now(text, block, service, &mut words);
    let answer = match words {
        [0, 0, from, to] => part(text, from, to).map(Ok),
        [0, 1, from, to] => part(block, from, to).map(Ok),
        [number, 0, 0, 0] => Some(Err(Refusal(number))),
        _ => None,
    };
    by_contract(answer, words)
}

fn part(text: &[u8], from: u64, to: u64) -> Option<&[u8]> {
    text.get(usize::try_from(from).ok()?..usize::try_from(to).ok()?)
}

/// What a flag of 1 says is there; a flag of 0 has zeros beside it.
fn reached<T: Default + PartialEq>(flag: u64, value: T) -> Option<Option<T>> {
    match flag {
        1 => Some(Some(value)),
        0 if value == T::default() => Some(None),
        _ => None,
    }
}

/// The answer, of words that the archive's contracts allow. No others come from
/// it; should the archive be another than the one proved, nothing is made of
/// them.
fn by_contract<T>(answer: Option<T>, words: impl Debug) -> T {
    answer.unwrap_or_else(|| panic!("The archive answers what its contracts shut out: {words:?}."))
}
