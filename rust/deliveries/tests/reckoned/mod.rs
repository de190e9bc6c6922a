//! The desk's questions answered another way: by reading the texts of an
//! accepted delivery line by line, with no tables between.
#![allow(dead_code)] // Each test program uses a part of this.

use deliveries::amendments::is_one_block;
use deliveries::place::*;
use deliveries::Case;
use second::questions::{Change, Reason, Side, Source, StopTime, Times, Verdict};
use second::{LocalMinutes, ReferenceMinutes};

type Line<'a> = &'a [u8];

/// The texts of a delivery, by lines, and the dates of its validity.
pub struct Desk<'a> {
    texts: [&'a [u8]; 11],
    lines: [Vec<Line<'a>>; 11],
    dates: Vec<u64>,
}

/// The columns of a field, both from 1 and included.
fn field(line: Line, first: usize, last: usize) -> Line {
    &line[first - 1..last]
}

fn number(field: &[u8]) -> u64 {
    std::str::from_utf8(field).expect("digits").parse().expect("a number")
}

fn packed(field: &[u8]) -> u64 {
    field.iter().fold(0, |word, &byte| word * 256 + u64::from(byte))
}

fn lines_of(text: &[u8]) -> Vec<Line<'_>> {
    let mut lines = Vec::new();
    let mut rest = text;
    while let Some(end) = rest.windows(2).position(|pair| pair == b"\r\n") {
        lines.push(&rest[..end]);
        rest = &rest[end + 2..];
    }
    lines
}

/// The day after a date, by the lengths of the months.
fn day_after(date: u64) -> u64 {
    let (day, month, year) = (date / 1_000_000, date / 10_000 % 100, date % 10_000);
    let is_leap = year % 400 == 0 || (year % 4 == 0 && year % 100 != 0);
    let length = match month {
        2 if is_leap => 29,
        2 => 28,
        4 | 6 | 9 | 11 => 30,
        _ => 31,
    };
    match (day == length, month) {
        (false, _) => date + 1_000_000,
        (true, 12) => 1_010_000 + year + 1,
        (true, _) => 1_000_000 + (month + 1) * 10_000 + year,
    }
}

/// A date as a number that grows with time.
fn in_order(date: u64) -> u64 {
    date % 10_000 * 10_000 + date / 10_000 % 100 * 100 + date / 1_000_000
}

fn minutes(field: &[u8]) -> Option<i32> {
    match number(field) {
        9999 => None,
        time => Some((time / 100 * 60 + time % 100) as i32),
    }
}

/// Where on its way a service is at a stop.
struct Stop<'a> {
    station: Line<'a>,
    arrival: Option<i32>,
    departure: Option<i32>,
}

fn stop_of<'a>(line: Line<'a>) -> Option<Stop<'a>> {
    let time = |first: usize| minutes(field(line, first, first + 3));
    let (arrival, departure) = match line[0] {
        b'>' => (None, time(10)),
        b'.' => (time(10), time(10)),
        b'+' => (time(10), time(15)),
        b'<' => (time(10), None),
        _ => return None,
    };
    Some(Stop { station: field(line, 2, 8), arrival, departure })
}

/// A side of a change, found.
struct Ride<'a> {
    block: &'a [Line<'a>],
    stop: Stop<'a>,
    leg: u64,
    day: usize,
}

impl<'a> Desk<'a> {
    pub fn new(case: &'a Case) -> Desk<'a> {
        let texts = case.texts();
        let lines = texts.map(lines_of);
        let header = lines[DELIVERY][0];
        let mut dates = vec![number(field(header, 6, 13))];
        let last = number(field(header, 15, 22));
        while dates[dates.len() - 1] != last {
            dates.push(day_after(dates[dates.len() - 1]));
        }
        Desk { texts, lines, dates }
    }

    /// The lines of a group, its `#` line first; none if no such line is there.
    fn group(&self, file: usize, key: &[u8]) -> Option<&[Line<'a>]> {
        let lines = &self.lines[file];
        let start = (1..lines.len()).find(|&at| lines[at][0] == b'#' && lines[at][1..] == *key)?;
        let count = lines[start + 1..].iter().take_while(|line| line[0] != b'#').count();
        Some(&lines[start..=start + count])
    }

    fn block(&self, service: u64) -> Result<&[Line<'a>], u8> {
        self.group(TIMETBLS, format!("{service:08}").as_bytes()).ok_or(12)
    }

    fn day(&self, date: u64) -> Result<usize, u8> {
        self.dates.iter().position(|&held| held == date).ok_or(14)
    }

    /// What a kind of record says of a leg: the field from column 2 of the one
    /// whose span, in the columns from `at` on, holds the leg.
    fn on_leg(&self, block: &[Line<'a>], letter: u8, leg: u64, last: usize, at: usize) -> Line<'a> {
        let stops = block.iter().filter(|line| b">.+<".contains(&line[0])).count() as u64;
        let stop = |written: u64| match written {
            0 => 1,
            999 => stops,
            stop => stop,
        };
        let ends = |line: Line| [at, at + 4].map(|column| stop(number(field(line, column, column + 2))));
        let spans = |[first, last]: [u64; 2]| first <= leg && leg < last;
        let holds = |line: &&Line<'a>| line[0] == letter && spans(ends(line));
        field(block.iter().find(holds).expect("a record for the leg"), 2, last)
    }

    fn runs(&self, block: &[Line<'a>], leg: u64, day: usize) -> bool {
        let footnote = self.on_leg(block, b'-', leg, 6, 8);
        self.group(FOOTNOTE, footnote).expect("a held footnote")[1][day] == b'1'
    }

    fn station(&self, short_name: Line) -> Line<'a> {
        let mut rows = self.lines[STATIONS][1..].iter();
        rows.find(|row| field(row, 3, 9) == short_name).expect("a held station")
    }

    /// The date on which a time of a service day falls: the next for each time that
    /// the hands have gone round. The last of the calendar has no next.
    fn date_of(&self, day: usize, time: i32) -> Option<u64> {
        let next = |date: u64| (date != 31_129_999).then(|| day_after(date));
        (0..time / 1440).try_fold(self.dates[day], |date, _| next(date))
    }

    /// A station's time on the reference clock; 15 if no period holds the day on
    /// which it falls.
    fn reference(&self, station: Line, day: usize, time: i32) -> Result<i32, u8> {
        let zone = self.group(TIMEZONE, field(self.station(station), 22, 25)).expect("a held zone");
        let date = in_order(self.date_of(day, time).ok_or(15)?);
        let order = |line: Line, first: usize| in_order(number(field(line, first, first + 7)));
        let holds = |line: &&Line| order(line, 5) <= date && date <= order(line, 14);
        let period = zone[1..].iter().find(holds).ok_or(15)?;
        let hours = 60 * number(field(period, 2, 3)) as i32;
        Ok(if period[0] == b'+' { time - hours } else { time + hours })
    }

    pub fn running_day(&self, service: u64, leg: u64, date: u64) -> Result<bool, u8> {
        let block = self.block(service)?;
        let stops = block.iter().filter_map(|line| stop_of(line)).count() as u64;
        if leg == 0 || leg >= stops {
            return Err(13);
        }
        let day = self.day(date)?;
        Ok(self.runs(block, leg, day))
    }

    fn stop(&self, block: &'a [Line<'a>], stop: u64) -> Result<Stop<'a>, u8> {
        let before = stop.checked_sub(1).and_then(|before| usize::try_from(before).ok()).ok_or(13)?;
        block.iter().filter_map(|line| stop_of(line)).nth(before).ok_or(13)
    }

    pub fn stop_time(&'a self, service: u64, stop: u64, date: u64) -> Result<StopTime, u8> {
        let Stop { station, arrival, departure } = self.stop(self.block(service)?, stop)?;
        let day = self.day(date)?;
        let local = Times { arrival: arrival.map(LocalMinutes), departure: departure.map(LocalMinutes) };
        let reference = |time: Option<i32>| match time {
            Some(time) => self.reference(station, day, time).map(|time| Some(ReferenceMinutes(time))),
            None => Ok(None),
        };
        let reference = Times { arrival: reference(arrival)?, departure: reference(departure)? };
        Ok(StopTime { station: packed(station), local, reference })
    }

    /// One alights by the leg before the stop and boards for the leg after it,
    /// which the first and the last stop do not have.
    fn ride(&'a self, side: Side, alights: bool) -> Result<Ride<'a>, u8> {
        let block = self.block(side.service)?;
        let stop = self.stop(block, side.stop)?;
        let stops = block.iter().filter_map(|line| stop_of(line)).count() as u64;
        let (leg, lacking) = if alights { (side.stop - 1, 1) } else { (side.stop, stops) };
        if side.stop == lacking {
            return Err(13);
        }
        Ok(Ride { block, stop, leg, day: self.day(side.date)? })
    }

    pub fn change(&'a self, from: Side, to: Side) -> Result<Change, u8> {
        let a = self.ride(from, true)?;
        let b = self.ride(to, false)?;
        let no = |reason| Change { verdict: Verdict::No(reason), gap: None, source: None, needed: None };
        if (from.service, from.date) == (to.service, to.date) {
            return Ok(no(Reason::SameServiceAndDate));
        }
        let [a_runs, b_runs] = [&a, &b].map(|ride| self.runs(ride.block, ride.leg, ride.day));
        let reasons = [
            (!a_runs, Reason::FromDoesNotRun),
            (!b_runs, Reason::ToDoesNotRun),
            (a.stop.station != b.stop.station, Reason::StationsDiffer),
            (a.stop.arrival.is_none(), Reason::NobodyAlights),
            (b.stop.departure.is_none(), Reason::NobodyBoards),
        ];
        if let Some((_, reason)) = reasons.into_iter().find(|(holds, _)| *holds) {
            return Ok(no(reason));
        }
        let arrival = self.reference(a.stop.station, a.day, a.stop.arrival.unwrap())?;
        let departure = self.reference(b.stop.station, b.day, b.stop.departure.unwrap())?;
        let gap = departure - arrival + 1440 * (b.day as i32 - a.day as i32);
        let (source, needed) = self.needed(from, &a, to, &b);
        let verdict = match (source, needed) {
            (_, Err(reason)) => Verdict::No(reason),
            (_, Ok(needed)) if gap < needed => Verdict::No(Reason::GapTooShort),
            (Source::Stations, Ok(99)) | (Source::XChanges, Ok(999)) => Verdict::Unsettled,
            _ => Verdict::Yes,
        };
        Ok(Change {
            verdict,
            gap: Some(gap),
            source: Some(source),
            needed: needed.ok().map(|time| time as u16),
        })
    }

    /// Where the needed time comes from, and the time or why there is none.
    fn needed(&self, from: Side, a: &Ride<'a>, to: Side, b: &Ride<'a>) -> (Source, Result<i32, Reason>) {
        let station = a.stop.station;
        let pair = format!("-{:08},{:08},", from.service, to.service);
        let pairs = self.group(CHANGES, station).unwrap_or(&[]);
        match pairs.iter().find_map(|line| line.strip_prefix(pair.as_bytes())) {
            Some(b"00") => return (Source::Changes, Err(Reason::PairImpossible)),
            Some(_) => return (Source::Changes, Ok(0)),
            None => (),
        }
        let row = self.station(station);
        if row[0] == b'0' {
            return (Source::Stations, Err(Reason::NoChangesHere));
        }
        match self.best_row(station, a, b) {
            Some(time) => (Source::XChanges, Ok(time)),
            None => (Source::Stations, Ok(number(field(row, 11, 12)) as i32)),
        }
    }

    /// The time of the row with the highest rank, then the larger time.
    fn best_row(&self, station: Line, a: &Ride<'a>, b: &Ride<'a>) -> Option<i32> {
        let company = |ride: &Ride<'a>| self.on_leg(ride.block, b'%', ride.leg, 4, 20);
        let mode = |ride: &Ride<'a>| self.on_leg(ride.block, b'&', ride.leg, 5, 7);
        let keys = [(2, 4, company(a)), (6, 9, mode(a)), (11, 13, company(b)), (15, 18, mode(b))];
        let mut best = None;
        for row in self.group(XCHANGES, station)?.iter().skip(1) {
            let explicit = keys.map(|(first, last, _)| field(row, first, last).trim_ascii_end() != b"*");
            let fits = keys
                .iter()
                .zip(explicit)
                .all(|((first, last, key), explicit)| !explicit || field(row, *first, *last) == *key);
            let footnote = self.group(XFOOTNOTE, field(row, 24, 28)).expect("a held footnote");
            if fits && footnote[1][a.day] == b'1' {
                let rank = explicit.iter().fold(0, |rank, &explicit| rank * 2 + i32::from(explicit));
                best = best.max(Some((rank, number(field(row, 20, 22)) as i32)));
            }
        }
        best.map(|(_, time)| time)
    }

    /// The name of a station.
    pub fn name(&self, short_name: u64) -> Result<Line<'a>, u8> {
        let mut rows = self.lines[STATIONS][1..].iter();
        rows.find(|row| packed(field(row, 3, 9)) == short_name).map(|row| field(row, 44, 73)).ok_or(17)
    }

    /// The lines of a service: the block, or what stands in TIMETBLS.
    pub fn lines_now(&self, service: u64, block: &[u8]) -> Result<Vec<u8>, u8> {
        if is_one_block(service, block) {
            return Ok(block.to_vec());
        }
        let text = self.texts[TIMETBLS];
        let opening = format!("\r\n#{service:08}\r\n").into_bytes();
        let start = text.windows(opening.len()).position(|part| part == opening).ok_or(12)? + 2;
        let end = text[start..].windows(3).position(|part| part == b"\r\n#");
        Ok(text[start..end.map_or(text.len(), |end| start + end + 2)].to_vec())
    }
}
