//! A change: document 01, "The desk's questions", with W2 and W3 of document 02.

use crate::words::{AnswerWords, QuestionWords};

use super::calendar::day_number;
use super::{Plain, Station};

/// The letters of a service's rows.
const NUMBER: u64 = b'%' as u64;
const VALIDITY: u64 = b'-' as u64;
const MODE: u64 = b'&' as u64;
const START: u64 = b'>' as u64;
const CALL: u64 = b'.' as u64;
const INTERVAL: u64 = b'+' as u64;
const END: u64 = b'<' as u64;

/// What a `+` has where nobody alights or boards.
const NO_TIME: u64 = 9999;
/// Wildcards, packed: `*` and blanks.
const ANY_COMPANY: u64 = 0x2a_20_20;
const ANY_MODE: u64 = 0x2a_20_20_20;
const MINUTES_IN_DAY: i64 = 1440;

/// Verdicts, reasons for No and sources, as the answer's words have them.
const NO: u64 = 1;
const YES: u64 = 2;
const UNSETTLED: u64 = 3;
const SAME_SERVICE_AND_DATE: u64 = 1;
const FROM_DOES_NOT_RUN: u64 = 2;
const TO_DOES_NOT_RUN: u64 = 3;
const STATIONS_DIFFER: u64 = 4;
const NOBODY_ALIGHTS: u64 = 5;
const NOBODY_BOARDS: u64 = 6;
const PAIR_IMPOSSIBLE: u64 = 7;
const NO_CHANGES_HERE: u64 = 8;
const GAP_TOO_SHORT: u64 = 9;
const CHANGES: u64 = 1;
const STATIONS: u64 = 2;
const XCHANGES: u64 = 3;

/// The number of a refusal.
type Refused = u64;
const UNKNOWN_SERVICE: Refused = 12;
const NO_SUCH_STOP: Refused = 13;
const NO_SUCH_DAY: Refused = 14;
const NO_PERIOD: Refused = 15;

/// A service at a stop on a day, with what it has on the leg that counts.
struct Ride<'t> {
    service: u64,
    /// Counted from the first day of validity.
    day: i64,
    stop: &'t [u64; 7],
    company: u64,
    mode: u64,
    footnote: u64,
}

/// What a change needs, with its source: minutes, or No for a reason.
enum Needed {
    Minutes(u64, u64),
    No(u64, u64),
}

impl Plain<'_> {
    /// Answers every question, in its turn.
    pub fn sheet(&self, questions: &[QuestionWords], answers: &mut [AnswerWords]) {
        for (question, answer) in questions.iter().zip(answers) {
            *answer = self.change(question).unwrap_or_else(|number| [number, 0, 0, 0, 0, 0, 0, 0]);
        }
    }

    fn change(&self, question: &QuestionWords) -> Result<AnswerWords, Refused> {
        let &[from_service, from_stop, from_date, to_service, to_stop, to_date] = question;
        // One comes by the leg before a stop, and goes on by the leg behind it.
        let from = self.ride(from_service, from_stop, from_stop.wrapping_sub(1), from_date)?;
        let to = self.ride(to_service, to_stop, to_stop, to_date)?;
        if let Some(reason) = self.hurdle(&from, &to) {
            return Ok([0, NO, reason, 0, 0, 0, 0, 0]);
        }
        let station = &self.stations[&from.stop[1]];
        let arrival = self.reference(station, from.day, arrival(from.stop))?;
        let departure = self.reference(station, to.day, departure(to.stop))?;
        let gap = departure - arrival;
        let (source, needed) = match self.needed(station, &from, &to) {
            Needed::Minutes(source, minutes) => (source, minutes),
            Needed::No(source, reason) => return Ok([0, NO, reason, 1, source, 0, 0, gap as u64]),
        };
        let (verdict, reason) = match (source, needed) {
            _ if gap < needed as i64 => (NO, GAP_TOO_SHORT),
            (STATIONS, 99) | (XCHANGES, 999) => (UNSETTLED, 0),
            _ => (YES, 0),
        };
        Ok([0, verdict, reason, 1, source, 1, needed, gap as u64])
    }

    fn ride(&self, service: u64, stop: u64, leg: u64, date: u64) -> Result<Ride<'_>, Refused> {
        let place = *self.services.get(&service).ok_or(UNKNOWN_SERVICE)?;
        let [_, _, lines, stops, ..] = self.timetbls[place];
        if !(1..stops).contains(&leg) {
            return Err(NO_SUCH_STOP);
        }
        let day = day_number(date).map(|day| day - self.first_day);
        let day = day.filter(|day| self.days.contains(day)).ok_or(NO_SUCH_DAY)?;
        let block = &self.timetbls[place + 1..place + lines as usize];
        let (company, block) = on_leg(block, NUMBER, 3, leg);
        let (footnote, block) = on_leg(block, VALIDITY, 2, leg);
        let (mode, block) = on_leg(block, MODE, 2, leg);
        let mut stops = block.iter().filter(|row| matches!(row[0], START | CALL | INTERVAL | END));
        let stop = stops.nth(stop as usize - 1).ok_or(NO_SUCH_STOP)?;
        Ok(Ride { service, day, stop, company, mode, footnote })
    }

    /// The first reason that holds for a No before the gap is asked for.
    fn hurdle(&self, from: &Ride, to: &Ride) -> Option<u64> {
        let runs = |ride: &Ride| is_marked(self.footnotes[&ride.footnote], ride.day);
        if from.service == to.service && from.day == to.day {
            Some(SAME_SERVICE_AND_DATE)
        } else if !runs(from) {
            Some(FROM_DOES_NOT_RUN)
        } else if !runs(to) {
            Some(TO_DOES_NOT_RUN)
        } else if from.stop[1] != to.stop[1] {
            Some(STATIONS_DIFFER)
        } else if arrival(from.stop) == NO_TIME {
            Some(NOBODY_ALIGHTS)
        } else if departure(to.stop) == NO_TIME {
            Some(NOBODY_BOARDS)
        } else {
            None
        }
    }

    /// Minutes from 0000 of the first day of validity, on the reference clock: by the
    /// zone's period on the day of the time itself.
    fn reference(&self, station: &Station, day: i64, time: u64) -> Result<i64, Refused> {
        let minutes = (time / 100 * 60 + time % 100) as i64;
        let own_day = self.first_day + day + minutes / MINUTES_IN_DAY;
        let mut periods = self.zones[station.zone].iter();
        let period = periods.find(|period| period.first_day <= own_day && own_day <= period.last_day);
        let ahead = period.ok_or(NO_PERIOD)?.minutes_ahead;
        Ok(day * MINUTES_IN_DAY + minutes - ahead)
    }

    fn needed(&self, station: &Station, from: &Ride, to: &Ride) -> Needed {
        match self.pairs.get(&(from.stop[1], from.service, to.service)) {
            Some(0) => return Needed::No(CHANGES, PAIR_IMPOSSIBLE),
            Some(_) => return Needed::Minutes(CHANGES, 0),
            None => (),
        }
        if station.flag == 0 {
            return Needed::No(STATIONS, NO_CHANGES_HERE);
        }
        match self.exception(station, from, to) {
            Some(minutes) => Needed::Minutes(XCHANGES, minutes),
            None => Needed::Minutes(STATIONS, station.change_time),
        }
    }

    /// The time of the exception that counts: the highest rank, then the larger time.
    fn exception(&self, station: &Station, from: &Ride, to: &Ride) -> Option<u64> {
        let mut best = None;
        for row in &self.xchanges[station.exceptions.clone()] {
            let &[_, from_company, from_mode, to_company, to_mode, time, footnote] = row;
            let fits = (from_company == ANY_COMPANY || from_company == from.company)
                && (from_mode == ANY_MODE || from_mode == from.mode)
                && (to_company == ANY_COMPANY || to_company == to.company)
                && (to_mode == ANY_MODE || to_mode == to.mode);
            if fits && is_marked(self.xfootnotes[&footnote], from.day) {
                let named = |key, any, weight| if key == any { 0 } else { weight };
                let rank = named(from_company, ANY_COMPANY, 8)
                    + named(from_mode, ANY_MODE, 4)
                    + named(to_company, ANY_COMPANY, 2)
                    + named(to_mode, ANY_MODE, 1);
                best = best.max(Some((rank, time)));
            }
        }
        best.map(|(_, time)| time)
    }
}

/// What a leg's record names, of the records with this letter, which come first; and
/// the rows behind them. The word with the first stop is followed by that with the
/// last.
fn on_leg(block: &[[u64; 7]], letter: u64, first: usize, leg: u64) -> (u64, &[[u64; 7]]) {
    let count = block.iter().take_while(|row| row[0] == letter).count();
    let (records, behind) = block.split_at(count);
    let record = records.iter().find(|row| row[first] <= leg && leg < row[first + 1]);
    (record.map_or(0, |row| row[1]), behind)
}

/// As written, also 9999.
fn arrival(stop: &[u64; 7]) -> u64 {
    stop[2]
}

fn departure(stop: &[u64; 7]) -> u64 {
    if stop[0] == INTERVAL {
        return stop[3];
    }
    stop[2]
}

/// Whether a footnote has a day, counted from the first of validity.
fn is_marked(footnote: &[u64; 14], day: i64) -> bool {
    let day = day as usize;
    footnote[1 + day / 64] >> (day % 64) & 1 == 1
}
