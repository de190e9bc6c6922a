//! The desk's questions.

use crate::amend::{is_one_block, opens};
use crate::card;
use crate::columns::columns;
use crate::lines::Lines;
use crate::refusals::{Fault, Refusal};
use crate::store::{Possibility, Service, Stop, Store, XChange};
use crate::values::{pack, Clock, Day, LocalMinutes, ReferenceMinutes};

const MINUTES_IN_DAY: i32 = 1440;

/// Whether a service runs on a leg on a date.
pub fn running_day(store: &Store, service: u64, leg: u64, date: u64) -> Result<bool, Refusal> {
    let service = find_service(store, service)?;
    let leg = leg_of(service, leg)?;
    let (_, offset) = find_day(store, date)?;
    Ok(runs(store, service, leg, offset))
}

/// Arrival and departure at a stop, each perhaps none.
#[derive(Clone, Copy, Debug, PartialEq, Eq)]
pub struct Times<T> {
    pub arrival: Option<T>,
    pub departure: Option<T>,
}

/// The answer to a stop time; the station is its packed short name.
#[derive(Clone, Copy, Debug, PartialEq, Eq)]
pub struct StopTime {
    pub station: u64,
    pub local: Times<LocalMinutes>,
    pub reference: Times<ReferenceMinutes>,
}

/// The times of a stop, each by the clocks of its own day. It does not ask
/// whether the service runs.
pub fn stop_time(store: &Store, service: u64, stop: u64, date: u64) -> Result<StopTime, Refusal> {
    let service = find_service(store, service)?;
    let stop = service.stop(stop).ok_or(Fault::NoSuchStop.nowhere())?;
    let (day, _) = find_day(store, date)?;
    let local =
        Times { arrival: stop.arrival.map(Clock::minutes), departure: stop.departure.map(Clock::minutes) };
    // A time that the stop does not have falls on no day and asks for no period.
    let reference = |time: Option<LocalMinutes>| time.map(|time| reference_at(store, stop, day, time));
    Ok(StopTime {
        station: store.stations.row(stop.station).short_name,
        local,
        reference: Times {
            arrival: reference(local.arrival).transpose()?,
            departure: reference(local.departure).transpose()?,
        },
    })
}

/// One side of a change: a service at a stop on its date.
#[derive(Clone, Copy, Debug, PartialEq, Eq)]
pub struct Side {
    pub service: u64,
    pub stop: u64,
    pub date: u64,
}

#[derive(Clone, Copy, Debug, PartialEq, Eq)]
pub enum Verdict {
    Yes,
    No(Reason),
    Unsettled,
}

/// Why not, in the order in which the reasons are tried.
#[derive(Clone, Copy, Debug, PartialEq, Eq)]
pub enum Reason {
    SameServiceAndDate,
    FromDoesNotRun,
    ToDoesNotRun,
    StationsDiffer,
    NobodyAlights,
    NobodyBoards,
    /// The pair is in CHANGES with 00.
    PairImpossible,
    /// The station's flag is 0.
    NoChangesHere,
    GapTooShort,
}

/// The file that the needed time, or the No in its stead, comes from.
#[derive(Clone, Copy, Debug, PartialEq, Eq)]
pub enum Source {
    Changes,
    Stations,
    XChanges,
}

/// The answer to a change, as far as it was reached.
#[derive(Clone, Copy, Debug, PartialEq, Eq)]
pub struct Change {
    pub verdict: Verdict,
    pub gap: Option<i32>,
    pub source: Option<Source>,
    pub needed: Option<u16>,
}

impl Change {
    /// A No before the gap is reached.
    fn no(reason: Reason) -> Change {
        Change { verdict: Verdict::No(reason), gap: None, source: None, needed: None }
    }

    fn with_gap(gap: i32, needed: Needed) -> Change {
        let (source, time) = match needed {
            Needed::Forbidden(source, reason) => {
                let verdict = Verdict::No(reason);
                return Change { verdict, gap: Some(gap), source: Some(source), needed: None };
            }
            Needed::Minutes(source, time) => (source, time),
        };
        let verdict = match (source, time) {
            _ if gap < i32::from(time) => Verdict::No(Reason::GapTooShort),
            (Source::Stations, 99) | (Source::XChanges, 999) => Verdict::Unsettled,
            _ => Verdict::Yes,
        };
        Change { verdict, gap: Some(gap), source: Some(source), needed: Some(time) }
    }
}

/// Whether one can change from one service to another.
pub fn change(store: &Store, from: Side, to: Side) -> Result<Change, Refusal> {
    // One alights from stop 2 on, coming along the leg before the stop, and
    // boards up to the last stop but one, going on along the leg after it.
    let from = Ride::find(store, from, |stop| stop.checked_sub(1))?;
    let to = Ride::find(store, to, Some)?;
    let (arrival, departure) = match alight_and_board(store, &from, &to) {
        Ok(clocks) => clocks,
        Err(reason) => return Ok(Change::no(reason)),
    };
    let arrival = reference_at(store, from.stop, from.day, arrival.minutes())?;
    let departure = reference_at(store, to.stop, to.day, departure.minutes())?;
    let gap = departure.0 - arrival.0 + to.day.days_after(from.day) * MINUTES_IN_DAY;
    Ok(Change::with_gap(gap, needed(store, &from, &to)))
}

/// One side of a change as found in the store, with the leg that counts.
struct Ride<'s> {
    service: &'s Service,
    stop: Stop,
    leg: u16,
    day: Day,
    offset: usize,
}

impl<'s> Ride<'s> {
    fn find(store: &'s Store, side: Side, leg_at: impl Fn(u64) -> Option<u64>) -> Result<Self, Refusal> {
        let service = find_service(store, side.service)?;
        let leg = leg_at(side.stop).ok_or(Fault::NoSuchStop.nowhere())?;
        let leg = leg_of(service, leg)?;
        let stop = service.stop(side.stop).ok_or(Fault::NoSuchStop.nowhere())?;
        let (day, offset) = find_day(store, side.date)?;
        Ok(Ride { service, stop, leg, day, offset })
    }

    fn runs(&self, store: &Store) -> bool {
        runs(store, self.service, self.leg, self.offset)
    }
}

/// The clocks of arrival and departure, or the first reason for a No.
fn alight_and_board(store: &Store, from: &Ride, to: &Ride) -> Result<(Clock, Clock), Reason> {
    if from.service.number == to.service.number && from.day == to.day {
        return Err(Reason::SameServiceAndDate);
    }
    if !from.runs(store) {
        return Err(Reason::FromDoesNotRun);
    }
    if !to.runs(store) {
        return Err(Reason::ToDoesNotRun);
    }
    if from.stop.station != to.stop.station {
        return Err(Reason::StationsDiffer);
    }
    let arrival = from.stop.arrival.ok_or(Reason::NobodyAlights)?;
    let departure = to.stop.departure.ok_or(Reason::NobodyBoards)?;
    Ok((arrival, departure))
}

/// What the first rule that applies says.
enum Needed {
    Forbidden(Source, Reason),
    Minutes(Source, u16),
}

fn needed(store: &Store, from: &Ride, to: &Ride) -> Needed {
    let station = store.stations.row(from.stop.station);
    let pair = (from.stop.station, from.service.number, to.service.number);
    let possibility = store.changes.as_ref().and_then(|changes| changes.pairs.get(&pair));
    match possibility {
        Some(Possibility::Impossible) => return Needed::Forbidden(Source::Changes, Reason::PairImpossible),
        Some(Possibility::Possible | Possibility::Guaranteed) => return Needed::Minutes(Source::Changes, 0),
        None => (),
    }
    if station.flag == 0 {
        return Needed::Forbidden(Source::Stations, Reason::NoChangesHere);
    }
    match best_xchange(store, from, to) {
        Some(time) => Needed::Minutes(Source::XChanges, time),
        None => Needed::Minutes(Source::Stations, station.change_time),
    }
}

/// The time of the best row: the highest place on the desk's card, then the
/// larger time.
fn best_xchange(store: &Store, from: &Ride, to: &Ride) -> Option<u16> {
    let (xchanges, xfootnotes) = store.xchanges.as_ref().zip(store.xfootnotes.as_ref())?;
    let place = xchanges.find(store.stations.row(from.stop.station).short_name)?;
    let keys = Keys {
        from_company: from.service.company_on(from.leg),
        from_mode: from.service.mode_on(from.leg),
        to_company: to.service.company_on(to.leg),
        to_mode: to.service.mode_on(to.leg),
    };
    let applies = |row: &&XChange| keys.fit(row) && xfootnotes.row(row.footnote).vector.has(from.offset);
    let rows = xchanges.row(place).rows.iter();
    rows.filter(applies).map(|row| (card::place(named(row)), row.time)).max().map(|(_, time)| time)
}

/// The companies and modes of the two services on the legs of the change.
struct Keys {
    from_company: u16,
    from_mode: u32,
    to_company: u16,
    to_mode: u32,
}

impl Keys {
    fn fit(&self, row: &XChange) -> bool {
        row.from_company.is_none_or(|company| company == self.from_company)
            && row.from_mode.is_none_or(|mode| mode == self.from_mode)
            && row.to_company.is_none_or(|company| company == self.to_company)
            && row.to_mode.is_none_or(|mode| mode == self.to_mode)
    }
}

/// Which of a row's four keys are named, and no wildcards.
fn named(row: &XChange) -> [bool; 4] {
    [row.from_company.is_some(), row.from_mode.is_some(), row.to_company.is_some(), row.to_mode.is_some()]
}

/// The name, columns 44 to 73, of the first row of STATIONS with this packed
/// short name. The text need not have been loaded: only lengths are tested.
pub fn name(stations: &[u8], short_name: u64) -> Result<&[u8], Refusal> {
    let rows = Lines::of(stations).skip(1).map(|line| line.text).filter(|text| text.len() == 73);
    let mut named = rows.filter(|text| pack(columns(text, 3, 9)) == short_name);
    named.next().map(|text| columns(text, 44, 73)).ok_or(Fault::NoSuchStation.nowhere())
}

/// The lines of a service as they stand now: the block if it amends that
/// service, else a part of the text.
pub fn lines_now<'a>(text: &'a [u8], block: &'a [u8], service: u64) -> Result<&'a [u8], Refusal> {
    if is_one_block(service, block) {
        return Ok(block);
    }
    let mut lines = Lines::of(text);
    loop {
        let from_here = lines.rest();
        let line = lines.next().ok_or(Fault::UnknownService.nowhere())?;
        if opens(service, line.text) {
            while lines.next_in_group().is_some() {}
            return Ok(&from_here[..from_here.len() - lines.rest().len()]);
        }
    }
}

fn find_service(store: &Store, number: u64) -> Result<&Service, Refusal> {
    store.service(number).ok_or(Fault::UnknownService.nowhere())
}

/// A leg of the service: 1 to n - 1.
fn leg_of(service: &Service, leg: u64) -> Result<u16, Refusal> {
    if (1..u64::from(service.stops)).contains(&leg) {
        return Ok(leg as u16);
    }
    Err(Fault::NoSuchStop.nowhere())
}

/// The day of a date within validity, and how many days it is after the first.
fn find_day(store: &Store, date: u64) -> Result<(Day, usize), Refusal> {
    let day = Day::from_written(date);
    let found = day.and_then(|day| Some((day, store.header.offset(day)?)));
    found.ok_or(Fault::NotInValidity.nowhere())
}

fn runs(store: &Store, service: &Service, leg: u16, offset: usize) -> bool {
    store.footnotes.row(service.footnote_on(leg)).vector.has(offset)
}

/// A time at a stop on the reference clock, from 0000 of the service day: by the
/// period of the stop's zone that holds the day of the time itself, since the
/// clocks may change on the way.
fn reference_at(
    store: &Store,
    stop: Stop,
    service_day: Day,
    time: LocalMinutes,
) -> Result<ReferenceMinutes, Refusal> {
    let zone = store.zones.row(store.stations.row(stop.station).zone);
    let day = day_of(time, service_day);
    let period = zone.periods.iter().find(|period| period.holds(day)).ok_or(Fault::NoZonePeriod.nowhere())?;
    Ok(period.reference(time))
}

/// The day on which a time falls, by its place in the count of all days: one
/// after the year 9999 has no date.
fn day_of(time: LocalMinutes, service_day: Day) -> u32 {
    service_day.count().saturating_add_signed(time.0.div_euclid(MINUTES_IN_DAY))
}
