//! Which arrivals and departures a sheet has, by one pass over the services.
//!
//! Rows may be looked at in any tables; what is found counts where the tables are
//! sound and the proved answers fit it. Days are counted from 1 January 1600.

use std::collections::HashMap;

use proved::Side;

use crate::dates::{self, MINUTES_IN_DAY};
use crate::files::place::FOOTNOTE;
use crate::tables::{has, Period, Service, Station, Tables};

/// What a sheet is asked for.
#[derive(Clone, Copy)]
pub struct Wanted {
    /// The station's packed short name.
    pub station: u64,
    pub date: u64,
    /// The first and the last minute of the day of which arrivals are wanted.
    pub from: i64,
    pub to: i64,
    /// Departures are wanted up to so many minutes after an arrival.
    pub within: i64,
}

/// A service at the station: an arrival, or a departure.
#[derive(Clone, Copy, Debug)]
pub struct Call {
    /// Service, stop and service day, as a change asks for them.
    pub side: Side,
    /// Minutes on the station's clocks from 0000 of the service day.
    pub local: i64,
    /// Minutes on the reference clock from 0000 of the sheet's date.
    pub reference: i64,
    /// What it is on the leg by which it arrives or departs.
    pub company: u64,
    pub number: u64,
    pub mode: u64,
    /// The station where the service begins, of an arrival; where it ends, of a
    /// departure.
    pub end: u64,
}

impl Call {
    /// By the time, then by service and stop.
    fn turn(&self) -> (i64, u64, u64) {
        (self.reference, self.side.service, self.side.stop)
    }
}

/// What the tables have for a sheet.
pub struct Found {
    /// By the time of arrival.
    pub arrivals: Vec<Call>,
    /// By the time of departure, on the reference clock.
    pub departures: Vec<Call>,
    within: i64,
    /// Whether services of the days before the first would call here on that day, by
    /// how far services of this delivery reach.
    pub lacks_before: bool,
    /// Whether departures are wanted of days after the last.
    pub lacks_behind: bool,
}

impl Found {
    /// None where the date is no day of validity.
    pub fn of(tables: &Tables, station: &Station, wanted: &Wanted) -> Option<Found> {
        let search = Search::of(tables, station, wanted)?;
        let (mut arrivals, mut departures, mut reach) = (Vec::new(), Vec::new(), 0);
        for service in tables.services().filter(|service| service.names(station.code)) {
            let route = Route::of(service);
            let here = service.stops().zip(1..).filter(|(stop, _)| stop.station == station.code);
            for (stop, number) in here {
                let [arrival, departure] = [stop.arrival, stop.departure].map(|time| time.and_then(minutes));
                arrivals.extend(arrival.and_then(|local| search.arrival(&route, number, local)));
                departures
                    .extend(departure.into_iter().flat_map(|local| search.departures(&route, number, local)));
                reach = [arrival, departure].into_iter().flatten().fold(reach, i64::max);
            }
        }
        arrivals.sort_by_key(Call::turn);
        departures.sort_by_key(Call::turn);
        let last = arrivals.last().map(|call| call.reference + wanted.within);
        Some(Found {
            arrivals,
            departures,
            within: wanted.within,
            lacks_before: search.date - reach / MINUTES_IN_DAY < search.days.first,
            lacks_behind: last.is_some_and(|last| search.reference(search.days.last + 1, 0) <= last),
        })
    }

    /// The places of the departures that stand behind an arrival: from its own minute
    /// on, since one before it is never a change, and none of the service itself.
    pub fn behind(&self, arrival: &Call) -> impl Iterator<Item = usize> + '_ {
        let first = self.departures.partition_point(|call| call.reference < arrival.reference);
        let last = arrival.reference + self.within;
        let same = (arrival.side.service, arrival.side.date);
        let behind = self.departures[first..].iter().zip(first..);
        behind
            .take_while(move |(call, _)| call.reference <= last)
            .filter(move |(call, _)| (call.side.service, call.side.date) != same)
            .map(|(_, place)| place)
    }

    /// Every change of the sheet, arrival by arrival.
    pub fn changes(&self) -> Vec<(Side, Side)> {
        let of = |from| self.behind(from).map(|to| (from.side, self.departures[to].side));
        self.arrivals.iter().flat_map(of).collect()
    }
}

/// A time as it is written in minutes; what no timetable has is none.
fn minutes(written: u64) -> Option<i64> {
    (written <= 9959).then(|| dates::clock(written))
}

/// A service with the stations where it begins and ends.
struct Route<'t> {
    service: Service<'t>,
    begin: u64,
    end: u64,
}

impl<'t> Route<'t> {
    fn of(service: Service<'t>) -> Route<'t> {
        let mut stations = service.stops().map(|stop| stop.station);
        let begin = stations.next().unwrap_or(0);
        Route { service, begin, end: stations.last().unwrap_or(begin) }
    }
}

/// What is looked for, day by day.
struct Search<'t> {
    wanted: Wanted,
    date: i64,
    days: Days<'t>,
    clocks: Clocks,
    /// The first and the last minute at which a departure is wanted, on the reference
    /// clock from 0000 of the date.
    begins: i64,
    ends: i64,
    /// The days that have such minutes.
    near: Vec<i64>,
}

impl<'t> Search<'t> {
    fn of(tables: &'t Tables, station: &Station, wanted: &Wanted) -> Option<Search<'t>> {
        let days = Days::of(tables)?;
        let date = dates::count(wanted.date).filter(|&date| days.have(date))?;
        let clocks = Clocks::of(tables, station, date);
        let begins = wanted.from - clocks.ahead(date);
        let ends = wanted.to - clocks.ahead(date) + wanted.within;
        let mut search = Search { wanted: *wanted, date, days, clocks, begins, ends, near: Vec::new() };
        // Zones are up to 99 hours ahead or behind.
        let around = date - 10..=date + 10 + wanted.within / MINUTES_IN_DAY;
        let is_near = |day: &i64| {
            search.reference(*day, 0) <= ends && begins <= search.reference(*day, MINUTES_IN_DAY - 1)
        };
        search.near = around.filter(is_near).collect();
        Some(search)
    }

    /// A minute of a day on the station's clocks, by the reference clock.
    fn reference(&self, day: i64, minute: i64) -> i64 {
        (day - self.date) * MINUTES_IN_DAY + minute - self.clocks.ahead(day)
    }

    fn arrival(&self, route: &Route, stop: u64, local: i64) -> Option<Call> {
        let is_wanted = (self.wanted.from..=self.wanted.to).contains(&(local % MINUTES_IN_DAY));
        is_wanted.then(|| self.call(route, stop, stop.checked_sub(1)?, local, self.date, route.begin))?
    }

    fn departures<'s>(
        &'s self,
        route: &'s Route,
        stop: u64,
        local: i64,
    ) -> impl Iterator<Item = Call> + use<'s, 't> {
        let is_wanted = move |&&day: &&i64| {
            (self.begins..=self.ends).contains(&self.reference(day, local % MINUTES_IN_DAY))
        };
        let days = self.near.iter().filter(is_wanted);
        days.filter_map(move |&day| self.call(route, stop, stop, local, day, route.end))
    }

    /// A call whose time falls on a day, if the service runs then on the leg.
    fn call(&self, route: &Route, stop: u64, leg: u64, local: i64, day: i64, end: u64) -> Option<Call> {
        let service_day = day - local / MINUTES_IN_DAY;
        if !self.days.run(route.service, leg, service_day) {
            return None;
        }
        let (number, mode) = (route.service.on_leg(b'%', leg)?, route.service.on_leg(b'&', leg)?);
        let date = dates::number_of(service_day)?;
        Some(Call {
            side: Side { service: route.service.number(), stop, date },
            local,
            reference: self.reference(day, local % MINUTES_IN_DAY),
            company: number[1],
            number: number[2],
            mode: mode[1],
            end,
        })
    }
}

/// The days of validity, and who runs on them.
struct Days<'t> {
    first: i64,
    last: i64,
    vectors: HashMap<u64, &'t [u64]>,
}

impl<'t> Days<'t> {
    fn of(tables: &'t Tables) -> Option<Days<'t>> {
        let validity = tables.validity();
        let (first, last) = (dates::count(validity.first)?, dates::count(validity.last)?);
        Some(Days { first, last, vectors: tables.vectors(FOOTNOTE) })
    }

    fn have(&self, day: i64) -> bool {
        (self.first..=self.last).contains(&day)
    }

    /// Whether a service runs on a leg on a service day.
    fn run(&self, service: Service, leg: u64, day: i64) -> bool {
        let vector = || self.vectors.get(&service.on_leg(b'-', leg)?[1]);
        self.have(day) && vector().is_some_and(|vector| has(vector, (day - self.first) as usize))
    }
}

/// How far a station's clocks are ahead of the reference clock, day by day.
struct Clocks {
    /// First and last day, and minutes ahead.
    periods: Vec<(i64, i64, i64)>,
    /// On a day without a period: as on the sheet's date, so that the time in between
    /// is what the station's clocks show.
    otherwise: i64,
}

impl Clocks {
    fn of(tables: &Tables, station: &Station, date: i64) -> Clocks {
        let told = |period: &Period| {
            let hours = i64::try_from(period.hours).ok().filter(|&hours| hours < 100)?;
            let minutes = if period.ahead { hours * 60 } else { -hours * 60 };
            Some((dates::count(period.first)?, dates::count(period.last)?, minutes))
        };
        let periods: Vec<(i64, i64, i64)> = tables.periods(station.zone).iter().filter_map(told).collect();
        match ahead(&periods, date) {
            Some(otherwise) => Clocks { periods, otherwise },
            None => Clocks { periods: Vec::new(), otherwise: 0 },
        }
    }

    fn ahead(&self, day: i64) -> i64 {
        ahead(&self.periods, day).unwrap_or(self.otherwise)
    }
}

fn ahead(periods: &[(i64, i64, i64)], day: i64) -> Option<i64> {
    let holds = |&&(first, last, _): &&(i64, i64, i64)| (first..=last).contains(&day);
    periods.iter().find(holds).map(|&(.., ahead)| ahead)
}
