//! Changes as a connection sheet asks for them, made from the tables of a sound
//! delivery. They come from all over it: from any service, at any station.

use std::collections::{HashMap, HashSet};

use crate::calendar;
use crate::place::*;
use crate::questions::{question_on_tables, Question, Side};
use crate::rng::Rng;
use crate::tables::{is_stop, minutes_of, rows_in_use, times_of, Tables, GROUP};
use crate::world::World;

/// Which changes are asked for.
#[derive(Clone, Copy, Debug, PartialEq, Eq)]
pub enum Connections {
    /// Nine of ten changes are from an arrival to one of the next departures at the
    /// same station, mostly of services that run then; a tenth of them are of a pair
    /// in CHANGES. The others are any, also refused ones.
    Usual,
    /// Such changes at stations that neither CHANGES nor XCHANGES has.
    WithoutGroups,
    /// Such changes, but one of the two services is not held.
    UnknownServices,
}

impl Connections {
    pub const ALL: [Connections; 3] =
        [Connections::Usual, Connections::WithoutGroups, Connections::UnknownServices];
}

/// So many changes in the delivery with these tables, whose services must meet.
pub fn connections(
    rng: &mut Rng,
    world: &World,
    tables: &Tables,
    of: Connections,
    count: usize,
) -> Vec<(Side, Side)> {
    let calls = Calls::of(tables);
    let change = |_| match of {
        Connections::Usual if rng.percent(10) => any(rng, world),
        Connections::Usual => calls.change(rng, |_| true),
        Connections::WithoutGroups => calls.change(rng, |station| !calls.in_groups.contains(&station)),
        Connections::UnknownServices => {
            let change = calls.change(rng, |_| true);
            calls.without_service(rng, change)
        }
    };
    (0..count).map(change).collect()
}

/// Any change, also one that is refused.
fn any(rng: &mut Rng, world: &World) -> (Side, Side) {
    loop {
        if let Question::Change { from, to } = question_on_tables(rng, world) {
            return (from, to);
        }
    }
}

/// A stop of a service at which one can alight, or board.
#[derive(Clone, Copy)]
struct Call {
    service: u64,
    stop: u64,
    station: u64,
    /// Of the arrival, or of the departure, from 0000 of the service day.
    minutes: i64,
    /// The words of the service's days on the leg before it, or behind it.
    days: usize,
}

/// Where services of a delivery can be left and boarded.
struct Calls<'t> {
    tables: &'t Tables,
    first_day: i64,
    days: i64,
    services: HashSet<u64>,
    arrivals: Vec<Call>,
    /// By station.
    departures: HashMap<u64, Vec<Call>>,
    /// An arrival and a departure for each pair of CHANGES that has both.
    pairs: Vec<(Call, Call)>,
    /// The stations in CHANGES or XCHANGES.
    in_groups: HashSet<u64>,
}

/// The next departure is the next of so many.
const SEEN: usize = 8;
const MINUTES_IN_DAY: i64 = 1_440;

impl<'t> Calls<'t> {
    fn of(tables: &'t Tables) -> Calls<'t> {
        let [first_day, last_day] = [2, 3].map(|word| calendar::counted(tables[DELIVERY][word]));
        let mut calls = Calls {
            tables,
            first_day,
            days: last_day - first_day + 1,
            services: HashSet::new(),
            arrivals: Vec::new(),
            departures: HashMap::new(),
            pairs: Vec::new(),
            in_groups: HashSet::new(),
        };
        calls.add_services();
        calls.add_groups();
        calls
    }

    fn add_services(&mut self) {
        let vectors = vectors(self.tables);
        let rows: Vec<&[u64]> = rows_in_use(self.tables, TIMETBLS).skip(1).collect();
        for block in rows.chunk_by(|_, next| next[0] != GROUP) {
            self.services.insert(block[0][1]);
            self.add_stops(block, &vectors);
        }
    }

    fn add_stops(&mut self, block: &[&[u64]], vectors: &HashMap<u64, usize>) {
        let service = block[0][1];
        let days_on = |leg: u64| {
            let validities = block.iter().filter(|row| row[0] == u64::from(b'-'));
            let mut on_leg = validities.filter(|row| (row[2]..row[3]).contains(&leg));
            on_leg.next().map(|row| vectors[&row[1]])
        };
        for (row, stop) in block.iter().filter(|row| is_stop(row)).zip(1..) {
            let call = |time: u64, leg: u64| {
                Some(Call { service, stop, station: row[1], minutes: minutes_of(time), days: days_on(leg)? })
            };
            let [arrival, departure] = times_of(row);
            self.arrivals.extend(arrival.and_then(|time| call(time, stop - 1)));
            let departures = self.departures.entry(row[1]).or_default();
            departures.extend(departure.and_then(|time| call(time, stop)));
        }
    }

    fn add_groups(&mut self) {
        let arrivals = by_place(&self.arrivals);
        let departures = by_place(self.departures.values().flatten());
        let mut station = 0;
        for row in rows_in_use(self.tables, CHANGES).skip(1) {
            if row[0] == GROUP {
                station = row[1];
                continue;
            }
            let calls = arrivals.get(&(row[1], station)).zip(departures.get(&(row[2], station)));
            self.pairs.extend(calls.map(|(from, to)| (*from, *to)));
        }
        for file in [CHANGES, XCHANGES] {
            let groups = rows_in_use(self.tables, file).filter(|row| row[0] == GROUP);
            self.in_groups.extend(groups.map(|row| row[1]));
        }
    }

    /// A change at one of these stations, on a day on which both services run but
    /// for one of ten.
    fn change(&self, rng: &mut Rng, is_meant: impl Fn(u64) -> bool) -> (Side, Side) {
        loop {
            let (from, to) = match !self.pairs.is_empty() && rng.percent(10) {
                true => *rng.pick(&self.pairs),
                false => self.next_departure(rng),
            };
            // The departure follows within a day.
            let later = (from.minutes - to.minutes + MINUTES_IN_DAY - 1).div_euclid(MINUTES_IN_DAY);
            let day = rng.below(self.days as usize) as i64;
            let is_asked = is_meant(from.station) && (0..self.days).contains(&(day + later));
            if is_asked && (self.runs(from, day) && self.runs(to, day + later) || rng.percent(10)) {
                return (self.side(from, day), self.side(to, day + later));
            }
        }
    }

    /// An arrival and a departure soon after it, of another service.
    fn next_departure(&self, rng: &mut Rng) -> (Call, Call) {
        loop {
            let from = *rng.pick(&self.arrivals);
            let departures = &self.departures[&from.station];
            let wait = |to: &Call| (to.minutes - from.minutes).rem_euclid(MINUTES_IN_DAY);
            if departures.is_empty() {
                continue;
            }
            let seen = (0..SEEN).map(|_| *rng.pick(departures)).filter(|to| to.service != from.service);
            if let Some(to) = seen.min_by_key(wait) {
                return (from, to);
            }
        }
    }

    fn side(&self, call: Call, day: i64) -> Side {
        let date = calendar::written(self.first_day + day);
        Side { service: call.service, stop: call.stop, date }
    }

    /// Whether it runs on a day of validity, counted from the first.
    fn runs(&self, call: Call, day: i64) -> bool {
        self.tables[FOOTNOTE][call.days + day as usize / 64] >> (day % 64) & 1 == 1
    }

    /// The change with a service that is not held on one of its sides.
    fn without_service(&self, rng: &mut Rng, (mut from, mut to): (Side, Side)) -> (Side, Side) {
        let unknown = loop {
            let number = rng.below(100_000_000) as u64;
            if !self.services.contains(&number) {
                break number;
            }
        };
        match rng.percent(50) {
            true => from.service = unknown,
            false => to.service = unknown,
        }
        (from, to)
    }
}

/// By service and station.
fn by_place<'c>(calls: impl IntoIterator<Item = &'c Call>) -> HashMap<(u64, u64), Call> {
    calls.into_iter().map(|call| ((call.service, call.station), *call)).collect()
}

/// Where the words of each footnote's days begin in the table.
fn vectors(tables: &Tables) -> HashMap<u64, usize> {
    let rows: Vec<&[u64]> = rows_in_use(tables, FOOTNOTE).collect();
    let numbered = rows.iter().enumerate().filter(|(_, row)| row[0] == GROUP);
    numbered.map(|(place, row)| (row[1], (place + 1) * row.len() + 1)).collect()
}
