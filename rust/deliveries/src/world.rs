//! A sound delivery, file by file.

use std::collections::{HashMap, HashSet};

use crate::calendar;
use crate::place::*;
use crate::rng::Rng;
use crate::shape::Shape;
use crate::text::{code, distinct, free, number, padded, rising, Lines};
use crate::FILES;

/// A service and the stations of its stops, as places in [`World::stations`].
#[derive(Clone, Debug)]
pub struct Service {
    pub number: u64,
    pub stops: Vec<usize>,
}

/// What a delivery is made of: its keys, by file.
#[derive(Clone, Debug)]
pub struct World {
    pub first_day: i64,
    pub days: usize,
    pub at_borders: bool,
    pub overnight: bool,
    /// The days, near those of validity, from which on a zone has another period
    /// than before, or none.
    pub clock_changes: Vec<i64>,
    pub companies: Vec<u64>,
    pub countries: Vec<Vec<u8>>,
    pub modes: Vec<Vec<u8>>,
    pub zones: Vec<u64>,
    pub stations: Vec<Vec<u8>>,
    pub footnotes: Vec<u64>,
    pub xfootnotes: Vec<u64>,
    pub services: Vec<Service>,
}

impl World {
    pub fn last_day(&self) -> i64 {
        self.first_day + self.days as i64 - 1
    }
}

/// Makes a world of this shape and its eleven files.
pub fn make(rng: &mut Rng, shape: &Shape) -> (World, [Vec<u8>; FILES]) {
    let mut world = keys(rng, shape);
    let header = header(rng, &world);
    let mut files: [Lines; FILES] = Default::default();
    for (place, file) in files.iter_mut().enumerate() {
        if is_present(place, shape) {
            file.line(&[&header]);
        }
    }
    write_companies(rng, &world, &mut files[COMPANY]);
    write_countries(rng, &world, &mut files[COUNTRY]);
    write_modes(rng, &world, &mut files[TRNSMODE]);
    world.clock_changes = write_zones(rng, &world, &mut files[TIMEZONE]);
    write_stations(rng, &world, &mut files[STATIONS]);
    write_footnotes(rng, &world.footnotes, world.days, &mut files[FOOTNOTE]);
    write_services(rng, shape, &mut world, &mut files[TIMETBLS]);
    if shape.changes {
        write_changes(rng, shape, &world, &mut files[CHANGES]);
    }
    if shape.xfootnotes {
        write_footnotes(rng, &world.xfootnotes, world.days, &mut files[XFOOTNOTE]);
    }
    if shape.xchanges {
        write_xchanges(rng, shape, &world, &mut files[XCHANGES]);
    }
    (world, files.map(|file| file.0))
}

fn is_present(place: usize, shape: &Shape) -> bool {
    match place {
        CHANGES => shape.changes,
        XFOOTNOTE => shape.xfootnotes,
        XCHANGES => shape.xchanges,
        _ => true,
    }
}

fn keys(rng: &mut Rng, shape: &Shape) -> World {
    let days = rng.within(&shape.days);
    let numbers = |rng: &mut Rng, count: usize, first: u64, last: u64| {
        let mut numbers = rising(rng, count, first, last);
        if let (0, Some(lowest)) = (first, numbers.first_mut()) {
            *lowest = or_zero(rng, *lowest);
        }
        if !shape.rising {
            rng.shuffle(&mut numbers);
        }
        numbers
    };
    let codes = |rng: &mut Rng, count: usize, width: usize| {
        let mut codes = distinct(count, || code(rng, width));
        if shape.rising {
            codes.sort();
        }
        codes
    };
    let [companies, countries, modes, zones, stations, footnotes, xfootnotes, services] = [
        &shape.companies,
        &shape.countries,
        &shape.modes,
        &shape.zones,
        &shape.stations,
        &shape.footnotes,
        &shape.special_footnotes,
        &shape.services,
    ]
    .map(|range| rng.within(range));
    let services = numbers(rng, services, 0, 99_999_999);
    World {
        first_day: first_day(rng, days, shape.at_borders),
        days,
        at_borders: shape.at_borders,
        overnight: shape.overnight,
        clock_changes: Vec::new(),
        companies: numbers(rng, companies, 1, 999),
        countries: codes(rng, countries, 4),
        modes: codes(rng, modes, 4),
        zones: numbers(rng, zones, 0, 9_999),
        stations: codes(rng, stations, 7),
        footnotes: numbers(rng, footnotes, 0, 99_999),
        xfootnotes: numbers(rng, xfootnotes, 0, 99_999),
        services: services.into_iter().map(|number| Service { number, stops: Vec::new() }).collect(),
    }
}

/// The number, or 0 in its place: a key like any other, and easily mistaken for
/// none. It is given so often that every place that names or holds it does.
fn or_zero(rng: &mut Rng, number: u64) -> u64 {
    if rng.percent(35) {
        return 0;
    }
    number
}

/// So many days after the last day of validity zones still have a period.
pub const DAYS_AFTER: i64 = 4;

/// Mostly of our time, sometimes at either end of the calendar.
fn first_day(rng: &mut Rng, days: usize, at_borders: bool) -> i64 {
    let after = if at_borders { 0 } else { DAYS_AFTER };
    let latest = calendar::LAST + 1 - days as i64 - after;
    match rng.below(10) {
        0 => 0,
        1 => latest,
        2 => rng.below(latest as usize) as i64,
        _ => 146_097 + rng.below(20_000) as i64,
    }
}

pub fn date(day: i64) -> Vec<u8> {
    number(calendar::written(day), 8)
}

fn header(rng: &mut Rng, world: &World) -> Vec<u8> {
    let version = rng.below(10_000) as u64;
    [
        b"@",
        &number(*rng.pick(&world.companies), 3)[..],
        b",",
        &date(world.first_day),
        b",",
        &date(world.last_day()),
        b",",
        &number(version, 4),
        b",",
        &free(rng, 30),
    ]
    .concat()
}

fn write_companies(rng: &mut Rng, world: &World, file: &mut Lines) {
    let count = world.companies.len();
    let codes = distinct(count, || free(rng, 10));
    let names = distinct(count, || free(rng, 30));
    for ((company, code), name) in world.companies.iter().zip(codes).zip(names) {
        let turn = rng.below(24) * 100 + rng.below(60);
        file.line(&[&number(*company, 3), b",", &code, b",", &name, b",", &number(turn as u64, 4)]);
    }
}

fn write_countries(rng: &mut Rng, world: &World, file: &mut Lines) {
    let names = distinct(world.countries.len(), || free(rng, 30));
    for (code, name) in world.countries.iter().zip(names) {
        let inland = number(rng.below(2) as u64, 1);
        file.line(&[code, b",", &inland, b",", &name]);
    }
}

fn write_modes(rng: &mut Rng, world: &World, file: &mut Lines) {
    let texts = distinct(world.modes.len(), || free(rng, 30));
    for (code, text) in world.modes.iter().zip(texts) {
        file.line(&[code, b",", &text]);
    }
}

/// Answers the days on which clocks change.
fn write_zones(rng: &mut Rng, world: &World, file: &mut Lines) -> Vec<i64> {
    let mut changes = Vec::new();
    for &zone in &world.zones {
        file.line(&[b"#", &number(zone, 4)]);
        let mut periods = periods(rng, world);
        if rng.percent(30) {
            rng.shuffle(&mut periods);
        }
        for (first, last) in periods {
            let hours = if rng.percent(80) { rng.below(13) } else { rng.below(100) };
            let sign = [*rng.pick(b"+-")];
            file.line(&[&sign, &number(hours as u64, 2), b",", &date(first), b",", &date(last)]);
            changes.extend([first, last + 1]);
        }
    }
    let reached = world.first_day + 1..=world.last_day() + DAYS_AFTER;
    changes.retain(|change| reached.contains(change));
    changes
}

fn periods(rng: &mut Rng, world: &World) -> Vec<(i64, i64)> {
    if world.overnight {
        return short_periods(rng, world);
    }
    let from = (world.first_day - rng.below(20) as i64).max(0);
    match world.at_borders {
        true => periods_with_gaps(rng, world, from),
        false => periods_without_gaps(rng, world, from),
    }
}

/// One or more periods, each from the day after the one before, that hold all
/// days of validity and those that services reach after the last.
fn periods_without_gaps(rng: &mut Rng, world: &World, from: i64) -> Vec<(i64, i64)> {
    let reached = world.last_day() + DAYS_AFTER;
    let to = (reached + [0, 0, 1, 200][rng.below(4)]).min(calendar::LAST);
    let inner = (from..to).filter(|_| rng.below((to - from) as usize) < 2).take(4);
    let ends: Vec<i64> = inner.chain([to]).collect();
    let starts = std::iter::once(from).chain(ends.iter().map(|end| end + 1));
    starts.zip(ends.iter().copied()).collect()
}

/// Periods of one or two days, each from the day after the one before up to the
/// days that services reach after the last of validity. At the borders some days
/// have none: at the beginning, between periods, and after the last of validity.
fn short_periods(rng: &mut Rng, world: &World) -> Vec<(i64, i64)> {
    let few = |rng: &mut Rng| rng.below(2) as i64;
    let (from, after) = match world.at_borders {
        true => (world.first_day + few(rng), rng.below(DAYS_AFTER as usize + 1) as i64),
        false => (world.first_day - few(rng), DAYS_AFTER),
    };
    let end = (world.last_day() + after).min(calendar::LAST);
    let mut first = from.clamp(0, end);
    let mut periods = Vec::new();
    while first <= end {
        let last = (first + few(rng)).min(calendar::LAST);
        periods.push((first, last));
        let gap = if world.at_borders && rng.percent(60) { 1 + few(rng) } else { 0 };
        first = last + 1 + gap;
    }
    periods
}

/// One or more periods that share no day, with and without days between them,
/// up to the last day of validity, or some days before or after it.
fn periods_with_gaps(rng: &mut Rng, world: &World, from: i64) -> Vec<(i64, i64)> {
    let last_day = world.last_day();
    let mut first = from;
    let mut periods = Vec::new();
    loop {
        let last = match rng.below(10) {
            0..=2 => first + 2 * world.days as i64 + 20,
            3..=5 => last_day.max(first),
            _ => first + rng.below(world.days) as i64,
        };
        let last = last.min(calendar::LAST);
        periods.push((first, last));
        let gap = if rng.percent(60) { 0 } else { 1 + rng.below(5) as i64 };
        first = last + 1 + gap;
        if periods.len() == 5 || first > calendar::LAST || rng.percent(20) {
            return periods;
        }
    }
}

fn write_stations(rng: &mut Rng, world: &World, file: &mut Lines) {
    for short_name in &world.stations {
        let flag = if rng.percent(80) { 1 } else { rng.below(10) };
        let time = match rng.below(100) {
            0..=14 => 99,
            15..=34 => 0,
            _ => match rng.below(20) {
                19 => 98,
                minutes => minutes,
            },
        };
        let country = rng.pick(&world.countries);
        let zone = number(*rng.pick(&world.zones), 4);
        file.line(&[
            &number(flag as u64, 1),
            b",",
            short_name,
            b",",
            &number(time as u64, 2),
            b",",
            &free(rng, 2),
            b",",
            country,
            b",",
            &zone,
            b",",
            &free(rng, 2),
            b",",
            &free(rng, 6),
            b",",
            &free(rng, 6),
            b",",
            &free(rng, 30),
        ]);
    }
}

fn write_footnotes(rng: &mut Rng, footnotes: &[u64], days: usize, file: &mut Lines) {
    for &footnote in footnotes {
        let density = *rng.pick(&[0, 30, 90, 100, 100, 100]);
        let vector: Vec<u8> = (0..days).map(|_| b'0' + u8::from(rng.percent(density))).collect();
        file.line(&[b"#", &number(footnote, 5)]);
        file.line(&[&vector]);
    }
}

fn write_services(rng: &mut Rng, shape: &Shape, world: &mut World, file: &mut Lines) {
    for place in 0..world.services.len() {
        let number = world.services[place].number;
        let count = rng.within(&shape.stops);
        let stops: Vec<usize> = (0..count).map(|_| rng.below(world.stations.len())).collect();
        write_block(rng, world, number, &stops, file);
        world.services[place].stops = stops;
    }
}

/// The block of a service with stops at these stations.
pub fn write_block(rng: &mut Rng, world: &World, service: u64, stops: &[usize], file: &mut Lines) {
    file.line(&[b"#", &number(service, 8)]);
    for (first, last) in cover(rng, stops.len()) {
        let company = number(*rng.pick(&world.companies), 3);
        let run = 1 + rng.below(99_999) as u64;
        let run = number(or_zero(rng, run), 5);
        let (variant, name) = (free(rng, 7), free(rng, 30));
        file.line(&[b"%", &company, b",", &run, b",", &variant, b",", &first, b",", &last, b",", &name]);
    }
    for (first, last) in cover(rng, stops.len()) {
        file.line(&[b"-", &footnote(rng, world), b",", &first, b",", &last]);
    }
    for (first, last) in cover(rng, stops.len()) {
        file.line(&[b"&", rng.field(&world.modes), b",", &first, b",", &last]);
    }
    write_attributes(rng, world, stops.len(), file);
    write_stops(rng, world, stops, file);
}

fn footnote(rng: &mut Rng, world: &World) -> Vec<u8> {
    number(*rng.pick(&world.footnotes), 5)
}

/// Spans that together hold each leg once, in any order.
fn cover(rng: &mut Rng, stops: usize) -> Vec<(Vec<u8>, Vec<u8>)> {
    let mut ends: Vec<usize> = match rng.below(10) {
        0..=5 => vec![],
        6..=8 => (2..stops).filter(|_| rng.below(stops) < 2).collect(),
        _ => (2..stops).filter(|_| rng.percent(50)).collect(),
    };
    ends.insert(0, 1);
    ends.push(stops);
    let mut spans: Vec<_> =
        ends.windows(2).map(|pair| (stop(rng, pair[0], stops), stop(rng, pair[1], stops))).collect();
    if rng.percent(20) {
        rng.shuffle(&mut spans);
    }
    spans
}

/// A stop number, or 000 and 999 for the first and the last.
fn stop(rng: &mut Rng, stop: usize, stops: usize) -> Vec<u8> {
    let written = match stop {
        1 if rng.percent(50) => 0,
        _ if stop == stops && rng.percent(50) => 999,
        _ => stop,
    };
    number(written as u64, 3)
}

fn write_attributes(rng: &mut Rng, world: &World, stops: usize, file: &mut Lines) {
    for _ in 0..rng.below(4) {
        let (first, last) = attribute_span(rng, world, stops);
        let (first, last) = (stop(rng, first, stops), stop(rng, last, stops));
        file.line(&[b"*", &code(rng, 4), b",", &first, b",", &last, b",", &footnote(rng, world)]);
    }
}

/// From a stop to a later one; at the borders also to the same.
fn attribute_span(rng: &mut Rng, world: &World, stops: usize) -> (usize, usize) {
    if world.at_borders && rng.percent(40) {
        let only = 1 + rng.below(stops);
        return (only, only);
    }
    let first = 1 + rng.below(stops - 1);
    (first, first + 1 + rng.below(stops - first))
}

/// The minutes of 99:59.
const LATEST: usize = 5_999;
const MINUTES_IN_DAY: usize = 1_440;

fn time(minutes: usize) -> Vec<u8> {
    number((minutes / 60 * 100 + minutes % 60) as u64, 4)
}

fn write_stops(rng: &mut Rng, world: &World, stops: &[usize], file: &mut Lines) {
    let mut now = rng.below(MINUTES_IN_DAY);
    for (place, &station) in stops.iter().enumerate() {
        let station = &world.stations[station];
        let ride = if rng.percent(5) { rng.below(1_000) } else { rng.below(40) };
        now = (now + ride) % (LATEST - 30);
        if world.overnight && rng.percent(60) {
            now = before_midnight(rng, &[0, 0, 1, 1, 2, 9]);
        }
        match place {
            0 => file.line(&[b">", station, b",", &time(now)]),
            _ if place == stops.len() - 1 => file.line(&[b"<", station, b",", &time(now)]),
            _ if rng.percent(if world.overnight { 20 } else { 50 }) => {
                file.line(&[b".", station, b",", &time(now)])
            }
            _ => {
                // It arrives on one day and leaves on the next.
                if world.overnight && rng.percent(80) {
                    now = before_midnight(rng, &[1, 1, 1, 3]);
                }
                now = write_interval(rng, station, now, file);
            }
        }
        if rng.percent(30) {
            file.line(&[b"?", &free(rng, 5), b",", &free(rng, 5), b",", &footnote(rng, world)]);
        }
        while place + 1 < stops.len() && rng.percent(20) {
            file.line(&[b";", rng.field(&world.stations)]);
        }
    }
}

/// So many minutes before the end of the service day or of one of the three after.
fn before_midnight(rng: &mut Rng, minutes: &[usize]) -> usize {
    MINUTES_IN_DAY * (1 + rng.below(4)) - rng.pick(minutes)
}

/// A `+` record; answers when it leaves.
fn write_interval(rng: &mut Rng, station: &[u8], arrival: usize, file: &mut Lines) -> usize {
    let departure = arrival + 1 + rng.below(15);
    let (arrives, leaves) = match rng.below(6) {
        0 => (b"9999".to_vec(), time(departure)),
        1 => (time(arrival), b"9999".to_vec()),
        _ => (time(arrival), time(departure)),
    };
    file.line(&[b"+", station, b",", &arrives, b",", &leaves]);
    departure
}

/// Different stations for the groups of CHANGES and XCHANGES.
fn change_stations<'a>(rng: &mut Rng, shape: &Shape, world: &'a World) -> Vec<&'a Vec<u8>> {
    let count = rng.within(&shape.change_stations).min(world.stations.len());
    let mut stations: Vec<_> = world.stations.iter().collect();
    rng.shuffle(&mut stations);
    stations.truncate(count);
    if shape.rising {
        stations.sort();
    }
    stations
}

fn write_changes(rng: &mut Rng, shape: &Shape, world: &World, file: &mut Lines) {
    let all: Vec<u64> = world.services.iter().map(|service| service.number).collect();
    let calling = if shape.meeting { calling(world) } else { HashMap::new() };
    for station in change_stations(rng, shape, world) {
        file.line(&[b"#", station]);
        let services = calling.get(station).unwrap_or(&all);
        let mut taken = HashSet::new();
        let rows = if services.is_empty() { 0 } else { rng.within(&shape.change_rows) };
        for _ in 0..rows {
            let pair = (*rng.pick(services), *rng.pick(services));
            if taken.insert(pair) {
                let possibility = number(rng.below(3) as u64, 2);
                file.line(&[b"-", &number(pair.0, 8), b",", &number(pair.1, 8), b",", &possibility]);
            }
        }
    }
}

/// The services that call at each station where one does.
fn calling(world: &World) -> HashMap<&Vec<u8>, Vec<u64>> {
    let mut calling: HashMap<&Vec<u8>, Vec<u64>> = HashMap::new();
    for service in &world.services {
        for &stop in &service.stops {
            calling.entry(&world.stations[stop]).or_default().push(service.number);
        }
    }
    calling
}

fn write_xchanges(rng: &mut Rng, shape: &Shape, world: &World, file: &mut Lines) {
    for station in change_stations(rng, shape, world) {
        file.line(&[b"#", station]);
        let rows = rng.within(&shape.change_rows);
        let mut taken = HashSet::new();
        let mut before: Vec<(Vec<u8>, usize)> = Vec::new();
        for _ in 0..rows {
            let (keys, time) = match shape.repeated && !before.is_empty() && rng.percent(40) {
                true => again(rng, &before),
                false => (xchange_keys(rng, world), None),
            };
            let footnote = number(*rng.pick(&world.xfootnotes), 5);
            if taken.insert((keys.clone(), footnote.clone())) {
                let time = time.unwrap_or_else(|| xchange_time(rng));
                file.line(&[b"-", &keys, b",", &number(time as u64, 3), b",", &footnote]);
                before.push((keys, time));
            }
        }
    }
}

/// The keys of an exception before, and perhaps its time.
fn again(rng: &mut Rng, before: &[(Vec<u8>, usize)]) -> (Vec<u8>, Option<usize>) {
    let (keys, time) = rng.pick(before).clone();
    (keys, rng.percent(30).then_some(time))
}

fn xchange_time(rng: &mut Rng) -> usize {
    match rng.below(100) {
        0..=14 => 999,
        15..=29 => 0,
        _ => match rng.below(40) {
            // Unsettled in STATIONS alone.
            39 => 99,
            38 => 998,
            minutes => minutes,
        },
    }
}

/// The four keys with their commas, each a wildcard by chance.
fn xchange_keys(rng: &mut Rng, world: &World) -> Vec<u8> {
    let company = |rng: &mut Rng| match rng.percent(50) {
        true => padded(b"*", 3),
        false => number(*rng.pick(&world.companies), 3),
    };
    let mode = |rng: &mut Rng| match rng.percent(50) {
        true => padded(b"*", 4),
        false => rng.pick(&world.modes).clone(),
    };
    let fields = [company(rng), mode(rng), company(rng), mode(rng)];
    fields.join(&b","[..])
}
