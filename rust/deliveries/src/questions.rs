//! Random questions about a delivery.

use crate::amendments::{amendment, as_no_block, Amendment};
use crate::calendar;
use crate::damage::damage_block;
use crate::rng::Rng;
use crate::text::{join, number, split};
use crate::world::{Service, World};

/// A service at a stop on a date, DDMMYYYY.
#[derive(Clone, Copy, Debug, PartialEq, Eq)]
pub struct Side {
    pub service: u64,
    pub stop: u64,
    pub date: u64,
}

/// A question of the desk. A short name is packed base 256, first byte highest.
#[derive(Clone, Debug, PartialEq, Eq)]
pub enum Question {
    RunningDay { service: u64, leg: u64, date: u64 },
    StopTime { service: u64, stop: u64, date: u64 },
    Change { from: Side, to: Side },
    Name { short_name: u64 },
    LinesNow { service: u64, block: Vec<u8> },
}

pub fn question(rng: &mut Rng, world: &World) -> Question {
    match rng.below(10) {
        0 => Question::Name { short_name: short_name(rng, world) },
        1 => lines_now(rng, world),
        _ => question_on_tables(rng, world),
    }
}

/// A question that is lent a loaded store. A change can come to the most; a stop's
/// time has two clocks overnight.
pub fn question_on_tables(rng: &mut Rng, world: &World) -> Question {
    match rng.below(10) {
        0 | 1 => {
            let Side { service, stop: leg, date } = side(rng, world);
            Question::RunningDay { service, leg, date }
        }
        turn @ 2..=5 if turn <= 3 || world.overnight => {
            let Side { service, stop, date } = side(rng, world);
            Question::StopTime { service, stop, date }
        }
        _ => {
            let (from, to) = change(rng, world);
            Question::Change { from, to }
        }
    }
}

/// With a block that may or may not amend the service that is asked for.
fn lines_now(rng: &mut Rng, world: &World) -> Question {
    let amendment = amendment(rng, world);
    let service = if rng.percent(60) { amendment.service } else { service(rng, world) };
    Question::LinesNow { service: or_beyond(rng, service), block: amendment.block }
}

/// A change at a station of two services where there is one, mostly; else any
/// two sides.
pub fn change(rng: &mut Rng, world: &World) -> (Side, Side) {
    if world.services.is_empty() || rng.percent(15) {
        return (side(rng, world), side(rng, world));
    }
    let (a, mut b) = (rng.pick(&world.services), rng.pick(&world.services));
    if a.number == b.number && rng.percent(70) {
        b = rng.pick(&world.services);
    }
    let meetings = meetings(a, b);
    if meetings.is_empty() {
        return (side(rng, world), side(rng, world));
    }
    let &(i, j) = rng.pick(&meetings);
    let day = (day_within(rng, world) - world.first_day) as usize;
    // On one date a service does not meet itself, and few gaps reach 999 minutes.
    let on_one_date = if a.number == b.number { 20 } else { 60 };
    let later = if rng.percent(on_one_date) { day } else { (day + 1 + rng.below(3)).min(world.days - 1) };
    let date = |day: usize| calendar::written(world.first_day + day as i64);
    let from = Side { service: a.number, stop: i as u64 + 1, date: date(day) };
    let to = Side { service: b.number, stop: j as u64 + 1, date: date(later) };
    (from, to)
}

/// Where one can leave `a` and board `b`, as places of their stops.
fn meetings(a: &Service, b: &Service) -> Vec<(usize, usize)> {
    let boarding = &b.stops[..b.stops.len() - 1];
    let pairs = (1..a.stops.len()).flat_map(|i| (0..boarding.len()).map(move |j| (i, j)));
    pairs.filter(|&(i, j)| a.stops[i] == boarding[j]).collect()
}

fn side(rng: &mut Rng, world: &World) -> Side {
    let date = date(rng, world);
    let (service, stop) = match world.services.is_empty() || rng.percent(10) {
        true => (service(rng, world), stop(rng, 8)),
        false => {
            let service = rng.pick(&world.services);
            (service.number, stop(rng, service.stops.len()))
        }
    };
    Side { service: or_beyond(rng, service), stop: or_beyond(rng, stop), date: or_beyond(rng, date) }
}

/// The number, or rarely one of which it is a part: as many of its lowest bits
/// as a narrower word has, or its last eight digits.
fn or_beyond(rng: &mut Rng, number: u64) -> u64 {
    const BEYOND: [u64; 5] = [1 << 8, 1 << 16, 1 << 32, 1 << 63, 100_000_000];
    match rng.percent(3) {
        true => number.wrapping_add(*rng.pick(&BEYOND)),
        false => number,
    }
}

fn service(rng: &mut Rng, world: &World) -> u64 {
    match rng.below(8) {
        0 => rng.word() >> rng.below(64),
        1 => rng.below(100_000_000) as u64,
        _ if world.services.is_empty() => 1,
        _ => rng.pick(&world.services).number,
    }
}

/// Mostly one of the stops, sometimes 0 or one too many, or any number.
fn stop(rng: &mut Rng, stops: usize) -> u64 {
    match rng.below(20) {
        0 => rng.word() >> rng.below(64),
        1..=3 => rng.below(stops + 2) as u64,
        _ => 1 + rng.below(stops) as u64,
    }
}

/// Mostly a day within validity, sometimes one beside it or no day at all.
fn date(rng: &mut Rng, world: &World) -> u64 {
    match rng.below(20) {
        0 => rng.word() >> rng.below(64),
        1 => rng.below(100_000_000) as u64,
        2 => calendar::written((world.first_day - 1).max(0)),
        3 => calendar::written((world.first_day + world.days as i64).min(calendar::LAST)),
        _ => calendar::written(day_within(rng, world)),
    }
}

/// A day of validity; overnight mostly one up to four days before clocks change.
fn day_within(rng: &mut Rng, world: &World) -> i64 {
    if world.overnight && !world.clock_changes.is_empty() && rng.percent(70) {
        let before = rng.pick(&world.clock_changes) - 1 - rng.below(4) as i64;
        return before.clamp(world.first_day, world.last_day());
    }
    world.first_day + rng.below(world.days) as i64
}

fn short_name(rng: &mut Rng, world: &World) -> u64 {
    let short_name = packed(rng.field(&world.stations));
    or_another(rng, short_name)
}

fn packed(field: &[u8]) -> u64 {
    field.iter().fold(0, |word, &byte| word << 8 | u64::from(byte))
}

/// The word, or sometimes one that differs from it in a bit.
fn or_another(rng: &mut Rng, word: u64) -> u64 {
    match rng.below(5) {
        0 => word ^ 1 << rng.below(64),
        _ => word,
    }
}

/// The name of a station in a text, which need not be sound.
pub fn name_in(rng: &mut Rng, stations: &[u8]) -> Question {
    let lines = split(stations);
    let short_names: Vec<u64> = lines.iter().filter_map(|line| line.get(2..9)).map(packed).collect();
    let short_name = if short_names.is_empty() { rng.word() } else { *rng.pick(&short_names) };
    Question::Name { short_name: or_another(rng, short_name) }
}

/// The lines of a service in a text, which need not be sound, and a block of
/// its lines there or of others, or of none.
pub fn lines_in(rng: &mut Rng, timetbls: &[u8]) -> Question {
    let lines = split(timetbls);
    let groups: Vec<&[Vec<u8>]> = lines
        .chunk_by(|_, next| !next.starts_with(b"#"))
        .filter(|group| group[0].starts_with(b"#"))
        .collect();
    if groups.is_empty() {
        return Question::LinesNow { service: rng.word() >> rng.below(64), block: timetbls.to_vec() };
    }
    let (asked, other) = (*rng.pick(&groups), *rng.pick(&groups));
    let service = opened_by(&asked[0]).unwrap_or_else(|| rng.below(100_000_000) as u64);
    let block = match rng.below(8) {
        0 => vec![],
        1 => timetbls.to_vec(),
        2 => join(other),
        3 => join(&[[b"#".to_vec(), number(service, 8)].concat()]),
        _ => join(asked),
    };
    let mut amendment = Amendment { service, block };
    match rng.below(4) {
        0 => damage_block(rng, &mut amendment.block),
        1 => as_no_block(rng, &mut amendment),
        _ => (),
    }
    Question::LinesNow { service: or_beyond(rng, amendment.service), block: amendment.block }
}

/// The service that a line opens, perhaps with more behind its digits.
fn opened_by(line: &[u8]) -> Option<u64> {
    let digits = std::str::from_utf8(line.get(1..9)?).ok()?;
    digits.parse().ok()
}
