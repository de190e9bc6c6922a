//! 11 to 17: refusals that have no place.

use proved::Side;

use super::{meaning, Explanation};
use crate::dates;
use crate::files::{latin, lines};
use crate::records::{pack, unpack};
use crate::tables::{Station, Stop, Tables};

/// What was asked, for the words of a refusal.
#[derive(Clone, Copy)]
pub enum Asked<'a> {
    Leg { service: u64, leg: u64, date: u64 },
    Stop { service: u64, stop: u64, date: u64 },
    Change { from: Side, to: Side },
    Service(u64),
    Station(&'a str),
    Sheet { station: &'a str, date: u64 },
}

fn told(number: u64, found: String, expected: String, advice: String) -> Explanation {
    Explanation {
        number,
        meaning: meaning(number),
        found: Some(found),
        expected: Some(expected),
        advice,
        ..Explanation::default()
    }
}

/// Explains a question's refusal, of tables that are sound.
pub fn question(tables: &Tables, number: u64, asked: Asked) -> Explanation {
    match (number, asked) {
        (12, Asked::Service(service) | Asked::Leg { service, .. } | Asked::Stop { service, .. }) => {
            no_service(tables, service, "")
        }
        (13, Asked::Leg { service, leg, .. }) => no_leg(tables, service, leg),
        (13, Asked::Stop { service, stop, .. }) => no_stop(tables, service, stop, 1, 0, ""),
        (14, Asked::Leg { date, .. } | Asked::Stop { date, .. } | Asked::Sheet { date, .. }) => {
            no_date(tables, date, "")
        }
        (15, Asked::Stop { service, stop, date }) => {
            let side = Side { service, stop, date };
            no_period(tables, [Timed::arrival(tables, side), Timed::departure(tables, side)])
        }
        (_, Asked::Change { from, to }) => change(tables, number, from, to),
        (17, Asked::Station(code) | Asked::Sheet { station: code, .. }) => no_station(tables, code),
        (16, _) => not_sound(),
        _ => told(number, "what was asked".into(), "another question".into(), "Ask again.".into()),
    }
}

fn not_sound() -> Explanation {
    told(
        16,
        "tables that no load leaves".into(),
        "tables as a load leaves them".into(),
        "Open the delivery again.".into(),
    )
}

fn no_service(tables: &Tables, service: u64, side: &str) -> Explanation {
    let count = tables.services().count();
    let numbers = || tables.services().map(|held| held.number());
    let expected = match (numbers().min(), numbers().max()) {
        (Some(low), Some(high)) => {
            format!("one of the delivery's {count} services, numbered from {low:08} to {high:08}")
        }
        _ => "a service; the delivery has none".to_string(),
    };
    let number = match service {
        u64::MAX => "service of too many digits".to_string(),
        _ => format!("service {service:08}"),
    };
    told(
        12,
        format!("{number}{side}"),
        expected,
        "Is the number spelt right? It is the one behind `#` in TIMETBLS, not the train's number.".into(),
    )
}

fn no_leg(tables: &Tables, service: u64, leg: u64) -> Explanation {
    let stops = tables.service(service).map_or(0, |held| held.stop_count());
    let expected = format!("a leg from 1 to {}; leg 1 goes from stop 1 to stop 2", stops.saturating_sub(1));
    told(13, format!("leg {leg} of service {service:08}"), expected, see_service(service))
}

fn no_stop(tables: &Tables, service: u64, stop: u64, low: u64, less: u64, side: &str) -> Explanation {
    let stops = tables.service(service).map_or(0, |held| held.stop_count());
    let why = match (low, less) {
        (2, _) => ": one alights at stop 2 and later",
        (_, 1) => ": one boards before the last stop",
        _ => "",
    };
    let expected = format!("a stop from {low} to {}{why}", stops.saturating_sub(less));
    told(13, format!("stop {stop} of service {service:08}{side}"), expected, see_service(service))
}

fn see_service(service: u64) -> String {
    format!("See its stops: calyxcabin service STORE {service}")
}

fn no_date(tables: &Tables, date: u64, side: &str) -> Explanation {
    let validity = tables.validity();
    let expected = format!("a day from {} to {}", dates::date(validity.first), dates::date(validity.last));
    let found = match dates::count(date) {
        None => format!("{date:08}{side}, which no calendar has"),
        Some(_) => format!("{}{side}, which is outside the delivery's validity", dates::date(date)),
    };
    told(14, found, expected, "Ask for another day, or open the delivery that is valid then.".into())
}

/// A time of a service at a stop.
struct Timed {
    what: &'static str,
    service: u64,
    /// Minutes from 0000 of the service day.
    minutes: i64,
    service_day: u64,
    station: Station,
}

impl Timed {
    fn arrival(tables: &Tables, side: Side) -> Option<Timed> {
        Timed::of(tables, side, "arrival", |stop| stop.arrival)
    }

    fn departure(tables: &Tables, side: Side) -> Option<Timed> {
        Timed::of(tables, side, "departure", |stop| stop.departure)
    }

    /// None where the stop has no such time.
    fn of(
        tables: &Tables,
        side: Side,
        what: &'static str,
        time: impl Fn(Stop) -> Option<u64>,
    ) -> Option<Timed> {
        let stop = tables.stop(side.service, side.stop)?;
        let (minutes, station) = (dates::clock(time(stop)?), tables.station(stop.station)?);
        Some(Timed { what, service: side.service, minutes, service_day: side.date, station })
    }

    /// Whether its zone has a period on the day of the time itself.
    fn has_period(&self, tables: &Tables) -> bool {
        let Some(day) = dates::date_of(self.minutes, self.service_day).and_then(dates::count) else {
            return false;
        };
        let holds =
            |first: u64, last: u64| dates::count(first) <= Some(day) && Some(day) <= dates::count(last);
        tables.periods(self.station.zone).iter().any(|period| holds(period.first, period.last))
    }

    /// `06:30`, and where it falls on another day `06:30, which is 30:30 of service day 10 Dec 2016`.
    fn written(&self) -> String {
        let face = dates::face(self.minutes);
        let hours = dates::hours(self.minutes);
        match face == hours {
            true => face,
            false => format!("{face}, which is {hours} of service day {}", dates::date(self.service_day)),
        }
    }
}

/// The first of the times that are asked for whose day has no period.
fn no_period(tables: &Tables, times: [Option<Timed>; 2]) -> Explanation {
    let lacking = times.into_iter().flatten().find(|time| !time.has_period(tables));
    let found = lacking.as_ref().map_or("a day".into(), |time| {
        format!(
            "{} at {}, in zone {:04}: {} of service {:08} at {}",
            dates::day_of(time.minutes, time.service_day),
            code(time.station.code),
            time.station.zone,
            time.what,
            time.service,
            time.written()
        )
    });
    let periods = lacking.map_or(Vec::new(), |time| tables.periods(time.station.zone));
    let spans: Vec<String> = periods
        .iter()
        .map(|period| format!("{} to {}", dates::date(period.first), dates::date(period.last)))
        .collect();
    let expected = match spans.len() {
        0 => "a period of the zone".to_string(),
        _ => format!("a day in {}", spans.join(", or ")),
    };
    told(15, found, expected, "TIMEZONE lacks a period: ask the supplier for it.".into())
}

/// The first side that is refused.
fn change(tables: &Tables, number: u64, from: Side, to: Side) -> Explanation {
    if number == 16 {
        return not_sound();
    }
    let sides = [(from, " (the one to leave)", 2, 0), (to, " (the one to board)", 1, 1)];
    for (side, named, low, less) in sides {
        let Some(held) = tables.service(side.service) else {
            return no_service(tables, side.service, named);
        };
        if side.stop < low || side.stop > held.stop_count() - less {
            return no_stop(tables, side.service, side.stop, low, less, named);
        }
        let validity = tables.validity();
        let inside = |day: i64| {
            dates::count(validity.first).is_some_and(|first| first <= day)
                && dates::count(validity.last).is_some_and(|last| day <= last)
        };
        if !dates::count(side.date).is_some_and(inside) {
            return no_date(tables, side.date, named);
        }
    }
    no_period(tables, [Timed::arrival(tables, from), Timed::departure(tables, to)])
}

fn no_station(tables: &Tables, asked: &str) -> Explanation {
    let like = tables.stations().map(|station| code(station.code)).find(|held| {
        held.eq_ignore_ascii_case(asked.trim())
            || (held.chars().count() == asked.chars().count()
                && held.chars().zip(asked.chars()).filter(|(a, b)| a != b).count() == 1)
    });
    let advice = match like {
        Some(like) => format!("STATIONS has {like}: is that meant?"),
        None => "The short name is the code in columns 3-9 of STATIONS, in its own capitals.".into(),
    };
    told(17, format!("station \"{asked}\""), "the short name of a row of STATIONS".into(), advice)
}

/// A station's code without the blanks behind it.
pub fn code(packed: u64) -> String {
    latin(&unpack(packed, 7)).trim_end().to_string()
}

/// A code as a clerk writes it, filled with blanks to seven; one that is too
/// long, or has other characters, names no station.
pub fn packed(code: &str) -> u64 {
    let none = u64::MAX;
    let Some(mut bytes) = crate::files::to_latin(code) else { return none };
    if bytes.len() > 7 {
        return none;
    }
    bytes.resize(7, b' ');
    pack(&bytes)
}

/// Explains why a block is not one block of a service.
pub fn not_one_block(service: u64, block: &[u8]) -> Explanation {
    let first = lines(block).next().map(|line| line.text).unwrap_or_default();
    let wanted = format!("#{service:08}");
    let opens = first == wanted.as_bytes();
    let other = lines(block).skip(1).position(|line| matches!(line.text.first(), Some(b'#' | b'@')));
    let lost =
        block.iter().enumerate().any(|(at, &byte)| byte == b'\n' && (at == 0 || block[at - 1] != b'\r'));
    let expected = format!(
        "`{wanted}` as the first line, no other line that begins `#` or `@`, and CR LF at the end of each"
    );
    let (found, advice) = if block.is_empty() {
        ("an empty file".to_string(), "Write the block's lines into the file.")
    } else if service > 99_999_999 {
        (
            format!("service {service}, of more than eight digits"),
            "Give the service's number as TIMETBLS has it.",
        )
    } else if lost {
        (
            "lines that end in LF alone".to_string(),
            "CR LF was lost on the way, or by an editor: save the file with CR LF (as `unix2dos FILE` does) and amend again.",
        )
    } else if !opens {
        (
            format!("a first line \"{}\"", super::visible(&first[..first.len().min(60)])),
            "Is it this service's block? `calyxcabin lines STORE SERVICE` writes the lines as they stand.",
        )
    } else if let Some(at) = other {
        (format!("line {}, which begins a second block", at + 2), "Amend one service at a time.")
    } else {
        ("a last line without CR LF".to_string(), "End the last line with CR LF and amend again.")
    };
    told(11, found, expected, advice.into())
}
