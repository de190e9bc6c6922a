//! By which clocks times go: the zone's period on the day of a time itself, beside
//! the one on the service day. Counted so that a comparison is known to meet both
//! sides of every border.

use crate::calendar;
use crate::place::*;
use crate::questions::{Question, Side};
use crate::tables::{is_stop, minutes_of, rows_in_use, times_of, Tables, GROUP};

const MINUTES_IN_DAY: i64 = 1_440;

/// What a question came to, as far as clocks are concerned.
#[derive(Clone, Copy, Debug, PartialEq, Eq)]
pub enum CameTo {
    /// Times on the reference clock, or a gap between them.
    Times,
    /// Refusal 15.
    NoPeriod,
}

/// The hours that a zone's clocks are ahead; none where no period holds the day.
type Hours = Option<i64>;

/// A time at a station, and the clocks there on the service day, on the day of the
/// time itself, and on those before and after it.
struct Timed {
    minute: i64,
    service_day: Hours,
    own_day: Hours,
    day_before: Hours,
    day_after: Hours,
}

/// The zone of the station at which a service stops, and its times as written.
struct Call {
    zone: u64,
    arrival: Option<u64>,
    departure: Option<u64>,
}

/// What a question of sound tables tells of clocks, as `tally::OF_CLOCKS` has it.
pub fn told(tables: &Tables, question: &Question, came_to: CameTo) -> Vec<String> {
    let told = match *question {
        Question::StopTime { service, stop, date } => of_stop(tables, Side { service, stop, date }, came_to),
        Question::Change { from, to } => of_change(tables, from, to, came_to),
        _ => None,
    };
    told.unwrap_or_default()
}

fn of_stop(tables: &Tables, side: Side, came_to: CameTo) -> Option<Vec<String>> {
    let call = Call::of(tables, side)?;
    let timed = |time: Option<u64>| time.map(|time| Timed::new(tables, call.zone, side.date, time));
    let (arrival, departure) = (timed(call.arrival), timed(call.departure));
    let (arrival, departure) = (arrival.as_ref(), departure.as_ref());
    let told = match came_to {
        CameTo::NoPeriod => no_period(arrival, departure).into_iter().map(String::from).collect(),
        CameTo::Times => {
            let both = arrival.zip(departure);
            let differ = both.is_some_and(|(arrival, departure)| arrival.own_day != departure.own_day);
            let between = differ.then(|| "arrival and departure by different hours".into());
            let each = [("arrival", arrival), ("departure", departure)];
            let by_hours = each.into_iter().filter_map(|(what, time)| by_hours(what, time?));
            let at_midnight = each.into_iter().filter_map(|(_, time)| time?.at_midnight().map(String::from));
            by_hours.chain(between).chain(at_midnight).collect()
        }
    };
    Some(named("stop time", told))
}

fn of_change(tables: &Tables, from: Side, to: Side, came_to: CameTo) -> Option<Vec<String>> {
    let (left, boarded) = (Call::of(tables, from)?, Call::of(tables, to)?);
    let arrival = Timed::new(tables, left.zone, from.date, left.arrival?);
    let departure = Timed::new(tables, boarded.zone, to.date, boarded.departure?);
    let told = match came_to {
        CameTo::NoPeriod => no_period_between(&arrival, &departure).into_iter().map(String::from).collect(),
        CameTo::Times => [by_hours("A", &arrival), by_hours("B", &departure)].into_iter().flatten().collect(),
    };
    Some(named("change", told))
}

fn named(question: &str, told: Vec<String>) -> Vec<String> {
    told.into_iter().map(|told| format!("{question}: {told}")).collect()
}

/// How a time that was told goes by other clocks than the service day's.
fn by_hours(what: &str, time: &Timed) -> Option<String> {
    match (time.service_day, time.own_day) {
        (_, None) => Some(format!("{what} without a period")),
        (None, Some(_)) => Some(format!("{what}, the service day having no period")),
        (Some(day), Some(own)) if day != own => Some(format!("{what} by other hours than the service day's")),
        _ => None,
    }
}

/// Which times of a stop brought about 15, where the service day has a period.
fn no_period(arrival: Option<&Timed>, departure: Option<&Timed>) -> Option<&'static str> {
    let lacks = |time: Option<&Timed>| time.map(|time| time.own_day.is_none());
    let service_day = arrival.or(departure)?.service_day;
    Some(match (lacks(arrival), lacks(departure)) {
        (None | Some(false), None | Some(false)) => "refused 15 by no time",
        _ if service_day.is_none() => return None,
        (Some(true), Some(true)) => "refused 15 by both times, the service day having a period",
        (Some(true), Some(false)) => "refused 15 by the arrival alone, the service day having a period",
        (Some(false), Some(true)) => "refused 15 by the departure alone, the service day having a period",
        (_, None) | (None, _) => "refused 15 by the only time, the service day having a period",
    })
}

/// Which side of a change brought about 15, where both service days have periods.
fn no_period_between(arrival: &Timed, departure: &Timed) -> Option<&'static str> {
    let had = arrival.service_day.is_some() && departure.service_day.is_some();
    Some(match (arrival.own_day, departure.own_day) {
        (Some(_), Some(_)) => "refused 15 by neither side",
        _ if !had => return None,
        (None, None) => "refused 15 by both sides, the service days having periods",
        (None, Some(_)) => "refused 15 by A alone, the service days having periods",
        (Some(_), None) => "refused 15 by B alone, the service days having periods",
    })
}

impl Call {
    fn of(tables: &Tables, side: Side) -> Option<Call> {
        let mut rows = rows_in_use(tables, TIMETBLS);
        rows.find(|row| row[0] == GROUP && row[1] == side.service)?;
        let mut stops = rows.take_while(|row| row[0] != GROUP).filter(|row| is_stop(row));
        let row = stops.nth(usize::try_from(side.stop.checked_sub(1)?).ok()?)?;
        let [arrival, departure] = times_of(row);
        let station = rows_in_use(tables, STATIONS).skip(1).find(|station| station[2] == row[1])?;
        Some(Call { zone: station[5], arrival, departure })
    }
}

impl Timed {
    fn new(tables: &Tables, zone: u64, date: u64, time: u64) -> Timed {
        let minutes = minutes_of(time);
        let service_day = calendar::counted(date);
        let own_day = service_day + minutes / MINUTES_IN_DAY;
        Timed {
            minute: minutes % MINUTES_IN_DAY,
            service_day: hours_on(tables, zone, service_day),
            own_day: hours_on(tables, zone, own_day),
            day_before: hours_on(tables, zone, own_day - 1),
            day_after: hours_on(tables, zone, own_day + 1),
        }
    }

    /// Whether it is the last minute before other clocks, or the first with them.
    fn at_midnight(&self) -> Option<&'static str> {
        match self.minute {
            0 if self.own_day != self.day_before => Some("the first minute of other hours"),
            1_439 if self.own_day != self.day_after => Some("the last minute before other hours"),
            _ => None,
        }
    }
}

fn hours_on(tables: &Tables, zone: u64, day: i64) -> Hours {
    let mut rows = rows_in_use(tables, TIMEZONE).skip(1);
    rows.find(|row| row[0] == GROUP && row[1] == zone)?;
    let mut periods = rows.take_while(|row| row[0] != GROUP);
    let holds = |row: &&[u64]| (calendar::counted(row[2])..=calendar::counted(row[3])).contains(&day);
    let period = periods.find(holds)?;
    let hours = period[1] as i64;
    Some(if period[0] == u64::from(b'+') { hours } else { -hours })
}
