//! Services and stations as they are shown.

use crate::answers;
use crate::dates::{self, brief_time_on, clock, date, time};
use crate::files::latin;
use crate::names::{Names, Operators};
use crate::records::unpack;
use crate::speech::{counted, Colour};
use crate::store::Store;
use crate::tables::{stop_of, Service, Tables};
use crate::trouble::Trouble;

/// A service as it stands, with the dates of its times where a date was asked for;
/// `runs` says of each record of validity whether it runs on that date.
pub fn service(
    store: &Store,
    held: Service,
    day: Option<u64>,
    runs: &[bool],
) -> Result<answers::Service, Trouble> {
    let (names, operators) = (Names::of(store)?, Operators::of(store)?);
    let tables = &store.tables;
    let validity = tables.validity();
    let days = dates::count(validity.last)
        .zip(dates::count(validity.first))
        .map_or(0, |(last, first)| (last - first + 1) as usize);
    let mut shown = answers::Service {
        service: held.number(),
        numbers: Vec::new(),
        validities: Vec::new(),
        modes: Vec::new(),
        attributes: Vec::new(),
        stops: Vec::new(),
    };
    let mut stops = 0;
    for row in held.rows() {
        match row[0] as u8 {
            b'%' => shown.numbers.push(answers::Number {
                company: row[1],
                name: operators.company(row[1]),
                number: row[2],
                first: row[3],
                last: row[4],
            }),
            b'-' => shown.validities.push(answers::Validity {
                footnote: row[1],
                first: row[2],
                last: row[3],
                days: tables.days_of(row[1], days).map_or(0, |days| days.iter().filter(|&&day| day).count()),
                runs: runs.get(shown.validities.len()).copied(),
            }),
            b'&' => shown.modes.push(answers::Mode {
                mode: latin(&unpack(row[1], 4)),
                name: operators.mode(row[1]),
                first: row[2],
                last: row[3],
            }),
            b'*' => shown.attributes.push(answers::Attribute {
                attribute: latin(&unpack(row[1], 4)),
                first: row[2],
                last: row[3],
                footnote: row[4],
            }),
            b';' => shown.stops.push(answers::Called {
                stop: None,
                station: latin(&unpack(row[1], 7)),
                name: names.station(row[1]),
                arrival: None,
                departure: None,
                arrival_date: None,
                departure_date: None,
                alight: false,
                board: false,
            }),
            _ => {
                let Some(stop) = stop_of(row) else { continue };
                stops += 1;
                let (arrival, departure) = (stop.arrival.map(clock), stop.departure.map(clock));
                let date_of = |minutes: Option<i64>| answers::date_of(minutes?, day?);
                shown.stops.push(answers::Called {
                    stop: Some(stops),
                    station: latin(&unpack(stop.station, 7)),
                    name: names.station(stop.station),
                    arrival,
                    departure,
                    arrival_date: date_of(arrival),
                    departure_date: date_of(departure),
                    alight: stop.arrival.is_some(),
                    board: stop.departure.is_some(),
                });
            }
        }
    }
    Ok(shown)
}

/// `all the way`, or from one stop to another.
fn reach(first: u64, last: u64, stops: u64) -> String {
    match (first, last) {
        (1, last) if last == stops => String::new(),
        _ => format!(", from stop {first} to {last}"),
    }
}

pub fn service_text(shown: &answers::Service, day: Option<u64>, tables: &Tables, colour: Colour) -> String {
    let stops = shown.stops.iter().filter(|stop| stop.stop.is_some()).count() as u64;
    let mut text = colour.strong(&format!("Service {:08}, {}", shown.service, counted(stops, "stop"))) + "\n";
    for number in &shown.numbers {
        let name = number.name.as_deref().unwrap_or("");
        text += &format!(
            "  number {} of company {:03} {name}{}\n",
            number.number,
            number.company,
            reach(number.first, number.last, stops)
        );
    }
    for mode in &shown.modes {
        let name = mode.name.as_deref().unwrap_or("");
        text += &format!("  mode {} {name}{}\n", mode.mode.trim_end(), reach(mode.first, mode.last, stops));
    }
    for attribute in &shown.attributes {
        text += &format!(
            "  attribute {} from stop {} to {}, footnote {:05}\n",
            attribute.attribute.trim_end(),
            attribute.first,
            attribute.last,
            attribute.footnote
        );
    }
    let validity = tables.validity();
    for record in &shown.validities {
        let on = match (record.runs, day) {
            (Some(true), Some(day)) => format!("; {} on {}", colour.good("runs"), date(day)),
            (Some(false), Some(day)) => format!("; {} on {}", colour.bad("does not run"), date(day)),
            _ => String::new(),
        };
        text += &format!(
            "  runs on {} from {} to {} (footnote {:05}){}{on}\n",
            counted(record.days as u64, "day"),
            date(validity.first),
            date(validity.last),
            record.footnote,
            reach(record.first, record.last, stops),
        );
    }
    let name = |stop: &answers::Called| {
        format!("{} {}", stop.station.trim_end(), stop.name.as_deref().unwrap_or("")).trim_end().to_string()
    };
    let width =
        shown.stops.iter().map(|stop| name(stop).chars().count()).max().unwrap_or(0).max("station".len());
    let when = |minutes: Option<i64>| match (minutes, day) {
        (None, _) => String::new(),
        (Some(minutes), Some(day)) => brief_time_on(minutes, day),
        (Some(minutes), None) => time(minutes),
    };
    let times: Vec<[String; 2]> =
        shown.stops.iter().map(|stop| [stop.arrival, stop.departure].map(when)).collect();
    let widest = |which: usize| times.iter().map(|times| times[which].len()).max().unwrap_or(0);
    let [arrives, departs] = [widest(0), widest(1)].map(|width| width.max("arrives".len()));
    text += &format!("\n  stop  {:<width$}  {:<arrives$}  departs\n", "station", "arrives");
    for (stop, [arrival, departure]) in shown.stops.iter().zip(&times) {
        let number = stop.stop.map_or(String::new(), |number| number.to_string());
        let may = match (stop.stop, stop.alight, stop.board) {
            (None, ..) => "passes without a stop",
            (Some(1), ..) => "board",
            (Some(number), ..) if number == stops => "alight",
            (_, true, true) => "alight and board",
            (_, true, false) => "alight only",
            _ => "board only",
        };
        text += &format!(
            "  {number:>4}  {:<width$}  {arrival:<arrives$}  {departure:<departs$}  {may}\n",
            name(stop)
        );
    }
    text
}

pub fn station_text(shown: &answers::Station, both: &str, tables: &Tables, colour: Colour) -> String {
    let mut text = colour.strong(both) + "\n";
    text += &match (shown.flag, shown.change_time) {
        (0, _) => "  changes      none are made here (flag 0), unless CHANGES has the pair of services\n"
            .to_string(),
        (flag, 99) => format!(
            "  changes      are made here (flag {flag}); change time 99, the highest number its two \
             columns can hold: the real time may be longer\n"
        ),
        (flag, change_time) => format!(
            "  changes      are made here (flag {flag}); change time {}\n",
            dates::length(change_time as i64)
        ),
    };
    text += &format!("  country      {}\n", shown.country.trim_end());
    let periods: Vec<String> = tables
        .periods(shown.zone)
        .iter()
        .map(|period| {
            let sign = if period.ahead { '+' } else { '-' };
            format!("{sign}{:02} h from {} to {}", period.hours, date(period.first), date(period.last))
        })
        .collect();
    text += &format!("  time zone    {:04}: {}\n", shown.zone, periods.join(", "));
    text += &format!("  calls        {}\n", shown.calls.len());
    for call in &shown.calls {
        let when =
            |what: &str, minutes: Option<i64>| minutes.map(|minutes| format!("{what} {}", time(minutes)));
        let said: Vec<String> =
            [when("arrives", call.arrival), when("departs", call.departure)].into_iter().flatten().collect();
        text += &format!("    service {:08}, stop {:>3}: {}\n", call.service, call.stop, said.join(", "));
    }
    text
}
