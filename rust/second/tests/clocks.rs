//! The clocks change at sea: a time goes by the period of the zone that holds the
//! day of the time itself, the service day and a day more for every 1440 minutes.
//! The answers are worked out by hand.

mod common;

use common::{service_number, station, Sample, HEADER};
use second::questions::{Change, Reason, Side, Source, Verdict};
use second::{change, running_day, stop_time, File, File::*, Store};

/// Wednesday to Tuesday; the 28th is a Saturday.
const IN_MARCH: &str = "25032015,31032015";
const AT_THE_CALENDARS_END: &str = "25129999,31129999";

/// An hour ahead up to the 28th, two from the 29th on.
const CHANGED: &[&str] = &["+01,01012015,28032015", "+02,29032015,31122015"];
/// No period after the 28th.
const ENDED: &[&str] = &["+01,01012015,28032015"];
/// No period up to the 28th.
const BEGUN: &[&str] = &["+02,29032015,31122015"];
/// No period on the 29th.
const PARTED: &[&str] = &["+01,01012015,28032015", "+02,30032015,31122015"];

/// Home and pier in one zone with these periods, and services 1, 2, .. with
/// these stops. At the pier 30 minutes are needed.
fn sample(validity: &str, periods: &[&str], services: &[&[&str]]) -> Sample {
    let mut sample = Sample::new();
    for file in File::ALL {
        sample.set(file, 1, &HEADER.replace("01012015,07012015", validity));
    }
    for file in [TimeZone, Stations, TimeTbls, Changes, XChanges] {
        sample.keep_lines(file, 1);
    }
    sample.push(TimeZone, "#0001");
    periods.iter().for_each(|period| sample.push(TimeZone, period));
    sample.push(Stations, &station(1, "home", 5, "NL", "0001"));
    sample.push(Stations, &station(1, "pier", 30, "NL", "0001"));
    for (stops, number) in services.iter().zip(1..) {
        let opening = format!("#{number:08}");
        let train = service_number("100", "000", "999");
        for line in [&opening, &train, "-00000,000,999", "&IC  ,000,999"].iter().chain(*stops) {
            sample.push(TimeTbls, line);
        }
    }
    sample
}

fn store(validity: &str, periods: &[&str], services: &[&[&str]]) -> Store {
    sample(validity, periods, services).load().unwrap()
}

fn march(day: u64) -> u64 {
    day * 1_000_000 + 32_015
}

/// Reference arrival and departure, or the refusal's number.
fn reference(store: &Store, stop: u64, date: u64) -> Result<[Option<i32>; 2], u8> {
    let times = stop_time(store, 1, stop, date).map_err(|refusal| refusal.number)?;
    Ok([times.reference.arrival, times.reference.departure].map(|time| time.map(|time| time.0)))
}

/// The same of a service's only middle stop, at the pier, on a day of March.
fn at_the_pier(periods: &[&str], stop: &str, day: u64) -> Result<[Option<i32>; 2], u8> {
    let store = store(IN_MARCH, periods, &[&[">home   ,2000", stop, "<home   ,3000"]]);
    reference(&store, 2, march(day))
}

/// The reference arrival of a service that ends at the pier at this time.
fn arrival(validity: &str, periods: &[&str], time: &str, date: u64) -> Result<i32, u8> {
    let store = store(validity, periods, &[&[">home   ,0000", &format!("<pier   ,{time}")]]);
    reference(&store, 2, date).map(|[arrival, _]| arrival.expect("an arrival"))
}

/// From service 1, at its last stop, to service 2, at its first.
fn asked(store: &Store, from: u64, to: u64) -> Result<Change, u8> {
    let from = Side { service: 1, stop: 2, date: from };
    let to = Side { service: 2, stop: 1, date: to };
    change(store, from, to).map_err(|refusal| refusal.number)
}

fn answer(verdict: Verdict, gap: i32, source: Source, needed: u16) -> Result<Change, u8> {
    Ok(Change { verdict, gap: Some(gap), source: Some(source), needed: Some(needed) })
}

const TOO_SHORT: Verdict = Verdict::No(Reason::GapTooShort);
const BOAT: &[&str] = &[">home   ,2200", "<pier   ,3100"];
const TRAIN: &[&str] = &[">pier   ,0730", "<home   ,0900"];

#[test]
fn the_night_boat_lands_after_the_hour_has_shifted() {
    let store = store(IN_MARCH, CHANGED, &[BOAT]);
    let times = stop_time(&store, 1, 2, march(28)).unwrap();
    assert_eq!(times.local.arrival.map(|time| time.0), Some(1860));
    assert_eq!(reference(&store, 1, march(28)), Ok([None, Some(1260)]));
    assert_eq!(reference(&store, 2, march(28)), Ok([Some(1740), None]));
    // A day earlier both times are before the change, a day later both after it.
    assert_eq!(reference(&store, 1, march(27)), Ok([None, Some(1260)]));
    assert_eq!(reference(&store, 2, march(27)), Ok([Some(1800), None]));
    assert_eq!(reference(&store, 1, march(29)), Ok([None, Some(1200)]));
    assert_eq!(reference(&store, 2, march(29)), Ok([Some(1740), None]));
}

#[test]
fn a_change_goes_by_the_day_of_the_arrival() {
    let store = store(IN_MARCH, CHANGED, &[BOAT, TRAIN]);
    let ask = |from, to| asked(&store, march(from), march(to));
    // 330 + 1440 - 1740; by the service day it was -30.
    assert_eq!(ask(28, 29), answer(Verdict::Yes, 30, Source::Stations, 30));
    // 390 + 1440 - 1800.
    assert_eq!(ask(27, 28), answer(Verdict::Yes, 30, Source::Stations, 30));
    assert_eq!(ask(28, 30), answer(Verdict::Yes, 1470, Source::Stations, 30));
    assert_eq!(ask(28, 28), answer(TOO_SHORT, -1350, Source::Stations, 30));
}

#[test]
fn a_change_goes_by_the_day_of_the_departure() {
    let services: [&[&str]; 2] = [&[">home   ,2200", "<pier   ,2300"], &[">pier   ,2430", "<home   ,3000"]];
    let store = store(IN_MARCH, CHANGED, &services);
    let ask = |from, to| asked(&store, march(from), march(to));
    // 23:00 is 1320 on the reference clock up to the 28th, 1260 after it; 24:30
    // is 1410 up to the 27th, 1350 after it.
    assert_eq!(ask(27, 27), answer(Verdict::Yes, 90, Source::Stations, 30));
    assert_eq!(ask(28, 28), answer(Verdict::Yes, 30, Source::Stations, 30));
    assert_eq!(ask(29, 29), answer(Verdict::Yes, 90, Source::Stations, 30));
    assert_eq!(ask(28, 27), answer(TOO_SHORT, -1350, Source::Stations, 30));
}

#[test]
fn the_last_minute_before_a_period_ends() {
    let on = |day, time| arrival(IN_MARCH, ENDED, time, march(day));
    assert_eq!(on(28, "2359"), Ok(1379));
    assert_eq!(on(28, "2400"), Err(15));
    assert_eq!(on(27, "2400"), Ok(1380));
    assert_eq!(on(27, "4759"), Ok(2819));
    assert_eq!(on(27, "4800"), Err(15));
    assert_eq!(on(26, "7159"), Ok(4259));
    assert_eq!(on(26, "7200"), Err(15));
    assert_eq!(on(25, "9559"), Ok(5699));
    assert_eq!(on(25, "9600"), Err(15));
    assert_eq!(on(25, "9959"), Err(15));
    assert_eq!(on(29, "0000"), Err(15));
}

#[test]
fn the_first_minute_of_a_period() {
    let on = |day, time| arrival(IN_MARCH, BEGUN, time, march(day));
    assert_eq!(on(29, "0000"), Ok(-120));
    // The service day has no period, and is not asked for one.
    assert_eq!(on(28, "2359"), Err(15));
    assert_eq!(on(28, "2400"), Ok(1320));
    assert_eq!(on(27, "4759"), Err(15));
    assert_eq!(on(27, "4800"), Ok(2760));
    assert_eq!(on(25, "9559"), Err(15));
    assert_eq!(on(25, "9600"), Ok(5640));
    assert_eq!(on(25, "9959"), Ok(5879));
}

#[test]
fn a_day_between_two_periods() {
    let on = |day, time| arrival(IN_MARCH, PARTED, time, march(day));
    assert_eq!(on(28, "2359"), Ok(1379));
    assert_eq!(on(28, "2400"), Err(15));
    assert_eq!(on(28, "4759"), Err(15));
    assert_eq!(on(28, "4800"), Ok(2760));
}

#[test]
fn arrival_and_departure_have_a_day_each() {
    let stop = "+pier   ,2350,2410";
    assert_eq!(at_the_pier(CHANGED, stop, 27), Ok([Some(1370), Some(1390)]));
    // The clocks go ahead in between: it leaves before it arrives.
    assert_eq!(at_the_pier(CHANGED, stop, 28), Ok([Some(1370), Some(1330)]));
    assert_eq!(at_the_pier(CHANGED, stop, 29), Ok([Some(1310), Some(1330)]));
    // 15 by the departure alone, and by the arrival alone.
    assert_eq!(at_the_pier(ENDED, stop, 27), Ok([Some(1370), Some(1390)]));
    assert_eq!(at_the_pier(ENDED, stop, 28), Err(15));
    assert_eq!(at_the_pier(BEGUN, stop, 28), Err(15));
    assert_eq!(at_the_pier(BEGUN, stop, 27), Err(15));
}

#[test]
fn a_time_that_is_not_there_asks_for_no_period() {
    assert_eq!(at_the_pier(ENDED, "+pier   ,2350,9999", 28), Ok([Some(1370), None]));
    assert_eq!(at_the_pier(ENDED, "+pier   ,2410,9999", 28), Err(15));
    assert_eq!(at_the_pier(BEGUN, "+pier   ,9999,2410", 28), Ok([None, Some(1330)]));
    assert_eq!(at_the_pier(BEGUN, "+pier   ,9999,2350", 28), Err(15));
    // The first stop has no arrival, the last no departure.
    let late = store(IN_MARCH, BEGUN, &[&[">home   ,2430", "<pier   ,3100"]]);
    assert_eq!(reference(&late, 1, march(28)), Ok([None, Some(1350)]));
    assert_eq!(reference(&late, 2, march(28)), Ok([Some(1740), None]));
    assert_eq!(reference(&late, 1, march(27)), Err(15));
    let boat = store(IN_MARCH, ENDED, &[BOAT]);
    assert_eq!(reference(&boat, 1, march(28)), Ok([None, Some(1260)]));
    assert_eq!(reference(&boat, 2, march(28)), Err(15));
    assert_eq!(reference(&boat, 2, march(27)), Ok([Some(1800), None]));
}

#[test]
fn a_single_time_has_a_single_day() {
    assert_eq!(at_the_pier(CHANGED, ".pier   ,2359", 28), Ok([Some(1379), Some(1379)]));
    assert_eq!(at_the_pier(CHANGED, ".pier   ,2400", 28), Ok([Some(1320), Some(1320)]));
    assert_eq!(at_the_pier(CHANGED, ".pier   ,2400", 27), Ok([Some(1380), Some(1380)]));
    assert_eq!(at_the_pier(ENDED, ".pier   ,2359", 28), Ok([Some(1379), Some(1379)]));
    assert_eq!(at_the_pier(ENDED, ".pier   ,2400", 28), Err(15));
    assert_eq!(at_the_pier(BEGUN, ".pier   ,2400", 28), Ok([Some(1320), Some(1320)]));
}

#[test]
fn a_change_is_refused_by_either_day_alone() {
    let ask = |periods: &[&str], services: [&[&str]; 2], from, to| {
        asked(&store(IN_MARCH, periods, &services), march(from), march(to))
    };
    // The boat of the 28th lands on a day without a period; the train leaves on
    // one with it.
    assert_eq!(ask(ENDED, [BOAT, TRAIN], 28, 28), Err(15));
    assert_eq!(ask(ENDED, [BOAT, TRAIN], 27, 28), answer(Verdict::Yes, 30, Source::Stations, 30));
    // The service that is boarded leaves just before midnight, or at it.
    let evening: &[&str] = &[">home   ,2200", "<pier   ,2300"];
    let before: &[&str] = &[">pier   ,2359", "<home   ,3000"];
    let midnight: &[&str] = &[">pier   ,2400", "<home   ,3000"];
    assert_eq!(ask(ENDED, [evening, before], 28, 28), answer(Verdict::Yes, 59, Source::Stations, 30));
    assert_eq!(ask(ENDED, [evening, midnight], 28, 28), Err(15));
    assert_eq!(ask(ENDED, [evening, midnight], 27, 27), answer(Verdict::Yes, 60, Source::Stations, 30));
    // Neither service day has a period, and both times have one: 1320 - 1740.
    assert_eq!(ask(BEGUN, [BOAT, midnight], 28, 28), answer(TOO_SHORT, -420, Source::Stations, 30));
    assert_eq!(ask(BEGUN, [BOAT, before], 28, 28), Err(15));
    assert_eq!(ask(BEGUN, [evening, midnight], 28, 28), Err(15));
    // What makes a No before is still told first.
    let [from, to] = [2, 1].map(|stop| Side { service: 1, stop, date: march(28) });
    let same = change(&store(IN_MARCH, ENDED, &[BOAT]), from, to).unwrap();
    assert_eq!(same.verdict, Verdict::No(Reason::SameServiceAndDate));
}

#[test]
fn all_else_goes_by_the_service_day() {
    let mut sample = sample(IN_MARCH, CHANGED, &[BOAT, TRAIN]);
    // The boat runs on the 28th alone; the exception holds on the 28th alone.
    sample.set(Footnote, 5, "0001000");
    sample.put_at(TimeTbls, 4, 1, b"-00001");
    for line in ["#00009", "0001000"] {
        sample.push(XFootnote, line);
    }
    for line in ["#pier   ", "-*  ,*   ,*  ,*   ,007,00009"] {
        sample.push(XChanges, line);
    }
    let store = sample.load().unwrap();
    assert_eq!([28, 29].map(|day| running_day(&store, 1, 1, march(day))), [Ok(true), Ok(false)]);
    assert_eq!(asked(&store, march(28), march(29)), answer(Verdict::Yes, 30, Source::XChanges, 7));
    let rests = asked(&store, march(27), march(29)).unwrap();
    assert_eq!(rests.verdict, Verdict::No(Reason::FromDoesNotRun));
    // The boat of the last day lands after it, and is asked for by its own day.
    assert_eq!(reference(&store, 2, march(31)), Ok([Some(1740), None]));
    assert_eq!(reference(&store, 2, 1_042_015), Err(14));
}

#[test]
fn days_after_the_calendars_end_lie_in_no_period() {
    let on = |day: u64, time| {
        let periods = ["+01,01019999,31129999"];
        arrival(AT_THE_CALENDARS_END, &periods, time, day * 1_000_000 + 129_999)
    };
    assert_eq!(on(31, "2359"), Ok(1379));
    assert_eq!(on(31, "2400"), Err(15));
    assert_eq!(on(31, "9959"), Err(15));
    assert_eq!(on(30, "4759"), Ok(2819));
    assert_eq!(on(30, "4800"), Err(15));
    assert_eq!(on(27, "9959"), Ok(5939));
    assert_eq!(on(28, "9559"), Ok(5699));
    assert_eq!(on(28, "9600"), Err(15));
}
