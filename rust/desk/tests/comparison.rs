//! `ask` against the second program: thousands of questions and amendments.

mod common;

use std::cmp::Reverse;
use std::collections::BTreeMap;
use std::fs;
use std::path::Path;

use common::*;
use deliveries::place::{CHANGES, STATIONS, TIMETBLS, XCHANGES};
use deliveries::questions::Side;
use deliveries::tables::{is_stop, rows_in_use, Tables, ANY_COMPANY, GROUP};
use deliveries::{
    amendment, calendar, excepted, exceptions, folder as write_folder, of_each_sort, question_on_tables,
    Amendment, Question, Rng, World,
};
use second::encode::width;
use second::questions::{Change, Source};
use second::File;
use serde_json::{json, Value};

const DELIVERIES: u64 = 150;
const QUESTIONS: usize = 100;

const SHEETS: u64 = 400;
const MINUTES_IN_DAY: i64 = 1440;

fn refused(refusal: second::Refusal) -> Value {
    let file = (refusal.file as usize).checked_sub(1).map_or("", |place| deliveries::NAMES[place]);
    json!({"refused": {"number": refusal.number, "file": file, "ordinal": refusal.ordinal, "line": refusal.line}})
}

fn answered(answer: Result<Value, second::Refusal>) -> Value {
    answer.unwrap_or_else(refused)
}

fn latin(bytes: &[u8]) -> String {
    bytes.iter().map(|&byte| char::from(byte)).collect()
}

fn stop(times: second::questions::StopTime, date: u64) -> Value {
    // A day after the last of the calendar has no period, so none is answered.
    let own_date = |local: i32| calendar::written(calendar::counted(date) + i64::from(local) / 1440);
    let time = |local: Option<second::LocalMinutes>, reference: Option<second::ReferenceMinutes>| {
        local.zip(reference).map_or(Value::Null, |(local, reference)| {
            let date = format!("{:08}", own_date(local.0));
            json!({"local": local.0, "reference": reference.0, "date": date})
        })
    };
    json!({
        "station": latin(&times.station.to_be_bytes()[1..]),
        "arrival": time(times.local.arrival, times.reference.arrival),
        "departure": time(times.local.departure, times.reference.departure),
    })
}

/// The exceptions of a change whose needed time is that of XCHANGES, and why the
/// first of them counts.
fn reason(store: &second::Store, rooms: &[usize; 11], from: Side, to: Side) -> [(String, Value); 2] {
    let lengths = File::ALL.map(|file| rooms[file.index()] * width(file));
    let mut applied = exceptions::applied(&second::encode(store, &lengths), from, to).expect("exceptions");
    let place = |[from_company, from_mode, to_company, to_mode]: [u64; 4]| {
        second::rank(from_company, from_mode, to_company, to_mode)
    };
    applied.sort_by_key(|row| (Reverse(place(row.keys)), Reverse(row.time), row.line));
    let beside: Vec<u64> =
        applied.iter().filter(|row| place(row.keys) == place(applied[0].keys)).map(|row| row.time).collect();
    let because = match beside[..] {
        [_] if applied.len() == 1 => "only",
        [_] => "higher-place",
        [first, .., last] if first == last => "same-time",
        _ => "larger-time",
    };
    let company = |key: u64| if key == ANY_COMPANY { "*  ".into() } else { format!("{key:03}") };
    let mode = |key: u64| latin(&key.to_be_bytes()[4..]);
    let told = applied.iter().zip(0..).map(|(row, at)| {
        let [from_company, from_mode, to_company, to_mode] = row.keys;
        json!({
            "line": row.line,
            "from_company": company(from_company),
            "from_mode": mode(from_mode),
            "to_company": company(to_company),
            "to_mode": mode(to_mode),
            "time": row.time,
            "footnote": row.footnote,
            "pattern": row.pattern(),
            "place": place(row.keys),
            "counts": at == 0,
        })
    });
    [("exceptions".into(), told.collect()), ("because".into(), because.into())]
}

fn side(side: Side) -> second::questions::Side {
    second::questions::Side { service: side.service, stop: side.stop, date: side.date }
}

/// A desk of the second program: its store and the blocks that it accepted.
struct Other<'a> {
    store: second::Store,
    rooms: [usize; 11],
    files: &'a [Vec<u8>; 11],
    blocks: BTreeMap<u64, Vec<u8>>,
}

impl Other<'_> {
    fn amend(&mut self, Amendment { service, block }: &Amendment) -> Value {
        let answer = second::amend(&mut self.store, *service, block);
        if answer.is_ok() {
            self.blocks.insert(*service, block.clone());
        }
        answered(answer.map(|answer| json!({"accepted": {"days": answer.days, "services": answer.services}})))
    }

    fn lines(&self, service: u64) -> Value {
        let block = self.blocks.get(&service).map_or(&[][..], Vec::as_slice);
        let lines = second::lines_now(&self.files[TIMETBLS], block, service);
        answered(lines.map(|lines| json!({"lines": latin(lines)})))
    }

    fn name(&self, code: &[u8]) -> Value {
        let mut filled = code.to_vec();
        filled.resize(filled.len().max(7), b' ');
        let packed = match filled.len() {
            7 => filled.iter().fold(0, |word, &byte| word << 8 | u64::from(byte)),
            _ => u64::MAX,
        };
        let name = second::name(&self.files[STATIONS], packed);
        answered(name.map(|name| json!({"name": latin(name)})))
    }
}

fn some_code(rng: &mut Rng, stations: &[u8]) -> Vec<u8> {
    let rows: Vec<&[u8]> = stations.split(|&byte| byte == b'\n').filter(|row| row.len() == 74).collect();
    let mut code = match rows.is_empty() || rng.percent(15) {
        true => b"NOWHERE"[..rng.below(8)].to_vec(),
        false => rng.pick(&rows)[2..9].to_vec(),
    };
    if rng.percent(50) {
        while code.last() == Some(&b' ') {
            code.pop();
        }
    }
    code
}

/// A question for `ask` and what the second program answers.
fn question(
    rng: &mut Rng,
    world: &World,
    other: &mut Other,
    folder: &Path,
    number: usize,
) -> (String, Value) {
    match rng.below(10) {
        0 | 1 => {
            let amendment = amendment(rng, world);
            let file = folder.join(format!("block {number}"));
            fs::write(&file, &amendment.block).unwrap();
            (format!("amend {} {}", amendment.service, file.display()), other.amend(&amendment))
        }
        2 => {
            let code = some_code(rng, &other.files[STATIONS]);
            (format!("name {}", latin(&code)), other.name(&code))
        }
        3 => {
            let service = match rng.percent(10) || world.services.is_empty() {
                true => rng.word() >> rng.below(64),
                false => rng.pick(&world.services).number,
            };
            (format!("lines {service}"), other.lines(service))
        }
        _ => match question_on_tables(rng, world) {
            Question::RunningDay { service, leg, date } => {
                let answer = second::running_day(&other.store, service, leg, date);
                (
                    format!("runs {service} {leg} {date:08}"),
                    answered(answer.map(|runs| json!({"runs": runs}))),
                )
            }
            Question::StopTime { service, stop: at, date } => {
                let answer = second::stop_time(&other.store, service, at, date);
                (format!("stop {service} {at} {date}"), answered(answer.map(|times| stop(times, date))))
            }
            Question::Change { from: a, to: b } => {
                let answer = second::change(&other.store, side(a), side(b));
                let asked =
                    format!("change {} {} {} {} {} {}", a.service, a.stop, a.date, b.service, b.stop, b.date);
                let told = answer.map(|answer| {
                    let mut told = changed(answer);
                    if answer.source == Some(Source::XChanges) {
                        let reason = reason(&other.store, &other.rooms, a, b);
                        told.as_object_mut().expect("an object").extend(reason);
                    }
                    told
                });
                (asked, answered(told))
            }
            other => unreachable!("{other:?} is not asked of tables"),
        },
    }
}

#[test]
fn ask_answers_as_the_second_program_does() {
    let folder = folder("comparison");
    let mut met: BTreeMap<String, usize> = BTreeMap::new();
    for seed in 0..DELIVERIES {
        // Exceptions beat one another in more ways than the other sorts meet.
        let (world, case) = if seed % 3 == 0 { excepted(seed) } else { of_each_sort(seed) };
        let delivery = folder.join(format!("delivery {seed}"));
        write_folder::write(&case.texts(), &delivery).unwrap();
        let mut rng = Rng::new(seed ^ 0xA5C);
        let spare = rng.below(30);
        let store = folder.join(format!("store {seed}"));
        line(&format!("open {{}} {{}} --spare {spare}"), &[&delivery, &store]).is(0, "Accepted");
        let rooms = case.texts().map(|text| second::count_lines(text) + spare);
        let held = second::load(&case.texts(), &rooms).expect("a sound delivery");
        let mut other = Other { store: held, rooms, files: &case.files, blocks: BTreeMap::new() };
        let asked: Vec<(String, Value)> =
            (0..QUESTIONS).map(|number| question(&mut rng, &world, &mut other, &folder, number)).collect();
        // Blocks are written anew for each delivery, so each is asked at once.
        let lines: String = asked.iter().map(|(line, _)| format!("{line}\n")).collect();
        let said = ask(&store, &lines);
        assert_eq!(said.status, Some(0), "{}", said.err);
        let answers = answers(&said);
        assert_eq!(answers.len(), asked.len());
        for ((line, expected), answer) in asked.iter().zip(&answers) {
            assert_eq!(answer, expected, "{line} of delivery {seed}");
            let first = expected.as_object().unwrap().iter().next().unwrap();
            let kind = match first.0.as_str() {
                "refused" => format!("refused {}", first.1["number"]),
                "because" => "change".to_string(),
                key => key.to_string(),
            };
            *met.entry(format!("{} {kind}", line.split(' ').next().unwrap())).or_default() += 1;
            if let Some(because) = expected.get("because").and_then(Value::as_str) {
                *met.entry(format!("because {because}")).or_default() += 1;
            }
        }
        // The tables made again from delivery and journal are the very same.
        let tables = store.join("1/tables");
        let before = fs::read(&tables).unwrap();
        fs::remove_file(&tables).unwrap();
        line("lines {} 0", &[&store]);
        let said = line("station {} X", &[&store]);
        assert!(fs::read(&tables).unwrap() == before, "delivery {seed}: {said:#?}");
        fs::remove_dir_all(&store).unwrap();
        fs::remove_dir_all(&delivery).unwrap();
    }
    println!("{met:#?}");
    for kind in [
        "amend accepted",
        "amend refused 11",
        "amend refused 12",
        "amend refused 2",
        "change change",
        "change refused 14",
        "because only",
        "because higher-place",
        "because larger-time",
        "because same-time",
        "stop arrival",
        "runs runs",
        "name name",
        "name refused 17",
        "lines lines",
        "lines refused 12",
    ] {
        assert!(met.get(kind).is_some_and(|&count| count > 2), "{kind} is met too seldom: {met:#?}");
    }
}

/// What a sheet is asked for.
struct Asked {
    station: Vec<u8>,
    date: i64,
    from: i64,
    to: i64,
    within: i64,
}

impl Asked {
    fn any(rng: &mut Rng, world: &World) -> Asked {
        let minute = |rng: &mut Rng| rng.below(MINUTES_IN_DAY as usize) as i64;
        let (from, to) = match rng.percent(60) {
            true => (0, MINUTES_IN_DAY - 1),
            false => (minute(rng), minute(rng)),
        };
        Asked {
            station: rng.pick(&world.stations).clone(),
            date: world.first_day + rng.below(world.days) as i64,
            from: from.min(to),
            to: from.max(to),
            within: *rng.pick(&[0, 30, 240, 240, 1000, 1440, 5000, 10_080]),
        }
    }

    fn words(&self, store: &Path) -> Vec<String> {
        let clock = |minute: i64| format!("{:02}:{:02}", minute / 60, minute % 60);
        let date = format!("{:08}", calendar::written(self.date));
        let (store, code) = (store.to_str().expect("a path in UTF-8"), latin(&self.station));
        let (from, to, within) = (clock(self.from), clock(self.to), self.within.to_string());
        // A code may begin with `-`.
        let words =
            ["sheet", "--json", "--from", &from, "--to", &to, "--within", &within, store, "--", &code, &date];
        words.map(String::from).to_vec()
    }
}

/// A service at the station: its side, its minutes from 0000 of the service day, and that day.
#[derive(Clone, Copy)]
struct Call {
    side: Side,
    local: i64,
    day: i64,
}

impl Call {
    fn clock(&self) -> i64 {
        self.day * MINUTES_IN_DAY + self.local
    }

    fn told(&self) -> [Value; 5] {
        let date = |day: i64| json!(format!("{:08}", calendar::written(day)));
        let own = self.day + self.local / MINUTES_IN_DAY;
        let own = if own > calendar::LAST { Value::Null } else { date(own) };
        [json!(self.side.service), json!(self.side.stop), date(self.day), json!(self.local), own]
    }
}

/// A departure, and the answer to the change to it.
type Onward = (Call, Result<Change, second::Refusal>);

/// All calls at a station by the second program, on every day of validity: arrivals and
/// departures that run on their leg.
fn calls(held: &second::Store, tables: &Tables, world: &World, station: &[u8]) -> [Vec<Call>; 2] {
    let packed = station.iter().fold(0, |word, &byte| word << 8 | u64::from(byte));
    let clock = |written: u64| (written / 100 * 60 + written % 100) as i64;
    let some = |written: u64| (written != 9999).then(|| clock(written));
    let (mut service, mut stop) = (0, 0);
    let mut found = [Vec::new(), Vec::new()];
    for row in rows_in_use(tables, TIMETBLS).skip(1) {
        if row[0] == GROUP {
            (service, stop) = (row[1], 0);
        }
        stop += u64::from(is_stop(row));
        if !is_stop(row) || row[1] != packed {
            continue;
        }
        let times = match row[0] as u8 {
            b'>' => [None, Some(clock(row[2]))],
            b'.' => [Some(clock(row[2])), Some(clock(row[2]))],
            b'+' => [some(row[2]), some(row[3])],
            _ => [Some(clock(row[2])), None],
        };
        for (place, leg) in [(0, stop.wrapping_sub(1)), (1, stop)] {
            let Some(local) = times[place] else { continue };
            for day in world.first_day..=world.last_day() {
                let date = calendar::written(day);
                if second::running_day(held, service, leg, date) == Ok(true) {
                    found[place].push(Call { side: Side { service, stop, date }, local, day });
                }
            }
        }
    }
    found
}

/// The sheet that the second program's answers come to: each arrival, and each departure
/// behind it with its answer.
fn sheet_of(held: &second::Store, tables: &Tables, world: &World, asked: &Asked) -> Vec<(Call, Vec<Onward>)> {
    let [mut arrivals, departures] = calls(held, tables, world, &asked.station);
    arrivals.retain(|call| {
        call.clock().div_euclid(MINUTES_IN_DAY) == asked.date
            && (asked.from..=asked.to).contains(&call.clock().rem_euclid(MINUTES_IN_DAY))
    });
    arrivals.sort_by_key(|call| (call.clock(), call.side.service, call.side.stop));
    let behind = |arrival: &Call| {
        let mut behind: Vec<(i64, Call, Result<Change, second::Refusal>)> = Vec::new();
        for departure in &departures {
            let (from, to) = (arrival.side, departure.side);
            if (from.service, from.date) == (to.service, to.date) {
                continue;
            }
            let answer = second::change(held, side(from), side(to));
            let minutes = match &answer {
                Ok(change) => i64::from(change.gap.expect("a gap")),
                Err(refusal) => {
                    assert_eq!(refusal.number, 15);
                    departure.clock() - arrival.clock()
                }
            };
            if (0..=asked.within).contains(&minutes) {
                behind.push((minutes, *departure, answer));
            }
        }
        behind.sort_by_key(|(minutes, call, _)| (*minutes, call.side.service, call.side.stop, call.day));
        behind.into_iter().map(|(_, call, answer)| (call, answer)).collect()
    };
    arrivals.iter().map(|arrival| (*arrival, behind(arrival))).collect()
}

/// The line that an answer names is one that says so.
fn rests_on(files: &[Vec<u8>; 11], call: &Call, told: &Value) {
    let Some(source) = told.get("source").and_then(Value::as_str) else { return };
    let line = told["line"].as_u64().expect("a line") as usize;
    let row = |file: usize| files[file].split(|&byte| byte == b'\n').nth(line - 1).expect("such a line");
    let part = |file: usize, from: usize, to: usize| latin(&row(file)[from - 1..to]);
    let needed = told.get("needed").and_then(Value::as_u64);
    match source {
        "changes" => {
            let to = told["to"]["service"].as_u64().expect("a service");
            assert_eq!(part(CHANGES, 1, 18), format!("-{:08},{to:08}", call.side.service), "{told}");
        }
        "stations" => match needed {
            Some(needed) => assert_eq!(part(STATIONS, 11, 12), format!("{needed:02}"), "{told}"),
            None => assert_eq!(part(STATIONS, 1, 1), "0", "{told}"),
        },
        _ => assert_eq!(part(XCHANGES, 20, 22), format!("{:03}", needed.expect("a time")), "{told}"),
    }
}

#[test]
fn sheets_are_what_the_second_programs_answers_come_to() {
    let folder = folder("sheets");
    let mut met: BTreeMap<String, usize> = BTreeMap::new();
    for seed in 0..SHEETS {
        let (world, case) = if seed % 4 == 3 { excepted(seed) } else { of_each_sort(seed) };
        let delivery = folder.join(format!("delivery {seed}"));
        write_folder::write(&case.texts(), &delivery).unwrap();
        let store = folder.join(format!("store {seed}"));
        line("open {} {} --spare 0", &[&delivery, &store]).is(0, "Accepted");
        let rooms = case.texts().map(second::count_lines);
        let held = second::load(&case.texts(), &rooms).expect("a sound delivery");
        let tables = second::encode(&held, &File::ALL.map(|file| rooms[file.index()] * width(file)));
        let mut rng = Rng::new(seed ^ 0x5EE7);
        for _ in 0..3 {
            let asked = Asked::any(&mut rng, &world);
            let said = run(asked.words(&store));
            assert_eq!(said.status, Some(0), "{seed}: {:?} {said:#?}", asked.words(&store));
            let told = said.json();
            let arrivals = told["arrivals"].as_array().unwrap();
            let expected = sheet_of(&held, &tables, &world, &asked);
            let what = format!("delivery {seed}, {:?}", asked.words(&store));
            assert_eq!(arrivals.len(), expected.len(), "{what}");
            let call_of = |told: &Value| {
                ["service", "stop", "service_date", "local", "date"].map(|key| told[key].clone())
            };
            for (arrival, (call, behind)) in arrivals.iter().zip(&expected) {
                let changes = arrival["changes"].as_array().unwrap();
                assert_eq!(call_of(arrival), call.told(), "{what}");
                let to: Vec<_> = changes.iter().map(|change| call_of(&change["to"])).collect();
                assert_eq!(to, behind.iter().map(|(call, _)| call.told()).collect::<Vec<_>>(), "{what}");
                *met.entry("arrival".into()).or_default() += 1;
                *met.entry("arrival after midnight".into()).or_default() +=
                    usize::from(call.local >= MINUTES_IN_DAY);
                for (told, (to, answer)) in changes.iter().zip(behind) {
                    let expected = answered(answer.map(changed));
                    for (key, value) in expected.as_object().unwrap() {
                        assert_eq!(told.get(key), Some(value), "{key}: {what}");
                    }
                    rests_on(&case.files, call, told);
                    let word = expected.get("change").map_or("refused 15", |word| word.as_str().unwrap());
                    *met.entry(word.into()).or_default() += 1;
                    let source = expected.get("source").map_or("no source", |word| word.as_str().unwrap());
                    *met.entry(source.into()).or_default() += 1;
                    let gap = expected.get("gap").and_then(Value::as_i64);
                    let by_clocks = to.clock() - call.clock();
                    *met.entry("clocks that change".into()).or_default() +=
                        usize::from(gap.is_some_and(|gap| gap != by_clocks));
                    *met.entry("departure on another day".into()).or_default() +=
                        usize::from(to.clock().div_euclid(MINUTES_IN_DAY) != asked.date);
                }
            }
            *met.entry("no arrival".into()).or_default() += usize::from(arrivals.is_empty());
        }
        fs::remove_dir_all(&store).unwrap();
        fs::remove_dir_all(&delivery).unwrap();
    }
    println!("{met:#?}");
    for kind in [
        "arrival",
        "arrival after midnight",
        "no arrival",
        "yes",
        "no",
        "unsettled",
        "refused 15",
        "changes",
        "stations",
        "xchanges",
        "clocks that change",
        "departure on another day",
    ] {
        assert!(met.get(kind).is_some_and(|&count| count > 10), "{kind} is met too seldom: {met:#?}");
    }
}
