//! The commands: what each answers, as text and as JSON, and its status.

use std::io::{stdout, IsTerminal};
use std::path::Path;

use proved::{Answer, Change, Reason, Refusal, Running, Side, Source, Verdict};

use crate::answers::{self, json, Accepted, Changed, Name, Refused, Runs, TextLines};
use crate::card::{self, Exceptions};
use crate::cli::{Command, SheetAsked};
use crate::dates::{self, clock, date, time_on};
use crate::explain::questions::{packed, question, Asked};
use crate::explain::{self, Explanation, Whose};
use crate::files::place::*;
use crate::files::{latin, lines, read_up_to, Delivery, Texts, FILES, LONGEST_FILE};
use crate::loading::{load_texts, rooms_with, Rooms, Spare};
use crate::names::Names;
use crate::progress::Progress;
use crate::records::unpack;
use crate::sheet;
use crate::show;
use crate::speech::{counted, refusal, Colour};
use crate::store::{keep, note, Lock, Replacing, Store};
use crate::tables::{Service, Station, Tables};
use crate::trouble::Trouble;

pub const DONE: u8 = 0;
pub const REFUSED: u8 = 1;
pub const TROUBLE: u8 = 2;
pub const NO: u8 = 3;
pub const UNSETTLED: u8 = 4;

/// An answer: its status, its text and its JSON.
pub struct Told {
    pub status: u8,
    pub text: Vec<u8>,
    pub json: String,
    /// Whether the text goes to standard error: it is not what was asked for.
    pub aside: bool,
}

impl Told {
    pub fn new(status: u8, text: impl Into<Vec<u8>>, json: String) -> Told {
        Told { status, text: text.into(), json, aside: false }
    }

    fn refused(told: &Explanation, desk: &Desk) -> Told {
        Told::new(REFUSED, refusal(told, desk.colour), json(&Refused::told(told)))
    }
}

/// A delivery that was read, and what the load made of it.
struct Loaded {
    texts: Texts,
    rooms: Rooms,
    outcome: Result<(Answer, Tables), Explanation>,
}

/// What all commands need.
pub struct Desk {
    pub progress: Progress,
    pub colour: Colour,
    /// Whether JSON is asked for, of what is made in one form alone.
    pub json: bool,
}

impl Desk {
    /// Answers a command. Where another program puts a new delivery into the
    /// store meanwhile, and takes the old one away, it is answered from the new.
    pub fn run(&self, command: &Command) -> Result<Told, Trouble> {
        const TRIES: usize = 5;
        let mut told = self.run_once(command);
        for _ in 1..TRIES {
            match &told {
                Err(trouble) if trouble.gone => told = self.run_once(command),
                _ => break,
            }
        }
        told
    }

    fn run_once(&self, command: &Command) -> Result<Told, Trouble> {
        match command {
            Command::Check { delivery } => self.check(delivery),
            Command::Open { delivery, store, spare, replace } => {
                let spare = spare.map_or(Spare::ATenth, |lines| Spare::Lines(lines as usize));
                let replacing = if *replace { Replacing::Allowed } else { Replacing::Forbidden };
                self.open(delivery, store, spare, replacing)
            }
            &Command::Change {
                ref store,
                from_service,
                from_stop,
                from_date,
                to_service,
                to_stop,
                to_date,
            } => {
                let from = Side { service: from_service, stop: from_stop, date: from_date };
                let to = Side { service: to_service, stop: to_stop, date: to_date };
                self.change(store, from, to)
            }
            &Command::Runs { ref store, service, leg, date } => self.runs(store, service, leg, date),
            &Command::Stop { ref store, service, stop, date } => self.stop(store, service, stop, date),
            &Command::Service { ref store, service, date } => self.service(store, service, date),
            Command::Station { store, code } => self.station(store, code),
            Command::Sheet(asked) => self.sheet(asked),
            &Command::Lines { ref store, service } => self.lines(store, service),
            &Command::Amend { ref store, service, ref file } => self.amend(store, service, file),
            Command::Card => card(),
            // They write as they go (main).
            Command::Ask { .. } | Command::Completions { .. } => Ok(Told::new(DONE, "", String::new())),
        }
    }

    fn check(&self, folder: &Path) -> Result<Told, Trouble> {
        Ok(match self.loaded(folder, Spare::Lines(0))?.outcome {
            Err(told) => Told::refused(&told, self),
            Ok((answer, tables)) => {
                let validity = tables.validity();
                let text = format!(
                    "{}: {}, {} to {}; {}.\n",
                    self.colour.good("Accepted"),
                    counted(answer.days, "day"),
                    date(validity.first),
                    date(validity.last),
                    counted(answer.services, "service")
                );
                Told::new(DONE, text, json(&Accepted::of(&answer)))
            }
        })
    }

    fn loaded(&self, folder: &Path, spare: Spare) -> Result<Loaded, Trouble> {
        let texts = Delivery::find(folder)?.read(&self.progress)?;
        let rooms = {
            let _work = self.progress.step("counting");
            rooms_with(texts.slices(), spare)
        };
        let (answer, tables) = {
            let _work = self.progress.step("checking");
            load_texts(texts.slices(), &rooms)
        };
        let outcome = match answer.is_accepted() {
            true => Ok((answer, tables)),
            false => Err(explain::load(texts.slices(), &answer, Whose::Delivery)),
        };
        Ok(Loaded { texts, rooms, outcome })
    }

    fn open(&self, folder: &Path, root: &Path, spare: Spare, replacing: Replacing) -> Result<Told, Trouble> {
        let Loaded { texts, rooms, outcome } = self.loaded(folder, spare)?;
        let (answer, tables) = match outcome {
            Ok(loaded) => loaded,
            Err(told) => {
                let mut told = Told::refused(&told, self);
                told.text.extend_from_slice(format!("No store was made in {}.\n", root.display()).as_bytes());
                return Ok(told);
            }
        };
        keep(root, &texts, rooms, &tables, replacing, &self.progress)?;
        let room = tables.room(TIMETBLS);
        let validity = tables.validity();
        let text = format!(
            "{}: {}, {} to {}; {}. Kept in {}, with room for {} more in TIMETBLS{}.\n",
            self.colour.good("Accepted"),
            counted(answer.days, "day"),
            date(validity.first),
            date(validity.last),
            counted(answer.services, "service"),
            root.display(),
            counted(room as u64, "line"),
            match spare {
                Spare::ATenth => " (a tenth of its lines, at least 100; `--spare LINES` for another number)",
                Spare::Lines(_) => "",
            }
        );
        Ok(Told::new(DONE, text, json(&Accepted { room: Some(room), ..Accepted::of(&answer) })))
    }

    fn read(&self, root: &Path) -> Result<Store, Trouble> {
        Store::read(root, &self.progress)
    }

    /// A refused question in words.
    fn question(&self, store: &mut Store, Refusal(number): Refusal, asked: Asked) -> Told {
        Told::refused(&question(&store.tables, number, asked), self)
    }

    fn runs(&self, root: &Path, service: u64, leg: u64, day: u64) -> Result<Told, Trouble> {
        let mut store = self.read(root)?;
        let (answer, stops) = store.ask_beside(
            &self.progress,
            |tables| proved::running_day(tables.lent(), service, leg, day),
            |tables| [leg, leg.saturating_add(1)].map(|stop| tables.stop(service, stop)),
        )?;
        let running = match answer {
            Ok(running) => running,
            Err(refusal) => {
                return Ok(self.question(&mut store, refusal, Asked::Leg { service, leg, date: day }))
            }
        };
        let names = Names::of(&store)?;
        let [from, to] = stops.map(|stop| stop.map_or(String::new(), |stop| names.both(stop.station)));
        let does = match running {
            Running::Runs => self.colour.good("runs"),
            Running::Rests => self.colour.bad("does not run"),
        };
        let text =
            format!("Service {service:08} {does} on {} on leg {leg}, from {from} to {to}.\n", date(day));
        Ok(Told::new(DONE, text, json(&Runs::of(running))))
    }

    fn stop(&self, root: &Path, service: u64, stop: u64, day: u64) -> Result<Told, Trouble> {
        let mut store = self.read(root)?;
        let (answer, stops) = store.ask_beside(
            &self.progress,
            |tables| proved::stop_time(tables.lent(), service, stop, day),
            |tables| tables.service(service).map_or(0, |held| held.stop_count()),
        )?;
        let times = match answer {
            Ok(times) => times,
            Err(refusal) => {
                return Ok(self.question(&mut store, refusal, Asked::Stop { service, stop, date: day }))
            }
        };
        let names = Names::of(&store)?;
        let mut text = self.colour.strong(&format!(
            "{} (stop {stop} of {stops} of service {service:08})",
            names.both(times.station)
        ));
        text.push('\n');
        for (what, when, none) in
            [("arrives", times.arrival, "nobody alights"), ("departs", times.departure, "nobody boards")]
        {
            let said = match when {
                None if (what == "arrives") == (stop == 1) && (stop == 1 || stop == stops) => match stop {
                    1 => "it begins here".to_string(),
                    _ => "it ends here".to_string(),
                },
                None => none.to_string(),
                Some(when) => {
                    let (local, reference) = (i64::from(when.local.0), i64::from(when.reference.0));
                    let reference = dates::beside(local, reference, day);
                    format!("{}, reference clock {reference}", time_on(local, day))
                }
            };
            text += &format!("  {what}  {said}\n");
        }
        let answer = answers::Stop { name: names.station(times.station), ..answers::Stop::of(&times, day) };
        Ok(Told::new(DONE, text, json(&answer)))
    }

    fn change(&self, root: &Path, from: Side, to: Side) -> Result<Told, Trouble> {
        let mut store = self.read(root)?;
        let (answer, (stops, exceptions)) = store.ask_beside(
            &self.progress,
            |tables| proved::change(tables.lent(), from, to),
            |tables| {
                let services = [from, to].map(|side| tables.service(side.service));
                let stops = [(services[0], from), (services[1], to)]
                    .map(|(service, side)| service.and_then(|service| service.stop(side.stop)));
                (stops, Exceptions::of(tables).between(services, from, to))
            },
        )?;
        let change = match answer {
            Ok(change) => change,
            Err(refusal) => return Ok(self.question(&mut store, refusal, Asked::Change { from, to })),
        };
        let names = Names::of(&store)?;
        let [Some(left), Some(boarded)] = stops else {
            return Err(Trouble::not_shown());
        };
        let (arrival, departure) = (left.arrival.map(clock), boarded.departure.map(clock));
        let (verdict, status) = match change.verdict {
            Verdict::Yes => (self.colour.good("Yes"), DONE),
            Verdict::No(_) => (self.colour.bad("No"), NO),
            Verdict::Unsettled => (self.colour.open("Unsettled"), UNSETTLED),
        };
        let why = why(&change, from, to, &names.both(left.station), &names.both(boarded.station));
        let side = |what: &str, side: Side, station: u64, does: &str, when: Option<i64>, none: &str| {
            let when = when.map_or(none.to_string(), |when| format!("{does} {}", time_on(when, side.date)));
            format!(
                "  {what}   service {:08} at stop {}, {}: {when}\n",
                side.service,
                side.stop,
                names.both(station)
            )
        };
        let mut text = format!("{verdict}: {why}\n");
        text += &side("leave", from, left.station, "arrives", arrival, "nobody alights");
        text += &side("board", to, boarded.station, "departs", departure, "nobody boards");
        if let Some(gap) = change.gap.map(i64::from) {
            let by_clocks = arrival.zip(departure).and_then(|(arrival, departure)| {
                dates::between((arrival, from.date), (departure, to.date)).filter(|&minutes| minutes != gap)
            });
            let by_clocks = by_clocks.map_or(String::new(), |minutes| {
                format!("; by the station's clocks {}: they change in between", dates::length(minutes))
            });
            text += &format!("  gap     {}{by_clocks}\n", dates::length(gap));
        }
        if let Some(source) = change.source {
            let needed = change
                .needed
                .map_or("none: it may not be made".into(), |needed| dates::length(needed as i64));
            text += &format!("  needed  {needed}, by {}\n", source_name(source));
        }
        let reasoned = card::reasoned(&change, || exceptions);
        if let Some(reasoned) = &reasoned {
            text += &reasoned.text(left.station);
        }
        let told = |side: Side, station: u64, local: Option<i64>| {
            Some(answers::Side {
                station: latin(&unpack(station, 7)),
                name: names.station(station),
                local,
                date: local.and_then(|local| answers::date_of(local, side.date)),
            })
        };
        let changed = Changed {
            from: told(from, left.station, arrival),
            to: told(to, boarded.station, departure),
            ..card::changed(&change, reasoned.as_ref())
        };
        Ok(Told::new(status, text, json(&changed)))
    }

    fn service(&self, root: &Path, service: u64, day: Option<u64>) -> Result<Told, Trouble> {
        let mut store = self.read(root)?;
        let held = store.sound_beside(&self.progress, |tables| {
            tables.service(service).map(|held| held.words().to_vec())
        })?;
        let Some(held) = held else {
            return Ok(self.question(&mut store, Refusal(12), Asked::Service(service)));
        };
        let held = Service::of(&held);
        // Whether it runs is asked once for each record of validity.
        let legs: Vec<u64> = held.records(b'-').map(|row| row[2]).collect();
        let mut runs = Vec::new();
        for leg in legs {
            let Some(day) = day else { break };
            match store.ask(&self.progress, |tables| proved::running_day(tables.lent(), service, leg, day))? {
                Ok(running) => runs.push(running == Running::Runs),
                Err(refusal) => {
                    return Ok(self.question(&mut store, refusal, Asked::Leg { service, leg, date: day }))
                }
            }
        }
        let shown = show::service(&store, held, day, &runs)?;
        let text = show::service_text(&shown, day, &store.tables, self.colour);
        Ok(Told::new(DONE, text, json(&shown)))
    }

    fn station(&self, root: &Path, asked: &str) -> Result<Told, Trouble> {
        let mut store = self.read(root)?;
        let found = store.sound_beside(&self.progress, |tables| {
            tables.station(packed(asked)).map(|station| (station, callers(tables, &station)))
        })?;
        let Some((station, calls)) = found else {
            return Ok(self.question(&mut store, Refusal(17), Asked::Station(asked)));
        };
        let names = Names::of(&store)?;
        let shown = answers::Station {
            station: latin(&unpack(station.code, 7)),
            name: names.station(station.code),
            flag: station.flag,
            change_time: station.change_time,
            country: latin(&unpack(station.country, 4)),
            zone: station.zone,
            calls,
        };
        let text = show::station_text(&shown, &names.both(station.code), &store.tables, self.colour);
        Ok(Told::new(DONE, text, json(&shown)))
    }

    fn sheet(&self, asked: &SheetAsked) -> Result<Told, Trouble> {
        let mut store = self.read(&asked.store)?;
        let wanted = asked.wanted();
        let answered = match store.ask(&self.progress, |tables| sheet::answered(tables, &wanted))? {
            Ok(answered) => answered,
            Err(refusal) => {
                let asked_for = Asked::Sheet { station: &asked.station, date: asked.date };
                let told = self.question(&mut store, refusal, asked_for);
                // A page or rows that are written into a file have no refusal in them.
                return Ok(Told { aside: asked.html || asked.csv, ..told });
            }
        };
        let calls = sheet::Calls::of(&store, &answered)?;
        let shown = sheet::told(&store, &wanted, &answered, &calls)?;
        // A long sheet takes its time in each form.
        if self.json {
            return Ok(Told::new(DONE, "", json(&shown)));
        }
        let text = match (asked.html, asked.csv) {
            (true, _) => sheet::html(&shown),
            (_, true) => {
                shown.notes.iter().for_each(|sentence| note(sentence));
                sheet::csv(&shown)
            }
            _ => sheet::text(&shown, self.colour),
        };
        Ok(Told::new(DONE, text, String::new()))
    }

    fn lines(&self, root: &Path, service: u64) -> Result<Told, Trouble> {
        let mut store = self.read(root)?;
        let lines_now = match store.lines(service)? {
            Ok(lines_now) => lines_now,
            Err(refusal) => {
                store.sound(&self.progress)?;
                return Ok(self.question(&mut store, refusal, Asked::Service(service)));
            }
        };
        let told = json(&TextLines { lines: latin(&lines_now) });
        // A terminal is shown characters; anything else takes the bytes.
        let text = match stdout().is_terminal() {
            true => lines(&lines_now).map(|line| latin(line.text) + "\n").collect::<String>().into_bytes(),
            false => lines_now,
        };
        Ok(Told::new(DONE, text, told))
    }

    fn amend(&self, root: &Path, service: u64, file: &Path) -> Result<Told, Trouble> {
        let block = read_block(file)?;
        // A folder that is no store is told before a lock is made in it.
        Store::is_at(root)?;
        let _lock = Lock::taken(root)?;
        let mut store = Store::read_locked(root, &self.progress)?;
        let answer = store.amend(service, &block, &self.progress)?;
        if !answer.is_accepted() {
            return Ok(Told::refused(&amendment_refused(&store, service, &block, &answer), self));
        }
        let text = format!(
            "{}: service {service:08} has the lines of {}; this is amendment {}. {}, {}; room for {} more in TIMETBLS.\n",
            self.colour.good("Accepted"),
            file.display(),
            store.amendments,
            counted(answer.days, "day"),
            counted(answer.services, "service"),
            counted(store.tables.room(TIMETBLS) as u64, "line"),
        );
        Ok(Told::new(
            DONE,
            text,
            json(&Accepted { amendment: Some(store.amendments), ..Accepted::of(&answer) }),
        ))
    }
}

/// The desk's card, which no store is asked for.
fn card() -> Result<Told, Trouble> {
    let card = card::card()?;
    Ok(Told::new(DONE, card::card_text(&card), json(&card::card_answer(&card))))
}

/// Who calls at a station.
fn callers(tables: &Tables, station: &Station) -> Vec<answers::Caller> {
    let here = |service: Service| {
        let calls = service.stops().zip(1..).filter(|(stop, _)| stop.station == station.code);
        let called = calls.map(|(stop, number)| answers::Caller {
            service: service.number(),
            stop: number,
            arrival: stop.arrival.map(clock),
            departure: stop.departure.map(clock),
        });
        called.collect::<Vec<_>>()
    };
    tables.services().flat_map(here).collect()
}

/// The file of an amendment; one that is longer than TIMETBLS may be is refused
/// whatever it holds.
pub fn read_block(file: &Path) -> Result<Vec<u8>, Trouble> {
    read_up_to(file, LONGEST_FILE + 1, |_| ()).map_err(|error| Trouble::reading(file, &error))
}

/// A refused amendment in words: the block stands as the only one in TIMETBLS.
fn amendment_refused(store: &Store, service: u64, block: &[u8], answer: &Answer) -> Explanation {
    match answer.number {
        11 => return explain::questions::not_one_block(service, block),
        12 => return question(&store.tables, 12, Asked::Service(service)),
        16 => return question(&store.tables, 16, Asked::Service(service)),
        _ => (),
    }
    let mut texts: [Vec<u8>; FILES] = Default::default();
    for (file, text) in texts.iter_mut().enumerate() {
        *text = match file {
            TIMETBLS => [b"@\r\n", block].concat(),
            _ => match store.text(file) {
                Ok(text) => text,
                // What it lacks would be told to be missing.
                Err(trouble) => return explain::place_alone(answer, &trouble),
            },
        };
    }
    let alone = Answer { ordinal: answer.ordinal.min(1), ..*answer };
    let mut told = explain::load(texts.each_ref().map(Vec::as_slice), &alone, Whose::Block);
    told.ordinal = answer.ordinal;
    told.file_line = None;
    told
}

pub fn source_name(source: Source) -> &'static str {
    match source {
        Source::Changes => "CHANGES",
        Source::Stations => "STATIONS",
        Source::XChanges => "XCHANGES",
    }
}

/// Why a change is answered as it is.
fn why(change: &Change, from: Side, to: Side, left: &str, boarded: &str) -> String {
    let gap = change.gap.unwrap_or(0);
    let needed = change.needed.unwrap_or(0);
    match change.verdict {
        Verdict::Yes => "the change can be sold.".into(),
        Verdict::Unsettled => {
            let columns = if change.source == Some(Source::XChanges) { "three" } else { "two" };
            format!(
                "the needed time is {needed}, the highest number its {columns} columns can hold: the real time may \
                 be longer. Gap {gap}. Ask the supplier before selling."
            )
        }
        Verdict::No(reason) => match reason {
            Reason::SameServiceAndDate => "it is the same service on the same date.".into(),
            Reason::FromDoesNotRun => {
                format!(
                    "service {:08} does not run to stop {} on {}.",
                    from.service,
                    from.stop,
                    date(from.date)
                )
            }
            Reason::ToDoesNotRun => {
                format!("service {:08} does not run from stop {} on {}.", to.service, to.stop, date(to.date))
            }
            Reason::StationsDiffer => format!("the stations differ: {left} and {boarded}."),
            Reason::NobodyAlights => format!("nobody may alight from service {:08} at {left}.", from.service),
            Reason::NobodyBoards => format!("nobody may board service {:08} at {boarded}.", to.service),
            Reason::PairImpossible => {
                format!("CHANGES forbids this change between the two services at {left}.")
            }
            Reason::NoChangesHere => format!("no changes are made at {left}: its flag in STATIONS is 0."),
            Reason::GapTooShort if gap < 0 => {
                format!(
                    "the second service has left {} before the first arrives.",
                    dates::length(i64::from(-gap))
                )
            }
            Reason::GapTooShort => format!("the gap of {gap} is below the needed time of {needed}."),
        },
    }
}

/// The name of a station by code, for `ask`.
pub fn name_of(stations: &[u8], asked: &str) -> Result<Name, Refusal> {
    let found = proved::name(stations, packed(asked))?;
    Ok(Name { name: latin(found) })
}
