//! Questions on made-up deliveries: the second program's answers beside ones
//! reckoned from the texts.

mod common;
mod reckoned;

use std::collections::BTreeMap;

use common::outcome;
use deliveries::clocks::{self, CameTo};
use deliveries::exceptions;
use deliveries::place::{STATIONS, TIMETBLS};
use deliveries::tally::{OF_CLOCKS, OF_EXCEPTIONS};
use deliveries::{of_each_sort, question, Case, Outcomes, Question, Rng};
use reckoned::Desk;
use second::encode::width;
use second::questions::{Side, Source, Verdict};
use second::{change, encode, lines_now, name, running_day, stop_time, File, Refusal, Store};

/// A refusal of a question has a number and no place.
fn number(refusal: Refusal) -> u8 {
    assert_eq!((refusal.file, refusal.ordinal, refusal.line), (0, 0, 0));
    refusal.number
}

/// Asks both ways, and tells the answer in a few words.
fn ask_both_ways(store: &Store, case: &Case, desk: &Desk, question: &Question) -> String {
    let side =
        |side: deliveries::questions::Side| Side { service: side.service, stop: side.stop, date: side.date };
    let answer: Result<String, u8> = match *question {
        Question::RunningDay { service, leg, date } => {
            let answer = running_day(store, service, leg, date).map_err(number);
            assert_eq!(answer, desk.running_day(service, leg, date));
            answer.map(|runs| format!("running day {runs}"))
        }
        Question::StopTime { service, stop, date } => {
            let answer = stop_time(store, service, stop, date).map_err(number);
            assert_eq!(answer, desk.stop_time(service, stop, date));
            answer.map(|_| "stop time".into())
        }
        Question::Change { from, to } => {
            let (from, to) = (side(from), side(to));
            let answer = change(store, from, to).map_err(number);
            assert_eq!(answer, desk.change(from, to), "from {from:?} to {to:?}");
            answer.map(|answer| match answer.verdict {
                Verdict::No(reason) => format!("no {reason:?}"),
                verdict => format!("{verdict:?} by {:?}", answer.source.expect("a source")),
            })
        }
        Question::Name { short_name } => {
            let answer = name(&case.files[STATIONS], short_name).map_err(number);
            assert_eq!(answer, desk.name(short_name));
            answer.map(|_| "name".into())
        }
        Question::LinesNow { service, ref block } => {
            let answer = lines_now(&case.files[TIMETBLS], block, service).map_err(number);
            assert_eq!(answer.map(<[u8]>::to_vec), desk.lines_now(service, block));
            answer.map(|_| "lines now".into())
        }
    };
    answer.unwrap_or_else(|number| format!("refused {number}"))
}

/// What an answer in words came to, as far as clocks are concerned.
fn came_to(answer: &str) -> Option<CameTo> {
    let with_gap = ["Yes", "Unsettled", "no Gap", "no PairImpossible", "no NoChangesHere"];
    match answer {
        "refused 15" => Some(CameTo::NoPeriod),
        "stop time" => Some(CameTo::Times),
        answer if with_gap.iter().any(|word| answer.starts_with(word)) => Some(CameTo::Times),
        _ => None,
    }
}

/// The needed time of a change, where it comes from XCHANGES.
fn by_exception(store: &Store, question: &Question) -> Option<u64> {
    let Question::Change { from, to } = *question else { return None };
    let side =
        |side: deliveries::questions::Side| Side { service: side.service, stop: side.stop, date: side.date };
    let change = change(store, side(from), side(to)).ok()?;
    change.needed.filter(|_| change.source == Some(Source::XChanges)).map(u64::from)
}

#[test]
fn questions_meet_every_answer() {
    let mut answers: BTreeMap<String, usize> = BTreeMap::new();
    let [mut clocks, mut exceptions] = [OF_CLOCKS, OF_EXCEPTIONS].map(Outcomes::new);
    for seed in 0..2_000 {
        let (world, case) = of_each_sort(seed);
        let store = outcome(&case).unwrap();
        let desk = Desk::new(&case);
        let tables = encode(&store, &File::ALL.map(|file| case.rooms[file.index()] * width(file)));
        let mut rng = Rng::new(seed);
        for _ in 0..30 {
            let asked = question(&mut rng, &world);
            let answer = ask_both_ways(&store, &case, &desk, &asked);
            let told = came_to(&answer).map(|came_to| clocks::told(&tables, &asked, came_to));
            told.into_iter().flatten().for_each(|told| clocks.count(told));
            let told = by_exception(&store, &asked).map(|time| exceptions::told(&tables, &asked, time));
            told.into_iter().flatten().for_each(|told| exceptions.count(told));
            *answers.entry(answer).or_default() += 1;
        }
    }
    println!("{answers:#?}\n{clocks}\n{exceptions}");
    for outcomes in [clocks, exceptions] {
        assert!(outcomes.rarer_than(20).is_empty() && outcomes.unexpected().is_empty(), "{outcomes}");
    }
    let expected = [
        "Unsettled by Stations",
        "Unsettled by XChanges",
        "Yes by Changes",
        "Yes by Stations",
        "Yes by XChanges",
        "lines now",
        "name",
        "no FromDoesNotRun",
        "no GapTooShort",
        "no NoChangesHere",
        "no NobodyAlights",
        "no NobodyBoards",
        "no PairImpossible",
        "no SameServiceAndDate",
        "no StationsDiffer",
        "no ToDoesNotRun",
        "refused 12",
        "refused 13",
        "refused 14",
        "refused 15",
        "refused 17",
        "running day false",
        "running day true",
        "stop time",
    ];
    assert_eq!(answers.into_keys().collect::<Vec<_>>(), expected);
}
