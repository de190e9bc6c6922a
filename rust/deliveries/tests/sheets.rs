//! Sheets on made-up deliveries: the second program's lists beside changes reckoned
//! one by one from the texts.

mod common;
mod reckoned;

use common::outcome;
use deliveries::sheets::ANSWER;
use deliveries::{of_each_sort, questions, sheet, Rng, Sheet};
use reckoned::Desk;
use second::encode::width;
use second::questions::{Change, Reason, Side, Source, Verdict};
use second::{encode, File};

/// In document 01's order, from 1.
const REASONS: [Reason; 9] = [
    Reason::SameServiceAndDate,
    Reason::FromDoesNotRun,
    Reason::ToDoesNotRun,
    Reason::StationsDiffer,
    Reason::NobodyAlights,
    Reason::NobodyBoards,
    Reason::PairImpossible,
    Reason::NoChangesHere,
    Reason::GapTooShort,
];
const SOURCES: [Source; 3] = [Source::Changes, Source::Stations, Source::XChanges];

fn place_in<T: PartialEq>(list: &[T], item: T) -> u64 {
    1 + list.iter().position(|other| *other == item).expect("one of the list") as u64
}

/// An answer in words.
fn in_words(answer: Result<Change, u8>) -> [u64; ANSWER] {
    let mut words = [0; ANSWER];
    match answer {
        Err(number) => words[0] = number.into(),
        Ok(Change { verdict, gap, source, needed }) => {
            match verdict {
                Verdict::No(reason) => words[1..3].copy_from_slice(&[1, place_in(&REASONS, reason)]),
                Verdict::Yes => words[1] = 2,
                Verdict::Unsettled => words[1] = 3,
            }
            source.into_iter().for_each(|source| words[4] = place_in(&SOURCES, source));
            needed.into_iter().for_each(|needed| words[5..7].copy_from_slice(&[1, needed.into()]));
            if let Some(gap) = gap {
                words[3] = 1;
                words[7] = 0_u64.wrapping_add_signed(gap.into());
            }
        }
    }
    words
}

/// What becomes of a sheet on a delivery that is held: the number, and the list.
fn reckoned(sheet: &Sheet, desk: &Desk) -> (u8, Vec<u64>) {
    let mut answers = sheet.answers.clone();
    if sheet.places() < sheet.count() {
        return (23, answers);
    }
    let side = |side: questions::Side| Side { service: side.service, stop: side.stop, date: side.date };
    for (at, (from, to)) in sheet.changes().into_iter().enumerate() {
        answers[at * ANSWER..][..ANSWER].copy_from_slice(&in_words(desk.change(side(from), side(to))));
    }
    (0, answers)
}

#[test]
fn sheets_hold_what_is_reckoned() {
    let (mut short, mut answered) = (0, 0);
    for seed in 0..400 {
        let (world, case) = of_each_sort(seed);
        let store = outcome(&case).unwrap();
        let tables = encode(&store, &File::ALL.map(|file| case.rooms[file.index()] * width(file)));
        let mut rng = Rng::new(seed);
        for _ in 0..3 {
            let sheet = sheet(&mut rng, &world);
            let mut answers = sheet.answers.clone();
            let filled = second::sheet(&tables, &sheet.questions, &mut answers);
            let number = filled.map_or_else(|refusal| refusal.number, |()| 0);
            assert_eq!((number, answers), reckoned(&sheet, &Desk::new(&case)), "seed {seed}");
            match number {
                0 => answered += sheet.count(),
                _ => short += 1,
            }
        }
    }
    println!("{answered} changes answered, {short} lists too short");
    assert!(answered > 2_000 && short > 100);
}
