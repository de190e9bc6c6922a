//! The deliveries as the second program reads them.

mod common;

use std::collections::BTreeMap;
use std::ops::RangeInclusive;

use common::{outcome, place_of};
use deliveries::amendments::is_one_block;
use deliveries::causes::{Place, ACCEPTED};
use deliveries::place::*;
use deliveries::{
    amendment, causes, edited, limit, limits, many, mixed, of_each_sort, sound, Amendment, Case, Caused,
    Limit, Many, Rng, Tally, World, WAYS,
};
use second::{amend, encode, open, rooms_of, Store};

/// Tables that just hold the rooms.
fn lens(rooms: &[usize; 11]) -> [usize; 11] {
    let widths = rooms_of(&[14 * 7 * 6; 11]).map(|room| 14 * 7 * 6 / room);
    std::array::from_fn(|file| rooms[file] * widths[file])
}

#[test]
fn sound_deliveries_are_accepted() {
    for seed in 0..2_000 {
        let (world, case) = of_each_sort(seed);
        let store = outcome(&case).unwrap_or_else(|refusal| panic!("seed {seed}: {refusal:?}"));
        let answer = store.answer();
        assert_eq!((answer.days, answer.services), (world.days as u64, world.services.len() as u64));
    }
}

/// Whether a line of the file has this letter and zeros in these columns.
fn has_zero(case: &Case, (file, letter, columns): (usize, &[u8], RangeInclusive<usize>)) -> bool {
    let field = columns.start() - 1..*columns.end();
    let lines = case.files[file].split(|&byte| byte == b'\n').skip(1);
    let is_meant = |line: &&[u8]| line.starts_with(letter) && line.len() > *columns.end();
    lines.filter(is_meant).any(|line| line[field.clone()].iter().all(|&byte| byte == b'0'))
}

/// Where keys and times of zero are defined and named: file, letter, columns.
const ZEROS: [(usize, &[u8], RangeInclusive<usize>); 16] = [
    (TIMEZONE, b"#", 2..=5),
    (STATIONS, b"", 11..=12),
    (STATIONS, b"", 22..=25),
    (FOOTNOTE, b"#", 2..=6),
    (TIMETBLS, b"#", 2..=9),
    (TIMETBLS, b"%", 6..=10),
    (TIMETBLS, b"-", 2..=6),
    (TIMETBLS, b"*", 15..=19),
    (TIMETBLS, b"?", 14..=18),
    (CHANGES, b"-", 2..=9),
    (CHANGES, b"-", 11..=18),
    (XFOOTNOTE, b"#", 2..=6),
    (XCHANGES, b"-", 20..=22),
    (XCHANGES, b"-", 24..=28),
    (TIMEZONE, b"+", 2..=3),
    (TIMEZONE, b"-", 2..=3),
];

#[test]
fn zeros_are_in_every_place_of_many_deliveries() {
    const SEEDS: u64 = 2_000;
    for place in ZEROS {
        let count = (0..SEEDS).filter(|&seed| has_zero(&sound(seed).1, place.clone())).count();
        assert!(count * 12 >= SEEDS as usize, "{place:?} in {count} deliveries only");
    }
}

#[test]
fn ordinary_zones_reach_beyond_validity_and_attributes_go_on() {
    let day = |date: u64| second::Day::from_written(date).expect("a loaded day");
    for seed in 0..500 {
        let (_, case) = sound(seed);
        let tables = encode(&outcome(&case).unwrap(), &lens(&case.rooms));
        let last_day = day(tables[0][3]);
        let zones = tables[TIMEZONE].chunks(6).skip(1).take_while(|row| row[0] != 0);
        let zones: Vec<&[u64]> = zones.collect();
        for zone in zones.split(|row| row[0] == 35).filter(|periods| !periods.is_empty()) {
            let latest = zone.iter().map(|row| day(row[3]).days_after(last_day)).max();
            assert!(latest >= Some(4), "seed {seed}");
        }
        let attributes = tables[TIMETBLS].chunks(7).filter(|row| row[0] == 42);
        assert!(attributes.into_iter().all(|row| row[2] < row[3]), "seed {seed}");
    }
}

#[test]
fn loaded_tables_are_sound() {
    for seed in 0..1_000 {
        let (_, case) = of_each_sort(seed);
        let store = outcome(&case).unwrap();
        let tables = encode(&store, &lens(&case.rooms));
        assert!(open(&tables).is_ok_and(|shown| shown == store), "seed {seed}");
    }
}

#[test]
fn limits_are_met_and_passed() {
    for (limit_is, seed) in limits().into_iter().zip(1..) {
        let case = limit(seed, limit_is);
        let refusal = outcome(&case).err();
        let expected = match limit_is {
            Limit::Modes(65) => Some((5, 4, 0, 66)),
            Limit::Days(801) => Some((5, 1, 0, 1)),
            Limit::RoomShort(file) => Some((2, file as u8 + 1, 0, 0)),
            // The last stop of the first service is the one beyond.
            Limit::Stops(999) => {
                let (number, file, ordinal, line) = refusal.expect("a stop too many");
                assert_eq!((number, file, ordinal), (5, 8, 1));
                assert_eq!(letter_at(&case.files[7], ordinal, line), Some('<'));
                continue;
            }
            _ => None,
        };
        assert_eq!(refusal, expected, "{limit_is:?}");
    }
}

#[test]
fn deliveries_with_many_of_one_thing_are_accepted_and_have_them() {
    for of in Many::ALL {
        let case = many(1, of, of.most());
        assert!(outcome(&case).is_ok(), "{of:?}");
        assert!(second::count_lines(&case.files[of.file()]) > of.most() * 19 / 20, "{of:?}");
    }
}

/// Causes of refusals: what is refused, and where, is known from how the
/// delivery was made.
#[test]
fn every_cause_is_refused_at_its_place() {
    for cause in causes() {
        let made = (0..200).filter_map(|seed| Some((seed, cause.case(seed)?))).take(6);
        let mut count = 0;
        for (seed, (case, place)) in made {
            let expected = match cause.number {
                ACCEPTED => None,
                number => Some((number, cause.file as u8 + 1, place.ordinal, place.line)),
            };
            assert_eq!(outcome(&case).err(), expected, "{cause}, seed {seed}");
            count += 1;
        }
        assert_eq!(count, 6, "{cause}: too few deliveries have a place for it");
    }
}

/// The letter of a line of TIMETBLS.
fn letter_at(text: &[u8], ordinal: u64, line: u64) -> Option<char> {
    let lines: Vec<&[u8]> = text.split(|&byte| byte == b'\n').collect();
    let mut openings = (0..lines.len()).filter(|&at| lines[at].starts_with(b"#"));
    let block = openings.nth(usize::try_from(ordinal.checked_sub(1)?).ok()?)?;
    lines[block + line as usize - 1].first().map(|&letter| char::from(letter))
}

#[test]
fn mixed_deliveries_meet_every_refusal() {
    let mut tally = Tally::default();
    let mut letters: BTreeMap<u8, BTreeMap<char, usize>> = BTreeMap::new();
    for seed in 0..20_000 {
        let case = mixed(seed);
        let Err((number, file, ordinal, line)) = outcome(&case) else {
            tally.accept();
            continue;
        };
        tally.refuse(number, file);
        if let Some(letter) = (file == 8).then(|| letter_at(&case.files[7], ordinal, line)).flatten() {
            *letters.entry(number).or_default().entry(letter).or_default() += 1;
        }
    }
    println!("{tally}");
    println!("refusal by letter in TIMETBLS {letters:#?}");
    assert!(tally.accepted() * 10 >= tally.total() * 3);
    assert_eq!(tally.unexpected(), []);
    // No delivery made here is long enough for refusal 1.
    let is_made = |&(number, _): &(u8, u8)| number != 1;
    assert_eq!(tally.rarer_than(20).into_iter().filter(is_made).collect::<Vec<_>>(), []);
    for (number, needed) in [(4, "#%-&*>.+;<?"), (5, "#%-&*>.+;<?"), (7, "#%-&*>.+;<?"), (9, "%-&*>.+;<?")] {
        for letter in needed.chars() {
            assert!(letters[&number].contains_key(&letter), "{number} at {letter}");
        }
    }
}

/// What an amendment must come to: 11, then 12, then what a load of the edited
/// text comes to.
fn expected(case: &Case, amendment: &Amendment) -> Result<(Store, Case), common::Place> {
    if !is_one_block(amendment.service, &amendment.block) {
        return Err((11, 0, 0, 0));
    }
    let files = edited(&case.files, amendment).ok_or((12, 0, 0, 0))?;
    let edited = Case { files, rooms: case.rooms };
    outcome(&edited).map(|store| (store, edited))
}

/// Applies the amendment and compares with what it must come to; answers the
/// refusal's number, 0 if there was none.
fn amend_both_ways(store: &mut Store, case: &mut Case, world: &World, rng: &mut Rng) -> u8 {
    let amendment = amendment(rng, world);
    let lens = lens(&case.rooms);
    let before = encode(store, &lens);
    let amended = amend(store, amendment.service, &amendment.block).map_err(place_of);
    match expected(case, &amendment) {
        Err(refusal) => {
            assert_eq!(amended, Err(refusal));
            assert_eq!(encode(store, &lens), before);
            refusal.0
        }
        Ok((reloaded, edited)) => {
            assert_eq!(amended, Ok(reloaded.answer()));
            assert_eq!(encode(store, &lens), encode(&reloaded, &lens));
            assert!(*store == reloaded);
            *case = edited;
            0
        }
    }
}

#[test]
fn amendments_are_as_loads_of_the_edited_text() {
    let mut numbers: BTreeMap<u8, usize> = BTreeMap::new();
    for seed in 0..1_500 {
        let (world, mut case) = of_each_sort(seed);
        let mut store = outcome(&case).unwrap();
        let mut rng = Rng::new(seed);
        // One delivery is amended several times in a row, so that amendments
        // also meet rows that have moved.
        for _ in 0..6 {
            let number = amend_both_ways(&mut store, &mut case, &world, &mut rng);
            *numbers.entry(number).or_default() += 1;
        }
    }
    println!("amendments by refusal, 0 for accepted: {numbers:?}");
    let met: Vec<u8> = numbers.into_keys().collect();
    assert_eq!(met, [0, 2, 4, 5, 7, 9, 10, 11, 12]);
}

/// The refusal of an amendment; none if it is accepted.
fn amended(store: &mut Store, amendment: &Amendment) -> Option<common::Place> {
    amend(store, amendment.service, &amendment.block).map_err(place_of).err()
}

/// Ways to amend: what each comes to is known from how it was made.
#[test]
fn every_way_to_amend_comes_to_its_number() {
    for way in WAYS {
        let mut rng = Rng::new(1);
        let mut count = 0;
        for seed in 0..120 {
            let (world, case) = of_each_sort(seed);
            let Some(amendment) = way.amendment(&mut rng, &world, &case) else { continue };
            let mut store = outcome(&case).unwrap();
            let number = amended(&mut store, &amendment).map_or(ACCEPTED, |(number, ..)| number);
            assert_eq!(number, way.number, "{}, seed {seed}", way.what);
            count += 1;
        }
        assert!(count >= 30, "{}: only {count} deliveries have a place for it", way.what);
    }
}

/// Causes in blocks, as amendments of the delivery without them.
#[test]
fn every_cause_in_a_block_is_refused_at_its_place_in_an_amendment() {
    let mut numbers: BTreeMap<u8, usize> = BTreeMap::new();
    for cause in causes() {
        for (seed, caused) in (0..60).filter_map(|seed| Some((seed, Caused::new(cause, seed)?))).take(3) {
            let mut store = outcome(&caused.case).unwrap();
            let Place { ordinal, line } = caused.place;
            let expected = match caused.number {
                ACCEPTED => None,
                11 => Some((11, 0, 0, 0)),
                number => Some((number, 8, ordinal, line)),
            };
            assert_eq!(amended(&mut store, &caused.amendment), expected, "{cause}, seed {seed}");
            *numbers.entry(caused.number).or_default() += 1;
        }
    }
    println!("causes as amendments, 0 for accepted: {numbers:?}");
    assert_eq!(numbers.into_keys().collect::<Vec<_>>(), [0, 4, 5, 7, 9, 10, 11]);
}

#[test]
fn large_deliveries_are_accepted() {
    for rising in [true, false] {
        let (_, case) = deliveries::large(1, 1_000, rising);
        let store = outcome(&case).unwrap();
        assert_eq!(store.answer().services, 1_000);
        let lines = second::count_lines(&case.files[7]);
        assert!((15_000..25_000).contains(&lines), "{lines} lines");
    }
}
