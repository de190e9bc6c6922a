//! Damaged tables as the second program judges them.

mod common;

use common::outcome;
use deliveries::tables::{damage_tables, derive};
use deliveries::tally::OF_SOUNDNESS;
use deliveries::{of_each_sort, Outcomes, Rng};
use second::encode::width;
use second::sound::{examine, Unsound};
use second::{encode, File, Store};

/// Tables of the store, with room for some rows more and for some words.
fn tables_of(store: &Store, rooms: &[usize; 11]) -> [Vec<u64>; 11] {
    encode(store, &File::ALL.map(|file| rooms[file.index()] * width(file) + 3))
}

#[test]
fn derived_words_of_loaded_tables_are_as_they_are() {
    for seed in 0..1_000 {
        let (_, case) = of_each_sort(seed);
        let tables = tables_of(&outcome(&case).unwrap(), &case.rooms);
        let mut derived = tables.clone();
        derive(&mut derived);
        assert!(derived == tables, "seed {seed}");
    }
}

#[test]
fn damaged_tables_break_every_rule() {
    let mut outcomes = Outcomes::new(OF_SOUNDNESS);
    for seed in 0..2_000 {
        let (_, case) = of_each_sort(seed);
        let mut tables = tables_of(&outcome(&case).unwrap(), &case.rooms);
        damage_tables(&mut Rng::new(seed), &mut tables);
        if seed % 2 == 0 {
            derive(&mut tables);
        }
        outcomes.count(match examine(&tables) {
            Ok(_) => "sound".into(),
            Err(Unsound::NoSuchLine) => "a row stands for no line".into(),
            Err(Unsound::Refused(refusal)) => format!("rule {}", refusal.number),
            Err(Unsound::OtherTables) => "unused places or derived words".into(),
        });
    }
    println!("{outcomes}");
    assert!(outcomes.rarer_than(20).is_empty() && outcomes.unexpected().is_empty(), "{outcomes}");
}
