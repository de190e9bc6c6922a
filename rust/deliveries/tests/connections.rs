//! Changes as connection sheets ask for them, and the deliveries that they are made
//! for: what the second program answers, and of which services.

mod common;

use std::collections::HashSet;

use common::outcome;
use deliveries::connections::{connections, Connections};
use deliveries::place::{CHANGES, STATIONS, XCHANGES};
use deliveries::questions::Side as Asked;
use deliveries::tables::{rows_in_use, Tables, GROUP};
use deliveries::{connected, Rng, World};
use second::encode::width;
use second::questions::{Change, Side, Source};
use second::{change, encode, File, Store};

const SERVICES: usize = 5_000;
const LENGTH: usize = 1_000;

fn made(rising: bool) -> (World, Store, Tables) {
    let (world, case) = connected(1, SERVICES, rising);
    let store = outcome(&case).expect("a sound delivery");
    let lengths = File::ALL.map(|file| case.rooms[file.index()] * width(file));
    let tables = encode(&store, &lengths);
    (world, store, tables)
}

fn answers(store: &Store, changes: &[(Asked, Asked)]) -> Vec<Result<Change, u8>> {
    let side = |asked: Asked| Side { service: asked.service, stop: asked.stop, date: asked.date };
    let ask = |&(from, to): &_| change(store, side(from), side(to)).map_err(|refusal| refusal.number);
    changes.iter().map(ask).collect()
}

/// How many have a needed time by CHANGES, by STATIONS and by XCHANGES.
fn needed(answers: &[Result<Change, u8>]) -> [usize; 3] {
    let by = |source| {
        let changes = answers.iter().flatten().filter(|change| change.needed.is_some());
        changes.filter(|change| change.source == Some(source)).count()
    };
    [Source::Changes, Source::Stations, Source::XChanges].map(by)
}

#[test]
fn most_stations_are_in_neither_file_and_each_has_some_thousand_rows() {
    let (_, _, tables) = made(false);
    let stations = rows_in_use(&tables, STATIONS).count() - 1;
    let mut in_groups = HashSet::new();
    for file in [CHANGES, XCHANGES] {
        let rows = rows_in_use(&tables, file).skip(1);
        let (groups, rows): (Vec<_>, Vec<_>) = rows.partition(|row| row[0] == GROUP);
        assert!((200..500).contains(&groups.len()), "{} stations", groups.len());
        assert!((2_000..5_000).contains(&rows.len()), "{} rows", rows.len());
        in_groups.extend(groups.iter().map(|row| row[1]));
    }
    assert!(2 * in_groups.len() < stations, "{} of {stations} stations", in_groups.len());
}

#[test]
fn usual_changes_need_times_of_every_source_and_come_from_all_over() {
    for rising in [true, false] {
        let (world, store, tables) = made(rising);
        let changes = connections(&mut Rng::new(1), &world, &tables, Connections::Usual, LENGTH);
        let by_source = needed(&answers(&store, &changes));
        println!("{by_source:?}");
        assert!(2 * by_source.iter().sum::<usize>() >= LENGTH, "{by_source:?}");
        assert!(by_source.iter().all(|count| *count >= 30), "{by_source:?}");
        let services: HashSet<u64> =
            changes.iter().flat_map(|(from, to)| [from.service, to.service]).collect();
        assert!(services.len() > LENGTH, "{} services", services.len());
    }
}

#[test]
fn stations_in_neither_file_need_their_own_times() {
    let (world, store, tables) = made(false);
    let changes = connections(&mut Rng::new(1), &world, &tables, Connections::WithoutGroups, LENGTH);
    let [by_changes, by_stations, by_exceptions] = needed(&answers(&store, &changes));
    assert!(2 * by_stations >= LENGTH, "{by_stations}");
    assert_eq!((by_changes, by_exceptions), (0, 0));
}

#[test]
fn unknown_services_are_refused() {
    let (world, store, tables) = made(false);
    let changes = connections(&mut Rng::new(1), &world, &tables, Connections::UnknownServices, LENGTH);
    assert_eq!(answers(&store, &changes), vec![Err(12); LENGTH]);
}
