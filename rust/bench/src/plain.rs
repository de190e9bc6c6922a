//! A plain program for changes, over the same tables: what the proved sheet is held
//! against. It tests nothing, and takes the tables to be sound.
//!
//! It is written from documents 01 and 02 (W2, W3) and docs/TABLES.md. Hash maps are
//! made once: of the places where services and footnotes stand, of stations and of
//! the pairs of CHANGES. A change then goes through the rows of its two services, and
//! through those that XCHANGES has for its station.

mod calendar;
mod change;
mod hash;

use std::ops::Range;

use deliveries::place::{CHANGES, DELIVERY, FOOTNOTE, STATIONS, TIMETBLS, TIMEZONE, XCHANGES, XFOOTNOTE};
use proved::FILES;

use calendar::day_number;
use hash::Map;

const GROUP: u64 = b'#' as u64;
const AHEAD: u64 = b'+' as u64;

/// What a change needs of the tables, by its keys.
pub struct Plain<'t> {
    timetbls: &'t [[u64; 7]],
    xchanges: &'t [[u64; 7]],
    first_day: i64,
    days: Range<i64>,
    /// Where the rows of a service begin.
    services: Map<u64, usize>,
    stations: Map<u64, Station>,
    zones: Vec<Zone>,
    footnotes: Map<u64, &'t [u64; 14]>,
    xfootnotes: Map<u64, &'t [u64; 14]>,
    /// The possibility for a station and two services.
    pairs: Map<(u64, u64, u64), u64>,
}

struct Station {
    flag: u64,
    change_time: u64,
    /// Its place among the zones.
    zone: usize,
    /// The places of its rows in XCHANGES.
    exceptions: Range<usize>,
}

type Zone = Vec<Period>;

/// Days by their numbers.
struct Period {
    first_day: i64,
    last_day: i64,
    minutes_ahead: i64,
}

impl<'t> Plain<'t> {
    pub fn new(tables: [&'t [u64]; FILES]) -> Plain<'t> {
        let day = |word: usize| day_number(tables[DELIVERY][word]).expect("a day of validity");
        let (first_day, last_day) = (day(2), day(3));
        let (timetbls, xchanges) = (rows(tables[TIMETBLS]), rows(tables[XCHANGES]));
        let (zones, places) = zones(rows(tables[TIMEZONE]));
        Plain {
            timetbls,
            xchanges,
            first_day,
            days: 0..last_day - first_day + 1,
            services: services(timetbls),
            stations: stations(rows(tables[STATIONS]), &places, xchanges),
            zones,
            footnotes: footnotes(rows(tables[FOOTNOTE])),
            xfootnotes: footnotes(rows(tables[XFOOTNOTE])),
            pairs: pairs(rows(tables[CHANGES])),
        }
    }
}

/// The rows of a table, those behind its last among them, which are zero.
fn rows<const WIDTH: usize>(table: &[u64]) -> &[[u64; WIDTH]] {
    table.as_chunks().0
}

/// The rows of a table behind its first line, up to its last.
fn used<const WIDTH: usize>(rows: &[[u64; WIDTH]]) -> impl Iterator<Item = &[u64; WIDTH]> {
    rows.iter().skip(1).take_while(|row| row[0] != 0)
}

/// A block tells how many rows it has. All are found before the map is made, which
/// then has its size at once.
fn services(timetbls: &[[u64; 7]]) -> Map<u64, usize> {
    let mut services = Vec::new();
    let mut place = 1;
    while let Some(&[GROUP, service, lines, ..]) = timetbls.get(place) {
        services.push((service, place));
        place += lines as usize;
    }
    services.into_iter().collect()
}

/// The zones, and by their numbers their places.
fn zones(timezone: &[[u64; 6]]) -> (Vec<Zone>, Map<u64, usize>) {
    let (mut zones, mut places) = (Vec::<Zone>::new(), Map::default());
    for &[letter, first, from, to, ..] in used(timezone) {
        if letter == GROUP {
            places.insert(first, zones.len());
            zones.push(Vec::new());
            continue;
        }
        let hours = if letter == AHEAD { first as i64 } else { -(first as i64) };
        let day = |date| day_number(date).expect("a day of a period");
        let period = Period { first_day: day(from), last_day: day(to), minutes_ahead: hours * 60 };
        zones.last_mut().expect("a zone").push(period);
    }
    (zones, places)
}

fn stations(stations: &[[u64; 6]], zones: &Map<u64, usize>, xchanges: &[[u64; 7]]) -> Map<u64, Station> {
    let station = |&[_, flag, name, change_time, _, zone]: &[u64; 6]| {
        (name, Station { flag, change_time, zone: zones[&zone], exceptions: 0..0 })
    };
    let mut stations: Map<u64, Station> = used(stations).map(station).collect();
    let mut group = None;
    for (row, place) in used(xchanges).zip(1..) {
        if row[0] == GROUP {
            group = stations.get_mut(&row[1]);
        } else if let Some(station) = &mut group {
            let first = if station.exceptions.is_empty() { place } else { station.exceptions.start };
            station.exceptions = first..place + 1;
        }
    }
    stations
}

/// By their numbers, the rows with their days.
fn footnotes(rows: &[[u64; 14]]) -> Map<u64, &[u64; 14]> {
    let numbers = rows.iter().skip(1).step_by(2).take_while(|row| row[0] == GROUP).map(|row| row[1]);
    numbers.zip(rows.iter().skip(2).step_by(2)).collect()
}

fn pairs(changes: &[[u64; 6]]) -> Map<(u64, u64, u64), u64> {
    let mut pairs = Map::default();
    let mut station = 0;
    for &[letter, first, to, possibility, ..] in used(changes) {
        if letter == GROUP {
            station = first;
        } else {
            pairs.insert((station, first, to), possibility);
        }
    }
    pairs
}

#[cfg(test)]
mod tests {
    use std::collections::HashSet;

    use compare::lengths_of;
    use deliveries::{of_each_sort, question_on_tables, Question, Rng};

    use super::*;
    use crate::words;

    /// On every sort of delivery; together the answers have every word that there is.
    #[test]
    fn it_answers_what_the_second_program_does() {
        let mut met = HashSet::new();
        for seed in 0..4_000 {
            let (world, case) = of_each_sort(seed);
            let store = second::load(&case.texts(), &case.rooms).expect("a sound delivery");
            let tables = second::encode(&store, &lengths_of(&case.rooms));
            let mut rng = Rng::new(seed);
            let asked = (0..40).filter_map(|_| match question_on_tables(&mut rng, &world) {
                Question::Change { from, to } => Some((from, to)),
                _ => None,
            });
            let changes: Vec<_> = asked.collect();
            let questions: Vec<_> = changes.iter().map(words::question).collect();
            let mut answers = vec![[u64::MAX; proved::ANSWER_WORDS]; questions.len()];
            Plain::new(tables.each_ref().map(Vec::as_slice)).sheet(&questions, &mut answers);
            assert_eq!(answers, words::by_second(&changes, &Ok(store)), "seed {seed}");
            met.extend(
                answers
                    .iter()
                    .map(|&[number, verdict, reason, _, source, ..]| [number, verdict, reason, source]),
            );
        }
        let refused = [12, 13, 14, 15].map(|number| [number, 0, 0, 0]);
        let hurdles = [1, 2, 3, 4, 5, 6].map(|reason| [0, 1, reason, 0]);
        let too_short = [1, 2, 3].map(|source| [0, 1, 9, source]);
        let yes = [1, 2, 3].map(|source| [0, 2, 0, source]);
        let others = [[0, 1, 7, 1], [0, 1, 8, 2], [0, 3, 0, 2], [0, 3, 0, 3]];
        let all: HashSet<_> =
            [&refused[..], &hurdles, &too_short, &yes, &others].concat().into_iter().collect();
        assert_eq!(met, all);
    }
}
