//! Sound deliveries with many of one thing, in no order, and few of all others:
//! a reader that holds each line against all before it is slow there.

use std::fmt;

use crate::cases::Case;
use crate::damage::lines_in;
use crate::place::*;
use crate::rng::Rng;
use crate::shape::Shape;
use crate::text::{join, number, split, Lines};
use crate::world::{self, date, World};

/// What a delivery has many of.
#[derive(Clone, Copy, Debug, PartialEq, Eq)]
pub enum Many {
    Companies,
    Countries,
    Modes,
    Zones,
    /// Periods of one zone.
    Periods,
    /// Stations of a quarter as many countries.
    StationsOfCountries,
    /// Stations of a quarter as many zones.
    StationsOfZones,
    Footnotes,
    /// Stops of a service, with three records of their own for each leg.
    Legs,
    /// Attributes of one service, and stations that it passes.
    Attributes,
    /// Pairs of services under one station of CHANGES.
    Pairs,
    ChangeStations,
    SpecialFootnotes,
    /// Rows under one station of XCHANGES.
    Exceptions,
    ExceptionStations,
}

impl Many {
    /// In reading order of the files that are long.
    pub const ALL: [Many; 15] = [
        Many::Companies,
        Many::Countries,
        Many::Modes,
        Many::Zones,
        Many::Periods,
        Many::StationsOfCountries,
        Many::StationsOfZones,
        Many::Footnotes,
        Many::Legs,
        Many::Attributes,
        Many::Pairs,
        Many::ChangeStations,
        Many::SpecialFootnotes,
        Many::Exceptions,
        Many::ExceptionStations,
    ];

    /// The most of them that are made: what document 01 lets through, or 20,000.
    pub fn most(self) -> usize {
        match self {
            Many::Companies => 999,
            Many::Modes => 64,
            Many::Zones => 10_000,
            Many::Legs => 998,
            _ => 20_000,
        }
    }

    /// The place of the file that is long.
    pub fn file(self) -> usize {
        match self {
            Many::Companies => COMPANY,
            Many::Countries => COUNTRY,
            Many::Modes => TRNSMODE,
            Many::Zones | Many::Periods => TIMEZONE,
            Many::StationsOfCountries | Many::StationsOfZones => STATIONS,
            Many::Footnotes => FOOTNOTE,
            Many::Legs | Many::Attributes => TIMETBLS,
            Many::Pairs | Many::ChangeStations => CHANGES,
            Many::SpecialFootnotes => XFOOTNOTE,
            Many::Exceptions | Many::ExceptionStations => XCHANGES,
        }
    }

    fn shape(self, count: usize) -> Shape {
        let (all, quarter) = (count..=count, (count / 4).max(1)..=(count / 4).max(1));
        let few = few();
        match self {
            Many::Companies => Shape { companies: all, ..few },
            Many::Countries => Shape { countries: all, ..few },
            Many::Modes => Shape { modes: all, ..few },
            Many::Zones => Shape { zones: all, ..few },
            Many::Periods => Shape { zones: 1..=1, ..few },
            Many::StationsOfCountries => Shape { stations: all, countries: quarter, ..few },
            Many::StationsOfZones => Shape { stations: all, zones: quarter, ..few },
            Many::Footnotes => Shape { footnotes: all, ..few },
            Many::Legs => Shape { services: 5..=5, stops: all, ..few },
            Many::Attributes => Shape { services: 1..=1, ..few },
            Many::Pairs => Shape { services: 1_000..=1_000, change_rows: all, xchanges: false, ..few },
            Many::ChangeStations => {
                Shape { stations: all.clone(), change_stations: all, xchanges: false, ..few }
            }
            Many::SpecialFootnotes => Shape { special_footnotes: all, ..few },
            Many::Exceptions => {
                Shape { special_footnotes: 1_000..=1_000, change_rows: all, changes: false, ..few }
            }
            Many::ExceptionStations => {
                Shape { stations: all.clone(), change_stations: all, changes: false, ..few }
            }
        }
    }
}

impl fmt::Display for Many {
    fn fmt(&self, out: &mut fmt::Formatter) -> fmt::Result {
        out.write_str(match self {
            Many::Companies => "companies",
            Many::Countries => "countries",
            Many::Modes => "modes",
            Many::Zones => "zones",
            Many::Periods => "periods of one zone",
            Many::StationsOfCountries => "stations, a country for four",
            Many::StationsOfZones => "stations, a zone for four",
            Many::Footnotes | Many::SpecialFootnotes => "footnotes",
            Many::Legs => "stops of five services, a `%`, `-` and `&` for each leg",
            Many::Attributes => "attributes and passed stations of one service",
            Many::Pairs => "pairs under one station",
            Many::ChangeStations | Many::ExceptionStations => "stations, a row each",
            Many::Exceptions => "rows under one station",
        })
    }
}

/// A few of everything, no keys rising. The days are few, so that footnotes are
/// read for their numbers and not for their vectors.
fn few() -> Shape {
    Shape {
        days: 7..=7,
        companies: 40..=40,
        countries: 20..=20,
        modes: 30..=30,
        zones: 3..=3,
        stations: 50..=50,
        footnotes: 30..=30,
        special_footnotes: 30..=30,
        services: 20..=20,
        stops: 2..=2,
        change_stations: 1..=1,
        change_rows: 1..=1,
        rising: false,
        at_borders: false,
        overnight: false,
        repeated: false,
        meeting: false,
        changes: true,
        xfootnotes: true,
        xchanges: true,
    }
}

/// A sound delivery with so many of them, a few less where chance gives some
/// twice; at most [`Many::most`].
pub fn many(seed: u64, of: Many, count: usize) -> Case {
    let mut rng = Rng::new(seed);
    let (world, mut files) = world::make(&mut rng, &of.shape(count));
    match of {
        Many::Periods => files[TIMEZONE] = periods(&mut rng, &files[TIMEZONE], count),
        Many::Legs => files[TIMETBLS] = a_record_a_leg(&mut rng, &files[TIMETBLS], count),
        Many::Attributes => files[TIMETBLS] = attributes(&mut rng, &world, &files[TIMETBLS], count),
        _ => (),
    }
    let rooms = files.each_ref().map(|file| lines_in(file));
    Case { files, rooms }
}

/// The file with so many periods of its zone, and no others.
fn periods(rng: &mut Rng, text: &[u8], count: usize) -> Vec<u8> {
    const DAYS: i64 = 100;
    let mut firsts: Vec<i64> = (0..count as i64).map(|at| at * DAYS).collect();
    rng.shuffle(&mut firsts);
    let mut lines = Lines::default();
    split(text)[..2].iter().for_each(|line| lines.line(&[line]));
    for first in firsts {
        lines.line(&[b"+01,", &date(first), b",", &date(first + DAYS - 1)]);
    }
    lines.0
}

/// The file with a record for each leg in place of the records of a kind.
fn a_record_a_leg(rng: &mut Rng, text: &[u8], stops: usize) -> Vec<u8> {
    let mut lines = Vec::new();
    let mut before = 0;
    for line in split(text) {
        let letter = line[0];
        match first_column(letter) {
            Some(_) if letter == before => (),
            Some(column) => lines.extend(legs(rng, &line, column, stops)),
            None => lines.push(line),
        }
        before = letter;
    }
    join(&lines)
}

/// Where a record that covers legs has its first stop, from 0.
fn first_column(letter: u8) -> Option<usize> {
    match letter {
        b'%' => Some(19),
        b'-' => Some(7),
        b'&' => Some(6),
        _ => None,
    }
}

/// The line, for each leg in its turn, in any order.
fn legs(rng: &mut Rng, line: &[u8], column: usize, stops: usize) -> Vec<Vec<u8>> {
    let span = |leg: usize| [number(leg as u64, 3), number(leg as u64 + 1, 3)].join(&b","[..]);
    let of_leg = |leg: usize| [&line[..column], &span(leg), &line[column + 7..]].concat();
    let mut lines: Vec<Vec<u8>> = (1..stops).map(of_leg).collect();
    rng.shuffle(&mut lines);
    lines
}

/// The file with half as many attributes before each `>`, and half as many
/// passed stations before each `<`.
fn attributes(rng: &mut Rng, world: &World, text: &[u8], count: usize) -> Vec<u8> {
    let mut lines = Vec::new();
    for line in split(text) {
        for _ in 0..count / 2 {
            match line[0] {
                b'>' => lines.push(attribute(rng, world)),
                b'<' => lines.push([b";", rng.field(&world.stations)].concat()),
                _ => (),
            }
        }
        lines.push(line);
    }
    join(&lines)
}

fn attribute(rng: &mut Rng, world: &World) -> Vec<u8> {
    [b"*abcd,000,999,", &number(*rng.pick(&world.footnotes), 5)[..]].concat()
}
