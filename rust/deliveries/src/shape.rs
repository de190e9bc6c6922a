//! How much of everything a delivery has.

use std::ops::RangeInclusive;

use crate::rng::Rng;

/// How many of each a delivery has, and whether its keys rise.
#[derive(Clone, Debug)]
pub struct Shape {
    pub days: RangeInclusive<usize>,
    pub companies: RangeInclusive<usize>,
    pub countries: RangeInclusive<usize>,
    pub modes: RangeInclusive<usize>,
    pub zones: RangeInclusive<usize>,
    pub stations: RangeInclusive<usize>,
    pub footnotes: RangeInclusive<usize>,
    /// Footnotes of XFOOTNOTE, where it is there.
    pub special_footnotes: RangeInclusive<usize>,
    pub services: RangeInclusive<usize>,
    pub stops: RangeInclusive<usize>,
    /// Stations in CHANGES, and in XCHANGES.
    pub change_stations: RangeInclusive<usize>,
    /// Rows for each of them.
    pub change_rows: RangeInclusive<usize>,
    pub rising: bool,
    /// Whether the delivery also stands where rules may one day be narrower:
    /// zones with days between their periods or none after the last day of
    /// validity, attributes at a single stop, days at the calendar's end.
    pub at_borders: bool,
    /// Whether services run over midnight, often just up to it, while the clocks
    /// change: zones have periods of a day or two each.
    pub overnight: bool,
    /// Whether exceptions often have the keys of one before, with another footnote.
    pub repeated: bool,
    /// Whether the pairs of CHANGES are of services that call at the station.
    pub meeting: bool,
    /// Whether the last three files are there at all.
    pub changes: bool,
    pub xfootnotes: bool,
    pub xchanges: bool,
}

impl Shape {
    /// A few of everything.
    pub fn small(rng: &mut Rng) -> Shape {
        let xchanges = rng.percent(70);
        Shape {
            days: 1..=if rng.percent(10) { 800 } else { 40 },
            companies: 1..=4,
            countries: 1..=3,
            modes: 1..=5,
            zones: 1..=3,
            stations: 2..=8,
            footnotes: 1..=5,
            special_footnotes: 1..=5,
            services: if rng.percent(4) { 0..=0 } else { 1..=6 },
            stops: 2..=7,
            change_stations: 0..=6,
            change_rows: 0..=8,
            rising: rng.percent(50),
            at_borders: false,
            overnight: false,
            repeated: false,
            meeting: false,
            changes: rng.percent(70),
            xfootnotes: xchanges || rng.percent(30),
            xchanges,
        }
    }

    /// Few days, stations and services, so that services meet often; mostly at the
    /// borders too.
    pub fn overnight(rng: &mut Rng) -> Shape {
        let at_borders = rng.percent(70);
        Shape {
            days: 1..=12,
            zones: 1..=2,
            stations: 2..=3,
            services: 2..=4,
            stops: 4..=7,
            at_borders,
            overnight: true,
            ..Shape::small(rng)
        }
    }

    /// Few companies, modes, stations and services, and many exceptions, so that
    /// several apply to one change.
    pub fn excepted(rng: &mut Rng) -> Shape {
        Shape {
            companies: 1..=2,
            modes: 1..=2,
            stations: 2..=3,
            special_footnotes: 2..=5,
            services: 2..=4,
            change_stations: 1..=3,
            change_rows: 2..=10,
            repeated: true,
            changes: rng.percent(20),
            xfootnotes: true,
            xchanges: true,
            ..Shape::small(rng)
        }
    }

    /// Two and more of everything, and all files there.
    pub fn full(rng: &mut Rng) -> Shape {
        Shape {
            days: 2..=40,
            companies: 2..=4,
            countries: 2..=3,
            modes: 2..=5,
            zones: 2..=3,
            stations: 3..=8,
            footnotes: 2..=5,
            special_footnotes: 2..=5,
            services: 2..=5,
            stops: 3..=7,
            change_stations: 2..=5,
            change_rows: 2..=8,
            changes: true,
            xfootnotes: true,
            xchanges: true,
            ..Shape::small(rng)
        }
    }

    /// A national timetable with this many services, some 20 lines each. With
    /// 500,000 TIMETBLS stays below the largest length of a file.
    pub fn large(services: usize, rising: bool) -> Shape {
        let stations = (services / 50).clamp(50, 2_000);
        let footnotes = (services / 30).clamp(30, 4_000);
        Shape {
            days: 364..=364,
            companies: 40..=40,
            countries: 20..=20,
            modes: 30..=30,
            zones: 3..=3,
            stations: stations..=stations,
            footnotes: footnotes..=footnotes,
            special_footnotes: footnotes..=footnotes,
            services: services..=services,
            stops: 2..=16,
            change_stations: stations / 4..=stations / 4,
            change_rows: 0..=20,
            rising,
            at_borders: false,
            overnight: false,
            repeated: false,
            meeting: false,
            changes: true,
            xfootnotes: true,
            xchanges: true,
        }
    }

    /// A national timetable as connection sheets meet it: however many services
    /// there are, some thousand pairs of CHANGES and rows of XCHANGES under a few
    /// hundred stations of each, and most stations in neither.
    pub fn connected(services: usize, rising: bool) -> Shape {
        Shape {
            stations: 1_200..=1_200,
            change_stations: 300..=300,
            change_rows: 0..=20,
            meeting: true,
            ..Shape::large(services, rising)
        }
    }
}
