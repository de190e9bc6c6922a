//! Made-up IFF 4.2.4 deliveries for comparing two readers: sound ones with
//! every record and option, damaged ones, ones at the limits and large ones;
//! and, for a delivery, amendments, questions and sheets of them.
//!
//! Everything follows from a seed, so a case that two readers disagree on can
//! be made again.

pub mod amendments;
pub mod calendar;
pub mod cases;
pub mod causes;
pub mod clocks;
pub mod connections;
mod damage;
pub mod exceptions;
mod fields;
pub mod folder;
mod many;
pub mod questions;
mod rng;
mod shape;
pub mod sheets;
pub mod tables;
pub mod tally;
mod text;
pub mod ways;
mod world;

pub use amendments::{amendment, edited, Amendment};
pub use cases::{
    at_borders, connected, crowded, damaged, excepted, large, limit, limits, mixed, of_each_sort, overnight,
    sound, Case, Limit,
};
pub use causes::{causes, Cause};
pub use damage::{damage_file, TELLING_BYTES};
pub use many::{many, Many};
pub use questions::{lines_in, name_in, question, question_on_tables, Question};
pub use rng::Rng;
pub use shape::Shape;
pub use sheets::{sheet, Sheet};
pub use tally::{can_occur, Outcomes, Tally};
pub use ways::{Caused, Way, WAYS};
pub use world::World;

/// How many files a delivery has.
pub const FILES: usize = 11;

/// The files' names, in reading order.
pub const NAMES: [&str; FILES] = [
    "DELIVERY",
    "COMPANY",
    "COUNTRY",
    "TRNSMODE",
    "TIMEZONE",
    "STATIONS",
    "FOOTNOTE",
    "TIMETBLS",
    "CHANGES",
    "XFOOTNOTE",
    "XCHANGES",
];

/// The files' places in reading order.
pub mod place {
    pub const DELIVERY: usize = 0;
    pub const COMPANY: usize = 1;
    pub const COUNTRY: usize = 2;
    pub const TRNSMODE: usize = 3;
    pub const TIMEZONE: usize = 4;
    pub const STATIONS: usize = 5;
    pub const FOOTNOTE: usize = 6;
    pub const TIMETBLS: usize = 7;
    pub const CHANGES: usize = 8;
    pub const XFOOTNOTE: usize = 9;
    pub const XCHANGES: usize = 10;
}
