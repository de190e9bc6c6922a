//! The eleven tables of a loaded delivery, and what is shown of their rows
//! (docs/TABLES.md). Rows may be looked at in any tables; what was found there is
//! shown where the tables are found sound.

use std::collections::HashMap;
use std::ops::{Deref, DerefMut};

use memmap2::MmapMut;

use crate::files::place::*;
use crate::files::FILES;
use crate::memory::zeros;

/// The words of a row, by file.
pub const WIDTHS: [usize; FILES] = [6, 6, 6, 6, 6, 6, 14, 7, 6, 14, 7];

#[derive(Default)]
pub struct Tables(pub [Words; FILES]);

/// The words of a table: of this process alone, or a part of the store's file
/// that is read where it stands. That file is replaced and never changed; what
/// is written here to a part of it is seen by this process alone.
pub enum Words {
    Own(Vec<u64>),
    Mapped(MmapMut),
}

impl Default for Words {
    fn default() -> Words {
        Words::Own(Vec::new())
    }
}

impl Deref for Words {
    type Target = [u64];

    fn deref(&self) -> &[u64] {
        match self {
            Words::Own(words) => words,
            // SAFETY: the mapping's own memory, as long as it is. It begins at a
            // multiple of eight bytes of a file, so of a page, and every eight
            // bytes are a word.
            Words::Mapped(map) => unsafe {
                std::slice::from_raw_parts(map.as_ptr().cast(), map.len() / size_of::<u64>())
            },
        }
    }
}

impl DerefMut for Words {
    fn deref_mut(&mut self) -> &mut [u64] {
        match self {
            Words::Own(words) => words,
            // SAFETY: as above, and borrowed alone.
            Words::Mapped(map) => unsafe {
                std::slice::from_raw_parts_mut(map.as_mut_ptr().cast(), map.len() / size_of::<u64>())
            },
        }
    }
}

/// Days of validity, as numbers DDMMYYYY.
#[derive(Clone, Copy)]
pub struct Validity {
    pub first: u64,
    pub last: u64,
}

/// A numbered stop of a service.
#[derive(Clone, Copy)]
pub struct Stop {
    pub station: u64,
    /// Times as written, HHMM.
    pub arrival: Option<u64>,
    pub departure: Option<u64>,
}

/// A row of STATIONS.
#[derive(Clone, Copy)]
pub struct Station {
    pub flag: u64,
    pub code: u64,
    pub change_time: u64,
    pub country: u64,
    pub zone: u64,
    /// Its line in the file.
    pub line: u64,
}

/// A period of a time zone.
#[derive(Clone, Copy)]
pub struct Period {
    pub ahead: bool,
    pub hours: u64,
    pub first: u64,
    pub last: u64,
}

/// The rows of a service, its `#` first.
#[derive(Clone, Copy)]
pub struct Service<'a> {
    rows: &'a [u64],
}

impl Tables {
    pub fn empty(lengths: &[usize; FILES]) -> Tables {
        Tables(lengths.map(|length| Words::Own(zeros(length))))
    }

    pub fn lent(&self) -> [&[u64]; FILES] {
        self.0.each_ref().map(|words| &**words)
    }

    pub fn lent_mut(&mut self) -> [&mut [u64]; FILES] {
        self.0.each_mut().map(|words| &mut **words)
    }

    /// How many words of a table are in use.
    pub fn used(&self, file: usize) -> usize {
        self.rows(file).count() * WIDTHS[file]
    }

    pub fn rows(&self, file: usize) -> impl Iterator<Item = &[u64]> {
        self.0[file].chunks_exact(WIDTHS[file]).take_while(|row| row[0] != 0)
    }

    /// How many lines more a table has room for.
    pub fn room(&self, file: usize) -> usize {
        self.0[file].len() / WIDTHS[file] - self.rows(file).count()
    }

    pub fn validity(&self) -> Validity {
        let table = &self.0[DELIVERY];
        Validity { first: table.get(2).copied().unwrap_or(0), last: table.get(3).copied().unwrap_or(0) }
    }

    /// The delivery's version.
    pub fn version(&self) -> u64 {
        self.0[DELIVERY].get(4).copied().unwrap_or(0)
    }

    pub fn services(&self) -> impl Iterator<Item = Service<'_>> {
        const WIDTH: usize = WIDTHS[TIMETBLS];
        let mut rest = self.0[TIMETBLS].get(WIDTH..).unwrap_or_default();
        std::iter::from_fn(move || {
            let opening = rest.get(..WIDTH).filter(|row| row[0] == u64::from(b'#'))?;
            let words = (opening[2] as usize).checked_mul(WIDTH)?;
            let rows = rest.get(..words.max(WIDTH))?;
            rest = &rest[rows.len()..];
            Some(Service { rows })
        })
    }

    pub fn service(&self, number: u64) -> Option<Service<'_>> {
        self.services().find(|service| service.number() == number)
    }

    /// A service's stop.
    pub fn stop(&self, service: u64, stop: u64) -> Option<Stop> {
        self.service(service)?.stop(stop)
    }

    pub fn station(&self, code: u64) -> Option<Station> {
        self.stations().find(|station| station.code == code)
    }

    pub fn stations(&self) -> impl Iterator<Item = Station> + '_ {
        self.rows(STATIONS).zip(1..).skip(1).map(|(row, line)| Station {
            flag: row[1],
            code: row[2],
            change_time: row[3],
            country: row[4],
            zone: row[5],
            line,
        })
    }

    /// The periods of a zone.
    pub fn periods(&self, zone: u64) -> Vec<Period> {
        let is_opening = |row: &&[u64]| row[0] == u64::from(b'#');
        self.rows(TIMEZONE)
            .skip(1)
            .skip_while(|row| !(is_opening(row) && row[1] == zone))
            .skip(1)
            .take_while(|row| !is_opening(row))
            .map(|row| Period {
                ahead: row[0] == u64::from(b'+'),
                hours: row[1],
                first: row[2],
                last: row[3],
            })
            .collect()
    }

    /// The vector of a footnote: whether each day, from the first, has 1.
    pub fn days_of(&self, footnote: u64, days: usize) -> Option<Vec<bool>> {
        let mut rows = self.rows(FOOTNOTE).skip(1);
        rows.find(|row| row[0] == u64::from(b'#') && row[1] == footnote)?;
        let vector = rows.next()?;
        Some((0..days).map(|day| has(vector, day)).collect())
    }

    /// The vectors of FOOTNOTE or XFOOTNOTE by footnote.
    pub fn vectors(&self, file: usize) -> HashMap<u64, &[u64]> {
        // A vector stands behind its `#`.
        self.groups(file).filter_map(|group| Some((group.key, group.rows().next()?.0))).collect()
    }

    /// The groups of a file of groups, in its order.
    pub fn groups(&self, file: usize) -> impl Iterator<Item = Group<'_>> {
        let width = WIDTHS[file];
        let is_under = |row: &&[u64]| row[0] != 0 && row[0] != u64::from(b'#');
        // A row stands for a line, and the first line is the file's own.
        let mut rest = self.0[file].get(width..).unwrap_or_default();
        let mut line = 2;
        std::iter::from_fn(move || {
            let opening = rest.get(..width).filter(|row| row[0] == u64::from(b'#'))?;
            let under = rest[width..].chunks_exact(width).take_while(is_under).count();
            let (group, behind) = rest.split_at(width * (1 + under));
            let first = line + 1;
            (rest, line) = (behind, first + under as u64);
            Some(Group { key: opening[1], rows: &group[width..], width, first })
        })
    }
}

/// A group of a file of groups: what its `#` names, and the rows under it.
#[derive(Clone, Copy)]
pub struct Group<'a> {
    pub key: u64,
    rows: &'a [u64],
    width: usize,
    /// The line of the first row.
    first: u64,
}

impl<'a> Group<'a> {
    /// The rows with their lines in the file.
    pub fn rows(&self) -> impl Iterator<Item = (&'a [u64], u64)> {
        self.rows.chunks_exact(self.width).zip(self.first..)
    }
}

/// Whether a vector's row has 1 on a day, counted from the first.
pub fn has(vector: &[u64], day: usize) -> bool {
    vector.get(1 + day / 64).is_some_and(|word| word >> (day % 64) & 1 == 1)
}

impl<'a> Service<'a> {
    /// Of a copy of its words, of which there is a row at least.
    pub fn of(words: &'a [u64]) -> Service<'a> {
        Service { rows: words }
    }

    pub fn words(&self) -> &'a [u64] {
        self.rows
    }

    pub fn number(&self) -> u64 {
        self.rows[1]
    }

    pub fn stop_count(&self) -> u64 {
        self.rows[3]
    }

    pub fn rows(&self) -> impl Iterator<Item = &'a [u64]> {
        self.rows.chunks_exact(WIDTHS[TIMETBLS])
    }

    /// The rows with a letter.
    pub fn records(&self, letter: u8) -> impl Iterator<Item = &'a [u64]> {
        self.rows().filter(move |row| row[0] == u64::from(letter))
    }

    /// Whether a record of it names a station.
    pub fn names(&self, station: u64) -> bool {
        self.rows().any(|row| row[1] == station)
    }

    /// The record of a leg: `%`, `-` or `&`.
    pub fn on_leg(&self, letter: u8, leg: u64) -> Option<&'a [u64]> {
        let first = if letter == b'%' { 3 } else { 2 };
        self.records(letter).find(|row| (row[first]..row[first + 1]).contains(&leg))
    }

    pub fn stops(&self) -> impl Iterator<Item = Stop> + 'a {
        self.rows().filter_map(stop_of)
    }

    pub fn stop(&self, number: u64) -> Option<Stop> {
        self.stops().nth(usize::try_from(number.checked_sub(1)?).ok()?)
    }
}

/// The numbered stop that a row of TIMETBLS is, if it is one.
pub fn stop_of(row: &[u64]) -> Option<Stop> {
    let some = |time: u64| (time != 9999).then_some(time);
    let (arrival, departure) = match u8::try_from(row[0]).ok()? {
        b'>' => (None, Some(row[2])),
        b'.' => (Some(row[2]), Some(row[2])),
        b'+' => (some(row[2]), some(row[3])),
        b'<' => (Some(row[2]), None),
        _ => return None,
    };
    Some(Stop { station: row[1], arrival, departure })
}
