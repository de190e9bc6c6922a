//! The store: what is kept of a delivery, in the order of its files.

use std::hash::Hash;

use crate::columns;
use crate::hash::HashMap;
use crate::refusals::Fault;
use crate::values::{Clock, Day, LocalMinutes, ReferenceMinutes};

/// The largest number of days that a delivery spans.
pub const MOST_DAYS: usize = 800;
/// The largest number of modes.
pub const MOST_MODES: usize = 64;
/// The largest number of stops in a service.
pub const MOST_STOPS: u16 = 998;

/// Rows in the file's order, found by their key.
#[derive(Clone, Debug, PartialEq)]
pub struct Keyed<K: Eq + Hash, T> {
    rows: Vec<T>,
    index: HashMap<K, u32>,
}

impl<K: Eq + Hash, T> Default for Keyed<K, T> {
    fn default() -> Self {
        Keyed { rows: Vec::new(), index: HashMap::default() }
    }
}

impl<K: Eq + Hash, T> Keyed<K, T> {
    /// Takes a key for the row that is pushed next. The two are apart because
    /// a duplicate is refused before the row's references are looked at.
    pub fn claim(&mut self, key: K) -> Result<(), Fault> {
        match self.index.insert(key, self.rows.len() as u32) {
            None => Ok(()),
            Some(_) => Err(Fault::Duplicate),
        }
    }

    pub fn push(&mut self, row: T) {
        self.rows.push(row);
    }

    /// The place of the row that is named elsewhere.
    #[inline]
    pub fn refer(&self, key: K) -> Result<u32, Fault> {
        self.index.get(&key).copied().ok_or(Fault::Reference)
    }

    pub fn find(&self, key: K) -> Option<u32> {
        self.index.get(&key).copied()
    }

    pub fn row(&self, place: u32) -> &T {
        &self.rows[place as usize]
    }

    pub fn row_mut(&mut self, place: u32) -> &mut T {
        &mut self.rows[place as usize]
    }

    pub fn last_mut(&mut self) -> Option<&mut T> {
        self.rows.last_mut()
    }

    pub fn rows(&self) -> &[T] {
        &self.rows
    }
}

/// The kept fields of the first line, which all files share.
#[derive(Clone, Copy, Debug, PartialEq)]
pub struct Header {
    pub company: u16,
    pub first_day: Day,
    pub last_day: Day,
    pub version: u16,
}

impl Header {
    /// Both days count.
    pub fn days(&self) -> usize {
        self.last_day.days_after(self.first_day) as usize + 1
    }

    /// How many days after the first day; none if outside validity.
    pub fn offset(&self, day: Day) -> Option<usize> {
        let offset = usize::try_from(day.days_after(self.first_day)).ok()?;
        (offset < self.days()).then_some(offset)
    }
}

#[derive(Clone, Copy, Debug, PartialEq)]
pub struct Company {
    pub number: u16,
    pub day_turn: Clock,
}

#[derive(Clone, Copy, Debug, PartialEq)]
pub struct Country {
    pub code: u64,
    pub inland: bool,
}

#[derive(Clone, Copy, Debug, PartialEq)]
pub struct Mode {
    pub code: u64,
}

/// Whether a period's clocks are ahead of the reference clock or behind it.
/// Kept apart from the hours: `-00` is not `+00` in the file.
#[derive(Clone, Copy, Debug, PartialEq)]
pub enum Sign {
    Ahead,
    Behind,
}

#[derive(Clone, Copy, Debug, PartialEq)]
pub struct Period {
    pub sign: Sign,
    pub hours: u16,
    pub first_day: Day,
    pub last_day: Day,
}

impl Period {
    /// A day by its place in the count of all days: none after the year 9999 is
    /// held.
    pub fn holds(&self, day: u32) -> bool {
        self.first_day.count() <= day && day <= self.last_day.count()
    }

    /// The zone rule: local minutes less the signed hours.
    pub fn reference(&self, local: LocalMinutes) -> ReferenceMinutes {
        let ahead = match self.sign {
            Sign::Ahead => i32::from(self.hours),
            Sign::Behind => -i32::from(self.hours),
        };
        ReferenceMinutes(local.0 - ahead * 60)
    }
}

#[derive(Clone, Debug, PartialEq)]
pub struct Zone {
    pub number: u16,
    pub periods: Vec<Period>,
}

#[derive(Clone, Copy, Debug, PartialEq)]
pub struct Station {
    pub flag: u8,
    pub short_name: u64,
    pub change_time: u16,
    pub country: u32,
    pub zone: u32,
}

/// The words that hold a vector's days.
pub const VECTOR_WORDS: usize = MOST_DAYS.div_ceil(64);

/// One bit for each day of validity, the first day lowest in the first word.
#[derive(Clone, Copy, Debug, PartialEq)]
pub struct Vector(pub [u64; VECTOR_WORDS]);

impl Vector {
    pub fn has(&self, offset: usize) -> bool {
        self.0[offset / 64] >> (offset % 64) & 1 == 1
    }
}

#[derive(Clone, Copy, Debug, PartialEq)]
pub struct Footnote {
    pub number: u32,
    pub vector: Vector,
}

pub type Footnotes = Keyed<u32, Footnote>;

/// From a first to a last stop. As read, 000 and 999 stand for the first and
/// the last stop; in the store both are stop numbers.
#[derive(Clone, Copy, Debug, PartialEq)]
pub struct Span {
    pub first: u16,
    pub last: u16,
}

impl Span {
    /// Leg k goes from stop k to stop k + 1.
    pub fn has_leg(self, leg: u16) -> bool {
        self.first <= leg && leg < self.last
    }
}

/// A line of a service after its `#`. Stations, modes and footnotes are the
/// places of their rows; a company is its number.
#[derive(Clone, Copy, Debug, PartialEq)]
pub enum Record {
    Number { company: u16, number: u32, span: Span },
    Validity { footnote: u32, span: Span },
    Mode { mode: u32, span: Span },
    Attribute { code: u32, span: Span, footnote: u32 },
    Start { station: u32, departure: Clock },
    Through { station: u32, time: Clock },
    Interval { station: u32, arrival: Option<Clock>, departure: Option<Clock> },
    Final { station: u32, arrival: Clock },
    Passed { station: u32 },
    Platform { footnote: u32 },
}

/// A numbered stop: where, and when one may alight and board.
#[derive(Clone, Copy, Debug, PartialEq)]
pub struct Stop {
    pub station: u32,
    pub arrival: Option<Clock>,
    pub departure: Option<Clock>,
}

impl Record {
    /// The numbered stop that this record is; `;` and `?` are none.
    pub fn stop(&self) -> Option<Stop> {
        let (station, arrival, departure) = match *self {
            Record::Start { station, departure } => (station, None, Some(departure)),
            Record::Through { station, time } => (station, Some(time), Some(time)),
            Record::Interval { station, arrival, departure } => (station, arrival, departure),
            Record::Final { station, arrival } => (station, Some(arrival), None),
            _ => return None,
        };
        Some(Stop { station, arrival, departure })
    }

    /// The bytes that the record's line takes in the file.
    pub fn bytes(&self) -> usize {
        let layout = match self {
            Record::Number { .. } => columns::SERVICE_NUMBER,
            Record::Validity { .. } => columns::VALIDITY,
            Record::Mode { .. } => columns::MODE,
            Record::Attribute { .. } => columns::ATTRIBUTE,
            Record::Start { .. } | Record::Through { .. } | Record::Final { .. } => columns::ONE_TIME_STOP,
            Record::Interval { .. } => columns::INTERVAL,
            Record::Passed { .. } => columns::PASSED,
            Record::Platform { .. } => columns::PLATFORM,
        };
        layout.bytes()
    }
}

#[derive(Clone, Debug, PartialEq)]
pub struct Service {
    pub number: u32,
    pub stops: u16,
    pub records: Box<[Record]>,
}

impl Service {
    /// The block's lines, its `#` included.
    pub fn lines(&self) -> usize {
        1 + self.records.len()
    }

    /// The block's bytes in the file.
    pub fn bytes(&self) -> usize {
        columns::SERVICE.bytes() + self.records.iter().map(Record::bytes).sum::<usize>()
    }

    /// The stop with this number, from 1.
    pub fn stop(&self, number: u64) -> Option<Stop> {
        let before = usize::try_from(number.checked_sub(1)?).ok()?;
        self.records.iter().filter_map(Record::stop).nth(before)
    }

    /// The footnote, by its place, that says when the service runs on a leg.
    pub fn footnote_on(&self, leg: u16) -> u32 {
        self.covering(|record| match *record {
            Record::Validity { footnote, span } if span.has_leg(leg) => Some(footnote),
            _ => None,
        })
    }

    pub fn company_on(&self, leg: u16) -> u16 {
        self.covering(|record| match *record {
            Record::Number { company, span, .. } if span.has_leg(leg) => Some(company),
            _ => None,
        })
    }

    pub fn mode_on(&self, leg: u16) -> u32 {
        self.covering(|record| match *record {
            Record::Mode { mode, span } if span.has_leg(leg) => Some(mode),
            _ => None,
        })
    }

    fn covering<T>(&self, value: impl FnMut(&Record) -> Option<T>) -> T {
        self.records.iter().find_map(value).expect("every leg of a held service is covered")
    }
}

#[derive(Clone, Copy, Debug, PartialEq)]
pub enum Possibility {
    Impossible,
    Possible,
    Guaranteed,
}

#[derive(Clone, Copy, Debug, PartialEq)]
pub struct ChangePair {
    pub from: u32,
    pub to: u32,
    pub possibility: Possibility,
}

#[derive(Clone, Debug, PartialEq)]
pub struct ChangeStation {
    pub station: u32,
    pub pairs: Vec<ChangePair>,
}

/// CHANGES: the pairs by station, and an index of them by station and pair.
#[derive(Clone, Debug, Default, PartialEq)]
pub struct Changes {
    pub stations: Keyed<u64, ChangeStation>,
    pub pairs: HashMap<(u32, u32, u32), Possibility>,
}

/// A row of XCHANGES; none stands for the wildcard.
#[derive(Clone, Copy, Debug, PartialEq)]
pub struct XChange {
    pub from_company: Option<u16>,
    pub from_mode: Option<u32>,
    pub to_company: Option<u16>,
    pub to_mode: Option<u32>,
    pub time: u16,
    pub footnote: u32,
}

#[derive(Clone, Debug, PartialEq)]
pub struct XChangeStation {
    pub station: u32,
    pub rows: Vec<XChange>,
}

pub type XChanges = Keyed<u64, XChangeStation>;

/// TIMETBLS: the services, and what an amendment's tests 1 and 2 count.
#[derive(Clone, Debug, PartialEq)]
pub struct Timetable {
    pub services: Keyed<u32, Service>,
    pub bytes: usize,
    pub lines: usize,
    pub room: usize,
}

/// An accepted delivery. Absent files are none.
#[derive(Clone, Debug, PartialEq)]
pub struct Store {
    pub(crate) header: Header,
    pub(crate) companies: Keyed<u16, Company>,
    pub(crate) countries: Keyed<u64, Country>,
    pub(crate) modes: Keyed<u64, Mode>,
    pub(crate) zones: Keyed<u16, Zone>,
    pub(crate) stations: Keyed<u64, Station>,
    pub(crate) footnotes: Footnotes,
    pub(crate) timetable: Timetable,
    pub(crate) changes: Option<Changes>,
    pub(crate) xfootnotes: Option<Footnotes>,
    pub(crate) xchanges: Option<XChanges>,
}

/// What an accepted load or amendment answers.
#[derive(Clone, Copy, Debug, PartialEq, Eq)]
pub struct Answer {
    pub days: u64,
    pub services: u64,
}

impl Store {
    pub fn answer(&self) -> Answer {
        Answer { days: self.header.days() as u64, services: self.timetable.services.rows().len() as u64 }
    }

    pub(crate) fn service(&self, number: u64) -> Option<&Service> {
        let services = &self.timetable.services;
        let place = services.find(u32::try_from(number).ok()?)?;
        Some(services.row(place))
    }
}
