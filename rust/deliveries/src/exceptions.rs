//! Which exceptions apply to a change, and what tells the one that counts from the
//! others. Counted so that a comparison is known to meet every place on the desk's
//! card, and both ways in which one exception beats another.

use crate::calendar;
use crate::place::*;
use crate::questions::{Question, Side};
use crate::tables::{is_stop, rows_in_use, Tables, ANY_COMPANY, ANY_MODE, GROUP};

/// An exception that applies to a change.
#[derive(Clone, Copy, Debug, PartialEq, Eq)]
pub struct Applied {
    /// Its line in XCHANGES.
    pub line: u64,
    /// From company, from mode, to company, to mode, as the table has them.
    pub keys: [u64; 4],
    pub time: u64,
    pub footnote: u64,
}

/// Which keys are named, the from company first, and the time: the larger counts.
type Weight = ([bool; 4], u64);

impl Applied {
    fn weight(&self) -> Weight {
        let any = [ANY_COMPANY, ANY_MODE, ANY_COMPANY, ANY_MODE];
        (std::array::from_fn(|key| self.keys[key] != any[key]), self.time)
    }

    /// `c` and `m` for what is named, `*` for what is not.
    pub fn pattern(&self) -> String {
        let letters = self.weight().0.into_iter().zip("cmcm".chars());
        letters.map(|(named, letter)| if named { letter } else { '*' }).collect()
    }
}

/// What a change of sound tables whose needed time is that of XCHANGES tells of
/// exceptions, as `tally::OF_EXCEPTIONS` has it.
pub fn told(tables: &Tables, question: &Question, needed: u64) -> Vec<String> {
    let Question::Change { from, to } = *question else { return Vec::new() };
    let applied = applied(tables, from, to).unwrap_or_default();
    let Some(best) = applied.iter().max_by_key(|applied| applied.weight()) else {
        return vec!["no exception applies".into()];
    };
    if best.time != needed {
        return vec!["another time than the best exception's".into()];
    }
    let weights: Vec<Weight> = applied.iter().map(Applied::weight).collect();
    vec![format!("{} counts", best.pattern()), beats(&weights, best.weight()).into()]
}

/// What tells the best from the others.
fn beats(applied: &[Weight], best: Weight) -> &'static str {
    let position_of = |wanted: Weight| applied.iter().position(|&weight| weight == wanted);
    let second = applied.iter().copied().filter(|&weight| weight != best).max();
    let largest = applied.iter().map(|&(_, time)| time).max();
    match second {
        _ if applied.iter().filter(|&&weight| weight == best).count() > 1 => {
            "the same place and the same time"
        }
        None => "the only one that applies",
        Some(second) if second.0 == best.0 && position_of(best) < position_of(second) => {
            "the same place, the larger time before"
        }
        Some(second) if second.0 == best.0 => "the same place, the larger time after",
        Some(_) if largest > Some(best.1) => "a higher place with a smaller time",
        Some(_) => "a higher place with a time as large",
    }
}

/// The exceptions that apply to a change of sound tables, in the order of the file.
pub fn applied(tables: &Tables, from: Side, to: Side) -> Option<Vec<Applied>> {
    let (left, boarded) = (from.stop.checked_sub(1)?, to.stop);
    let ridden = [
        on_leg(tables, from.service, b'%', left, 3)?,
        on_leg(tables, from.service, b'&', left, 2)?,
        on_leg(tables, to.service, b'%', boarded, 3)?,
        on_leg(tables, to.service, b'&', boarded, 2)?,
    ];
    let mut rows = rows_in_use(tables, XCHANGES).zip(1..).skip(1);
    let station = station_of(tables, from)?;
    rows.find(|(row, _)| row[0] == GROUP && row[1] == station)?;
    let first_day = calendar::counted(rows_in_use(tables, DELIVERY).next()?[2]);
    let day = usize::try_from(calendar::counted(from.date) - first_day).ok()?;
    let under = rows.take_while(|(row, _)| row[0] != GROUP).map(|(row, line)| Applied {
        line,
        keys: [row[1], row[2], row[3], row[4]],
        time: row[5],
        footnote: row[6],
    });
    let fits = |applied: &Applied| {
        let (named, _) = applied.weight();
        (0..4).all(|key| !named[key] || applied.keys[key] == ridden[key])
    };
    Some(under.filter(|applied| fits(applied) && is_marked(tables, applied.footnote, day)).collect())
}

fn block(tables: &Tables, service: u64) -> impl Iterator<Item = &[u64]> {
    let is_service = move |row: &&[u64]| row[0] == GROUP && row[1] == service;
    let rows = rows_in_use(tables, TIMETBLS).skip_while(move |row| !is_service(row));
    rows.skip(1).take_while(|row| row[0] != GROUP)
}

/// What a service has on a leg, by its records of this letter; the first stop
/// stands in this word, the last in the next.
fn on_leg(tables: &Tables, service: u64, letter: u8, leg: u64, first: usize) -> Option<u64> {
    let mut records = block(tables, service).filter(|row| row[0] == u64::from(letter));
    records.find(|row| (row[first]..row[first + 1]).contains(&leg)).map(|row| row[1])
}

fn station_of(tables: &Tables, side: Side) -> Option<u64> {
    let mut stops = block(tables, side.service).filter(|row| is_stop(row));
    stops.nth(usize::try_from(side.stop.checked_sub(1)?).ok()?).map(|row| row[1])
}

/// Whether a footnote of XFOOTNOTE has 1 on a day, counted from the first.
fn is_marked(tables: &Tables, footnote: u64, day: usize) -> bool {
    let mut rows = rows_in_use(tables, XFOOTNOTE).skip(1);
    let vector = rows.find(|row| row[0] == GROUP && row[1] == footnote).and_then(|_| rows.next());
    vector.is_some_and(|vector| vector[1 + day / 64] >> (day % 64) & 1 == 1)
}
