//! Causes: for every refusal each record and field that can bring it about, and
//! borders that bring about none. A cause is put into a delivery that is sound
//! otherwise, so what a load must answer is known without loading it.

mod accepted;
mod both;
mod files;
mod keys;
mod layout;
mod legs;
mod order;
mod values;

use std::fmt;
use std::sync::LazyLock;

use crate::cases::{full, Case};
use crate::damage::lines_in;
use crate::fields::{put, Field, Record};
use crate::place::TIMETBLS;
use crate::rng::Rng;
use crate::text::{join, split};
use crate::NAMES;

/// The number of a cause that leaves the delivery sound.
pub const ACCEPTED: u8 = 0;

/// What brings a refusal about.
pub struct Cause {
    /// The refusal's number, or [`ACCEPTED`].
    pub number: u8,
    pub file: usize,
    /// The kind of record in the file: its letter, or what it is.
    record: &'static str,
    pub what: String,
    edit: Box<Edit>,
}

/// Puts the cause into a delivery and answers where it is refused; none if the
/// delivery has no place for it.
type Edit = dyn Fn(&mut Rng, &mut Case) -> Option<Place> + Send + Sync;

/// Where in a file: the block's ordinal, 0 outside TIMETBLS, and the line.
#[derive(Clone, Copy, Debug, PartialEq, Eq)]
pub struct Place {
    pub ordinal: u64,
    pub line: u64,
}

impl Place {
    /// A file as a whole, or no place at all.
    pub(crate) const FILE: Place = Place { ordinal: 0, line: 0 };
    const FIRST_LINE: Place = Place { ordinal: 0, line: 1 };

    /// Of a line by its place among all lines of the file, from 0.
    fn of(file: usize, lines: &[Vec<u8>], at: usize) -> Place {
        let opening = (1..=at).rev().find(|&at| file == TIMETBLS && lines[at].starts_with(b"#"));
        match opening {
            None => Place { ordinal: 0, line: at as u64 + 1 },
            Some(opening) => {
                let ordinal = lines[1..=opening].iter().filter(|line| line.starts_with(b"#")).count();
                Place { ordinal: ordinal as u64, line: (at - opening) as u64 + 1 }
            }
        }
    }
}

/// The lines of a file, the first included.
type Lines = Vec<Vec<u8>>;

/// The name of a kind of record: its letter, or that it is a row.
fn named(record: &Record) -> &'static str {
    const LETTERS: &str = "#%-&*>.+<;?";
    let place = record.letter.and_then(|letter| LETTERS.find(char::from(letter)));
    place.map_or("row", |place| &LETTERS[place..=place])
}

impl Cause {
    fn new(
        number: u8,
        file: usize,
        record: &'static str,
        what: impl Into<String>,
        edit: impl Fn(&mut Rng, &mut Case) -> Option<Place> + Send + Sync + 'static,
    ) -> Cause {
        Cause { number, file, record, what: what.into(), edit: Box::new(edit) }
    }

    /// A cause in the lines of its file. The edit answers the place, from 0, of
    /// the line that is refused.
    fn in_lines(
        number: u8,
        file: usize,
        record: &'static str,
        what: impl Into<String>,
        edit: impl Fn(&mut Rng, &mut Lines) -> Option<usize> + Send + Sync + 'static,
    ) -> Cause {
        Cause::new(number, file, record, what, move |rng, case| {
            edit_lines(case, file, |lines| edit(rng, lines))
        })
    }

    /// A cause in one line, which is the one that is refused.
    fn in_record(
        number: u8,
        record: Record,
        what: impl Into<String>,
        edit: impl Fn(&mut Rng, &mut Vec<u8>) -> Option<()> + Send + Sync + 'static,
    ) -> Cause {
        Cause::in_lines(number, record.file, named(&record), what, move |rng, lines| {
            let at = any(rng, places_of(&record, lines))?;
            edit(rng, &mut lines[at])?;
            Some(at)
        })
    }

    /// A value in a field.
    fn value(number: u8, record: Record, field: Field, value: &'static [u8]) -> Cause {
        let what = format!("{} {}", field.name, String::from_utf8_lossy(value));
        Cause::in_record(number, record, what, move |_, line| {
            put(line, field, value);
            Some(())
        })
    }

    /// A delivery with this cause alone, and where it is refused for it; none
    /// if the seed's delivery has no place for it.
    pub fn case(&self, seed: u64) -> Option<(Case, Place)> {
        let (_, mut case) = full(seed);
        let place = (self.edit)(&mut Rng::new(!seed), &mut case)?;
        if self.number != 2 {
            for (room, file) in case.rooms.iter_mut().zip(&case.files) {
                *room = (*room).max(lines_in(file));
            }
        }
        Some((case, place))
    }

    /// The file and the kind of record in it.
    pub fn record(&self) -> String {
        format!("{} {}", NAMES[self.file], self.record)
    }
}

impl fmt::Display for Cause {
    fn fmt(&self, out: &mut fmt::Formatter) -> fmt::Result {
        write!(out, "{} by {}: {}", self.number, self.record(), self.what)
    }
}

/// Every cause, by refusal.
pub fn causes() -> &'static [Cause] {
    static CAUSES: LazyLock<Vec<Cause>> = LazyLock::new(|| {
        let mut causes = accepted::causes();
        causes.extend(files::causes());
        causes.extend(layout::causes());
        causes.extend(values::causes());
        causes.extend(order::causes());
        causes.extend(keys::causes());
        causes.extend(legs::causes());
        causes.extend(both::causes());
        causes.sort_by_key(|cause| cause.number);
        causes
    });
    &CAUSES
}

/// Edits the lines of a file; the edit answers the place, from 0, of the line
/// that is meant.
fn edit_lines(case: &mut Case, file: usize, edit: impl FnOnce(&mut Lines) -> Option<usize>) -> Option<Place> {
    let mut lines = split(&case.files[file]);
    let at = edit(&mut lines)?;
    case.files[file] = join(&lines);
    Some(Place::of(file, &lines, at))
}

/// The places, from 0, of the records of a kind.
fn places_of(record: &Record, lines: &[Vec<u8>]) -> Vec<usize> {
    (1..lines.len()).filter(|&at| record.is(&lines[at])).collect()
}

/// One of them, if there is one.
fn any<T: Copy>(rng: &mut Rng, of: Vec<T>) -> Option<T> {
    (!of.is_empty()).then(|| *rng.pick(&of))
}

/// A byte other than this one.
fn other_byte(rng: &mut Rng, byte: u8, of: &[u8]) -> u8 {
    let others: Vec<u8> = of.iter().copied().filter(|&other| other != byte).collect();
    *rng.pick(&others)
}
