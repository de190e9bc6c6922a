//! Refusal 4, and 6 by each field of a first line.

use crate::cases::Case;
use crate::fields::{Record, FIRST_LINE, RECORDS};
use crate::place::*;
use crate::rng::Rng;
use crate::text::{join, split};
use crate::FILES;

use super::{any, named, other_byte, places_of, Cause, Lines, Place};

/// What is at both ends of the two stretches that are not allowed, and within.
const FORBIDDEN: &[u8] = &[0, 9, 10, 13, 27, 31, 127, 128, 133, 159];

/// The files with record letters, and the letters that are known in them.
const LETTERS: [(usize, &[u8]); 6] = [
    (TIMEZONE, b"@#+-"),
    (FOOTNOTE, b"@#01"),
    (TIMETBLS, b"@#%-&*>.+;<?"),
    (CHANGES, b"@#-"),
    (XFOOTNOTE, b"@#01"),
    (XCHANGES, b"@#-"),
];

/// Which lines of a file are meant.
#[derive(Clone, Copy)]
enum Which {
    First,
    Records(Record),
    Vectors,
}

impl Which {
    fn name(&self) -> &'static str {
        match self {
            Which::First => "first line",
            Which::Records(record) => named(record),
            Which::Vectors => "vector",
        }
    }

    fn places(&self, lines: &[Vec<u8>]) -> Vec<usize> {
        match self {
            Which::First => vec![0],
            Which::Records(record) => places_of(record, lines),
            Which::Vectors => {
                (1..lines.len()).filter(|&at| matches!(lines[at].first(), Some(b'0' | b'1'))).collect()
            }
        }
    }

    fn commas(&self) -> Vec<usize> {
        match self {
            Which::First => FIRST_LINE.windows(2).map(|pair| pair[0].last + 1).collect(),
            Which::Records(record) => record.commas().collect(),
            Which::Vectors => vec![],
        }
    }
}

pub fn causes() -> Vec<Cause> {
    let mut kinds: Vec<(usize, Which)> = (0..FILES).map(|file| (file, Which::First)).collect();
    kinds.extend(RECORDS.iter().map(|record| (record.file, Which::Records(*record))));
    kinds.extend([(FOOTNOTE, Which::Vectors), (XFOOTNOTE, Which::Vectors)]);
    let mut causes: Vec<Cause> = kinds.into_iter().flat_map(|(file, which)| of_kind(file, which)).collect();
    causes.extend(LETTERS.into_iter().map(|(file, known)| unknown_letter(file, known)));
    causes.extend((1..FILES).map(empty_line));
    causes.extend([FOOTNOTE, XFOOTNOTE].map(wrong_first_day));
    causes.extend((1..FILES).flat_map(other_first_line));
    causes
}

fn of_kind(file: usize, which: Which) -> Vec<Cause> {
    let cause = |what: String, edit: fn(&mut Rng, &mut Vec<u8>)| {
        Cause::in_lines(4, file, which.name(), what, move |rng, lines| {
            let at = any(rng, which.places(lines))?;
            edit(rng, &mut lines[at]);
            Some(at)
        })
    };
    let mut causes = vec![
        cause("too short".into(), |_, line| line.truncate(line.len() - 1)),
        cause("too long".into(), |rng, line| line.push(*rng.pick(b" ,019"))),
        cause("byte not allowed".into(), |rng, line| {
            // The first byte is a test of its own.
            let column = 1 + rng.below(line.len() - 1);
            line[column] = *rng.pick(FORBIDDEN);
        }),
    ];
    causes.extend(which.commas().into_iter().map(|column| no_comma(file, which, column)));
    causes.push(Cause::new(4, file, which.name(), "CR LF missing", move |rng, case| {
        lose_end(rng, case, file, which)
    }));
    causes
}

fn no_comma(file: usize, which: Which, column: usize) -> Cause {
    Cause::in_lines(4, file, which.name(), format!("no comma in {column}"), move |rng, lines| {
        let at = any(rng, which.places(lines))?;
        lines[at][column - 1] = *rng.pick(b" .;0+-");
        Some(at)
    })
}

/// The record becomes the last of the file and loses CR, LF or both; or it
/// loses one of them where it stands, which makes one line of two.
fn lose_end(rng: &mut Rng, case: &mut Case, file: usize, which: Which) -> Option<Place> {
    let mut lines: Lines = split(&case.files[file]);
    let at = any(rng, which.places(&lines))?;
    let place = Place::of(file, &lines, at);
    let rest = lines.split_off(at + 1);
    let mut text = join(&lines);
    let ended = text.len();
    match rng.below(4) {
        0 => drop(text.drain(ended - 2..)),
        1 => drop(text.pop()),
        2 => drop(text.remove(ended - 2)),
        _ => {
            text.remove(ended - 1 - rng.below(2));
            text.extend(join(&rest));
        }
    }
    case.files[file] = text;
    Some(place)
}

fn unknown_letter(file: usize, known: &'static [u8]) -> Cause {
    Cause::in_lines(4, file, "line", "unknown first byte", move |rng, lines| {
        let unknown: Vec<u8> = b"@#%-&*>.+;<?012 x!=~\xff\x00\x7f".to_vec();
        let letter = any(rng, unknown.into_iter().filter(|byte| !known.contains(byte)).collect())?;
        let at = 1 + rng.below(lines.len());
        let mut line = rng.pick(lines).clone();
        line[0] = letter;
        lines.insert(at, line);
        Some(at)
    })
}

fn empty_line(file: usize) -> Cause {
    Cause::in_lines(4, file, "line", "empty", move |rng, lines| {
        let at = 1 + rng.below(lines.len());
        lines.insert(at, vec![]);
        Some(at)
    })
}

/// A wrong character in a vector's first place is an unknown first byte.
fn wrong_first_day(file: usize) -> Cause {
    Cause::in_lines(4, file, "vector", "wrong first character", move |rng, lines| {
        let at = any(rng, Which::Vectors.places(lines))?;
        lines[at][0] = *rng.pick(b"2/ x,:");
        Some(at)
    })
}

/// First lines that are right but for the difference, and ones that would be 5.
fn other_first_line(file: usize) -> impl Iterator<Item = Cause> {
    FIRST_LINE.iter().map(move |field| {
        Cause::in_lines(6, file, "first line", format!("another {}", field.name), move |rng, lines| {
            let column = field.first - 1 + rng.below(field.width());
            lines[0][column] = other_byte(rng, lines[0][column], b"0123456789 x");
            Some(0)
        })
    })
}
