//! One delivery with every kind of record, and every byte of it replaced.

use std::io;

use compare::{lengths_of, Lengths};
use deliveries::{place, sound, Case, Tally, World, FILES, TELLING_BYTES};

use crate::comparison::{count, Comparison};

/// Other values for each byte.
const VALUES: usize = 6;

/// The letters that each file must hold; in a file without letters a row will do.
const LETTERS: [(usize, &[u8]); 6] = [
    (place::TIMEZONE, b"#+-"),
    (place::FOOTNOTE, b"#01"),
    (place::TIMETBLS, b"#%-&*>.+;<?"),
    (place::CHANGES, b"#-"),
    (place::XFOOTNOTE, b"#01"),
    (place::XCHANGES, b"#-"),
];

/// Replaces every byte in turn; answers how many deliveries that made.
pub fn compare_all(comparison: &mut Comparison) -> io::Result<Tally> {
    let (_, case) = with_every_record();
    // A byte replaced by CR or LF can end a line.
    let lengths = lengths_of(&case.rooms.map(|room| room + 2));
    let mut tally = Tally::default();
    for file in 0..FILES {
        for at in 0..case.files[file].len() {
            compare_values(comparison, &mut tally, &case, lengths, file, at)?;
        }
    }
    Ok(tally)
}

fn compare_values(
    comparison: &mut Comparison,
    tally: &mut Tally,
    case: &Case,
    lengths: Lengths,
    file: usize,
    at: usize,
) -> io::Result<()> {
    let mut text = case.files[file].clone();
    for value in other_values(case.files[file][at], at) {
        text[at] = value;
        let mut files = case.texts();
        files[file] = &text;
        let name = format!("{}-byte-{at}-{value}", deliveries::NAMES[file]);
        count(tally, comparison.compare(&name, files, lengths)?);
    }
    Ok(())
}

/// The byte's neighbours and telling bytes: each place in a file takes some of
/// them, the next place others.
fn other_values(byte: u8, at: usize) -> impl Iterator<Item = u8> {
    let neighbours = [byte.wrapping_add(1), byte.wrapping_sub(1)];
    let telling = TELLING_BYTES.iter().copied().cycle().skip(at * 5 % TELLING_BYTES.len());
    let others = telling.filter(move |&other| other != byte && !neighbours.contains(&other));
    neighbours.into_iter().chain(others).take(VALUES)
}

/// A small sound delivery that has every kind of record.
pub fn with_every_record() -> (World, Case) {
    let whole = (0..2_000).map(sound).filter(|(_, case)| has_every_record(case));
    whole
        .min_by_key(|(_, case)| case.files.iter().map(Vec::len).sum::<usize>())
        .expect("a delivery with all records")
}

fn has_every_record(case: &Case) -> bool {
    let has_rows = case.files[1..].iter().all(|file| second::count_lines(file) > 1);
    has_rows
        && LETTERS
            .iter()
            .all(|(file, letters)| letters.iter().all(|&letter| begins(&case.files[*file], letter)))
}

/// Whether a line after the first begins with the letter.
pub fn begins(text: &[u8], letter: u8) -> bool {
    text.windows(3).any(|bytes| bytes == [b'\r', b'\n', letter])
}
