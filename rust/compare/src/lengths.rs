//! Refusal 1: files at the largest length and one byte beyond it.

use std::io;

use compare::{lengths_of, Files};
use deliveries::{place, sound, Case, Tally, NAMES};
use proved::Answer;
use second::files::LONGEST_FILE;

use crate::bytes::with_every_record;
use crate::comparison::{count, Comparison};

/// Deliveries in each of which each file in turn is too long.
const DELIVERIES: u64 = 20;

/// Compares both lengths in every file; answers what is wrong by document 01.
pub fn compare_all(comparison: &mut Comparison, tally: &mut Tally) -> io::Result<Vec<String>> {
    let zeros = vec![0; LONGEST_FILE + 1];
    let mut complaints = compare_too_long(comparison, tally, &zeros)?;
    complaints.extend(compare_longest(comparison, &zeros[1..])?);
    read_longest(comparison, &zeros[1..])?;
    Ok(complaints)
}

fn compare_too_long(comparison: &mut Comparison, tally: &mut Tally, text: &[u8]) -> io::Result<Vec<String>> {
    let mut complaints = Vec::new();
    for (file, name) in NAMES.iter().enumerate() {
        for seed in 0..DELIVERIES {
            let case = sound(seed).1;
            let answer =
                compare_one(comparison, &format!("too-long-{name}"), &case, with(&case, file, text))?;
            count(tally, answer);
            if answer != of_whole_file(1, file) {
                complaints.push(format!("{name} is too long, and is not refused for that."));
            }
        }
    }
    Ok(complaints)
}

/// 3 comes after 1 and before any line: a file that is absent spares both
/// programs the reading of the long one.
fn compare_longest(comparison: &mut Comparison, text: &[u8]) -> io::Result<Vec<String>> {
    let (_, case) = with_every_record();
    let mut complaints = Vec::new();
    for (file, name) in NAMES.iter().enumerate() {
        let absent = if file == place::DELIVERY { place::COMPANY } else { place::DELIVERY };
        let mut files = with(&case, file, text);
        files[absent] = &[];
        let answer = compare_one(comparison, &format!("longest-{name}"), &case, files)?;
        if answer != of_whole_file(3, absent) {
            complaints.push(format!("{name} has the largest length, and is refused for it."));
        }
    }
    Ok(complaints)
}

/// One file of the largest length is read.
fn read_longest(comparison: &mut Comparison, text: &[u8]) -> io::Result<()> {
    let (_, case) = with_every_record();
    compare_one(comparison, "longest-read", &case, with(&case, place::TIMETBLS, text))?;
    Ok(())
}

fn with<'a>(case: &'a Case, file: usize, text: &'a [u8]) -> Files<'a> {
    let mut files = case.texts();
    files[file] = text;
    files
}

fn compare_one(comparison: &mut Comparison, name: &str, case: &Case, files: Files) -> io::Result<Answer> {
    comparison.compare(name, files, lengths_of(&case.rooms.map(|room| room + 1)))
}

/// The refusal with this number of a file as a whole.
fn of_whole_file(number: u64, file: usize) -> Answer {
    Answer::refused(number, file as u64 + 1, 0, 0)
}
