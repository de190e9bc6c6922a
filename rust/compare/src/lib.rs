//! One delivery, one amendment, one question or one sheet of them through both
//! programs: the proved crates and the second program.

pub mod answers;

use std::array;

use deliveries::{Rng, Sheet};
use proved::Answer;
use second::encode::width;
use second::{encode, rooms_of, zeroes, Fault, File, Refusal, Store};

use crate::answers::Examined;

/// How many files a delivery has.
pub const FILES: usize = proved::FILES;

pub type Files<'a> = [&'a [u8]; FILES];
pub type Tables = [Vec<u64>; FILES];
/// The lengths of tables, in words.
pub type Lengths = [usize; FILES];

/// What a program answers, and the tables that it leaves.
#[derive(Clone, Debug, PartialEq, Eq)]
pub struct Outcome {
    pub answer: Answer,
    pub tables: Tables,
}

/// The proved load into tables that hold something already.
pub fn by_proved(files: Files, mut tables: Tables) -> Outcome {
    let answer = proved::load(files, tables.each_mut().map(Vec::as_mut_slice));
    Outcome { answer, tables }
}

/// The second program's load, shown in tables of these lengths.
pub fn by_second(files: Files, lengths: &Lengths) -> Outcome {
    match second::load(&files, &rooms_of(lengths)) {
        Ok(store) => Outcome { answer: accepted(&store), tables: encode(&store, lengths) },
        Err(refusal) => Outcome { answer: refused(refusal), tables: zeroes(lengths) },
    }
}

fn accepted(store: &Store) -> Answer {
    let second::Answer { days, services } = store.answer();
    Answer::accepted(days, services)
}

fn refused(Refusal { number, file, ordinal, line }: Refusal) -> Answer {
    Answer::refused(u64::from(number), u64::from(file), ordinal, line)
}

/// The proved amendment, of tables as they stand.
pub fn amended_by_proved(mut tables: Tables, service: u64, block: &[u8]) -> Outcome {
    let lent = tables.each_mut().map(Vec::as_mut_slice);
    let answer = proved::amend(lent.into(), service, block);
    Outcome { answer, tables }
}

/// The second program's amendment, of what it has found of these tables before.
pub fn amended_by_second(examined: &mut Examined, tables: &Tables, service: u64, block: &[u8]) -> Outcome {
    let Ok(store) = examined else {
        return Outcome { answer: refused(Fault::NotSound.nowhere()), tables: tables.clone() };
    };
    let answer = match second::amend(store, service, block) {
        Ok(_) => accepted(store),
        Err(refusal) => refused(refusal),
    };
    // A refused amendment, too, is shown by what the program is left with.
    Outcome { answer, tables: encode(store, &tables.each_ref().map(Vec::len)) }
}

/// What a program answers to a sheet, and the list of answers that it leaves.
#[derive(Clone, Debug, PartialEq, Eq)]
pub struct Filled {
    pub number: u64,
    pub answers: Vec<u64>,
}

/// The proved crates' sheet, in a list that holds something already.
pub fn filled_by_proved(sheet: &Sheet, tables: &Tables) -> Filled {
    let mut answers = sheet.answers.clone();
    let number = proved::sheet_words(tables.each_ref().map(Vec::as_slice), &sheet.questions, &mut answers);
    Filled { number, answers }
}

/// The second program's.
pub fn filled_by_second(sheet: &Sheet, tables: &Tables) -> Filled {
    let mut answers = sheet.answers.clone();
    let number = match second::sheet(tables, &sheet.questions, &mut answers) {
        Ok(()) => 0,
        Err(refusal) => refused(refusal).number,
    };
    Filled { number, answers }
}

/// The lengths of tables with room for so many lines.
pub fn lengths_of(rooms: &[usize; FILES]) -> Lengths {
    File::ALL.map(|file| rooms[file.index()] * width(file))
}

/// Lengths with the same rooms and by chance some words more, too few for a row.
pub fn with_spare_words(rng: &mut Rng, lengths: Lengths) -> Lengths {
    File::ALL.map(|file| lengths[file.index()] + rng.below(width(file)))
}

/// Tables of these lengths full of junk: any words, and small ones that could
/// be taken for rows.
pub fn junk(rng: &mut Rng, lengths: &Lengths) -> Tables {
    array::from_fn(|file| (0..lengths[file]).map(|_| junk_word(rng.word())).collect())
}

fn junk_word(word: u64) -> u64 {
    if word >> 63 == 1 {
        word
    } else {
        word & 0x3f
    }
}
