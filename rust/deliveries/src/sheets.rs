//! Random sheets: lists of changes to ask, and lists that are lent for the answers.

use crate::questions::{change, Side};
use crate::rng::Rng;
use crate::world::World;

/// The words of a question on a sheet, and of an answer.
pub const QUESTION: usize = 6;
pub const ANSWER: usize = 8;

/// Questions, and a list full of junk for the answers. Each may have some words over,
/// too few for an entry.
#[derive(Clone, Debug, PartialEq, Eq)]
pub struct Sheet {
    pub questions: Vec<u64>,
    pub answers: Vec<u64>,
}

/// None, one, some or some hundreds of changes; the list for the answers may well be
/// too short.
pub fn sheet(rng: &mut Rng, world: &World) -> Sheet {
    let count = match rng.below(10) {
        0 => 0,
        1 => 1,
        2 => rng.below(400),
        _ => rng.below(20),
    };
    let changes: Vec<(Side, Side)> = (0..count).map(|_| change_or_any_words(rng, world)).collect();
    let places = match rng.below(8) {
        0 | 1 => count.saturating_sub(1),
        2 | 3 => count,
        4 | 5 => count + 1,
        _ => rng.below(2 * count + 4),
    };
    Sheet::new(rng, &changes, places)
}

impl Sheet {
    /// These changes, and a list with so many places for the answers.
    pub fn new(rng: &mut Rng, changes: &[(Side, Side)], places: usize) -> Sheet {
        let mut questions: Vec<u64> = changes.iter().flat_map(words).collect();
        let questions_over = words_over(rng, QUESTION);
        questions.extend(junk(rng, questions_over));
        let length = places * ANSWER + words_over(rng, ANSWER);
        Sheet { questions, answers: junk(rng, length) }
    }

    /// How many questions there are.
    pub fn count(&self) -> usize {
        self.questions.len() / QUESTION
    }

    /// How many answers there is room for.
    pub fn places(&self) -> usize {
        self.answers.len() / ANSWER
    }

    /// The changes that the questions ask for.
    pub fn changes(&self) -> Vec<(Side, Side)> {
        let side = |words: &[u64]| Side { service: words[0], stop: words[1], date: words[2] };
        let sides = |words: &[u64]| (side(&words[..3]), side(&words[3..]));
        self.questions.chunks_exact(QUESTION).map(sides).collect()
    }
}

fn words((from, to): &(Side, Side)) -> [u64; QUESTION] {
    [from.service, from.stop, from.date, to.service, to.stop, to.date]
}

/// A change, or rarely one by any words.
fn change_or_any_words(rng: &mut Rng, world: &World) -> (Side, Side) {
    let mut any = || Side { service: any_word(rng), stop: any_word(rng), date: any_word(rng) };
    let any = (any(), any());
    match rng.percent(2) {
        true => any,
        false => change(rng, world),
    }
}

/// None, all but one of an entry's words, or any number of them below that.
fn words_over(rng: &mut Rng, entry: usize) -> usize {
    match rng.below(4) {
        0 | 1 => 0,
        2 => entry - 1,
        _ => rng.below(entry),
    }
}

fn junk(rng: &mut Rng, length: usize) -> Vec<u64> {
    (0..length).map(|_| any_word(rng)).collect()
}

/// Large ones and small ones.
fn any_word(rng: &mut Rng) -> u64 {
    rng.word() >> rng.below(64)
}
