//! A sheet at a time: many changes by one call, questions and answers as lists of
//! words.
//!
//! A list has as many entries as its length divided by the words of one, rounded
//! down; words over are no part of it.

use crate::files::FILES;
use crate::questions::{change, Change, Reason, Side, Source, Verdict};
use crate::refusals::{Fault, Refusal};
use crate::sound::open;
use crate::store::Store;

/// The words of a question: service, stop and date of the side that one changes
/// from, then those of the side that one changes to.
pub const QUESTION: usize = 6;

/// The words of an answer: the refusal's number, or 0; the verdict; why not; 1
/// where the gap is reached; its source; 1 where the needed time is reached; that
/// time; the gap. What is not there is 0.
pub const ANSWER: usize = 8;

/// Tests the tables once, and then answers as [`fill_in`] does.
pub fn sheet(tables: &[Vec<u64>; FILES], questions: &[u64], answers: &mut [u64]) -> Result<(), Refusal> {
    fill_in(&open(tables)?, questions, answers)
}

/// Answers every question, each in its place of the other list, and leaves what
/// lies behind the last answer. Where there are fewer places than questions it
/// answers none. A question that is refused by itself is answered with that.
pub fn fill_in(store: &Store, questions: &[u64], answers: &mut [u64]) -> Result<(), Refusal> {
    let (questions, _) = questions.as_chunks::<QUESTION>();
    let (places, _) = answers.as_chunks_mut::<ANSWER>();
    if places.len() < questions.len() {
        return Err(Fault::ListTooShort.nowhere());
    }
    for (question, place) in questions.iter().zip(places) {
        *place = answer(store, question);
    }
    Ok(())
}

fn answer(store: &Store, question: &[u64; QUESTION]) -> [u64; ANSWER] {
    let &[from_service, from_stop, from_date, to_service, to_stop, to_date] = question;
    let from = Side { service: from_service, stop: from_stop, date: from_date };
    let to = Side { service: to_service, stop: to_stop, date: to_date };
    change(store, from, to).map_or_else(refused, reached)
}

fn refused(refusal: Refusal) -> [u64; ANSWER] {
    [refusal.number.into(), 0, 0, 0, 0, 0, 0, 0]
}

fn reached(change: Change) -> [u64; ANSWER] {
    let Change { verdict, gap, source, needed } = change;
    let (verdict, why_not) = match verdict {
        Verdict::No(reason) => (1, number_of(reason)),
        Verdict::Yes => (2, 0),
        Verdict::Unsettled => (3, 0),
    };
    [
        0,
        verdict,
        why_not,
        gap.is_some().into(),
        source.map_or(0, word_of),
        needed.is_some().into(),
        needed.map_or(0, u64::from),
        gap.map_or(0, twos_complement),
    ]
}

/// The reasons in the order in which they are tried, from 1.
fn number_of(reason: Reason) -> u64 {
    match reason {
        Reason::SameServiceAndDate => 1,
        Reason::FromDoesNotRun => 2,
        Reason::ToDoesNotRun => 3,
        Reason::StationsDiffer => 4,
        Reason::NobodyAlights => 5,
        Reason::NobodyBoards => 6,
        Reason::PairImpossible => 7,
        Reason::NoChangesHere => 8,
        Reason::GapTooShort => 9,
    }
}

fn word_of(source: Source) -> u64 {
    match source {
        Source::Changes => 1,
        Source::Stations => 2,
        Source::XChanges => 3,
    }
}

/// Minutes as a word; those below zero are counted down from 2 to the 64th.
fn twos_complement(minutes: i32) -> u64 {
    i64::from(minutes) as u64
}
