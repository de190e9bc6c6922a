//! Changes and their answers as the words of a sheet.

use compare::answers::{asked_of_second, Answer, Answered, Examined, Lent};
use compare::Tables;
use deliveries::questions::Side;
use deliveries::Question;
use proved::{Change, Verdict, ANSWER_WORDS, QUESTION_WORDS};

/// From service, stop and date, to service, stop and date.
pub type QuestionWords = [u64; QUESTION_WORDS];
/// What the exported change answers, then the gap.
pub type AnswerWords = [u64; ANSWER_WORDS];

pub fn question(&(from, to): &(Side, Side)) -> QuestionWords {
    [from.service, from.stop, from.date, to.service, to.stop, to.date]
}

pub fn answer(answered: Result<Change, u64>) -> AnswerWords {
    let Change { verdict, gap, source, needed } = match answered {
        Ok(change) => change,
        Err(number) => return [number, 0, 0, 0, 0, 0, 0, 0],
    };
    let (verdict, reason) = match verdict {
        // Reasons and sources are counted from 1, in the order that they are told in.
        Verdict::No(reason) => (1, reason as u64 + 1),
        Verdict::Yes => (2, 0),
        Verdict::Unsettled => (3, 0),
    };
    let source = source.map_or(0, |source| source as u64 + 1);
    let flag = |is_reached: bool| u64::from(is_reached);
    let gap_word = i64::from(gap.unwrap_or(0)) as u64;
    [0, verdict, reason, flag(gap.is_some()), source, flag(needed.is_some()), needed.unwrap_or(0), gap_word]
}

/// The second program's answers.
pub fn by_second(changes: &[(Side, Side)], examined: &Examined) -> Vec<AnswerWords> {
    // The second program has its store, and no use for tables and texts.
    let tables = Tables::default();
    let lent = Lent::new(&tables, [&[]; compare::FILES]);
    let ask = |&(from, to): &(Side, Side)| asked_of_second(&Question::Change { from, to }, lent, examined);
    changes.iter().map(ask).map(|answered| answer(change_of(answered))).collect()
}

fn change_of(answered: Answered) -> Result<Change, u64> {
    answered.map(|answer| match answer {
        Answer::Change(change) => change,
        other => unreachable!("{other:?} answers no change"),
    })
}

/// Where the needed time, or the No in its stead, comes from: 1 is CHANGES, 2 is
/// STATIONS, 3 is XCHANGES.
pub fn source(answer: &AnswerWords) -> u64 {
    answer[4]
}

/// Whether a needed time was reached.
pub fn has_needed(answer: &AnswerWords) -> bool {
    answer[5] == 1
}
