//! A sheet at a time: answers in words, and how long the two lists are. All is worked
//! out by hand from the documents.

mod common;

use common::{service_number, Sample};
use second::sheet::{fill_in, sheet, ANSWER, QUESTION};
use second::File::*;
use second::{encode, Refusal, Store};

type Tables = [Vec<u64>; 11];

/// The sample with service 4, which leaves ht, where the flag is 0; at ut the pair of
/// services 3 and 2 is 00, and at koln 999 minutes are needed from 1 to 3.
fn store() -> Store {
    let mut sample = Sample::new();
    let number = service_number("100", "000", "999");
    for line in ["#00000004", &number, "-00000,000,999", "&IC  ,000,999", ">ht     ,0920", "<asd    ,1000"] {
        sample.push(TimeTbls, line);
    }
    sample.insert(Changes, 5, "-00000003,00000002,00");
    sample.push(XChanges, "-200,ST  ,100,IC  ,999,00007");
    sample.load().unwrap()
}

fn tables() -> Tables {
    // Room for a hundred lines in each, and for one more row in part.
    let lens = [6, 6, 6, 6, 6, 6, 14, 7, 6, 14, 7].map(|width| 100 * width + width - 1);
    encode(&store(), &lens)
}

/// The same, but DELIVERY has no first line.
fn unsound() -> Tables {
    let mut tables = tables();
    tables[Delivery.index()].fill(0);
    tables
}

/// Service, stop and day of January of the one side and of the other; the answer in
/// words.
type Asked = ([u64; 3], [u64; 3], [u64; ANSWER]);

/// 505 is 08:25 at ut, where 1 arrives; 520 is 08:40, where 2 leaves it.
const YES: Asked = ([1, 2, 1], [2, 1, 1], [0, 2, 0, 1, 1, 1, 0, 15]);
/// A day before: -1425.
const BELOW_ZERO: Asked = ([1, 2, 2], [2, 1, 1], [0, 1, 9, 1, 1, 1, 0, 0xffff_ffff_ffff_fa6f]);
/// There is no service 9.
const UNKNOWN: Asked = ([9, 2, 1], [2, 1, 1], [12, 0, 0, 0, 0, 0, 0, 0]);
const SAME: Asked = ([1, 2, 1], [1, 2, 1], [0, 1, 1, 0, 0, 0, 0, 0]);

const ALL: &[Asked] = &[
    YES,
    BELOW_ZERO,
    // 3 reaches asd at 930 by company 100, for which 10 minutes are needed; 1 leaves
    // it at 480 the day after.
    ([3, 3, 1], [1, 1, 2], [0, 2, 0, 1, 3, 1, 10, 990]),
    // 2 reaches it at 545 by company 200: 5 minutes; on the same day 1 has left.
    ([2, 2, 1], [1, 1, 2], [0, 2, 0, 1, 2, 1, 5, 1375]),
    ([2, 2, 1], [1, 1, 1], [0, 1, 9, 1, 2, 1, 5, 0xffff_ffff_ffff_ffbf]),
    // At ut 99 minutes are needed: 510 + 1440 - 900.
    ([3, 2, 1], [1, 2, 2], [0, 3, 0, 1, 2, 1, 99, 1050]),
    // From 1 to 3 at koln the gap is 60 on one day, and two days more.
    ([1, 5, 1], [3, 1, 3], [0, 3, 0, 1, 3, 1, 999, 2940]),
    ([1, 5, 1], [3, 1, 1], [0, 1, 9, 1, 3, 1, 999, 60]),
    // The pair is 00: 520 + 2880 - 900. The flag is 0: 560 - 540.
    ([3, 2, 1], [2, 1, 3], [0, 1, 7, 1, 1, 0, 0, 2500]),
    ([1, 3, 1], [4, 1, 1], [0, 1, 8, 1, 2, 0, 0, 20]),
    // Each No before the gap; 2 rests on the 2nd.
    SAME,
    ([2, 2, 2], [1, 1, 3], [0, 1, 2, 0, 0, 0, 0, 0]),
    ([1, 2, 2], [2, 1, 2], [0, 1, 3, 0, 0, 0, 0, 0]),
    ([1, 2, 1], [3, 1, 1], [0, 1, 4, 0, 0, 0, 0, 0]),
    ([1, 4, 1], [1, 4, 2], [0, 1, 5, 0, 0, 0, 0, 0]),
    ([1, 2, 1], [3, 2, 1], [0, 1, 6, 0, 0, 0, 0, 0]),
    // Each refusal: of A, of B; on the 4th koln has no period.
    UNKNOWN,
    ([1, 2, 1], [9, 1, 1], [12, 0, 0, 0, 0, 0, 0, 0]),
    ([1, 1, 1], [2, 1, 1], [13, 0, 0, 0, 0, 0, 0, 0]),
    ([1, 2, 1], [2, 2, 1], [13, 0, 0, 0, 0, 0, 0, 0]),
    ([1, 2, 8], [2, 1, 1], [14, 0, 0, 0, 0, 0, 0, 0]),
    ([1, 2, 1], [2, 1, 8], [14, 0, 0, 0, 0, 0, 0, 0]),
    ([1, 5, 4], [3, 1, 4], [15, 0, 0, 0, 0, 0, 0, 0]),
];

fn questions(asked: &[Asked]) -> Vec<u64> {
    let date = |day: u64| day * 1_000_000 + 12_015;
    let side = |[service, stop, day]: [u64; 3]| [service, stop, date(day)];
    asked.iter().flat_map(|(from, to, _)| [side(*from), side(*to)].concat()).collect()
}

fn answers(asked: &[Asked]) -> Vec<u64> {
    asked.iter().flat_map(|(_, _, answer)| *answer).collect()
}

/// A list of so many words, of which no answer has any.
fn list(length: usize) -> Vec<u64> {
    (0..length as u64).map(|at| 1_000_000 + at).collect()
}

fn numbered(number: u8) -> Refusal {
    Refusal { number, file: 0, ordinal: 0, line: 0 }
}

/// Sound tables, these questions and a list of so many words: the answers come first,
/// and every word behind them is as it was.
#[track_caller]
fn answered(questions: &[u64], length: usize, asked: &[Asked]) {
    let mut filled = list(length);
    assert_eq!(sheet(&tables(), questions, &mut filled), Ok(()));
    let expected = answers(asked);
    assert_eq!(filled[..expected.len()], expected);
    assert_eq!(filled[expected.len()..], list(length)[expected.len()..]);
}

/// The sheet is refused, and every word of the list is as it was.
#[track_caller]
fn refused(number: u8, tables: &Tables, questions: &[u64], length: usize) {
    let mut filled = list(length);
    assert_eq!(sheet(tables, questions, &mut filled), Err(numbered(number)), "{length} words");
    assert_eq!(filled, list(length));
}

#[test]
fn a_question_has_six_words_and_an_answer_eight() {
    assert_eq!((QUESTION, ANSWER), (6, 8));
}

#[test]
fn every_answer_in_its_place() {
    answered(&questions(ALL), ALL.len() * 8, ALL);
    let backwards: Vec<Asked> = ALL.iter().rev().copied().collect();
    answered(&questions(&backwards), ALL.len() * 8, &backwards);
}

#[test]
fn every_question_alone() {
    for asked in ALL {
        answered(&questions(&[*asked]), 8, &[*asked]);
    }
}

#[test]
fn a_store_answers_as_its_tables_do() {
    let mut filled = list(ALL.len() * 8 + 3);
    assert_eq!(fill_in(&store(), &questions(ALL), &mut filled), Ok(()));
    assert_eq!(filled, [answers(ALL), list(ALL.len() * 8 + 3)[ALL.len() * 8..].to_vec()].concat());
    assert_eq!(fill_in(&store(), &questions(ALL), &mut filled[8..]), Err(numbered(23)));
}

#[test]
fn a_refused_question_stops_no_other() {
    for asked in [[UNKNOWN, YES, SAME], [YES, UNKNOWN, SAME], [YES, SAME, UNKNOWN]] {
        answered(&questions(&asked), 24, &asked);
    }
    answered(&questions(&[UNKNOWN; 3]), 24, &[UNKNOWN; 3]);
}

#[test]
fn the_same_question_has_the_same_answer() {
    let asked = [YES, BELOW_ZERO, YES, YES, BELOW_ZERO];
    answered(&questions(&asked), 40, &asked);
}

#[test]
fn a_thousand_questions() {
    let asked: Vec<Asked> = ALL.iter().copied().cycle().take(1_000).collect();
    answered(&questions(&asked), 8_000, &asked);
    refused(23, &tables(), &questions(&asked), 7_999);
}

const THREE: [Asked; 3] = [YES, UNKNOWN, BELOW_ZERO];

#[test]
fn one_answer_short() {
    for length in [16, 17, 22, 23] {
        refused(23, &tables(), &questions(&THREE), length);
    }
    for length in [0, 1, 7, 8] {
        refused(23, &tables(), &questions(&THREE), length);
    }
}

#[test]
fn just_as_many_answers_and_more() {
    for length in [24, 25, 31, 32, 33, 39, 40, 80] {
        answered(&questions(&THREE), length, &THREE);
    }
}

#[test]
fn answers_are_counted_and_not_words() {
    // As many words as the questions have, which is room for three answers of four.
    let four = [YES, SAME, UNKNOWN, BELOW_ZERO];
    for length in [24, 31] {
        refused(23, &tables(), &questions(&four), length);
    }
    answered(&questions(&four), 32, &four);
    // One question has six words, and one answer eight.
    for length in [6, 7] {
        refused(23, &tables(), &questions(&[YES]), length);
    }
}

#[test]
fn words_over_are_no_question() {
    for over in 1..6 {
        let mut words = questions(&THREE);
        words.extend_from_slice(&questions(&[SAME])[..over]);
        answered(&words, 24, &THREE);
        answered(&words, 32, &THREE);
        refused(23, &tables(), &words, 23);
    }
    // The sixth makes it one.
    let four = [THREE.as_slice(), &[SAME]].concat();
    refused(23, &tables(), &questions(&four), 31);
    answered(&questions(&four), 32, &four);
}

#[test]
fn no_question_needs_no_room() {
    for words in 0..6 {
        for length in [0, 1, 7, 8, 9, 16] {
            answered(&questions(&[YES])[..words], length, &[]);
        }
    }
    refused(23, &tables(), &questions(&[YES]), 0);
}

#[test]
fn sixteen_comes_before_twenty_three() {
    let tables = unsound();
    for length in [0, 8, 16, 23, 24, 32] {
        refused(16, &tables, &questions(&THREE), length);
    }
    // And comes where nothing is asked.
    for length in [0, 8] {
        refused(16, &tables, &[], length);
        refused(16, &tables, &questions(&[YES])[..5], length);
    }
}
