//! The desk's card: ranks by hand, and which of two exceptions counts.

mod common;

use common::{service_number, station, Sample};
use second::card::{pattern, place, CARD};
use second::questions::{Side, Source};
use second::File::*;
use second::{change, rank};

/// The wildcards as the table of XCHANGES holds them.
const ANY_COMPANY: u64 = 0x2a2020;
const ANY_MODE: u64 = 0x2a202020;
/// `IC  `, `ST  `.
const IC: u64 = 0x4943_2020;
const ST: u64 = 0x5354_2020;

/// The card as the desk reads it aloud: the old rank of document 01, then which of
/// from company, from mode, to company and to mode are named.
const READ_ALOUD: [(u64, [bool; 4]); 16] = [
    (0, [false, false, false, false]),
    (1, [false, false, false, true]),
    (2, [false, false, true, false]),
    (3, [false, false, true, true]),
    (4, [false, true, false, false]),
    (5, [false, true, false, true]),
    (6, [false, true, true, false]),
    (7, [false, true, true, true]),
    (8, [true, false, false, false]),
    (9, [true, false, false, true]),
    (10, [true, false, true, false]),
    (11, [true, false, true, true]),
    (12, [true, true, false, false]),
    (13, [true, true, false, true]),
    (14, [true, true, true, false]),
    (15, [true, true, true, true]),
];

/// Keys in words, where they are named.
fn words([from_company, from_mode, to_company, to_mode]: [bool; 4], names: [u64; 4]) -> [u64; 4] {
    let word = |named: bool, name: u64, any: u64| if named { name } else { any };
    [
        word(from_company, names[0], ANY_COMPANY),
        word(from_mode, names[1], ANY_MODE),
        word(to_company, names[2], ANY_COMPANY),
        word(to_mode, names[3], ANY_MODE),
    ]
}

fn rank_of([from_company, from_mode, to_company, to_mode]: [u64; 4]) -> u64 {
    rank(from_company, from_mode, to_company, to_mode)
}

#[test]
fn all_sixteen_patterns() {
    for (expected, named) in READ_ALOUD {
        assert_eq!(place(named) as u64, expected);
        for names in [[100, IC, 200, ST], [1, IC, 1, IC], [999, ST, 999, ST], [0; 4], [u64::MAX; 4]] {
            assert_eq!(rank_of(words(named, names)), expected, "{named:?} {names:?}");
        }
    }
}

#[test]
fn the_place_is_the_old_sum() {
    for (_, named) in READ_ALOUD {
        let [from_company, from_mode, to_company, to_mode] = named.map(usize::from);
        assert_eq!(place(named), 8 * from_company + 4 * from_mode + 2 * to_company + to_mode);
    }
}

#[test]
fn patterns_are_written_with_the_letters_of_what_is_named() {
    assert_eq!(pattern([false; 4]), *b"****");
    assert_eq!(pattern([true, false, false, true]), *b"c**m");
    assert_eq!(pattern([false, true, true, false]), *b"*mc*");
    assert_eq!(pattern([true; 4]), *b"cmcm");
    // Each stands on the card once.
    for entry in CARD {
        assert_eq!(CARD.iter().filter(|other| **other == entry).count(), 1);
    }
}

#[test]
fn only_the_wildcard_of_its_own_field_is_one() {
    // A company's wildcard names a mode and the other way round.
    assert_eq!(rank(ANY_MODE, ANY_COMPANY, ANY_MODE, ANY_COMPANY), 15);
    assert_eq!(rank(ANY_MODE, ANY_MODE, ANY_COMPANY, ANY_MODE), 8);
    assert_eq!(rank(ANY_COMPANY, ANY_MODE, ANY_COMPANY, ANY_COMPANY), 1);
    // Words beside the wildcards, and such as have them in their lowest bits.
    assert_eq!(rank(ANY_COMPANY + 1, ANY_MODE, ANY_COMPANY, ANY_MODE), 8);
    assert_eq!(rank(ANY_COMPANY, ANY_MODE - 1, ANY_COMPANY, ANY_MODE), 4);
    assert_eq!(rank(ANY_COMPANY, ANY_MODE, ANY_COMPANY | 1 << 32, ANY_MODE), 2);
    assert_eq!(rank(ANY_COMPANY, ANY_MODE, ANY_COMPANY, ANY_MODE | 1 << 63), 1);
}

#[test]
fn p12_in_words() {
    // 100, *, *, * (8) beats *, IC, 200, IC (7).
    assert_eq!(rank(100, ANY_MODE, ANY_COMPANY, ANY_MODE), 8);
    assert_eq!(rank(ANY_COMPANY, IC, 200, IC), 7);
}

/// The needed time of a change from a train of company 100, mode IC, to one of
/// company 200, mode ST, under these exceptions.
fn needed(exceptions: &[&str]) -> Option<u16> {
    let mut sample = Sample::new();
    for file in [Stations, TimeTbls, Changes, XChanges] {
        sample.keep_lines(file, 1);
    }
    sample.push(Stations, &station(1, "mid", 5, "NL", "0000"));
    sample.push(Stations, &station(1, "end", 5, "NL", "0000"));
    let (left, boarded) = (service_number("100", "000", "999"), service_number("200", "000", "999"));
    for line in ["#00000001", &left, "-00000,000,999", "&IC  ,000,999", ">end    ,0800", "<mid    ,1000"] {
        sample.push(TimeTbls, line);
    }
    for line in ["#00000002", &boarded, "-00000,000,999", "&ST  ,000,999", ">mid    ,2700", "<end    ,2800"] {
        sample.push(TimeTbls, line);
    }
    for line in ["#00009", "1111111"] {
        sample.push(XFootnote, line);
    }
    for line in ["#mid    "].iter().chain(exceptions) {
        sample.push(XChanges, line);
    }
    let store = sample.load().expect("a sound delivery");
    let side = |service, stop| Side { service, stop, date: 1012015 };
    let change = change(&store, side(1, 2), side(2, 1)).expect("an answer");
    change.needed.filter(|_| change.source == Some(Source::XChanges))
}

/// The sixteen exceptions that fit this change, in the order of the card.
const FITTING: [&str; 16] = [
    "-*  ,*   ,*  ,*   ,",
    "-*  ,*   ,*  ,ST  ,",
    "-*  ,*   ,200,*   ,",
    "-*  ,*   ,200,ST  ,",
    "-*  ,IC  ,*  ,*   ,",
    "-*  ,IC  ,*  ,ST  ,",
    "-*  ,IC  ,200,*   ,",
    "-*  ,IC  ,200,ST  ,",
    "-100,*   ,*  ,*   ,",
    "-100,*   ,*  ,ST  ,",
    "-100,*   ,200,*   ,",
    "-100,*   ,200,ST  ,",
    "-100,IC  ,*  ,*   ,",
    "-100,IC  ,*  ,ST  ,",
    "-100,IC  ,200,*   ,",
    "-100,IC  ,200,ST  ,",
];

#[test]
fn a_higher_place_beats_a_longer_time() {
    for (higher, keys) in FITTING.iter().enumerate() {
        let short = format!("{keys}003,00007");
        assert_eq!(needed(&[&short]), Some(3));
        for lower in &FITTING[..higher] {
            let long = format!("{lower}008,00007");
            assert_eq!(needed(&[&short, &long]), Some(3), "{short} {long}");
            assert_eq!(needed(&[&long, &short]), Some(3), "{long} {short}");
        }
    }
    // 999 is the longest time of all, and loses as well.
    assert_eq!(needed(&["-100,*   ,*  ,*   ,000,00007", "-*  ,IC  ,200,ST  ,999,00007"]), Some(0));
}

#[test]
fn with_the_same_place_the_larger_time() {
    for keys in FITTING {
        let rows = [format!("{keys}003,00007"), format!("{keys}008,00009")];
        assert_eq!(needed(&[&rows[0], &rows[1]]), Some(8));
        assert_eq!(needed(&[&rows[1], &rows[0]]), Some(8));
    }
    // Among three, a lower place with a larger time does not count.
    let rows =
        ["-100,*   ,*  ,*   ,003,00007", "-*  ,*   ,200,ST  ,020,00007", "-100,*   ,*  ,*   ,008,00009"];
    assert_eq!(needed(&rows), Some(8));
    // The same time twice.
    assert_eq!(needed(&["-*  ,*   ,*  ,*   ,007,00007", "-*  ,*   ,*  ,*   ,007,00009"]), Some(7));
}
