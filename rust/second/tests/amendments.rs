//! Amendments of single services.

mod common;

use std::ops::RangeInclusive;

use common::{service_number, Sample};
use second::File::TimeTbls;
use second::{amend, encode, load, open, Refusal, Store};

/// Enough for the sample's rooms of 100 lines.
const LENS: [usize; 11] = [1400; 11];

fn block(lines: &[&str]) -> Vec<u8> {
    lines.iter().flat_map(|line| [line.as_bytes(), b"\r\n"].concat()).collect()
}

fn six_lines(service: &str) -> Vec<u8> {
    let number = service_number("100", "000", "999");
    block(&[service, &number, "-00002,000,999", "&IC  ,000,999", ">asd    ,0800", "<ut     ,0830"])
}

/// The refusal of an amendment, which must leave the store as it was.
#[track_caller]
fn refused(expected: (u8, u8, u64, u64), store: &mut Store, service: u64, block: &[u8]) {
    let before = store.clone();
    let (number, file, ordinal, line) = expected;
    assert_eq!(amend(store, service, block), Err(Refusal { number, file, ordinal, line }));
    assert!(*store == before);
}

#[test]
fn an_amendment_is_as_a_load_of_the_edited_text() {
    let mut store = Sample::new().load().unwrap();
    let answer = amend(&mut store, 2, &six_lines("#00000002")).unwrap();
    assert_eq!((answer.days, answer.services), (7, 3));
    let mut edited = Sample::new();
    edited.put_at(TimeTbls, 18, 1, service_number("100", "000", "999").as_bytes());
    edited.set(TimeTbls, 19, "-00002,000,999");
    edited.set(TimeTbls, 20, "&IC  ,000,999");
    edited.set(TimeTbls, 21, ">asd    ,0800");
    edited.set(TimeTbls, 22, "<ut     ,0830");
    let loaded = load(&edited.files.each_ref().map(Vec::as_slice), &edited.rooms).unwrap();
    assert_eq!(encode(&store, &LENS), encode(&loaded, &LENS));
    assert_ne!(encode(&store, &LENS), encode(&Sample::new().load().unwrap(), &LENS));
}

fn packed(code: &[u8]) -> u64 {
    code.iter().fold(0, |word, &byte| word << 8 | u64::from(byte))
}

/// The rows of [`six_lines`], worked out by hand.
fn six_rows(service: u64) -> Vec<u64> {
    let rows: [[u64; 7]; 6] = [
        [35, service, 6, 2, 0, 0, 1],
        [37, 100, 100, 1, 2, 0, 2],
        [45, 2, 1, 2, 0, 0, 3],
        [38, packed(b"IC  "), 1, 2, 0, 0, 4],
        [62, packed(b"asd    "), 800, 0, 0, 0, 5],
        [60, packed(b"ut     "), 830, 0, 0, 0, 6],
    ];
    rows.concat()
}

/// Amends a service to six lines. Its rows, which stand for these lines of the
/// file, must give way to the six, those behind follow, and nothing else changes.
#[track_caller]
fn amended_to_six(sample: &Sample, service: u64, lines: RangeInclusive<usize>, answered: (u64, u64)) {
    let mut store = sample.load().unwrap();
    let before = encode(&store, &LENS);
    let answer = amend(&mut store, service, &six_lines(&format!("#{service:08}"))).unwrap();
    assert_eq!((answer.days, answer.services), answered);
    let after = encode(&store, &LENS);
    let mut expected = before.clone();
    let timetbls = &before[TimeTbls.index()];
    let (first, next) = ((lines.start() - 1) * 7, lines.end() * 7);
    let mut rows = [&timetbls[..first], &six_rows(service), &timetbls[next..]].concat();
    rows.resize(timetbls.len(), 0);
    expected[TimeTbls.index()] = rows;
    assert_eq!(after, expected);
    // What is amended is sound, and shows the same store.
    assert_eq!(open(&after).map(|store| encode(&store, &LENS)), Ok(expected));
}

#[test]
fn the_first_a_middle_the_last_and_the_only_service_are_replaced() {
    amended_to_six(&Sample::new(), 1, 2..=16, (7, 3));
    amended_to_six(&Sample::new(), 2, 17..=22, (7, 3));
    amended_to_six(&Sample::new(), 3, 23..=29, (7, 3));
    let mut only = Sample::example();
    // The six lines name a footnote 2.
    only.push(second::File::Footnote, "#00002");
    only.push(second::File::Footnote, &"0".repeat(800));
    amended_to_six(&only, 1, 2..=7, (800, 1));
    // Amended from more lines, it is both the first and the last.
    only.insert(TimeTbls, 7, ".ut     ,0820");
    only.push(TimeTbls, "?     ,     ,00000");
    amended_to_six(&only, 1, 2..=9, (800, 1));
}

#[test]
fn the_very_same_lines_change_nothing() {
    let sample = Sample::new();
    let store = sample.load().unwrap();
    for (service, lines) in [(1, 2..=16), (2, 17..=22), (3, 23..=29)] {
        let same: Vec<u8> =
            lines.flat_map(|line| [&sample.line(TimeTbls, line)[..], b"\r\n"].concat()).collect();
        let mut amended = store.clone();
        let answer = amend(&mut amended, service, &same).unwrap();
        assert_eq!((answer.days, answer.services), (7, 3));
        assert!(amended == store);
    }
}

/// Edits the text by hand: these lines of TIMETBLS give way to others.
fn replace(sample: &mut Sample, lines: RangeInclusive<usize>, with: &[&str]) {
    let first = *lines.start();
    lines.for_each(|_| sample.remove(TimeTbls, first));
    with.iter().rev().for_each(|line| sample.insert(TimeTbls, first, line));
}

#[test]
fn three_in_a_row_are_as_a_load_of_the_edited_text() {
    let number = service_number("200", "001", "999");
    let third = ["#00000003", &number, "-00001,000,999", "&ST  ,000,999", ">ht     ,2300", "<shl    ,2401"];
    let first = [
        "#00000001",
        &service_number("100", "001", "002"),
        &service_number("200", "002", "003"),
        "-00000,000,999",
        "&ST  ,000,999",
        ">asd    ,0500",
        "+ut     ,0530,9999",
        "<ht     ,0600",
    ];
    let second = [
        "#00000002",
        &number,
        "-00002,000,999",
        "&IC  ,000,999",
        "*XY  ,002,002,00000",
        ">ut     ,1000",
        ";shl    ",
        ";shl    ",
        "<asd    ,1030",
        "?12   ,     ,00000",
    ];
    let mut store = Sample::new().load().unwrap();
    let mut edited = Sample::new();
    let loaded = |edited: &Sample| encode(&edited.load().unwrap(), &LENS);
    // From the last to the first, then the one between: lines move both ways.
    amend(&mut store, 3, &block(&third)).unwrap();
    replace(&mut edited, 23..=29, &third);
    assert_eq!(encode(&store, &LENS), loaded(&edited));
    amend(&mut store, 1, &block(&first)).unwrap();
    replace(&mut edited, 2..=16, &first);
    assert_eq!(encode(&store, &LENS), loaded(&edited));
    amend(&mut store, 2, &block(&second)).unwrap();
    replace(&mut edited, 10..=15, &second);
    assert_eq!(encode(&store, &LENS), loaded(&edited));
    assert!(store == edited.load().unwrap());
}

#[test]
fn amendments_follow_one_another() {
    let mut store = Sample::new().load().unwrap();
    for service in [1, 2, 3, 1] {
        amend(&mut store, service, &six_lines(&format!("#{service:08}"))).unwrap();
    }
    let once = store.clone();
    amend(&mut store, 1, &six_lines("#00000001")).unwrap();
    assert!(store == once);
}

#[test]
fn test_11_asks_for_one_block() {
    let store = &mut Sample::new().load().unwrap();
    let whole = six_lines("#00000002");
    let nowhere = (11, 0, 0, 0);
    refused(nowhere, store, 2, b"");
    refused(nowhere, store, 2, b"\r\n");
    refused(nowhere, store, 2, &whole[..whole.len() - 1]);
    refused(nowhere, store, 2, &whole[..whole.len() - 2]);
    refused(nowhere, store, 1, &whole);
    refused(nowhere, store, 102, &whole);
    refused(nowhere, store, 2, &six_lines("#00000002 "));
    refused(nowhere, store, 2, &six_lines("#2"));
    refused(nowhere, store, 2, &six_lines(" 00000002"));
    refused(nowhere, store, 2, &[&whole[..], b"#\r\n"].concat());
    refused(nowhere, store, 2, &[&whole[..], b"@\r\n"].concat());
    refused(nowhere, store, 2, &[b"\r\n", &whole[..]].concat());
    refused(nowhere, store, 100_000_000, &six_lines("#100000000"));
    refused(nowhere, store, u64::MAX, &whole);
    // 11 comes before 12.
    refused(nowhere, store, 4, &whole);
    refused((12, 0, 0, 0), store, 4, &six_lines("#00000004"));
    refused((12, 0, 0, 0), store, 4, &block(&["#00000004", "broken"]));
}

#[test]
fn room_is_freed_and_used() {
    // TIMETBLS has 29 lines, service 1 has 15 of them and service 3 has 7.
    let mut sample = Sample::new();
    sample.rooms[7] = 29;
    let mut store = sample.load().unwrap();
    let seven = |service: &str| {
        let six = six_lines(service);
        [&six[..], b"?     ,     ,00000\r\n"].concat()
    };
    refused((2, 8, 0, 0), &mut store, 2, &seven("#00000002"));
    amend(&mut store, 3, &six_lines("#00000003")).unwrap();
    amend(&mut store, 2, &seven("#00000002")).unwrap();
    refused((2, 8, 0, 0), &mut store, 3, &seven("#00000003"));
    // Room is tested before the block's lines.
    refused((2, 8, 0, 0), &mut store, 3, &[&six_lines("#00000003")[..], b"x\r\n"].concat());
    refused(
        (4, 8, 3, 5),
        &mut store,
        3,
        &block(&["#00000003", &service_number("100", "000", "999"), "-00002,000,999", "&IC  ,000,999", "x"]),
    );
}

#[test]
fn a_full_table_takes_as_many_lines_as_are_replaced() {
    // All 29 lines of room are used. Service 1 gives 15 of them free.
    let mut sample = Sample::new();
    sample.rooms[7] = 29;
    let store = sample.load().unwrap();
    let with_passed = |service: &str, passed: usize| {
        let six = six_lines(service);
        let (before, last) = six.split_at(six.len() - 15);
        [before, &b";shl    \r\n".repeat(passed), last].concat()
    };
    for (service, lines) in [(1, 15), (2, 6), (3, 7)] {
        let opening = format!("#{service:08}");
        let mut amended = store.clone();
        refused((2, 8, 0, 0), &mut amended, service, &with_passed(&opening, lines + 1 - 6));
        amend(&mut amended, service, &with_passed(&opening, lines - 6)).unwrap();
        refused((2, 8, 0, 0), &mut amended, service, &with_passed(&opening, lines + 1 - 6));
    }
}

#[test]
fn the_room_of_opened_tables_is_that_of_their_length() {
    // 29 rows of seven words and six words more.
    let mut lens = LENS;
    lens[7] = 29 * 7 + 6;
    let tables = encode(&Sample::new().load().unwrap(), &lens);
    let mut store = open(&tables).unwrap();
    let seven = [&six_lines("#00000002")[..], b"?     ,     ,00000\r\n"].concat();
    refused((2, 8, 0, 0), &mut store, 2, &seven);
    amend(&mut store, 3, &six_lines("#00000003")).unwrap();
    amend(&mut store, 2, &seven).unwrap();
    assert_eq!(store.answer(), second::Answer { days: 7, services: 3 });
}

#[test]
fn unsound_tables_are_refused_before_all_else() {
    let sound = encode(&Sample::new().load().unwrap(), &LENS);
    let amend_tables = |tables: &[Vec<u64>; 11], service: u64, block: &[u8]| {
        open(tables).and_then(|mut store| amend(&mut store, service, block))
    };
    assert!(amend_tables(&sound, 2, &six_lines("#00000002")).is_ok());
    let mut damaged = sound.clone();
    // The word after the last row in use.
    damaged[7][29 * 7] = 1;
    for (service, block) in [(2, six_lines("#00000002")), (2, vec![]), (4, six_lines("#00000004"))] {
        let refusal = amend_tables(&damaged, service, &block).unwrap_err();
        assert_eq!(refusal, Refusal { number: 16, file: 0, ordinal: 0, line: 0 });
    }
}

#[test]
fn each_fault_is_told_at_the_services_own_ordinal() {
    let store = &mut Sample::new().load().unwrap();
    let number = service_number("100", "000", "999");
    for (service, ordinal) in [(1, 1), (2, 2), (3, 3)] {
        let opening = format!("#{service:08}");
        let lines =
            [&opening[..], &number, "-00002,000,999", "&IC  ,000,999", ">asd    ,0800", "<ut     ,0830"];
        let with = |line: usize, text: &str| {
            let mut lines = lines.map(String::from);
            lines[line - 1] = text.into();
            block(&lines.each_ref().map(String::as_str))
        };
        // 4: first byte, length, comma, byte not allowed.
        refused((4, 8, ordinal, 5), store, service, &with(5, "xasd    ,0800"));
        refused((4, 8, ordinal, 4), store, service, &with(4, "&IC  ,000,99"));
        refused((4, 8, ordinal, 3), store, service, &with(3, "-00002.000,999"));
        refused((4, 8, ordinal, 6), store, service, &with(6, "<u\rt    ,0830"));
        // 7: not allowed here; unfinished, at the last line.
        refused((7, 8, ordinal, 4), store, service, &with(4, ">asd    ,0800"));
        refused((7, 8, ordinal, 6), store, service, &with(6, ".ut     ,0830"));
        // 5, 9 at their lines, 10 at the `#`.
        refused((5, 8, ordinal, 5), store, service, &with(5, ">asd    ,0860"));
        refused((9, 8, ordinal, 2), store, service, &with(2, &service_number("300", "000", "999")));
        refused((9, 8, ordinal, 4), store, service, &with(4, "&XX  ,000,999"));
        refused((9, 8, ordinal, 6), store, service, &with(6, "<xx     ,0830"));
        refused((10, 8, ordinal, 1), store, service, &with(4, "&IC  ,001,001"));
        // Of two faults the first line's; of one line's two the earlier test's.
        let two = with(6, "<xx     ,0860");
        refused((5, 8, ordinal, 6), store, service, &two);
        amend(&mut store.clone(), service, &block(&lines)).unwrap();
    }
}

#[test]
fn the_blocks_lines_are_tested_at_its_ordinal() {
    let store = &mut Sample::new().load().unwrap();
    let number = service_number("100", "000", "999");
    let lines = ["#00000003", &number, "-00002,000,999", "&IC  ,000,999", ">asd    ,0800", "<ut     ,0830"];
    let with = |line: usize, text: &'static str| {
        let mut lines = lines;
        lines[line - 1] = text;
        block(&lines)
    };
    refused((7, 8, 3, 1), store, 3, &block(&lines[..1]));
    refused((7, 8, 3, 5), store, 3, &block(&lines[..5]));
    refused((4, 8, 3, 2), store, 3, &with(2, ""));
    refused((7, 8, 3, 2), store, 3, &with(2, "-00002,000,999"));
    refused((9, 8, 3, 3), store, 3, &with(3, "-00003,000,999"));
    refused((10, 8, 3, 1), store, 3, &with(3, "-00002,000,003"));
    refused((5, 8, 3, 6), store, 3, &with(6, "<ut     ,9999"));
    refused((4, 8, 3, 6), store, 3, &with(6, "<ut     ,0830 "));
    refused((7, 8, 3, 7), store, 3, &[&block(&lines)[..], b"<\r\n"].concat());
    amend(store, 3, &block(&lines)).unwrap();
}

#[test]
fn test_1_counts_the_edited_text() {
    // The sample's TIMETBLS: service 2 has 11 + 59 + 16 + 15 + 15 + 15 = 131
    // bytes and so has any block of six such lines.
    let mut sample = Sample::new();
    sample.rooms[7] = usize::MAX;
    let mut store = sample.load().unwrap();
    let others = sample.files[7].len() - 131;
    let mut long = vec![b' '; 268_435_456 - others];
    long[..11].copy_from_slice(b"#00000002\r\n");
    let end = long.len();
    long[end - 2..].copy_from_slice(b"\r\n");
    assert_eq!(amend(&mut store, 2, &long).unwrap_err(), Refusal { number: 1, file: 8, ordinal: 0, line: 0 });
    long.remove(20);
    assert_eq!(amend(&mut store, 2, &long).unwrap_err(), Refusal { number: 4, file: 8, ordinal: 2, line: 2 });
}
