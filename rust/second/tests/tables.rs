//! The eleven tables of the sample, word by word, and their soundness.

mod common;

use common::Sample;
use second::File::{self, *};
use second::{amend, encode, open, rooms_of, zeroes, Refusal};

const LENS: [usize; 11] = [7, 20, 20, 20, 40, 40, 100, 210, 40, 80, 40];

fn packed(code: &[u8]) -> u64 {
    code.iter().fold(0, |word, &byte| word << 8 | u64::from(byte))
}

fn tables() -> [Vec<u64>; 11] {
    let mut sample = Sample::new();
    sample.rooms = rooms_of(&LENS);
    encode(&sample.load().unwrap(), &LENS)
}

/// Rows of a table, filled up with zeroes to its width and its length.
fn table(file: File, width: usize, rows: &[&[u64]]) -> Vec<u64> {
    let mut words: Vec<u64> = Vec::new();
    for row in rows {
        words.extend(*row);
        words.extend(vec![0; width - row.len()]);
    }
    words.resize(LENS[file.index()], 0);
    words
}

fn first_line(rises: u64) -> [u64; 6] {
    [64, 100, 1012015, 7012015, 1, rises]
}

#[test]
fn rooms_are_rounded_down() {
    assert_eq!(rooms_of(&LENS), [1, 3, 3, 3, 6, 6, 7, 30, 6, 5, 5]);
}

#[test]
fn small_files() {
    let tables = tables();
    assert_eq!(tables[0], table(Delivery, 6, &[&first_line(1)]));
    assert_eq!(tables[1], table(Company, 6, &[&first_line(1), &[1, 100, 400], &[1, 200, 400]]));
    let rows: [&[u64]; 3] = [&first_line(0), &[1, packed(b"NL  "), 1], &[1, packed(b"D   "), 0]];
    assert_eq!(tables[2], table(Country, 6, &rows));
    assert_eq!(tables[3], table(TrnsMode, 6, &[&first_line(1), &[1, 0x49432020], &[1, packed(b"ST  ")]]));
    let rows: [&[u64]; 6] = [
        &first_line(1),
        &[35, 0],
        &[43, 0, 1012015, 31122015],
        &[35, 1],
        &[43, 1, 1012015, 3012015],
        &[45, 1, 5012015, 7012015],
    ];
    assert_eq!(tables[4], table(TimeZone, 6, &rows));
    let (nl, d) = (packed(b"NL  "), packed(b"D   "));
    let rows: [&[u64]; 6] = [
        &first_line(0),
        &[1, 1, packed(b"asd    "), 5, nl, 0],
        &[1, 1, packed(b"ut     "), 99, nl, 0],
        &[1, 0, packed(b"ht     "), 3, nl, 0],
        &[1, 2, packed(b"koln   "), 4, d, 1],
        &[1, 9, packed(b"shl    "), 0, nl, 0],
    ];
    assert_eq!(tables[5], table(Stations, 6, &rows));
}

#[test]
fn footnotes() {
    let tables = tables();
    let rows: [&[u64]; 7] =
        [&first_line(1), &[35, 0], &[1, 0b1111111], &[35, 1], &[1, 0b1010101], &[35, 2], &[1, 0b1000000]];
    assert_eq!(tables[6], table(Footnote, 14, &rows));
    let rows: [&[u64]; 5] = [&first_line(1), &[35, 7], &[1, 0b1111111], &[35, 8], &[1, 0]];
    assert_eq!(tables[9], table(XFootnote, 14, &rows));
}

#[test]
fn a_vector_of_800_days_has_13_words() {
    let mut sample = Sample::example();
    let vector: String = (0..800).map(|day| if day % 64 == 1 { '1' } else { '0' }).collect();
    sample.set(Footnote, 3, &vector);
    let lens = [1000; 11];
    let tables = encode(&sample.load().unwrap(), &lens);
    assert_eq!(tables[6][28..42], [[1; 1].as_slice(), &[2; 13]].concat());
    sample.set(Footnote, 3, &"1".repeat(800));
    let tables = encode(&sample.load().unwrap(), &lens);
    assert_eq!(tables[6][28..42], [[1; 1].as_slice(), &[u64::MAX; 12], &[0xffff_ffff]].concat());
}

#[test]
fn services() {
    let tables = tables();
    let [asd, ut, ht] = [b"asd    ", b"ut     ", b"ht     "].map(|code| packed(code));
    let [koln, shl] = [b"koln   ", b"shl    "].map(|code| packed(code));
    let (ic, st) = (packed(b"IC  "), packed(b"ST  "));
    let rows: [&[u64]; 29] = [
        &[64, 100, 1012015, 7012015, 1, 1, 1],
        &[35, 1, 15, 5, 0, 0, 1],
        &[37, 100, 100, 1, 3, 0, 2],
        &[37, 200, 100, 3, 5, 0, 3],
        &[45, 0, 1, 5, 0, 0, 4],
        &[38, ic, 1, 2, 0, 0, 5],
        &[38, st, 2, 5, 0, 0, 6],
        &[42, packed(b"ABCD"), 1, 5, 1, 0, 7],
        &[62, asd, 800, 0, 0, 0, 8],
        &[63, 1, 0, 0, 0, 0, 9],
        &[59, shl, 0, 0, 0, 0, 10],
        &[43, ut, 825, 830, 0, 0, 11],
        &[46, ht, 900, 0, 0, 0, 12],
        &[43, shl, 9999, 910, 0, 0, 13],
        &[60, koln, 1200, 0, 0, 0, 14],
        &[63, 2, 0, 0, 0, 0, 15],
        &[35, 2, 6, 2, 0, 0, 1],
        &[37, 200, 100, 1, 2, 0, 2],
        &[45, 1, 1, 2, 0, 0, 3],
        &[38, st, 1, 2, 0, 0, 4],
        &[62, ut, 840, 0, 0, 0, 5],
        &[60, asd, 905, 0, 0, 0, 6],
        &[35, 3, 7, 3, 0, 0, 1],
        &[37, 100, 100, 1, 3, 0, 2],
        &[45, 0, 1, 3, 0, 0, 3],
        &[38, ic, 1, 3, 0, 0, 4],
        &[62, koln, 1300, 0, 0, 0, 5],
        &[43, ut, 1500, 9999, 0, 0, 6],
        &[60, asd, 1530, 0, 0, 0, 7],
    ];
    assert_eq!(tables[7], table(TimeTbls, 7, &rows));
}

#[test]
fn changes() {
    let tables = tables();
    let rows: [&[u64]; 6] = [
        &first_line(0),
        &[35, packed(b"ut     ")],
        &[45, 1, 2, 1],
        &[45, 2, 1, 0],
        &[35, packed(b"ht     ")],
        &[45, 1, 1, 2],
    ];
    assert_eq!(tables[8], table(Changes, 6, &rows));
    let (any, any_company, ic) = (0x2a202020, 0x2a2020, 0x49432020);
    let rows: [&[u64]; 5] = [
        &first_line(1),
        &[35, packed(b"asd    ")],
        &[45, 100, any, any_company, any, 10, 7],
        &[45, any_company, ic, 200, ic, 20, 7],
        &[35, packed(b"koln   ")],
    ];
    assert_eq!(tables[10], table(XChanges, 7, &rows));
}

#[test]
fn absent_files_and_refused_loads_are_zero() {
    let mut sample = Sample::new();
    for file in [Changes, XFootnote, XChanges] {
        sample.files[file.index()].clear();
    }
    let tables = encode(&sample.load().unwrap(), &LENS);
    for file in [Changes, XFootnote, XChanges] {
        assert_eq!(tables[file.index()], vec![0; LENS[file.index()]]);
    }
    assert_eq!(zeroes(&LENS).map(|table| table.len()), LENS);
    assert!(zeroes(&LENS).iter().flatten().all(|&word| word == 0));
}

#[test]
fn loaded_tables_are_sound() {
    let tables = tables();
    let mut store = open(&tables).unwrap();
    assert!(
        store == {
            let mut s = Sample::new();
            s.rooms = rooms_of(&LENS);
            s.load().unwrap()
        }
    );
    // Room for one line more: service 2 with a platform, and then no other.
    let line = b"?     ,     ,00000\r\n";
    let block = |service: &[u8], from: usize, to: usize| {
        let lines: Vec<u8> = (from + 1..=to)
            .flat_map(|at| [Sample::new().line(TimeTbls, at), b"\r\n".to_vec()].concat())
            .collect();
        [service, &lines[..], line].concat()
    };
    amend(&mut store, 2, &block(b"#00000002\r\n", 17, 22)).unwrap();
    let full = amend(&mut store, 3, &block(b"#00000003\r\n", 23, 29));
    assert_eq!(full, Err(Refusal { number: 2, file: 8, ordinal: 0, line: 0 }));
    assert!(open(&encode(&store, &LENS)).is_ok());
}

#[test]
fn unsound_tables() {
    let word = |file: File, width: usize, row: usize, word: usize, value: u64| {
        let mut tables = tables();
        tables[file.index()][row * width + word] = value;
        open(&tables).err().map(|refusal| (refusal.number, refusal.file, refusal.ordinal, refusal.line))
    };
    let unsound = Some((16, 0, 0, 0));
    assert_eq!(word(Company, 6, 1, 2, 2359), None);
    assert_eq!(word(Company, 6, 1, 2, 2400), unsound);
    assert_eq!(word(Company, 6, 1, 1, 1000), unsound);
    assert_eq!(word(Stations, 6, 1, 1, 9), None);
    assert_eq!(word(Stations, 6, 1, 1, 10), unsound);
    assert_eq!(word(Stations, 6, 1, 5, 1), None);
    assert_eq!(word(Stations, 6, 1, 5, 2), unsound);
    assert_eq!(word(TimeZone, 6, 2, 0, 45), None);
    assert_eq!(word(TimeZone, 6, 5, 2, 4012015), None);
    assert_eq!(word(TimeZone, 6, 5, 2, 3012015), unsound);
    assert_eq!(word(Footnote, 14, 2, 1, 0), None);
    assert_eq!(word(Footnote, 14, 2, 1, 0b10000000), unsound);
    assert_eq!(word(Footnote, 14, 2, 2, 1), unsound);
    assert_eq!(word(TimeTbls, 7, 4, 2, 0), unsound);
    assert_eq!(word(TimeTbls, 7, 4, 3, 999), unsound);
    assert_eq!(word(TimeTbls, 7, 4, 3, 4), unsound);
    assert_eq!(word(TimeTbls, 7, 7, 1, packed(b"   x")), None);
    assert_eq!(word(TimeTbls, 7, 7, 1, packed(b"    ")), unsound);
    assert_eq!(word(TimeTbls, 7, 7, 1, packed(b"A\r\nB")), unsound);
    assert_eq!(word(TimeTbls, 7, 7, 1, packed(b"ABCDE")), unsound);
    assert_eq!(word(TimeTbls, 7, 13, 2, 909), None);
    assert_eq!(word(TimeTbls, 7, 13, 2, 910), unsound);
    assert_eq!(word(XChanges, 7, 2, 1, 200), None);
    assert_eq!(word(XChanges, 7, 2, 1, packed(b"100")), unsound);
    assert_eq!(word(XChanges, 7, 2, 1, packed(b" * ")), unsound);
    assert_eq!(word(XChanges, 7, 2, 2, packed(b"ST  ")), None);
    assert_eq!(word(TimeTbls, 7, 15, 0, 0), unsound);
    assert_eq!(word(TimeTbls, 7, 15, 0, 256 + 63), unsound);
}
