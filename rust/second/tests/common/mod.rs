//! A small sound delivery, line by line, and edits of it.
//!
//! Line numbers in the tests count the lines of a file from 1, also in
//! TIMETBLS; the expected places are written by hand from document 01.
#![allow(dead_code)] // Each test program uses a part of this.

use second::{load, File, Refusal, Store};

pub type Outcome = Result<Store, Refusal>;

#[derive(Clone)]
pub struct Sample {
    pub files: [Vec<u8>; 11],
    pub rooms: [usize; 11],
}

pub const HEADER: &str = "@100,01012015,07012015,0001,Winter                        ";

fn text_of(lines: &[String]) -> Vec<u8> {
    lines.iter().flat_map(|line| [line.as_bytes(), b"\r\n"].concat()).collect()
}

fn file(lines: &[&str]) -> Vec<u8> {
    let all: Vec<String> = std::iter::once(HEADER).chain(lines.iter().copied()).map(String::from).collect();
    text_of(&all)
}

pub fn pad(text: &str, width: usize) -> String {
    format!("{text:width$}")
}

pub fn station(flag: u8, short_name: &str, time: u8, country: &str, zone: &str) -> String {
    let (short_name, country) = (pad(short_name, 7), pad(country, 4));
    let name = pad(&format!("Station {short_name}"), 30);
    format!("{flag},{short_name},{time:02},00,{country},{zone},00,000000,000000,{name}")
}

pub fn service_number(company: &str, first: &str, last: &str) -> String {
    format!("%{company},00100,       ,{first},{last},{}", pad("", 30))
}

impl Sample {
    /// Every kind of record, on 1 to 7 January 2015.
    pub fn new() -> Sample {
        let company = |number: &str, code: &str, name: &str| {
            format!("{number},{},{},0400", pad(code, 10), pad(name, 30))
        };
        let lines = |lines: Vec<String>| file(&lines.iter().map(String::as_str).collect::<Vec<_>>());
        let files = [
            file(&[]),
            lines(vec![company("100", "NS", "Spoorwegen"), company("200", "DB", "Bahn")]),
            lines(vec![
                format!("NL  ,1,{}", pad("Nederland", 30)),
                format!("D   ,0,{}", pad("Duitsland", 30)),
            ]),
            lines(vec![format!("IC  ,{}", pad("Intercity", 30)), format!("ST  ,{}", pad("Stoptrein", 30))]),
            file(&[
                "#0000",
                "+00,01012015,31122015",
                "#0001",
                "+01,01012015,03012015",
                "-01,05012015,07012015",
            ]),
            lines(vec![
                station(1, "asd", 5, "NL", "0000"),
                station(1, "ut", 99, "NL", "0000"),
                station(0, "ht", 3, "NL", "0000"),
                station(2, "koln", 4, "D", "0001"),
                station(9, "shl", 0, "NL", "0000"),
            ]),
            file(&["#00000", "1111111", "#00001", "1010101", "#00002", "0000001"]),
            lines(timetable()),
            file(&[
                "#ut     ",
                "-00000001,00000002,01",
                "-00000002,00000001,00",
                "#ht     ",
                "-00000001,00000001,02",
            ]),
            file(&["#00007", "1111111", "#00008", "0000000"]),
            file(&["#asd    ", "-100,*   ,*  ,*   ,010,00007", "-*  ,IC  ,200,IC  ,020,00007", "#koln   "]),
        ];
        Sample { files, rooms: [100; 11] }
    }

    /// Document 01's example: P3's span and one six-line service of two stops.
    pub fn example() -> Sample {
        let mut sample = Sample::new();
        for file in [File::Changes, File::XFootnote, File::XChanges] {
            sample.files[file.index()].clear();
        }
        sample.keep_lines(File::Footnote, 1);
        sample.keep_lines(File::TimeTbls, 1);
        for line in ["#00000", &"1".repeat(800)] {
            sample.push(File::Footnote, line);
        }
        let number = service_number("100", "000", "999");
        let lines =
            ["#00000001", &number, "-00000,000,999", "&IC  ,000,999", ">asd    ,0800", "<ut     ,0830"];
        for line in lines {
            sample.push(File::TimeTbls, line);
        }
        for file in File::ALL.into_iter().take(8) {
            sample.set(file, 1, &HEADER.replace("07012015", "10032017"));
        }
        sample.rooms = [64; 11];
        sample
    }

    pub fn load(&self) -> Outcome {
        load(&self.files.each_ref().map(Vec::as_slice), &self.rooms)
    }

    fn lines(&self, file: File) -> Vec<Vec<u8>> {
        let text = &self.files[file.index()];
        let text = text.strip_suffix(b"\r\n").expect("whole lines");
        let mut lines = vec![Vec::new()];
        for &byte in text {
            let line = lines.last_mut().unwrap();
            line.push(byte);
            if line.ends_with(b"\r\n") {
                line.truncate(line.len() - 2);
                lines.push(Vec::new());
            }
        }
        lines
    }

    fn put(&mut self, file: File, lines: Vec<Vec<u8>>) {
        self.files[file.index()] = lines.iter().flat_map(|line| [&line[..], b"\r\n"].concat()).collect();
    }

    pub fn line(&self, file: File, line: usize) -> Vec<u8> {
        self.lines(file)[line - 1].clone()
    }

    pub fn set(&mut self, file: File, line: usize, text: &str) {
        let mut lines = self.lines(file);
        lines[line - 1] = text.into();
        self.put(file, lines);
    }

    /// Puts bytes from a column on, both from 1.
    pub fn put_at(&mut self, file: File, line: usize, column: usize, bytes: &[u8]) {
        let mut lines = self.lines(file);
        lines[line - 1][column - 1..][..bytes.len()].copy_from_slice(bytes);
        self.put(file, lines);
    }

    pub fn insert(&mut self, file: File, line: usize, text: &str) {
        let mut lines = self.lines(file);
        lines.insert(line - 1, text.into());
        self.put(file, lines);
    }

    pub fn remove(&mut self, file: File, line: usize) {
        let mut lines = self.lines(file);
        lines.remove(line - 1);
        self.put(file, lines);
    }

    pub fn push(&mut self, file: File, text: &str) {
        self.files[file.index()].extend([text.as_bytes(), b"\r\n"].concat());
    }

    pub fn keep_lines(&mut self, file: File, count: usize) {
        let mut lines = self.lines(file);
        lines.truncate(count);
        self.put(file, lines);
    }
}

fn timetable() -> Vec<String> {
    let lines: [&str; 28] = [
        "#00000001",                          // line 2: block 1, line 1
        &service_number("100", "000", "003"), // 3: 1, 2
        &service_number("200", "003", "999"), // 4: 1, 3
        "-00000,001,999",                     // 5: 1, 4
        "&IC  ,000,002",                      // 6: 1, 5
        "&ST  ,002,005",                      // 7: 1, 6
        "*ABCD,001,999,00001",                // 8: 1, 7
        ">asd    ,0800",                      // 9: 1, 8, stop 1
        "?  5a ,  5b ,00001",                 // 10: 1, 9
        ";shl    ",                           // 11: 1, 10
        "+ut     ,0825,0830",                 // 12: 1, 11, stop 2
        ".ht     ,0900",                      // 13: 1, 12, stop 3
        "+shl    ,9999,0910",                 // 14: 1, 13, stop 4
        "<koln   ,1200",                      // 15: 1, 14, stop 5
        "?     ,     ,00002",                 // 16: 1, 15
        "#00000002",                          // 17: 2, 1
        &service_number("200", "001", "002"), // 18: 2, 2
        "-00001,001,002",                     // 19: 2, 3
        "&ST  ,001,002",                      // 20: 2, 4
        ">ut     ,0840",                      // 21: 2, 5
        "<asd    ,0905",                      // 22: 2, 6
        "#00000003",                          // 23: 3, 1
        &service_number("100", "000", "999"), // 24: 3, 2
        "-00000,000,999",                     // 25: 3, 3
        "&IC  ,000,999",                      // 26: 3, 4
        ">koln   ,1300",                      // 27: 3, 5
        "+ut     ,1500,9999",                 // 28: 3, 6
        "<asd    ,1530",                      // 29: 3, 7
    ];
    lines.map(String::from).to_vec()
}

/// The number and place of a refusal: number, file, ordinal, line.
pub fn place(outcome: &Outcome) -> Option<(u8, u8, u64, u64)> {
    let refusal = outcome.as_ref().err()?;
    Some((refusal.number, refusal.file, refusal.ordinal, refusal.line))
}

#[track_caller]
pub fn accepted(edit: impl FnOnce(&mut Sample)) {
    let mut sample = Sample::new();
    edit(&mut sample);
    assert_eq!(place(&sample.load()), None);
}

#[track_caller]
pub fn refused(expected: (u8, u8, u64, u64), edit: impl FnOnce(&mut Sample)) {
    let mut sample = Sample::new();
    edit(&mut sample);
    assert_eq!(place(&sample.load()), Some(expected));
}
