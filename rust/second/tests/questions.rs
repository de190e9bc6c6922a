//! The desk's questions, on the sample and on the settled cases.

mod common;

use common::{pad, service_number, station, Sample, HEADER};
use second::questions::{Change, Reason, Side, Source, StopTime, Times, Verdict};
use second::File::{self, *};
use second::{
    change, lines_now, name, running_day, stop_time, LocalMinutes, ReferenceMinutes, Refusal, Store,
};

fn refusal(number: u8) -> Refusal {
    Refusal { number, file: 0, ordinal: 0, line: 0 }
}

fn packed(code: &str) -> u64 {
    code.bytes().fold(0, |word, byte| word << 8 | u64::from(byte))
}

#[test]
fn running_days() {
    let store = Sample::new().load().unwrap();
    // Service 2 has one leg and footnote 1, 1010101.
    for (date, runs) in [(1012015, true), (2012015, false), (3012015, true), (7012015, true)] {
        assert_eq!(running_day(&store, 2, 1, date), Ok(runs));
    }
    assert_eq!(running_day(&store, 1, 4, 4012015), Ok(true));
    assert_eq!(running_day(&store, 4, 9, 0), Err(refusal(12)));
    assert_eq!(running_day(&store, 100_000_000, 1, 1012015), Err(refusal(12)));
    assert_eq!(running_day(&store, (1 << 32) + 1, 1, 1012015), Err(refusal(12)));
    assert_eq!(running_day(&store, 2, 0, 0), Err(refusal(13)));
    assert_eq!(running_day(&store, 2, 2, 0), Err(refusal(13)));
    assert_eq!(running_day(&store, 1, 5, 1012015), Err(refusal(13)));
    assert_eq!(running_day(&store, 2, 1, 31122014), Err(refusal(14)));
    assert_eq!(running_day(&store, 2, 1, 8012015), Err(refusal(14)));
    assert_eq!(running_day(&store, 2, 1, 30022015), Err(refusal(14)));
    assert_eq!(running_day(&store, 2, 1, u64::MAX), Err(refusal(14)));
}

#[test]
fn a_leg_has_its_own_validity() {
    let mut sample = Sample::new();
    // 1010101 on legs 1 and 2, 0000001 on legs 3 and 4.
    sample.set(TimeTbls, 5, "-00002,003,999");
    sample.insert(TimeTbls, 6, "-00001,000,003");
    let store = sample.load().unwrap();
    let runs = |leg| running_day(&store, 1, leg, 1012015);
    assert_eq!([runs(1), runs(2), runs(3), runs(4)], [Ok(true), Ok(true), Ok(false), Ok(false)]);
}

fn times(station: &str, local: [Option<i32>; 2], reference: [Option<i32>; 2]) -> StopTime {
    let [arrival, departure] = local.map(|minutes| minutes.map(LocalMinutes));
    let local = Times { arrival, departure };
    let [arrival, departure] = reference.map(|minutes| minutes.map(ReferenceMinutes));
    StopTime { station: packed(station), local, reference: Times { arrival, departure } }
}

#[test]
fn stop_times() {
    let store = Sample::new().load().unwrap();
    let at = |stop, date| stop_time(&store, 1, stop, date);
    assert_eq!(at(1, 1012015), Ok(times("asd    ", [None, Some(480)], [None, Some(480)])));
    assert_eq!(at(2, 1012015), Ok(times("ut     ", [Some(505), Some(510)], [Some(505), Some(510)])));
    assert_eq!(at(3, 1012015), Ok(times("ht     ", [Some(540), Some(540)], [Some(540), Some(540)])));
    assert_eq!(at(4, 1012015), Ok(times("shl    ", [None, Some(550)], [None, Some(550)])));
    // koln is in zone 0001: +01 to 3 January, nothing on the 4th, then -01.
    assert_eq!(at(5, 3012015), Ok(times("koln   ", [Some(720), None], [Some(660), None])));
    assert_eq!(at(5, 5012015), Ok(times("koln   ", [Some(720), None], [Some(780), None])));
    assert_eq!(at(5, 4012015), Err(refusal(15)));
    assert_eq!(at(6, 0), Err(refusal(13)));
    assert_eq!(at(0, 0), Err(refusal(13)));
    assert_eq!(at(u64::MAX, 0), Err(refusal(13)));
    assert_eq!(at(5, 8012015), Err(refusal(14)));
    assert_eq!(stop_time(&store, 9, 0, 0), Err(refusal(12)));
    // Whether the service runs is not asked: 2 does not run on the 2nd.
    assert_eq!(stop_time(&store, 2, 1, 2012015), Ok(times("ut     ", [None, Some(520)], [None, Some(520)])));
}

#[test]
fn p6_p7_the_zone_rule() {
    let mut sample = Sample::new();
    sample.set(TimeTbls, 15, "<koln   ,2500");
    let store = sample.load().unwrap();
    assert_eq!(
        stop_time(&store, 1, 5, 5012015),
        Ok(times("koln   ", [Some(1500), None], [Some(1560), None]))
    );
    sample.set(TimeTbls, 15, "<koln   ,0030");
    let store = sample.load().unwrap();
    assert_eq!(stop_time(&store, 1, 5, 1012015), Ok(times("koln   ", [Some(30), None], [Some(-30), None])));
}

/// Service 1 arrives at `mid` from `a`, service 2 leaves it for `b`.
struct Desk {
    sample: Sample,
}

impl Desk {
    fn new() -> Desk {
        let mut sample = Sample::new();
        for file in [Stations, TimeTbls, Changes, XChanges] {
            sample.keep_lines(file, 1);
        }
        sample.set(XFootnote, 4, "#00008"); // 00007 always, 00008 never
        for short_name in ["a", "b"] {
            sample.push(Stations, &station(1, short_name, 5, "NL", "0000"));
        }
        sample.push(Stations, &station(1, "mid", 5, "NL", "0000"));
        let mut desk = Desk { sample };
        desk.service("#00000001", "100", "IC  ", ">a      ,0800", "<mid    ,1000");
        desk.service("#00000002", "200", "IC  ", ">mid    ,1005", "<b      ,1200");
        desk
    }

    fn service(&mut self, opening: &str, company: &str, mode: &str, start: &str, end: &str) {
        let number = service_number(company, "000", "999");
        for line in [opening, &number, "-00000,000,999", &format!("&{mode},000,999"), start, end] {
            self.sample.push(TimeTbls, line);
        }
    }

    fn with(mut self, edit: impl FnOnce(&mut Sample)) -> Desk {
        edit(&mut self.sample);
        self
    }

    fn push(self, file: File, lines: &[&str]) -> Desk {
        self.with(|sample| lines.iter().for_each(|line| sample.push(file, line)))
    }

    /// The line of TIMETBLS with service 1's `<`, and that with 2's `>`.
    fn arrives(self, time: &str) -> Desk {
        self.with(|sample| sample.put_at(TimeTbls, 7, 10, time.as_bytes()))
    }

    fn leaves(self, time: &str) -> Desk {
        self.with(|sample| sample.put_at(TimeTbls, 12, 10, time.as_bytes()))
    }

    /// The station's row of `mid`.
    fn mid(self, column: usize, bytes: &[u8]) -> Desk {
        self.with(|sample| sample.put_at(Stations, 4, column, bytes))
    }

    fn store(&self) -> Store {
        self.sample.load().unwrap()
    }

    fn ask_on(&self, from: u64, to: u64) -> Result<Change, Refusal> {
        change(&self.store(), side(1, 2, from), side(2, 1, to))
    }

    fn ask(&self) -> Change {
        self.ask_on(1012015, 1012015).unwrap()
    }
}

fn side(service: u64, stop: u64, date: u64) -> Side {
    Side { service, stop, date }
}

fn answer(verdict: Verdict, gap: i32, source: Source, needed: u16) -> Change {
    Change { verdict, gap: Some(gap), source: Some(source), needed: Some(needed) }
}

fn no(reason: Reason) -> Change {
    Change { verdict: Verdict::No(reason), gap: None, source: None, needed: None }
}

const TOO_SHORT: Verdict = Verdict::No(Reason::GapTooShort);

#[test]
fn p8_a_gap_over_midnight() {
    let desk = Desk::new().arrives("2350").leaves("0005");
    assert_eq!(desk.ask_on(1012015, 2012015), Ok(answer(Verdict::Yes, 15, Source::Stations, 5)));
    assert_eq!(desk.ask_on(1012015, 1012015), Ok(answer(TOO_SHORT, -1425, Source::Stations, 5)));
    let counted_through = Desk::new().arrives("2550").leaves("0200");
    assert_eq!(counted_through.ask_on(1012015, 2012015), Ok(answer(Verdict::Yes, 10, Source::Stations, 5)));
}

#[test]
fn the_stations_time_is_a_border() {
    let at = |leaves| Desk::new().leaves(leaves).ask();
    assert_eq!(at("1004"), answer(TOO_SHORT, 4, Source::Stations, 5));
    assert_eq!(at("1005"), answer(Verdict::Yes, 5, Source::Stations, 5));
}

#[test]
fn p10_unsettled_times() {
    let ninety_nine = |leaves| Desk::new().mid(11, b"99").leaves(leaves);
    assert_eq!(ninety_nine("1138").ask(), answer(TOO_SHORT, 98, Source::Stations, 99));
    assert_eq!(ninety_nine("1139").ask(), answer(Verdict::Unsettled, 99, Source::Stations, 99));
    let row = |time: &str| format!("-*  ,*   ,*  ,*   ,{time},00007");
    let desk = ninety_nine("1139").push(XChanges, &["#mid    ", &row("099")]);
    assert_eq!(desk.ask(), answer(Verdict::Yes, 99, Source::XChanges, 99));
    let desk = Desk::new().push(XChanges, &["#mid    ", &row("999")]).leaves("2639");
    assert_eq!(desk.ask(), answer(Verdict::Unsettled, 999, Source::XChanges, 999));
    let desk = Desk::new().push(XChanges, &["#mid    ", &row("999")]).leaves("2638");
    assert_eq!(desk.ask(), answer(TOO_SHORT, 998, Source::XChanges, 999));
}

#[test]
fn p11_a_possible_pair() {
    let pair = |possibility: &str, leaves| {
        let row = format!("-00000001,00000002,{possibility}");
        Desk::new().push(Changes, &["#mid    ", &row]).leaves(leaves)
    };
    for possibility in ["01", "02"] {
        assert_eq!(pair(possibility, "1000").ask(), answer(Verdict::Yes, 0, Source::Changes, 0));
        assert_eq!(pair(possibility, "0959").ask(), answer(TOO_SHORT, -1, Source::Changes, 0));
        // A pair beats the station's flag.
        assert_eq!(pair(possibility, "1000").mid(1, b"0").ask().verdict, Verdict::Yes);
    }
    let impossible = Change {
        verdict: Verdict::No(Reason::PairImpossible),
        gap: Some(5),
        source: Some(Source::Changes),
        needed: None,
    };
    assert_eq!(pair("00", "1005").ask(), impossible);
    // Pairs are ordered, and hold at their station alone.
    let other_way = Desk::new().push(Changes, &["#mid    ", "-00000002,00000001,00"]);
    assert_eq!(other_way.ask().verdict, Verdict::Yes);
    let elsewhere = Desk::new().push(Changes, &["#a      ", "-00000001,00000002,00"]);
    assert_eq!(elsewhere.ask().verdict, Verdict::Yes);
}

#[test]
fn a_station_without_changes() {
    let flag = Desk::new().mid(1, b"0").push(XChanges, &["#mid    ", "-*  ,*   ,*  ,*   ,000,00007"]);
    let expected = Change {
        verdict: Verdict::No(Reason::NoChangesHere),
        gap: Some(5),
        source: Some(Source::Stations),
        needed: None,
    };
    assert_eq!(flag.ask(), expected);
    assert_eq!(Desk::new().mid(1, b"2").ask().verdict, Verdict::Yes);
    assert_eq!(Desk::new().mid(1, b"9").ask().verdict, Verdict::Yes);
}

#[test]
fn p12_the_best_row() {
    let rows = |rows: &[&str]| Desk::new().push(XChanges, &["#mid    "]).push(XChanges, rows).ask().needed;
    assert_eq!(rows(&["-100,*   ,*  ,*   ,003,00007", "-*  ,IC  ,200,IC  ,001,00007"]), Some(3));
    assert_eq!(rows(&["-*  ,IC  ,200,IC  ,001,00007", "-100,*   ,*  ,*   ,003,00007"]), Some(3));
    // With the same rank, the larger time; footnotes make the rows differ.
    let both = Desk::new().with(|sample| {
        sample.push(XFootnote, "#00009");
        sample.push(XFootnote, "1000000");
    });
    let both =
        both.push(XChanges, &["#mid    ", "-100,*   ,*  ,*   ,003,00009", "-100,*   ,*  ,*   ,002,00007"]);
    assert_eq!(both.ask().needed, Some(3));
    assert_eq!(both.ask_on(2012015, 2012015).unwrap().needed, Some(2));
    // The vector counts on A's date.
    assert_eq!(both.ask_on(1012015, 2012015).unwrap().needed, Some(3));
    assert_eq!(both.ask_on(2012015, 1012015).unwrap().needed, Some(2));
    // Rows that do not fit, and a footnote without days.
    assert_eq!(rows(&["-200,*   ,*  ,*   ,003,00007"]), Some(5));
    assert_eq!(rows(&["-*  ,ST  ,*  ,*   ,003,00007"]), Some(5));
    assert_eq!(rows(&["-*  ,*   ,100,*   ,003,00007"]), Some(5));
    assert_eq!(rows(&["-*  ,*   ,*  ,ST  ,003,00007"]), Some(5));
    assert_eq!(rows(&["-100,IC  ,200,IC  ,003,00008"]), Some(5));
    assert_eq!(rows(&["-100,IC  ,200,IC  ,003,00007"]), Some(3));
    // 4 beats 2 + 1, 2 beats 1, 1 beats none.
    assert_eq!(rows(&["-*  ,IC  ,*  ,*   ,001,00007", "-*  ,*   ,200,IC  ,002,00007"]), Some(1));
    assert_eq!(rows(&["-*  ,*   ,200,*   ,001,00007", "-*  ,*   ,*  ,IC  ,002,00007"]), Some(1));
    assert_eq!(rows(&["-*  ,*   ,*  ,IC  ,001,00007", "-*  ,*   ,*  ,*   ,002,00007"]), Some(1));
}

#[test]
fn a_star_mode_in_xchanges_is_the_wildcard() {
    let desk = Desk::new().push(TrnsMode, &[&format!("*   ,{}", pad("Star", 30))]);
    let desk = desk.push(XChanges, &["#mid    ", "-*  ,*   ,*  ,*   ,003,00007"]);
    assert_eq!(desk.ask().needed, Some(3));
}

#[test]
fn keys_are_those_of_the_legs_of_the_change() {
    // Service 3 stops at mid in between; it arrives with ST of company 200 and
    // leaves with IC of company 100.
    let desk = Desk::new().push(
        TimeTbls,
        &[
            "#00000003",
            &service_number("200", "000", "002"),
            &service_number("100", "002", "999"),
            "-00001,000,002",
            "-00000,002,999",
            "&ST  ,000,002",
            "&IC  ,002,999",
            ">a      ,0900",
            "+mid    ,0950,1010",
            "<b      ,1100",
        ],
    );
    let rows = ["#mid    ", "-200,ST  ,*  ,*   ,001,00007", "-*  ,*   ,100,IC  ,002,00007"];
    let desk = desk.push(XChanges, &rows);
    let store = desk.store();
    let from_3 = change(&store, side(3, 2, 1012015), side(2, 1, 1012015)).unwrap();
    assert_eq!(from_3, answer(Verdict::Yes, 15, Source::XChanges, 1));
    let to_3 = change(&store, side(1, 2, 1012015), side(3, 2, 1012015)).unwrap();
    assert_eq!(to_3, answer(Verdict::Yes, 10, Source::XChanges, 2));
    // On the 2nd leg 1 of service 3 does not run, its leg 2 does.
    let from_3 = change(&store, side(3, 2, 2012015), side(2, 1, 2012015)).unwrap();
    assert_eq!(from_3, no(Reason::FromDoesNotRun));
    let to_3 = change(&store, side(1, 2, 2012015), side(3, 2, 2012015)).unwrap();
    assert_eq!(to_3.verdict, Verdict::Yes);
    // The same service on another date is a change like any other.
    let again = change(&store, side(3, 2, 1012015), side(3, 2, 2012015)).unwrap();
    assert_eq!(again, answer(Verdict::Yes, 1460, Source::XChanges, 1));
    let same = change(&store, side(3, 3, 1012015), side(3, 1, 1012015)).unwrap();
    assert_eq!(same, no(Reason::SameServiceAndDate));
}

#[test]
fn reasons_in_their_order() {
    let store = Sample::new().load().unwrap();
    let ask = |from, to| change(&store, from, to).unwrap();
    // 2 does not run on the 2nd; 1 and 3 run every day.
    assert_eq!(ask(side(2, 2, 2012015), side(2, 1, 2012015)), no(Reason::SameServiceAndDate));
    assert_eq!(ask(side(2, 2, 2012015), side(3, 1, 1012015)), no(Reason::FromDoesNotRun));
    assert_eq!(ask(side(1, 3, 2012015), side(2, 1, 2012015)), no(Reason::ToDoesNotRun));
    assert_eq!(ask(side(1, 3, 1012015), side(2, 1, 1012015)), no(Reason::StationsDiffer));
    assert_eq!(ask(side(1, 4, 1012015), side(1, 4, 2012015)), no(Reason::NobodyAlights));
    assert_eq!(ask(side(1, 2, 1012015), side(3, 2, 1012015)), no(Reason::NobodyBoards));
    // Nobody alights from 1 at stop 4 comes after the stations.
    assert_eq!(ask(side(1, 4, 1012015), side(2, 1, 1012015)), no(Reason::StationsDiffer));
}

#[test]
fn refusals_of_a_change() {
    let store = Sample::new().load().unwrap();
    let ask = |from, to| change(&store, from, to).map_err(|refusal| refusal.number);
    let fine = side(2, 1, 1012015);
    assert_eq!(ask(side(9, 0, 0), side(9, 0, 0)), Err(12));
    assert_eq!(ask(side(1, 1, 0), side(9, 0, 0)), Err(13));
    assert_eq!(ask(side(1, 0, 0), fine), Err(13));
    assert_eq!(ask(side(1, 6, 0), fine), Err(13));
    assert_eq!(ask(side(1, 2, 0), side(9, 0, 0)), Err(14));
    assert_eq!(ask(side(1, 2, 1012015), side(9, 0, 0)), Err(12));
    assert_eq!(ask(side(1, 2, 1012015), side(1, 5, 0)), Err(13));
    assert_eq!(ask(side(1, 2, 1012015), side(1, 0, 0)), Err(13));
    assert_eq!(ask(side(1, 2, 1012015), side(1, u64::MAX, 0)), Err(13));
    assert_eq!(ask(side(1, 2, 1012015), side(1, 4, 31122014)), Err(14));
    // From 1 at koln to 3 at koln: no period on the 4th, on either side.
    assert_eq!(ask(side(1, 5, 4012015), side(3, 1, 5012015)), Err(15));
    assert_eq!(ask(side(1, 5, 3012015), side(3, 1, 4012015)), Err(15));
    // +01 on the 3rd and -01 on the 5th: 13:00 is 840, 12:00 is 660.
    let over_the_gap = ask(side(1, 5, 3012015), side(3, 1, 5012015)).unwrap();
    assert_eq!(over_the_gap, answer(Verdict::Yes, 840 - 660 + 2880, Source::Stations, 4));
    // A reason for No comes before 15.
    assert_eq!(ask(side(1, 5, 4012015), side(2, 1, 4012015)), Ok(no(Reason::ToDoesNotRun)));
}

#[test]
fn fifteen_comes_before_a_pair_or_a_flag() {
    let desk = Desk::new().mid(22, b"0001").push(Changes, &["#mid    ", "-00000001,00000002,00"]);
    assert_eq!(desk.ask_on(4012015, 4012015), Err(refusal(15)));
    let desk = Desk::new().mid(22, b"0001").mid(1, b"0");
    assert_eq!(desk.ask_on(4012015, 4012015), Err(refusal(15)));
}

#[test]
fn names() {
    let sample = Sample::new();
    let stations = &sample.files[Stations.index()];
    let expected = pad("Station ut     ", 30);
    assert_eq!(name(stations, packed("ut     ")), Ok(expected.as_bytes()));
    assert_eq!(name(stations, packed("ut")), Err(refusal(17)));
    assert_eq!(name(stations, packed("zzz    ")), Err(refusal(17)));
    assert_eq!(name(stations, packed(" ut     ") | 1 << 60), Err(refusal(17)));
    assert_eq!(name(b"", packed("ut     ")), Err(refusal(17)));
}

#[test]
fn names_ask_for_rows_of_73_bytes_alone() {
    let row = station(1, "ut", 5, "NL", "0000");
    let short_name = packed("ut     ");
    let name_in =
        |text: &str| name(text.as_bytes(), short_name).map(|part| String::from_utf8(part.into()).unwrap());
    let expected = Ok(pad("Station ut     ", 30));
    // The first line never counts; a remainder of 73 bytes does.
    assert_eq!(name_in(&row), Err(refusal(17)));
    assert_eq!(name_in(&format!("\r\n{row}")), expected);
    assert_eq!(name_in(&format!("{HEADER}\r\n{row}\r")), Err(refusal(17)));
    assert_eq!(name_in(&format!("{HEADER}\r\n{row} \r\n{row}\r\n")), expected);
    // Commas are not looked at, and the first such row counts.
    let other = row.replace(',', ".").replace("Station", "Another");
    assert_eq!(name_in(&format!("\r\n{other}\r\n{row}\r\n")), Ok(pad("Another ut     ", 30)));
}

#[test]
fn lines_of_a_service_now() {
    let text = b"@head\r\n#00000001\r\n%one\r\n@x\r\n#00000002\r\n%two";
    let first = &b"#00000001\r\n%one\r\n@x\r\n"[..];
    let second = &b"#00000002\r\n%two"[..];
    assert_eq!(lines_now(text, b"", 1), Ok(first));
    assert_eq!(lines_now(text, b"", 2), Ok(second));
    assert_eq!(lines_now(text, b"", 3), Err(refusal(12)));
    assert_eq!(lines_now(text, b"", 100_000_001), Err(refusal(12)));
    let block = b"#00000001\r\n%new\r\n";
    assert_eq!(lines_now(text, block, 1), Ok(&block[..]));
    assert_eq!(lines_now(text, block, 2), Ok(second));
    // A block that does not pass test 11 does not count.
    assert_eq!(lines_now(text, &block[..block.len() - 1], 1), Ok(first));
    assert_eq!(lines_now(text, b"#00000001\r\n@\r\n", 1), Ok(first));
    assert_eq!(lines_now(b"", b"#00000003\r\n", 3), Ok(&b"#00000003\r\n"[..]));
}

#[test]
fn lines_now_begin_and_end_at_hashes() {
    assert_eq!(lines_now(b"#00000001", b"", 1), Ok(&b"#00000001"[..]));
    assert_eq!(lines_now(b"#00000001\r\n#", b"", 1), Ok(&b"#00000001\r\n"[..]));
    assert_eq!(lines_now(b"#000000010\r\n", b"", 1), Err(refusal(12)));
    assert_eq!(lines_now(b"#0000001x\r\n", b"", 1), Err(refusal(12)));
    // The first such line counts, wherever it stands.
    let twice = b"#00000002\r\n#00000001\r\na\r\n#00000001\r\nb\r\n";
    assert_eq!(lines_now(twice, b"", 1), Ok(&b"#00000001\r\na\r\n"[..]));
}
