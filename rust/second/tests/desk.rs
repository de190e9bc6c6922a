//! A hundred questions on one delivery, with other companies, modes and days of
//! running on every leg. The answers are worked out by hand from document 01.

mod common;

use common::{pad, station, Sample};
use second::questions::{Change, Reason, Side, Source, StopTime, Times, Verdict};
use second::{change, running_day, stop_time, File::*, Refusal, Store};

/// 1 to 7 January 2015. Zone 0001 is an hour ahead up to the 3rd, has no period
/// on the 4th, and is an hour behind from the 5th on; zone 0000 is the reference.
fn store() -> Store {
    let mut sample = Sample::new();
    for file in [Company, TrnsMode, Stations, Footnote, TimeTbls, Changes, XFootnote, XChanges] {
        sample.keep_lines(file, 1);
    }
    for number in ["100", "200", "300"] {
        sample.push(Company, &format!("{number},{},{},0400", pad(number, 10), pad(number, 30)));
    }
    for code in ["IC  ", "ST  ", "BUS "] {
        sample.push(TrnsMode, &format!("{code},{}", pad(code, 30)));
    }
    sample.push(Stations, &station(1, "a", 5, "NL", "0000"));
    sample.push(Stations, &station(1, "m", 99, "NL", "0000"));
    sample.push(Stations, &station(0, "n", 3, "NL", "0000"));
    sample.push(Stations, &station(2, "k", 4, "D", "0001"));
    sample.push(Stations, &station(1, "z", 0, "NL", "0000"));
    for line in ["#00000", "1111111", "#00001", "1010101", "#00002", "0000001", "#00003", "0111111"] {
        sample.push(Footnote, line);
    }
    for line in ["#00000", "1111111", "#00001", "0101010", "#00002", "1000000"] {
        sample.push(XFootnote, line);
    }
    for line in TIMETABLE.lines().chain(SHORT_SERVICES.lines()) {
        sample.push(TimeTbls, &with_texts(line));
    }
    let changes = "#m      \n-00000000,00000012,01\n-00000000,00000007,00\n\
                   #n      \n-00000000,00000013,02\n#k      \n-00000015,00000014,00";
    changes.lines().for_each(|line| sample.push(Changes, line));
    XCHANGES.lines().for_each(|line| sample.push(XChanges, line));
    sample.rooms = [200; 11];
    sample.load().unwrap()
}

/// A `%` record is written without its train number and texts.
fn with_texts(line: &str) -> String {
    match line.strip_prefix('%').and_then(|fields| fields.split_once(',')) {
        Some((company, span)) => format!("%{company},00100,       ,{span},{}", pad("", 30)),
        None => line.into(),
    }
}

/// Service 0 from a by m, n and k to z; service 7 from z by k, m and n to a;
/// service 15 from a by k to z. A `%` has company, first and last.
const TIMETABLE: &str = "\
#00000000
%100,001,002
%200,002,003
%300,003,004
%100,004,005
-00000,001,002
-00001,002,003
-00003,003,004
-00000,004,005
&IC  ,001,002
&ST  ,002,003
&BUS ,003,004
&ST  ,004,005
>a      ,0800
+m      ,0900,0905
.n      ,1000
;z      
+k      ,1100,1110
<z      ,1200
#00000007
%300,001,002
%100,002,003
%200,003,004
%300,004,005
-00000,000,003
-00003,003,004
-00001,004,999
&BUS ,000,002
&IC  ,002,004
&ST  ,004,999
>z      ,0700
.k      ,1105
+m      ,9999,0910
+n      ,1010,9999
<a      ,1300
#00000015
%200,001,002
%100,002,003
-00000,001,002
-00002,002,003
&ST  ,001,002
&IC  ,002,003
>a      ,1305
+k      ,1400,1410
<z      ,2900";

/// One leg each, every day.
const SHORT_SERVICES: &str = "\
#00000012
%200,000,999
-00000,000,999
&BUS ,000,999
>m      ,0915
<a      ,1000
#00000013
%100,000,999
-00000,000,999
&IC  ,000,999
>n      ,1015
<z      ,1300
#00000014
%300,000,999
-00000,000,999
&ST  ,000,999
>k      ,1120
<z      ,2500
#00000016
%300,000,999
-00000,000,999
&IC  ,000,999
>m      ,0955
<n      ,1030
#00000017
%200,000,999
-00000,000,999
&BUS ,000,999
>a      ,1000
<k      ,1100
#00000018
%100,000,999
-00000,000,999
&ST  ,000,999
>a      ,1000
<k      ,1117";

const XCHANGES: &str = "\
#a      
-*  ,*   ,200,*   ,007,00000
-200,*   ,*  ,*   ,004,00001
-*  ,BUS ,*  ,ST  ,009,00000
#k      
-300,BUS ,*  ,*   ,012,00000
-*  ,*   ,300,ST  ,999,00000
-100,*   ,*  ,*   ,003,00002
-*  ,*   ,300,ST  ,001,00001
#m      
-*  ,*   ,300,IC  ,020,00002";

/// A day of January 2015, DDMMYYYY; the 0th is the last of December.
fn january(day: u64) -> u64 {
    match day {
        0 => 31122014,
        day => day * 1_000_000 + 12015,
    }
}

fn refused(refusal: Refusal) -> String {
    assert_eq!((refusal.file, refusal.ordinal, refusal.line), (0, 0, 0));
    refusal.number.to_string()
}

#[test]
fn running_days() {
    let store = store();
    // Service, leg, day of January, answer.
    let questions: [(u64, u64, u64, &str); 22] = [
        (0, 1, 1, "yes"),
        (0, 2, 1, "yes"),
        (0, 2, 2, "no"),
        (0, 3, 1, "no"),
        (0, 3, 2, "yes"),
        (0, 4, 4, "yes"),
        (0, 2, 7, "yes"),
        (0, 3, 7, "yes"),
        (7, 3, 1, "no"),
        (7, 3, 2, "yes"),
        (7, 4, 2, "no"),
        (7, 4, 3, "yes"),
        (15, 1, 6, "yes"),
        (15, 2, 6, "no"),
        (15, 2, 7, "yes"),
        (12, 1, 0, "14"),
        (12, 1, 8, "14"),
        (12, 1, 32, "14"),
        (12, 2, 1, "13"),
        (0, 5, 1, "13"),
        (0, 0, 1, "13"),
        (1, 1, 1, "12"),
    ];
    for (service, leg, day, expected) in questions {
        let answer = running_day(&store, service, leg, january(day));
        let said = answer.map_or_else(refused, |runs| if runs { "yes".into() } else { "no".into() });
        assert_eq!(said, expected, "service {service}, leg {leg}, day {day}");
    }
}

fn shown(answer: StopTime) -> String {
    fn times<T: Copy>(times: Times<T>, minutes: impl Fn(T) -> i32) -> String {
        let shown = |time: Option<T>| time.map_or("-".into(), |time| minutes(time).to_string());
        format!("{} {}", shown(times.arrival), shown(times.departure))
    }
    let letter = char::from((answer.station >> 48) as u8);
    assert_eq!(answer.station & 0xffff_ffff_ffff, 0x2020_2020_2020);
    let (local, reference) = (times(answer.local, |time| time.0), times(answer.reference, |time| time.0));
    format!("{letter} {local} {reference}")
}

#[test]
fn stop_times() {
    let store = store();
    // Service, stop, day; station, local arrival and departure, reference ones.
    let questions: [(u64, u64, u64, &str); 22] = [
        (0, 1, 1, "a - 480 - 480"),
        (0, 2, 1, "m 540 545 540 545"),
        (0, 3, 2, "n 600 600 600 600"),
        (0, 4, 1, "k 660 670 600 610"),
        (0, 4, 3, "k 660 670 600 610"),
        (0, 4, 4, "15"),
        (0, 4, 5, "k 660 670 720 730"),
        (0, 4, 7, "k 660 670 720 730"),
        (0, 5, 4, "z 720 - 720 -"),
        (7, 2, 2, "k 665 665 605 605"),
        (7, 2, 6, "k 665 665 725 725"),
        (7, 3, 1, "m - 550 - 550"),
        (7, 4, 2, "n 610 - 610 -"),
        (14, 2, 7, "z 1500 - 1500 -"),
        (14, 1, 3, "k - 680 - 620"),
        (15, 3, 1, "z 1740 - 1740 -"),
        (15, 2, 5, "k 840 850 900 910"),
        (0, 6, 1, "13"),
        (0, 0, 1, "13"),
        (99, 1, 1, "12"),
        (0, 1, 8, "14"),
        (0, 1, 0, "14"),
    ];
    for (service, stop, day, expected) in questions {
        let answer = stop_time(&store, service, stop, january(day));
        assert_eq!(answer.map_or_else(refused, shown), expected, "service {service}, stop {stop}, day {day}");
    }
}

/// Verdict, gap, source and needed time, as far as they were reached.
fn in_words(answer: Change) -> String {
    let verdict = match answer.verdict {
        Verdict::Yes => "yes",
        Verdict::Unsettled => "unsettled",
        Verdict::No(Reason::SameServiceAndDate) => "same",
        Verdict::No(Reason::FromDoesNotRun) => "from does not run",
        Verdict::No(Reason::ToDoesNotRun) => "to does not run",
        Verdict::No(Reason::StationsDiffer) => "stations differ",
        Verdict::No(Reason::NobodyAlights) => "nobody alights",
        Verdict::No(Reason::NobodyBoards) => "nobody boards",
        Verdict::No(Reason::PairImpossible) => "pair",
        Verdict::No(Reason::NoChangesHere) => "flag",
        Verdict::No(Reason::GapTooShort) => "short",
    };
    let source = answer.source.map(|source| match source {
        Source::Changes => "CHANGES",
        Source::Stations => "STATIONS",
        Source::XChanges => "XCHANGES",
    });
    let gap = answer.gap.map(|gap| gap.to_string());
    let needed = answer.needed.map(|needed| needed.to_string());
    let parts = [Some(verdict.into()), gap, source.map(String::from), needed];
    parts.into_iter().flatten().collect::<Vec<String>>().join(" ")
}

/// Service, stop and day of the one side and of the other, and the answer.
type Asked = ([u64; 3], [u64; 3], &'static str);

fn ask_all(questions: &[Asked]) {
    let store = store();
    let side = |[service, stop, day]: [u64; 3]| Side { service, stop, date: january(day) };
    for &(from, to, expected) in questions {
        let said = change(&store, side(from), side(to)).map_or_else(refused, in_words);
        assert_eq!(said, expected, "from {from:?} to {to:?}");
    }
}

#[test]
fn changes_at_m() {
    ask_all(&[
        // 0 arrives at 540 by leg 1 (100, IC); 12 leaves at 555; the pair is 01.
        ([0, 2, 1], [12, 1, 1], "yes 15 CHANGES 0"),
        ([0, 2, 2], [12, 1, 1], "short -1425 CHANGES 0"),
        ([0, 2, 1], [12, 1, 2], "yes 1455 CHANGES 0"),
        // 7 leaves at 550 by leg 3, not on the 1st; the pair is 00.
        ([0, 2, 2], [7, 3, 2], "pair 10 CHANGES"),
        ([0, 2, 1], [7, 3, 1], "to does not run"),
        // 16 leaves at 595; the row for 300, IC holds on the 1st alone, A's date.
        ([0, 2, 1], [16, 1, 1], "yes 55 XCHANGES 20"),
        ([0, 2, 2], [16, 1, 2], "short 55 STATIONS 99"),
        ([0, 2, 2], [16, 1, 3], "unsettled 1495 STATIONS 99"),
        ([0, 2, 1], [16, 1, 2], "yes 1495 XCHANGES 20"),
        ([7, 3, 1], [12, 1, 1], "nobody alights"),
    ]);
}

#[test]
fn changes_at_n() {
    ask_all(&[
        // 0 arrives at 600 by leg 2 on odd days; the pair with 13 is 02.
        ([0, 3, 1], [13, 1, 1], "yes 15 CHANGES 0"),
        ([0, 3, 2], [13, 1, 2], "from does not run"),
        // The flag is 0 for all others; 16 arrives at 630, 7 at 610.
        ([16, 2, 1], [13, 1, 2], "flag 1425 STATIONS"),
        ([16, 2, 1], [0, 3, 2], "flag 1410 STATIONS"),
        ([7, 4, 2], [13, 1, 2], "flag 5 STATIONS"),
        ([7, 4, 1], [13, 1, 1], "from does not run"),
        // 7 goes on by leg 4 on odd days, and nobody boards.
        ([16, 2, 1], [7, 4, 3], "nobody boards"),
        ([16, 2, 1], [7, 4, 2], "to does not run"),
    ]);
}

#[test]
fn changes_at_k() {
    ask_all(&[
        // 0 arrives at 660 by leg 3 (300, BUS), not on the 1st: rank 12.
        ([0, 4, 1], [14, 1, 1], "from does not run"),
        ([0, 4, 2], [14, 1, 2], "yes 20 XCHANGES 12"),
        ([0, 4, 3], [14, 1, 5], "yes 3020 XCHANGES 12"),
        ([0, 4, 4], [14, 1, 4], "15"),
        ([0, 4, 3], [14, 1, 4], "15"),
        ([0, 4, 4], [14, 1, 5], "15"),
        ([0, 4, 5], [14, 1, 3], "short -2980 XCHANGES 12"),
        ([0, 4, 2], [15, 2, 2], "to does not run"),
        ([0, 4, 7], [15, 2, 7], "yes 190 XCHANGES 12"),
        ([0, 4, 2], [7, 2, 2], "short 5 XCHANGES 12"),
        // 7 arrives at 665 by leg 1, also 300, BUS.
        ([7, 2, 1], [14, 1, 1], "yes 15 XCHANGES 12"),
        ([7, 2, 1], [0, 4, 1], "short 5 XCHANGES 12"),
        ([7, 2, 4], [0, 4, 4], "15"),
        // 15 arrives at 840 by leg 1 (200, ST), for which there is no row.
        ([15, 2, 1], [14, 1, 2], "pair 1280 CHANGES"),
        ([15, 2, 1], [0, 4, 2], "yes 1270 STATIONS 4"),
        ([15, 2, 1], [15, 2, 1], "same"),
        ([15, 2, 1], [15, 2, 7], "yes 8770 STATIONS 4"),
        // To 14 (300, ST): two rows of rank 3 on even days, the larger time wins.
        ([17, 2, 2], [14, 1, 2], "short 20 XCHANGES 999"),
        ([17, 2, 2], [14, 1, 3], "unsettled 1460 XCHANGES 999"),
        // 18 arrives at 677 with company 100: a row of rank 8 on the 1st alone.
        ([18, 2, 1], [14, 1, 1], "yes 3 XCHANGES 3"),
        ([18, 2, 2], [14, 1, 2], "short 3 XCHANGES 999"),
        ([18, 2, 2], [0, 4, 2], "short -7 STATIONS 4"),
        ([18, 2, 5], [14, 1, 7], "unsettled 2883 XCHANGES 999"),
    ]);
}

#[test]
fn changes_at_a_and_z() {
    ask_all(&[
        // To 15 at 785 by leg 1 (200, ST); from 7 at 780 by leg 4 (300, ST).
        ([7, 5, 1], [15, 1, 1], "short 5 XCHANGES 7"),
        ([7, 5, 3], [15, 1, 4], "yes 1445 XCHANGES 7"),
        // From 12 at 600 (200, BUS): rank 8 on even days, else 5, else 2.
        ([12, 2, 2], [15, 1, 2], "yes 185 XCHANGES 4"),
        ([12, 2, 1], [15, 1, 1], "yes 185 XCHANGES 9"),
        ([12, 2, 1], [0, 1, 2], "yes 1320 STATIONS 5"),
        ([7, 5, 1], [0, 1, 2], "yes 1140 STATIONS 5"),
        // z needs no time; 15 arrives at 29:00 by a leg that runs on the 7th.
        ([15, 3, 7], [7, 1, 7], "short -1320 STATIONS 0"),
        ([15, 3, 6], [7, 1, 7], "from does not run"),
        ([15, 3, 7], [7, 1, 8], "14"),
        ([0, 5, 1], [7, 1, 2], "yes 1140 STATIONS 0"),
        ([14, 2, 1], [7, 1, 2], "yes 360 STATIONS 0"),
    ]);
}

#[test]
fn changes_that_are_refused() {
    ask_all(&[
        ([0, 2, 1], [14, 1, 1], "stations differ"),
        ([0, 1, 1], [12, 1, 1], "13"),
        ([0, 6, 1], [12, 1, 1], "13"),
        ([0, 2, 1], [12, 2, 1], "13"),
        ([0, 2, 1], [12, 0, 1], "13"),
        ([1, 2, 1], [12, 1, 1], "12"),
        ([0, 2, 1], [1, 1, 1], "12"),
        ([0, 2, 0], [12, 1, 1], "14"),
        ([0, 2, 1], [12, 1, 8], "14"),
        ([0, 2, 8], [1, 1, 1], "14"),
    ]);
}
