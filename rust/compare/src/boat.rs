//! The boat over the change of the clocks: it leaves on Saturday and lands on
//! Sunday, after the hour has shifted. What both programs must answer is worked
//! out by hand.

use std::io;

use compare::answers::{Answer, Answered, Lent};
use compare::{by_second, lengths_of};
use deliveries::questions::Side;
use deliveries::{Case, Question, FILES};
use proved::{Change, LocalMinutes, Reason, ReferenceMinutes, Source, StopTimes, Time, Verdict};

use crate::comparison::{shown, Comparison};
use crate::sheets::Known;

/// 25 to 31 March 2015, Wednesday to Tuesday.
const FIRST_LINE: &str = "@100,25032015,31032015,0001,The night boat                \n";
const ROOM: usize = 80;
const ACCEPTED: &str = "accepted 7 8";

/// On the 29th, a Sunday, the clocks of home and pier go an hour ahead. The quay
/// has none after the 28th.
const ZONES: &str = "\
#0001
+01,01012015,28032015
+02,29032015,31122015
#0002
+01,01012015,28032015
";

/// The needed times are 5, 30 and 0 minutes.
const STATIONS: &str = "\
1,home   ,05,00,NL  ,0001,00,000000,000000,Home                          
1,pier   ,30,00,NL  ,0001,00,000000,000000,Pier                          
1,quay   ,00,00,NL  ,0002,00,000000,000000,Quay                          
";

/// The stops of services 1, 2, ..: the boat; a train from the pier; a call over
/// midnight; a departure after it; days counted on; the quay, before and after
/// midnight, with both times and with one; departures from it.
const STOPS: [&str; 8] = [
    ">home   ,2200\n<pier   ,3100\n",
    ">pier   ,0730\n<home   ,0900\n",
    ">home   ,2000\n+pier   ,2350,2410\n<home   ,3000\n",
    ">pier   ,2430\n<home   ,3000\n",
    ">home   ,0000\n.pier   ,2359\n.pier   ,2400\n.pier   ,9559\n.pier   ,9600\n<pier   ,9959\n",
    ">home   ,2000\n.quay   ,2359\n.quay   ,2400\n+quay   ,2350,2410\n+quay   ,2350,9999\n+quay   ,9999,2410\n<quay   ,3100\n",
    ">quay   ,2400\n<home   ,3000\n",
    ">quay   ,2359\n<home   ,3000\n",
];

/// Service, stop, day of March; arrival local and by the reference clock,
/// departure likewise.
type StopAsked = (u64, u64, u64, Result<[Option<(i32, i32)>; 2], u64>);

const AT_STOPS: &[StopAsked] = &[
    (1, 1, 28, Ok([None, Some((1320, 1260))])),
    // By the service day's period it would be 1800.
    (1, 2, 28, Ok([Some((1860, 1740)), None])),
    (1, 2, 27, Ok([Some((1860, 1800)), None])),
    (1, 1, 29, Ok([None, Some((1320, 1200))])),
    (2, 1, 28, Ok([None, Some((450, 390))])),
    (2, 1, 29, Ok([None, Some((450, 330))])),
    (3, 2, 27, Ok([Some((1430, 1370)), Some((1450, 1390))])),
    // The clocks go ahead in between: it leaves before it arrives.
    (3, 2, 28, Ok([Some((1430, 1370)), Some((1450, 1330))])),
    (3, 2, 29, Ok([Some((1430, 1310)), Some((1450, 1330))])),
    (5, 2, 28, Ok([Some((1439, 1379)), Some((1439, 1379))])),
    (5, 3, 28, Ok([Some((1440, 1320)), Some((1440, 1320))])),
    (5, 4, 25, Ok([Some((5759, 5699)), Some((5759, 5699))])),
    (5, 5, 25, Ok([Some((5760, 5640)), Some((5760, 5640))])),
    (5, 6, 25, Ok([Some((5999, 5879)), None])),
    (6, 2, 28, Ok([Some((1439, 1379)), Some((1439, 1379))])),
    (6, 3, 28, Err(15)),
    (6, 3, 27, Ok([Some((1440, 1380)), Some((1440, 1380))])),
    // The departure is on a day without a period; where there is none, nothing is
    // asked of that day.
    (6, 4, 28, Err(15)),
    (6, 4, 27, Ok([Some((1430, 1370)), Some((1450, 1390))])),
    (6, 5, 28, Ok([Some((1430, 1370)), None])),
    (6, 6, 28, Err(15)),
    (6, 6, 27, Ok([None, Some((1450, 1390))])),
    (6, 7, 27, Ok([Some((1860, 1800)), None])),
    (6, 7, 28, Err(15)),
    (7, 1, 28, Err(15)),
    (7, 2, 28, Ok([Some((1800, 1680)), None])),
    (8, 1, 28, Ok([None, Some((1439, 1379))])),
    (8, 1, 29, Err(15)),
];

/// Service, stop and day of March for both sides; gap, and the needed time by
/// STATIONS.
type ChangeAsked = ([u64; 3], [u64; 3], Result<(Verdict, i32, u64), u64>);

const TOO_SHORT: Verdict = Verdict::No(Reason::GapTooShort);

const BETWEEN: &[ChangeAsked] = &[
    // 330 + 1440 - 1740; by the service day's period it would be -30.
    ([1, 2, 28], [2, 1, 29], Ok((Verdict::Yes, 30, 30))),
    ([1, 2, 27], [2, 1, 28], Ok((Verdict::Yes, 30, 30))),
    ([1, 2, 28], [2, 1, 28], Ok((TOO_SHORT, -1350, 30))),
    // 1350 - 1370, and a day before 1410 - 1370.
    ([3, 2, 28], [4, 1, 28], Ok((TOO_SHORT, -20, 30))),
    ([3, 2, 27], [4, 1, 27], Ok((Verdict::Yes, 40, 30))),
    ([6, 2, 28], [8, 1, 28], Ok((Verdict::Yes, 0, 0))),
    // B leaves on a day without a period; A arrives on one; both.
    ([6, 2, 28], [7, 1, 28], Err(15)),
    ([6, 2, 27], [7, 1, 27], Ok((Verdict::Yes, 1, 0))),
    ([6, 3, 28], [8, 1, 28], Err(15)),
    ([6, 3, 27], [8, 1, 28], Ok((Verdict::Yes, 1439, 0))),
    ([6, 7, 28], [7, 1, 28], Err(15)),
];

/// Loads the delivery and asks all; answers what is wrong.
pub fn compare_all(comparison: &mut Comparison) -> io::Result<Vec<String>> {
    let case = case();
    let lengths = lengths_of(&case.rooms);
    let loaded = comparison.compare("boat", case.texts(), lengths)?;
    if shown(loaded) != ACCEPTED {
        return Ok(vec![format!("boat is `{}`, not `{ACCEPTED}`.", shown(loaded))]);
    }
    let tables = by_second(case.texts(), &lengths).tables;
    let examined = comparison.compare_soundness("boat-tables", &tables)?;
    let lent = Lent::new(&tables, case.texts());
    let mut complaints = Vec::new();
    for (name, question, expected) in asked() {
        let answered = comparison.compare_answers(&name, &question, lent, &examined)?;
        if answered != expected {
            complaints.push(format!("{name} is {answered:?}, not {expected:?}."));
        }
    }
    Ok(complaints)
}

/// The changes on one sheet.
pub fn known() -> Known {
    let case = case();
    let tables = by_second(case.texts(), &lengths_of(&case.rooms)).tables;
    let change = |(_, question, expected)| match question {
        Question::Change { from, to } => Some(((from, to), expected)),
        _ => None,
    };
    let (changes, answers) = asked().filter_map(change).unzip();
    Known { name: "boat".into(), tables, changes, answers }
}

fn case() -> Case {
    Case { files: files(), rooms: [ROOM; FILES] }
}

fn asked() -> impl Iterator<Item = (String, Question, Answered)> {
    let stops = AT_STOPS.iter().map(|&(service, stop, day, expected)| {
        let question = Question::StopTime { service, stop, date: march(day) };
        let station = packed(station_of(service, stop));
        let expected = expected.map(|[arrival, departure]| {
            Answer::StopTimes(StopTimes {
                station,
                arrival: arrival.map(time),
                departure: departure.map(time),
            })
        });
        (format!("boat-stop-{service}-{stop}-{day}"), question, expected)
    });
    let changes = BETWEEN.iter().map(|&(from, to, expected)| {
        let side = |[service, stop, day]: [u64; 3]| Side { service, stop, date: march(day) };
        let question = Question::Change { from: side(from), to: side(to) };
        let expected = expected.map(|(verdict, gap, needed)| {
            Answer::Change(Change {
                verdict,
                gap: Some(gap),
                source: Some(Source::Stations),
                needed: Some(needed),
            })
        });
        let name = [from, to].as_flattened().iter().map(u64::to_string).collect::<Vec<_>>().join("-");
        (format!("boat-change-{name}"), question, expected)
    });
    stops.chain(changes)
}

fn march(day: u64) -> u64 {
    day * 1_000_000 + 32_015
}

fn time((local, reference): (i32, i32)) -> Time {
    Time { local: LocalMinutes(local), reference: ReferenceMinutes(reference) }
}

/// The short name in a stop's line.
fn station_of(service: u64, stop: u64) -> &'static str {
    let line = STOPS[service as usize - 1].lines().nth(stop as usize - 1).expect("a stop of the service");
    &line[1..8]
}

fn packed(short_name: &str) -> u64 {
    short_name.bytes().fold(0, |word, byte| word << 8 | u64::from(byte))
}

fn files() -> [Vec<u8>; FILES] {
    let company = format!("100,{:10},{:30},0400\n", "BOATS", "Boats and trains");
    let country = format!("NL  ,1,{:30}\n", "Nederland");
    let mode = format!("SHIP,{:30}\n", "Ferry");
    let footnote = "#00000\n1111111\n";
    let timetable: String = STOPS.iter().zip(1..).map(|(stops, number)| block(number, stops)).collect();
    let rows = ["", &company, &country, &mode, ZONES, STATIONS, footnote, &timetable];
    let mut files: [Vec<u8>; FILES] = Default::default();
    // The last three files are absent.
    for (file, rows) in files.iter_mut().zip(rows) {
        *file = (FIRST_LINE.to_string() + rows).replace('\n', "\r\n").into_bytes();
    }
    files
}

/// A service that runs every day.
fn block(number: u64, stops: &str) -> String {
    format!("#{number:08}\n%100,00001,       ,000,999,{:30}\n-00000,000,999\n&SHIP,000,999\n{stops}", "")
}
