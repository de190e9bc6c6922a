//! Every command end to end: exit status, text and JSON.

mod common;

use std::ffi::OsStr;
use std::fs;
use std::path::Path;

use common::*;
use serde_json::json;

#[test]
fn a_delivery_is_checked() {
    line("check {}", &[&example()]).is(0, "Accepted: 364 days, 13 Dec 2015 to 10 Dec 2016; 6 services.\n");
    let said = line("check {} --json", &[&example()]);
    assert_eq!((said.status, said.out.as_str()), (Some(0), "{\"accepted\":{\"days\":364,\"services\":6}}\n"));
    assert_eq!(said.err, "");
}

/// The whole text of a refusal, and its JSON.
#[test]
fn a_refusal_is_told_in_words() {
    let folder = folder("refusal");
    copy(&example(), &folder);
    let timetable = fs::read(folder.join("TIMETBLS")).unwrap();
    fs::write(folder.join("TIMETBLS"), with(&timetable, "<HAR    ,3030", "<HAX    ,3030")).unwrap();
    let said = line("check {}", &[&folder]);
    let expected = "\
Refused 9: what is named is not in its own file
  where     TIMETBLS, line 7 (block 1, service 00000001, line 6 of the block)
            <HAX    ,3030
             ^^^^^^^
  found     station \"HAX    \", which STATIONS does not have
  expected  a station that STATIONS has in columns 3-9
  to do     STATIONS has HAR: is that meant? Correct the line, or have station \"HAX    \" added to STATIONS.
";
    assert_eq!((said.status, said.out.as_str(), said.err.as_str()), (Some(1), expected, ""));
    let said = line("check {} --json", &[&folder]);
    assert_eq!(said.status, Some(1));
    let refused = &said.json()["refused"];
    let place = json!([9, "TIMETBLS", 1, 6, 7, "00000001", [2, 8], "station", "<HAX    ,3030"]);
    let keys = ["number", "file", "ordinal", "line", "file_line", "service", "columns", "field", "text"];
    assert_eq!(json!(keys.map(|key| refused[key].clone())), place);
    for key in ["meaning", "found", "expected", "advice"] {
        assert!(refused[key].is_string(), "{said:#?}");
    }
    let store = folder.join("store");
    line("open {} {}", &[&folder, &store]).is(1, "No store was made");
    assert!(!store.exists());
}

#[test]
fn files_are_found_and_missed() {
    let folder = folder("found");
    let missing = folder.join("nothing here");
    line("check {}", &[&missing]).is(2, "it is not there. Is the name spelt right?");
    let said = line("check {} --json", &[&missing]);
    assert!(said.status == Some(2) && said.json()["error"].is_string());
    line("check {}", &[&folder]).is(1, "Refused 3: a needed file is absent\n  where     DELIVERY");
    line("check {}", &[&example().join("DELIVERY")]).is(2, "is a file. Give the folder");
}

#[test]
fn changes_are_answered() {
    let folder = folder("changes");
    let store = opened(&folder);
    let unsettled = "\
Unsettled: the needed time is 99, the highest number its two columns can hold: the real time may be longer. Gap 130. Ask the supplier before selling.
  leave   service 00000001 at stop 2, HAR Harwich International: arrives 06:30 on Tue 15 Dec 2015 (30:30 of service day 14 Dec 2015)
  board   service 00000003 at stop 1, HAR Harwich International: departs 08:40 on Tue 15 Dec 2015
  gap     130 minutes (2 h 10)
  needed  99 minutes (1 h 39), by STATIONS
";
    let said = line("change {} 1 2 14122015 3 1 2015-12-15", &[&store]);
    assert_eq!((said.status, said.out.as_str(), said.err.as_str()), (Some(4), unsettled, ""));
    let said = line("change {} 1 2 14122015 3 1 15122015 --json", &[&store]);
    let expected = "{\"change\":\"unsettled\",\"gap\":130,\"source\":\"stations\",\"needed\":99,\"from\":{\"station\":\"HAR    \",\"name\":\"Harwich International\",\"local\":1830,\"date\":\"15122015\"},\"to\":{\"station\":\"HAR    \",\"name\":\"Harwich International\",\"local\":520,\"date\":\"15122015\"}}\n";
    assert_eq!((said.status, said.out.as_str()), (Some(4), expected));

    let ask = |words: &str| line(&format!("change {{}} {words}"), &[&store]);
    ask("5 3 14122015 1 1 14122015")
        .is(0, "Yes: the change can be sold.")
        .is(0, "needed  0 minutes, by CHANGES");
    ask("2 2 14122015 6 1 15122015").is(3, "No: the gap of 37 is below the needed time of 45.");
    ask("2 2 14122015 6 1 14122015").is(3, "No: the second service has left 1403 minutes (23 h 23) before");
    ask("1 2 14122015 1 1 14122015").is(3, "No: it is the same service on the same date.");
    ask("1 2 25122015 3 1 26122015").is(3, "No: service 00000001 does not run to stop 2 on 25 Dec 2015.");
    ask("3 4 18122015 4 1 19122015").is(3, "No: service 00000004 does not run from stop 1 on 19 Dec 2015.");
    ask("1 2 14122015 5 1 15122015").is(3, "No: the stations differ: HAR Harwich International and RTD");
    ask("3 3 14122015 4 2 14122015").is(3, "No: nobody may board service 00000004 at COL Colchester.");
    ask("9 2 14122015 3 1 15122015").is(1, "service 00000009 (the one to leave)");
    ask("1 1 14122015 3 1 15122015").is(1, "a stop from 2 to 2: one alights at stop 2 and later");
    ask("1 2 14122015 3 4 15122015").is(1, "a stop from 1 to 3: one boards before the last stop");
    ask("1 2 14122014 3 1 15122015")
        .is(1, "14 Dec 2014 (the one to leave), which is outside the delivery's validity");
    ask("1 2 14122015 3 1 31022016").is(1, "31022016 (the one to board), which no calendar has");
    let words = ["change", "5", "3", "5 Jan 2016", "1", "1", "5 jan 2016"].map(OsStr::new);
    run([words[0], store.as_os_str()].into_iter().chain(words[1..].iter().copied()))
        .is(0, "21:12 on Tue 5 Jan 2016");
}

/// 999 of XCHANGES is at the top of its three columns, 099 is not.
#[test]
fn exceptions_may_be_unsettled() {
    let folder = folder("exceptions");
    let delivery = folder.join("delivery");
    for (time, status, told) in
        [("999", 4, "the highest number its three columns can hold"), ("099", 0, "needed  99 minutes")]
    {
        copy(&example(), &delivery);
        let text = fs::read(delivery.join("XCHANGES")).unwrap();
        fs::write(delivery.join("XCHANGES"), with(&text, ",045,", &format!(",{time},"))).unwrap();
        let store = folder.join(time);
        line("open {} {}", &[&delivery, &store]).is(0, "Accepted");
        line("change {} 2 2 14122015 6 1 16122015", &[&store]).is(status, told).is(status, "by XCHANGES");
    }
}

/// The card as the desk has it.
const CARD: [&str; 16] = [
    " 0  ****  names nothing",
    " 1  ***m  names the to mode",
    " 2  **c*  names the to company",
    " 3  **cm  names the to company and the to mode",
    " 4  *m**  names the from mode",
    " 5  *m*m  names the from mode and the to mode",
    " 6  *mc*  names the from mode and the to company",
    " 7  *mcm  names the from mode, the to company and the to mode",
    " 8  c***  names the from company",
    " 9  c**m  names the from company and the to mode",
    "10  c*c*  names the from company and the to company",
    "11  c*cm  names the from company, the to company and the to mode",
    "12  cm**  names the from company and the from mode",
    "13  cm*m  names the from company, the from mode and the to mode",
    "14  cmc*  names the from company, the from mode and the to company",
    "15  cmcm  names the from company, the from mode, the to company and the to mode",
];

#[test]
fn the_card_is_shown() {
    let expected = format!(
        "\
The desk's card: which exception of XCHANGES counts before which
A pattern tells from company, from mode, to company, to mode: c and m are named, * is any.
From is the service that one leaves, on the leg before the change; to is the one boarded, on the leg after it.

{}

Of the exceptions that apply to a change, the one with the highest place counts, whatever the times; with the same place, the one with the larger time.
",
        CARD.join("\n")
    );
    let said = run(["card"]);
    assert_eq!((said.status, said.out.as_str(), said.err.as_str()), (Some(0), expected.as_str(), ""));
    let said = run(["card", "--json"]);
    assert_eq!((said.status, said.out.lines().count()), (Some(0), 1));
    let told = said.json();
    let entries = told["card"].as_array().unwrap();
    assert_eq!(entries.len(), 16);
    for (place, (entry, line)) in entries.iter().zip(CARD).enumerate() {
        let (pattern, meaning) = (&line[4..8], &line[10..]);
        let named = |at: usize| !pattern[at..].starts_with('*');
        let expected = json!({
            "place": place,
            "pattern": pattern,
            "from_company": named(0),
            "from_mode": named(1),
            "to_company": named(2),
            "to_mode": named(3),
            "meaning": meaning,
        });
        assert_eq!(*entry, expected);
    }
    assert!(told["rule"].as_str().unwrap().contains("highest place counts"));
    run(["card", "store"]).is(2, "Usage: calyxcabin card");
}

/// docs/CARD.md has the same sixteen lines, each of them once, and a change as it is
/// answered.
#[test]
fn the_card_in_the_documents_is_the_programs() {
    let page = Path::new(env!("CARGO_MANIFEST_DIR")).join("../../docs/CARD.md");
    let page = fs::read_to_string(page).unwrap();
    let lines_of = |text: &str| -> Vec<String> {
        let is_entry = |line: &&str| {
            let mut words = line.split_whitespace();
            words.next().is_some_and(|word| word.bytes().all(|byte| byte.is_ascii_digit()))
                && words
                    .next()
                    .is_some_and(|word| word.len() == 4 && word.chars().all(|letter| "cm*".contains(letter)))
        };
        text.lines().filter(is_entry).map(String::from).collect()
    };
    let shown = lines_of(&run(["card"]).out);
    assert_eq!(shown.len(), 16);
    assert_eq!(lines_of(&page), shown);
    // The supplier's question is answered as the page has it.
    let folder = folder("supplier");
    let said = line("change {} 2 2 2015-12-14 6 1 2015-12-15", &[&opened(&folder)]);
    assert!(page.contains(&said.out), "{said:#?}");
}

/// From the boat (100, SHIP) to a Sprinter (200, SPR) two exceptions apply.
#[test]
fn exceptions_are_told_with_their_places() {
    let folder = folder("places");
    let store = opened(&folder);
    let ask_for = |words: &str| line(&format!("change {{}} {words}"), &[&store]);
    let no = "\
No: the gap of 37 is below the needed time of 45.
  leave   service 00000002 at stop 2, HVH Hoek van Holland Haven: arrives 08:00 on Tue 15 Dec 2015 (32:00 of service day 14 Dec 2015)
  board   service 00000006 at stop 1, HVH Hoek van Holland Haven: departs 08:37 on Tue 15 Dec 2015
  gap     37 minutes
  needed  45 minutes, by XCHANGES
  card    place 14 counts before place 3, whatever the times:
          line 3  100,SHIP,200,*   ,045,00001  place 14 (cmc*)  45 minutes, which counts
          line 4  *  ,*   ,200,SPR ,020,00001  place  3 (**cm)  20 minutes
";
    let said = ask_for("2 2 14122015 6 1 15122015");
    assert_eq!((said.status, said.out.as_str(), said.err.as_str()), (Some(3), no, ""));
    let boat = json!({
        "line": 3, "from_company": "100", "from_mode": "SHIP", "to_company": "200", "to_mode": "*   ",
        "time": 45, "footnote": 1, "pattern": "cmc*", "place": 14, "counts": true,
    });
    let sprinter = json!({
        "line": 4, "from_company": "*  ", "from_mode": "*   ", "to_company": "200", "to_mode": "SPR ",
        "time": 20, "footnote": 1, "pattern": "**cm", "place": 3, "counts": false,
    });
    let told = ask_for("2 2 14122015 6 1 15122015 --json").json();
    assert_eq!(told["exceptions"], json!([boat, sprinter]));
    assert_eq!(told["because"], json!("higher-place"));
    assert_eq!([&told["change"], &told["needed"], &told["gap"]], [&json!("no"), &json!(45), &json!(37)]);
    let asked = answers(&ask(&store, "change 2 2 14122015 6 1 15122015\nchange 1 2 14122015 3 1 15122015\n"));
    let expected = json!({
        "change": "no", "reason": "gap-below-needed", "gap": 37, "source": "xchanges", "needed": 45,
        "exceptions": [boat, sprinter], "because": "higher-place",
    });
    assert_eq!(asked[0], expected);
    // A Yes is told likewise; from a Sprinter to a Sprinter one exception applies.
    ask_for("2 2 14122015 6 1 16122015").is(0, "counts before place 3, whatever the times:\n");
    ask_for("5 3 14122015 6 1 15122015").is(
        0,
        "  needed  20 minutes, by XCHANGES
  card    only one exception applies:
          line 4  *  ,*   ,200,SPR ,020,00001  place  3 (**cm)  20 minutes, which counts
",
    );
    // What does not rest on XCHANGES has no reason beside it.
    for words in ["1 2 14122015 3 1 15122015", "5 3 14122015 1 1 14122015", "1 2 14122015 5 1 15122015"] {
        assert!(!ask_for(words).out.contains("  card  "));
        let told = ask_for(&format!("{words} --json")).json();
        assert!(told.get("exceptions").is_none() && told.get("because").is_none(), "{told}");
    }
    assert!(asked[1].get("exceptions").is_none() && asked[1].get("because").is_none());
}

/// With the same place the larger time counts, and 999 is one.
#[test]
fn exceptions_of_one_place_are_told() {
    let folder = folder("one place");
    let delivery = folder.join("delivery");
    copy(&example(), &delivery);
    let text = fs::read(delivery.join("XFOOTNOTE")).unwrap();
    let vector = String::from_utf8(text.clone()).unwrap().lines().nth(2).unwrap().to_string();
    fs::write(delivery.join("XFOOTNOTE"), [&text[..], b"#00002\r\n", vector.as_bytes(), b"\r\n"].concat())
        .unwrap();
    let text = fs::read(delivery.join("XCHANGES")).unwrap();
    fs::write(delivery.join("XCHANGES"), [&text[..], b"-100,SHIP,200,*   ,999,00002\r\n"].concat()).unwrap();
    let store = folder.join("store");
    line("open {} {}", &[&delivery, &store]).is(0, "Accepted");
    let why = "  needed  999 minutes (16 h 39), by XCHANGES
  card    lines 3 and 5 have the same place 14, the highest, and the larger time counts:
          line 5  100,SHIP,200,*   ,999,00002  place 14 (cmc*)  999 minutes (16 h 39), which counts
          line 3  100,SHIP,200,*   ,045,00001  place 14 (cmc*)  45 minutes
          line 4  *  ,*   ,200,SPR ,020,00001  place  3 (**cm)  20 minutes
";
    let said = line("change {} 2 2 14122015 6 1 16122015", &[&store]);
    said.is(4, "Unsettled").is(4, why);
    let told = line("change {} 2 2 14122015 6 1 16122015 --json", &[&store]).json();
    assert_eq!(told["because"], json!("larger-time"));
    let lines: Vec<&serde_json::Value> =
        told["exceptions"].as_array().unwrap().iter().map(|row| &row["line"]).collect();
    assert_eq!(json!(lines), json!([5, 3, 4]));
}

#[test]
fn questions_are_answered() {
    let folder = folder("questions");
    let store = opened(&folder);
    let ask = |words: &str| {
        let (command, rest) = words.split_once(' ').unwrap();
        line(&format!("{command} {{}} {rest}"), &[&store])
    };
    ask("runs 1 1 14122015")
        .is(0, "Service 00000001 runs on 14 Dec 2015 on leg 1, from HVH Hoek van Holland Haven to HAR");
    ask("runs 1 1 25122015").is(0, "Service 00000001 does not run on 25 Dec 2015");
    assert_eq!(ask("runs 1 1 25122015 --json").out, "{\"runs\":false}\n");
    ask("runs 1 2 14122015").is(1, "a leg from 1 to 1");
    ask("runs 1 1 99999999999999999999999999").is(1, "Refused 14");
    ask("stop 1 2 14122015")
        .is(
            0,
            "arrives  06:30 on Tue 15 Dec 2015 (30:30 of service day 14 Dec 2015), reference clock 06:30\n",
        )
        .is(0, "departs  it ends here");
    ask("stop 4 2 14122015").is(0, "departs  nobody boards");
    ask("stop 1 1 1072016").is(0, "departs  22:00 on Fri 1 Jul 2016, reference clock 20:00\n");
    let stop = "{\"station\":\"HAR    \",\"arrival\":{\"local\":1830,\"reference\":1830,\"date\":\"15122015\"},\"departure\":null,\"name\":\"Harwich International\"}\n";
    assert_eq!(ask("stop 1 2 14122015 --json").out, stop);
    ask("stop 1 3 14122015").is(1, "a stop from 1 to 2");

    let service = "\
Service 00000004, 3 stops
  number 902 of company 300 Greater Anglia
  mode IC Intercity
  runs on 260 days from 13 Dec 2015 to 10 Dec 2016 (footnote 00002); does not run on 19 Dec 2015

  stop  station                      arrives                   departs
     1  LST London Liverpool Street                            19:32 on Sat 19 Dec 2015  board
     2  COL Colchester               20:28 on Sat 19 Dec 2015                            alight only
        MNG Manningtree                                                                  passes without a stop
     3  HAR Harwich International    20:58 on Sat 19 Dec 2015                            alight
";
    assert_eq!(ask("service 4 2015-12-19").out, service);
    let stops = "
  stop  station                     arrives                      departs
     1  HVH Hoek van Holland Haven                               22:00    board
     2  HAR Harwich International   06:30 the day after (30:30)           alight
";
    ask("service 1").is(0, stops);
    ask("service 1 14122014").is(1, "Refused 14");
    ask("service 7").is(1, "one of the delivery's 6 services, numbered from 00000001 to 00000006");
    let shown = ask("service 4 19122015 --json").json();
    assert_eq!(
        shown["stops"][1],
        json!({"stop":2,"station":"COL    ","name":"Colchester","arrival":1228,"departure":null,"arrival_date":"19122015","alight":true,"board":false})
    );
    assert_eq!(shown["validities"], json!([{"footnote":2,"first":1,"last":3,"days":260,"runs":false}]));

    ask("station HAR")
        .is(0, "HAR Harwich International\n")
        .is(0, "change time 99, the highest number")
        .is(0, "calls        4");
    ask("station HAR").is(0, "service 00000001, stop   2: arrives 06:30 the day after (30:30)\n");
    ask("station MNG").is(0, "none are made here (flag 0)");
    ask("station har").is(1, "Refused 17").is(1, "STATIONS has HAR: is that meant?");
    let shown = ask("station LST --json").json();
    assert_eq!(
        (&shown["name"], &shown["calls"][1]["service"]),
        (&json!("London Liverpool Street"), &json!(4))
    );

    let lines = block(&store, 1);
    assert!(lines.starts_with(b"#00000001\r\n") && lines.ends_with(b"<HAR    ,3030\r\n"));
    assert_eq!(ask("lines 1 --json").json()["lines"].as_str().unwrap().as_bytes(), lines);
    ask("lines 7").is(1, "Refused 12");
    line("runs {} 1 1 1", &[&example()]).is(2, "is a delivery and no store. First: calyxcabin open");
    line("runs {} 1 1 1", &[&folder]).is(2, "is no store, or its `open` was not finished");
}

/// On Sunday 27 March 2016 the clocks go an hour ahead, while the night boat of
/// Saturday is at sea.
#[test]
fn the_clocks_change_at_sea() {
    let folder = folder("clocks");
    let store = opened(&folder);
    let ask = |words: &str| {
        let (command, rest) = words.split_once(' ').unwrap();
        line(&format!("{command} {{}} {rest}"), &[&store])
    };
    let landing = "\
HAR Harwich International (stop 2 of 2 of service 00000001)
  arrives  06:30 on Sun 27 Mar 2016 (30:30 of service day 26 Mar 2016), reference clock 05:30
  departs  it ends here
";
    assert_eq!(ask("stop 1 2 26032016").out, landing);
    ask("stop 1 2 25032016")
        .is(0, "06:30 on Sat 26 Mar 2016 (30:30 of service day 25 Mar 2016), reference clock 06:30\n");
    ask("stop 1 1 26032016").is(0, "departs  22:00 on Sat 26 Mar 2016, reference clock 21:00\n");
    let stop = "{\"station\":\"HAR    \",\"arrival\":{\"local\":1830,\"reference\":1770,\"date\":\"27032016\"},\"departure\":null,\"name\":\"Harwich International\"}\n";
    assert_eq!(ask("stop 1 2 26032016 --json").out, stop);
    // 460 + 1440 - 1770: by the clocks of Saturday it would be 70, and No.
    let unsettled = "\
Unsettled: the needed time is 99, the highest number its two columns can hold: the real time may be longer. Gap 130. Ask the supplier before selling.
  leave   service 00000001 at stop 2, HAR Harwich International: arrives 06:30 on Sun 27 Mar 2016 (30:30 of service day 26 Mar 2016)
  board   service 00000003 at stop 1, HAR Harwich International: departs 08:40 on Sun 27 Mar 2016
  gap     130 minutes (2 h 10)
  needed  99 minutes (1 h 39), by STATIONS
";
    assert_eq!(ask("change 1 2 26032016 3 1 27032016").out, unsettled);
    // 460 + 2 * 1440 - 1830, where the clocks show 520 + 2 * 1440 - 1830.
    let apart = "  gap     1510 minutes (25 h 10); by the station's clocks 1570 minutes (26 h 10): they change in between\n";
    ask("change 1 2 25032016 3 1 27032016").is(4, apart);
    let told = ask("change 1 2 26032016 3 1 27032016 --json").json();
    assert_eq!([&told["from"]["local"], &told["from"]["date"]], [&json!(1830), &json!("27032016")]);
    assert_eq!([&told["to"]["local"], &told["to"]["date"]], [&json!(520), &json!("27032016")]);
    let stops = "
  stop  station                     arrives                           departs
     1  HVH Hoek van Holland Haven                                    22:00 on Sat 26 Mar 2016  board
     2  HAR Harwich International   06:30 on Sun 27 Mar 2016 (30:30)                            alight
";
    ask("service 1 26032016").is(0, stops);
    let told = ask("service 1 26032016 --json").json();
    let dates = [&told["stops"][0]["departure_date"], &told["stops"][1]["arrival_date"]];
    assert_eq!(dates, [&json!("26032016"), &json!("27032016")]);
    assert!(ask("service 1 --json").json()["stops"][1].get("arrival_date").is_none());
}

/// The zones of the example end with its validity, on 10 December 2016: the night
/// boat of that day lands on one without a period.
#[test]
fn a_day_without_a_period_is_named() {
    let folder = folder("no period");
    let store = opened(&folder);
    let ask = |words: &str| {
        let (command, rest) = words.split_once(' ').unwrap();
        line(&format!("{command} {{}} {rest}"), &[&store])
    };
    let refused = "\
Refused 15: the station's time zone has no period on that day
  found     Sun 11 Dec 2016 at HAR, in zone 0001: arrival of service 00000001 at 06:30, which is 30:30 of service day 10 Dec 2016
  expected  a day in 13 Dec 2015 to 26 Mar 2016, or 27 Mar 2016 to 29 Oct 2016, or 30 Oct 2016 to 10 Dec 2016
  to do     TIMEZONE lacks a period: ask the supplier for it.
";
    let said = ask("stop 1 2 10122016");
    assert_eq!((said.status, said.out.as_str()), (Some(1), refused));
    assert_eq!(ask("change 1 2 10122016 3 1 10122016").out, refused);
    let told = ask("stop 1 2 10122016 --json").json();
    assert_eq!(told["refused"]["number"], json!(15));
    assert!(told["refused"]["found"].as_str().unwrap().starts_with("Sun 11 Dec 2016 at HAR, in zone 0001"));
    ask("stop 1 1 10122016").is(0, "departs  22:00 on Sat 10 Dec 2016, reference clock 21:00\n");
    ask("stop 1 2 9122016").is(0, "06:30 on Sat 10 Dec 2016 (30:30 of service day 9 Dec 2016)");
    // The boat of the day before lands on a day with a period; the train leaves on
    // one without.
    let file = folder.join("block");
    fs::write(&file, with(&block(&store, 3), ">HAR    ,0840", ">HAR    ,3240")).unwrap();
    line("amend {} 3 {}", &[&store, &file]).is(0, "Accepted");
    ask("change 1 2 9122016 3 1 10122016").is(
        1,
        "found     Sun 11 Dec 2016 at HAR, in zone 0001: departure of service 00000003 at 08:40, which is 32:40 of service day 10 Dec 2016\n",
    );
}

/// After 31 December 9999 a day has no date.
#[test]
fn days_after_the_calendars_end_are_told() {
    let folder = folder("calendar");
    let delivery = folder.join("delivery");
    copy(&example(), &delivery);
    // 364 days again, the last of them the last of the calendar.
    let last_year = [
        ("13122015", "02019999"),
        ("26032016", "26039999"),
        ("27032016", "27039999"),
        ("29102016", "29109999"),
        ("30102016", "30109999"),
        ("10122016", "31129999"),
    ];
    for file in files(&delivery) {
        let mut text = String::from_utf8(fs::read(&file).unwrap()).unwrap();
        for (date, later) in last_year {
            text = text.replace(date, later);
        }
        fs::write(&file, text).unwrap();
    }
    let store = folder.join("store");
    line("open {} {}", &[&delivery, &store]).is(0, "Accepted: 364 days, 2 Jan 9999 to 31 Dec 9999");
    let ask = |words: &str| {
        let (command, rest) = words.split_once(' ').unwrap();
        line(&format!("{command} {{}} {rest}"), &[&store])
    };
    ask("stop 1 1 31129999").is(0, "departs  22:00 on Fri 31 Dec 9999, reference clock 21:00\n");
    ask("stop 1 2 30129999").is(0, "06:30 on Fri 31 Dec 9999 (30:30 of service day 30 Dec 9999)");
    ask("stop 1 2 31129999").is(
        1,
        "found     the day after 31 Dec 9999 at HAR, in zone 0001: arrival of service 00000001 at 06:30, which is 30:30 of service day 31 Dec 9999\n",
    );
    ask("change 1 2 31129999 1 1 31129999")
        .is(3, "arrives 06:30 the day after 31 Dec 9999 (30:30 of service day 31 Dec 9999)\n");
    let told = ask("change 1 2 31129999 1 1 31129999 --json").json();
    assert_eq!([&told["from"]["local"], &told["from"]["date"]], [&json!(1830), &json!(null)]);
    assert_eq!(told["to"]["date"], json!("31129999"));
    ask("service 1 31129999").is(0, "06:30 the day after 31 Dec 9999 (30:30)");
    assert!(ask("service 1 31129999 --json").json()["stops"][1].get("arrival_date").is_none());
}

#[test]
fn stores_are_made_and_amended() {
    let folder = folder("amended");
    let store = opened(&folder);
    line("open {} {}", &[&example(), &store])
        .is(2, "is a store already. Give another folder, or `--replace`");
    let held = block(&store, 1);
    let file = folder.join("block");
    let amend = |service: u64, block: &[u8]| {
        fs::write(&file, block).unwrap();
        line(&format!("amend {{}} {service} {{}}"), &[&store, &file])
    };
    let earlier = with(&held, ",2200", ",2130");
    amend(1, &earlier).is(0, "this is amendment 1").is(0, "room for 100 lines more in TIMETBLS");
    assert_eq!(block(&store, 1), earlier);
    line("change {} 5 3 14122015 1 1 14122015", &[&store]).is(0, "gap     18 minutes");
    amend(1, &with(&held, "HAR", "XYZ")).is(1, "Refused 9").is(1, "line 6 of the block");
    amend(1, &with(&held, "000,999", "001,003")).is(1, "Refused 10").is(1, "of a service with 2 stops");
    amend(1, &with(&held, "\r\n", "\n")).is(1, "Refused 11").is(1, "lines that end in LF alone");
    amend(2, &held).is(1, "Refused 11").is(1, "`#00000002` as the first line");
    amend(7, &with(&held, "#00000001", "#00000007")).is(1, "Refused 12");
    amend(1, b"").is(1, "an empty file");
    line("amend {} 1 {}", &[&store, &folder.join("none")]).is(2, "it is not there");
    line("amend {} 1 {}", &[&folder, &file]).is(2, "is no store");
    assert!(!folder.join("lock").exists());
    assert_eq!(block(&store, 1), earlier);
    // A hundred lines more than there were: just enough room, and one too many.
    let grown = with(&held, "<HAR", &format!("{}<HAR", ";HAR    \r\n".repeat(100)));
    let said = amend(1, &grown);
    said.is(0, "this is amendment 2").is(0, "room for 0 lines more");
    amend(2, &with(&block(&store, 2), "<HVH", ";HAR    \r\n<HVH")).is(1, "Refused 2").is(1, "--spare LINES");
    let said = line(
        "amend {} 1 {} --json",
        &[&store, &{
            fs::write(&file, &held).unwrap();
            file.clone()
        }],
    );
    assert_eq!(said.out, "{\"accepted\":{\"days\":364,\"services\":6},\"amendment\":3}\n");
    line("open {} {}", &[&example(), &store]).is(2, "is a store already, with 3 amendments.");
    line("open {} {} --replace --spare 7", &[&example(), &store]).is(0, "room for 7 lines more in TIMETBLS.");
    assert_eq!(block(&store, 1), held);
    assert_eq!(fs::read_dir(store.join("2/journal")).unwrap().count(), 0);
    assert!(!store.join("1").exists());
    line("open {} {}", &[&example(), &folder]).is(2, "has other files in it");
    line("open {} {}", &[&example(), &file]).is(2, "is a file. Give a folder for the store");
    line("open {} {}", &[&example(), &folder.join("a/b")])
        .is(2, "the folder it should stand in is not there");
}

/// Two clerks at once: both amendments are there, whoever came first.
#[test]
fn clerks_wait_for_each_other() {
    let folder = folder("clerks");
    let store = opened(&folder);
    let clerks: Vec<_> = (1..=6u64)
        .map(|service| {
            let (store, file) = (store.clone(), folder.join(service.to_string()));
            std::thread::spawn(move || {
                for round in 0..5 {
                    let held = block(&store, service);
                    fs::write(&file, with(&held, "#", "#")).unwrap();
                    line(&format!("amend {{}} {service} {{}}"), &[&store, &file]).is(0, "Accepted");
                    let _ = round;
                }
            })
        })
        .collect();
    clerks.into_iter().for_each(|clerk| clerk.join().unwrap());
    assert_eq!(fs::read_dir(store.join("1/journal")).unwrap().count(), 30);
    line("runs {} 1 1 14122015", &[&store]).is(0, "runs");
}

/// A long `ask` sees what others amend meanwhile.
#[test]
fn readers_see_amendments() {
    use std::io::{BufRead, BufReader, Write};
    use std::process::{Command, Stdio};
    let folder = folder("readers");
    let store = opened(&folder);
    let mut asking = Command::new(PROGRAM)
        .arg("ask")
        .arg(&store)
        .stdin(Stdio::piped())
        .stdout(Stdio::piped())
        .spawn()
        .unwrap();
    let (mut input, mut output) =
        (asking.stdin.take().unwrap(), BufReader::new(asking.stdout.take().unwrap()));
    // The answers of lines that are written together.
    let mut ask = |question: &str| {
        input.write_all(format!("{question}\n").as_bytes()).unwrap();
        let mut answers = String::new();
        for _ in question.lines() {
            output.read_line(&mut answers).unwrap();
        }
        answers
    };
    assert!(ask("stop 1 1 14122015").contains("\"local\":1320"));
    let file = folder.join("block");
    let amend = |old: &str, new: &str| {
        fs::write(&file, with(&block(&store, 1), old, new)).unwrap();
        line("amend {} 1 {}", &[&store, &file])
    };
    amend(",2200", ",2130").is(0, "amendment 1");
    assert!(ask("stop 1 1 14122015").contains("\"local\":1290"));
    line("open {} {} --replace", &[&example(), &store]).is(0, "Accepted");
    assert!(ask("stop 1 1 14122015").contains("\"local\":1320"));
    assert!(ask("name HVH").contains("Hoek van Holland Haven"));
    // So do changes that come together; the Sprinter arrives at 21:12.
    let changes = ["change 5 3 14122015 1 1 14122015"; 50].join("\n");
    for (old, new, gap) in [(",2200", ",2145", 33), (",2145", ",2130", 18)] {
        amend(old, new).is(0, "Accepted");
        let expected = format!("{{\"change\":\"yes\",\"gap\":{gap},\"source\":\"changes\",\"needed\":0}}\n");
        assert_eq!(ask(&changes), expected.repeat(50));
    }
    line("open {} {} --replace", &[&example(), &store]).is(0, "Accepted");
    assert!(ask(&changes).lines().all(|answer| answer.contains("\"gap\":48,")));
    drop(input);
    assert!(asking.wait().unwrap().success());
}

/// A thousand changes: where services meet, on days of rest and of changing clocks, and
/// of services, stops and dates that there are not.
fn a_thousand_changes() -> Vec<String> {
    const MEETINGS: [(u64, u64, u64, u64); 10] = [
        (1, 2, 3, 1),
        (2, 2, 6, 1),
        (5, 3, 1, 1),
        (4, 3, 2, 1),
        (3, 4, 4, 1),
        (6, 3, 5, 1),
        (3, 2, 3, 2),
        (9, 2, 3, 1),
        (1, 1, 3, 1),
        (2, 2, 6, 3),
    ];
    const DATES: [&str; 10] = [
        "13122015", "14122015", "15122015", "24122015", "25122015", "26032016", "27032016", "9122016",
        "10122016", "31022016",
    ];
    let change = |(&(from, left, to, boarded), days): (&(u64, u64, u64, u64), usize)| {
        format!("change {from} {left} {} {to} {boarded} {}", DATES[days / 10], DATES[days % 10])
    };
    MEETINGS.iter().flat_map(|meeting| (0..100).map(move |days| change((meeting, days)))).collect()
}

/// Changes that come together are answered by one call, and as one by one.
#[test]
fn a_thousand_changes_are_answered_as_one_by_one() {
    let folder = folder("thousand");
    let store = opened(&folder);
    let changes = a_thousand_changes();
    let said = ask(&store, &(changes.join("\n") + "\n"));
    assert_eq!((said.status, said.err.as_str()), (Some(0), ""));
    let lines: Vec<&str> = said.out.lines().collect();
    assert_eq!(lines.len(), 1000);
    let mut met = std::collections::BTreeMap::new();
    for (place, (change, told)) in changes.iter().zip(answers(&said)).enumerate() {
        let alone = line(&format!("{} --json", change.replace("change", "change {}")), &[&store]).json();
        let expected = match alone.get("refused") {
            Some(refused) => {
                let place = ["number", "file", "ordinal", "line"].map(|key| (key, refused[key].clone()));
                json!({"refused": place.into_iter().collect::<std::collections::BTreeMap<_, _>>()})
            }
            None => {
                let mut told = alone.clone();
                told.as_object_mut().unwrap().retain(|key, _| key != "from" && key != "to");
                told
            }
        };
        assert_eq!(told, expected, "{change}");
        let kind = [&told["change"], &told["reason"], &told["source"], &told["refused"]["number"]];
        *met.entry(json!(kind).to_string()).or_insert(0) += 1;
        // Byte by byte as a line that comes alone.
        if place % 10 == 0 {
            assert_eq!(ask(&store, change).out, format!("{}\n", lines[place]), "{change}");
        }
    }
    assert!(met.len() >= 12, "{met:#?}");
}

/// Changes among other lines: answers stand in the order of the lines, and an amendment
/// counts from its line on.
#[test]
fn changes_among_other_lines() {
    let folder = folder("among");
    let store = opened(&folder);
    let held = block(&store, 1);
    let [earlier, wrong, back] = ["earlier", "wrong", "back"].map(|name| folder.join(name));
    fs::write(&earlier, with(&held, ",2200", ",2130")).unwrap();
    fs::write(&wrong, with(&held, "HAR", "XYZ")).unwrap();
    fs::write(&back, &held).unwrap();
    let amend = |file: &Path| format!("amend 1 {}", file.display());
    // The Sprinter arrives at 21:12, the boat leaves at 22:00 or 21:30.
    let boat = "change 5 3 14122015 1 1 14122015";
    let leaves = |gap: u64| json!({"change": "yes", "gap": gap, "source": "changes", "needed": 0});
    let refused = |number: u64| json!({"number": number, "file": "", "ordinal": 0, "line": 0});
    let unsettled = json!({"change": "unsettled", "gap": 130, "source": "stations", "needed": 99});
    let stop = json!({
        "station": "HAR    ", "departure": null,
        "arrival": {"local": 1830, "reference": 1830, "date": "15122015"},
    });
    let accepted = json!({"accepted": {"days": 364, "services": 6}});
    let lines = [
        (boat.to_string(), leaves(48)),
        ("runs 1 1 25122015".into(), json!({"runs": false})),
        ("change 1 2 14122015 3 1 15122015".into(), unsettled.clone()),
        ("stop 1 2 14122015".into(), stop),
        ("change 9 2 14122015 3 1 15122015".into(), json!({"refused": refused(12)})),
        ("change 1 1 14122015 3 1 15122015".into(), json!({"refused": refused(13)})),
        ("change 1 2 14122014 3 1 15122015".into(), json!({"refused": refused(14)})),
        ("change 1 2 10122016 3 1 10122016".into(), json!({"refused": refused(15)})),
        ("runs 1 1 14122015".into(), json!({"runs": true})),
        (amend(&earlier), accepted.clone()),
        (boat.into(), leaves(18)),
        ("name HVH".into(), json!({"name": "Hoek van Holland Haven        "})),
        (boat.into(), leaves(18)),
        (amend(&wrong), json!({"refused": {"number": 9, "file": "TIMETBLS", "ordinal": 1, "line": 6}})),
        (boat.into(), leaves(18)),
        ("runs 9 1 14122015".into(), json!({"refused": refused(12)})),
        (amend(&back), accepted),
        (boat.into(), leaves(48)),
        ("change 1 2 14122015 3 1 15122015".into(), unsettled),
    ];
    // Lines that are no questions stand between any two of them.
    let input: String = lines.iter().map(|(line, _)| format!("{line}\nchange 1 2 3\n")).collect();
    let said = ask(&store, &input);
    assert_eq!((said.status, said.err.as_str()), (Some(0), ""));
    let answers = answers(&said);
    assert_eq!(answers.len(), 2 * lines.len());
    for (place, (line, expected)) in lines.iter().enumerate() {
        assert_eq!(answers[2 * place], *expected, "{line}");
        let error = answers[2 * place + 1]["error"].as_str().unwrap();
        assert!(error.starts_with("`change 1 2 3` is no question: write runs S L D"), "{error}");
    }
    // So do many of them that each test soundness by itself.
    let many: String = (0..200).map(|_| format!("runs 1 1 25122015\n{boat}\nstop 9 1 1\n")).collect();
    let told = self::answers(&ask(&store, &many));
    let three = [json!({"runs": false}), leaves(48), json!({"refused": refused(12)})];
    assert!(told.len() == 600 && told.chunks(3).all(|told| *told == three), "{told:?}");
}

#[test]
fn help_and_spelling() {
    for command in [
        "check",
        "open",
        "change",
        "runs",
        "stop",
        "service",
        "station",
        "sheet",
        "lines",
        "amend",
        "card",
        "ask",
        "completions",
    ] {
        run([command, "--help"]).is(0, "Example:\n").is(0, "--json");
        run(["--help"]).is(0, &format!("\n  {command} "));
    }
    run(["--help"]).is(0, "Exit status: 0 accepted");
    run(["chnage"]).is(2, "Did you mean 'change'?");
    run(["change", "store", "1"]).is(2, "required arguments were not provided");
    run(["runs", "store", "1", "1", "yesterday"])
        .is(2, "is no date. Write it as 05122015, 2015-12-05 or \"5 Dec 2015\".");
    run(["runs", "store", "one", "1", "1"]).is(2, "is no number");
    run(["--version"]).is(0, "calyxcabin");
    let nothing: [&str; 0] = [];
    run(nothing).is(2, "Usage: calyxcabin");
    for shell in ["bash", "zsh", "fish"] {
        run(["completions", shell]).is(0, "station");
    }
}

/// Text for a pipe has no colour and no progress.
#[test]
fn pipes_are_plain() {
    let folder = folder("plain");
    let store = opened(&folder);
    let said = line("change {} 1 2 14122015 3 1 15122015", &[&store]);
    assert!(!said.out.contains('\x1b') && said.err.is_empty(), "{said:#?}");
}
