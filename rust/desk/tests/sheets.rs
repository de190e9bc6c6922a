//! The connection sheet: as text, JSON, rows and a page. What is expected of the
//! example's delivery is worked out by hand from its files.

mod common;

use std::fs;
use std::path::{Path, PathBuf};

use common::*;
use serde_json::{json, Value};

fn sheet(store: &Path, words: &str) -> Said {
    line(&format!("sheet {{}} {words}"), &[store])
}

/// The sheet in JSON.
#[track_caller]
fn told(store: &Path, words: &str) -> Value {
    let said = sheet(store, &format!("{words} --json"));
    assert_eq!((said.status, said.out.lines().count()), (Some(0), 1), "{said:#?}");
    said.json()
}

/// Who arrives, and to whom one changes with which answer: `2 to 6: no`.
#[track_caller]
fn pairs(store: &Path, words: &str) -> Vec<String> {
    let told = told(store, words);
    let of = |arrival: &Value| -> Vec<String> {
        let pair = |change: &Value| {
            let answer = change.get("change").and_then(Value::as_str).unwrap_or("refused");
            format!("{} to {}: {answer}", arrival["service"], change["to"]["service"])
        };
        match arrival["changes"].as_array().unwrap() {
            none if none.is_empty() => vec![format!("{} to none", arrival["service"])],
            changes => changes.iter().map(pair).collect(),
        }
    };
    told["arrivals"].as_array().unwrap().iter().flat_map(of).collect()
}

/// The example's delivery with another text in a file, in a store.
fn opened_with(folder: &Path, file: &str, old: &str, new: &str) -> PathBuf {
    let delivery = folder.join("delivery");
    copy(&example(), &delivery);
    let text = fs::read(delivery.join(file)).unwrap();
    fs::write(delivery.join(file), with(&text, old, new)).unwrap();
    let store = folder.join("store");
    line("open {} {}", &[&delivery, &store]).is(0, "Accepted");
    store
}

fn amended(folder: &Path, store: &Path, service: u64, changes: &[(&str, &str)]) {
    let block = changes.iter().fold(block(store, service), |block, (old, new)| with(&block, old, new));
    let file = folder.join("block");
    fs::write(&file, block).unwrap();
    line(&format!("amend {{}} {service} {{}}"), &[store, &file]).is(0, "Accepted");
}

/// Service 6 leaves half an hour after midnight.
fn with_a_late_train(folder: &Path) -> PathBuf {
    let store = opened(folder);
    amended(folder, &store, 6, &[(",0837", ",2430"), (",0902,0903", ",2455,2456"), (",0908", ",2501")]);
    store
}

/// On 15 December the boat of the day before lands at 08:00 and a Sprinter leaves at
/// 08:37, where line 3 of XCHANGES asks for 45 minutes. At 21:12 a Sprinter arrives,
/// for which the boat of 22:00 waits by line 3 of CHANGES.
#[test]
fn a_sheet_is_shown() {
    let folder = folder("sheet");
    let store = opened(&folder);
    let hoek = "\
HVH Hoek van Holland Haven, Tue 15 Dec 2015
  arrivals     2
  departures   up to 240 minutes (4 h 00) after each arrival
  changes      2: 1 Yes, 1 No, 0 Unsettled

  arrives  departs  service   stop  with           from, to                        change  gap  needed
  08:00             00000002     2  STENA SHIP 12  from HAR Harwich International                       32:00 of service day 14 Dec 2015
           08:37    00000006     1  NS SPR 4101    to RTD Rotterdam Centraal       No       37      45  8 minutes too short; XCHANGES, line 3

  21:12             00000005     3  NS SPR 4100    from RTD Rotterdam Centraal
           22:00    00000001     1  STENA SHIP 11  to HAR Harwich International    Yes      48       0  CHANGES, line 3
";
    let said = sheet(&store, "HVH 2015-12-15");
    assert_eq!((said.status, said.out.as_str(), said.err.as_str()), (Some(0), hoek, ""));
    // docs/PROGRAM.md shows it.
    let page = Path::new(env!("CARGO_MANIFEST_DIR")).join("../../docs/PROGRAM.md");
    assert!(fs::read_to_string(page).unwrap().contains(hoek));
    // At Harwich the change time is 99, by line 3 of STATIONS.
    let harwich = "\
HAR Harwich International, Tue 15 Dec 2015
  arrivals     2
  departures   up to 125 minutes (2 h 05) after each arrival
  changes      1: 0 Yes, 0 No, 1 Unsettled

  arrives  departs  service   stop  with           from, to                          change     gap  needed
  06:30             00000001     2  STENA SHIP 11  from HVH Hoek van Holland Haven   none                    30:30 of service day 14 Dec 2015

  20:58             00000004     3  GA IC 902      from LST London Liverpool Street
?          23:00    00000002     1  STENA SHIP 12  to HVH Hoek van Holland Haven     Unsettled  122      99  rests on the station's 99; STATIONS, line 3

Unsettled: the needed time is the highest number that its columns can hold, 99 in STATIONS or 999 in XCHANGES, so the real time may be longer. Ask the supplier before selling.
";
    assert_eq!(sheet(&store, "HAR 15122015 --within 125").out, harwich);
}

#[test]
fn a_sheet_in_json() {
    let folder = folder("sheet in json");
    let store = opened(&folder);
    let boat = json!({
        "service": 2, "stop": 2, "service_date": "14122015", "local": 1920, "date": "15122015",
        "company": 100, "company_code": "STENA", "company_name": "Stena Line", "number": 12, "mode": "SHIP",
        "origin": {"station": "HAR    ", "name": "Harwich International"},
        "changes": [{
            "change": "no", "reason": "gap-below-needed", "gap": 37, "source": "xchanges", "needed": 45, "line": 3,
            "to": {
                "service": 6, "stop": 1, "service_date": "15122015", "local": 517, "date": "15122015",
                "company": 200, "company_code": "NS", "company_name": "Nederlandse Spoorwegen", "number": 4101, "mode": "SPR ",
                "destination": {"station": "RTD    ", "name": "Rotterdam Centraal"},
            },
        }],
    });
    let sprinter = json!({
        "service": 5, "stop": 3, "service_date": "15122015", "local": 1272, "date": "15122015",
        "company": 200, "company_code": "NS", "company_name": "Nederlandse Spoorwegen", "number": 4100, "mode": "SPR ",
        "origin": {"station": "RTD    ", "name": "Rotterdam Centraal"},
        "changes": [{
            "change": "yes", "gap": 48, "source": "changes", "needed": 0, "line": 3,
            "to": {
                "service": 1, "stop": 1, "service_date": "15122015", "local": 1320, "date": "15122015",
                "company": 100, "company_code": "STENA", "company_name": "Stena Line", "number": 11, "mode": "SHIP",
                "destination": {"station": "HAR    ", "name": "Harwich International"},
            },
        }],
    });
    let mut expected = json!({
        "station": "HVH    ", "name": "Hoek van Holland Haven", "date": "15122015",
        "from": 0, "to": 1439, "within": 240,
        "delivery": {"version": 1, "first": "13122015", "last": "10122016", "amendments": 0},
        "counts": {"arrivals": 2, "changes": 2, "yes": 1, "no": 1, "unsettled": 0, "refused": 0},
        "arrivals": [boat, sprinter],
        "notes": [],
    });
    assert_eq!(told(&store, "HVH 15122015"), expected);
    // Only what arrives in the morning, with shorter waits.
    expected["arrivals"] = json!([boat]);
    expected["arrivals"][0]["changes"] = json!([]);
    expected["counts"] =
        json!({"arrivals": 1, "changes": 0, "yes": 0, "no": 0, "unsettled": 0, "refused": 0});
    (expected["to"], expected["within"]) = (json!(720), json!(36));
    assert_eq!(told(&store, "HVH 15122015 --to 12:00 --within 36"), expected);
}

const HEADER: &str = "station,name,from_service,from_stop,from_service_date,from_date,from_time,from_company,\
                      from_company_code,from_company_name,from_number,from_mode,origin,origin_name,to_service,to_stop,to_service_date,\
                      to_date,to_time,to_company,to_company_code,to_company_name,to_number,to_mode,destination,destination_name,change,\
                      reason,gap,source,needed,line,refused\r\n";

#[test]
fn a_sheet_in_rows() {
    let folder = folder("sheet in rows");
    let store = opened(&folder);
    let rows = "HVH,Hoek van Holland Haven,2,2,2015-12-14,2015-12-15,08:00,100,STENA,Stena Line,12,SHIP,HAR,Harwich International,\
                6,1,2015-12-15,2015-12-15,08:37,200,NS,Nederlandse Spoorwegen,4101,SPR,RTD,Rotterdam Centraal,\
                no,gap-below-needed,37,xchanges,45,3,\r\n\
                HVH,Hoek van Holland Haven,5,3,2015-12-15,2015-12-15,21:12,200,NS,Nederlandse Spoorwegen,4100,SPR,RTD,Rotterdam \
                Centraal,1,1,2015-12-15,2015-12-15,22:00,100,STENA,Stena Line,11,SHIP,HAR,Harwich International,\
                yes,,48,changes,0,3,\r\n";
    let said = sheet(&store, "HVH 15122015 --csv");
    assert_eq!((said.status, said.out, said.err.as_str()), (Some(0), format!("{HEADER}{rows}"), ""));
    // No change, no row.
    assert_eq!(sheet(&store, "LST 15122015 --csv").out, HEADER);
}

/// Names are what a supplier writes: they cannot part a row or leave their place in a page.
#[test]
fn names_are_quoted_and_escaped() {
    let folder = folder("names");
    let name = "A, \"b\" <i>&'</style>\\";
    let store = opened_with(&folder, "STATIONS", "Rotterdam Centraal   ", name);
    let said = sheet(&store, "HVH 15122015 --csv");
    assert!(said.out.contains(",RTD,\"A, \"\"b\"\" <i>&'</style>\\\",no,"), "{said:#?}");
    let said = sheet(&store, "HVH 15122015 --html");
    assert!(said
        .out
        .contains("A, &quot;b&quot; &lt;i&gt;&amp;&#39;&lt;/style&gt;\\ <span class=\"code\">RTD</span>"));
    is_page(&said.out);
    // As the station's own name it stands in the page's style too.
    let said = sheet(&store, "RTD 15122015 --html");
    assert!(said
        .out
        .contains("content: \"RTD A\\2c  \\22 b\\22  \\3c i\\3e \\26 \\27 \\3c \\2f style\\3e \\5c \\2c  Tue 15 Dec 2015\";"));
    is_page(&said.out);
    assert_eq!(told(&store, "RTD 15122015")["name"], json!(name));
    sheet(&store, "RTD 15122015").is(0, &format!("RTD {name}, Tue 15 Dec 2015\n"));
}

/// A page of its own: well formed, in UTF-8, and nothing in it that is looked for elsewhere.
#[track_caller]
fn is_page(page: &str) {
    const EMPTY: [&str; 2] = ["meta", "col"];
    let begin = "<!DOCTYPE html>\n<html lang=\"en\">\n<head>\n<meta charset=\"utf-8\">\n";
    assert!(page.starts_with(begin) && page.ends_with("</html>\n"), "{page}");
    for none in ["http", "<script", "url(", "@import", "src=", "href=", "onload"] {
        assert!(!page.contains(none), "{none} in {page}");
    }
    let (mut open, mut rest, mut titles): (Vec<&str>, &str, usize) =
        (Vec::new(), &page["<!DOCTYPE html>\n".len()..], 0);
    while let Some(at) = rest.find('<') {
        let (text, tag) = rest.split_at(at);
        let text = if open.last() == Some(&"style") { "" } else { text };
        assert!(!text.contains('>'), "`{text}` has a bare mark");
        for (place, _) in text.match_indices('&') {
            let known = ["&amp;", "&lt;", "&gt;", "&quot;", "&#39;"];
            assert!(known.iter().any(|known| text[place..].starts_with(known)), "`{text}` has a bare mark");
        }
        let end = tag.find('>').unwrap_or_else(|| panic!("{tag} does not end"));
        let inner = &tag[1..end];
        rest = &tag[end + 1..];
        match inner.strip_prefix('/') {
            Some(name) => assert_eq!(open.pop(), Some(name), "before {rest}"),
            None => {
                let (name, attributes) = inner.split_once(' ').unwrap_or((inner, ""));
                assert!(name.chars().all(|letter| letter.is_ascii_lowercase() || letter.is_ascii_digit()));
                assert_eq!(attributes.matches('"').count() % 2, 0, "{inner}");
                titles += usize::from(name == "title");
                if !EMPTY.contains(&name) {
                    open.push(name);
                }
            }
        }
    }
    assert!(open.is_empty() && titles == 1 && rest == "\n", "{open:?} {rest}");
}

#[test]
fn a_sheet_as_a_page() {
    let folder = folder("sheet as a page");
    let store = opened(&folder);
    let page = |words: &str| {
        let said = sheet(&store, &format!("{words} --html"));
        assert_eq!((said.status, said.err.as_str()), (Some(0), ""));
        is_page(&said.out);
        said.out
    };
    let hoek = page("HVH 15122015");
    for part in [
        "<title>Connection sheet: HVH Hoek van Holland Haven, Tue 15 Dec 2015</title>",
        "<h1>Hoek van Holland Haven <span class=\"code\">HVH</span></h1>",
        "<p class=\"day\">Tue 15 Dec 2015</p>",
        "<li>2 arrivals</li>\n<li>2 changes</li>\n<li class=\"yes\"><b>✓ 1 Yes</b></li>\n<li class=\"no\"><b>× 1 No</b></li>\n\
         <li>0 Unsettled</li>\n",
        "up to 240 minutes (4 h 00) after it",
        "<span class=\"at\">08:00</span> arrives STENA SHIP 12 from <b>Harwich International <span class=\"code\">HAR</span></b>",
        "(service 00000002, stop 2; 32:00 of service day 14 Dec 2015)",
        "<td class=\"change\"><b>× No</b></td><td class=\"gap number\">37</td><td class=\"needed number\">45</td>\
         <td class=\"why\">8 minutes too short; XCHANGES, line 3</td>",
        "<td class=\"change\"><b>✓ Yes</b></td><td class=\"gap number\">48</td><td class=\"needed number\">0</td>\
         <td class=\"why\">CHANGES, line 3</td>",
        "<p>NS is Nederlandse Spoorwegen; STENA is Stena Line.</p>",
        "Unsettled: the needed time is the highest number",
        "From delivery 0001, 13 Dec 2015 to 10 Dec 2016, with 0 amendments.",
        "size: A4",
    ] {
        assert!(hoek.contains(part), "{part} in {hoek}");
    }
    assert_eq!(hoek.matches("<tbody>").count(), 2);
    let harwich = page("HAR 15122015");
    let unsettled = "<td class=\"change\"><b>? Unsettled</b></td><td class=\"gap number\">130</td><td class=\"needed number\">99</td>\
                     <td class=\"why\">rests on the station&#39;s 99; STATIONS, line 3</td>";
    assert!(harwich.contains(unsettled), "{harwich}");
    assert!(page("LST 15122015").contains("No departure so soon after it."));
    let none = page("HVH 15122015 --to 07:59");
    assert!(none.contains("<p>Nothing arrives at HVH on Tue 15 Dec 2015 from 00:00 to 07:59.</p>"), "{none}");
}

/// A service that rests arrives and departs nowhere: the boats on 25 December, the
/// evening train to Harwich on Saturdays and Sundays.
#[test]
fn services_that_rest_are_left_out() {
    let folder = folder("rest days");
    let store = opened(&folder);
    assert_eq!(pairs(&store, "HVH 25122015"), ["2 to 6: no", "5 to none"]);
    assert_eq!(pairs(&store, "HVH 26122015"), ["5 to 1: yes"]);
    assert_eq!(pairs(&store, "HAR 25122015"), ["1 to 3: unsettled", "4 to none"]);
    assert_eq!(pairs(&store, "HAR 26122015"), Vec::<String>::new());
    assert_eq!(pairs(&store, "HAR 18122015"), ["1 to 3: unsettled", "4 to 2: unsettled"]);
    assert_eq!(pairs(&store, "HAR 19122015"), ["1 to 3: unsettled"]);
    assert_eq!(pairs(&store, "LST 18122015 --within 557"), ["3 to 4: yes"]);
    assert_eq!(pairs(&store, "LST 19122015 --within 557"), ["3 to none"]);
}

/// A service is no change to itself, and where nobody boards nothing departs: at
/// Colchester service 3 goes on at 09:10, and service 4 lets nobody in.
#[test]
fn a_service_is_no_change_to_itself() {
    let folder = folder("itself");
    let store = opened(&folder);
    assert_eq!(pairs(&store, "COL 15122015 --within 1439"), ["3 to none", "4 to 3: yes"]);
    assert_eq!(pairs(&store, "COL 15122015"), ["3 to none", "4 to none"]);
    // On the next day it is another one: 09:08 to 09:10 a day later.
    assert_eq!(pairs(&store, "COL 18122015 --within 1442"), ["3 to 3: yes", "4 to 3: yes"]);
    assert_eq!(pairs(&store, "COL 18122015 --within 1441"), ["3 to none", "4 to 3: yes"]);
}

#[test]
fn windows_have_their_ends_in_them() {
    let folder = folder("windows");
    let store = opened(&folder);
    // 08:00 to 08:37.
    assert_eq!(pairs(&store, "HVH 15122015 --to 12:00 --within 37"), ["2 to 6: no"]);
    assert_eq!(pairs(&store, "HVH 15122015 --to 12:00 --within 36"), ["2 to none"]);
    for (hours, found) in [
        ("--from 08:00 --to 08:00", true),
        ("--from 0800 --to 8:00", true),
        ("--to 08:00", true),
        ("--to 07:59", false),
        ("--from 08:01 --to 21:11", false),
        ("--from 08:00 --to 21:11", true),
    ] {
        let expected: &[&str] = if found { &["2 to 6: no"] } else { &[] };
        assert_eq!(pairs(&store, &format!("HVH 15122015 {hours}")), expected, "{hours}");
    }
    assert_eq!(pairs(&store, "HVH 15122015 --from 21:12"), ["5 to 1: yes"]);
    assert_eq!(pairs(&store, "HVH 15122015 --from 21:13"), Vec::<String>::new());
    sheet(&store, "HVH 15122015 --from 08:00 --to 12:00").is(0, "  arrivals     1 from 08:00 to 12:00\n");
    // A departure in the arrival's own minute is one behind it, one a minute earlier is not.
    amended(&folder, &store, 6, &[(",0837", ",0800")]);
    assert_eq!(pairs(&store, "HVH 15122015 --to 12:00 --within 0"), ["2 to 6: no"]);
    amended(&folder, &store, 6, &[(",0800", ",0759")]);
    assert_eq!(pairs(&store, "HVH 15122015 --to 12:00 --within 720"), ["2 to none"]);
}

/// The Sprinter of 21:12 on 15 December, and one that leaves at 24:30: after midnight, by
/// its service day of the 15th.
#[test]
fn departures_after_midnight_belong_to_the_evening() {
    let folder = folder("midnight");
    let store = with_a_late_train(&folder);
    let rows = "
  21:12             00000005     3  NS SPR 4100    from RTD Rotterdam Centraal
           22:00    00000001     1  STENA SHIP 11  to HAR Harwich International    Yes      48       0  CHANGES, line 3
           00:30    00000006     1  NS SPR 4101    to RTD Rotterdam Centraal       Yes     198      20  on Wed 16 Dec 2015; 24:30 of service day 15 Dec 2015; XCHANGES, line 4
";
    sheet(&store, "HVH 15122015").is(0, rows);
    assert_eq!(pairs(&store, "HVH 15122015 --within 197"), ["2 to none", "5 to 1: yes"]);
    let told = told(&store, "HVH 15122015 --from 21:00");
    let to = &told["arrivals"][0]["changes"][1]["to"];
    assert_eq!(
        [&to["service_date"], &to["local"], &to["date"]],
        [&json!("15122015"), &json!(1470), &json!("16122015")]
    );
    assert_eq!(told["delivery"]["amendments"], json!(1));
    let said = sheet(&store, "HVH 15122015 --csv");
    assert!(said.out.contains(",6,1,2015-12-15,2015-12-16,00:30,200,NS,"), "{said:#?}");
    let said = sheet(&store, "HVH 15122015 --html");
    assert!(
        said.out.contains("<span class=\"at\">00:30</span><span class=\"small\">Wed 16 Dec</span>"),
        "{said:#?}"
    );
    is_page(&said.out);
    // It arrives in Rotterdam on the day after its service day, also on the delivery's last.
    assert_eq!(pairs(&store, "RTD 16122015 --within 1260"), ["6 to 5: yes"]);
    assert_eq!(pairs(&store, "RTD 16122015 --to 01:00 --within 1260"), Vec::<String>::new());
    assert_eq!(pairs(&store, "RTD 10122016 --from 01:01 --to 01:01"), ["6 to none"]);
    // A departure of the next day's own service is told with that day.
    let next = "           22:00    00000001     1  STENA SHIP 11  to HAR Harwich International  Yes     1488       0  on Wed 16 Dec 2015; CHANGES, line 3\n";
    sheet(&store, "HVH 15122015 --from 21:00 --within 1500").is(0, next);
}

/// On 27 March 2016 the clocks go an hour ahead, on 30 October one back: the station's
/// clocks show 198 minutes, and it is 138, and 258.
#[test]
fn windows_go_by_the_reference_clock() {
    let folder = folder("clocks of a sheet");
    let store = with_a_late_train(&folder);
    let spring = "           00:30    00000006     1  NS SPR 4101    to RTD Rotterdam Centraal       Yes     138      20  on Sun 27 Mar 2016; 24:30 of service day 26 Mar 2016; 198 by the station's clocks, which change in between; XCHANGES, line 4\n";
    sheet(&store, "HVH 26032016").is(0, spring);
    let said = sheet(&store, "HVH 26032016 --html");
    assert!(said.out.contains(
        "<td class=\"why\">XCHANGES, line 4; 198 by the station&#39;s clocks, which change in between</td>"
    ));
    assert_eq!(pairs(&store, "HVH 26032016 --from 21:00 --within 138"), ["5 to 1: yes", "5 to 6: yes"]);
    assert_eq!(pairs(&store, "HVH 26032016 --from 21:00 --within 137"), ["5 to 1: yes"]);
    assert_eq!(pairs(&store, "HVH 29102016 --from 21:00 --within 258"), ["5 to 1: yes", "5 to 6: yes"]);
    assert_eq!(pairs(&store, "HVH 29102016 --from 21:00 --within 257"), ["5 to 1: yes"]);
    // The boat of Saturday lands after the change, and its train leaves by the same clocks.
    let told = told(&store, "HAR 27032016");
    let change = &told["arrivals"][0]["changes"][0];
    assert_eq!([&told["arrivals"][0]["service_date"], &change["gap"]], [&json!("26032016"), &json!(130)]);
}

/// 00 of CHANGES, the flag 0 of a station, 999 of XCHANGES: each with its line.
#[test]
fn every_reason_is_told() {
    let folder = folder("reasons");
    let forbidden = opened_with(&folder.join("00"), "CHANGES", ",02", ",00");
    sheet(&forbidden, "HVH 15122015")
        .is(0, "  No       48          this pair is forbidden; CHANGES, line 3\n");
    let told_of = told(&forbidden, "HVH 15122015 --from 21:00");
    assert_eq!(told_of["arrivals"][0]["changes"][0]["reason"], json!("pair-00"));

    let flag = folder.join("flag");
    fs::create_dir(&flag).unwrap();
    let store = opened(&flag);
    amended(&flag, &store, 4, &[(";MNG    ", ".MNG    ,2040")]);
    // 09:00 to 20:40.
    let row = "  No      700          no changes are made here, flag 0; STATIONS, line 6\n";
    sheet(&store, "MNG 15122015 --within 700").is(0, row);
    assert_eq!(pairs(&store, "MNG 15122015 --within 699"), ["3 to none", "4 to none"]);

    let open = opened_with(&folder.join("999"), "XCHANGES", ",045,", ",999,");
    // 08:00 to 08:37 of the day after: 1477 minutes.
    let said = sheet(&open, "HVH 15122015 --to 12:00 --within 1477");
    said.is(0, "changes      3: 1 Yes, 1 No, 1 Unsettled\n");
    said.is(
        0,
        "  Unsettled  1477     999  on Wed 16 Dec 2015; rests on the exception's 999; XCHANGES, line 3\n",
    );
    said.is(0, "  No           37     999  962 minutes too short; XCHANGES, line 3\n");
    said.is(0, "\nUnsettled: the needed time is the highest number");
}

/// The zones of the example end on its last day: a train that leaves half an hour after
/// it falls on a day without a period.
#[test]
fn a_day_without_a_period_is_told_in_the_sheet() {
    let folder = folder("no period in a sheet");
    let store = with_a_late_train(&folder);
    let said = sheet(&store, "HVH 10122016 --from 21:00");
    said.is(0, "  changes      2: 1 Yes, 0 No, 0 Unsettled, 1 refused\n");
    said.is(0, "  Refused 15               on Sun 11 Dec 2016; 24:30 of service day 10 Dec 2016; the station's time zone has no period on that day\n");
    let told = told(&store, "HVH 10122016 --from 21:00");
    let refused = json!({"number": 15, "file": "", "ordinal": 0, "line": 0});
    assert_eq!(told["arrivals"][0]["changes"][1]["refused"], refused);
    assert!(sheet(&store, "HVH 10122016 --csv").out.contains(",RTD,Rotterdam Centraal,refused,,,,,,15\r\n"));
    let page = sheet(&store, "HVH 10122016 --html").out;
    assert!(page.contains("<b>! Refused 15</b>") && page.contains("<b>! 1 Refused</b>"), "{page}");
    is_page(&page);
    // By the station's clocks it is 198 minutes later.
    assert_eq!(pairs(&store, "HVH 10122016 --from 21:00 --within 198"), ["5 to 1: yes", "5 to 6: refused"]);
    assert_eq!(pairs(&store, "HVH 10122016 --from 21:00 --within 197"), ["5 to 1: yes"]);
}

/// The delivery does not have the boat of the day before its first, nor trains of the
/// day after its last.
#[test]
fn what_a_delivery_lacks_is_told() {
    let folder = folder("first and last");
    let store = opened(&folder);
    let before = "Services of days before 13 Dec 2015, the delivery's first, are not in it: those that would still call at HVH on this day are missing.";
    let behind = "Services of days after 10 Dec 2016, the delivery's last, are not in it: their departures are missing.";
    sheet(&store, "HVH 13122015").is(0, &format!("\n{before}\n"));
    assert_eq!(pairs(&store, "HVH 13122015"), ["5 to 1: yes"]);
    assert_eq!(told(&store, "HVH 13122015")["notes"], json!([before]));
    assert_eq!(told(&store, "HVH 14122015")["notes"], json!([]));
    // Nothing calls at Rotterdam after midnight.
    assert_eq!(told(&store, "RTD 13122015")["notes"], json!([]));
    // From 21:12 four hours reach into 11 December, 167 minutes do not.
    sheet(&store, "HVH 10122016").is(0, &format!("\n{behind}\n"));
    assert_eq!(told(&store, "HVH 10122016 --within 168")["notes"], json!([behind]));
    assert_eq!(told(&store, "HVH 10122016 --within 167")["notes"], json!([]));
    assert_eq!(told(&store, "HVH 10122016 --to 12:00")["notes"], json!([]));
    assert_eq!(told(&store, "HVH 09122016")["notes"], json!([]));
    let said = sheet(&store, "HVH 13122015 --csv");
    assert!(said.err == format!("note: {before}\n") && !said.out.contains("before"), "{said:#?}");
    assert!(sheet(&store, "HVH 13122015 --html").out.contains("the delivery&#39;s first"));
}

#[test]
fn an_empty_sheet_says_so() {
    let folder = folder("empty sheet");
    let store = opened(&folder);
    let empty = "\
HVH Hoek van Holland Haven, Sat 26 Dec 2015
  arrivals     0 from 00:00 to 12:00
  departures   up to 240 minutes (4 h 00) after each arrival
  changes      0: 0 Yes, 0 No, 0 Unsettled

Nothing arrives at HVH on Sat 26 Dec 2015 from 00:00 to 12:00.
";
    let said = sheet(&store, "HVH 26122015 --to 12:00");
    assert_eq!((said.status, said.out.as_str(), said.err.as_str()), (Some(0), empty, ""));
    sheet(&store, "HAR 26122015").is(0, "\nNothing arrives at HAR on Sat 26 Dec 2015.\n");
    assert_eq!(told(&store, "HAR 26122015")["arrivals"], json!([]));
    assert_eq!(sheet(&store, "HAR 26122015 --csv").out, HEADER);
}

#[test]
fn sheets_are_refused() {
    let folder = folder("refused sheets");
    let store = opened(&folder);
    sheet(&store, "har 15122015").is(1, "Refused 17").is(1, "STATIONS has HAR: is that meant?");
    sheet(&store, "HARWICH1 15122015").is(1, "Refused 17");
    let refused = "\
Refused 14: it is not a date, or outside the delivery's validity
  found     12 Dec 2015, which is outside the delivery's validity
  expected  a day from 13 Dec 2015 to 10 Dec 2016
  to do     Ask for another day, or open the delivery that is valid then.
";
    let said = sheet(&store, "HVH 12122015");
    assert_eq!((said.status, said.out.as_str(), said.err.as_str()), (Some(1), refused, ""));
    sheet(&store, "HVH 11122016").is(1, "11 Dec 2016, which is outside the delivery's validity");
    sheet(&store, "HVH 31022016").is(1, "31022016, which no calendar has");
    sheet(&store, "HVH 99999999999999999999999").is(1, "Refused 14");
    // Of both, the station is told.
    sheet(&store, "XYZ 12122015").is(1, "Refused 17");
    let said = sheet(&store, "HVH 12122015 --json");
    assert_eq!((said.status, &said.json()["refused"]["number"]), (Some(1), &json!(14)));
    // A file that a page or rows are written to has no refusal in it.
    for form in ["--html", "--csv"] {
        let said = sheet(&store, &format!("HVH 12122015 {form}"));
        assert_eq!((said.status, said.out.as_str(), said.err.as_str()), (Some(1), "", refused));
    }
    sheet(&example(), "HVH 15122015").is(2, "is a delivery and no store");
    sheet(&folder.join("none"), "HVH 15122015").is(2, "is not there");
}

#[test]
fn mistakes_in_the_command_line_are_told() {
    let folder = folder("mistakes");
    let store = opened(&folder);
    for time in ["24:00", "12:60", "noon", "7", "-1:00"] {
        let said = sheet(&store, &format!("HVH 15122015 --from={time}"));
        said.is(2, &format!("`{time}` is no time of day. Write it as 07:30, from 00:00 to 23:59."));
    }
    let said = sheet(&store, "HVH 15122015 --from 18:00 --to 09:00");
    said.is(2, "`--from 18:00` is after `--to 09:00`. A sheet is of one day: give the earlier time first.");
    assert!(said.out.is_empty());
    sheet(&store, "HVH 15122015 --within 10081").is(2, "10081");
    sheet(&store, "HVH 15122015 --within -1").is(2, "-1");
    sheet(&store, "HVH tomorrow").is(2, "is no date");
    for (both, told) in [
        ("--html --csv", "'--html' cannot be used with '--csv'"),
        ("--csv --json", "'--json' cannot be used with '--csv'"),
        ("--json --html", "'--json' cannot be used with '--html'"),
    ] {
        let said = sheet(&store, &format!("HVH 15122015 {both}"));
        said.is(2, told).is(2, "Usage: calyxcabin sheet");
        assert!(said.out.is_empty());
    }
    line("--json sheet {} HVH 15122015 --html", &[&store]).is(2, "'--json' cannot be used with '--html'");
    run(["sheet", "--help"]).is(0, "[default: 240]").is(0, "Example:\n");
}

/// Every answer of a sheet is that of `change`.
#[test]
fn a_sheet_answers_as_change_does() {
    let folder = folder("sheet and change");
    let store = with_a_late_train(&folder);
    let mut compared = 0;
    for (station, date) in [
        ("HVH", "15122015"),
        ("HAR", "15122015"),
        ("COL", "18122015"),
        ("LST", "18122015"),
        ("MNG", "18122015"),
        ("RTD", "16122015"),
        ("SDM", "16122015"),
        ("HVH", "26032016"),
        ("HVH", "10122016"),
    ] {
        for arrival in
            told(&store, &format!("{station} {date} --within 3000"))["arrivals"].as_array().unwrap()
        {
            for change in arrival["changes"].as_array().unwrap() {
                compared += 1;
                is_as_change_tells(&store, arrival, change);
            }
        }
    }
    assert!(compared > 40, "{compared}");
}

fn is_as_change_tells(store: &Path, arrival: &Value, change: &Value) {
    let side = |side: &Value| {
        format!("{} {} {}", side["service"], side["stop"], side["service_date"].as_str().unwrap())
    };
    let words = format!("change {{}} {} {} --json", side(arrival), side(&change["to"]));
    let alone = line(&words, &[store]).json();
    for key in ["change", "reason", "gap", "source", "needed"] {
        assert_eq!(change.get(key), alone.get(key), "{key} of {words}");
    }
    for key in ["number", "file", "ordinal", "line"] {
        let number = |told: &Value| told.get("refused").map(|refused| refused[key].clone());
        assert_eq!(number(change), number(&alone), "{key} of {words}");
    }
    if alone.get("refused").is_none() {
        for key in ["local", "date"] {
            assert_eq!(
                [&arrival[key], &change["to"][key]],
                [&alone["from"][key], &alone["to"][key]],
                "{words}"
            );
        }
    }
    // The line is that of the exception that counts.
    if let Some(counts) = alone.get("exceptions").map(|exceptions| &exceptions[0]["line"]) {
        assert_eq!(Some(counts), change.get("line"), "{words}");
    }
}

/// Tables that are damaged are made again, and the sheet is as it was.
#[test]
fn a_sheet_of_damaged_tables_is_right() {
    let folder = folder("damaged sheet");
    let store = opened(&folder);
    let right = sheet(&store, "HVH 15122015").out;
    let tables = store.join("1/tables");
    let whole = fs::read(&tables).unwrap();
    for place in (0..whole.len()).step_by(whole.len() / 40) {
        let mut damaged = whole.clone();
        damaged[place] ^= 0x10;
        // It is replaced, since a process may still read it.
        fs::remove_file(&tables).unwrap();
        fs::write(&tables, damaged).unwrap();
        let said = sheet(&store, "HVH 15122015");
        said.is(0, "they were made again from the delivery");
        assert_eq!(said.out, right, "byte {place}");
        assert!(fs::read(&tables).unwrap() == whole);
    }
}
