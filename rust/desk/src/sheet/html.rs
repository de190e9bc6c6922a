//! The sheet as a page of its own, to be read on a screen or printed on A4: no script,
//! no other file, and every verdict told by a word and a mark, whatever the colours.

use std::collections::BTreeMap;

use proved::Verdict;

use super::words::{by_clocks, day_of, in_hours, none_arrives, train, verdict, why, UNSETTLED};
use crate::answers::{Named, Onward, Sheet, SheetCall};
use crate::dates::{self, face};
use crate::speech::counted;

const STYLE: &str = include_str!("style.css");

/// The columns, and their heads, which are printed again on every page.
const COLUMNS: [(&str, &str); 8] = [
    ("time", "Departs"),
    ("train", "With"),
    ("service", "Service, stop"),
    ("to", "To"),
    ("change", "Change"),
    ("gap number", "Gap"),
    ("needed number", "Needed"),
    ("why", "Why"),
];

/// An arrival stands on one page with its departures; where it has more than so many, the
/// others follow in parts, under the arrival again.
const ON_ONE_PAGE: usize = 12;

pub fn html(sheet: &Sheet) -> String {
    let named = format!("{} {}", sheet.station.trim_end(), sheet.name.as_deref().unwrap_or(""));
    let title = format!("{}, {}", named.trim_end(), dates::weekday(sheet.date.0));
    let mut page = String::from("<!DOCTYPE html>\n<html lang=\"en\">\n<head>\n<meta charset=\"utf-8\">\n");
    page += "<meta name=\"viewport\" content=\"width=device-width, initial-scale=1\">\n";
    page += &format!("<title>Connection sheet: {}</title>\n", escaped(&title));
    page += &format!("<style>\n{STYLE}{}</style>\n</head>\n<body>\n", paper(&title));
    page += &format!("{}<main>\n", header(sheet));
    match sheet.arrivals.is_empty() {
        true => page += &format!("<p>{}</p>\n", escaped(&none_arrives(sheet))),
        false => table(sheet, &mut page),
    }
    page + &format!("</main>\n{}</body>\n</html>\n", footer(sheet))
}

/// A4 with the sheet's title and the page's number below.
fn paper(title: &str) -> String {
    let font =
        "font: 8pt \"Helvetica Neue\", Helvetica, Arial, \"Liberation Sans\", \"DejaVu Sans\", sans-serif;";
    format!(
        "@page {{ size: A4; margin: 12mm 12mm 16mm; @bottom-left {{ content: \"{}\"; {font} }} @bottom-right {{ content: \
         \"Page \" counter(page) \" of \" counter(pages); {font} }} }}\n",
        in_style(title)
    )
}

fn header(sheet: &Sheet) -> String {
    let counts = &sheet.counts;
    let item = |class: &str, count: usize, word: &str| match count {
        0 => format!("<li>0 {word}</li>\n"),
        _ => format!("<li class=\"{class}\"><b>{} {count} {word}</b></li>\n", mark(class)),
    };
    let mut list = format!(
        "<li>{}{}</li>\n<li>{}</li>\n",
        counted(counts.arrivals as u64, "arrival"),
        in_hours(sheet),
        counted(counts.changes as u64, "change")
    );
    list += &(item("yes", counts.yes, "Yes") + &item("no", counts.no, "No"));
    list += &item("unsettled", counts.unsettled, "Unsettled");
    if counts.refused > 0 {
        list += &item("refused", counts.refused, "Refused");
    }
    let notes: String = sheet.notes.iter().map(|note| format!("<p><b>{}</b></p>\n", escaped(note))).collect();
    format!(
        "<header>\n<p class=\"kind\">Connection sheet</p>\n<h1>{}</h1>\n<p class=\"day\">{}</p>\n<ul>\n{list}</ul>\n\
         <p>Below each arrival stand the departures up to {} after it.</p>\n{notes}</header>\n",
        station(&sheet.station, sheet.name.as_deref()),
        dates::weekday(sheet.date.0),
        dates::length(sheet.within)
    )
}

fn table(sheet: &Sheet, page: &mut String) {
    let columns: String = COLUMNS.iter().map(|(class, _)| format!("<col class=\"{class}\">")).collect();
    let heads: String = COLUMNS
        .iter()
        .map(|(class, head)| format!("<th scope=\"col\" class=\"{class}\">{head}</th>"))
        .collect();
    *page += &format!("<table>\n<colgroup>{columns}</colgroup>\n<thead>\n<tr>{heads}</tr>\n</thead>\n");
    for arrival in &sheet.arrivals {
        let parts = arrival.changes.chunks(ON_ONE_PAGE).enumerate();
        for (at, part) in parts {
            *page += &format!("<tbody>\n{}", arriving(arrival.call, at > 0, sheet));
            part.iter().for_each(|onward| *page += &departing(arrival.call, onward, sheet));
            *page += "</tbody>\n";
        }
        if arrival.changes.is_empty() {
            let none = "<tr><td></td><td colspan=\"7\">No departure so soon after it.</td></tr>\n";
            *page += &format!("<tbody>\n{}{none}</tbody>\n", arriving(arrival.call, false, sheet));
        }
    }
    *page += "</table>\n";
}

fn arriving(call: &SheetCall, continued: bool, sheet: &Sheet) -> String {
    let [_, of] = day_of(call, sheet);
    let of = of.map_or(String::new(), |of| format!("; {of}"));
    let continued = if continued { ", continued" } else { "" };
    let origin = call.origin.as_ref();
    format!(
        "<tr class=\"arrival\"><th colspan=\"8\" scope=\"rowgroup\"><span class=\"at\">{}</span> arrives {} from <b>{}</b> <span \
         class=\"small\">(service {:08}, stop {}{of}){continued}</span></th></tr>\n",
        face(call.local),
        escaped(&train(call)),
        origin.map_or(String::new(), |origin| station(&origin.station, origin.name.as_deref())),
        call.service,
        call.stop
    )
}

fn departing(from: &SheetCall, onward: &Onward, sheet: &Sheet) -> String {
    let (call, class, change) = (onward.to, class_of(onward), onward.answer.ok());
    let [_, of] = day_of(call, sheet);
    let of = of.map_or(String::new(), |of| small(&of));
    let on = day_beside(call, sheet).map_or(String::new(), |day| small(&day));
    let number = |number: Option<i64>| number.map_or(String::new(), |number| number.to_string());
    let whys = [Some(why(onward)), by_clocks(from, onward)].into_iter().flatten();
    let cells = [
        format!("<span class=\"at\">{}</span>{on}", face(call.local)),
        escaped(&train(call)),
        format!("{:08}, {}{of}", call.service, call.stop),
        name_of(call.destination.as_ref()),
        format!("<b>{} {}</b>", mark(class), verdict(&onward.answer)),
        number(change.and_then(|change| change.gap).map(i64::from)),
        number(change.and_then(|change| change.needed).map(|needed| needed as i64)),
        escaped(&whys.collect::<Vec<_>>().join("; ")),
    ];
    let cells: String = COLUMNS
        .iter()
        .zip(cells)
        .map(|((class, _), cell)| format!("<td class=\"{class}\">{cell}</td>"))
        .collect();
    format!("<tr class=\"{class}\">{cells}</tr>\n")
}

/// The day of a departure, where it is not the sheet's: `Wed 16 Dec`.
fn day_beside(call: &SheetCall, sheet: &Sheet) -> Option<String> {
    let day = dates::day_of(call.local, call.service_date.0);
    let without_year = day.rsplit_once(' ').map(|(day, _)| day.to_string());
    without_year.filter(|_| call.date != Some(sheet.date))
}

fn footer(sheet: &Sheet) -> String {
    let delivery = &sheet.delivery;
    let from = format!(
        "From delivery {:04}, {} to {}, with {}.",
        delivery.version,
        dates::date(delivery.first.0),
        dates::date(delivery.last.0),
        counted(delivery.amendments, "amendment")
    );
    let minutes = "Gap and needed time are minutes; the gap is that of the reference clock.";
    let operators = operators(sheet);
    let of_changes = if sheet.counts.changes > 0 { &[UNSETTLED, minutes][..] } else { &[] };
    let said = of_changes.iter().copied().chain([operators.as_str(), from.as_str()]);
    let said = said.filter(|said| !said.is_empty());
    let said = said.map(|said| format!("<p>{}</p>\n", escaped(said)));
    format!("<footer>\n{}</footer>\n", said.collect::<String>())
}

/// The operators of the sheet's services: `NS is Nederlandse Spoorwegen.`
fn operators(sheet: &Sheet) -> String {
    let departures = sheet.arrivals.iter().flat_map(|arrival| arrival.changes.iter().map(|onward| onward.to));
    let calls = sheet.arrivals.iter().map(|arrival| arrival.call).chain(departures);
    let named = calls.filter_map(|call| Some((call.company_code.as_deref()?, call.company_name.as_deref()?)));
    let named: BTreeMap<&str, &str> =
        named.filter(|(code, name)| !code.is_empty() && !name.is_empty() && code != name).collect();
    let told: Vec<String> = named.into_iter().map(|(code, name)| format!("{code} is {name}")).collect();
    match told.is_empty() {
        true => String::new(),
        false => told.join("; ") + ".",
    }
}

fn class_of(onward: &Onward) -> &'static str {
    match onward.answer.map(|change| change.verdict) {
        Ok(Verdict::Yes) => "yes",
        Ok(Verdict::No(_)) => "no",
        Ok(Verdict::Unsettled) => "unsettled",
        Err(_) => "refused",
    }
}

/// The mark beside a verdict.
fn mark(class: &str) -> &'static str {
    match class {
        "yes" => "✓",
        "no" => "×",
        "unsettled" => "?",
        _ => "!",
    }
}

/// A station's name, or its code where it has none.
fn name_of(station: Option<&Named>) -> String {
    let name = |station: &Named| match station.name.as_deref() {
        Some(name) if !name.is_empty() => escaped(name),
        _ => escaped(station.station.trim_end()),
    };
    station.map_or(String::new(), name)
}

/// Name and code, or the code alone.
fn station(code: &str, name: Option<&str>) -> String {
    let code = escaped(code.trim_end());
    match name.filter(|name| !name.is_empty()) {
        Some(name) => format!("{} <span class=\"code\">{code}</span>", escaped(name)),
        None => code,
    }
}

fn small(text: &str) -> String {
    format!("<span class=\"small\">{}</span>", escaped(text))
}

/// A text as it stands in a page.
fn escaped(text: &str) -> String {
    let mut escaped = String::with_capacity(text.len());
    for letter in text.chars() {
        match letter {
            '&' => escaped += "&amp;",
            '<' => escaped += "&lt;",
            '>' => escaped += "&gt;",
            '"' => escaped += "&quot;",
            '\'' => escaped += "&#39;",
            letter => escaped.push(letter),
        }
    }
    escaped
}

/// A text as it stands in a string of the page's style: all but letters, figures and
/// blanks by their numbers and the blank that ends these, so that nothing in it can
/// end the string or the style.
fn in_style(text: &str) -> String {
    let written = |letter: char| match letter.is_ascii_alphanumeric() || letter == ' ' {
        true => letter.to_string(),
        false => format!("\\{:x} ", u32::from(letter)),
    };
    text.chars().map(written).collect()
}

#[cfg(test)]
mod tests {
    use super::*;

    #[test]
    fn names_cannot_leave_their_place() {
        assert_eq!(escaped("<b>&\"'</b> é"), "&lt;b&gt;&amp;&quot;&#39;&lt;/b&gt; é");
        assert_eq!(in_style("A, 1\"</style>\\é"), "A\\2c  1\\22 \\3c \\2f style\\3e \\5c \\e9 ");
    }
}
