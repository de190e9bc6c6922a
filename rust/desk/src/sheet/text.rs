//! The sheet for people, on a terminal or a pipe.

use super::words::{end, in_hours, none_arrives, remarks, remarks_on_arrival, train, verdict, UNSETTLED};
use crate::answers::{Arrival, Onward, Sheet, SheetCall};
use crate::dates::{self, face};
use crate::speech::Colour;

const COLUMNS: usize = 9;

const HEAD: [&str; COLUMNS] =
    ["arrives", "departs", "service", "stop", "with", "from, to", "change", "gap", "needed"];

/// The columns of numbers, which stand to the right.
const OF_NUMBERS: [usize; 3] = [3, 7, 8];

/// The column of verdicts.
const CHANGE: usize = 6;

pub fn text(sheet: &Sheet, colour: Colour) -> String {
    let mut text = head(sheet, colour);
    match sheet.arrivals.is_empty() {
        true => text += &format!("\n{}\n", none_arrives(sheet)),
        false => text += &table(sheet, colour),
    }
    let unsettled = (sheet.counts.unsettled > 0).then_some(UNSETTLED);
    for said in sheet.notes.iter().map(String::as_str).chain(unsettled) {
        text += &format!("\n{said}\n");
    }
    text
}

fn head(sheet: &Sheet, colour: Colour) -> String {
    let station = format!("{} {}", sheet.station.trim_end(), sheet.name.as_deref().unwrap_or(""));
    let counts = &sheet.counts;
    let refused = match counts.refused {
        0 => String::new(),
        refused => format!(", {refused} refused"),
    };
    format!(
        "{}\n  arrivals     {}{}\n  departures   up to {} after each arrival\n  changes      {}: {} Yes, {} No, {} \
         Unsettled{refused}\n",
        colour.strong(&format!("{}, {}", station.trim_end(), dates::weekday(sheet.date.0))),
        counts.arrivals,
        in_hours(sheet),
        dates::length(sheet.within),
        counts.changes,
        counts.yes,
        counts.no,
        counts.unsettled,
    )
}

/// The cells of a row.
type Cells = [String; COLUMNS];

fn table(sheet: &Sheet, colour: Colour) -> String {
    let widths = widths(sheet);
    let plain = |word: &str| word.to_string();
    let painted = |word: &str| match word {
        "Yes" => colour.good(word),
        "Unsettled" => colour.open(word),
        _ => colour.bad(word),
    };
    let mut text = format!("\n{}\n", row(&HEAD.map(String::from), "", &widths, plain));
    for (at, arrival) in sheet.arrivals.iter().enumerate() {
        text += if at > 0 { "\n" } else { "" };
        let said = remarks_on_arrival(arrival.call, sheet);
        text += &format!("{}\n", colour.strong(&row(&arriving(arrival), &said, &widths, plain)));
        for onward in &arrival.changes {
            let said = remarks(arrival.call, onward, sheet);
            text += &format!("{}\n", row(&departing(onward), &said, &widths, painted));
        }
    }
    text
}

/// The widths of the columns, by all of their cells.
fn widths(sheet: &Sheet) -> [usize; COLUMNS] {
    let mut widths = HEAD.map(str::len);
    let mut widen = |cells: Cells| {
        widths.iter_mut().zip(&cells).for_each(|(width, cell)| *width = cell.chars().count().max(*width));
    };
    for arrival in &sheet.arrivals {
        widen(arriving(arrival));
        arrival.changes.iter().for_each(|onward| widen(departing(onward)));
    }
    widths
}

/// A line of the table, marked where it is neither Yes nor No, and what is said behind
/// it. A painted word has the width of a plain one.
fn row(cells: &Cells, said: &str, widths: &[usize; COLUMNS], paint: impl Fn(&str) -> String) -> String {
    let mark = match cells[CHANGE].as_str() {
        "Unsettled" => "?",
        refused if refused.starts_with("Refused") => "!",
        _ => " ",
    };
    let mut line = String::new();
    for (at, (cell, width)) in cells.iter().zip(widths).enumerate() {
        let blanks = " ".repeat(width - cell.chars().count());
        line += &match at {
            _ if OF_NUMBERS.contains(&at) => format!("  {blanks}{cell}"),
            CHANGE if !cell.is_empty() => format!("  {}{blanks}", paint(cell)),
            _ => format!("  {cell}{blanks}"),
        };
    }
    // The mark stands in the first of the blanks before the first cell.
    line.replace_range(..1, mark);
    format!("{line}  {said}").trim_end().into()
}

/// The cells that an arrival and a departure have alike.
fn cells(call: &SheetCall) -> Cells {
    let mut cells = Cells::default();
    cells[2] = format!("{:08}", call.service);
    cells[3] = call.stop.to_string();
    cells[4] = train(call);
    cells
}

fn arriving(arrival: &Arrival) -> Cells {
    let mut cells = cells(arrival.call);
    cells[0] = face(arrival.call.local);
    cells[5] = format!("from {}", end(arrival.call));
    if arrival.changes.is_empty() {
        cells[CHANGE] = "none".into();
    }
    cells
}

fn departing(onward: &Onward) -> Cells {
    let number = |number: Option<i64>| number.map_or(String::new(), |number| number.to_string());
    let change = onward.answer.ok();
    let mut cells = cells(onward.to);
    cells[1] = face(onward.to.local);
    cells[5] = format!("to {}", end(onward.to));
    cells[CHANGE] = verdict(&onward.answer);
    cells[7] = number(change.and_then(|change| change.gap).map(i64::from));
    cells[8] = number(change.and_then(|change| change.needed).map(|needed| needed as i64));
    cells
}
