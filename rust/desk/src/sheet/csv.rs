//! The sheet as comma-separated values (RFC 4180): a header, then one row a change;
//! lines end in CR LF.

use proved::Refusal;

use crate::answers::{Changed, Onward, Sheet, SheetCall};
use crate::dates::{face, iso_date};

/// What there is of the service that one leaves, and of the one boarded.
const OF_A_SIDE: [&str; 10] = [
    "service",
    "stop",
    "service_date",
    "date",
    "time",
    "company",
    "company_code",
    "company_name",
    "number",
    "mode",
];

const OF_A_CHANGE: [&str; 7] = ["change", "reason", "gap", "source", "needed", "line", "refused"];

pub fn csv(sheet: &Sheet) -> String {
    let mut text = row(header());
    let station = [sheet.station.trim_end(), sheet.name.as_deref().unwrap_or("")].map(String::from);
    for arrival in &sheet.arrivals {
        let left: Vec<String> = station.iter().cloned().chain(side(arrival.call)).collect();
        for onward in &arrival.changes {
            text += &row(left.iter().cloned().chain(side(onward.to)).chain(change(onward)));
        }
    }
    text
}

fn header() -> impl Iterator<Item = String> {
    let of = |side: &str, end: &str| {
        let names = OF_A_SIDE.map(|name| format!("{side}_{name}"));
        names.into_iter().chain([end.to_string(), format!("{end}_name")]).collect::<Vec<_>>()
    };
    let sides = of("from", "origin").into_iter().chain(of("to", "destination"));
    ["station", "name"].map(String::from).into_iter().chain(sides).chain(OF_A_CHANGE.map(String::from))
}

fn side(call: &SheetCall) -> Vec<String> {
    let end = call.origin.as_ref().or(call.destination.as_ref());
    vec![
        call.service.to_string(),
        call.stop.to_string(),
        iso_date(call.service_date.0),
        call.date.map_or(String::new(), |date| iso_date(date.0)),
        face(call.local),
        call.company.to_string(),
        call.company_code.clone().unwrap_or_default(),
        call.company_name.clone().unwrap_or_default(),
        call.number.to_string(),
        call.mode.trim_end().into(),
        end.map_or(String::new(), |end| end.station.trim_end().into()),
        end.and_then(|end| end.name.clone()).unwrap_or_default(),
    ]
}

fn change(onward: &Onward) -> [String; 7] {
    let told = onward.answer.ok().map(|change| Changed::of(&change));
    let told = told.as_ref();
    let word = |word: Option<&str>| word.unwrap_or_default().to_string();
    let number = |number: Option<i64>| number.map_or(String::new(), |number| number.to_string());
    [
        told.map_or("refused", |told| told.change).into(),
        word(told.and_then(|told| told.reason)),
        number(told.and_then(|told| told.gap).map(i64::from)),
        word(told.and_then(|told| told.source)),
        number(told.and_then(|told| told.needed).map(|needed| needed as i64)),
        number(onward.line.map(|line| line as i64)),
        number(onward.answer.err().map(|Refusal(number)| number as i64)),
    ]
}

fn row(fields: impl IntoIterator<Item = String>) -> String {
    let fields: Vec<String> = fields.into_iter().map(quoted).collect();
    fields.join(",") + "\r\n"
}

/// A field in quotes where a comma, a quote or an end of line would part it.
fn quoted(field: String) -> String {
    match field.contains([',', '"', '\r', '\n']) {
        true => format!("\"{}\"", field.replace('"', "\"\"")),
        false => field,
    }
}

#[cfg(test)]
mod tests {
    use super::*;

    #[test]
    fn fields_are_quoted_where_need_be() {
        let fields = ["plain", "", "two words", "a,b", "say \"no\"", "\r", "\n", "'", ";"].map(String::from);
        assert_eq!(row(fields), "plain,,two words,\"a,b\",\"say \"\"no\"\"\",\"\r\",\"\n\",',;\r\n");
        let names: Vec<String> = header().collect();
        assert_eq!(names.len(), 2 + 2 * 12 + 7);
    }
}
