//! Refusals in words. Number and place come from the proved functions; which
//! field it is, what stood there and what helps is found here, for people.

mod keys;
mod layout;
mod legs;
mod order;
pub mod questions;
mod values;

use proved::Answer;

use crate::dates;
use crate::files::place::*;
use crate::files::{lines, Line, FILES, LONGEST_FILE, NAMES};
use crate::records::{number, record_of, Record, FIRST};
use crate::trouble::Trouble;

/// A refusal as a person reads it.
#[derive(Debug, Default)]
pub struct Explanation {
    pub number: u64,
    pub meaning: &'static str,
    /// The file's name, or nothing where there is no place.
    pub file: &'static str,
    pub ordinal: u64,
    pub line: u64,
    /// The line counted from the file's beginning.
    pub file_line: Option<u64>,
    pub service: Option<String>,
    pub shown: Vec<Shown>,
    pub field: Option<String>,
    pub found: Option<String>,
    pub expected: Option<String>,
    pub advice: String,
}

/// A line to be shown, with a mark under some of its columns.
#[derive(Debug, Clone)]
pub struct Shown {
    pub label: String,
    pub text: Vec<u8>,
    /// The first and the last column marked, from 1.
    pub mark: Option<(usize, usize)>,
}

/// Whose text it is, for what is to be done about it.
#[derive(Clone, Copy, PartialEq, Debug)]
pub enum Whose {
    Delivery,
    /// The block of an amendment, as it stands in the edited TIMETBLS.
    Block,
}

impl Whose {
    fn correct(self) -> &'static str {
        match self {
            Whose::Delivery => {
                "Ask the supplier for a corrected delivery, or correct the line and check again."
            }
            Whose::Block => {
                "Correct the block's file, with full lines (blanks included) that end in CR LF, and amend again."
            }
        }
    }
}

/// What the refusals' numbers mean.
pub fn meaning(number: u64) -> &'static str {
    match number {
        1 => "the file is too long",
        2 => "the file has more lines than there is room for",
        3 => "a needed file is absent",
        4 => "the line is not laid out as its record",
        5 => "a value is not allowed",
        6 => "the file's first line differs from DELIVERY's",
        7 => "the record may not stand here, or its group is unfinished",
        8 => "what must be unique comes twice",
        9 => "what is named is not in its own file",
        10 => "a first or last stop is out of range, or a leg is uncovered or covered twice",
        11 => "the block is not one block of this service",
        12 => "there is no such service",
        13 => "the service has no such stop or leg",
        14 => "it is not a date, or outside the delivery's validity",
        15 => "the station's time zone has no period on that day",
        16 => "the tables are not sound",
        17 => "there is no such station",
        _ => "refused",
    }
}

/// What is found out about a line.
struct Finding {
    field: Option<&'static str>,
    mark: Option<(usize, usize)>,
    found: String,
    expected: String,
    /// What to do; none where correcting the line is all.
    advice: Option<String>,
    /// Other lines that show what is wrong.
    beside: Vec<Shown>,
}

impl Finding {
    fn at(mark: (usize, usize), found: impl Into<String>, expected: impl Into<String>) -> Finding {
        Finding {
            field: None,
            mark: Some(mark),
            found: found.into(),
            expected: expected.into(),
            advice: None,
            beside: Vec::new(),
        }
    }

    fn of(
        field: &'static str,
        mark: (usize, usize),
        found: impl Into<String>,
        expected: impl Into<String>,
    ) -> Finding {
        Finding { field: Some(field), ..Finding::at(mark, found, expected) }
    }

    fn advising(self, advice: impl Into<String>) -> Finding {
        Finding { advice: Some(advice.into()), ..self }
    }

    /// The same, for a delivery alone: a block's line is corrected.
    fn advising_of_delivery(self, case: &Case, advice: impl Into<String>) -> Finding {
        match case.whose {
            Whose::Delivery => self.advising(advice),
            Whose::Block => self,
        }
    }

    fn beside(mut self, shown: Shown) -> Finding {
        self.beside.push(shown);
        self
    }
}

/// The refused line and what it stands in.
struct Case<'a> {
    texts: [&'a [u8]; FILES],
    file: usize,
    lines: Vec<Line<'a>>,
    /// The line's place in the file, from 0.
    at: usize,
    whose: Whose,
}

/// Explains the refusal of a load, or of an amendment as a load of the edited
/// text.
pub fn load(texts: [&[u8]; FILES], answer: &Answer, whose: Whose) -> Explanation {
    let file = (answer.file as usize).wrapping_sub(1);
    let mut told = Explanation {
        number: answer.number,
        meaning: meaning(answer.number),
        ordinal: answer.ordinal,
        line: answer.line,
        ..Explanation::default()
    };
    let Some(name) = NAMES.get(file) else {
        told.advice = whose.correct().into();
        return told;
    };
    told.file = name;
    if answer.line == 0 {
        whole_file(&mut told, file, texts[file]);
        return told;
    }
    let lines: Vec<Line> = lines(texts[file]).collect();
    let Some(at) = place_in(file, &lines, answer.ordinal, answer.line) else {
        told.advice = whose.correct().into();
        return told;
    };
    let case = Case { texts, file, lines, at, whose };
    told.file_line = Some(at as u64 + 1);
    told.service = case.service();
    let finding = match answer.number {
        4 => layout::find(&case),
        5 => values::find(&case),
        6 => layout::first_line(&case),
        7 => order::find(&case),
        8 => keys::twice(&case),
        9 => keys::missing(&case),
        10 => legs::find(&case),
        _ => None,
    };
    case.tell(&mut told, finding);
    told
}

/// Number and place alone, where the files are not there to say more.
pub fn place_alone(answer: &Answer, why: &Trouble) -> Explanation {
    Explanation {
        number: answer.number,
        meaning: meaning(answer.number),
        file: NAMES.get((answer.file as usize).wrapping_sub(1)).copied().unwrap_or(""),
        ordinal: answer.ordinal,
        line: answer.line,
        advice: format!("More cannot be told: {why}"),
        ..Explanation::default()
    }
}

fn whole_file(told: &mut Explanation, file: usize, text: &[u8]) {
    let (found, expected, advice) = match told.number {
        1 => (
            format!("more than {LONGEST_FILE} bytes"),
            format!("at most {LONGEST_FILE} bytes"),
            "Ask the supplier for the delivery in parts.".to_string(),
        ),
        3 => (
            match text.is_empty() {
                true => format!("no file {} (nor {}.dat), or one of 0 bytes", NAMES[file], NAMES[file].to_lowercase()),
                false => "another file".into(),
            },
            match file {
                XFOOTNOTE => "XFOOTNOTE, since XCHANGES is there".to_string(),
                _ => "all files but CHANGES, XFOOTNOTE and XCHANGES, which may be absent".to_string(),
            },
            "Was the folder copied whole? Else ask the supplier for the missing file.".to_string(),
        ),
        _ => (
            "more lines than the store has room for".to_string(),
            "lines that the store has room for".to_string(),
            "Open the delivery again with more room: calyxcabin open DELIVERY STORE --spare LINES, then amend again."
                .to_string(),
        ),
    };
    (told.found, told.expected, told.advice) = (Some(found), Some(expected), advice);
}

/// The place in the file, from 0, of a line by its block and its line there.
fn place_in(file: usize, lines: &[Line], ordinal: u64, line: u64) -> Option<usize> {
    let within = usize::try_from(line).ok()?.checked_sub(1)?;
    let start = match (file, ordinal) {
        (TIMETBLS, 1..) => {
            let opens = |&at: &usize| lines[at].text.first() == Some(&b'#');
            (1..lines.len()).filter(opens).nth(usize::try_from(ordinal).ok()? - 1)?
        }
        _ => 0,
    };
    (start + within < lines.len()).then_some(start + within)
}

impl<'a> Case<'a> {
    fn line(&self) -> Line<'a> {
        self.lines[self.at]
    }

    fn text(&self) -> &'a [u8] {
        self.line().text
    }

    fn letter(&self) -> Option<u8> {
        self.text().first().copied()
    }

    /// The record that the line is, or should be; none for a vector.
    fn record(&self) -> Option<&'static Record> {
        match self.at {
            0 => Some(&FIRST),
            _ => record_of(self.file, self.letter().unwrap_or(0)),
        }
    }

    /// The days of validity, by DELIVERY's first line.
    fn days(&self) -> Option<usize> {
        let first = lines(self.texts[DELIVERY]).next()?.text;
        let day = |from: usize, to: usize| dates::count(number(first.get(from - 1..to)?)?);
        usize::try_from(day(15, 22)? - day(6, 13)? + 1).ok()
    }

    /// Where the line's block or group begins.
    fn opening(&self) -> Option<usize> {
        (1..=self.at).rev().find(|&at| self.lines[at].text.first() == Some(&b'#'))
    }

    /// The lines of the block or group, as places in the file.
    fn group(&self) -> std::ops::Range<usize> {
        let start = self.opening().unwrap_or(self.at);
        let more = self.lines[start + 1..].iter().take_while(|line| line.text.first() != Some(&b'#')).count();
        start..start + 1 + more
    }

    fn service(&self) -> Option<String> {
        let opening = (self.file == TIMETBLS).then(|| self.opening()).flatten()?;
        Some(crate::files::latin(self.lines[opening].text.get(1..9)?))
    }

    /// What a line is called: its number in the file, or in the block.
    fn label(&self, at: usize) -> String {
        match (self.whose, self.opening()) {
            (Whose::Block, Some(opening)) if self.group().contains(&at) => {
                format!("line {}", at - opening + 1)
            }
            _ => format!("line {}", at + 1),
        }
    }

    fn show(&self, at: usize, mark: Option<(usize, usize)>) -> Shown {
        Shown { label: self.label(at), text: self.lines[at].text.to_vec(), mark }
    }

    fn tell(&self, told: &mut Explanation, finding: Option<Finding>) {
        let mark = finding.as_ref().and_then(|finding| finding.mark);
        told.shown = vec![self.show(self.at, mark)];
        let Some(finding) = finding else {
            told.advice = self.whose.correct().into();
            return;
        };
        told.shown.extend(finding.beside);
        told.field = finding.field.map(String::from);
        told.found = Some(finding.found);
        told.expected = Some(finding.expected);
        told.advice = finding.advice.unwrap_or_else(|| self.whose.correct().into());
    }
}

/// A field as it stood, between quotes.
fn quoted(field: &[u8]) -> String {
    format!("\"{}\"", visible(field))
}

/// Bytes as characters; those that cannot be seen as a dot in the middle.
pub fn visible(bytes: &[u8]) -> String {
    let shown = |byte: u8| match byte {
        32..=126 | 160..=255 => char::from(byte),
        _ => '·',
    };
    bytes.iter().map(|&byte| shown(byte)).collect()
}

#[cfg(test)]
mod tests {
    use deliveries::{causes, Case};
    use proved::Answer;

    use super::{load, Explanation, Whose};
    use crate::loading::{load_texts, rooms_with, Spare};

    fn answer_of(case: &Case) -> Answer {
        let texts = case.texts();
        load_texts(texts, &rooms_with(texts, Spare::Lines(0))).0
    }

    fn explained(case: &Case) -> Option<Explanation> {
        let answer = answer_of(case);
        (!answer.is_accepted()).then(|| load(case.texts(), &answer, Whose::Delivery))
    }

    /// Every cause of every refusal, by record and field, is found: what stood
    /// there, what is expected, and where a line is to be shown, a mark in it.
    #[test]
    fn every_cause_is_found() {
        let mut met = 0;
        for cause in causes() {
            for seed in 0..6 {
                let Some((case, _)) = cause.case(seed) else { continue };
                let Some(told) = explained(&case) else { continue };
                met += 1;
                let what = format!("{cause} of seed {seed}: {told:#?}");
                assert!(!told.advice.is_empty() && !told.meaning.is_empty(), "{what}");
                assert!(told.found.is_some() && told.expected.is_some(), "{what}");
                if told.line > 0 {
                    let shown = told.shown.first().expect("a line to show");
                    assert!(shown.mark.is_some(), "{what}");
                }
            }
        }
        assert!(met > 1_000, "{met} causes met");
    }

    /// So is whatever damaged deliveries are refused for.
    #[test]
    fn damages_are_found() {
        for seed in 0..3_000 {
            let case = deliveries::damaged(seed);
            let Some(told) = explained(&case) else { continue };
            assert!(told.found.is_some() && told.expected.is_some(), "seed {seed}: {told:#?}");
        }
    }
}
