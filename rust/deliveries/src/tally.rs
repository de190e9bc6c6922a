//! How often deliveries are accepted, and refused with which number in which file;
//! how often questions come to what.

use std::collections::BTreeMap;
use std::fmt;
use std::ops::RangeInclusive;

use crate::{FILES, NAMES};

/// The numbers of the refusals of a load.
const NUMBERS: RangeInclusive<u8> = 1..=10;

/// Whether document 01 lets a load refuse with this number in this file, which
/// is numbered from 1.
pub fn can_occur(number: u8, file: u8) -> bool {
    let is_delivery = file == 1;
    match number {
        1 | 2 | 4 | 5 | 7 => true,
        // CHANGES and XCHANGES are never needed.
        3 => !matches!(file, 9 | 11),
        6 | 8 => !is_delivery,
        // Only DELIVERY, STATIONS, TIMETBLS, CHANGES and XCHANGES name anything.
        9 => matches!(file, 1 | 6 | 8 | 9 | 11),
        10 => file == 8,
        _ => false,
    }
}

/// Counts of answers.
#[derive(Clone, Debug, Default)]
pub struct Tally {
    accepted: usize,
    refused: BTreeMap<(u8, u8), usize>,
}

impl Tally {
    pub fn accept(&mut self) {
        self.accepted += 1;
    }

    pub fn refuse(&mut self, number: u8, file: u8) {
        *self.refused.entry((number, file)).or_default() += 1;
    }

    /// Counts what another tally has counted.
    pub fn add(&mut self, other: &Tally) {
        self.accepted += other.accepted;
        for (&refusal, count) in &other.refused {
            *self.refused.entry(refusal).or_default() += count;
        }
    }

    pub fn accepted(&self) -> usize {
        self.accepted
    }

    pub fn total(&self) -> usize {
        self.accepted + self.refused.values().sum::<usize>()
    }

    pub fn refused(&self, number: u8, file: u8) -> usize {
        self.refused.get(&(number, file)).copied().unwrap_or(0)
    }

    /// The refusals, with their files, that can occur and were met less often.
    pub fn rarer_than(&self, often: usize) -> Vec<(u8, u8)> {
        refusals_by_file()
            .filter(|&(number, file)| can_occur(number, file) && self.refused(number, file) < often)
            .collect()
    }

    /// The refusals, with their files, that were met and cannot occur.
    pub fn unexpected(&self) -> Vec<(u8, u8)> {
        self.refused.keys().copied().filter(|&(number, file)| !can_occur(number, file)).collect()
    }
}

fn refusals_by_file() -> impl Iterator<Item = (u8, u8)> {
    NUMBERS.flat_map(|number| (1..=FILES as u8).map(move |file| (number, file)))
}

/// A line for each refusal, a column for each file; `-` where it cannot occur.
impl fmt::Display for Tally {
    fn fmt(&self, out: &mut fmt::Formatter) -> fmt::Result {
        writeln!(out, "{} deliveries, {} accepted", self.total(), self.accepted)?;
        write!(out, "refusal")?;
        for name in NAMES {
            write!(out, " {name:>9}")?;
        }
        for number in NUMBERS {
            write!(out, "\n{number:>7}")?;
            for file in 1..=FILES as u8 {
                match (self.refused(number, file), can_occur(number, file)) {
                    (0, false) => write!(out, " {:>9}", "-")?,
                    (count, _) => write!(out, " {count:>9}")?,
                }
            }
        }
        Ok(())
    }
}

/// What the desk's questions can come to by documents 01 and 02. A stop has an arrival,
/// a departure or both, never neither.
pub const OF_QUESTIONS: &[&str] = &[
    "running day: runs",
    "running day: rests",
    "running day: refused 12",
    "running day: refused 13",
    "running day: refused 14",
    "running day: refused 16",
    "stop time: arrival and departure",
    "stop time: no arrival",
    "stop time: no departure",
    "stop time: refused 12",
    "stop time: refused 13",
    "stop time: refused 14",
    "stop time: refused 15",
    "stop time: refused 16",
    "change: No, same service and date",
    "change: No, A does not run",
    "change: No, B does not run",
    "change: No, stations differ",
    "change: No, nobody alights",
    "change: No, nobody boards",
    "change: No, pair 00, by CHANGES",
    "change: No, flag 0, by STATIONS",
    "change: No, gap below needed, by CHANGES",
    "change: No, gap below needed, by STATIONS",
    "change: No, gap below needed, by XCHANGES",
    "change: No, gap below needed, by CHANGES, a minute",
    "change: No, gap below needed, by STATIONS, a minute",
    "change: No, gap below needed, by XCHANGES, a minute",
    "change: Yes, by CHANGES",
    "change: Yes, by STATIONS",
    "change: Yes, by XCHANGES",
    "change: Yes, by CHANGES, gap just needed",
    "change: Yes, by STATIONS, gap just needed",
    "change: Yes, by XCHANGES, gap just needed",
    "change: Unsettled, by STATIONS",
    "change: Unsettled, by XCHANGES",
    "change: Unsettled, by STATIONS, gap just needed",
    "change: Unsettled, by XCHANGES, gap just needed",
    "change: refused 12",
    "change: refused 13",
    "change: refused 14",
    "change: refused 15",
    "change: refused 16",
    "name: there",
    "name: refused 17",
    "lines now: of the block",
    "lines now: of the text",
    "lines now: refused 12",
];

/// What questions can tell of clocks: by which day a program goes, the service day
/// or that of the time itself, and from which minute on.
pub const OF_CLOCKS: &[&str] = &[
    "stop time: arrival by other hours than the service day's",
    "stop time: departure by other hours than the service day's",
    "stop time: arrival and departure by different hours",
    "stop time: the last minute before other hours",
    "stop time: the first minute of other hours",
    "stop time: arrival, the service day having no period",
    "stop time: departure, the service day having no period",
    "stop time: refused 15 by the arrival alone, the service day having a period",
    "stop time: refused 15 by the departure alone, the service day having a period",
    "stop time: refused 15 by both times, the service day having a period",
    "stop time: refused 15 by the only time, the service day having a period",
    "change: A by other hours than the service day's",
    "change: B by other hours than the service day's",
    "change: A, the service day having no period",
    "change: B, the service day having no period",
    "change: refused 15 by A alone, the service days having periods",
    "change: refused 15 by B alone, the service days having periods",
    "change: refused 15 by both sides, the service days having periods",
];

/// What changes can tell of exceptions: the pattern of the one that counts, by the
/// desk's card, and what tells it from the others that apply.
pub const OF_EXCEPTIONS: &[&str] = &[
    "**** counts",
    "***m counts",
    "**c* counts",
    "**cm counts",
    "*m** counts",
    "*m*m counts",
    "*mc* counts",
    "*mcm counts",
    "c*** counts",
    "c**m counts",
    "c*c* counts",
    "c*cm counts",
    "cm** counts",
    "cm*m counts",
    "cmc* counts",
    "cmcm counts",
    "the only one that applies",
    "a higher place with a smaller time",
    "a higher place with a time as large",
    "the same place, the larger time before",
    "the same place, the larger time after",
    "the same place and the same time",
];

/// What soundness can come to: the rule that the rows of tables break first. No
/// table has more rows than room, and none made here is long enough for 1.
pub const OF_SOUNDNESS: &[&str] = &[
    "sound",
    "a row stands for no line",
    "rule 3",
    "rule 4",
    "rule 5",
    "rule 6",
    "rule 7",
    "rule 8",
    "rule 9",
    "rule 10",
    "unused places or derived words",
];

/// What sheets can come to, and how long their lists then are.
pub const OF_SHEETS: &[&str] = &[
    "answered",
    "answered: no question",
    "answered: no question and no place",
    "answered: one question",
    "answered: a hundred questions and more",
    "answered: just as many places",
    "answered: one place more",
    "answered: several places more",
    "answered: words over in the questions",
    "answered: words over in the list",
    "answered: all but one of a question's words over",
    "answered: all but one of an answer's words over",
    "answered: questions refused by themselves",
    "answered: the first refused by itself, and not the last",
    "answered: the last refused by itself, and not the first",
    "answered: a gap below zero",
    "refused 16",
    "refused 16: no question",
    "refused 16: too few places",
    "refused 23",
    "refused 23: no place",
    "refused 23: one place too few",
    "refused 23: one word too few",
    "refused 23: no fewer words than the questions have",
];

/// What the changes on a sheet can come to: what a single one can, but for 16, to
/// which the sheet comes as a whole.
pub fn of_changes_on_sheets() -> Vec<&'static str> {
    let changes = OF_QUESTIONS.iter().filter(|outcome| outcome.starts_with("change: "));
    changes.copied().filter(|outcome| *outcome != "change: refused 16").collect()
}

/// What amendments can come to. No file is absent (3) and no first line touched
/// (6), and a block under its own service's name repeats no key (8). Refusal 1
/// takes blocks so long that they are counted apart.
pub const OF_AMENDMENTS: &[&str] = &[
    "accepted",
    "accepted: more lines",
    "accepted: fewer lines",
    "accepted: as many lines",
    "accepted: the very same lines",
    "accepted: the first service",
    "accepted: a service between",
    "accepted: the last service",
    "accepted: the only service",
    "accepted: named in CHANGES",
    "accepted: after three others",
    "accepted: by freed room alone",
    "accepted: the room is full",
    "refused 2",
    "refused 2: by one line",
    "refused 4",
    "refused 5",
    "refused 7",
    "refused 9",
    "refused 10",
    "refused 11",
    "refused 12",
    "refused 16",
];

/// What amendments by blocks near the largest length of a file come to.
pub const OF_LONG_BLOCKS: &[&str] =
    &["the largest length: refused 4", "too long: refused 1", "too long, not held: refused 12"];

/// Counts of outcomes, of which some are expected.
#[derive(Clone, Debug)]
pub struct Outcomes {
    expected: Vec<&'static str>,
    counts: BTreeMap<String, usize>,
}

impl Outcomes {
    pub fn new(expected: &[&'static str]) -> Outcomes {
        Outcomes { expected: expected.to_vec(), counts: BTreeMap::new() }
    }

    pub fn count(&mut self, outcome: String) {
        *self.counts.entry(outcome).or_default() += 1;
    }

    pub fn of(&self, outcome: &str) -> usize {
        self.counts.get(outcome).copied().unwrap_or(0)
    }

    pub fn total(&self) -> usize {
        self.counts.values().sum()
    }

    /// The expected outcomes that were met less often.
    pub fn rarer_than(&self, often: usize) -> Vec<&'static str> {
        self.expected.iter().copied().filter(|outcome| self.of(outcome) < often).collect()
    }

    /// The outcomes that were met and are not expected.
    pub fn unexpected(&self) -> Vec<&str> {
        let is_expected = |outcome: &&str| self.expected.contains(outcome);
        self.counts.keys().map(String::as_str).filter(|outcome| !is_expected(outcome)).collect()
    }
}

/// A line for each outcome.
impl fmt::Display for Outcomes {
    fn fmt(&self, out: &mut fmt::Formatter) -> fmt::Result {
        let all = self.expected.iter().copied().chain(self.unexpected());
        let lines: Vec<String> = all.map(|outcome| format!("{:>7} {outcome}", self.of(outcome))).collect();
        out.write_str(&lines.join("\n"))
    }
}
