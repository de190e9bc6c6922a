//! A sheet of changes in one call of the proved crates, beside a plain program over
//! the same tables.

use std::time::Duration;

use compare::answers::Examined;
use compare::{by_proved, junk, lengths_of, Tables};
use deliveries::connections::{connections, Connections};
use deliveries::place::{CHANGES, XCHANGES};
use deliveries::questions::Side;
use deliveries::tables::{rows_in_use, GROUP};
use deliveries::{connected, Rng};
use proved::FILES;

use crate::plain::Plain;
use crate::plan::{Order, Size};
use crate::rounds::{in_more_rounds, milliseconds, timed};
use crate::words::{self, AnswerWords, QuestionWords};

pub const HEADING: &str = "\
| services | keys | changes | CHANGES: stations, pairs | XCHANGES: stations, rows | with a needed time | by CHANGES, STATIONS, XCHANGES | sheet s | sound s | sheet less sound ms | sheet less one of none ms | of ten thousand, ms a thousand | plain: maps ms | its questions ms | of ten thousand, ms a thousand | questions / plain's | of ten thousand | sheet / plain's maps and questions |
|---|---|---|---|---|---|---|---|---|---|---|---|---|---|---|---|---|---|";

/// The changes of a sheet.
const LENGTH: usize = 1_000;
/// Those of a long one, whose questions take a larger share of the call: so their
/// time is known better.
const LONG: usize = 10 * LENGTH;
/// Every so many of a sheet's changes one is asked for by itself too.
const STEP: usize = 50;

/// Measures, and answers the row's cells behind services, keys and changes.
pub fn row(size: Size, kind: Connections) -> String {
    let (world, case) = connected(1, size.services, size.order == Order::Rising);
    let examined: Examined = Ok(second::load(&case.texts(), &case.rooms).expect("a sound delivery"));
    let mut rng = Rng::new(1);
    let loaded = by_proved(case.texts(), junk(&mut rng, &lengths_of(&case.rooms)));
    assert!(loaded.answer.is_accepted(), "The delivery is refused.");
    let mut of_length = |count| {
        let asked = Asked::new(connections(&mut rng, &world, &loaded.tables, kind, count), &examined);
        asked.meets(kind);
        asked
    };
    let (asked, long) = (of_length(LENGTH), of_length(LONG));
    drop(examined);

    let tables = loaded.tables.each_ref().map(Vec::as_slice);
    asked.singly(tables);
    let times = best(tables, &asked, &long);
    let groups = [CHANGES, XCHANGES].map(|file| counts(&loaded.tables, file));
    format!(" {} |{}{}", groups.join(" | "), asked.cells(), times.cells())
}

/// How many stations a table has rows for, and how many rows.
fn counts(tables: &Tables, file: usize) -> String {
    let rows = rows_in_use(tables, file).skip(1);
    let (stations, rows): (Vec<_>, Vec<_>) = rows.partition(|row| row[0] == GROUP);
    format!("{}, {}", stations.len(), rows.len())
}

/// Changes, as words too, and what the second program answers.
struct Asked {
    changes: Vec<(Side, Side)>,
    questions: Vec<QuestionWords>,
    expected: Vec<AnswerWords>,
}

impl Asked {
    fn new(changes: Vec<(Side, Side)>, examined: &Examined) -> Asked {
        let questions = changes.iter().map(words::question).collect();
        let expected = words::by_second(&changes, examined);
        Asked { changes, questions, expected }
    }

    /// How many answers have a needed time.
    fn needed(&self) -> usize {
        self.expected.iter().filter(|answer| words::has_needed(answer)).count()
    }

    /// How many have a needed time by each source, CHANGES first.
    fn by_source(&self) -> [usize; 3] {
        let by = |source| {
            let answers = self.expected.iter().filter(|answer| words::has_needed(answer));
            answers.filter(|answer| words::source(answer) == source).count()
        };
        [1, 2, 3].map(by)
    }

    /// Fails where the changes do not come to what they were made for: at least half
    /// of them need a time, unless all are refused.
    fn meets(&self, kind: Connections) {
        let many = 2 * self.needed() >= self.changes.len();
        let [by_changes, _, by_exceptions] = self.by_source();
        let met = match kind {
            Connections::Usual => many && by_changes > 0 && by_exceptions > 0,
            Connections::WithoutGroups => many && by_changes == 0 && by_exceptions == 0,
            Connections::UnknownServices => self.expected.iter().all(|answer| answer[0] == 12),
        };
        let (needed, all) = (self.needed(), self.changes.len());
        assert!(met, "The changes come to something else than they should: {needed} of {all} need a time.");
    }

    /// Asks for some of the changes one by one, and for the same ones as a sheet.
    fn singly(&self, tables: [&[u64]; FILES]) {
        let side = |side: Side| proved::Side { service: side.service, stop: side.stop, date: side.date };
        let sides = |&(from, to): &(Side, Side)| (side(from), side(to));
        let some: Vec<_> = self.changes.iter().step_by(STEP).map(sides).collect();
        let together = proved::sheet(tables, &some).expect("sound tables");
        for (place, (from, to)) in some.into_iter().enumerate() {
            let single = proved::change(tables, from, to);
            assert!(single == together[place], "A sheet answers another than the single question.");
            let words = words::answer(single.map_err(|proved::Refusal(number)| number));
            assert!(words == self.expected[place * STEP], "The two programs differ.");
        }
    }

    fn cells(&self) -> String {
        let by_source = self.by_source().map(|count| count.to_string());
        format!(" {} of {} | {} |", self.needed(), self.changes.len(), by_source.join(", "))
    }

    /// Asks for all of them, into answers that hold something already.
    fn of_proved(&self, tables: [&[u64]; FILES], best: &mut Duration) {
        self.answered_by(best, |questions, answers| {
            let number = proved::sheet_words(tables, questions.as_flattened(), answers.as_flattened_mut());
            assert!(number == 0, "A sheet is refused.");
        });
    }

    fn of_plain(&self, plain: &Plain, best: &mut Duration) {
        self.answered_by(best, |questions, answers| plain.sheet(questions, answers));
    }

    fn answered_by(&self, best: &mut Duration, answer: impl FnOnce(&[QuestionWords], &mut [AnswerWords])) {
        let mut answers = vec![[u64::MAX; proved::ANSWER_WORDS]; self.questions.len()];
        timed(best, || answer(&self.questions, &mut answers));
        assert!(answers == self.expected, "The programs differ.");
    }
}

/// The best times: of a sheet, of a long one and one of no questions, and of
/// soundness; of the plain program's maps, and of its questions.
struct Times {
    sheet: Duration,
    long: Duration,
    none: Duration,
    soundness: Duration,
    maps: Duration,
    plain: Duration,
    plain_long: Duration,
}

/// All must agree.
fn best(tables: [&[u64]; FILES], asked: &Asked, long: &Asked) -> Times {
    let longest = Duration::MAX;
    let mut best = Times {
        sheet: longest,
        long: longest,
        none: longest,
        soundness: longest,
        maps: longest,
        plain: longest,
        plain_long: longest,
    };
    in_more_rounds(|| {
        let none = timed(&mut best.none, || proved::sheet_words(tables, &[], &mut []));
        assert!(none == 0, "A sheet is refused.");
        asked.of_proved(tables, &mut best.sheet);
        long.of_proved(tables, &mut best.long);
        // The plain program finds in the processor's memory what a sheet's own
        // questions find there: what the test of the tables has left.
        assert!(timed(&mut best.soundness, || proved::is_sound(tables)), "Loaded tables are not sound.");
        let plain = timed(&mut best.maps, || Plain::new(tables));
        asked.of_plain(&plain, &mut best.plain);
        long.of_plain(&plain, &mut best.plain_long);
    });
    best
}

impl Times {
    fn cells(&self) -> String {
        let thousands = (LONG / LENGTH) as f64;
        let [sheet, none, soundness] = [self.sheet, self.none, self.soundness].map(milliseconds);
        let [maps, plain] = [self.maps, self.plain].map(milliseconds);
        let (questions, long) = (sheet - none, (milliseconds(self.long) - none) / thousands);
        let plain_long = milliseconds(self.plain_long) / thousands;
        format!(
            " {:.4} | {:.4} | {:.2} | {questions:.2} | {long:.2} | {maps:.2} | {plain:.2} | {plain_long:.2} | {:.2} | {:.2} | {:.2} |",
            sheet / 1e3,
            soundness / 1e3,
            sheet - soundness,
            questions / plain,
            long / plain_long,
            sheet / (maps + plain),
        )
    }
}
