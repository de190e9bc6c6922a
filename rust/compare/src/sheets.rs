//! Sheets: the changes that are asked singly, by one call for the tables they are
//! asked of; and any number of changes in lists of any length.

use std::io;
use std::ops::Range;

use compare::answers::{changes_of_second, outcome, Answer, Answered, Examined, Sides};
use compare::{junk, lengths_of, Filled, Tables};
use deliveries::questions::change;
use deliveries::sheets::{ANSWER, QUESTION};
use deliveries::tables::{damage_tables, derive};
use deliveries::tally::{of_changes_on_sheets, OF_SHEETS};
use deliveries::{large, of_each_sort, sheet, Outcomes, Question, Rng, Sheet, World};
use proved::ANSWER_WORDS;
use second::sound::examine;

use crate::asked::{self, at_borders, changes, Loaded};
use crate::comparison::Comparison;
use crate::{boat, card};

/// How much is asked of each delivery.
#[derive(Clone, Copy)]
pub struct Depth {
    /// What is asked singly: the changes among it make a sheet.
    singly: asked::Depth,
    /// Whether they are asked for again at the borders of their gaps.
    borders: bool,
    /// So many sheets have any changes and lists of any length.
    any: usize,
    /// So often its tables are damaged before such a sheet.
    damaged: usize,
}

pub const FULL: Depth = Depth { singly: asked::FULL, borders: true, any: 2, damaged: 1 };
/// For the emulator, which is handed the tables anew with every sheet.
pub const SAMPLE: Depth = Depth { singly: asked::SAMPLE, borders: false, any: 1, damaged: 1 };

/// Services of the larger deliveries, and questions of each; then a sheet of so many
/// changes.
const LARGE: [(usize, usize); 2] = [(300, 200), (20_000, 10)];
const MANY: usize = 1_000;
/// How many tables are full of junk.
const JUNK: u64 = 100;

/// Tables, and a sheet of which the answers are known.
pub struct Known {
    pub name: String,
    pub tables: Tables,
    pub changes: Vec<Sides>,
    pub answers: Vec<Answered>,
}

/// A comparison of sheets, and what they came to.
pub struct Desk<'c> {
    comparison: &'c mut Comparison,
    pub sheets: Outcomes,
    /// What the changes on them came to.
    pub changes: Outcomes,
    /// What is wrong by the documents, whatever the two programs say.
    pub complaints: Vec<String>,
}

impl<'c> Desk<'c> {
    pub fn new(comparison: &'c mut Comparison) -> Desk<'c> {
        Desk {
            comparison,
            sheets: Outcomes::new(OF_SHEETS),
            changes: Outcomes::new(&of_changes_on_sheets()),
            complaints: Vec::new(),
        }
    }

    /// How many sheets were compared.
    pub fn total(&self) -> usize {
        let numbers = OF_SHEETS.iter().filter(|outcome| !outcome.contains(':'));
        numbers.map(|number| self.sheets.of(number)).sum()
    }

    /// The boat's changes, and those to which two exceptions apply.
    pub fn compare_known(&mut self) -> io::Result<()> {
        let mut rng = Rng::new(1);
        for Known { name, tables, changes, answers } in card::known().chain([boat::known()]) {
            let name = format!("sheet-{name}");
            let answered = self.compare_changes(&name, &mut rng, &changes, &tables)?;
            if answered != answers {
                self.complaints.push(format!("{name} is {answered:?}, not {answers:?}."));
            }
        }
        Ok(())
    }

    /// Asks of a delivery for each seed, of its tables with a gap at its borders, and
    /// damaged.
    pub fn compare_seeds(&mut self, seeds: Range<u64>, depth: Depth) -> io::Result<()> {
        for seed in seeds {
            let loaded = Loaded::by_seed(seed, of_each_sort(seed));
            let Loaded { world, tables, .. } = &loaded;
            let name = format!("sheet-{seed}");
            let changes = changes(!seed, world, depth.singly.of(world));
            let mut rng = Rng::new(seed);
            let answers = self.compare_changes(&name, &mut rng, &changes, tables)?;
            if depth.borders {
                self.compare_borders(&name, &mut rng, &changes, &answers, tables)?;
            }
            for at in 0..depth.any {
                self.compare_any(&format!("{name}-any-{at}"), &mut rng, world, tables)?;
            }
            for at in 0..depth.damaged {
                let mut tables = tables.clone();
                damage_tables(&mut rng, &mut tables);
                if rng.percent(50) {
                    derive(&mut tables);
                }
                self.compare_any(&format!("{name}-damaged-{at}"), &mut rng, world, &tables)?;
            }
        }
        Ok(())
    }

    /// Tables full of junk.
    pub fn compare_junk(&mut self) -> io::Result<()> {
        for seed in 0..JUNK {
            let (world, case) = of_each_sort(seed);
            let mut rng = Rng::new(seed);
            let tables = junk(&mut rng, &lengths_of(&case.rooms));
            self.compare_any(&format!("sheet-junk-{seed}"), &mut rng, &world, &tables)?;
        }
        Ok(())
    }

    pub fn compare_large(&mut self) -> io::Result<()> {
        for (services, count) in LARGE {
            for (order, rising) in [("rising", true), ("shuffled", false)] {
                let Loaded { world, tables, .. } = Loaded::by_seed(1, large(1, services, rising));
                let name = format!("sheet-large-{services}-{order}");
                let mut rng = Rng::new(1);
                self.compare_changes(&name, &mut rng, &changes(1, &world, count), &tables)?;
                let many: Vec<Sides> = (0..MANY).map(|_| change(&mut rng, &world)).collect();
                let sheet = Sheet::new(&mut rng, &many, MANY);
                self.compare_one(&format!("{name}-many"), &sheet, &tables, &examine(&tables))?;
            }
        }
        Ok(())
    }

    /// Changes on one sheet: by typed answers and by words, and by words against the
    /// single proved answers. Answers what the second program says to each.
    fn compare_changes(
        &mut self,
        name: &str,
        rng: &mut Rng,
        changes: &[Sides],
        tables: &Tables,
    ) -> io::Result<Vec<Answered>> {
        let examined = examine(tables);
        let answers =
            self.comparison.compare_changes(&format!("{name}-typed"), changes, tables, &examined)?;
        let places = changes.len() + rng.below(3);
        let sheet = Sheet::new(rng, changes, places);
        let filled = self.compare_one(name, &sheet, tables, &examined)?;
        for (at, (&sides, on_sheet)) in changes.iter().zip(answers_on(&filled)).enumerate() {
            self.comparison.compare_single(&format!("{name}-single-{at}"), sides, tables, *on_sheet)?;
        }
        Ok(answers)
    }

    /// The same sheet of tables in which the gap of one of its changes is just what is
    /// needed, and a minute less.
    fn compare_borders(
        &mut self,
        name: &str,
        rng: &mut Rng,
        changes: &[Sides],
        answers: &[Answered],
        sound: &Tables,
    ) -> io::Result<()> {
        let moved = changes.iter().zip(answers).enumerate().flat_map(|(at, (&(from, to), &answer))| {
            at_borders(sound, to, answer).into_iter().map(move |moved| (at, (from, to), moved))
        });
        for (at, sides, (border, tables)) in moved {
            let name = format!("{name}-{at}-{border}");
            let sheet = Sheet::new(rng, changes, changes.len());
            let filled = self.compare_one(&name, &sheet, &tables, &examine(&tables))?;
            if let Some(on_sheet) = answers_on(&filled).get(at) {
                self.comparison.compare_single(&format!("{name}-single"), sides, &tables, *on_sheet)?;
            }
        }
        Ok(())
    }

    fn compare_any(&mut self, name: &str, rng: &mut Rng, world: &World, tables: &Tables) -> io::Result<()> {
        let sheet = sheet(rng, world);
        self.compare_one(name, &sheet, tables, &examine(tables)).map(drop)
    }

    /// Compares a sheet and counts what it came to. Answers what the second program
    /// comes to.
    fn compare_one(
        &mut self,
        name: &str,
        sheet: &Sheet,
        tables: &Tables,
        examined: &Examined,
    ) -> io::Result<Filled> {
        let filled = self.comparison.compare_sheet(name, sheet, tables)?;
        let number = number_of(sheet, examined);
        if filled.number != number {
            self.complaints.push(format!("{name} comes to {}, not {number}.", filled.number));
        }
        let changes = if filled.number == 0 { sheet.changes() } else { Vec::new() };
        let answers = changes_of_second(&changes, tables, examined);
        for (&(from, to), answer) in changes.iter().zip(&answers) {
            self.changes.count(outcome(&Question::Change { from, to }, answer));
        }
        let came_to = match filled.number {
            0 => "answered".into(),
            number => format!("refused {number}"),
        };
        for sort in sorts(sheet, filled.number, &answers) {
            self.sheets.count(format!("{came_to}: {sort}"));
        }
        self.sheets.count(came_to);
        Ok(filled)
    }
}

/// The answers on a sheet that is not refused.
fn answers_on(filled: &Filled) -> &[[u64; ANSWER_WORDS]] {
    match filled.number {
        0 => filled.answers.as_chunks().0,
        _ => &[],
    }
}

/// What a sheet must come to.
fn number_of(sheet: &Sheet, examined: &Examined) -> u64 {
    match examined {
        Err(_) => 16,
        Ok(_) if sheet.places() < sheet.count() => 23,
        Ok(_) => 0,
    }
}

/// What sort of sheet it is, as `deliveries::tally` names it.
fn sorts(sheet: &Sheet, number: u64, answers: &[Answered]) -> Vec<&'static str> {
    let (count, places) = (sheet.count(), sheet.places());
    let (questions, words) = (sheet.questions.len(), sheet.answers.len());
    let refused: Vec<bool> = answers.iter().map(Result::is_err).collect();
    let ends = refused.first().copied().zip(refused.last().copied());
    let sorts: &[(&str, bool)] = match number {
        0 => &[
            ("no question", count == 0),
            ("no question and no place", count == 0 && places == 0),
            ("one question", count == 1),
            ("a hundred questions and more", count >= 100),
            ("just as many places", count > 0 && places == count),
            ("one place more", places == count + 1),
            ("several places more", places > count + 1),
            ("words over in the questions", questions % QUESTION > 0),
            ("words over in the list", words % ANSWER > 0),
            ("all but one of a question's words over", questions % QUESTION == QUESTION - 1),
            ("all but one of an answer's words over", words % ANSWER == ANSWER - 1),
            ("questions refused by themselves", refused.contains(&true)),
            ("the first refused by itself, and not the last", ends == Some((true, false))),
            ("the last refused by itself, and not the first", ends == Some((false, true))),
            ("a gap below zero", answers.iter().any(is_below_zero)),
        ],
        16 => &[("no question", count == 0), ("too few places", places < count)],
        _ => &[
            ("no place", places == 0),
            ("one place too few", places + 1 == count),
            ("one word too few", words + 1 == count * ANSWER),
            ("no fewer words than the questions have", words >= questions),
        ],
    };
    sorts.iter().filter(|(_, holds)| *holds).map(|(sort, _)| *sort).collect()
}

fn is_below_zero(answer: &Answered) -> bool {
    matches!(answer, Ok(Answer::Change(change)) if change.gap.is_some_and(|gap| gap < 0))
}
