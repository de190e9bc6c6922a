//! Questions: of loaded tables, of damaged ones, and of texts that need never
//! have been loaded.

use std::io;
use std::ops::Range;

use compare::answers::{by_exception, came_to, outcome, soundness, Answer, Answered, Examined, Lent, Sides};
use compare::{by_second, junk, lengths_of, with_spare_words, Lengths, Tables};
use deliveries::questions::Side;
use deliveries::tables::{add_one, cut, damage_tables, delay, derive, other_words, rows, Limited, RowEdit};
use deliveries::tally::{OF_CLOCKS, OF_EXCEPTIONS, OF_QUESTIONS, OF_SOUNDNESS};
use deliveries::{clocks, exceptions};
use deliveries::{
    damage_file, large, limit, lines_in, mixed, name_in, of_each_sort, place, question, question_on_tables,
    Case, Limit, Outcomes, Question, Rng, World, FILES, NAMES,
};
use second::count_lines;
use second::sound::examine;

use crate::bytes::with_every_record;
use crate::comparison::Comparison;

/// How much is asked of each delivery.
#[derive(Clone, Copy)]
pub struct Depth {
    questions: usize,
    /// So often its tables are damaged and one question is asked.
    damaged: usize,
}

impl Depth {
    /// How many questions are asked of a delivery; clocks have many borders.
    pub fn of(self, world: &World) -> usize {
        if world.overnight {
            2 * self.questions
        } else {
            self.questions
        }
    }
}

pub const FULL: Depth = Depth { questions: 24, damaged: 3 };
/// For the emulator, which is handed the tables anew with every question.
pub const SAMPLE: Depth = Depth { questions: 3, damaged: 1 };

/// Services of the larger deliveries, and questions of each.
const LARGE: [(usize, usize); 2] = [(300, 200), (20_000, 10)];

/// What one more makes of tables just below a limit, and at it.
const AT_LIMITS: [(Limit, Limited, &str); 6] = [
    (Limit::Stops(997), Limited::Stops, "sound"),
    (Limit::Stops(998), Limited::Stops, "rule 5"),
    (Limit::Modes(63), Limited::Modes, "sound"),
    (Limit::Modes(64), Limited::Modes, "rule 5"),
    (Limit::Days(799), Limited::Days, "sound"),
    (Limit::Days(800), Limited::Days, "rule 5"),
];
const AT_EACH_LIMIT: u64 = 10;
/// How many tables are full of junk.
const JUNK: u64 = 500;

/// A sound delivery, what it is made of, and its tables.
pub struct Loaded {
    pub world: World,
    pub case: Case,
    pub tables: Tables,
}

impl Loaded {
    fn new(lengths: Lengths, (world, case): (World, Case)) -> Loaded {
        let tables = by_second(case.texts(), &lengths).tables;
        Loaded { world, case, tables }
    }

    /// In tables with the case's rooms, and by chance some words more.
    pub fn by_seed(seed: u64, (world, case): (World, Case)) -> Loaded {
        Loaded::new(with_spare_words(&mut Rng::new(seed), lengths_of(&case.rooms)), (world, case))
    }

    /// The texts with other tables.
    fn with<'a>(&'a self, tables: &'a Tables) -> Lent<'a> {
        Lent::new(tables, self.case.texts())
    }
}

/// A comparison of questions, and what they came to.
pub struct Desk<'c> {
    comparison: &'c mut Comparison,
    pub questions: Outcomes,
    /// What stop times and changes told of clocks.
    pub clocks: Outcomes,
    /// What changes told of exceptions.
    pub exceptions: Outcomes,
    pub soundness: Outcomes,
}

impl<'c> Desk<'c> {
    pub fn new(comparison: &'c mut Comparison) -> Desk<'c> {
        let [questions, clocks, exceptions, soundness] =
            [OF_QUESTIONS, OF_CLOCKS, OF_EXCEPTIONS, OF_SOUNDNESS].map(Outcomes::new);
        Desk { comparison, questions, clocks, exceptions, soundness }
    }

    /// Asks of a delivery for each seed, of its tables damaged, and of damaged
    /// texts.
    pub fn compare_seeds(&mut self, seeds: Range<u64>, depth: Depth) -> io::Result<()> {
        for seed in seeds {
            let loaded = Loaded::by_seed(seed, of_each_sort(seed));
            self.compare_loaded(&format!("asked-{seed}"), !seed, &loaded, depth.of(&loaded.world))?;
            self.compare_damaged(seed, &loaded, depth.damaged)?;
            self.compare_texts(seed)?;
        }
        Ok(())
    }

    pub fn compare_large(&mut self) -> io::Result<()> {
        for (services, count) in LARGE {
            for (order, rising) in [("rising", true), ("shuffled", false)] {
                let loaded = Loaded::by_seed(1, large(1, services, rising));
                self.compare_loaded(&format!("asked-large-{services}-{order}"), 1, &loaded, count)?;
            }
        }
        Ok(())
    }

    /// Tables on both sides of every limit; answers what is wrong by document 01.
    pub fn compare_limits(&mut self) -> io::Result<Vec<String>> {
        let mut complaints = Vec::new();
        for (before, of, expected) in AT_LIMITS {
            for seed in 0..AT_EACH_LIMIT {
                let name = format!("{before:?}-and-one-{seed}");
                let case = limit(seed, before);
                let loaded = by_second(case.texts(), &lengths_of(&case.rooms));
                let outcome = match loaded.answer.is_accepted() {
                    true => self.compare_one_more(&name, loaded.tables, of)?,
                    false => "refused".into(),
                };
                if outcome != expected {
                    complaints.push(format!("{name} is `{outcome}`, not `{expected}`."));
                }
            }
        }
        Ok(complaints)
    }

    fn compare_one_more(&mut self, name: &str, mut tables: Tables, of: Limited) -> io::Result<String> {
        add_one(&mut tables, of);
        Ok(soundness(&self.examine(name, &tables)?))
    }

    /// Tables full of junk.
    pub fn compare_junk(&mut self) -> io::Result<()> {
        for seed in 0..JUNK {
            let (world, case) = of_each_sort(seed);
            let mut rng = Rng::new(seed);
            let tables = junk(&mut rng, &lengths_of(&case.rooms));
            let asked = question_on_tables(&mut rng, &world);
            self.compare_one(&format!("junk-{seed}"), &asked, Lent::new(&tables, case.texts()))?;
        }
        Ok(())
    }

    /// One delivery's tables with every word changed and every row deleted,
    /// doubled and swapped, each with the derived words as they were and anew.
    /// There is room for one row more, and a word.
    pub fn compare_places(&mut self) -> io::Result<()> {
        let (world, case) = with_every_record();
        let lengths = lengths_of(&case.texts().map(|text| count_lines(text) + 1)).map(|length| length + 1);
        let loaded = Loaded::new(lengths, (world, case));
        let mut rng = Rng::new(1);
        for (name, damaged) in every_damage(&loaded.tables) {
            let mut derived = damaged.clone();
            derive(&mut derived);
            for (name, tables) in [(format!("{name}-derived"), derived), (name, damaged)] {
                let asked = question_on_tables(&mut rng, &loaded.world);
                self.compare_one(&name, &asked, loaded.with(&tables))?;
            }
        }
        Ok(())
    }

    fn compare_loaded(&mut self, name: &str, seed: u64, loaded: &Loaded, count: usize) -> io::Result<()> {
        let examined = self.examine(name, &loaded.tables)?;
        for (at, asked) in questions(seed, &loaded.world, count).enumerate() {
            let name = format!("{name}-{at}");
            let answered = self.ask(&name, &asked, loaded.with(&loaded.tables), &examined)?;
            self.compare_borders(&name, &asked, loaded, answered)?;
        }
        Ok(())
    }

    /// Asks for a change again, of tables in which its gap is just what is
    /// needed, and a minute less.
    fn compare_borders(
        &mut self,
        name: &str,
        asked: &Question,
        loaded: &Loaded,
        answered: Answered,
    ) -> io::Result<()> {
        let Question::Change { to, .. } = *asked else { return Ok(()) };
        for (border, tables) in at_borders(&loaded.tables, to, answered) {
            let examined = examine(&tables);
            self.ask(&format!("{name}-{border}"), asked, loaded.with(&tables), &examined).map(drop)?;
        }
        Ok(())
    }

    fn compare_damaged(&mut self, seed: u64, loaded: &Loaded, count: usize) -> io::Result<()> {
        let mut rng = Rng::new(seed);
        for at in 0..count {
            let mut tables = loaded.tables.clone();
            damage_tables(&mut rng, &mut tables);
            if rng.percent(50) {
                derive(&mut tables);
            }
            let asked = question_on_tables(&mut rng, &loaded.world);
            self.compare_one(&format!("damaged-{seed}-{at}"), &asked, loaded.with(&tables))?;
        }
        Ok(())
    }

    /// A name and a service's lines in the texts of a delivery of any sort, of
    /// which each is damaged half of the time.
    fn compare_texts(&mut self, seed: u64) -> io::Result<()> {
        let mut rng = Rng::new(seed);
        let mut case = mixed(seed);
        for file in [place::STATIONS, place::TIMETBLS] {
            if rng.percent(50) && !case.files[file].is_empty() {
                damage_file(&mut rng, &mut case, file);
            }
        }
        // These questions are lent no tables.
        let tables = Tables::default();
        let (lent, examined) = (Lent::new(&tables, case.texts()), examine(&tables));
        for (what, asked) in
            [("name", name_in(&mut rng, lent.stations)), ("lines", lines_in(&mut rng, lent.timetbls))]
        {
            self.ask(&format!("{what}-{seed}"), &asked, lent, &examined).map(drop)?;
        }
        Ok(())
    }

    /// Soundness and one question.
    fn compare_one(&mut self, name: &str, asked: &Question, lent: Lent) -> io::Result<()> {
        let examined = self.examine(name, lent.tables)?;
        self.ask(name, asked, lent, &examined).map(drop)
    }

    fn examine(&mut self, name: &str, tables: &Tables) -> io::Result<Examined> {
        let examined = self.comparison.compare_soundness(name, tables)?;
        self.soundness.count(soundness(&examined));
        Ok(examined)
    }

    /// Answers what the second program says.
    fn ask(&mut self, name: &str, asked: &Question, lent: Lent, examined: &Examined) -> io::Result<Answered> {
        let answered = self.comparison.compare_answers(name, asked, lent, examined)?;
        self.questions.count(outcome(asked, &answered));
        if let Some(came_to) = came_to(&answered) {
            clocks::told(lent.tables, asked, came_to).into_iter().for_each(|told| self.clocks.count(told));
        }
        if let Some(needed) = by_exception(&answered) {
            let told = exceptions::told(lent.tables, asked, needed);
            told.into_iter().for_each(|told| self.exceptions.count(told));
        }
        Ok(answered)
    }
}

/// So many questions on a delivery.
fn questions(seed: u64, world: &World, count: usize) -> impl Iterator<Item = Question> + '_ {
    let mut rng = Rng::new(seed);
    (0..count).map(move |_| question(&mut rng, world))
}

/// The changes among them.
pub fn changes(seed: u64, world: &World, count: usize) -> Vec<Sides> {
    let change = |asked| match asked {
        Question::Change { from, to } => Some((from, to)),
        _ => None,
    };
    questions(seed, world, count).filter_map(change).collect()
}

/// The tables in which the gap of a change to this side is just what is needed, and
/// a minute less, where B's clocks stay.
pub fn at_borders(sound: &Tables, to: Side, answered: Answered) -> Vec<(&'static str, Tables)> {
    let spare = match answered {
        Ok(Answer::Change(change)) => change.spare(),
        _ => None,
    };
    let borders = spare.map(|spare| [("just", spare), ("below", spare + 1)]);
    let moved = |(border, earlier): (&'static str, i64)| {
        let mut tables = sound.clone();
        delay(&mut tables, to.service, to.stop, -earlier)?;
        Some((border, tables))
    };
    borders.into_iter().flatten().filter_map(moved).collect()
}

/// The tables with one word or one row changed, at every place.
fn every_damage(sound: &Tables) -> impl Iterator<Item = (String, Tables)> + '_ {
    let words = (0..FILES).flat_map(|file| (0..sound[file].len()).map(move |at| (file, at)));
    let changed = words.flat_map(move |(file, at)| {
        other_words(sound, file, at).into_iter().map(move |value| {
            let mut tables = sound.clone();
            tables[file][at] = value;
            (format!("{}-word-{at}-{value}", NAMES[file]), tables)
        })
    });
    let all_rows = (0..FILES).flat_map(|file| (0..rows(sound, file).len()).map(move |at| (file, at)));
    let edited = all_rows.flat_map(move |(file, at)| {
        RowEdit::ALL.into_iter().map(move |edit| {
            let mut tables = sound.clone();
            edit.put_into(&mut tables, file, at);
            (format!("{}-{edit:?}-{at}", NAMES[file]), tables)
        })
    });
    changed.chain(edited).chain(every_absence(sound))
}

/// The tables with files absent or with their first line alone: each file, and
/// the last three in every way together.
fn every_absence(sound: &Tables) -> impl Iterator<Item = (String, Tables)> + '_ {
    let each = (0..FILES).flat_map(|file| [0, 1].map(|rows| vec![(file, rows)]));
    let together = (0..27).map(|ways| {
        let last_three = [place::CHANGES, place::XFOOTNOTE, place::XCHANGES];
        let ways = [ways / 9, ways / 3 % 3, ways % 3];
        // In the third way the file is as it was.
        last_three.into_iter().zip(ways).filter(|(_, rows)| *rows < 2).collect()
    });
    each.chain(together).map(|cuts: Vec<(usize, usize)>| {
        let mut tables = sound.clone();
        cuts.iter().for_each(|&(file, rows)| cut(&mut tables, file, rows));
        let names: Vec<String> = cuts.iter().map(|(file, rows)| format!("{}-{rows}", NAMES[*file])).collect();
        (format!("cut-{}", names.join("-")), tables)
    })
}
