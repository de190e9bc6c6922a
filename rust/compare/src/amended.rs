//! Amendments: in sequences on made-up deliveries, by every cause in a block, of
//! damaged tables, and of large ones.

use std::cmp::Ordering;
use std::io;
use std::ops::Range;

use compare::answers::Examined;
use compare::{by_second, junk, lengths_of, with_spare_words, Tables};
use deliveries::amendments::lines_of;
use deliveries::causes::{Place, ACCEPTED};
use deliveries::tables::{damage_tables, derive};
use deliveries::tally::{OF_AMENDMENTS, OF_LONG_BLOCKS};
use deliveries::{
    amendment, causes, edited, large, of_each_sort, place, Amendment, Case, Cause, Caused, Outcomes, Rng,
    Way, World, FILES, WAYS,
};
use proved::Answer;
use second::sound::examine;
use second::{count_lines, rooms_of};

use crate::comparison::{shown, Comparison};

/// How much is amended of each delivery.
#[derive(Clone, Copy)]
pub struct Depth {
    /// Amendments in a row.
    sequence: usize,
    /// So often its tables are damaged and amended once.
    damaged: usize,
}

pub const FULL: Depth = Depth { sequence: 12, damaged: 1 };
/// For the emulator, which is handed the tables anew with every amendment.
pub const SAMPLE: Depth = Depth { sequence: 1, damaged: 0 };

/// Of every hundred amendments in a sequence so many are any, and so many of the
/// others are made to be accepted.
const ANY: usize = 25;
const TO_BE_ACCEPTED: usize = 40;
/// Each cause is met so often, if so many seeds have a place for it.
const OF_EACH_CAUSE: usize = 4;
const SEEDS_OF_CAUSES: u64 = 100;
/// Services of the larger deliveries, and amendments of each in a row.
const LARGE: [(usize, usize); 2] = [(300, 60), (20_000, 3)];
/// How many tables are full of junk.
const JUNK: u64 = 60;

/// A delivery and what both programs hold of it.
pub struct Held {
    case: Case,
    tables: Tables,
    examined: Examined,
    /// How many amendments it has taken.
    taken: usize,
}

impl Held {
    /// In tables with the case's rooms, and by chance some words more.
    pub fn by_seed(seed: u64, case: Case) -> Held {
        let lengths = with_spare_words(&mut Rng::new(seed), lengths_of(&case.rooms));
        let tables = by_second(case.texts(), &lengths).tables;
        let examined = examine(&tables);
        Held { case, tables, examined, taken: 0 }
    }

    /// The text as it is edited by now.
    pub fn timetbls(&self) -> &[u8] {
        &self.case.files[place::TIMETBLS]
    }
}

/// A comparison of amendments, and what they came to.
pub struct Desk<'c> {
    comparison: &'c mut Comparison,
    pub amendments: Outcomes,
    pub long_blocks: Outcomes,
    /// How often each way was gone.
    pub ways: Vec<(&'static Way, usize)>,
    /// What is wrong by document 01, whatever the two programs say.
    pub complaints: Vec<String>,
}

impl<'c> Desk<'c> {
    pub fn new(comparison: &'c mut Comparison) -> Desk<'c> {
        Desk {
            comparison,
            amendments: Outcomes::new(OF_AMENDMENTS),
            long_blocks: Outcomes::new(OF_LONG_BLOCKS),
            ways: WAYS.iter().map(|way| (way, 0)).collect(),
            complaints: Vec::new(),
        }
    }

    /// How many amendments were compared.
    pub fn total(&self) -> usize {
        let answers = OF_AMENDMENTS.iter().filter(|outcome| !outcome.contains(':'));
        answers.map(|answer| self.amendments.of(answer)).sum::<usize>() + self.long_blocks.total()
    }

    /// Amends a delivery for each seed, several times in a row; and its tables
    /// damaged.
    pub fn compare_seeds(&mut self, seeds: Range<u64>, depth: Depth) -> io::Result<()> {
        for seed in seeds {
            let (world, case) = of_each_sort(seed);
            let mut held = Held::by_seed(seed, case);
            self.compare_damaged(seed, &world, &held.tables, depth.damaged)?;
            self.compare_sequence(&format!("amended-{seed}"), seed, &world, &mut held, depth.sequence)?;
        }
        Ok(())
    }

    pub fn compare_large(&mut self) -> io::Result<()> {
        for (services, count) in LARGE {
            for (order, rising) in [("rising", true), ("shuffled", false)] {
                let (world, case) = large(1, services, rising);
                let name = format!("amended-large-{services}-{order}");
                self.compare_sequence(&name, 1, &world, &mut Held::by_seed(1, case), count)?;
            }
        }
        Ok(())
    }

    /// Every cause in a block, as an amendment of the delivery without it.
    pub fn compare_causes(&mut self) -> io::Result<()> {
        for cause in causes() {
            let made = (0..SEEDS_OF_CAUSES).filter_map(|seed| Some((seed, Caused::new(cause, seed)?)));
            for (seed, caused) in made.take(OF_EACH_CAUSE) {
                self.compare_cause(cause, seed, caused)?;
            }
        }
        Ok(())
    }

    fn compare_cause(&mut self, cause: &Cause, seed: u64, caused: Caused) -> io::Result<()> {
        let Caused { case, amendment, number, place: Place { ordinal, line } } = caused;
        let name = format!("amended-by-{cause}-{seed}");
        let name = name.replace(|letter: char| !letter.is_ascii_alphanumeric(), "-");
        let answer = self.compare_one(&name, &mut Held::by_seed(seed, case), &amendment)?;
        let is_as_caused = match number {
            ACCEPTED => answer.is_accepted(),
            11 => answer == Answer::refused(11, 0, 0, 0),
            number => answer == in_timetbls(number.into(), ordinal, line),
        };
        if !is_as_caused {
            self.complaints.push(format!("{name} is answered: {}.", shown(answer)));
        }
        Ok(())
    }

    /// Tables full of junk.
    pub fn compare_junk(&mut self) -> io::Result<()> {
        for seed in 0..JUNK {
            let (world, case) = of_each_sort(seed);
            let mut rng = Rng::new(seed);
            let tables = junk(&mut rng, &lengths_of(&case.rooms));
            let amendment = amendment(&mut rng, &world);
            self.compare_tables(&format!("amended-junk-{seed}"), &tables, &amendment)?;
        }
        Ok(())
    }

    fn compare_damaged(&mut self, seed: u64, world: &World, sound: &Tables, count: usize) -> io::Result<()> {
        let mut rng = Rng::new(seed);
        for at in 0..count {
            let mut tables = sound.clone();
            damage_tables(&mut rng, &mut tables);
            if rng.percent(50) {
                derive(&mut tables);
            }
            let amendment = amendment(&mut rng, world);
            self.compare_tables(&format!("amended-damaged-{seed}-{at}"), &tables, &amendment)?;
        }
        Ok(())
    }

    /// Amends tables of which no text is known.
    fn compare_tables(&mut self, name: &str, tables: &Tables, amendment: &Amendment) -> io::Result<()> {
        let amended = self.comparison.compare_amendment(name, tables, &mut examine(tables), amendment)?;
        self.amendments.count(answered(amended.answer));
        Ok(())
    }

    fn compare_sequence(
        &mut self,
        name: &str,
        seed: u64,
        world: &World,
        held: &mut Held,
        count: usize,
    ) -> io::Result<()> {
        let mut rng = Rng::new(!seed);
        for at in 0..count {
            let name = format!("{name}-{at}");
            let way = any_way(&mut rng);
            let made = way.and_then(|way| Some((way, WAYS[way].amendment(&mut rng, world, &held.case)?)));
            match made {
                None => self.compare_one(&name, held, &amendment(&mut rng, world)).map(drop)?,
                Some((way, made)) => self.compare_way(&name, held, way, &made)?,
            }
        }
        Ok(())
    }

    fn compare_way(&mut self, name: &str, held: &mut Held, way: usize, made: &Amendment) -> io::Result<()> {
        let answer = self.compare_one(name, held, made)?;
        let (way, count) = &mut self.ways[way];
        *count += 1;
        if answer.number != u64::from(way.number) {
            self.complaints.push(format!("{name}, {}, is answered: {}.", way.what, shown(answer)));
        }
        Ok(())
    }

    /// Amends, counts what that came to and keeps the edited text. Answers what
    /// the second program says.
    pub fn compare_one(&mut self, name: &str, held: &mut Held, amendment: &Amendment) -> io::Result<Answer> {
        let (answer, edited) = self.amend(name, held, amendment)?;
        self.amendments.count(answered(answer));
        let Some(files) = edited else { return Ok(answer) };
        for sort in sorts(held, amendment, &files[place::TIMETBLS], answer) {
            self.amendments.count(format!("{}: {sort}", answered(answer)));
        }
        if answer.is_accepted() {
            held.case.files = files;
            held.taken += 1;
        }
        Ok(answer)
    }

    /// Amends by both programs, and holds what that came to against the proved
    /// load of the edited text. Answers what the second program says, and the
    /// edited text unless it is refused for what no load knows.
    pub fn amend(
        &mut self,
        name: &str,
        held: &mut Held,
        amendment: &Amendment,
    ) -> io::Result<(Answer, Option<[Vec<u8>; FILES]>)> {
        let amended = self.comparison.compare_amendment(name, &held.tables, &mut held.examined, amendment)?;
        let answer = amended.answer;
        let is_as_load = !matches!(answer.number, 11 | 12 | 16);
        let edited = is_as_load.then(|| edited(&held.case.files, amendment)).flatten();
        match &edited {
            Some(files) => {
                let texts = files.each_ref().map(Vec::as_slice);
                self.comparison.compare_edited(&format!("{name}-loaded"), texts, &amended)?;
            }
            None if is_as_load => {
                self.complaints.push(format!("{name} amends what is not held: {}.", shown(answer)))
            }
            None => (),
        }
        held.tables = amended.tables;
        Ok((answer, edited))
    }
}

/// The place of a way; none for any amendment.
fn any_way(rng: &mut Rng) -> Option<usize> {
    if rng.percent(ANY) {
        return None;
    }
    let to_be_accepted = rng.percent(TO_BE_ACCEPTED);
    let is_meant = |way: &usize| !to_be_accepted || WAYS[*way].number == ACCEPTED;
    Some(*rng.pick(&(0..WAYS.len()).filter(is_meant).collect::<Vec<_>>()))
}

/// What sort of amendment it is, by the text before and after, as
/// `deliveries::tally` names it.
fn sorts(held: &Held, amendment: &Amendment, edited: &[u8], answer: Answer) -> Vec<&'static str> {
    let room = rooms_of(&held.tables.each_ref().map(Vec::len))[place::TIMETBLS];
    let (before, after) = (count_lines(held.timetbls()), count_lines(edited));
    let held_where = |sort: &'static str, holds: bool| holds.then_some(sort);
    if answer.number == 2 {
        return held_where("by one line", after == room + 1).into_iter().collect();
    }
    if !answer.is_accepted() {
        return vec![];
    }
    let size = match after.cmp(&before) {
        _ if edited == held.timetbls() => "the very same lines",
        Ordering::Greater => "more lines",
        Ordering::Less => "fewer lines",
        Ordering::Equal => "as many lines",
    };
    let sorts = [
        Some(size),
        Some(place_of(amendment.service, held.timetbls())),
        held_where("named in CHANGES", is_named(amendment.service, &held.case.files[place::CHANGES])),
        held_where("after three others", held.taken >= 3),
        held_where("by freed room alone", before + count_lines(&amendment.block) > room),
        held_where("the room is full", after == room),
    ];
    sorts.into_iter().flatten().collect()
}

fn place_of(service: u64, timetbls: &[u8]) -> &'static str {
    let held = lines_of(service, timetbls).unwrap_or(0..0);
    let openings = |text: &[u8]| text.windows(3).filter(|bytes| bytes == b"\r\n#").count();
    match (openings(&timetbls[..held.start]), held.end == timetbls.len()) {
        (0, true) => "the only service",
        (0, false) => "the first service",
        (_, true) => "the last service",
        (_, false) => "a service between",
    }
}

/// Whether CHANGES names a service.
fn is_named(service: u64, changes: &[u8]) -> bool {
    let number = format!("{service:08}");
    changes.windows(number.len()).any(|bytes| bytes == number.as_bytes())
}

/// An answer as `deliveries::tally` names it.
pub fn answered(answer: Answer) -> String {
    match answer.is_accepted() {
        true => "accepted".into(),
        false => format!("refused {}", answer.number),
    }
}

/// A refusal with this number at a place of TIMETBLS.
pub fn in_timetbls(number: u64, ordinal: u64, line: u64) -> Answer {
    Answer::refused(number, place::TIMETBLS as u64 + 1, ordinal, line)
}
