//! Compares the proved crates with the second program: loads of thousands of
//! deliveries, soundness of tables, the desk's questions, sheets of them, and
//! amendments.
//!
//! usage: compare [--loads | --questions | --sheets | --amendments | --seed S --count N] [FOLDER]
//!
//! With a seed and a count: so many deliveries of every sort from that seed on,
//! questions, sheets and amendments. Else all loads, all questions, all sheets, all
//! amendments, or everything. Loads: deliveries of fixed seeds and of seeds that
//! change with the date, every cause of every refusal, limits, large ones, ones
//! with so many services that marks do not tell them apart, bytes replaced, files
//! of the largest length. Questions: of a boat over the change of the clocks; the
//! rank of every pattern of an exception's keys, and changes to which every two of
//! them apply; of loaded and damaged tables and of texts, by such seeds; of tables
//! with every word and row changed; of large ones. Sheets: the changes of the boat,
//! of every two patterns, of loaded tables and of large ones, all of one store by
//! one call, each also held against the proved crates' single answer; those at the
//! borders of their gaps; any number of changes in lists of any length, of loaded
//! and damaged tables and of junk. Amendments: up to twelve in a row by such seeds,
//! of damaged tables, by every cause in a block, of large tables, by blocks of the
//! largest length; each also held against the proved load of the edited text. Where
//! the two differ, FOLDER gets a folder with the files or tables and both answers
//! in `answers.txt`.

mod amended;
mod asked;
mod boat;
mod bytes;
mod card;
mod caused;
mod comparison;
mod crowded;
mod lengths;
mod long_blocks;
mod made;
mod options;
mod sheets;

use std::ops::Range;
use std::process::ExitCode;
use std::time::Instant;
use std::{env, io};

use deliveries::{Outcomes, Tally, NAMES};

use crate::asked::{Desk, FULL, SAMPLE};
use crate::caused::Floors;
use crate::comparison::Comparison;
use crate::options::{asked, seeds_of_today, Options, Part, USAGE};

/// The seeds of the deliveries that are the same in every run.
const FIXED: Range<u64> = 0..40_000;
/// How many deliveries are new each day.
const OF_TODAY: u64 = 4_000;
/// Every refusal is met so often in every file where it can occur.
const OFTEN: usize = 20;
/// The same of questions, and of sheets of them: those of every run, and those new
/// each day.
const FIXED_QUESTIONS: Range<u64> = 0..2_500;
const QUESTIONS_OF_TODAY: u64 = 250;
/// Every outcome of a question, of a sheet and of soundness, and what is told of
/// clocks and of exceptions, is met so often.
const OUTCOMES_OFTEN: usize = 50;
/// The same of amendments, in sequences.
const FIXED_AMENDMENTS: Range<u64> = 0..700;
const AMENDMENTS_OF_TODAY: u64 = 70;
/// Every outcome of an amendment and every way to make one is met so often.
const AMENDMENTS_OFTEN: usize = 30;
/// The same of blocks of the largest length, beside those that are too long.
const LONG_BLOCKS_OFTEN: usize = 1;
/// Of every hundred deliveries from the generator so many are accepted.
const ACCEPTED_IN_100: usize = 30;

fn main() -> ExitCode {
    let arguments: Vec<String> = env::args().skip(1).collect();
    let Some(Options { part, folder }) = asked(&arguments) else {
        eprintln!("{USAGE}");
        return ExitCode::from(2);
    };
    let start = Instant::now();
    let mut comparison = Comparison::new(folder);
    let compared = match part {
        Part::Everything => compare_all(&mut comparison),
        Part::Loads => compare_loads(&mut comparison),
        Part::Questions => compare_questions(&mut comparison),
        Part::Sheets => compare_sheets(&mut comparison),
        Part::Amendments => compare_amendments(&mut comparison),
        Part::Seeds(seeds) => compare_seeds(&mut comparison, seeds),
    };
    let mut complaints =
        compared.unwrap_or_else(|error| vec![format!("A difference could not be written: {error}.")]);
    complaints.extend(comparison.complaint());
    println!("{} differences in {:.0?}.", comparison.differences(), start.elapsed());
    for complaint in &complaints {
        eprintln!("{complaint}");
    }
    match complaints.is_empty() {
        true => ExitCode::SUCCESS,
        false => ExitCode::FAILURE,
    }
}

fn compare_seeds(comparison: &mut Comparison, seeds: Range<u64>) -> io::Result<Vec<String>> {
    let mut tally = Tally::default();
    made::compare_mixed(comparison, &mut tally, seeds.clone())?;
    println!("{tally}");
    let mut desk = Desk::new(comparison);
    desk.compare_seeds(seeds.clone(), if proved::EMULATED { SAMPLE } else { FULL })?;
    print_desk(&desk);
    let mut complaints: Vec<String> = odd(&tally).into_iter().chain(odd_questions(&desk)).collect();
    let mut desk = sheets::Desk::new(comparison);
    desk.compare_seeds(seeds.clone(), if proved::EMULATED { sheets::SAMPLE } else { sheets::FULL })?;
    print_sheets(&desk);
    complaints.extend(odd_sheets(desk));
    let mut desk = amended::Desk::new(comparison);
    desk.compare_seeds(seeds, if proved::EMULATED { amended::SAMPLE } else { amended::FULL })?;
    print_amendments(&desk);
    complaints.extend(odd_amendments(desk));
    Ok(complaints)
}

/// Runs all comparisons; answers what is wrong, in sentences.
fn compare_all(comparison: &mut Comparison) -> io::Result<Vec<String>> {
    let mut complaints = compare_loads(comparison)?;
    complaints.extend(compare_questions(comparison)?);
    complaints.extend(compare_sheets(comparison)?);
    complaints.extend(compare_amendments(comparison)?);
    Ok(complaints)
}

/// Those first that tell the most of a difference.
fn compare_loads(comparison: &mut Comparison) -> io::Result<Vec<String>> {
    let mut floors = Floors::default();
    let mut complaints = caused::compare_all(comparison, &mut floors)?;
    floors.print();

    let mut tally = Tally::default();
    complaints.extend(lengths::compare_all(comparison, &mut tally)?);
    made::compare_limits(comparison, &mut tally)?;
    made::compare_large(comparison, &mut tally)?;
    complaints.extend(crowded::compare_all(comparison)?);
    let mut fixed = Tally::default();
    made::compare_mixed(comparison, &mut fixed, FIXED)?;
    complaints.extend(too_few_accepted(&fixed));
    tally.add(&fixed);
    complaints.extend(rare(&tally));

    let today = seeds_of_today(OF_TODAY);
    println!("Seeds of today, to be run again by: compare --seed {} --count {OF_TODAY}", today.start);
    made::compare_mixed(comparison, &mut tally, today)?;
    complaints.extend(odd(&tally));
    println!("{tally}");

    let replaced = bytes::compare_all(comparison)?;
    println!("Bytes replaced: {} deliveries, {} accepted.", replaced.total(), replaced.accepted());
    Ok(complaints)
}

fn compare_questions(comparison: &mut Comparison) -> io::Result<Vec<String>> {
    let start = Instant::now();
    let mut complaints = boat::compare_all(comparison)?;
    complaints.extend(card::compare_all(comparison)?);
    let mut desk = Desk::new(comparison);
    desk.compare_seeds(FIXED_QUESTIONS, FULL)?;
    for outcomes in [&desk.questions, &desk.clocks, &desk.exceptions, &desk.soundness] {
        complaints.extend(rare_outcomes(outcomes, OUTCOMES_OFTEN));
    }
    complaints.extend(desk.compare_limits()?);
    desk.compare_places()?;
    desk.compare_junk()?;
    desk.compare_large()?;

    let today = seeds_of_today(QUESTIONS_OF_TODAY);
    println!("Seeds of today: compare --seed {} --count {QUESTIONS_OF_TODAY}", today.start);
    desk.compare_seeds(today, FULL)?;
    complaints.extend(odd_questions(&desk));
    print_desk(&desk);
    println!("Soundness and questions took {:.0?}.", start.elapsed());
    Ok(complaints)
}

fn compare_sheets(comparison: &mut Comparison) -> io::Result<Vec<String>> {
    let start = Instant::now();
    let mut desk = sheets::Desk::new(comparison);
    desk.compare_known()?;
    desk.compare_seeds(FIXED_QUESTIONS, sheets::FULL)?;
    desk.compare_junk()?;
    let mut complaints: Vec<String> = rare_outcomes(&desk.sheets, OUTCOMES_OFTEN)
        .chain(rare_outcomes(&desk.changes, OUTCOMES_OFTEN))
        .collect();
    desk.compare_large()?;

    let today = seeds_of_today(QUESTIONS_OF_TODAY);
    println!("Seeds of today: compare --seed {} --count {QUESTIONS_OF_TODAY}", today.start);
    desk.compare_seeds(today, sheets::FULL)?;
    print_sheets(&desk);
    complaints.extend(odd_sheets(desk));
    println!("Sheets took {:.0?}.", start.elapsed());
    Ok(complaints)
}

fn print_sheets(desk: &sheets::Desk) {
    println!("{} sheets:\n{}", desk.total(), desk.sheets);
    println!("{} changes on them:\n{}", desk.changes.total(), desk.changes);
}

/// What is wrong with sheets by the documents.
fn odd_sheets(desk: sheets::Desk) -> Vec<String> {
    let odd = odd_outcomes(&desk.sheets).chain(odd_outcomes(&desk.changes));
    odd.chain(desk.complaints.iter().cloned()).collect()
}

fn compare_amendments(comparison: &mut Comparison) -> io::Result<Vec<String>> {
    let start = Instant::now();
    let mut desk = amended::Desk::new(comparison);
    desk.compare_causes()?;
    desk.compare_seeds(FIXED_AMENDMENTS, amended::FULL)?;
    desk.compare_junk()?;
    desk.compare_large()?;
    desk.compare_long_blocks()?;
    let mut complaints: Vec<String> = rare_outcomes(&desk.amendments, AMENDMENTS_OFTEN)
        .chain(rare_outcomes(&desk.long_blocks, LONG_BLOCKS_OFTEN))
        .chain(rare_ways(&desk))
        .collect();
    if desk.long_blocks.of("too long: refused 1") < AMENDMENTS_OFTEN {
        complaints.push("Refusal 1 of an amendment was met too seldom.".into());
    }

    let today = seeds_of_today(AMENDMENTS_OF_TODAY);
    println!("Seeds of today: compare --seed {} --count {AMENDMENTS_OF_TODAY}", today.start);
    desk.compare_seeds(today, amended::FULL)?;
    print_amendments(&desk);
    complaints.extend(odd_amendments(desk));
    println!("Amendments took {:.0?}.", start.elapsed());
    Ok(complaints)
}

fn print_amendments(desk: &amended::Desk) {
    println!("{} amendments:\n{}", desk.total(), desk.amendments);
    println!("Ways to amend, by what they come to; 0 is what must be accepted:");
    for ways in desk.ways.chunk_by(|(way, _), (next, _)| way.number == next.number) {
        let counts: Vec<String> = ways.iter().map(|(way, count)| format!("{} {count}", way.what)).collect();
        println!("{:>2} {}", ways[0].0.number, counts.join("; "));
    }
    if desk.long_blocks.total() > 0 {
        println!("Blocks with which the text has the largest length:\n{}", desk.long_blocks);
    }
}

fn rare_ways<'a>(desk: &'a amended::Desk) -> impl Iterator<Item = String> + 'a {
    let rare = desk.ways.iter().filter(|(_, count)| *count < AMENDMENTS_OFTEN);
    rare.map(|(way, count)| format!("An amendment by `{}` was made {count} times only.", way.what))
}

/// What is wrong with amendments by document 01.
fn odd_amendments(desk: amended::Desk) -> Vec<String> {
    let odd = odd_outcomes(&desk.amendments).chain(odd_outcomes(&desk.long_blocks));
    odd.chain(desk.complaints.iter().cloned()).collect()
}

fn print_desk(desk: &Desk) {
    println!("{} questions:\n{}", desk.questions.total(), desk.questions);
    println!("Of clocks, those of a time's own day beside the service day's:\n{}", desk.clocks);
    println!("Of exceptions, which counts and what tells it from the others:\n{}", desk.exceptions);
    println!(
        "{} times soundness, by the rule that is broken first:\n{}",
        desk.soundness.total(),
        desk.soundness
    );
}

fn rare_outcomes(outcomes: &Outcomes, often: usize) -> impl Iterator<Item = String> + '_ {
    let rare = outcomes.rarer_than(often).into_iter();
    rare.map(|outcome| format!("`{outcome}` was met {} times only.", outcomes.of(outcome)))
}

fn odd_questions(desk: &Desk) -> Vec<String> {
    let all = [&desk.questions, &desk.clocks, &desk.exceptions, &desk.soundness];
    all.into_iter().flat_map(odd_outcomes).collect()
}

/// The outcomes that the documents shut out.
fn odd_outcomes(outcomes: &Outcomes) -> impl Iterator<Item = String> + '_ {
    let odd = outcomes.unexpected().into_iter();
    odd.map(|outcome| format!("`{outcome}` cannot occur by the documents, and did."))
}

fn too_few_accepted(tally: &Tally) -> Option<String> {
    let too_few = tally.accepted() * 100 < tally.total() * ACCEPTED_IN_100;
    too_few.then(|| format!("Only {} of {} deliveries are accepted.", tally.accepted(), tally.total()))
}

fn name(file: u8) -> &'static str {
    NAMES.get(usize::from(file).wrapping_sub(1)).copied().unwrap_or("no file")
}

/// The refusals that were met too rarely in a file.
fn rare(tally: &Tally) -> impl Iterator<Item = String> + '_ {
    tally.rarer_than(OFTEN).into_iter().map(|(number, file)| {
        format!("Refusal {number} in {} was met {} times only.", name(file), tally.refused(number, file))
    })
}

/// The refusals that document 01 shuts out.
fn odd(tally: &Tally) -> Vec<String> {
    let odd = tally.unexpected().into_iter();
    odd.map(|(number, file)| {
        format!("Refusal {number} in {} cannot occur by document 01, and did.", name(file))
    })
    .collect()
}
