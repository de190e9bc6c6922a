//! Every cause of every refusal, so often that none can go unseen.

use std::collections::BTreeMap;
use std::io;

use compare::{lengths_of, with_spare_words};
use deliveries::causes::{Place, ACCEPTED};
use deliveries::{causes, Cause, Rng};
use proved::Answer;

use crate::comparison::{shown, Comparison};

/// Each cause is met at least so often.
const OFTEN: usize = 20;
/// So many seeds are tried for a cause; few deliveries have no place for it.
const SEEDS: u64 = 400;

/// How often each cause was met, by refusal, file and record.
#[derive(Default)]
pub struct Floors(BTreeMap<(u8, usize, String), Vec<(&'static Cause, usize)>>);

/// Compares every cause; answers what is wrong in sentences.
pub fn compare_all(comparison: &mut Comparison, floors: &mut Floors) -> io::Result<Vec<String>> {
    let mut complaints = Vec::new();
    for cause in causes() {
        let met = compare_cause(comparison, cause, &mut complaints)?;
        floors.0.entry((cause.number, cause.file, cause.record())).or_default().push((cause, met));
    }
    complaints.extend(floors.too_low());
    Ok(complaints)
}

/// Compares deliveries with this cause; answers how often they were answered as
/// the cause says.
fn compare_cause(
    comparison: &mut Comparison,
    cause: &Cause,
    complaints: &mut Vec<String>,
) -> io::Result<usize> {
    let mut met = 0;
    let made = (0..SEEDS).filter_map(|seed| Some((seed, cause.case(seed)?)));
    for (seed, (case, place)) in made.take(OFTEN) {
        let name = format!("{cause}-{seed}").replace(|letter: char| !letter.is_ascii_alphanumeric(), "-");
        let lengths = with_spare_words(&mut Rng::new(seed), lengths_of(&case.rooms));
        let answer = comparison.compare(&name, case.texts(), lengths)?;
        match is_as_caused(cause, place, answer) {
            true => met += 1,
            false => complaints.push(format!("{cause}, seed {seed}, is answered: {}.", shown(answer))),
        }
    }
    Ok(met)
}

fn is_as_caused(cause: &Cause, Place { ordinal, line }: Place, answer: Answer) -> bool {
    match cause.number {
        ACCEPTED => answer.is_accepted(),
        number => answer == Answer::refused(number.into(), cause.file as u64 + 1, ordinal, line),
    }
}

impl Floors {
    fn too_low(&self) -> impl Iterator<Item = String> + '_ {
        let rare = self.0.values().flatten().filter(|(_, met)| *met < OFTEN);
        rare.map(|(cause, met)| format!("{cause} was met {met} times only."))
    }

    /// A line for each refusal and record, with the causes and how often each
    /// was met; 0 stands for what is accepted.
    pub fn print(&self) {
        let causes: usize = self.0.values().map(Vec::len).sum();
        println!("{causes} causes, each met so often; 0 is what must be accepted:");
        for ((number, _, record), causes) in &self.0 {
            let counts: Vec<String> =
                causes.iter().map(|(cause, met)| format!("{} {met}", cause.what)).collect();
            println!("{number:>2} {record}: {}", counts.join("; "));
        }
    }
}
