//! The stack that the proved functions take of the thread that calls them.

use compare::answers::{asked_of_proved, Lent};
use compare::{junk, lengths_of, Outcome, Tables};
use deliveries::place::TIMETBLS;
use deliveries::{large, limit, question_on_tables, Case, Limit, Rng, World};

use crate::paint::used;

const HEADING: &str = "\
| delivery | load | soundness | amendment | questions |
|---|---|---|---|---|";

/// Questions asked of a delivery, of which the one that takes the most counts.
const QUESTIONS: usize = 20;

/// Prints the table, in bytes.
pub fn print() {
    if proved::EMULATED {
        println!("The proved functions run in another process here: their stack is not measured.");
        return;
    }
    println!("Bytes of the calling thread's stack.\n\n{HEADING}");
    for (services, order, rising) in
        [(1_000, "rising", true), (60_000, "rising", true), (60_000, "shuffled", false)]
    {
        let (world, case) = large(1, services, rising);
        println!("| {services} services, {order} |{}", cells(&case, &case, Some(&world)));
    }
    let case = limit(1, Limit::Platforms(PLATFORMS));
    println!("| {PLATFORMS} platform records in a block |{}", cells(&case, &case, None));
    let refused = refused_at_the_end(&case);
    println!("| the same, refused at the last of them |{}", cells(&case, &refused, None));
}

/// The most of a block: one for each stop.
const PLATFORMS: usize = 998;

/// The case with a byte that is not allowed in the last line of TIMETBLS.
fn refused_at_the_end(case: &Case) -> Case {
    let mut case = case.clone();
    let last = case.files[TIMETBLS].len() - b"1,12345\r\n".len();
    case.files[TIMETBLS][last] = 127;
    case
}

/// The row's cells: of the case's load, of soundness after a load of the sound
/// case, of the last service's block in the case as an amendment of that, and of
/// questions where there is something to ask.
fn cells(sound: &Case, case: &Case, world: Option<&World>) -> String {
    let (to_load, loaded) = load(case);
    let (_, mut store) = load(sound);
    let to_test = used(|| assert!(proved::is_sound(store.tables.each_ref().map(Vec::as_slice))));
    let to_ask = world.map_or("–".into(), |world| asked(world, case, &store.tables).to_string());
    let (service, block) = last_block(&case.files[TIMETBLS]);
    let lent = store.tables.each_mut().map(Vec::as_mut_slice);
    let to_amend = used(|| {
        let amended = proved::amend(lent.into(), service, block);
        assert!(amended == loaded.answer, "Load and amendment differ.");
    });
    format!(" {to_load} | {to_test} | {to_amend} | {to_ask} |")
}

fn load(case: &Case) -> (usize, Outcome) {
    let mut tables = junk(&mut Rng::new(1), &lengths_of(&case.rooms));
    let lent = tables.each_mut().map(Vec::as_mut_slice);
    let mut answer = None;
    let used = used(|| answer = Some(proved::load(case.texts(), lent)));
    (used, Outcome { answer: answer.expect("a load"), tables })
}

/// The service of the last block and its lines.
fn last_block(timetbls: &[u8]) -> (u64, &[u8]) {
    let opening = timetbls.windows(3).rposition(|bytes| bytes == b"\r\n#").expect("a block") + 2;
    let block = &timetbls[opening..];
    let service = String::from_utf8_lossy(&block[1..9]).parse().expect("a service");
    (service, block)
}

/// The most that any of the questions takes.
fn asked(world: &World, case: &Case, tables: &Tables) -> usize {
    let mut rng = Rng::new(1);
    let lent = Lent::new(tables, case.texts());
    let mut ask = || {
        let question = question_on_tables(&mut rng, world);
        used(|| {
            let _ = asked_of_proved(&question, lent);
        })
    };
    (0..QUESTIONS).map(|_| ask()).max().unwrap_or(0)
}
