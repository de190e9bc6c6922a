//! Amendments of one delivery's tables, beside a fresh load of the edited
//! delivery and the second program's own amendments.

use std::time::Duration;

use compare::{amended_by_proved, by_proved, junk, lengths_of, Outcome, Tables};
use deliveries::{amendment, edited, large, place, Amendment, Case, Rng};
use proved::Answer;
use second::Store;

use crate::plan::{Order, Size};
use crate::rounds::{in_rounds, mean, timed};

pub const HEADING: &str = "\
| services | keys | amend s | sound s | amend less sound ms | load s | amend / load | second, of its store ms | second, of tables s | amend / second, of tables |
|---|---|---|---|---|---|---|---|---|---|";

/// Amendments in a row, of which the mean is taken.
const AMENDMENTS: usize = 5;
/// Lines of room beside those that the delivery has.
const SPARE: usize = 2_000;

/// Measures, and answers the row's cells behind services and keys.
pub fn row(size: Size) -> String {
    let (world, mut case) = large(1, size.services, size.order == Order::Rising);
    case.rooms[place::TIMETBLS] += SPARE;
    let store = second::load(&case.texts(), &case.rooms).expect("a sound delivery");
    let mut rng = Rng::new(1);
    let mut amended = store.clone();
    let made = std::iter::repeat_with(|| amendment(&mut rng, &world));
    let accepted = made.filter(|made| second::amend(&mut amended, made.service, &made.block).is_ok());
    let amendments: Vec<Amendment> = accepted.take(AMENDMENTS).collect();

    let Times { amended, soundness, loaded, of_store, of_tables } = best(&case, &store, &amendments);
    let (amended, of_store) = (mean(&amended), mean(&of_store));
    format!(
        " {amended:.4} | {:.4} | {:.2} | {:.4} | {:.2} | {:.4} | {:.4} | {:.2} |",
        soundness.as_secs_f64(),
        (amended - soundness.as_secs_f64()) * 1e3,
        loaded.as_secs_f64(),
        amended / loaded.as_secs_f64(),
        of_store * 1e3,
        of_tables.as_secs_f64(),
        amended / of_tables.as_secs_f64(),
    )
}

/// The best times: of each amendment, of soundness, of a load of the delivery
/// that they make; of each amendment of the second program's store, and of one
/// from tables to tables.
struct Times {
    amended: [Duration; AMENDMENTS],
    soundness: Duration,
    loaded: Duration,
    of_store: [Duration; AMENDMENTS],
    of_tables: Duration,
}

/// All must agree.
fn best(case: &Case, store: &Store, amendments: &[Amendment]) -> Times {
    let lengths = lengths_of(&case.rooms);
    let last = amendments
        .iter()
        .fold(case.files.clone(), |files, amendment| edited(&files, amendment).expect("a held service"));
    let mut rng = Rng::new(1);
    let longest = Duration::MAX;
    let mut best = Times {
        amended: [longest; AMENDMENTS],
        soundness: longest,
        loaded: longest,
        of_store: [longest; AMENDMENTS],
        of_tables: longest,
    };
    in_rounds(|| {
        let Outcome { answer, mut tables } = by_proved(case.texts(), junk(&mut rng, &lengths));
        let lent = tables.each_ref().map(Vec::as_slice);
        assert!(timed(&mut best.soundness, || proved::is_sound(lent)), "Loaded tables are not sound.");
        let once = timed(&mut best.of_tables, || of_tables(&tables, &amendments[0]));
        for (at, (amendment, time)) in amendments.iter().zip(&mut best.amended).enumerate() {
            let amended = timed(time, || amended_by_proved(tables, amendment.service, &amendment.block));
            assert!(amended.answer == answer, "An amendment is refused.");
            tables = amended.tables;
            assert!(at > 0 || tables == once, "The two programs differ.");
        }
        let fresh = junk(&mut rng, &lengths);
        let texts = last.each_ref().map(Vec::as_slice);
        let loaded = timed(&mut best.loaded, || by_proved(texts, fresh));
        assert!(loaded == Outcome { answer, tables }, "Amendments are not as a load of the edited text.");

        let mut store = store.clone();
        for (amendment, time) in amendments.iter().zip(&mut best.of_store) {
            let amended = timed(time, || second::amend(&mut store, amendment.service, &amendment.block));
            let amended = amended.expect("a sound block");
            assert!(answer == Answer::accepted(amended.days, amended.services), "The two programs differ.");
        }
    });
    best
}

/// What the proved amendment does: tables are tested, amended and left as tables.
fn of_tables(tables: &Tables, amendment: &Amendment) -> Tables {
    let mut store = second::open(tables).expect("sound tables");
    second::amend(&mut store, amendment.service, &amendment.block).expect("a sound block");
    second::encode(&store, &tables.each_ref().map(Vec::len))
}
