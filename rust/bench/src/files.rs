//! Deliveries with many of one thing, in no order: a load that holds each line
//! against all before it shows here.

use std::time::Duration;

use compare::{by_proved, by_second, junk, lengths_of};
use deliveries::{many, Case, Many, Rng};

use crate::rounds::{in_rounds, ratio, timed};

pub const HEADING: &str = "\
| file | many | so many | lines of the file | proved s | growth | second s | growth | proved / second | sound s | growth | sound / second |
|---|---|---|---|---|---|---|---|---|---|---|---|";

/// A growth is that of the time from so many of the things to all: to its
/// square where each is held against all before it.
const SHARE: usize = 4;

/// Measures, and answers the row's cells behind the file and what is many.
pub fn row(of: Many) -> String {
    let [share, all] = [of.most() / SHARE, of.most()].map(|count| many(1, of, count));
    let lines = second::count_lines(&all.files[of.file()]);
    let [before, Times { proved, second, soundness }] = best(&[share, all]);
    format!(
        " {} | {lines} | {:.4} | {:.1} | {:.4} | {:.1} | {:.2} | {:.4} | {:.1} | {:.2} |",
        of.most(),
        proved.as_secs_f64(),
        ratio(proved, before.proved),
        second.as_secs_f64(),
        ratio(second, before.second),
        ratio(proved, second),
        soundness.as_secs_f64(),
        ratio(soundness, before.soundness),
        ratio(soundness, second),
    )
}

/// The best times: of the two loads, and of soundness.
struct Times {
    proved: Duration,
    second: Duration,
    soundness: Duration,
}

impl Times {
    const NONE: Times = Times { proved: Duration::MAX, second: Duration::MAX, soundness: Duration::MAX };
}

/// The two programs must agree.
fn best(cases: &[Case; 2]) -> [Times; 2] {
    let mut rng = Rng::new(1);
    let mut best = [Times::NONE; 2];
    in_rounds(|| {
        for (case, best) in cases.iter().zip(&mut best) {
            let lengths = lengths_of(&case.rooms);
            let tables = junk(&mut rng, &lengths);
            let proved = timed(&mut best.proved, || by_proved(case.texts(), tables));
            let second = timed(&mut best.second, || by_second(case.texts(), &lengths));
            assert!(proved == second, "The two programs differ.");
            assert!(proved.answer.is_accepted(), "The delivery is refused.");
            let tables = proved.tables.each_ref().map(Vec::as_slice);
            assert!(timed(&mut best.soundness, || proved::is_sound(tables)), "Loaded tables are not sound.");
        }
    });
    best
}
