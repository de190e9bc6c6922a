//! One delivery, loaded by both programs in turn; then soundness of its tables
//! and changes, asked of the proved crates.

use std::array;
use std::time::Duration;

use compare::answers::{asked_of_proved, asked_of_second, Answer, Answered, Examined, Lent};
use compare::{by_proved, by_second, junk, lengths_of, Tables};
use deliveries::{large, question_on_tables, Case, Question, Rng, World};
use proved::{Change, Source};

use crate::limits::Limits;
use crate::plan::{Order, Size};
use crate::rounds::{in_rounds, mean, milliseconds, ratio, timed};

pub const HEADING: &str = "\
| services | keys | MB | lines | proved s | MB/s | ns a line | second s | MB/s | proved / second | count lines ms | read files ms | write tables ms | sound s | sound / second | change s | change less sound ms |
|---|---|---|---|---|---|---|---|---|---|---|---|---|---|---|---|---|";

/// Changes asked, of which the mean is taken.
const CHANGES: usize = 5;

/// Measures, and answers the row's cells behind services and keys.
pub fn row(size: Size) -> String {
    let (world, case) = large(1, size.services, size.order == Order::Rising);
    let Times { proved, second, limits, soundness, changes } = best(&world, &case);
    let megabytes = case.files.iter().map(Vec::len).sum::<usize>() as f64 / 1e6;
    let lines: usize = case.files.iter().map(|file| second::count_lines(file)).sum();
    let speed = |time: Duration| megabytes / time.as_secs_f64();
    let change = mean(&changes);
    format!(
        " {megabytes:.1} | {lines} | {:.3} | {:.1} | {:.0} | {:.3} | {:.1} | {:.2} | {:.2} | {:.2} | {:.2} | {:.3} | {:.2} | {change:.3} | {:.2} |",
        proved.as_secs_f64(),
        speed(proved),
        proved.as_secs_f64() * 1e9 / lines as f64,
        second.as_secs_f64(),
        speed(second),
        ratio(proved, second),
        milliseconds(limits.count_lines),
        milliseconds(limits.read_files),
        milliseconds(limits.write_tables),
        soundness.as_secs_f64(),
        ratio(soundness, second),
        (change - soundness.as_secs_f64()) * 1e3,
    )
}

/// The best times: of the two loads, of what the machine can do, of soundness,
/// and of each change.
struct Times {
    proved: Duration,
    second: Duration,
    limits: Limits,
    soundness: Duration,
    changes: [Duration; CHANGES],
}

/// The two programs must agree.
fn best(world: &World, case: &Case) -> Times {
    let lengths = lengths_of(&case.rooms);
    let changes = far_changes(world, case);
    let mut rng = Rng::new(1);
    let longest = Duration::MAX;
    let mut best = Times {
        proved: longest,
        second: longest,
        limits: Limits::NONE,
        soundness: longest,
        changes: [longest; CHANGES],
    };
    in_rounds(|| {
        let tables = junk(&mut rng, &lengths);
        let mut proved = timed(&mut best.proved, || by_proved(case.texts(), tables));
        let second = timed(&mut best.second, || by_second(case.texts(), &lengths));
        assert!(proved == second, "The two programs differ.");

        let lent = Lent::new(&proved.tables, case.texts());
        let tables = proved.tables.each_ref().map(Vec::as_slice);
        assert!(timed(&mut best.soundness, || proved::is_sound(tables)), "Loaded tables are not sound.");
        for ((question, expected), time) in changes.iter().zip(&mut best.changes) {
            let answer = timed(time, || asked_of_proved(question, lent));
            assert!(answer == *expected, "The two programs differ.");
        }
        best.limits.measure(case.texts(), &mut proved.tables);
    });
    best
}

/// Changes that come as far as XCHANGES, with the second program's answers.
fn far_changes(world: &World, case: &Case) -> [(Question, Answered); CHANGES] {
    let examined: Examined = Ok(second::load(&case.texts(), &case.rooms).expect("a sound delivery"));
    // The second program has its store, and no use for tables.
    let tables = Tables::default();
    let lent = Lent::new(&tables, case.texts());
    let mut rng = Rng::new(1);
    array::from_fn(|_| loop {
        let question = question_on_tables(&mut rng, world);
        let answer = asked_of_second(&question, lent, &examined);
        if comes_far(&answer) {
            return (question, answer);
        }
    })
}

fn comes_far(answer: &Answered) -> bool {
    let source = match answer {
        Ok(Answer::Change(Change { source, needed: Some(_), .. })) => *source,
        _ => None,
    };
    matches!(source, Some(Source::Stations | Source::XChanges))
}
