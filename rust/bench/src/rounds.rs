//! The best times of several rounds.

use std::time::{Duration, Instant};

/// The best of so many rounds is taken. In a round each program does its work
/// once, the tables are tested once and every change is asked once: so a
/// processor that is now faster and now slower serves all alike.
const MOST: usize = 10;
/// As many are done in any case.
const LEAST: usize = 5;
/// No further round is begun after this time.
const ENOUGH: Duration = Duration::from_secs(15);

pub fn in_rounds(round: impl FnMut()) {
    in_at_most(MOST, round);
}

/// For small differences of longer times.
pub fn in_more_rounds(round: impl FnMut()) {
    in_at_most(3 * MOST, round);
}

fn in_at_most(most: usize, mut round: impl FnMut()) {
    let start = Instant::now();
    for done in 0..most {
        if done >= LEAST && start.elapsed() > ENOUGH {
            return;
        }
        round();
    }
}

/// Does the work, and keeps its time where it is the best so far.
pub fn timed<T>(best: &mut Duration, work: impl FnOnce() -> T) -> T {
    let start = Instant::now();
    let result = work();
    *best = start.elapsed().min(*best);
    result
}

/// In seconds.
pub fn mean(times: &[Duration]) -> f64 {
    times.iter().sum::<Duration>().as_secs_f64() / times.len() as f64
}

pub fn ratio(time: Duration, other: Duration) -> f64 {
    time.as_secs_f64() / other.as_secs_f64()
}

pub fn milliseconds(time: Duration) -> f64 {
    time.as_secs_f64() * 1e3
}
