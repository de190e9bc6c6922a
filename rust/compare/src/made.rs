//! Deliveries from the generator: sound, damaged, at the limits, and large.

use std::io;
use std::ops::Range;

use compare::{lengths_of, with_spare_words};
use deliveries::{large, limit, limits, mixed, Case, Rng, Tally};

use crate::comparison::{count, Comparison};

/// How many at each limit.
const AT_EACH_LIMIT: u64 = 10;
/// Services of the larger deliveries.
const SERVICES: [usize; 2] = [300, 20_000];

/// Deliveries of every sort.
pub fn compare_mixed(comparison: &mut Comparison, tally: &mut Tally, seeds: Range<u64>) -> io::Result<()> {
    for seed in seeds {
        compare_one(comparison, tally, &format!("mixed-{seed}"), seed, &mixed(seed))?;
    }
    Ok(())
}

pub fn compare_limits(comparison: &mut Comparison, tally: &mut Tally) -> io::Result<()> {
    for at in limits() {
        for seed in 0..AT_EACH_LIMIT {
            compare_one(comparison, tally, &format!("{at:?}-{seed}"), seed, &limit(seed, at))?;
        }
    }
    Ok(())
}

pub fn compare_large(comparison: &mut Comparison, tally: &mut Tally) -> io::Result<()> {
    for services in SERVICES {
        for (order, rising) in [("rising", true), ("shuffled", false)] {
            let (_, case) = large(1, services, rising);
            compare_one(comparison, tally, &format!("large-{services}-{order}"), 1, &case)?;
        }
    }
    Ok(())
}

fn compare_one(
    comparison: &mut Comparison,
    tally: &mut Tally,
    name: &str,
    seed: u64,
    case: &Case,
) -> io::Result<()> {
    let lengths = with_spare_words(&mut Rng::new(seed), lengths_of(&case.rooms));
    let answer = comparison.compare(name, case.texts(), lengths)?;
    count(tally, answer);
    Ok(())
}
