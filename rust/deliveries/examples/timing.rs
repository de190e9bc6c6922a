//! How long the second program takes for large deliveries: best of five.

use std::time::{Duration, Instant};

use deliveries::{amendment, large, Case, Rng};
use second::{amend, encode, load};

fn best<T>(mut work: impl FnMut() -> T) -> (Duration, T) {
    let timed = |work: &mut dyn FnMut() -> T| {
        let start = Instant::now();
        let result = work();
        (start.elapsed(), result)
    };
    let runs = (0..5).map(|_| timed(&mut work));
    runs.min_by_key(|(time, _)| *time).expect("five runs")
}

fn megabytes(case: &Case) -> f64 {
    case.files.iter().map(Vec::len).sum::<usize>() as f64 / 1e6
}

fn main() {
    for services in [1_000, 10_000, 60_000] {
        for rising in [true, false] {
            let (world, case) = large(1, services, rising);
            let lens = case.rooms.map(|room| room * 14);
            let (loading, store) = best(|| load(&case.texts(), &case.rooms));
            let mut store = store.expect("a sound delivery");
            let (encoding, _) = best(|| encode(&store, &lens));
            let mut rng = Rng::new(1);
            let (amending, _) = best(|| {
                for _ in 0..1_000 {
                    let amendment = amendment(&mut rng, &world);
                    let _ = amend(&mut store, amendment.service, &amendment.block);
                }
            });
            println!(
                "{services} services, keys {}, {:.1} MB: load {loading:.1?}, encode {encoding:.1?}, 1000 amendments {amending:.1?}",
                if rising { "rising" } else { "shuffled" },
                megabytes(&case),
            );
        }
    }
}
