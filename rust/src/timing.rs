//! Times two things beside each other on the same machine in the same run.

use std::time::Instant;

pub const RUNS: usize = 300;
const WARM_UP: usize = 20;

/// The best time of each, in nanoseconds; they take turns, so that both meet the same machine.
pub fn best_of_both(proved: impl FnMut(), baseline: impl FnMut()) -> [f64; 2] {
    best_of(RUNS, WARM_UP, proved, baseline)
}

/// As `best_of_both`, in so many runs, with so many before them that do not count.
pub fn best_of(
    runs: usize,
    warm_up: usize,
    mut proved: impl FnMut(),
    mut baseline: impl FnMut(),
) -> [f64; 2] {
    for _ in 0..warm_up {
        proved();
        baseline();
    }
    let mut best = [f64::INFINITY; 2];
    for _ in 0..runs {
        best[0] = best[0].min(nanoseconds(&mut proved));
        best[1] = best[1].min(nanoseconds(&mut baseline));
    }
    best
}

fn nanoseconds(run: &mut impl FnMut()) -> f64 {
    let start = Instant::now();
    run();
    start.elapsed().as_nanos() as f64
}
