//! Runs taken in turn, and the least time of each.
use std::time::Instant;

/// The time of one run, in ns.
pub fn timed(run: impl FnOnce()) -> f64 {
    let start = Instant::now();
    run();
    start.elapsed().as_secs_f64() * 1e9
}

/// Of each the least time of its runs, in ns.
pub fn least<const N: usize>(runs: usize, each: [&dyn Fn(); N]) -> [f64; N] {
    let mut least = [f64::INFINITY; N];
    for _ in 0..runs {
        for (least, run) in least.iter_mut().zip(each) {
            *least = least.min(timed(run));
        }
    }
    least
}
