//! The least time of a call over short rounds in which the candidates take turns, so that all meet the same machine and some round of
//! each meets it idle.
use std::time::Instant;

/// Nanoseconds a call, for each candidate, which makes `calls` calls when run; it is told the round's number.
pub fn least<const N: usize>(rounds: usize, calls: usize, mut candidates: [&mut dyn FnMut(usize); N]) -> [f64; N] {
    let mut least = [f64::MAX; N];
    for round in 0..rounds {
        for (best, candidate) in least.iter_mut().zip(candidates.iter_mut()) {
            let start = Instant::now();
            candidate(round);
            *best = best.min(start.elapsed().as_nanos() as f64 / calls as f64);
        }
    }
    least
}
