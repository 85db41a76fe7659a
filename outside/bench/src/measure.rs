//! Several sides measured in turns, so that what slows the machine slows all.

use std::time::{Duration, Instant};

/// The run as all sides have it.
pub type Run = fn(&[u8], &mut [u64], &[u64], u16, &mut [u64]) -> u64;

/// The proved library and plain Rust, by name.
pub const SIDES: [(&str, Run); 2] = [("library", walumpeh::raw::run), ("plain", plain::calls::run)];

/// Nanoseconds of a work for each side, on the same memory. The work is cut into parts, short enough to run
/// undisturbed now and then; each counts by the fastest of `rounds` rounds in which the sides take turns, after one
/// round that does not count.
pub fn fastest<const COUNT: usize>(
    rounds: usize,
    parts: usize,
    mut work: impl FnMut(usize, usize),
) -> [f64; COUNT] {
    fastest_told(rounds, parts, |side, part| {
        let start = Instant::now();
        work(side, part);
        start.elapsed()
    })
}

/// The same of a work that tells its own time, so that what prepares it does not count.
pub fn fastest_told<const COUNT: usize>(
    rounds: usize,
    parts: usize,
    mut work: impl FnMut(usize, usize) -> Duration,
) -> [f64; COUNT] {
    let mut best = [(); COUNT].map(|()| vec![f64::INFINITY; parts]);
    for round in 0..=rounds {
        for part in 0..parts {
            for (side, best) in best.iter_mut().enumerate() {
                let time = work(side, part).as_nanos() as f64;
                if round > 0 {
                    best[part] = best[part].min(time);
                }
            }
        }
    }
    best.map(|times| times.iter().sum())
}
