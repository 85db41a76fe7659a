//! Runs one after the other until one finds a model, on several threads. Each run has its own numbers from the seed, and
//! the first run that finds a model is the answer, whichever thread is done first.

use crate::nodes::Ready;
use crate::search::{run, Manner, Run};
use std::sync::atomic::{AtomicU64, Ordering};
use std::sync::Mutex;
use std::time::Instant;

/// What is asked for.
#[derive(Clone, Copy, Debug)]
pub struct Asked {
    pub seed: u64,
    /// The most runs.
    pub runs: u64,
    /// When to end at the latest.
    pub until: Option<Instant>,
    pub threads: usize,
    pub manner: Manner,
}

/// How far it is: for whoever watches.
#[derive(Debug, Default)]
pub struct Progress {
    pub runs: AtomicU64,
    pub moves: AtomicU64,
    pub tried: AtomicU64,
    /// The fewest roots that were not 1, in any run that is done.
    pub fewest: AtomicU64,
}

impl Progress {
    /// A run is done.
    pub(crate) fn add(&self, run: &Run) {
        self.runs.fetch_add(1, Ordering::Relaxed);
        self.moves.fetch_add(run.moves, Ordering::Relaxed);
        self.tried.fetch_add(run.tried, Ordering::Relaxed);
        self.fewest.fetch_min(run.fewest as u64, Ordering::Relaxed);
    }
}

/// A run with its number.
pub struct Found {
    pub number: u64,
    pub run: Run,
}

/// The first run that finds a model, if any does.
pub fn solve(ready: &Ready, asked: &Asked, progress: &Progress) -> Option<Found> {
    progress.fewest.store(u64::MAX, Ordering::Relaxed);
    let (next, first) = (AtomicU64::new(0), AtomicU64::new(asked.runs));
    let found: Mutex<Option<Found>> = Mutex::new(None);
    let worker = || loop {
        let number = next.fetch_add(1, Ordering::Relaxed);
        let late = || asked.until.is_some_and(|until| Instant::now() >= until);
        if number >= first.load(Ordering::Relaxed) || late() {
            return;
        }
        // A run is given up where an earlier one has found a model.
        let stop = || number > first.load(Ordering::Relaxed) || late();
        let run = run(ready, &asked.manner, asked.seed, number, &stop);
        progress.add(&run);
        if run.model {
            first.fetch_min(number, Ordering::Relaxed);
            let mut found = found.lock().expect("no thread panics with it");
            if found.as_ref().is_none_or(|other| number < other.number) {
                *found = Some(Found { number, run });
            }
        }
    };
    std::thread::scope(|threads| {
        for _ in 1..asked.threads.max(1) {
            threads.spawn(worker);
        }
        worker();
    });
    found.into_inner().expect("all threads are done")
}

#[cfg(test)]
mod tests {
    use super::*;
    use generate::families::products;

    #[test]
    fn the_number_of_threads_changes_nothing() {
        let ready = Ready::new(&products(2, 4, 16).problem.bytes()).unwrap();
        let manner = Manner { budget: 20, ..Manner::USUAL };
        let found = |seed: u64, threads: usize| {
            let asked = Asked { seed, runs: 10_000, until: None, threads, manner };
            let found = solve(&ready, &asked, &Progress::default()).expect("a model");
            (found.number, found.run.tape, found.run.values)
        };
        for seed in 0..10 {
            let one = found(seed, 1);
            assert!([2, 7].iter().all(|&threads| found(seed, threads) == one));
        }
    }

    #[test]
    fn runs_and_time_have_an_end() {
        let ready = Ready::new(&products(2, 4, 16).problem.bytes()).unwrap();
        let manner = Manner { budget: 0, ..Manner::USUAL };
        let (now, progress) = (Instant::now(), Progress::default());
        let asked = Asked { seed: 1, runs: 7, until: None, threads: 2, manner };
        assert!(solve(&ready, &asked, &progress).is_none());
        assert_eq!(progress.runs.load(Ordering::Relaxed), 7);
        assert!(solve(&ready, &Asked { runs: u64::MAX, until: Some(now), ..asked }, &progress).is_none());
    }
}
