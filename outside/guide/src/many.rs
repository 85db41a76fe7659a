//! A number of runs, whatever each finds, on several threads. Run k is the one that `solve` makes under that number.

use crate::nodes::Ready;
use crate::search::{run, Run};
use crate::solve::{Asked, Progress};
use std::sync::atomic::{AtomicU64, Ordering};
use std::sync::Mutex;
use std::time::Instant;

/// All runs that are asked for, by their numbers. One that finds no model leaves its start alone, and no tape: it would be
/// long, and lead nowhere. When the time is over, runs are given up after a few moves.
pub fn many(ready: &Ready, asked: &Asked, progress: &Progress) -> Vec<Run> {
    progress.fewest.store(u64::MAX, Ordering::Relaxed);
    let next = AtomicU64::new(0);
    let runs = Mutex::new(vec![Run::default(); asked.runs as usize]);
    let late = || asked.until.is_some_and(|until| Instant::now() >= until);
    let worker = || loop {
        let number = next.fetch_add(1, Ordering::Relaxed);
        if number >= asked.runs {
            return;
        }
        let found = run(ready, &asked.manner, asked.seed, number, &late);
        progress.add(&found);
        let kept = if found.model { found } else { Run { start: found.start, ..Run::default() } };
        runs.lock().expect("no thread panics with it")[number as usize] = kept;
    };
    std::thread::scope(|threads| {
        for _ in 1..asked.threads.max(1) {
            threads.spawn(worker);
        }
        worker();
    });
    runs.into_inner().expect("all threads are done")
}

#[cfg(test)]
mod tests {
    use super::*;
    use crate::search::Manner;
    use crate::solve::solve;
    use generate::families::products;

    #[test]
    fn runs_are_those_of_solve_whatever_the_threads() {
        let ready = Ready::new(&products(2, 4, 16).problem.bytes()).unwrap();
        let manner = Manner { budget: 20, ..Manner::USUAL };
        let asked = |threads: usize| Asked { seed: 3, runs: 200, until: None, threads, manner };
        let progress = Progress::default();
        let runs = many(&ready, &asked(1), &progress);
        assert_eq!((runs.len(), progress.runs.load(Ordering::Relaxed)), (200, 200));
        let first = runs.iter().position(|run| run.model).expect("a model");
        let found = solve(&ready, &asked(1), &Progress::default()).unwrap();
        assert_eq!((found.number as usize, &found.run.tape), (first, &runs[first].tape));
        let again = many(&ready, &asked(3), &progress);
        assert!(runs
            .iter()
            .zip(&again)
            .all(|(one, other)| (&one.start, &one.tape) == (&other.start, &other.tape)));
        assert!(runs
            .iter()
            .all(|run| run.start.len() == ready.nodes.len() && (run.model || run.tape.is_empty())));
    }

    #[test]
    fn time_has_an_end() {
        let ready = Ready::new(&products(2, 4, 16).problem.bytes()).unwrap();
        let asked =
            Asked { seed: 1, runs: 9, until: Some(Instant::now()), threads: 2, manner: Manner::USUAL };
        let progress = Progress::default();
        assert_eq!(many(&ready, &asked, &progress).len(), 9);
        assert!(progress.moves.load(Ordering::Relaxed) <= 9 * 15);
    }
}
