//! 256 starts of a few moves each: one call for all of them beside a call for each.

use crate::measure::{fastest_told, SIDES};
use generate::families::{deep, frame, products, start};
use generate::solved::Solved;
use generate::Rng;
use std::hint::black_box;
use std::time::Instant;
use walumpeh::raw::{ANSWER, RUN_OUT};
use walumpeh::MOST_STARTS;

/// The call for many starts as both sides have it.
type Batch = fn(&[u8], u64, &mut [u64], &[u64], &[u64], &[u16], &mut [u64]) -> u64;

const BATCHES: [Batch; 2] = [walumpeh::raw::batch, plain::calls::batch];

/// What is lent to all calls.
struct Work {
    problem: Vec<u8>,
    nodes: usize,
    starts: Vec<u64>,
    tape: Vec<u64>,
    lengths: Vec<u64>,
    budgets: Vec<u16>,
}

impl Work {
    fn new(solved: &Solved, moves: u16) -> Work {
        let height = solved.problem.height();
        let words = usize::from(moves) * (1 + 2 * height);
        let mut rng = Rng::new(1);
        Work {
            problem: solved.problem.bytes(),
            nodes: solved.problem.nodes.len(),
            starts: (0..MOST_STARTS as u64).flat_map(|seed| start(seed, solved)).collect(),
            tape: (0..words * MOST_STARTS).map(|_| rng.word()).collect(),
            lengths: vec![words as u64; MOST_STARTS],
            budgets: vec![moves; MOST_STARTS],
        }
    }

    /// All starts in one call.
    fn at_once(&self, batch: Batch, values: &mut [u64]) -> u64 {
        let mut answers = [0; ANSWER * MOST_STARTS];
        let starts = MOST_STARTS as u64;
        batch(&self.problem, starts, values, &self.tape, &self.lengths, &self.budgets, &mut answers);
        black_box(&answers).chunks(ANSWER).map(|answer| answer[2]).sum()
    }

    /// A call for each start.
    fn one_by_one(&self, side: usize, values: &mut [u64]) -> u64 {
        let (mut moves, mut from) = (0, 0);
        for (own, &length) in values.chunks_mut(self.nodes).zip(&self.lengths) {
            let (mut out, words) = ([0; RUN_OUT], from..from + length as usize);
            SIDES[side].1(&self.problem, own, &self.tape[words.clone()], self.budgets[0], &mut out);
            from = words.end;
            moves += black_box(out)[1];
        }
        moves
    }
}

pub fn table(rounds: usize) {
    println!(
        "{:11} {:>5} {:>6}   {:>12} {:>12} {:>6}   {:>12} {:>12} {:>6}   {:>8}",
        "family", "nodes", "moves", "ns/start", "by-itself", "gain", "plain", "by-itself", "gain", "to-plain"
    );
    let families = [
        ("few", products(2, 1, 8)),
        ("frame-30", frame(1, 30)),
        ("products-19", products(2, 19, 32)),
        ("deep-200", deep(3, 200)),
        ("frame-162", frame(1, 162)),
    ];
    for (name, solved) in families {
        for moves in [1, 3, 10, 100] {
            let work = Work::new(&solved, moves);
            let mut values = work.starts.clone();
            let mut made = 0;
            let times: [f64; 4] = fastest_told(rounds, 1, |side, _| {
                values.copy_from_slice(&work.starts);
                let start = Instant::now();
                made = match side {
                    0 | 2 => work.at_once(BATCHES[side / 2], &mut values),
                    _ => work.one_by_one(side / 2, &mut values),
                };
                start.elapsed()
            });
            let [library, single, plain, plain_single] = times.map(|time| time / MOST_STARTS as f64);
            println!(
                "{name:11} {:>5} {:>6.1}   {library:>12.0} {single:>12.0} {:>6.2}   {plain:>12.0} {plain_single:>12.0} {:>6.2}   {:>8.2}",
                work.nodes,
                made as f64 / MOST_STARTS as f64,
                single / library,
                plain_single / plain,
                plain / library
            );
        }
    }
}
