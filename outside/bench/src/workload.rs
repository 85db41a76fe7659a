//! What is run: a problem of a family, with starts and tapes from seeds.

use crate::measure::Run;
use generate::families::{deep, frame, frames, products};
use generate::{solved, Rng};
use model::{run, Problem};

pub struct Workload {
    pub nodes: usize,
    /// How often a run is made in one go: those of few moves are too short for the clock.
    pub again: usize,
    problem: Vec<u8>,
    budget: u16,
    starts: Vec<Vec<u64>>,
    tapes: Vec<Vec<u64>>,
    /// A place for each node, to run in.
    values: Vec<u64>,
}

/// What a workload's runs do, each made once, by the model's count.
pub struct Amount {
    pub moves: u64,
    pub steps: u64,
    /// Nodes evaluated.
    pub evaluated: u64,
}

/// A frame with checksum and parity, products with a known answer, and a deep mixed graph of 1,024 nodes.
pub const FAMILIES: [&str; 3] = ["frame", "products", "deep"];

/// Frames of about 1,000 nodes and of fewer, one and several side by side; deep graphs, in which most nodes are above each
/// variable; and runs of a few moves, on 7 nodes and on a frame.
pub const ABOVE: [&str; 11] = [
    "frame-162",
    "frame-32",
    "frames-8x16",
    "frames-16x6",
    "products-16",
    "deep-1024",
    "deep-256",
    "deep-64",
    "few-3-moves",
    "few-1-move",
    "frame-3-moves",
];

pub fn family(name: &str) -> Option<Workload> {
    let (solved, runs, budget) = match name {
        "frame" | "frame-32" => (frame(1, 32), 16, 200),
        "products" | "products-16" => (products(2, 16, 32), 16, 400),
        "deep" | "deep-1024" => (deep(3, 1024), 4, 200),
        "deep-256" => (deep(3, 256), 4, 200),
        "deep-64" => (deep(3, 64), 8, 200),
        "frame-162" => (frame(1, 162), 8, 200),
        "frames-8x16" => (frames(1, 8, 16), 8, 200),
        "frames-16x6" => (frames(1, 16, 6), 8, 200),
        "few-3-moves" => (products(2, 1, 8), 64, 3),
        "few-1-move" => (products(2, 1, 8), 64, 1),
        "frame-3-moves" => (frame(1, 162), 8, 3),
        _ => return None,
    };
    Some(Workload::new(&solved.problem, runs, budget))
}

impl Workload {
    pub fn new(problem: &Problem, runs: u64, budget: u16) -> Workload {
        let starts = (0..runs).map(|run| solved::values(&mut Rng::new(run), problem)).collect();
        // A move takes at most one word and two for each node on its way.
        let words = usize::from(budget) * 64;
        let tape = |run| {
            let mut rng = Rng::new(run);
            (0..words).map(|_| rng.word()).collect()
        };
        let nodes = problem.nodes.len();
        Workload {
            nodes,
            again: if budget < 10 { 50 } else { 1 },
            problem: problem.bytes(),
            budget,
            starts,
            tapes: (0..runs).map(tape).collect(),
            values: vec![0; nodes],
        }
    }

    /// How many runs there are.
    pub fn runs(&self) -> usize {
        self.starts.len()
    }

    /// One of the runs, by one side, as often as it is made in one go.
    pub fn run(&mut self, run: Run, index: usize) {
        for _ in 0..self.again {
            self.values.copy_from_slice(&self.starts[index]);
            let mut out = [0; walumpeh::raw::RUN_OUT];
            run(&self.problem, &mut self.values, &self.tapes[index], self.budget, &mut out);
            std::hint::black_box(out);
        }
    }

    /// What all the runs do.
    pub fn amount(&self) -> Amount {
        let mut amount = Amount { moves: 0, steps: 0, evaluated: 0 };
        for (start, tape) in self.starts.iter().zip(&self.tapes) {
            let answer = run(&self.problem, &mut start.clone(), tape, self.budget);
            amount.moves += answer.moves;
            amount.steps += answer.steps;
            amount.evaluated += answer.evaluated;
        }
        amount
    }
}
