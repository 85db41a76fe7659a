//! How soon models come, by family and by how proposals are drawn: models found, moves, and the share of
//! moves that leave all values as they were.
//!
//! Each move is a run of its own with a budget of one, lent as many words as a move can take: a run is the
//! same whether it is cut open or not. Its words come from the seed and the number of the move alone, so that
//! runs by other rules are lent the same words, move by move.

use generate::families::{counter, deep, frame, laps, mixed, products, start};
use generate::solved::Solved;
use generate::tape::{Manner, Proposals};
use generate::Rng;
use model::calls::RUN_OUT;
use model::Verdict;

/// So many problems of each family, in turn.
const PROBLEMS: u64 = 20;

/// A family's problem of a seed.
type Family = fn(u64) -> Solved;

const FAMILIES: [(&str, Family); 12] = [
    ("frame 8", |seed| frame(seed, 8)),
    ("frame 32", |seed| frame(seed, 32)),
    ("products 4 x 16", |seed| products(seed, 4, 16)),
    ("products 16 x 32", |seed| products(seed, 16, 32)),
    ("deep 64", |seed| deep(seed, 64)),
    ("deep 256", |seed| deep(seed, 256)),
    ("mixed 100", |seed| mixed(seed, 100)),
    ("mixed 500", |seed| mixed(seed, 500)),
    ("laps 8", |seed| laps(seed, 8)),
    ("laps 32", |seed| laps(seed, 32)),
    ("counter 8", |seed| counter(seed, 8)),
    ("counter 32", |seed| counter(seed, 32)),
];

/// What a family's runs came to.
#[derive(Default)]
struct Sum {
    found: u64,
    moves: u64,
    still: u64,
}

pub fn table(tapes: u64, budget: u16) {
    println!("of {tapes} starts and tapes of at most {budget} moves: models found, the mean of the moves (a run without a model counts all), and of a hundred moves those that change no value");
    println!("{:18} {:>24}   {:>24}", "family", "uniform proposals", "shifted proposals");
    for (name, family) in FAMILIES {
        let problems: Vec<Solved> = (0..PROBLEMS).map(family).collect();
        let cells = [Proposals::Uniform, Proposals::Shifted].map(|proposals| {
            let sum = runs(&problems, Manner { proposals, ..Manner::USUAL }, tapes, budget);
            let still = 100.0 * sum.still as f64 / sum.moves.max(1) as f64;
            format!("{:>6} {:>9.1} {still:>5.1} %", sum.found, sum.moves as f64 / tapes as f64)
        });
        println!("{name:18} {:>24}   {:>24}", cells[0], cells[1]);
    }
}

fn runs(problems: &[Solved], manner: Manner, tapes: u64, budget: u16) -> Sum {
    let mut sum = Sum::default();
    for seed in 0..tapes {
        run(&problems[seed as usize % problems.len()], seed, manner, budget, &mut sum);
    }
    sum
}

/// One run from a start, move by move.
fn run(solved: &Solved, seed: u64, manner: Manner, budget: u16, sum: &mut Sum) {
    let bytes = solved.problem.bytes();
    let steps = solved.problem.height();
    let mut values = start(seed, solved);
    solved.problem.evaluate(&mut values);
    for number in 0..budget {
        let tape = words_of_move(seed, number, steps, manner);
        let before = values.clone();
        let mut out = [0; RUN_OUT];
        plain::calls::run(&bytes, &mut values, &tape, 1, &mut out);
        let [verdict, moves, ..] = out;
        sum.moves += moves;
        sum.still += u64::from(moves == 1 && values == before);
        sum.found += u64::from(verdict == Verdict::Model as u64);
        if verdict != Verdict::Spent as u64 {
            return;
        }
    }
}

/// A word for the root, and two for each step.
fn words_of_move(seed: u64, number: u16, steps: usize, manner: Manner) -> Vec<u64> {
    let mut rng = Rng::of_case(seed, number.into());
    let mut tape = vec![rng.word()];
    let mut chance = || rng.word();
    for _ in 0..steps {
        tape.extend(manner.step(&mut chance));
    }
    tape
}
