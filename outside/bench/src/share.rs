//! Which share of words e that ask for the inverse set finds models soonest.

use generate::families::{deep, frame, products, start};
use generate::solved::Solved;
use generate::tape::{drawn, Drawn, Manner};
use generate::Rng;
use model::run::Search;
use model::{Outcome, Verdict};

const SHARES: [u64; 7] = [0, 25, 50, 75, 90, 95, 100];
const RUNS: u64 = 20;
const BUDGET: u16 = 3000;

/// The families in sizes that are solved in hundreds of moves.
fn problems() -> [(&'static str, Solved); 5] {
    [
        ("frame 8", frame(1, 8)),
        ("frame 32", frame(1, 32)),
        ("products", products(2, 4, 16)),
        ("deep 64", deep(3, 64)),
        ("deep 256", deep(3, 256)),
    ]
}

pub fn table() {
    println!("models found in {RUNS} runs of {BUDGET} moves, and the mean of their moves (a run without a model counts all)");
    println!("{:10} {}", "family", SHARES.map(|share| format!("{:>14}", format!("{share} %"))).concat());
    for (name, solved) in problems() {
        let cells = SHARES.map(|share| {
            let (mut found, mut moves) = (0, 0);
            for seed in 0..RUNS {
                let values = start(seed, &solved);
                let search = Search::accept(&solved.problem.bytes(), &values).expect("a start that agrees");
                let manner = Manner { inverse: share, ..Manner::USUAL };
                let words = Drawn::new(Rng::words(seed), manner, usize::MAX);
                let (_, answer) = drawn(&search, &values, BUDGET, words);
                found += u64::from(answer.outcome == Outcome::Settled(Verdict::Model));
                moves += answer.moves;
            }
            format!("{:>14}", format!("{found:>3} {:>7}", moves / RUNS))
        });
        println!("{name:10} {}", cells.concat());
    }
}
