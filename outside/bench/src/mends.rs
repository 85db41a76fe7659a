//! Files of 1,024 nodes put in order: microseconds a call.

use crate::measure::fastest;
use generate::families::deep;
use generate::shuffled::{reversed, turned};
use generate::Builder;
use model::problem::MOST_NODES;
use model::{Kind, Pair, Problem};
use std::hint::black_box;

type Mend = fn(&[u8], &mut [u8], &mut [u16]) -> u64;

/// The calls of the library and of plain Rust.
const SIDES: [Mend; 2] = [walumpeh::raw::mend, plain::calls::mend];

pub fn table(rounds: usize) {
    println!("{:24}   {:>8} {:>8}   {:>5}", "1,024 nodes", "us", "plain", "ratio");
    let (deep, chain) = (deep(3, MOST_NODES).problem, chain());
    for (name, file) in [
        ("deep, in order", deep.bytes()),
        ("deep, in any order", turned(1, &deep)),
        ("deep, from the last", reversed(&deep)),
        ("a chain, from the last", reversed(&chain)),
        ("a chain, in any order", turned(2, &chain)),
    ] {
        let (mut mended, mut map) = (vec![0; file.len()], [0; MOST_NODES]);
        let [library, plain] = fastest(rounds, 1, |side, _| {
            let answer = SIDES[side](&file, &mut mended, &mut map);
            assert_eq!(black_box(answer), 0, "{name} is mended");
        });
        println!("{name:24}   {:>8.1} {:>8.1}   {:>5.2}", library / 1000.0, plain / 1000.0, plain / library);
    }
}

/// A variable, and one not of the other.
fn chain() -> Problem {
    let mut builder = Builder::new();
    let mut last = builder.variable(1, Pair { lo: 0, hi: 1 });
    while builder.len() < MOST_NODES {
        last = builder.node(Kind::Not, &[last]);
    }
    builder.root(last);
    builder.problem
}
