//! Whole runs by family: moves a second and nanoseconds a node evaluated.

use crate::measure::{fastest, SIDES};
use crate::workload::{family, FAMILIES};

pub fn table(rounds: usize) {
    println!(
        "{:9} {:>5} {:>6} {:>6}   {:>12} {:>12}   {:>8} {:>8}   {:>5}",
        "family", "nodes", "moves", "steps", "moves/s", "plain", "ns/node", "plain", "ratio"
    );
    for name in FAMILIES {
        let mut workload = family(name).expect("a family");
        let (amount, nodes) = (workload.amount(), workload.nodes);
        let [library, plain] = fastest(rounds, workload.runs(), |side, run| workload.run(SIDES[side].1, run));
        let per_second = |time: f64| amount.moves as f64 * 1e9 / time;
        let per_node = |time: f64| time / amount.evaluated as f64;
        println!(
            "{name:9} {nodes:>5} {:>6} {:>6}   {:>12.0} {:>12.0}   {:>8.2} {:>8.2}   {:>5.2}",
            amount.moves,
            amount.steps,
            per_second(library),
            per_second(plain),
            per_node(library),
            per_node(plain),
            plain / library
        );
    }
}
