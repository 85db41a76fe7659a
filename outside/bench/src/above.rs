//! What the index of readers is worth: moves a second of the library beside plain Rust with the same index, plain Rust that
//! evaluates all nodes after each move, and an older build of the library where one is linked.

use crate::before;
use crate::measure::{fastest, Run, SIDES};
use crate::workload::{family, ABOVE};

pub fn table(rounds: usize) {
    println!(
        "{:13} {:>5} {:>6} {:>6} {:>6}   {:>10} {:>10} {:>10} {:>10}   {:>8} {:>8} {:>8}",
        "family",
        "nodes",
        "moves",
        "steps",
        "above",
        "moves/s",
        "plain",
        "plain-all",
        "before",
        "to-plain",
        "to-all",
        "to-before"
    );
    // Where no older build is linked, today's stands in its place, and its columns stay empty.
    let older = before::run();
    let sides: [Run; 4] = [SIDES[0].1, SIDES[1].1, plain::calls::run_all, older.unwrap_or(SIDES[0].1)];
    for name in ABOVE {
        let mut workload = family(name).expect("a family");
        let (amount, nodes, runs) = (workload.amount(), workload.nodes, workload.runs());
        let times: [f64; 4] = fastest(rounds, runs, |side, run| workload.run(sides[side], run));
        let moves = amount.moves as f64;
        let speeds = times.map(|time| moves * workload.again as f64 * 1e9 / time);
        let [library, plain, all, before] = speeds;
        let of_older = |number: String| if older.is_some() { number } else { "-".into() };
        println!(
            "{name:13} {nodes:>5} {:>6} {:>6.1} {:>6.1}   {library:>10.0} {plain:>10.0} {all:>10.0} {:>10}   {:>8.2} {:>8.2} {:>8}",
            amount.moves,
            amount.steps as f64 / moves,
            (amount.evaluated - (runs * nodes) as u64) as f64 / moves,
            of_older(format!("{before:.0}")),
            library / plain,
            library / all,
            of_older(format!("{:.2}", library / before)),
        );
    }
}
