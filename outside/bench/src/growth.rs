//! Cost as the nodes grow from 16 to 1,024, as the budget grows, and as more of 1,024 nodes are above the variable that moves
//! set: all are to be linear.

use crate::measure::{fastest, SIDES};
use crate::plot::{plot, Series};
use crate::workload::Workload;
use generate::families::{deep, spread};
use model::Problem;
use std::path::Path;

pub fn table(rounds: usize, svg: Option<&Path>) -> Result<(), String> {
    let nodes = [16, 32, 64, 128, 256, 512, 768, 1024];
    println!(
        "{:>6} {:>12} {:>12}   {:>8} {:>8}   {:>5}",
        "nodes", "ns/move", "plain", "ns/node", "plain", "ratio"
    );
    let by_nodes = nodes.map(|size| {
        let [library, plain, moves] = cost(rounds, &deep(3, size).problem, 200);
        let [library, plain] = [library / moves, plain / moves];
        println!(
            "{size:>6} {library:>12.1} {plain:>12.1}   {:>8.2} {:>8.2}   {:>5.2}",
            library / size as f64,
            plain / size as f64,
            plain / library
        );
        [size as f64, library, plain]
    });
    println!(
        "{:>6} {:>12} {:>12}   {:>8} {:>8}   {:>5}",
        "budget", "us/run", "plain", "ns/move", "plain", "ratio"
    );
    let by_budget = [25, 50, 100, 200, 400, 800].map(|budget| {
        let [library, plain, moves] = cost(rounds, &deep(3, 256).problem, budget);
        println!(
            "{budget:>6} {:>12.1} {:>12.1}   {:>8.1} {:>8.1}   {:>5.2}",
            library / 1000.0,
            plain / 1000.0,
            library / moves,
            plain / moves,
            plain / library
        );
        [f64::from(budget), library / 1000.0, plain / 1000.0]
    });
    println!(
        "{:>6} {:>12} {:>12}   {:>8} {:>8}   {:>5}",
        "above", "ns/move", "plain", "ns/node", "plain", "ratio"
    );
    let by_above = [3, 64, 128, 256, 384, 512, 768, 1020].map(|above| {
        let [library, plain, moves] = cost(rounds, &spread(above), 1000);
        let [library, plain] = [library / moves, plain / moves];
        println!(
            "{above:>6} {library:>12.1} {plain:>12.1}   {:>8.2} {:>8.2}   {:>5.2}",
            library / above as f64,
            plain / above as f64,
            plain / library
        );
        [above as f64, library, plain]
    });
    let Some(svg) = svg else {
        return Ok(());
    };
    let series = |name, rows: &[[f64; 3]], column: usize| Series {
        name,
        points: rows.iter().map(|row| (row[0], row[column])).collect(),
    };
    let drawn = plot(&[
        (
            "Nanoseconds a move by nodes",
            "nodes",
            &[series("library", &by_nodes, 1), series("plain Rust", &by_nodes, 2)],
        ),
        (
            "Microseconds a run of 256 nodes by budget",
            "moves",
            &[series("library", &by_budget, 1), series("plain Rust", &by_budget, 2)],
        ),
        (
            "Nanoseconds a move by what is above its variable",
            "of 1,024 nodes",
            &[series("library", &by_above, 1), series("plain Rust", &by_above, 2)],
        ),
    ]);
    std::fs::write(svg, drawn).map_err(|fault| format!("{}: {fault}", svg.display()))
}

/// Nanoseconds of a run by the library and by plain Rust, and its moves.
fn cost(rounds: usize, problem: &Problem, budget: u16) -> [f64; 3] {
    const RUNS: u64 = 4;
    let mut workload = Workload::new(problem, RUNS, budget);
    let moves = workload.amount().moves;
    let [library, plain] = fastest(rounds, workload.runs(), |side, run| workload.run(SIDES[side].1, run));
    [library / RUNS as f64, plain / RUNS as f64, moves as f64 / RUNS as f64]
}
