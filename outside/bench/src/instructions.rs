//! Instructions of each family's runs, counted by valgrind, which do not vary from run to run.

use crate::before;
use crate::measure::{Run, SIDES};
use crate::workload::{family, ABOVE, FAMILIES};
use std::process::Command;

/// A side by its name: the two of every table, plain Rust that evaluates all nodes after each move, and the older build.
fn side(name: &str) -> Option<Run> {
    match name {
        "plain-all" => Some(plain::calls::run_all),
        "before" => before::run(),
        _ => SIDES.into_iter().find(|(other, _)| *other == name).map(|(_, run)| run),
    }
}

/// The runs of a family by one side, some times over.
pub fn work(side_name: &str, name: &str, times: usize) -> Result<(), String> {
    let run = side(side_name).ok_or(format!("no side '{side_name}'"))?;
    let mut workload = family(name).ok_or(format!("no family '{name}'"))?;
    for _ in 0..times {
        (0..workload.runs()).for_each(|index| workload.run(run, index));
    }
    Ok(())
}

pub fn table() -> Result<(), String> {
    println!(
        "{:9} {:>14} {:>14}   {:>14} {:>8}   {:>5}",
        "family", "instructions", "plain", "a node", "plain", "ratio"
    );
    for name in FAMILIES {
        let workload = family(name).expect("a family");
        let evaluated = workload.amount().evaluated as f64;
        let [library, plain] = [count(SIDES[0].0, name)?, count(SIDES[1].0, name)?];
        println!(
            "{name:9} {library:>14.0} {plain:>14.0}   {:>14.2} {:>8.2}   {:>5.2}",
            library / evaluated,
            plain / evaluated,
            plain / library
        );
    }
    Ok(())
}

/// Instructions a move on the families of `above`, and the ratios to the other sides.
pub fn table_above() -> Result<(), String> {
    println!(
        "{:13} {:>9} {:>9} {:>9} {:>9}   {:>8} {:>8} {:>9}",
        "family", "a move", "plain", "plain-all", "before", "to-plain", "to-all", "to-before"
    );
    for name in ABOVE {
        let workload = family(name).expect("a family");
        let moves = (workload.amount().moves * workload.again as u64) as f64;
        let per_move = |side: &str| count(side, name).map(|instructions| instructions / moves);
        let [library, plain, all] = [per_move("library")?, per_move("plain")?, per_move("plain-all")?];
        let (before, to_before) = match before::run() {
            Some(_) => {
                let before = per_move("before")?;
                (format!("{before:.0}"), format!("{:.2}", before / library))
            }
            None => ("-".into(), "-".into()),
        };
        println!(
            "{name:13} {library:>9.0} {plain:>9.0} {all:>9.0} {before:>9}   {:>8.2} {:>8.2} {to_before:>9}",
            plain / library,
            all / library
        );
    }
    Ok(())
}

/// Instructions of a family's runs: what doing them a second time adds.
fn count(side: &str, name: &str) -> Result<f64, String> {
    Ok(counted(side, name, "2")? - counted(side, name, "1")?)
}

/// Instructions of this program doing a family's runs so many times.
fn counted(side: &str, name: &str, times: &str) -> Result<f64, String> {
    let own = std::env::current_exe().map_err(|fault| format!("this program: {fault}"))?;
    let output = Command::new("valgrind")
        .args(["--tool=callgrind", "--callgrind-out-file=/dev/null"])
        .arg(own)
        .args(["work", side, name, times])
        .output()
        .map_err(|fault| format!("valgrind: {fault}"))?;
    let printed = String::from_utf8_lossy(&output.stderr);
    let line =
        printed.lines().find(|line| line.contains("Collected")).ok_or(format!("valgrind: {printed}"))?;
    line.rsplit(' ').next().and_then(|number| number.parse().ok()).ok_or(format!("valgrind: {line}"))
}
