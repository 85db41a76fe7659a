//! The comparison with z3: its command line.

use clap::Parser;
use model::Kind;
use smt::{answers, models, sugar, terms, unsolved};
use std::process::ExitCode;
use std::time::Instant;

/// Compare the proved library with z3 (the variables Z3 and CVC5 may name the programs)
///
/// All nodes' values of random problems; the models found for problems with a solution; small problems, of
/// which those that z3 calls unsatisfiable must not bring a model; and the models that z3 and cvc5 find,
/// which the library must call solutions. The status is not 0 where anything differs.
#[derive(Parser)]
#[command(name = "smt-compare")]
struct Line {
    #[arg(long, default_value_t = 1)]
    seed: u64,
    /// How many random problems
    #[arg(long, default_value_t = 3000)]
    terms: u64,
    /// How many problems with a solution
    #[arg(long, default_value_t = 3000)]
    models: u64,
    /// How many small problems
    #[arg(long, default_value_t = 3000)]
    unsolved: u64,
    /// How many problems whose models z3 and cvc5 are asked for, each twice
    #[arg(long, default_value_t = 100)]
    answers: u64,
}

fn main() -> ExitCode {
    match compare(&Line::parse()) {
        Ok(()) => ExitCode::SUCCESS,
        Err(fault) => {
            eprintln!("smt-compare: {fault}");
            ExitCode::FAILURE
        }
    }
}

fn compare(line: &Line) -> Result<(), String> {
    println!("seed {}", line.seed);
    if walumpeh::raw::IS_STUB {
        println!("the proved library is not linked: the model stands in for it");
    }
    let difference = |d: String| format!("difference: {d}");
    let counts = terms(line, &Kind::ALL).map_err(difference)?;
    // Those that were added later, by themselves: more of each.
    terms(line, &Kind::ALL[Kind::SignedBelow as usize..]).map_err(difference)?;
    let start = Instant::now();
    let names = sugar::compare().map_err(difference)?;
    println!("names for several nodes at some width that z3 confirmed: {names}, {}", seconds(start));
    let start = Instant::now();
    let confirmed = models::compare(line.models, line.seed).map_err(difference)?;
    println!("models that z3 confirmed: {confirmed} of {} problems, {}", line.models, seconds(start));
    let start = Instant::now();
    let c = unsolved::compare(line.unsolved, 8, line.seed).map_err(difference)?;
    println!(
        "small problems: {} unsatisfiable, none brought a model ({} closed); {} satisfiable, {} brought one; {} unknown, {}",
        c.unsatisfiable, c.closed, c.satisfiable, c.found, c.unknown, seconds(start)
    );
    let start = Instant::now();
    let a = answers::compare(line.answers, line.seed).map_err(difference)?;
    println!("solvers' own models: {}, {}", a.shown(), seconds(start));
    if !a.complete() || counts.contains(&0) || confirmed == 0 || c.closed == 0 || c.unsatisfiable == c.closed
    {
        return Err("something was never reached".into());
    }
    Ok(())
}

/// Terms over some kinds.
fn terms(line: &Line, kinds: &[Kind]) -> Result<terms::Counts, String> {
    let start = Instant::now();
    let counts = terms::compare(line.terms, line.seed, kinds)?;
    let shown: Vec<String> =
        kinds.iter().map(|&kind| format!("{} {}", kind.name(), counts[kind as usize])).collect();
    let all: u64 = kinds.iter().map(|&kind| counts[kind as usize]).sum();
    println!("nodes whose value z3 confirmed: {all} ({}), {}", shown.join(", "), seconds(start));
    Ok(counts)
}

fn seconds(since: Instant) -> String {
    format!("{:.1} s", since.elapsed().as_secs_f64())
}
