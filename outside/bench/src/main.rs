//! The benchmarks' command line.

mod above;
mod batch;
mod before;
mod convert;
mod growth;
mod instructions;
mod measure;
mod mends;
mod models;
mod moves;
mod picks;
mod plot;
mod runs;
mod share;
mod solve;
mod solved;
mod verilog;
mod workload;

use clap::Parser;
use std::path::PathBuf;
use std::process::ExitCode;

/// Measure the proved library beside plain Rust and z3
///
/// Ratios are plain Rust's time over the library's, from the fastest of N rounds in which the two take
/// turns: 1.00 is equal, more is better.
#[derive(Parser)]
#[command(name = "bench")]
enum Line {
    /// Moves a second and nanoseconds a node, beside plain Rust, by family
    Runs(Rounds),
    /// What the index of readers is worth, by family: beside plain Rust with it and without, and an older build
    ///
    /// The older build is linked where WALUMPEH_BEFORE names its archive when this program is built.
    Above(Rounds),
    /// 256 starts of a few moves in one call, beside a call for each
    Batch(Rounds),
    /// Nanoseconds a pick of each kind and set, beside plain Rust
    Picks(Rounds),
    /// Microseconds to put 1,024 nodes in order, beside plain Rust
    Mends(Rounds),
    /// BTOR2 converted, beside plain Rust with a hash map
    Convert(Rounds),
    /// Cost as the nodes, the budget and what is above a variable grow; a plot where asked for
    Growth {
        #[command(flatten)]
        rounds: Rounds,
        #[arg(long, value_name = "FILE")]
        svg: Option<PathBuf>,
    },
    /// Reading another solver's model: 1,024 entries against 1,024 names, and as the text grows
    Models(Rounds),
    /// Instructions of each family's runs, counted by valgrind
    Instructions {
        /// Of the families of above, with the older build where one is linked
        #[arg(long)]
        above: bool,
    },
    /// Moves to a model by the share of words e that ask for the inverse
    Share,
    /// Models found and moves to them, by how proposals are drawn
    Moves {
        /// Starts and tapes for each family
        #[arg(long, default_value_t = 200)]
        tapes: u64,
        #[arg(long, default_value_t = 3000)]
        budget: u16,
    },
    /// Time to a model beside z3's default and its local search
    Solve {
        /// The most that each may take
        #[arg(long, default_value_t = 10)]
        seconds: u64,
    },
    /// Time to a model on problems made from Verilog, beside z3, cvc5 and boolector; a plot where asked for
    Verilog(verilog::Asked),
    /// The runs of a family some times over, by library, plain, plain-all or before: for counting
    Work { side: String, family: String, times: usize },
}

#[derive(clap::Args)]
struct Rounds {
    #[arg(long, default_value_t = 60)]
    rounds: usize,
}

fn main() -> ExitCode {
    let line = Line::parse();
    if walumpeh::raw::IS_STUB {
        println!("the proved library is not linked: the slow model stands in for it");
    }
    match measure(&line) {
        Ok(()) => ExitCode::SUCCESS,
        Err(fault) => {
            eprintln!("bench: {fault}");
            ExitCode::FAILURE
        }
    }
}

fn measure(line: &Line) -> Result<(), String> {
    match line {
        Line::Runs(Rounds { rounds }) => runs::table(*rounds),
        Line::Above(Rounds { rounds }) => above::table(*rounds),
        Line::Batch(Rounds { rounds }) => batch::table(*rounds),
        Line::Picks(Rounds { rounds }) => picks::table(*rounds),
        Line::Mends(Rounds { rounds }) => mends::table(*rounds),
        Line::Convert(Rounds { rounds }) => convert::table(*rounds)?,
        Line::Growth { rounds, svg } => growth::table(rounds.rounds, svg.as_deref())?,
        Line::Models(Rounds { rounds }) => models::table(*rounds)?,
        Line::Instructions { above: true } => instructions::table_above()?,
        Line::Instructions { above: false } => instructions::table()?,
        Line::Share => share::table(),
        Line::Moves { tapes, budget } => moves::table(*tapes, *budget),
        Line::Solve { seconds } => solve::table(*seconds)?,
        Line::Verilog(asked) => verilog::table(asked)?,
        Line::Work { side, family, times } => instructions::work(side, family, *times)?,
    }
    Ok(())
}
