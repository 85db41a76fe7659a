//! walumpeh show: a problem file as text, or as a picture.

use crate::fault::Fault;
use crate::files::{print, read};
use crate::pins::answered;
use crate::problem::decoded;
use model::Problem;
use std::path::PathBuf;
use std::process::ExitCode;
use text::{dot, shown};

/// Print a problem file as text, in the form that build reads
///
/// A line for each node and root, with the node's width and fixed bits (0, 1, or * where free) as
/// remarks. A refused problem is printed as far as its bytes go, the refused place marked with '<==',
/// and the status is 1. With --dot an accepted problem is printed as a picture for Graphviz:
///     walumpeh show problem.tbv --dot --answer answer.txt | dot -Tsvg > problem.svg
/// Roots have a double line. Given an answer, each node tells its value, and a root that is not 1 stands
/// out in red, with the ways down from it that a move could take.
///
/// Example:
///     walumpeh show problem.tbv
#[derive(clap::Args)]
#[command(verbatim_doc_comment)]
pub struct Args {
    /// The problem file
    problem: PathBuf,
    /// Print a picture for Graphviz
    #[arg(long)]
    dot: bool,
    /// Show the values of an answer of run or tvrun
    #[arg(long, value_name = "FILE", requires = "dot")]
    answer: Option<PathBuf>,
}

pub fn run(args: &Args) -> Result<ExitCode, Fault> {
    let bytes = read::problem(&args.problem)?;
    match walumpeh::check(&bytes) {
        Ok(()) => {
            let problem = decoded(&bytes).map_err(|fault| Fault::at(&args.problem, fault))?;
            print::text(&if args.dot { picture(args, &problem)? } else { shown::accepted(&problem) })
        }
        Err(refusal) => {
            print::text(&shown::refused(&bytes, refusal))?;
            Err(Fault::at(&args.problem, refusal))
        }
    }
}

fn picture(args: &Args, problem: &Problem) -> Result<String, Fault> {
    let values = args.answer.as_ref().map(|file| answered(problem, file)).transpose()?;
    Ok(dot::picture(problem, values.as_deref()))
}
