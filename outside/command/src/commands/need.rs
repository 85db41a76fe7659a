//! walumpeh need: how long a tape a problem needs.

use crate::draw::BUDGET;
use crate::fault::Fault;
use crate::files::{print, read};
use std::path::PathBuf;
use std::process::ExitCode;

/// Say how long a tape a problem needs: so many words that no run of a budget ends for want of them
///
/// Prints two lines
///     longest chain H
///     words W for B moves
/// where H is the longest chain of operand links under any root and W is B x (1 + 2H): a move takes a
/// word, and two for each of its steps, which are never more than H. This holds for every start and for
/// smaller budgets.
///
/// Example:
///     walumpeh need problem.tbv --budget 100
#[derive(clap::Args)]
#[command(verbatim_doc_comment)]
pub struct Args {
    /// The problem file
    problem: PathBuf,
    /// The most moves
    #[arg(long, default_value_t = BUDGET)]
    budget: u16,
}

pub fn run(args: &Args) -> Result<ExitCode, Fault> {
    let bytes = read::problem(&args.problem)?;
    let need = walumpeh::need(&bytes, args.budget).map_err(|refusal| Fault::at(&args.problem, refusal))?;
    let moves = if args.budget == 1 { "move" } else { "moves" };
    print::text(&format!("longest chain {}\nwords {} for {} {moves}\n", need.chain, need.words, args.budget))
}
