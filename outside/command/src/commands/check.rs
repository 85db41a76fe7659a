//! walumpeh check: whether a problem file is accepted.

use crate::fault::Fault;
use crate::files::{print, read};
use std::path::PathBuf;
use std::process::ExitCode;

/// Say whether a problem file is accepted, or the refusal's number, place and meaning
///
/// Example:
///     walumpeh check problem.tbv
#[derive(clap::Args)]
#[command(verbatim_doc_comment)]
pub struct Args {
    /// The problem file
    problem: PathBuf,
}

pub fn run(args: &Args) -> Result<ExitCode, Fault> {
    let bytes = read::problem(&args.problem)?;
    walumpeh::check(&bytes).map_err(|refusal| Fault::at(&args.problem, refusal))?;
    print::text("accepted\n")
}
