//! The subcommands: each module has its arguments and what it does with them.

pub mod batch;
mod build;
mod check;
mod completions;
mod convert;
mod example;
mod export;
mod gather;
mod man;
mod mend;
mod model;
mod need;
mod run;
mod show;
mod solve;
mod tape;

use crate::fault::Fault;
use clap::Subcommand;
use std::process::ExitCode;

#[derive(Subcommand)]
pub enum Command {
    Build(build::Args),
    Convert(convert::Args),
    Show(show::Args),
    Check(check::Args),
    Mend(mend::Args),
    Need(need::Args),
    Tape(tape::Args),
    Run(run::Args),
    Batch(batch::Args),
    Gather(gather::Args),
    Solve(solve::Args),
    Export(export::Args),
    Model(model::Args),
    Example(example::Args),
    Completions(completions::Args),
    Man(man::Args),
}

impl Command {
    /// The status where a file cannot be read or written: of `model` 1 says no.
    pub fn trouble(&self) -> ExitCode {
        match self {
            Command::Model(_) => ExitCode::from(2),
            _ => ExitCode::FAILURE,
        }
    }

    /// Does it; `line` is what the command line may be.
    pub fn run(self, line: clap::Command) -> Result<ExitCode, Fault> {
        match self {
            Command::Build(args) => build::run(&args),
            Command::Convert(args) => convert::run(&args),
            Command::Show(args) => show::run(&args),
            Command::Check(args) => check::run(&args),
            Command::Mend(args) => mend::run(&args),
            Command::Need(args) => need::run(&args),
            Command::Tape(args) => tape::run(&args),
            Command::Run(args) => run::run(&args),
            Command::Batch(args) => batch::run(&args),
            Command::Gather(args) => gather::run(&args),
            Command::Solve(args) => solve::run(&args),
            Command::Export(args) => export::run(&args),
            Command::Model(args) => model::run(&args),
            Command::Example(args) => example::run(&args),
            Command::Completions(args) => completions::run(&args, line),
            Command::Man(_) => man::run(line),
        }
    }
}
