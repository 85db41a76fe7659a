//! walumpeh completions: what a shell completes the command's line with.

use crate::fault::Fault;
use crate::files::print;
use clap::Command;
use clap_complete::Shell;
use std::process::ExitCode;

/// Print a shell's completions of this command
///
/// Example:
///     walumpeh completions bash > walumpeh.bash; . ./walumpeh.bash
#[derive(clap::Args)]
#[command(verbatim_doc_comment)]
pub struct Args {
    /// The shell
    shell: Shell,
}

pub fn run(args: &Args, mut line: Command) -> Result<ExitCode, Fault> {
    let mut text = Vec::new();
    clap_complete::generate(args.shell, &mut line, "walumpeh", &mut text);
    print::text(&String::from_utf8(text).expect("completions are text"))
}
