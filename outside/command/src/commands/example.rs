//! walumpeh example: the worked example's files.

use crate::fault::Fault;
use crate::files::write::{self, Output};
use model::files::{bytes_of, tape_file};
use std::path::PathBuf;
use std::process::ExitCode;

/// Write the worked example's three files: x · 6 = 2 on 4 bits
///
/// problem.tbv, start.bin and tape.bin. walumpeh run and tvrun then print
///     verdict model moves 1 steps 2 words 5
///     0 11
///
/// Example:
///     walumpeh example; walumpeh run
#[derive(clap::Args)]
#[command(verbatim_doc_comment)]
pub struct Args {
    /// The folder that they are written to
    #[arg(default_value = ".")]
    folder: PathBuf,
}

pub fn run(args: &Args) -> Result<ExitCode, Fault> {
    let [problem, start, tape] = ["problem.tbv", "start.bin", "tape.bin"].map(|name| args.folder.join(name));
    let outputs = [
        Output { path: &problem, bytes: text::worked_example().bytes() },
        Output { path: &start, bytes: bytes_of(&[0; 5]) },
        Output { path: &tape, bytes: tape_file(1, &[0, 0, 9, 0, 4]) },
    ];
    write::all(&outputs, &[])?;
    Ok(ExitCode::SUCCESS)
}
