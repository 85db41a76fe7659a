//! walumpeh mend: a shuffled problem put in order.

use crate::fault::Fault;
use crate::files::read;
use crate::files::write::{self, Output};
use std::path::PathBuf;
use std::process::ExitCode;

/// Put a problem in order whose operands stand anywhere
///
/// The nodes are placed one by one, always the lowest id whose operands are all placed; operands and roots
/// follow their nodes. What is written is accepted by check, and has the same solutions. A problem that is in
/// order comes back byte for byte.
///
/// The map tells for each new id the old one, in 16 bits each, the low byte first.
///
/// What cannot be mended is refused, with the number, the place and its meaning; a node's place is its id in the
/// file that was read. Nothing is written then.
///
/// Example:
///     walumpeh mend shuffled.tbv mended.tbv --map map.bin
#[derive(clap::Args)]
#[command(verbatim_doc_comment)]
pub struct Args {
    /// The problem file, its nodes in any order
    problem: PathBuf,
    /// Where the problem in order is written to
    mended: PathBuf,
    /// Where the old id of each new one is written to
    #[arg(long, value_name = "FILE")]
    map: Option<PathBuf>,
}

/// As many nodes as a problem has at most.
const MOST_NODES: usize = model::problem::MOST_NODES;

pub fn run(args: &Args) -> Result<ExitCode, Fault> {
    let problem = read::problem(&args.problem)?;
    let (mut mended, mut map) = (vec![0; problem.len()], [0; MOST_NODES]);
    walumpeh::mend(&problem, &mut mended, &mut map).map_err(|refusal| Fault::at(&args.problem, refusal))?;
    let nodes = usize::from(u16::from_le_bytes([problem[5], problem[6]]));
    let mut outputs = vec![Output { path: &args.mended, bytes: mended }];
    if let Some(path) = &args.map {
        outputs.push(Output { path, bytes: map[..nodes].iter().flat_map(|old| old.to_le_bytes()).collect() });
    }
    write::all(&outputs, &[&args.problem])?;
    Ok(ExitCode::SUCCESS)
}
