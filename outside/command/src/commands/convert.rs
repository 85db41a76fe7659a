//! walumpeh convert: a problem file from BTOR2.

use crate::btor2::converted;
use crate::fault::Fault;
use crate::files::read;
use crate::files::write::{self, Output};
use model::btor2;
use std::path::PathBuf;
use std::process::ExitCode;

/// Make a problem file from BTOR2, as yosys writes it
///
/// Inputs become the variables, in the order of their lines; an assignment of the inputs meets all
/// constraints exactly if it makes all roots 1. What is refused is told by the first line that fails:
///     IN:LINE: refused NUMBER: what is wrong
/// 1 not a line of the format; 2 a keyword outside the list; 3 an id that does not increase or is not
/// defined; 4 sorts or widths that do not fit, or a value too wide; 5 more than 1,024 nodes or 256 roots.
///
/// Example:
///     walumpeh convert frame.btor frame.tbv --names inputs.txt
#[derive(clap::Args)]
#[command(verbatim_doc_comment, after_help = LIST)]
pub struct Args {
    /// The BTOR2 text
    #[arg(value_name = "IN")]
    text: PathBuf,
    /// The problem file that is made
    #[arg(value_name = "OUT")]
    problem: PathBuf,
    /// Allow a text without constraints: every start is a model of it
    #[arg(long)]
    rootless: bool,
    /// Write the inputs' names to a file, one a line, as export and model take them
    #[arg(long, value_name = "FILE")]
    names: Option<PathBuf>,
}

const LIST: &str = "\
The list (sorts are bit-vectors of 1 to 64 bits; remarks and symbols are skipped, -7 is not 7):
    sort bitvec, input, const, constd, consth, zero, one, ones, not, and, or, xor, add, sub, mul,
    sll, srl, sra, eq, neq, ult, slt, ite, concat, slice, uext, sext, constraint
A line is a node, but or takes 4 (not, not, and, not), sub 3 (not, add, not), neq and uext 2, a negative
reference one not more; uext and sext by 0 take none, nor does a constraint.
An input's name is its symbol; or its id, where it has none, or one that is a number or another input's too.
What brings a module of Verilog into the list is in scripts/btor2-examples.";

pub fn run(args: &Args) -> Result<ExitCode, Fault> {
    let text = read::any(&args.text)?;
    let bytes = converted(&args.text, &text)?;
    if bytes[7..9] == [0, 0] && !args.rootless {
        let none = "no constraint: every start would be a model (--rootless allows it)";
        return Err(Fault::at(&args.text, none));
    }
    let mut outputs = vec![Output { path: &args.problem, bytes }];
    if let Some(path) = &args.names {
        let list = btor2::names(&text).iter().flat_map(|name| [name.as_slice(), b"\n"].concat()).collect();
        outputs.push(Output { path, bytes: list });
    }
    write::all(&outputs, &[&args.text])?;
    Ok(ExitCode::SUCCESS)
}
