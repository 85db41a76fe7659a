//! walumpeh build: a problem file from text.

use crate::fault::Fault;
use crate::files::read;
use crate::files::write::{self, Output};
use crate::names;
use std::path::PathBuf;
use std::process::ExitCode;
use text::form;

/// Make a problem file from a text, a line for each node
///
/// Example:
///     walumpeh build sum.txt problem.tbv --names names.txt
#[derive(clap::Args)]
#[command(verbatim_doc_comment, after_help = FORM)]
pub struct Args {
    /// The text
    text: PathBuf,
    /// The problem file that is made
    problem: PathBuf,
    /// Allow a problem without roots: every start is a model of it
    #[arg(long)]
    rootless: bool,
    /// Write the variables' names to a file, one a line, as export and model take them
    #[arg(long, value_name = "FILE")]
    names: Option<PathBuf>,
}

const FORM: &str = "\
The text:
    x   = var 4            4 bits, all free
    y   = var 4 10**       the top two bits fixed
    six = const 4 6        also 0x6, 0b0110
    p   = mul x six        and not, and, xor, add, shl, lshr, ashr, eq, below, slt, if, concat,
                           udiv (at most 16 bits)
    q   = extract p 1 2    from bit 1, two bits
    s   = sext 8 p         8 bits, the top bit repeated in front
    ok  = eq p y
    root ok
Names are any words. What follows # is a remark.
Written out as the nodes named, each of which counts; what a node leaves out is the node before it:
    or A B      not A, not B, and of both, not
    sub A B     not A, add B, not
    neg A       const 1, not A, add of both
    ne A B      eq A B, not
    ule A B     below B A, not
    sle A B     slt B A, not
    ugt A B     below B A
    sgt A B     slt B A
    zext W A    const 0 of the bits in front, concat A
    urem A B    udiv A B, mul B, not A, add of both, not (at most 16 bits)";

pub fn run(args: &Args) -> Result<ExitCode, Fault> {
    let text = read::text(&args.text)?;
    let (problem, names) = form::named(&text).map_err(|fault| Fault::at(&args.text, fault))?;
    if problem.roots.is_empty() && !args.rootless {
        return Err(Fault::at(&args.text, "no root: every start would be a model (--rootless allows it)"));
    }
    let bytes = problem.bytes();
    walumpeh::check(&bytes).map_err(|refusal| Fault::at(&args.text, refusal))?;
    let mut outputs = vec![Output { path: &args.problem, bytes }];
    if let Some(path) = &args.names {
        outputs.push(Output { path, bytes: names::list(&names) });
    }
    write::all(&outputs, &[&args.text])?;
    Ok(ExitCode::SUCCESS)
}
