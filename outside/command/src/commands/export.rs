//! walumpeh export: a problem as SMT-LIB text.

use crate::fault::Fault;
use crate::files::print;
use crate::files::write::{self, Output};
use crate::names;
use crate::pins::{answer_pins, fitting, pin_of, start_pins, Pin};
use crate::problem::accepted;
use ::model::Problem;
use std::path::{Path, PathBuf};
use std::process::ExitCode;
use text::smt2::{model, nodes, pin, symbol, values, Variables};

/// Print a problem as SMT-LIB text, with an answer's values pinned if wanted
///
/// The logic is QF_BV: variables with their fixed bits, every node i under the name ni, and the
/// assertion that every root is 1. sat says that the problem has a solution with the pins, unsat that it
/// has none. So the answer of a run is confirmed by
///     walumpeh run | walumpeh export problem.tbv --answer - | z3 -in
/// With --model the text asks for a model, and declares the variables alone, so that walumpeh model reads
/// the solver's answer:
///     walumpeh export problem.tbv --model --write-names names.txt | z3 -in > answer.txt
///     walumpeh model problem.tbv names.txt answer.txt
///
/// Example:
///     walumpeh run | walumpeh export problem.tbv --answer - > confirm.smt2
#[derive(clap::Args)]
#[command(verbatim_doc_comment)]
pub struct Args {
    /// The problem file
    problem: PathBuf,
    /// Pin every variable to its value in an answer of run or tvrun, which must list each once
    #[arg(long, value_name = "FILE")]
    answer: Option<PathBuf>,
    /// Pin every variable to its place in a start file
    #[arg(long, value_name = "FILE")]
    start: Option<PathBuf>,
    /// Assert that a node has a value; may be given more than once
    #[arg(long, value_name = "ID=VALUE", value_parser = id_and_value)]
    pin: Vec<Pin>,
    /// Leave the roots' assertion out
    #[arg(long)]
    no_roots: bool,
    /// Ask for the values of all nodes
    #[arg(long)]
    values: bool,
    /// Ask for a model (get-model)
    #[arg(long, conflicts_with = "values")]
    model: bool,
    /// Call the variables by a list of names, one a line, by ascending id
    #[arg(long, value_name = "FILE", requires = "model")]
    names: Option<PathBuf>,
    /// Write the list of the variables' names to a file
    #[arg(long, value_name = "FILE", requires = "model", conflicts_with = "names")]
    write_names: Option<PathBuf>,
}

fn id_and_value(text: &str) -> Result<Pin, String> {
    pin_of(text, '=').ok_or("not ID=VALUE".into())
}

pub fn run(args: &Args) -> Result<ExitCode, Fault> {
    let problem = accepted(&args.problem)?.problem;
    let mut pins = Vec::new();
    if let Some(file) = &args.answer {
        pins.extend(fitting(&problem, file, answer_pins(&problem, file)?)?);
    }
    if let Some(file) = &args.start {
        pins.extend(fitting(&problem, file, start_pins(&problem, file)?)?);
    }
    pins.extend(fitting(&problem, Path::new("--pin"), args.pin.clone())?);
    if !args.no_roots {
        pins.extend(problem.roots.iter().map(|&root| (root.into(), 1)));
    }
    if args.model {
        return asked(args, &problem, &pins);
    }
    let mut text = format!("(set-logic QF_BV)\n{}", nodes(&problem, "", Variables::Open));
    text.extend(pins.iter().map(|&(id, value)| pin(&problem, "", id, value)));
    text += "(check-sat)\n";
    if args.values {
        text += &values(0..problem.nodes.len(), "");
    }
    print::text(&text)
}

/// The text that asks for a model, and the list of names where it is to be written.
fn asked(args: &Args, problem: &Problem, pins: &[Pin]) -> Result<ExitCode, Fault> {
    let names = match &args.names {
        Some(file) => names::read(file, problem)?,
        None => names::numbered(problem),
    };
    let symbols: Vec<String> = names.iter().map(|name| named(args, name)).collect::<Result<_, _>>()?;
    let text = model(problem, &symbols, pins);
    let mut outputs = vec![Output { path: Path::new("-"), bytes: text.into_bytes() }];
    if let Some(path) = &args.write_names {
        outputs.push(Output { path, bytes: names::list(&names) });
    }
    write::all(&outputs, &[&args.problem])?;
    Ok(ExitCode::SUCCESS)
}

/// A name as SMT-LIB writes it.
fn named(args: &Args, name: &str) -> Result<String, Fault> {
    let from = args.names.as_deref().unwrap_or(Path::new("--names"));
    symbol(name).ok_or_else(|| {
        Fault::at(from, format!("the name '{name}' has a bar or a backslash, which SMT-LIB cannot write"))
    })
}
