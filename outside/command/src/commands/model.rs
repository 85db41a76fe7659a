//! walumpeh model: our word for another solver's model.

use crate::fault::Fault;
use crate::files::{print, read};
use crate::problem::decoded;
use ::model::judged;
use ::model::{Kind, Problem};
use std::path::PathBuf;
use std::process::ExitCode;
use walumpeh::{Judged, Place, Refusal};

/// Say whether another solver's model solves a problem
///
/// Prints 'yes'; or 'no: root K (node N, ..) is 0' for the first root, in file order, that is 0 under the
/// values of the answer; or 'refused NUMBER at PLACE: ..', with what the number means.
///
/// The list has a name for each variable, by ascending id, one a line (build --names writes it, and export
/// --write-names). The answer is what a solver prints for get-model in SMT-LIB syntax; a first line 'sat' is
/// passed over.
///
/// Example:
///     walumpeh model problem.tbv names.txt answer.txt
#[derive(clap::Args)]
#[command(verbatim_doc_comment, after_help = STATUS)]
pub struct Args {
    /// The problem file
    problem: PathBuf,
    /// The variables' names
    names: PathBuf,
    /// The solver's answer
    answer: PathBuf,
}

const STATUS: &str = "\
Exit status: 0 yes; 1 no; 2 nothing was judged: the problem, the names or the answer are refused (standard
output says so), or a file cannot be read or the command line is not understood (standard error says so).";

pub fn run(args: &Args) -> Result<ExitCode, Fault> {
    let problem = read::problem(&args.problem)?;
    let names = read::any(&args.names)?;
    let answer = read::any(&args.answer)?;
    let text = after_sat(&answer);
    match walumpeh::model(&problem, &names, text) {
        Ok(Judged::Yes) => print::text("yes\n"),
        Ok(Judged::No(root)) => {
            let problem = decoded(&problem).map_err(|fault| Fault::at(&args.problem, fault))?;
            let node = usize::from(problem.roots[usize::from(root)]);
            let what = what(&problem, &names, node);
            print::text(&format!("no: root {root} (node {node}, {what}) is 0\n"))?;
            Ok(ExitCode::from(1))
        }
        Err(refusal) => {
            print::text(&format!("{}\n", shown(refusal, &problem, &names, text)))?;
            Ok(ExitCode::from(2))
        }
    }
}

/// What follows a first line `sat`; all of it where there is none.
fn after_sat(answer: &[u8]) -> &[u8] {
    match answer {
        [b's', b'a', b't', b'\n', rest @ ..] | [b's', b'a', b't', b'\r', b'\n', rest @ ..] => rest,
        whole => whole,
    }
}

/// A variable's name, or what else a node is, as `show` has it.
fn what(problem: &Problem, names: &[u8], id: usize) -> String {
    let node = &problem.nodes[id];
    match node.kind {
        Kind::Variable => name_of(problem, names, id),
        _ => text::shown::operation(node),
    }
}

fn name_of(problem: &Problem, names: &[u8], id: usize) -> String {
    let at = problem.variables().position(|variable| variable == id);
    let name = at.and_then(|at| judged::names(names).get(at).copied()).unwrap_or_default();
    String::from_utf8_lossy(name).into_owned()
}

/// A refusal with its meaning, and the name of what it is at.
fn shown(refusal: Refusal, problem: &[u8], names: &[u8], text: &[u8]) -> String {
    let name = match (refusal.number, refusal.at()) {
        (35 | 36, Place::Node(id)) => {
            decoded(problem).ok().map(|problem| name_of(&problem, names, id as usize))
        }
        (_, Place::Entry(at)) => judged::entry_names(text)
            .and_then(|names| names.get(at as usize).map(|name| String::from_utf8_lossy(name).into_owned())),
        _ => None,
    };
    match name {
        Some(name) => format!("{refusal} ({name})"),
        None => refusal.to_string(),
    }
}
