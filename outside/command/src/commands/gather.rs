//! walumpeh gather: solutions that differ on named variables.

use crate::fault::Fault;
use crate::files::tapes::Tapes;
use crate::files::write::{self, Output};
use crate::gathered::{Column, Kept};
use crate::given::{given, Given};
use crate::guided::{apart, ready, Guided};
use crate::progress;
use guide::many::many;
use guide::solve::Progress;
use guide::{Ready, Run};
use std::path::{Path, PathBuf};
use std::process::ExitCode;
use std::time::Instant;
use walumpeh::{Gathered, Refusal, Verdict, MOST_KEPT};

/// Gather solutions that differ on named variables: stimulus for a bench
///
/// The file is BTOR2, problem bytes or the text that build takes, told apart by what is in it. An unproved guide looks
/// for a model from each of up to 256 starts, and writes down the words that lead there; the proved bench gets all starts
/// and tapes, and says what is kept. A model that agrees with no kept one on all named variables is kept, up to 64 of them;
/// one that agrees is a repeat; the rest are unkept. A start from which the guide finds none counts as spent.
/// Prints a table, with a line for each kept solution in the order of arrival, and then
///     kept K repeats R unkept U
///     starts N model M spent S ended E closed C refused 0
///
/// Example:
///     walumpeh gather sum.txt --name x --name y --readmemh stimulus.hex --vcd stimulus.vcd
#[derive(clap::Args)]
#[command(verbatim_doc_comment, after_help = STATUS)]
pub struct Args {
    /// BTOR2, problem bytes or text
    file: PathBuf,
    /// A variable that solutions are to differ on, by its name or its id (in BTOR2 its line's); up to 8
    #[arg(long, value_name = "X", required = true)]
    name: Vec<String>,
    /// Call the variables by a list of names, one a line, by ascending id
    #[arg(long, value_name = "FILE")]
    names: Option<PathBuf>,
    /// How many starts, at most 256
    #[arg(long, value_name = "K", default_value_t = 256, value_parser = clap::value_parser!(u16).range(0..=256))]
    starts: u16,
    /// Show all variables, by ascending id, not the named ones alone
    #[arg(long)]
    all: bool,
    #[command(flatten)]
    guided: Guided,
    /// Print one object in place of the table
    #[arg(long)]
    json: bool,
    /// Write a waveform: solution k holds from time k to k + 1
    #[arg(long, value_name = "FILE")]
    vcd: Option<PathBuf>,
    /// Write what Verilog's $readmemh loads: a word for each solution, the variables side by side, the first on the left;
    /// to '-' it is printed in place of the table
    #[arg(long, value_name = "FILE")]
    readmemh: Option<PathBuf>,
}

const STATUS: &str = "\
Exit status: 0 a solution is kept, 3 none is, and no file is written; 1 refused, or a file cannot be read or written,
or the proved run's answer is not the guide's; 2 the command line is not understood.";

pub fn run(args: &Args) -> Result<ExitCode, Fault> {
    let begun = Instant::now();
    let given = given(&args.file, args.names.as_deref())?;
    let named: Vec<u16> = args.name.iter().map(|name| named(&given, name)).collect::<Result<_, _>>()?;
    // Without starts: what is wrong with the names is told before the search.
    gathered(args, &given, &named, &mut [], &Tapes::default(), &mut room(&given))?;
    let ready = ready(&args.file, &given)?;
    let runs = guided(args, &given, &ready, begun);
    let (mut values, tapes) = lent(&runs);
    let mut kept = room(&given);
    let gathered = gathered(args, &given, &named, &mut values, &tapes, &mut kept)?;
    agreed(&runs, &gathered).map_err(|fault| Fault::at(&args.file, fault))?;
    let rows = kept.chunks(given.problem.nodes.len()).take(gathered.kept).collect();
    told(args, &Kept { columns: columns(args, &given, &named), rows, gathered: &gathered })
}

/// The id of a variable by its name, or by the number that it goes by. Where nodes go by their ids, any is taken: whether
/// it is a variable is for the library to say.
fn named(given: &Given, name: &str) -> Result<u16, Fault> {
    let of = |list: &[String]| list.iter().position(|other| other == name);
    let variable = |at: usize| given.problem.variables().nth(at).map(|id| id as u16);
    let by_node = || {
        let own = given.problem.variables().map(|id| id.to_string()).eq(given.ids.iter().cloned());
        Some(name).filter(|name| own && name.bytes().all(|byte| byte.is_ascii_digit()))?.parse().ok()
    };
    let found = of(&given.names).or_else(|| of(&given.ids)).and_then(variable).or_else(by_node);
    found.ok_or_else(|| Fault::Told(format!("--name: no variable has the name or the id '{name}'")))
}

/// Room for all that is kept.
fn room(given: &Given) -> Vec<u64> {
    vec![0; MOST_KEPT * given.problem.nodes.len()]
}

/// The guide's runs; of a closed problem starts alone.
fn guided(args: &Args, given: &Given, ready: &Ready, begun: Instant) -> Vec<Run> {
    let count = args.starts.into();
    if ready.closed {
        let start = given.problem.nodes.iter().map(|node| node.pair.lo).collect();
        return vec![Run { start, ..Run::default() }; count as usize];
    }
    let (asked, progress) = (args.guided.asked(count, begun), Progress::default());
    progress::shown(progress::search(&progress), || many(ready, &asked, &progress))
}

/// Starts and tapes as the bench takes them.
fn lent(runs: &[Run]) -> (Vec<u64>, Tapes) {
    let mut tapes = Tapes::default();
    for run in runs {
        tapes.push(&run.tape, run.moves as u16);
    }
    (runs.iter().flat_map(|run| run.start.iter().copied()).collect(), tapes)
}

fn gathered(
    args: &Args,
    given: &Given,
    named: &[u16],
    values: &mut [u64],
    tapes: &Tapes,
    kept: &mut [u64],
) -> Result<Gathered, Fault> {
    let Tapes { lengths, budgets, tape } = tapes;
    let told = |refusal: Refusal| match refusal.number {
        23 | 24 => Fault::Told(format!("--name: {refusal}")),
        _ => Fault::at(&args.file, refusal),
    };
    walumpeh::gather(&given.bytes, values, tape, lengths, budgets, named, kept).map_err(told)
}

/// Whether the proved bench has a model of each start from which the guide has one, and of no other.
fn agreed(runs: &[Run], gathered: &Gathered) -> Result<(), String> {
    for (number, (run, answer)) in runs.iter().zip(&gathered.answers).enumerate() {
        let guided = if run.model { "model" } else { "no model" };
        let proved = match answer {
            Ok(answer) if answer.verdict == Verdict::Model => "model".to_string(),
            Ok(_) => "no model".to_string(),
            Err(refusal) => refusal.to_string(),
        };
        if guided != proved {
            return Err(format!("start {number}: {}", apart(guided, proved)));
        }
    }
    Ok(())
}

/// The variables that are shown.
fn columns<'a>(args: &Args, given: &'a Given, named: &[u16]) -> Vec<Column<'a>> {
    let column = |(id, name): (usize, &'a String)| Column { name, id, width: given.problem.nodes[id].width };
    let all: Vec<Column> = given.problem.variables().zip(&given.names).map(column).collect();
    match args.all {
        true => all,
        false => {
            named.iter().flat_map(|&id| all.iter().find(|column| column.id == id.into()).copied()).collect()
        }
    }
}

/// Prints and writes what is kept; where nothing is, there is no file to write. A form that goes to standard output stands
/// in for the table.
fn told(args: &Args, kept: &Kept) -> Result<ExitCode, Fault> {
    let is_some = kept.gathered.kept > 0;
    let (printed, mut outputs) = (Path::new("-"), Vec::new());
    for (path, text) in [(&args.vcd, kept.vcd()), (&args.readmemh, kept.readmemh())] {
        if let Some(path) = path.as_ref().filter(|_| is_some) {
            outputs.push(Output { path, bytes: text.into_bytes() });
        }
    }
    if args.json || outputs.iter().all(|output| output.path != printed) {
        let text = if args.json { kept.json() } else { kept.table() };
        outputs.insert(0, Output { path: printed, bytes: text.into_bytes() });
    }
    let inputs: Vec<&Path> =
        [Some(&args.file), args.names.as_ref()].into_iter().flatten().map(|path| path.as_path()).collect();
    write::all(&outputs, &inputs)?;
    Ok(if is_some { ExitCode::SUCCESS } else { ExitCode::from(3) })
}

#[cfg(test)]
mod tests {
    use super::*;

    /// A guide that says another thing of a start than the proved bench is caught.
    #[test]
    fn a_wrong_guide_is_caught() {
        let bytes = text::worked_example().bytes();
        let ready = Ready::new(&bytes).unwrap();
        let run = guide::search::run(&ready, &guide::Manner::USUAL, 1, 0, &|| false);
        assert!(run.model && run.moves > 0);
        let said = |run: &Run| {
            let (mut values, Tapes { lengths, budgets, tape }) = lent(std::slice::from_ref(run));
            let mut kept = vec![0; MOST_KEPT * 5];
            let gathered =
                walumpeh::gather(&bytes, &mut values, &tape, &lengths, &budgets, &[0], &mut kept).unwrap();
            agreed(std::slice::from_ref(run), &gathered)
        };
        assert!(said(&run).is_ok());
        let short = Run { tape: run.tape[..1].to_vec(), ..run.clone() };
        assert!(said(&short)
            .unwrap_err()
            .starts_with("start 0: the guide says 'model' and the proved run 'no model'"));
        assert!(said(&Run { model: false, ..run.clone() })
            .unwrap_err()
            .contains("'no model' and the proved run 'model'"));
        assert!(said(&Run { start: vec![16, 0, 0, 0, 0], ..run }).unwrap_err().contains("refused 15 at 0"));
    }
}
