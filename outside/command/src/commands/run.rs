//! walumpeh run: a whole run, as tvrun makes it.

use crate::fault::Fault;
use crate::files::{print, read};
use crate::pins::placed;
use crate::problem::decoded;
use std::fmt::Write;
use std::path::PathBuf;
use std::process::ExitCode;
use walumpeh::{Answer, Verdict};

/// Run a problem from a start along a tape, and print what tvrun prints
///
/// The answer's line, and a line 'ID VALUE' for each variable. Unlike tvrun it takes tapes of any
/// length, a file that is missing is a fault, and the status tells the answer. With --from a run goes on
/// where another one stopped:
///     walumpeh run > answer.txt; walumpeh run --from answer.txt problem.tbv start.bin more.bin
///
/// Example:
///     walumpeh run problem.tbv start.bin tape.bin
#[derive(clap::Args)]
#[command(verbatim_doc_comment, after_help = STATUS)]
pub struct Args {
    /// The problem file
    #[arg(default_value = "problem.tbv")]
    problem: PathBuf,
    /// The start: a 64-bit little-endian word for each node
    #[arg(default_value = "start.bin")]
    start: PathBuf,
    /// The budget (its word modulo 65536) and the tape, in words of the same form
    #[arg(default_value = "tape.bin")]
    tape: PathBuf,
    /// The most moves, in place of the budget in the tape file
    #[arg(long)]
    budget: Option<u16>,
    /// Tell at the end of the answer's line how many nodes were evaluated: ' evaluated E'
    #[arg(long)]
    evaluated: bool,
    /// Go on from the values of an answer of run or tvrun, in place of the start
    #[arg(long, value_name = "ANSWER")]
    from: Option<PathBuf>,
}

const STATUS: &str = "\
Exit status: 0 model, 3 spent, 4 ended, 5 closed; 1 refused, or a file cannot be read;
2 the command line is not understood.";

pub fn run(args: &Args) -> Result<ExitCode, Fault> {
    let problem = read::problem(&args.problem)?;
    let start = args.from.as_ref().unwrap_or(&args.start);
    let mut values = match &args.from {
        None => read::start(start)?,
        // The run refuses what the check refuses, and says why.
        Some(_) if walumpeh::check(&problem).is_err() => Vec::new(),
        Some(_) => placed(&decoded(&problem).map_err(|fault| Fault::at(&args.problem, fault))?, start)?,
    };
    let words = read::tape(&args.tape)?;
    let (first, tape) = words.split_first().unwrap_or((&0, &[]));
    let budget = args.budget.unwrap_or(*first as u16);
    match walumpeh::run(&problem, &mut values, tape, budget) {
        Err(refusal) => {
            print::text(&format!("refused {} at {}\n", refusal.number, refusal.place))?;
            let at = if matches!(refusal.number, 14 | 15) { start } else { &args.problem };
            Err(Fault::at(at, refusal))
        }
        Ok(answer) => {
            let mut text = shown(&answer, args.evaluated) + "\n";
            let problem = decoded(&problem).map_err(|fault| Fault::at(&args.problem, fault))?;
            for id in problem.variables() {
                writeln!(text, "{id} {}", values[id]).expect("text takes all");
            }
            print::text(&text)?;
            Ok(status(answer.verdict))
        }
    }
}

/// The answer's line, with the nodes evaluated where they are asked for.
pub fn shown(answer: &Answer, evaluated: bool) -> String {
    let Answer { verdict, moves, steps, words, .. } = answer;
    let line = format!("verdict {} moves {moves} steps {steps} words {words}", verdict.name());
    match evaluated {
        true => format!("{line} evaluated {}", answer.evaluated),
        false => line,
    }
}

fn status(verdict: Verdict) -> ExitCode {
    match verdict {
        Verdict::Model => ExitCode::SUCCESS,
        Verdict::Spent => ExitCode::from(3),
        Verdict::Ended => ExitCode::from(4),
        Verdict::Closed => ExitCode::from(5),
    }
}
