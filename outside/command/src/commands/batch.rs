//! walumpeh batch: many runs of one problem at once.

use crate::commands::run::shown;
use crate::fault::Fault;
use crate::files::tapes::Tapes;
use crate::files::write::{self, Output};
use crate::files::{print, read};
use crate::problem::decoded;
use model::files::bytes_of;
use model::Problem;
use std::fmt::Write;
use std::path::{Path, PathBuf};
use std::process::ExitCode;
use walumpeh::{Answer, Refusal, Verdict};

/// Run a problem from many starts at once, each along its own stretch of the tapes
///
/// Prints for each start, from 0, a line 'start K' and what 'walumpeh run' prints for it: the answer's line,
/// and a line 'ID VALUE' for each variable. The last line counts the starts:
///     starts K model M spent S ended E closed C refused R
/// The problem is checked once; answers and values are those of single runs. 'walumpeh tape --starts' makes
/// the two files.
///
/// Example:
///     walumpeh tape problem.tbv --starts 100; walumpeh batch | tail -n 1
#[derive(clap::Args)]
#[command(verbatim_doc_comment, after_help = STATUS)]
pub struct Args {
    /// The problem file
    #[arg(default_value = "problem.tbv")]
    problem: PathBuf,
    /// The starts: for each a 64-bit little-endian word for each node, one start after the other
    #[arg(default_value = "starts.bin")]
    starts: PathBuf,
    /// The tapes, in words of the same form: TBVTAPES, how many starts, for each its length and its budget,
    /// then the words of all
    #[arg(default_value = "tapes.bin")]
    tapes: PathBuf,
    /// Print what 'walumpeh run' prints for one start alone
    #[arg(long, value_name = "K")]
    only: Option<usize>,
    /// Tell at the end of each answer's line how many nodes were evaluated: ' evaluated E'
    #[arg(long)]
    evaluated: bool,
    /// Write the values of all nodes after the runs, in the form of the starts
    #[arg(long, value_name = "FILE")]
    values: Option<PathBuf>,
}

const STATUS: &str = "\
Exit status: 0 a start says model (with --only that one), 3 none does; 1 the whole is refused, or a file
cannot be read or written; 2 the command line is not understood.";

pub fn run(args: &Args) -> Result<ExitCode, Fault> {
    let bytes = read::problem(&args.problem)?;
    let mut values = read::starts(&args.starts)?;
    let Tapes { lengths, budgets, tape } = Tapes::read(&args.tapes)?;
    let answers = match walumpeh::batch(&bytes, &mut values, &tape, &lengths, &budgets) {
        Ok(answers) => answers,
        Err(refusal) => {
            print::text(&format!("refused {} at {}\n", refusal.number, refusal.place))?;
            return Err(Fault::at(blamed(args, refusal), refusal));
        }
    };
    let problem = decoded(&bytes).map_err(|fault| Fault::at(&args.problem, fault))?;
    let shown: Vec<String> = (0..answers.len())
        .map(|start| block(&problem, &answers[start], &values[start * problem.nodes.len()..], args.evaluated))
        .collect();
    let (text, looked_at) = match args.only {
        None => (whole(&shown, &answers), &answers[..]),
        Some(start) if start < shown.len() => (shown[start].clone(), &answers[start..=start]),
        Some(start) => {
            return Err(Fault::at(&args.tapes, format!("there is no start {start} among {}", shown.len())))
        }
    };
    let mut outputs = vec![Output { path: Path::new("-"), bytes: text.into_bytes() }];
    if let Some(path) = &args.values {
        outputs.push(Output { path, bytes: bytes_of(&values) });
    }
    write::all(&outputs, &[&args.problem, &args.starts, &args.tapes])?;
    let says_model = |answer: &Result<Answer, Refusal>| is(answer, Verdict::Model);
    Ok(if looked_at.iter().any(says_model) { ExitCode::SUCCESS } else { ExitCode::from(3) })
}

/// The file that a refusal of the whole call is about.
fn blamed(args: &Args, refusal: Refusal) -> &Path {
    match refusal.number {
        17 | 18 => &args.tapes,
        19 => &args.starts,
        _ => &args.problem,
    }
}

/// What `run` prints for a start.
fn block(problem: &Problem, answer: &Result<Answer, Refusal>, values: &[u64], evaluated: bool) -> String {
    match answer {
        Err(refusal) => format!("refused {} at {}\n", refusal.number, refusal.place),
        Ok(answer) => {
            let mut text = shown(answer, evaluated) + "\n";
            for id in problem.variables() {
                writeln!(text, "{id} {}", values[id]).expect("text takes all");
            }
            text
        }
    }
}

/// All starts, and how many of them have which answer.
fn whole(shown: &[String], answers: &[Result<Answer, Refusal>]) -> String {
    let blocks = shown.iter().enumerate().map(|(start, block)| format!("start {start}\n{block}"));
    blocks.collect::<String>() + &counted(answers)
}

/// The line that counts starts.
pub fn counted(answers: &[Result<Answer, Refusal>]) -> String {
    let counts: Vec<String> = counts(answers).iter().map(|(name, count)| format!("{name} {count}")).collect();
    counts.join(" ") + "\n"
}

/// How many starts there are, and how many of them have which answer.
pub fn counts(answers: &[Result<Answer, Refusal>]) -> Vec<(&'static str, usize)> {
    let verdicts = Verdict::ALL
        .map(|verdict| (verdict.name(), answers.iter().filter(|answer| is(answer, verdict)).count()));
    let refused = answers.iter().filter(|answer| answer.is_err()).count();
    [&[("starts", answers.len())], &verdicts[..], &[("refused", refused)]].concat()
}

fn is(answer: &Result<Answer, Refusal>, verdict: Verdict) -> bool {
    answer.as_ref().is_ok_and(|answer| answer.verdict == verdict)
}
