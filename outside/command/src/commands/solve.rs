//! walumpeh solve: an unproved guide looks for a model and writes the tape, the proved run judges.

use crate::fault::Fault;
use crate::files::print;
use crate::files::write::{self, Output};
use crate::found::{shown, Format, Outcome};
use crate::given::{given, Given};
use crate::guided::{apart, ready, Guided};
use crate::progress;
use guide::solve::{solve, Found, Progress};
use guide::Run;
use model::files::{bytes_of, tape_file};
use std::path::{Path, PathBuf};
use std::process::ExitCode;
use std::sync::atomic::Ordering;
use std::time::Instant;
use walumpeh::Answer;

/// Look for a model of a problem: an unproved guide writes the tape, the proved run judges
///
/// The file is BTOR2, problem bytes or the text that build takes, told apart by what is in it. The guide looks for
/// a model by the moves of the rules and writes down the words that make them. The proved run then gets problem,
/// start and tape, makes the moves, and says the verdict: nothing that the guide does can make a wrong model.
///
/// A run begins at a start of its own and makes so many moves at most; runs follow until one finds a model, or their
/// number or the time is used up. All comes from the seed. More threads are sooner done and find the same, unless
/// the time ends them.
///
/// Example:
///     walumpeh solve sum.txt --start start.bin --tape tape.bin
#[derive(clap::Args)]
#[command(verbatim_doc_comment, after_help = STATUS)]
pub struct Args {
    /// BTOR2, problem bytes or text
    file: PathBuf,
    /// The most runs; as many as the time allows where none are asked for
    #[arg(long)]
    runs: Option<u64>,
    #[command(flatten)]
    guided: Guided,
    /// Write the tape that led to the model to a file, as run takes it
    #[arg(long, value_name = "FILE")]
    tape: Option<PathBuf>,
    /// Write the start of that tape to a file
    #[arg(long, value_name = "FILE")]
    start: Option<PathBuf>,
    /// Call the inputs by a list of names, one a line, by ascending id
    #[arg(long, value_name = "FILE")]
    names: Option<PathBuf>,
    /// How the model is printed
    #[arg(long, value_enum, default_value_t = Format::Text)]
    format: Format,
}

const STATUS: &str = "\
Exit status, as of SAT solvers: 10 a model, 20 closed (a root is 0 whatever the values), 0 none found; 1 refused, or
a file cannot be read or written, or the proved run's answer is not the guide's; 2 the command line is not understood.";

pub fn run(args: &Args) -> Result<ExitCode, Fault> {
    let begun = Instant::now();
    let given = given(&args.file, args.names.as_deref())?;
    let ready = ready(&args.file, &given)?;
    if ready.closed {
        print::text(&shown(args.format, &given, &Outcome::Closed)?)?;
        return Ok(ExitCode::from(20));
    }
    let asked = args.guided.asked(args.runs.unwrap_or(u64::MAX), begun);
    let progress = Progress::default();
    match progress::shown(progress::search(&progress), || solve(&ready, &asked, &progress)) {
        Some(found) => model(args, &given, &found),
        None => {
            let [runs, moves, fewest] = [&progress.runs, &progress.moves, &progress.fewest]
                .map(|count| count.load(Ordering::Relaxed));
            let fewest = if fewest == u64::MAX { ready.roots.len() as u64 } else { fewest };
            print::text(&shown(args.format, &given, &Outcome::NotFound { runs, moves, fewest })?)
        }
    }
}

/// Has the proved run make the guide's moves, and prints the model if it says so.
fn model(args: &Args, given: &Given, found: &Found) -> Result<ExitCode, Fault> {
    let mut values = found.run.start.clone();
    let answer =
        judged(&given.bytes, &found.run, &mut values).map_err(|fault| Fault::at(&args.file, fault))?;
    let outcome = Outcome::Model { answer, run: found.number, values: &values };
    let printed = shown(args.format, given, &outcome)?;
    let mut outputs = vec![Output { path: Path::new("-"), bytes: printed.into_bytes() }];
    if let Some(path) = &args.tape {
        outputs.push(Output { path, bytes: tape_file(answer.moves as u16, &found.run.tape) });
    }
    if let Some(path) = &args.start {
        outputs.push(Output { path, bytes: bytes_of(&found.run.start) });
    }
    let inputs: Vec<&Path> =
        [Some(&args.file), args.names.as_ref()].into_iter().flatten().map(|path| path.as_path()).collect();
    write::all(&outputs, &inputs)?;
    Ok(ExitCode::from(10))
}

/// The proved run's answer, which must be the guide's: a model, with its counts and values.
fn judged(bytes: &[u8], run: &Run, values: &mut [u64]) -> Result<Answer, String> {
    let guided = format!("model moves {} steps {} words {}", run.moves, run.steps, run.tape.len());
    let answer = walumpeh::run(bytes, values, &run.tape, run.moves as u16)
        .map_err(|refusal| apart(&guided, refusal.to_string()))?;
    let Answer { verdict, moves, steps, words, .. } = answer;
    let proved = format!("{} moves {moves} steps {steps} words {words}", verdict.name());
    match (proved == guided, *values == run.values) {
        (true, true) => Ok(answer),
        (true, false) => Err(apart(guided + " with other values", proved)),
        (false, _) => Err(apart(guided, proved)),
    }
}

#[cfg(test)]
mod tests {
    use super::*;
    use guide::{Manner, Ready};

    /// A guide that writes another tape than it says is caught.
    #[test]
    fn a_wrong_guide_is_caught() {
        let bytes = text::worked_example().bytes();
        let ready = Ready::new(&bytes).unwrap();
        let run = guide::search::run(&ready, &Manner::USUAL, 1, 0, &|| false);
        assert!(run.model && run.moves > 0);
        let judge = |run: &Run| judged(&bytes, run, &mut run.start.clone());
        assert!(judge(&run).is_ok());
        let wrong = |change: fn(&mut Run)| {
            let mut run = run.clone();
            change(&mut run);
            judge(&run).unwrap_err()
        };
        assert!(wrong(|run| run.tape.truncate(1)).contains("and the proved run 'ended moves 0"));
        assert!(wrong(|run| run.steps += 1).contains("the guide is wrong"));
        assert!(wrong(|run| run.values[0] ^= 8).contains("with other values"));
        assert!(wrong(|run| run.start[0] = 16).contains("refused 15 at 0"));
        assert!(wrong(|run| run.moves -= 1).contains("'spent moves 0 steps 0 words 0'"));
    }
}
