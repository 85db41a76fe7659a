//! walumpeh tape: a start and a tape from a seed, or many of them, or the tape to a known solution.

use crate::draw::{self, Draw};
use crate::fault::Fault;
use crate::files::write::{self, Output};
use crate::known;
use crate::names;
use crate::problem::{accepted, Accepted};
use model::files::{bytes_of, tape_file};
use model::recipe;
use rand_chacha::rand_core::RngCore;
use std::path::{Path, PathBuf};
use std::process::ExitCode;
use walumpeh::Verdict;

/// Make a start and a tape for a problem from a seed, or many starts with their tapes
///
/// The tape is as long as 'walumpeh need' says: no run of the budget ends for want of words, from
/// whatever start. As long as a run from the start that is made asks for words they are drawn for it, since
/// only the run says which of them serve as an e; the rest are any.
///
/// A proposal is any word shifted right by 0 to 63, so that small values are as likely as great ones: of an
/// operand whose high bits are fixed at 0, nearly every other proposal would pick the least value.
///
/// With --starts K the files are for 'walumpeh batch': K starts one after the other, and for each the words
/// that a run from it asks for, no more. The first is that of the same seed without --starts.
///
/// With --to the tape leads to a known solution, as demand 3 says: from a start that differs from it in d
/// variables in at most d moves and d x (1 + 2H) words. Prints two lines
///     differing variables D
///     words W of at most D x (1 + 2H)
/// The solution is a get-model answer of another solver, what run or solve printed, or a word for each node.
///
/// Example:
///     walumpeh tape problem.tbv --seed 7; walumpeh run
#[derive(clap::Args)]
#[command(verbatim_doc_comment)]
pub struct Args {
    /// The problem file
    problem: PathBuf,
    /// The start file that is made [default: start.bin; starts.bin with --starts]
    start: Option<PathBuf>,
    /// The tape file that is made [default: tape.bin; tapes.bin with --starts]
    tape: Option<PathBuf>,
    #[command(flatten)]
    draw: Draw,
    /// The most words of the tape, for one that is shorter than the need; tvrun reads no more than 1023
    #[arg(long)]
    words: Option<u64>,
    /// So many starts, at most 256, with a tape for each
    #[arg(long, value_name = "K", value_parser = clap::value_parser!(u16).range(0..=256))]
    starts: Option<u16>,
    /// Make the tape that leads to the solution in a file; its moves are the budget
    #[arg(long, value_name = "VALUES", conflicts_with_all = ["budget", "inverse", "uniform", "words", "starts"])]
    to: Option<PathBuf>,
    /// Call the variables by a list of names, one a line, where the solution has them; n and the id otherwise
    #[arg(long, value_name = "FILE", requires = "to")]
    names: Option<PathBuf>,
}

pub fn run(args: &Args) -> Result<ExitCode, Fault> {
    let problem = accepted(&args.problem)?;
    if let Some(values) = &args.to {
        return to(args, &problem, values);
    }
    let need = draw::need(&args.problem, &problem, args.draw.budget)?;
    let most = args.words.map_or(need, |most| most.min(need)) as usize;
    let (start, tape, names) = match args.starts {
        None => one(args, &problem, most).map(|(start, tape)| (start, tape, ["start.bin", "tape.bin"])),
        Some(count) => many(args, &problem, count, most)
            .map(|(starts, tapes)| (starts, tapes, ["starts.bin", "tapes.bin"])),
    }
    .map_err(|fault| Fault::at(&args.problem, fault))?;
    let outputs = [
        Output { path: args.start.as_deref().unwrap_or(Path::new(names[0])), bytes: start },
        Output { path: args.tape.as_deref().unwrap_or(Path::new(names[1])), bytes: tape },
    ];
    write::all(&outputs, &[&args.problem])?;
    Ok(ExitCode::SUCCESS)
}

/// The files of one start.
fn one(args: &Args, problem: &Accepted, length: usize) -> Result<(Vec<u8>, Vec<u8>), String> {
    let mut chance = args.draw.chance();
    let (start, mut tape) = args.draw.start_and_words(problem, &mut chance, length)?;
    tape.resize_with(length, || chance.next_u64());
    Ok((bytes_of(&start), tape_file(args.draw.budget, &tape)))
}

/// The files of many.
fn many(args: &Args, problem: &Accepted, count: u16, most: usize) -> Result<(Vec<u8>, Vec<u8>), String> {
    let (starts, tapes) = args.draw.many(problem, count, most)?;
    Ok((bytes_of(&starts), tapes.bytes()))
}

/// The files of demand 3's tape.
fn to(args: &Args, problem: &Accepted, values: &Path) -> Result<ExitCode, Fault> {
    let names = match &args.names {
        Some(list) => names::read(list, &problem.problem)?,
        None => names::numbered(&problem.problem),
    };
    let solution = known::solution(values, problem, &names)?;
    let way = way(args, problem, &solution).map_err(|fault| Fault::at(&args.problem, fault))?;
    let most = problem.problem.words_for(way.distance.into());
    let said = format!("differing variables {}\nwords {} of at most {most}\n", way.distance, way.tape.len());
    let outputs = [
        Output { path: Path::new("-"), bytes: said.into_bytes() },
        Output { path: args.start.as_deref().unwrap_or(Path::new("start.bin")), bytes: bytes_of(&way.start) },
        Output {
            path: args.tape.as_deref().unwrap_or(Path::new("tape.bin")),
            bytes: tape_file(way.distance, &way.tape),
        },
    ];
    let lists: Vec<&Path> = args.names.iter().map(PathBuf::as_path).collect();
    write::all(&outputs, &[&[args.problem.as_path(), values], &lists[..]].concat())?;
    Ok(ExitCode::SUCCESS)
}

/// A start, in how many variables it differs from a solution, and the tape that leads there.
struct Way {
    start: Vec<u64>,
    distance: u16,
    tape: Vec<u64>,
}

/// The way to a solution, which the proved run goes before it is told.
fn way(args: &Args, problem: &Accepted, solution: &[u64]) -> Result<Way, String> {
    let mut chance = args.draw.chance();
    let start = args.draw.start(problem, &mut chance);
    let search = draw::search(problem, &start)?;
    let mut now = start.clone();
    problem.problem.evaluate(&mut now);
    let distance = recipe::distance(&search, &now, solution) as u16;
    let tape = recipe::tape(&search, &now, solution, &mut || chance.next_u64());
    let most = problem.problem.words_for(distance.into());
    judged(&problem.bytes, now, &tape, (distance, most))?;
    Ok(Way { start, distance, tape })
}

/// Whether the proved run goes to a model along the whole tape, in so many moves and at most so many words.
fn judged(bytes: &[u8], mut values: Vec<u64>, tape: &[u64], (moves, most): (u16, u64)) -> Result<(), String> {
    let answer = walumpeh::run(bytes, &mut values, tape, moves).map_err(|refusal| refusal.to_string())?;
    let words = tape.len() as u64;
    if answer.verdict == Verdict::Model && answer.words == words && words <= most {
        return Ok(());
    }
    let said = answer.verdict.name();
    Err(format!("the tape of {words} words, of at most {most}, leads to '{said}': it is wrong"))
}

#[cfg(test)]
mod tests {
    use super::*;

    /// A tape that leads nowhere, has a word too many, or more than demand 3 allows is caught.
    #[test]
    fn a_wrong_tape_is_caught() {
        let bytes = text::worked_example().bytes();
        let judge = |tape: &[u64], most: u64| judged(&bytes, vec![0; 5], tape, (1, most));
        assert_eq!(judge(&[0, 0, 9, 0, 4], 5), Ok(()));
        let wrong = |words: u64, most: u64, said: &str| {
            Err(format!("the tape of {words} words, of at most {most}, leads to '{said}': it is wrong"))
        };
        assert_eq!(judge(&[0, 0, 9, 0], 5), wrong(4, 5, "ended"));
        assert_eq!(judge(&[0, 0, 9, 0, 4, 0], 6), wrong(6, 6, "model"));
        assert_eq!(judge(&[0, 0, 9, 0, 4], 4), wrong(5, 4, "model"));
    }
}
