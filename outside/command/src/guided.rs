//! The guide's search: what is asked of it, and that the proved run says of a problem what the guide says.

use crate::fault::Fault;
use crate::given::Given;
use guide::solve::Asked;
use guide::{Manner, Ready};
use std::fmt::Display;
use std::path::Path;
use std::time::{Duration, Instant};
use walumpeh::Verdict;

/// How the guide searches.
#[derive(clap::Args)]
pub struct Guided {
    /// The same seed finds the same
    #[arg(long, default_value_t = 1)]
    seed: u64,
    /// The most moves of a run
    #[arg(long, default_value_t = Manner::USUAL.budget)]
    budget: u16,
    /// The most seconds; 0 sets no limit
    #[arg(long, default_value_t = 60.0, value_name = "SECONDS", value_parser = seconds)]
    time: f64,
    /// How many threads; as many as there are processors where none are asked for
    #[arg(long, value_name = "THREADS", value_parser = clap::value_parser!(u16).range(1..=1024))]
    jobs: Option<u16>,
    /// Of a hundred steps, how many ask for the inverse set; a quotient, another branch's value and steps to a model that
    /// linear equations gave never do
    #[arg(long, default_value_t = (Manner::USUAL.drawing.inverse / 10) as u8, value_name = "PERCENT", value_parser = clap::value_parser!(u8).range(0..=100))]
    inverse: u8,
}

fn seconds(text: &str) -> Result<f64, String> {
    match text.parse() {
        Ok(seconds) if (0.0..=1e9).contains(&seconds) => Ok(seconds),
        _ => Err("not a number of seconds".into()),
    }
}

impl Guided {
    /// So many runs at most, and no longer than the time from then on.
    pub fn asked(&self, runs: u64, begun: Instant) -> Asked {
        let mut manner = Manner { budget: self.budget, ..Manner::USUAL };
        if self.inverse != (Manner::USUAL.drawing.inverse / 10) as u8 {
            manner.drawing.inverse = 10 * u32::from(self.inverse);
        }
        let processors = || std::thread::available_parallelism().map_or(1, usize::from);
        Asked {
            seed: self.seed,
            runs,
            until: (self.time > 0.0).then(|| begun + Duration::from_secs_f64(self.time)),
            threads: self.jobs.map_or_else(processors, usize::from),
            manner,
        }
    }
}

/// A problem made ready for the guide, which must say what the proved run says of it: accepted, and closed or not.
pub fn ready(path: &Path, given: &Given) -> Result<Ready, Fault> {
    let at = |fault: String| Fault::at(path, fault);
    let ready = made(&given.bytes).map_err(at)?;
    same(ready.closed, closed(given).map_err(at)?).map_err(at)?;
    Ok(ready)
}

/// What the guide works on. The problem is accepted, so that it must take it.
fn made(bytes: &[u8]) -> Result<Ready, String> {
    Ready::new(bytes).map_err(|refusal| apart(format!("refused {}", refusal.number), "accepted"))
}

/// Whether a problem is closed, which the guide must see as the proved run does.
fn same(guide: bool, run: bool) -> Result<(), String> {
    let said = |closed: bool| if closed { "closed" } else { "not closed" };
    if guide == run {
        Ok(())
    } else {
        Err(apart(said(guide), said(run)))
    }
}

/// What the proved run says before any move: whether a root is 0 whatever the values.
fn closed(given: &Given) -> Result<bool, String> {
    let mut values: Vec<u64> = given.problem.nodes.iter().map(|node| node.pair.lo).collect();
    let answer = walumpeh::run(&given.bytes, &mut values, &[], 0).map_err(|refusal| refusal.to_string())?;
    Ok(answer.verdict == Verdict::Closed)
}

/// Where the guide and the proved run differ, the guide is wrong, and nobody should take its word.
pub fn apart(guide: impl Display, run: impl Display) -> String {
    format!("the guide says '{guide}' and the proved run '{run}': the guide is wrong")
}

#[cfg(test)]
mod tests {
    use super::*;

    /// A guide that refuses what the library accepts, or sees a closed problem otherwise, is caught.
    #[test]
    fn a_guide_that_sees_another_problem_is_caught() {
        let wrong = "and the proved run 'accepted': the guide is wrong";
        assert!(made(b"TBV").is_err_and(|fault| fault == format!("the guide says 'refused 1' {wrong}")));
        assert!(made(&text::worked_example().bytes()).is_ok());
        let expected = "the guide says 'closed' and the proved run 'not closed': the guide is wrong";
        assert_eq!(same(true, false), Err(expected.into()));
        assert!(same(false, true).is_err() && same(true, true).is_ok() && same(false, false).is_ok());
    }
}
