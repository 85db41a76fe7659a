//! The frame bench: gathers solutions that differ on named variables. Refusals 23, 24 and 26, and what is kept.

use crate::batch::{batch, Lent};
use crate::problem::{Problem, Refusal};
use crate::run::{Answer, Outcome, Verdict};
use crate::Kind;

/// The most names, and the most solutions that are kept.
pub const MOST_NAMES: usize = 8;
pub const MOST_KEPT: usize = 64;

/// What was gathered, beside the starts' own answers and values and the places to keep in.
#[derive(Clone, Debug, PartialEq, Eq)]
pub struct Gathered {
    pub answers: Vec<Answer>,
    pub kept: u64,
    pub repeats: u64,
    pub unkept: u64,
}

/// "Refusals, after the search's refusals of a whole call: 23 for no name or more than 8, 24 for a name that is no variable
/// or is given twice, 26 for fewer than 64 x N places lent to keep in."
fn accept(problem: &Problem, names: &[u16], places: usize) -> Result<(), Refusal> {
    let refuse = |number| Err(Refusal { number, place: 0 });
    if names.is_empty() || names.len() > MOST_NAMES {
        return refuse(23);
    }
    let is_variable =
        |id: u16| problem.nodes.get(usize::from(id)).is_some_and(|node| node.kind == Kind::Variable);
    let is_first = |at: usize| !names[..at].contains(&names[at]);
    if !(0..names.len()).all(|at| is_variable(names[at]) && is_first(at)) {
        return refuse(24);
    }
    if places < MOST_KEPT * problem.nodes.len() {
        return refuse(26);
    }
    Ok(())
}

/// A batch followed by the gathering: "Kept, in order of arrival while there is room, is every model that agrees with no kept
/// one on all named variables; one that agrees counts as a repeat, room or not; the rest count as unkept." A refusal leaves
/// everything as it was.
pub fn gather(
    lent: Lent,
    values: &mut [u64],
    names: &[u16],
    places: &mut [u64],
) -> Result<Gathered, Refusal> {
    let problem = lent.accept(values.len())?;
    accept(&problem, names, places.len())?;
    let answers = batch(lent, values)?;
    let nodes = problem.nodes.len();
    let mut kept: Vec<&[u64]> = Vec::new();
    let (mut repeats, mut unkept) = (0, 0);
    for (start, answer) in answers.iter().enumerate() {
        if answer.outcome != Outcome::Settled(Verdict::Model) {
            continue;
        }
        let found = &values[start * nodes..(start + 1) * nodes];
        let agrees = |kept: &&[u64]| names.iter().all(|&name| kept[name as usize] == found[name as usize]);
        if kept.iter().any(agrees) {
            repeats += 1;
        } else if kept.len() < MOST_KEPT {
            kept.push(found);
        } else {
            unkept += 1;
        }
    }
    for (at, found) in kept.iter().enumerate() {
        places[at * nodes..(at + 1) * nodes].copy_from_slice(found);
    }
    let kept = kept.len() as u64;
    Ok(Gathered { answers, kept, repeats, unkept })
}
