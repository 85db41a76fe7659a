//! How long a tape a run takes: H and the number of words, that a run which is lent so many never says
//! *ended*, and problems of every H in a range that use each of them and say it with one word less.

use crate::runs::{refusal_shown, shown};
use crate::subject::{Model, Subject};
use generate::case::{tape, Case};
use generate::tight::{tight, HIGHEST};
use generate::Rng;
use model::calls::{NEED_OUT, RUN_OUT, TOO_SHORT};
use model::Verdict;

/// The most moves of the runs that are lent exactly the words of their need.
const MOVES: u16 = 8;

/// A case's need by both, and a run that is lent so many words; gives whether there was one.
pub fn compare_case(subject: &impl Subject, rng: &mut Rng, case: &Case) -> Result<bool, String> {
    let (mut out, mut expected) = ([7; NEED_OUT + 1], [7; NEED_OUT + 1]);
    let refusal = subject.need(&case.problem, case.budget, &mut out);
    let due = Model.need(&case.problem, case.budget, &mut expected);
    if (refusal, out) != (due, expected) {
        let (found, due) = (refusal_shown(refusal), refusal_shown(due));
        return Err(format!("need answered {found} {out:?}, expected {due} {expected:?}"));
    }
    compare_short(subject, case, rng.below(NEED_OUT))?;
    if refusal != 0 {
        return Ok(false);
    }
    let budget = case.budget.min(MOVES);
    let words = asked(subject, &case.problem, budget)?[1] as usize;
    let mut long = case.tape.clone();
    long.resize_with(words, || rng.word());
    let (refusal, out) = ran(subject, &case.problem, &case.values, &long, budget);
    if refusal == 0 && out[0] == Verdict::Ended as u64 {
        return Err(format!("{} with all {words} words of its need", shown(refusal, out)));
    }
    Ok(refusal == 0)
}

/// A call that is lent too few words for its answer: it must say so, and write nothing.
fn compare_short(subject: &impl Subject, case: &Case, room: usize) -> Result<(), String> {
    let mut out = [7; NEED_OUT];
    let refusal = subject.need(&case.problem, case.budget, &mut out[..room]);
    if refusal != TOO_SHORT || out != [7; NEED_OUT] {
        return Err(format!("need with {room} words for the answer is {}", refusal_shown(refusal)));
    }
    Ok(())
}

/// The H and budgets of problems that use every word.
fn extents() -> impl Iterator<Item = (usize, u16)> {
    let heights = (0..=40).chain([100, 500, HIGHEST]);
    let few = heights.flat_map(|height| [1, 2, 7, 50, 255].map(|budget| (height, budget)));
    few.chain([(1, u16::MAX), (40, 5000), (HIGHEST, 1000)])
}

/// Problems that use every word: spent with all of them, ended with one less. Gives how many there were.
pub fn compare_tight(subject: &impl Subject, seed: u64) -> Result<u64, String> {
    let mut compared = 0;
    for (height, budget) in extents() {
        let at = |fault: String| format!("a problem with H {height} and budget {budget}: {fault}");
        compare_one(subject, &mut Rng::of_case(seed, compared), height, budget).map_err(at)?;
        compared += 1;
    }
    Ok(compared)
}

fn compare_one(subject: &impl Subject, rng: &mut Rng, height: usize, budget: u16) -> Result<(), String> {
    let problem = tight(height, budget).bytes();
    let (chain, moves) = (height as u64, u64::from(budget));
    let words = moves * (1 + 2 * chain);
    let found = asked(subject, &problem, budget)?;
    if found != [chain, words] {
        return Err(format!("need answered {found:?}, expected {:?}", [chain, words]));
    }
    let values = vec![0; 1024];
    let tape = tape(rng, words as usize);
    let all = ran(subject, &problem, &values, &tape, budget);
    if (all.0, &all.1[..4]) != (0, &[Verdict::Spent as u64, moves, moves * chain, words]) {
        return Err(format!("with all {words} words: {}", shown(all.0, all.1)));
    }
    let (refusal, out) = ran(subject, &problem, &values, &tape[1..], budget);
    if (refusal, out[0]) != (0, Verdict::Ended as u64) {
        return Err(format!("with one word less: {}", shown(refusal, out)));
    }
    Ok(())
}

fn asked(subject: &impl Subject, problem: &[u8], budget: u16) -> Result<[u64; NEED_OUT], String> {
    let mut out = [7; NEED_OUT];
    match subject.need(problem, budget, &mut out) {
        0 => Ok(out),
        refusal => Err(format!("need is {}", refusal_shown(refusal))),
    }
}

/// A run's answer; its values are not looked at.
fn ran(
    subject: &impl Subject,
    problem: &[u8],
    values: &[u64],
    tape: &[u64],
    budget: u16,
) -> (u64, [u64; RUN_OUT]) {
    let mut out = [u64::MAX; RUN_OUT];
    let refusal = subject.run(problem, &mut values.to_vec(), tape, budget, &mut out);
    (refusal, out)
}

#[cfg(test)]
mod tests {
    use super::*;
    use crate::subject::Plain;

    #[test]
    fn problems_use_every_word_in_the_model_and_in_plain_rust() {
        compare_tight(&Model, 1).unwrap();
        compare_tight(&Plain, 1).unwrap();
    }
}
