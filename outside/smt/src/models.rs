//! Models that the search finds: z3 is asked whether they solve the same problem.

use crate::{solver, verdict};
use generate::solved::{self, Solved};
use generate::{families, random, Rng};
use text::smt2::{nodes, pin, roots, Variables};
use walumpeh::Verdict;

/// Of `problems` problems with a solution: how many brought a model, all of them confirmed by z3.
pub fn compare(problems: u64, seed: u64) -> Result<u64, String> {
    let mut text = String::from("(set-logic QF_BV)\n");
    let mut confirmed = Vec::new();
    for index in 0..problems {
        let rng = &mut Rng::of_case(seed, index);
        let Solved { problem, .. } = solvable(rng);
        let mut values = solved::values(rng, &problem);
        let tape: Vec<u64> = (0..6000).map(|_| rng.word()).collect();
        let found = verdict(walumpeh::run(&problem.bytes(), &mut values, &tape, 2000))
            .map_err(|fault| format!("problem {index}: {fault}"))?;
        if found == Verdict::Model {
            text += "(push 1)\n";
            text += &nodes(&problem, "", Variables::Open);
            text.extend(problem.variables().map(|id| pin(&problem, "", id, values[id])));
            text += &roots(&problem, "");
            text += "(check-sat)\n(pop 1)\n";
            confirmed.push(index);
        }
    }
    let answers = solver::verdicts(text)?;
    if answers.len() != confirmed.len() {
        return Err(format!("z3 answered {} of {} questions", answers.len(), confirmed.len()));
    }
    match answers.iter().position(|answer| answer != "sat") {
        Some(at) => Err(format!("problem {}: z3 calls the model {}", confirmed[at], answers[at])),
        None => Ok(confirmed.len() as u64),
    }
}

/// A problem with a solution: mostly of every kind, now and then one of the benchmark's families.
fn solvable(rng: &mut Rng) -> Solved {
    let seed = rng.word();
    match rng.below(10) {
        0 => families::frame(seed, 4),
        1 => families::products(seed, 2, 8),
        2 => families::deep(seed, 64),
        _ => {
            let size = random::size(rng).min(60);
            families::mixed(seed, size)
        }
    }
}
