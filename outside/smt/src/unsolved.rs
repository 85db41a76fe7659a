//! Small problems whose satisfiability z3 decides: where it says unsat no run may bring *model*, and
//! where the verdict is closed it must say unsat.

use crate::{solver, verdict};
use generate::{random, solved, Builder, Rng};
use model::{pairs, Problem};
use text::smt2::{nodes, roots, Variables};
use walumpeh::Verdict;

#[derive(Clone, Copy, Debug, Default)]
pub struct Counts {
    pub satisfiable: u64,
    pub found: u64,
    pub unsatisfiable: u64,
    pub closed: u64,
    /// Problems that z3 gave up on.
    pub unknown: u64,
}

/// Compares `problems` problems, each by `runs` runs.
pub fn compare(problems: u64, runs: u64, seed: u64) -> Result<Counts, String> {
    let list: Vec<Problem> = (0..problems).map(|index| problem(&mut Rng::of_case(seed, index))).collect();
    let asked = |problem: &Problem| {
        format!(
            "(push 1)\n{}{}(check-sat)\n(pop 1)\n",
            nodes(problem, "", Variables::Open),
            roots(problem, "")
        )
    };
    let answers = solver::verdicts(format!(
        "(set-option :timeout 1000)\n(set-logic QF_BV)\n{}",
        list.iter().map(asked).collect::<String>()
    ))?;
    if answers.len() != list.len() {
        return Err(format!("z3 answered {} of {} questions", answers.len(), list.len()));
    }
    let mut counts = Counts::default();
    for (index, (problem, answer)) in list.iter().zip(&answers).enumerate() {
        let satisfiable = match answer.as_str() {
            "sat" => true,
            "unsat" => false,
            "unknown" => {
                counts.unknown += 1;
                continue;
            }
            other => return Err(format!("problem {index}: z3 answered '{other}'")),
        };
        let verdicts = (0..runs)
            .map(|run| one_run(problem, seed ^ index as u64 ^ run << 32))
            .collect::<Result<Vec<_>, _>>()?;
        let (found, closed) = (verdicts.contains(&Verdict::Model), verdicts.contains(&Verdict::Closed));
        if found && !satisfiable {
            return Err(format!("problem {index}: z3 calls it unsat, a run brought a model"));
        }
        if closed && satisfiable {
            return Err(format!("problem {index}: z3 calls it sat, a run was closed"));
        }
        counts.satisfiable += u64::from(satisfiable);
        counts.unsatisfiable += u64::from(!satisfiable);
        counts.found += u64::from(found);
        counts.closed += u64::from(closed);
    }
    Ok(counts)
}

/// A small problem whose roots ask for values at random, mostly such as agree with the node's fixed
/// bits, so that many have no solution and not all of those are closed.
fn problem(rng: &mut Rng) -> Problem {
    let size = rng.between(3, 16);
    let mut builder: Builder = random::nodes(rng, size);
    let pairs = pairs::pairs(&builder.problem);
    for _ in 0..rng.between(1, 4) {
        let id = rng.below(size);
        let value = if rng.chance(90) { rng.member(pairs[id]) } else { rng.value(builder.width(id as u16)) };
        builder.root_equals(id as u16, value);
    }
    builder.problem
}

fn one_run(problem: &Problem, seed: u64) -> Result<Verdict, String> {
    let rng = &mut Rng::new(seed);
    let mut values = solved::values(rng, problem);
    let tape: Vec<u64> = (0..400).map(|_| rng.word()).collect();
    verdict(walumpeh::run(&problem.bytes(), &mut values, &tape, 100))
}
