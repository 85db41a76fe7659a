//! Problems with a known solution: the variables' values come first, then roots that hold for them.

use crate::random;
use crate::rng::Rng;
use model::problem::MOST_NODES;
use model::{ones, Kind, Problem};

/// A problem and, for each node, its value under a solution.
#[derive(Clone, Debug)]
pub struct Solved {
    pub problem: Problem,
    pub solution: Vec<u64>,
}

/// A problem with a solution, around `size` nodes of every kind.
pub fn solved(rng: &mut Rng, size: usize) -> Solved {
    let size = size.clamp(1, MOST_NODES - 2 * 8);
    let mut builder = random::nodes(rng, size);
    let mut values = values(rng, &builder.problem);
    builder.problem.evaluate(&mut values);
    for _ in 0..rng.between(1, 8) {
        let id = size - 1 - if rng.chance(60) { rng.below(size.min(5)) } else { rng.below(size) };
        let (id, value) = (id as u16, values[id]);
        let top = ones(builder.width(id));
        let width = builder.width(id);
        match rng.below(6) {
            0 | 1 if width == 1 && value == 1 => builder.root(id),
            0 | 1 if width == 1 => {
                let not = builder.node(Kind::Not, &[id]);
                builder.root(not);
            }
            2 if value < top => {
                let bound = value + 1 + rng.word() % (top - value);
                let bound = builder.constant(width, bound);
                let below = builder.node(Kind::Below, &[id, bound]);
                builder.root(below);
            }
            3 if value > 0 => {
                let bound = rng.word() % value;
                let bound = builder.constant(width, bound);
                let below = builder.node(Kind::Below, &[bound, id]);
                builder.root(below);
            }
            _ => builder.root_equals(id, value),
        }
    }
    finish(builder.problem, &values)
}

/// The problem with every node's value, from its variables' values.
pub fn finish(problem: Problem, variables: &[u64]) -> Solved {
    let mut solution = variables.to_vec();
    solution.resize(problem.nodes.len(), 0);
    problem.evaluate(&mut solution);
    debug_assert!(problem.roots.iter().all(|&root| solution[root as usize] == 1));
    Solved { problem, solution }
}

/// A value that agrees for each variable, and any word elsewhere.
pub fn values(rng: &mut Rng, problem: &Problem) -> Vec<u64> {
    let value =
        |node: &model::Node| if node.kind == Kind::Variable { rng.member(node.pair) } else { rng.word() };
    problem.nodes.iter().map(value).collect()
}

/// A start that differs from the solution in a share of the variables, from few to all.
pub fn start(rng: &mut Rng, solved: &Solved) -> Vec<u64> {
    let mut start = values(rng, &solved.problem);
    let kept = rng.one_of(&[0, 0, 30, 70, 95]);
    for id in solved.problem.variables() {
        if rng.chance(kept) {
            start[id] = solved.solution[id];
        }
    }
    start
}

#[cfg(test)]
mod tests {
    use super::*;
    use model::problem::read;
    use model::run::{run, Search};
    use model::{recipe, Outcome, Verdict};

    /// Demand 3 of the model itself.
    #[test]
    fn the_recipe_brings_model_within_its_bounds() {
        for index in 0..2000 {
            let mut rng = Rng::of_case(2, index);
            let size = random::size(&mut rng);
            let solved = solved(&mut rng, size);
            let bytes = solved.problem.bytes();
            assert_eq!(read(&bytes).as_ref(), Ok(&solved.problem));
            let mut values = start(&mut rng, &solved);
            let search = Search::accept(&bytes, &values).expect("accepted");
            solved.problem.evaluate(&mut values);
            let d = recipe::distance(&search, &values, &solved.solution);
            let tape = recipe::tape(&search, &values, &solved.solution, &mut || rng.word());
            let bound = solved.problem.words_for(d as u64);
            assert!(tape.len() as u64 <= bound);
            let answer = run(&bytes, &mut values, &tape, d as u16);
            assert_eq!(answer.outcome, Outcome::Settled(Verdict::Model), "case {index}");
            assert!(answer.moves as usize <= d && answer.words <= bound);
        }
    }
}
