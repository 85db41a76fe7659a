//! Demand 3: from a known solution, the tape that brings *model* within d moves and d × (1 + 2H)
//! words, where d is the number of variables whose start differs from the solution.
//!
//! The walk keeps two facts: the target is the solution's value of the node, and the node's current
//! value is another one. So some operand differs from the solution. Every essential operand does
//! (were it at the solution's value, the solution's values of the others would give the target), and
//! without essential operands all are candidates. The solution's value of the operand is a
//! consistent one, since its values of the others give the target and agree with their pairs; and
//! proposing it picks it. At its end each move sets one differing variable right.

use crate::operator::Kind;
use crate::run::Search;
use crate::word::ones;

/// The tape from evaluated `values` to a `solution`, which has every node's value, agrees with the
/// pairs and makes every root 1. What a word does not decide is filled up by `noise`.
pub fn tape(search: &Search, values: &[u64], solution: &[u64], noise: &mut impl FnMut() -> u64) -> Vec<u64> {
    let mut tape = Vec::new();
    let mut values = values.to_vec();
    loop {
        let roots = search.unsatisfied(&values);
        if roots.is_empty() {
            return tape;
        }
        let word = noise();
        tape.push(word);
        let mut node = roots[(word % roots.len() as u64) as usize];
        while search.problem.nodes[node].kind != Kind::Variable {
            let (operand, words) = step(search, &values, solution, node, noise);
            tape.extend(words);
            node = operand;
        }
        values[node] = solution[node];
        search.problem.evaluate(&mut values);
    }
}

/// One step towards the solution: the operand followed, and the words e, p that do it.
fn step(
    search: &Search,
    values: &[u64],
    solution: &[u64],
    node: usize,
    noise: &mut impl FnMut() -> u64,
) -> (usize, [u64; 2]) {
    let spot = search.spot(values, node);
    let operands = search.problem.nodes[node].operands();
    let wanted = |position: usize| solution[operands[position] as usize];
    let candidates = search.candidates(&spot, solution[node]);
    let differing: Vec<usize> =
        (0..candidates.len()).filter(|&at| spot.values[candidates[at]] != wanted(candidates[at])).collect();
    let chosen = differing[(noise() % differing.len() as u64) as usize];
    let position = candidates[chosen];
    let count = candidates.len() as u64;
    let rounds = noise() % ((1 << 63) / count);
    let e = (rounds * count + chosen as u64) * 2 + 1;
    let p = wanted(position) | noise() & !ones(spot.operator.widths[position]);
    (operands[position] as usize, [e, p])
}

/// How many variables differ.
pub fn distance(search: &Search, values: &[u64], solution: &[u64]) -> usize {
    search.problem.variables().filter(|&id| values[id] != solution[id]).count()
}
