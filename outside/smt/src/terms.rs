//! Terms of every kind and width: the values of a run of budget 0 and z3's, node by node.

use crate::{solver, verdict};
use generate::{random, solved, Rng};
use model::{Kind, Problem};
use text::smt2::{nodes, values, Variables};

/// How many nodes of each kind agreed.
pub type Counts = [u64; Kind::COUNT];

struct Evaluated {
    problem: Problem,
    start: Vec<u64>,
    values: Vec<u64>,
}

/// Compares `problems` random problems over some kinds in one run of z3.
pub fn compare(problems: u64, seed: u64, kinds: &[Kind]) -> Result<Counts, String> {
    let mut evaluated = Vec::new();
    let mut text = String::from("(set-logic QF_BV)\n");
    let mut questions = String::new();
    for index in 0..problems {
        let rng = &mut Rng::of_case(seed, index);
        let size = rng.between(4, 40);
        let problem = random::nodes_of(rng, size, kinds).problem;
        let start = solved::values(rng, &problem);
        let mut found = start.clone();
        verdict(walumpeh::run(&problem.bytes(), &mut found, &[], 0))
            .map_err(|fault| format!("problem {index}: {fault}"))?;
        let prefix = format!("p{index}");
        text += &nodes(&problem, &prefix, Variables::Given(&start));
        questions += &values(0..size, &prefix);
        evaluated.push(Evaluated { problem, start, values: found });
    }
    let printed = solver::answers(text + "(check-sat)\n" + &questions)?;
    let found = solver::values(printed.strip_prefix("sat\n").ok_or("z3 did not answer sat")?)?;
    let mut counts = Counts::default();
    let mut given = found.into_iter();
    for (index, one) in evaluated.iter().enumerate() {
        for (id, node) in one.problem.nodes.iter().enumerate() {
            let (name, value) = given.next().ok_or("z3 gave too few values")?;
            if name != format!("p{index}n{id}") || value != one.values[id] {
                return Err(shown(index, one, id, name, value));
            }
            counts[node.kind as usize] += 1;
        }
    }
    Ok(counts)
}

fn shown(index: usize, one: &Evaluated, id: usize, name: &str, value: u64) -> String {
    let operands = one.problem.at_operands(id, &one.values);
    let operator = one.problem.operator(id);
    let start = if operator.kind == Kind::Variable { one.start[id] } else { 0 };
    format!("problem {index} node {id}: z3 gives {name} {value}, the run {}: {operator:?} of {operands:?} (start {start})", one.values[id])
}
