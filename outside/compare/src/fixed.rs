//! Fixed bits of single nodes, as whole runs show them: no call tells a node's pair, but a root that is
//! fixed at 0 closes the run.
//!
//! The node stands over variables that have the operands' pairs, and the root asks that it equal a
//! constant. That is fixed at 0 exactly if some fixed bit of the node is another one than the constant's.
//! So the run is not closed by the least nor by the greatest value of the pair that is due, unless a bit is
//! fixed that should not be; and turning a bit that is due to be fixed closes it.

use crate::parts;
use crate::subject::Subject;
use generate::{spots, Builder, Rng};
use model::calls::RUN_OUT;
use model::operator::all_operators;
use model::word::all_pairs;
use model::{pairs, Kind, Node, Operator, Pair, Verdict};

/// What was compared.
#[derive(Clone, Copy, Debug, Default)]
pub struct Count {
    /// Operators with their operands' pairs.
    pub nodes: u64,
    /// Sums among them, and those with a bit fixed above the lowest that is free.
    pub sums: u64,
    pub sums_fixed_above: u64,
    /// Runs, and how many of them were closed.
    pub runs: u64,
    pub closed: u64,
}

impl std::iter::Sum for Count {
    fn sum<All: Iterator<Item = Count>>(all: All) -> Count {
        all.fold(Count::default(), |sum, one| Count {
            nodes: sum.nodes + one.nodes,
            sums: sum.sums + one.sums,
            sums_fixed_above: sum.sums_fixed_above + one.sums_fixed_above,
            runs: sum.runs + one.runs,
            closed: sum.closed + one.closed,
        })
    }
}

/// All ternary words at few bits: operands of up to 3 bits, those of sums of up to 5. What is due of a sum is
/// found by going through all values.
pub fn compare_narrow(subject: &impl Subject) -> Result<Count, String> {
    let mut operators = all_operators(3, 6);
    let sum = |width| Operator { kind: Kind::Add, width, widths: [width, width, 0], low: 0 };
    operators.extend([4, 5].map(sum));
    let counts = parts::each(&operators, |operator| compare_operator(subject, operator))?;
    Ok(counts.into_iter().sum())
}

fn compare_operator(subject: &impl Subject, operator: &Operator) -> Result<Count, String> {
    let choices =
        operator.widths.map(|width| if width == 0 { vec![Pair::default()] } else { all_pairs(width) });
    let mut counts = Vec::new();
    for &a in &choices[0] {
        for &b in &choices[1] {
            for &c in &choices[2] {
                let due = match operator.kind {
                    Kind::Add => pairs::forced(operator, [a, b, c]),
                    _ => pairs::result(operator, [a, b, c]),
                };
                counts.push(compare_node(subject, operator, [a, b, c], due)?);
            }
        }
    }
    Ok(counts.into_iter().sum())
}

/// `cases` nodes of each kind at 33 to 64 bits, at random.
pub fn compare_wide(subject: &impl Subject, cases: u64, seed: u64) -> Result<Count, String> {
    let kinds: Vec<Kind> = Kind::ALL.into_iter().skip(2).collect();
    let counts = parts::each(&kinds, |&kind| {
        let one = |case: u64| {
            let mut rng = Rng::of_case(seed, case << 8 | u64::from(kind.number()));
            let operator = spots::operator(&mut rng, kind, 33, 64);
            let pairs = spots::spot(&mut rng, operator).pairs;
            compare_node(subject, &operator, pairs, pairs::result(&operator, pairs))
        };
        (0..cases).map(one).sum::<Result<Count, String>>()
    })?;
    Ok(counts.into_iter().sum())
}

/// One node against the pair that is due.
fn compare_node(
    subject: &impl Subject,
    operator: &Operator,
    operands: [Pair; 3],
    due: Pair,
) -> Result<Count, String> {
    let mut asked = Asked::new(operator, operands);
    let show =
        |what: String| format!("the fixed bits of {operator:?} over {operands:?}: {what}, due {due:?}");
    for value in [due.lo, due.hi] {
        if asked.is_closed(subject, value) {
            return Err(show(format!("{value} is ruled out")));
        }
    }
    let fixed: Vec<u32> = (0..operator.width).filter(|i| due.open() >> i & 1 == 0).collect();
    for &i in &fixed {
        if !asked.is_closed(subject, due.lo ^ 1 << i) {
            return Err(show(format!("bit {i} is not fixed")));
        }
    }
    let is_sum = operator.kind == Kind::Add;
    let above = fixed.iter().any(|&i| i > due.open().trailing_zeros());
    Ok(Count {
        nodes: 1,
        sums: u64::from(is_sum),
        sums_fixed_above: u64::from(is_sum && above),
        runs: 2 + fixed.len() as u64,
        closed: fixed.len() as u64,
    })
}

/// A problem that asks whether a node over variables can have a value.
struct Asked {
    builder: Builder,
    constant: usize,
    start: Vec<u64>,
}

impl Asked {
    fn new(operator: &Operator, operands: [Pair; 3]) -> Asked {
        let mut builder = Builder::new();
        let mut fields = [0; 3];
        for at in 0..operator.kind.operands() {
            fields[at] = builder.variable(operator.widths[at], operands[at]);
        }
        if operator.kind == Kind::Extract {
            fields[1] = operator.low as u16;
        }
        let (kind, width) = (operator.kind, operator.width);
        let node = builder.push(Node { kind, width, fields, pair: Pair::default() });
        let constant = builder.len();
        builder.root_equals(node, 0);
        let start = builder.problem.nodes.iter().map(|node| node.pair.lo).collect();
        Asked { builder, constant, start }
    }

    /// Whether the run is closed where the node is to have a value.
    fn is_closed(&mut self, subject: &impl Subject, value: u64) -> bool {
        self.builder.problem.nodes[self.constant].pair = Pair::fixed(value);
        let mut out = [0; RUN_OUT];
        let problem = self.builder.problem.bytes();
        let refusal = subject.run(&problem, &mut self.start.clone(), &[], 0, &mut out);
        (refusal, out[0]) == (0, Verdict::Closed as u64)
    }
}

#[cfg(test)]
mod tests {
    use super::*;
    use crate::subject::{Model, Plain};

    #[test]
    fn the_model_and_plain_rust_pass() {
        assert_eq!(compare_narrow(&Plain).unwrap().sums, [3, 9, 27, 81, 243].map(|n| n * n).iter().sum());
        compare_narrow(&Model).unwrap();
        compare_wide(&Model, 200, 1).unwrap();
        let wide = compare_wide(&Plain, 2000, 1).unwrap();
        assert!(wide.sums_fixed_above > 200, "{wide:?}");
    }
}
