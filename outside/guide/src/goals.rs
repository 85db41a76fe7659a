//! What has to hold for every root to be 1, taken apart as far as it is a conjunction; and how far values are from it.
//!
//! A tool may write all conditions into one root. Whoever counts unsatisfied roots then sees nothing on the way. So a
//! root that is an `and`, perhaps behind `not`s, is taken for its parts; where an operand is fixed, the other decides.

use crate::nodes::{Node, Ready};
use crate::values::signed;
use plain::kind::*;

/// A node of one bit, and the value that it has to take.
#[derive(Clone, Copy, Debug, PartialEq, Eq)]
pub struct Goal {
    pub node: u16,
    pub wanted: u64,
}

/// What an unmet goal counts at least; how far it is from being met counts up to as much again.
pub const UNMET: u32 = 64;

/// The goals of all roots, each node once. A node that is wanted both ways is left with the first.
pub fn goals(ready: &Ready) -> Vec<Goal> {
    let mut goals: Vec<Goal> = Vec::new();
    let mut open: Vec<Goal> = ready.roots.iter().rev().map(|&node| Goal { node, wanted: 1 }).collect();
    while let Some(goal) = open.pop() {
        let id = usize::from(goal.node);
        let [a, b, _] = ready.nodes[id].operands;
        let known = |operand: u16, value: u64| {
            ready.is_fixed(operand.into()) && ready.lo[usize::from(operand)] == value
        };
        match ready.nodes[id].kind {
            _ if ready.is_fixed(id) => {}
            NOT => open.push(Goal { node: a, wanted: goal.wanted ^ 1 }),
            AND if goal.wanted == 1 => open.extend([b, a].map(|node| Goal { node, wanted: 1 })),
            AND if known(a, 1) => open.push(Goal { node: b, wanted: 0 }),
            AND if known(b, 1) => open.push(Goal { node: a, wanted: 0 }),
            _ if goals.iter().any(|other| other.node == goal.node) => {}
            _ => goals.push(goal),
        }
    }
    goals
}

/// 0 where a goal is met; else from `UNMET` to twice that, the more the further its sides are apart.
#[inline]
pub fn distance(goal: Goal, node: &Node, values: &[u64]) -> u32 {
    if values[usize::from(goal.node)] == goal.wanted {
        return 0;
    }
    let [a, b, _] = node.operands.map(|operand| values[usize::from(operand)]);
    let width = u32::from(node.by);
    let apart = match node.kind {
        // By bits or as numbers, whichever is nearer.
        EQ if goal.wanted == 1 => {
            let above = 64 - width;
            let gap = (a.wrapping_sub(b) << above).min(b.wrapping_sub(a) << above) >> above;
            UNMET * (a ^ b).count_ones().min(64 - gap.leading_zeros()) / width
        }
        BELOW => UNMET * (64 - a.abs_diff(b).leading_zeros()) / width,
        SIGNED_BELOW => {
            let gap = signed(a, width).abs_diff(signed(b, width));
            UNMET * (64 - gap.leading_zeros()) / (width + 1)
        }
        _ => UNMET / 2,
    };
    UNMET + apart
}

#[cfg(test)]
mod tests {
    use super::*;
    use generate::Builder;
    use model::{Kind, Pair};

    /// As yosys writes a constraint: not (and (not condition) (not 0)), the condition a conjunction.
    #[test]
    fn a_root_is_taken_apart() {
        let mut b = Builder::new();
        let (x, y) = (b.variable(4, Pair::free(4)), b.variable(4, Pair::free(4)));
        let (equal, below) = (b.node(Kind::Eq, &[x, y]), b.node(Kind::Below, &[x, y]));
        let off = b.node(Kind::Not, &[below]);
        let both = b.node(Kind::And, &[equal, off]);
        let (not_both, one) = (b.node(Kind::Not, &[both]), b.constant(1, 1));
        let either = b.node(Kind::And, &[not_both, one]);
        let whole = b.node(Kind::Not, &[either]);
        b.root(whole);
        let ready = Ready::new(&b.problem.bytes()).unwrap();
        assert_eq!(ready.goals, [Goal { node: equal, wanted: 1 }, Goal { node: below, wanted: 0 }]);
        let mut values = vec![0; ready.nodes.len()];
        let mut far = |goal: usize, a: u64, b: u64| {
            (values[usize::from(x)], values[usize::from(y)]) = (a, b);
            (values[usize::from(equal)], values[usize::from(below)]) = (u64::from(a == b), u64::from(a < b));
            distance(ready.goals[goal], &ready.nodes[usize::from(ready.goals[goal].node)], &values)
        };
        assert_eq!([far(0, 7, 7), far(0, 7, 8), far(0, 7, 6), far(0, 5, 10)], [0, 80, 80, 112]);
        assert_eq!([far(1, 9, 3), far(1, 3, 4), far(1, 0, 15)], [0, 80, 128]);
    }
}
