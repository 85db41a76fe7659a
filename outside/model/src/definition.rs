//! The three sets and the pick exactly as the paper defines them, by going through every value.
//! For small widths alone: this is what everything else is measured by.

use crate::word::ones;
use crate::{Set, Spot};

/// Whether `v` is a member of the inverse or the consistent set of a position.
pub fn has(spot: &Spot, set: Set, position: usize, target: u64, v: u64) -> bool {
    let others = match set {
        Set::Inverse => Others::Current,
        Set::Consistent if spot.operator.kind.others_agree() => Others::Agreeing,
        Set::Consistent => Others::AnyAtAll,
    };
    spot.pairs[position].agrees(v) && gives(spot, position, target, v, others)
}

/// "no values of the other positions, each agreeing with its pair, give t while this one keeps its
/// current value"
pub fn essential(spot: &Spot, position: usize, target: u64) -> bool {
    !gives(spot, position, target, spot.values[position], Others::Agreeing)
}

/// The members of a set, ascending.
pub fn members(spot: &Spot, set: Set, position: usize, target: u64) -> Vec<u64> {
    (0..=spot.operator.largest(position)).filter(|&v| has(spot, set, position, target, v)).collect()
}

/// "From a set and a proposal p (taken modulo 2^w of the operand) the pick is the least member at
/// or above p, else the least member; an empty set has no pick."
pub fn pick(members: &[u64], width: u32, proposal: u64) -> Option<u64> {
    let p = proposal & ones(width);
    members.iter().find(|&&v| v >= p).or(members.first()).copied()
}

/// Which values the other positions may have.
enum Others {
    Current,
    Agreeing,
    AnyAtAll,
}

/// Whether some values of the other positions give the target while this one has `v`.
fn gives(spot: &Spot, position: usize, target: u64, v: u64, others: Others) -> bool {
    let choices = [0, 1, 2].map(|at| {
        if at == position {
            return vec![v];
        }
        match others {
            Others::Current => vec![spot.values[at]],
            Others::Agreeing => spot.pairs[at].members().collect(),
            Others::AnyAtAll => (0..=spot.operator.largest(at)).collect(),
        }
    });
    choices[0].iter().any(|&a| {
        choices[1].iter().any(|&b| choices[2].iter().any(|&c| spot.operator.apply([a, b, c]) == target))
    })
}
