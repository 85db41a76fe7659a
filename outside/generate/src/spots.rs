//! Single nodes for picking: an operator, its operands' pairs and values, a target and a proposal.

use crate::rng::Rng;
use model::{ones, Kind, Operator, Spot};

/// An operator of a kind whose operands have `from` to `to` bits. A condition has one bit, the parts of a
/// concatenation share that many between them, and a division has at most 16, from 5 on where more are
/// asked for.
pub fn operator(rng: &mut Rng, kind: Kind, from: usize, to: usize) -> Operator {
    let x = rng.between(from, to) as u32;
    let (width, widths, low) = match kind {
        Kind::Not => (x, [x, 0, 0], 0),
        Kind::Eq | Kind::Below | Kind::SignedBelow => (1, [x, x, 0], 0),
        Kind::If => (x, [1, x, x], 0),
        Kind::Concat => {
            let total = x.max(2);
            let high = rng.between(1, total as usize - 1) as u32;
            (total, [high, total - high, 0], 0)
        }
        Kind::Extract => {
            let low = rng.below(x as usize) as u32;
            (rng.between(1, (x - low) as usize) as u32, [x, 0, 0], low)
        }
        Kind::SignExtend => {
            let x = x.min(63);
            (rng.between(x as usize + 1, 64) as u32, [x, 0, 0], 0)
        }
        Kind::Div => {
            let x = rng.between(from.min(5), to.min(16)) as u32;
            (x, [x, x, 0], 0)
        }
        _ => (x, [x, x, 0], 0),
    };
    let operator = Operator { kind, width, widths, low };
    debug_assert!(operator.widths_fit());
    operator
}

/// Pairs and agreeing values for an operator's operands.
pub fn spot(rng: &mut Rng, operator: Operator) -> Spot {
    let pairs = operator.widths.map(|width| if width == 0 { Default::default() } else { rng.pair(width) });
    let values = pairs.map(|pair| rng.member(pair));
    Spot { operator, pairs, values }
}

/// A target: mostly one that some value of the position gives, with the others as they are, at values that
/// agree, or at any values; at times with a bit turned; else any.
pub fn target(rng: &mut Rng, spot: &Spot, position: usize) -> u64 {
    let operator = &spot.operator;
    let mut values = spot.values;
    match rng.below(12) {
        0..=4 => {}
        5..=7 => values = spot.pairs.map(|pair| rng.member(pair)),
        8 | 9 => values = operator.widths.map(|width| if width == 0 { 0 } else { rng.value(width) }),
        _ => return rng.value(operator.width),
    }
    values[position] = rng.member(spot.pairs[position]);
    let turned = if rng.chance(10) { 1 << rng.below(operator.width as usize) } else { 0 };
    operator.apply(values) ^ turned
}

/// A proposal: any word, one near a value that agrees or near an end of any operand's pair, or one near the
/// width's ends.
pub fn proposal(rng: &mut Rng, spot: &Spot, position: usize) -> u64 {
    let near = match rng.below(3) {
        0 => {
            let pair = rng.one_of(&spot.pairs[..spot.operator.kind.operands()]);
            rng.one_of(&[pair.lo, pair.hi])
        }
        _ => rng.member(spot.pairs[position]),
    };
    match rng.below(6) {
        0 => near,
        1 => near.wrapping_add(1),
        2 => near.wrapping_sub(1),
        3 => rng.value(spot.operator.widths[position]),
        4 => ones(spot.operator.widths[position]) - rng.word() % 2,
        _ => rng.word(),
    }
}
