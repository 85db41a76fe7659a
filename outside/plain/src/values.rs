//! Evaluation and fixed bits of all nodes, upward in one pass each.

use crate::kind::*;
use crate::layout::{field, hi, kind, lo, width, Node, MOST_NODES};
use crate::{low_bits, mask, sign_extended};

/// Sets every node's value from the variables'. The values have one place for each node.
pub fn evaluate(nodes: &[Node], values: &mut [u64]) {
    for (id, node) in nodes.iter().enumerate() {
        if let Some(value) = value(nodes, values, node, |_| true) {
            values[id] = value;
        }
    }
}

/// The value that a node has by its operands' values, where it is `asked` for: that is told how many operands
/// there are. A variable has none. The question stands in every arm so that there is one jump by the kind.
#[inline(always)]
pub fn value(nodes: &[Node], values: &[u64], node: &Node, asked: impl Fn(usize) -> bool) -> Option<u64> {
    let at = |position: usize| values[field(node, position)];
    let w = width(node);
    Some(match kind(node) {
        CONSTANT if asked(0) => lo(node),
        NOT if asked(1) => !at(0) & mask(w),
        AND if asked(2) => at(0) & at(1),
        XOR if asked(2) => at(0) ^ at(1),
        ADD if asked(2) => at(0).wrapping_add(at(1)) & mask(w),
        MUL if asked(2) => at(0).wrapping_mul(at(1)) & mask(w),
        SHL if asked(2) => shl(at(0), at(1), w),
        LSHR if asked(2) => lshr(at(0), at(1), w),
        EQ if asked(2) => u64::from(at(0) == at(1)),
        BELOW if asked(2) => u64::from(at(0) < at(1)),
        IF if asked(3) => {
            if at(0) == 1 {
                at(1)
            } else {
                at(2)
            }
        }
        CONCAT if asked(2) => at(0) << width(&nodes[field(node, 1)]) | at(1),
        EXTRACT if asked(1) => at(0) >> field(node, 1) & mask(w),
        SIGNED_BELOW if asked(2) => {
            let from = width(&nodes[field(node, 0)]);
            let number = |position: usize| sign_extended(at(position), from) as i64;
            u64::from(number(0) < number(1))
        }
        ASHR if asked(2) => ashr(at(0), at(1), w),
        UDIV if asked(2) => at(0).checked_div(at(1)).unwrap_or(mask(w)),
        SIGN_EXTEND if asked(1) => sign_extended(at(0), width(&nodes[field(node, 0)])) & mask(w),
        _ => return None,
    })
}

#[inline]
fn shl(v: u64, by: u64, w: u32) -> u64 {
    if by >= u64::from(w) {
        0
    } else {
        v << by & mask(w)
    }
}

#[inline]
fn lshr(v: u64, by: u64, w: u32) -> u64 {
    if by >= u64::from(w) {
        0
    } else {
        v >> by
    }
}

#[inline]
fn ashr(v: u64, by: u64, w: u32) -> u64 {
    (sign_extended(v, w) as i64 >> by.min(63)) as u64 & mask(w)
}

/// The pairs of all nodes.
#[derive(Clone, Debug)]
pub struct Pairs {
    pub lo: [u64; MOST_NODES],
    pub hi: [u64; MOST_NODES],
}

/// Fills in every node's pair.
pub fn fill(nodes: &[Node], pairs: &mut Pairs) {
    for (id, node) in nodes.iter().enumerate() {
        let (lo, hi) = pair(nodes, node, pairs);
        pairs.lo[id] = lo;
        pairs.hi[id] = hi;
    }
}

fn pair(nodes: &[Node], node: &Node, pairs: &Pairs) -> (u64, u64) {
    let w = width(node);
    let all = mask(w);
    let lo_of = |position: usize| pairs.lo[field(node, position)];
    let hi_of = |position: usize| pairs.hi[field(node, position)];
    let one_bit = |is_one: bool, is_zero: bool| (u64::from(is_one), u64::from(!is_zero));
    match kind(node) {
        VARIABLE | CONSTANT => (lo(node), hi(node)),
        NOT => (!hi_of(0) & all, !lo_of(0) & all),
        AND => (lo_of(0) & lo_of(1), hi_of(0) & hi_of(1)),
        XOR => {
            let open = lo_of(0) ^ hi_of(0) | lo_of(1) ^ hi_of(1);
            let value = lo_of(0) ^ lo_of(1);
            (value & !open, value | open)
        }
        ADD => {
            // A carry grows with the operands: least and most are those of the two sums.
            let least = lo_of(0).wrapping_add(lo_of(1));
            let most = hi_of(0).wrapping_add(hi_of(1));
            let carries = least ^ lo_of(0) ^ lo_of(1) ^ most ^ hi_of(0) ^ hi_of(1);
            let open = (lo_of(0) ^ hi_of(0) | lo_of(1) ^ hi_of(1) | carries) & all;
            (least & all & !open, least & all | open)
        }
        MUL => {
            let open = lo_of(0) ^ hi_of(0) | lo_of(1) ^ hi_of(1);
            let fixed = low_bits(open.trailing_zeros()) & all;
            let value = lo_of(0).wrapping_mul(lo_of(1));
            (value & fixed, value & fixed | all & !fixed)
        }
        SHL | LSHR | ASHR if lo_of(1) != hi_of(1) => (0, all),
        SHL => (shl(lo_of(0), lo_of(1), w), shl(hi_of(0), lo_of(1), w)),
        LSHR => (lshr(lo_of(0), lo_of(1), w), lshr(hi_of(0), lo_of(1), w)),
        ASHR => (ashr(lo_of(0), lo_of(1), w), ashr(hi_of(0), lo_of(1), w)),
        EQ => {
            let open = lo_of(0) ^ hi_of(0) | lo_of(1) ^ hi_of(1);
            let apart = (lo_of(0) ^ lo_of(1)) & !open != 0;
            one_bit(open == 0 && !apart, apart)
        }
        BELOW => one_bit(hi_of(0) < lo_of(1), lo_of(0) >= hi_of(1)),
        SIGNED_BELOW => {
            // With the top bits turned, the signed order is the unsigned one.
            let top = 1 << (width(&nodes[field(node, 0)]) - 1);
            let least = |position: usize| (lo_of(position) | hi_of(position) & top) ^ top;
            let most = |position: usize| hi_of(position) & (lo_of(position) | !top) ^ top;
            one_bit(most(0) < least(1), least(0) >= most(1))
        }
        SIGN_EXTEND => {
            let from = width(&nodes[field(node, 0)]);
            (sign_extended(lo_of(0), from) & all, sign_extended(hi_of(0), from) & all)
        }
        UDIV if lo_of(0) ^ hi_of(0) | lo_of(1) ^ hi_of(1) != 0 => (0, all),
        UDIV => {
            let quotient = lo_of(0).checked_div(lo_of(1)).unwrap_or(all);
            (quotient, quotient)
        }
        IF => match (lo_of(0), hi_of(0)) {
            (1, _) => (lo_of(1), hi_of(1)),
            (_, 0) => (lo_of(2), hi_of(2)),
            _ => (lo_of(1) & lo_of(2), hi_of(1) | hi_of(2)),
        },
        CONCAT => {
            let by = width(&nodes[field(node, 1)]);
            (lo_of(0) << by | lo_of(1), hi_of(0) << by | hi_of(1))
        }
        _ => (lo_of(0) >> field(node, 1) & all, hi_of(0) >> field(node, 1) & all),
    }
}
