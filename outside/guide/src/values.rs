//! What a node has for its value, by its operands' values.

use crate::nodes::Node;
use plain::kind::*;

/// A node's value; a variable's own stays.
#[inline]
pub fn value(node: &Node, own: u64, values: &[u64]) -> u64 {
    let [a, b, c] = node.operands.map(|operand| values[usize::from(operand)]);
    let (w, by) = (u32::from(node.width), u32::from(node.by));
    match node.kind {
        VARIABLE => own,
        CONSTANT => node.value,
        NOT => !a & node.mask,
        AND => a & b,
        XOR => a ^ b,
        ADD => a.wrapping_add(b) & node.mask,
        MUL => a.wrapping_mul(b) & node.mask,
        SHL if b >= u64::from(w) => 0,
        SHL => a << b & node.mask,
        LSHR if b >= u64::from(w) => 0,
        LSHR => a >> b,
        EQ => u64::from(a == b),
        BELOW => u64::from(a < b),
        IF => [c, b][(a & 1) as usize],
        CONCAT => a << by | b,
        EXTRACT => a >> by & node.mask,
        SIGNED_BELOW => u64::from(signed(a, by) < signed(b, by)),
        ASHR => (signed(a, w) >> b.min(63)) as u64 & node.mask,
        SIGN_EXTEND => signed(a, by) as u64 & node.mask,
        _ => a.checked_div(b).unwrap_or(node.mask),
    }
}

/// A word of a width as a signed number.
#[inline]
pub fn signed(v: u64, width: u32) -> i64 {
    let above = 64 - width;
    (v << above) as i64 >> above
}
