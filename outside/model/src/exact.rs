//! The sets and the pick at every width, by one question: does a ternary word hold a member?
//!
//! `meets` answers that question for the inverse and the consistent set of each operator and
//! position. The least member at or above a proposal is then found by asking it of ever narrower
//! ternary words, bit by bit, the same way for all kinds. Tests hold all of it against `definition`.

use crate::operator::Kind;
use crate::word::{ones, sign_extended, Pair};
use crate::{pairs, Set, Spot};

/// The pick from a set of a position.
pub fn pick(spot: &Spot, set: Set, position: usize, target: u64, proposal: u64) -> Option<u64> {
    let holds = |word: Pair| {
        spot.pairs[position].meet(word).is_some_and(|word| meets(spot, set, position, target, word))
    };
    let width = spot.operator.widths[position];
    let p = proposal & ones(width);
    first_from(&holds, width, p).or_else(|| least(&holds, width, Pair::free(width)))
}

/// The essential test: with this operand at its current value alone, is no value of the others
/// that agrees an inverse one?
pub fn essential(spot: &Spot, position: usize, target: u64) -> bool {
    let mine = spot.values[position];
    let [a, b, c] = spot.pairs;
    let reached = match (spot.operator.kind, position) {
        (Kind::Not | Kind::Extract | Kind::SignExtend, _) => spot.operator.apply(spot.values) == target,
        (Kind::If, 0) if mine == 1 => b.agrees(target),
        (Kind::If, 0) => c.agrees(target),
        (Kind::If, 1) => a.agrees(1) && mine == target || a.agrees(0) && c.agrees(target),
        (Kind::If, _) => a.agrees(0) && mine == target || a.agrees(1) && b.agrees(target),
        _ => meets(spot, Set::Inverse, 1 - position, target, spot.pairs[1 - position]),
    };
    !reached
}

/// The least value at or above `p` for which the question holds. Such a value is `p` itself or
/// shares `p`'s bits above some bit that is 0 in `p` and 1 in it: the lower that bit, the less the value.
fn first_from(holds: &impl Fn(Pair) -> bool, width: u32, p: u64) -> Option<u64> {
    if holds(Pair::fixed(p)) {
        return Some(p);
    }
    (0..width).filter(|&i| p >> i & 1 == 0).find_map(|i| {
        let above = p & !ones(i) | 1 << i;
        least(holds, width, Pair { lo: above, hi: above | ones(i) })
    })
}

/// The least value in a ternary word for which the question holds: from the top bit down, 0 where
/// that leaves a member.
fn least(holds: &impl Fn(Pair) -> bool, width: u32, mut word: Pair) -> Option<u64> {
    if !holds(word) {
        return None;
    }
    for i in (0..width).rev().filter(|&i| word.open() >> i & 1 == 1).collect::<Vec<_>>() {
        let zero = Pair { lo: word.lo, hi: word.hi & !(1 << i) };
        if holds(zero) {
            word = zero;
        } else {
            word.lo |= 1 << i;
        }
    }
    Some(word.lo)
}

/// Whether a value that agrees with `word` gives the target, the other positions at their current
/// values (inverse), or at values that agree with their pairs or any at all, by kind (consistent).
fn meets(spot: &Spot, set: Set, position: usize, target: u64, word: Pair) -> bool {
    match set {
        Set::Inverse => meets_inverse(spot, position, target, word),
        Set::Consistent => meets_consistent(spot, position, target, word),
    }
}

fn meets_inverse(spot: &Spot, position: usize, t: u64, word: Pair) -> bool {
    let operator = &spot.operator;
    let w = operator.width;
    let all = ones(w);
    let [a, b, c] = spot.values;
    let other = if position == 0 { b } else { a };
    match (operator.kind, position) {
        (Kind::Variable | Kind::Constant, _) => panic!("no operands"),
        (Kind::Not, _) => word.agrees(all & !t),
        // A bit at 1 needs both; a bit at 0 needs the other at 0 or this one not fixed at 1.
        (Kind::And, _) => t & other & word.hi | !t & !(other & word.lo) == u64::MAX,
        (Kind::Xor, _) => word.agrees(t ^ other),
        (Kind::Add, _) => word.agrees(t.wrapping_sub(other) & all),
        (Kind::Mul, _) => meets_factor(word, other, t, w),
        (Kind::Shl | Kind::Lshr | Kind::Ashr, 0) => shifts_to(operator.kind, w, word, b, t),
        (Kind::Shl | Kind::Lshr | Kind::Ashr, _) => {
            some_amount(w, word, |by| operator.apply([a, by, 0]) == t)
        }
        (Kind::Eq, _) if t == 1 => word.agrees(other),
        (Kind::Eq, _) => word != Pair::fixed(other),
        (Kind::Below, 0) if t == 1 => word.lo < b,
        (Kind::Below, 0) => word.hi >= b,
        (Kind::Below, _) if t == 1 => word.hi > a,
        (Kind::Below, _) => word.lo <= a,
        (Kind::If, 0) => word.agrees(1) && b == t || word.agrees(0) && c == t,
        (Kind::If, 1) if a == 1 => word.agrees(t),
        (Kind::If, 1) => c == t,
        (Kind::If, _) if a == 0 => word.agrees(t),
        (Kind::If, _) => b == t,
        (Kind::Concat, 0) => word.agrees(t >> operator.widths[1]) && b == t & ones(operator.widths[1]),
        (Kind::Concat, _) => word.agrees(t & ones(operator.widths[1])) && a == t >> operator.widths[1],
        (Kind::Extract, _) => word.part(operator.low, w).agrees(t),
        (Kind::SignedBelow, _) => {
            let (spot, word) = unsigned(spot, word);
            meets_inverse(&spot, position, t, word)
        }
        (Kind::SignExtend, _) => {
            let part = t & operator.largest(0);
            word.agrees(part) && operator.apply([part, 0, 0]) == t
        }
        (Kind::Div, 0) if b == 0 => t == all,
        (Kind::Div, 0) => within(word, w, b * t, b * t + b - 1),
        // A divisor of 0 gives all ones; any other one is above a / (t + 1), and at most a / t.
        (Kind::Div, _) => {
            let most = a.checked_div(t).unwrap_or(all);
            t == all && word.agrees(0) || within(word, w, a / (t + 1) + 1, most)
        }
    }
}

fn meets_consistent(spot: &Spot, position: usize, t: u64, word: Pair) -> bool {
    let operator = &spot.operator;
    let w = operator.width;
    let mut agreeing = spot.pairs;
    agreeing[position] = word;
    match (operator.kind, position) {
        // The results of operands that agree are all that agree with a ternary word: that of the fixed
        // bits, since bits are independent here or there is but one.
        (Kind::And | Kind::Xor | Kind::Concat | Kind::Eq | Kind::Below | Kind::SignedBelow, _) => {
            pairs::result(operator, agreeing).agrees(t)
        }
        // Those of a condition are the values of the branches that it may take.
        (Kind::If, _) => {
            let [a, b, c] = agreeing;
            a.agrees(1) && b.agrees(t) || a.agrees(0) && c.agrees(t)
        }
        // Whatever this operand is, the other one makes up for it by the difference.
        (Kind::Add, _) => true,
        // x · s = t has a solution s exactly if t is 0 or has at least as many zeros at its end as x.
        (Kind::Mul, _) => t == 0 || word.hi & ones(t.trailing_zeros() + 1) != 0,
        // Amount w stands for all of w and more, and is a value of w bits.
        (Kind::Shl | Kind::Lshr | Kind::Ashr, 0) => {
            (0..=u64::from(w)).any(|by| shifts_to(operator.kind, w, word, by, t))
        }
        (Kind::Shl | Kind::Lshr | Kind::Ashr, _) => {
            some_amount(w, word, |by| shifts_to(operator.kind, w, Pair::free(w), by, t))
        }
        (Kind::Div, 0) => meets_dividend(word, w, t),
        (Kind::Div, _) => {
            let all = ones(w);
            let most = all.checked_div(t).unwrap_or(all);
            t == all && word.agrees(0) || within(word, w, 1, most)
        }
        (Kind::Not | Kind::Extract | Kind::SignExtend, _) => meets_inverse(spot, position, t, word),
        (Kind::Variable | Kind::Constant, _) => panic!("no operands"),
    }
}

/// Whether x · s = t modulo 2^w for an x that agrees with `word`, by long division from the low
/// end: with k zeros at the end of s, bit i of x is what is left of t at bit i + k.
fn meets_factor(word: Pair, s: u64, t: u64, w: u32) -> bool {
    let s_zeros = s.trailing_zeros().min(w);
    if t & ones(s_zeros) != 0 {
        return false;
    }
    let mut left = t;
    for i in 0..w - s_zeros {
        let bit = left >> (i + s_zeros) & 1;
        if bit == 1 {
            left = left.wrapping_sub(s << i) & ones(w);
        }
        if !word.part(i, 1).agrees(bit) {
            return false;
        }
    }
    debug_assert_eq!(left, 0);
    true
}

/// The signed order of words is the unsigned one of the words with their top bits turned: the spot of
/// below, and the word, that ask the same.
fn unsigned(spot: &Spot, word: Pair) -> (Spot, Pair) {
    let top = 1 << (spot.operator.widths[0] - 1);
    let mut turned = *spot;
    turned.operator.kind = Kind::Below;
    turned.values[0] ^= top;
    turned.values[1] ^= top;
    (turned, word.turned(top))
}

/// Whether a value that agrees with a word gives the target when it is shifted by a known amount. A shift
/// that fills with the top bit keeps the high bits of its operand, at least one: it gives exactly the
/// sign extensions of these.
fn shifts_to(kind: Kind, w: u32, word: Pair, by: u64, t: u64) -> bool {
    if kind != Kind::Ashr {
        return shifted(kind, w, word, by).agrees(t);
    }
    let kept = w - by.min(u64::from(w) - 1) as u32;
    let part = t & ones(kept);
    word.part(w - kept, kept).agrees(part) && sign_extended(part, kept, w) == t
}

/// The results of shifting, with zeros filling, by a known amount the values that agree with a word: a
/// ternary word again.
fn shifted(kind: Kind, w: u32, word: Pair, by: u64) -> Pair {
    if by >= u64::from(w) {
        return Pair::fixed(0);
    }
    let shift = |v: u64| if kind == Kind::Shl { v << by & ones(w) } else { v >> by };
    Pair { lo: shift(word.lo), hi: shift(word.hi) }
}

/// Whether some s divides a value that agrees with a word to the target. s = 0 divides every value to all
/// ones. Any other s divides those from s · t to s · t + s - 1: to 0 all that are below some s, and where
/// s has come up to t these ranges leave no gaps, up to the greatest value.
fn meets_dividend(word: Pair, w: u32, t: u64) -> bool {
    let all = ones(w);
    match t {
        0 => word.lo < all,
        t if t == all => true,
        _ => {
            let single = 1..t.min(all / t + 1);
            single.into_iter().any(|s| within(word, w, s * t, s * t + s - 1)) || within(word, w, t * t, all)
        }
    }
}

/// Whether a value from `least` to `most` agrees with a word of w bits.
fn within(word: Pair, w: u32, least: u64, most: u64) -> bool {
    let agrees = |part: Pair| word.meet(part).is_some();
    least <= word.hi && first_from(&agrees, w, least).is_some_and(|v| v <= most)
}

/// Whether a shift amount that agrees with `word` is good. All amounts from w on do the same.
fn some_amount(w: u32, word: Pair, good: impl Fn(u64) -> bool) -> bool {
    let w = u64::from(w);
    (0..w).any(|by| word.agrees(by) && good(by)) || word.hi >= w && good(w)
}

#[cfg(test)]
mod tests {
    use super::*;
    use crate::definition;
    use crate::operator::all_operators;
    use crate::word::all_pairs;

    /// Every pair and agreeing value that an operand may have.
    fn operands(width: u32) -> Vec<(Pair, u64)> {
        if width == 0 {
            return vec![(Pair::default(), 0)];
        }
        all_pairs(width).into_iter().flat_map(|pair| pair.members().map(move |v| (pair, v))).collect()
    }

    fn for_every_spot(most: u32, widest: u32, mut see: impl FnMut(&Spot)) {
        for operator in all_operators(most, widest) {
            let [first, second, third] = operator.widths.map(operands);
            for &(a, x) in &first {
                for &(b, y) in &second {
                    for &(c, z) in &third {
                        see(&Spot { operator, pairs: [a, b, c], values: [x, y, z] });
                    }
                }
            }
        }
    }

    fn check_spot(spot: &Spot, proposals: impl Iterator<Item = u64> + Clone) {
        for position in 0..spot.operator.kind.operands() {
            let width = spot.operator.widths[position];
            for target in 0..=ones(spot.operator.width) {
                assert_eq!(
                    essential(spot, position, target),
                    definition::essential(spot, position, target),
                    "{spot:?} {position} {target}"
                );
                for set in [Set::Inverse, Set::Consistent] {
                    let members = definition::members(spot, set, position, target);
                    for word in
                        all_pairs(width).into_iter().filter_map(|word| word.meet(spot.pairs[position]))
                    {
                        assert_eq!(
                            meets(spot, set, position, target, word),
                            members.iter().any(|&v| word.agrees(v)),
                            "{spot:?} {set:?} {position} {target} {word:?}"
                        );
                    }
                    for p in proposals.clone() {
                        let picked = pick(spot, set, position, target, p);
                        assert_eq!(
                            picked,
                            definition::pick(&members, width, p),
                            "{spot:?} {set:?} {position} {target} {p}"
                        );
                    }
                }
            }
        }
    }

    #[test]
    fn sets_and_picks_are_those_of_the_definitions_to_two_bits() {
        for_every_spot(2, 4, |spot| check_spot(spot, 0..6));
    }

    #[test]
    fn sets_and_picks_are_those_of_the_definitions_at_three_bits() {
        for_every_spot(3, 3, |spot| check_spot(spot, 0..9));
    }
}
