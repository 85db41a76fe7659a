//! Inverse and consistent picks and the essential test of a single node, in word operations.

use crate::kind::*;
use crate::member::Part;
use crate::{low_bits, mask, sign_extended};

/// A node taken out of its problem: its operator, and each operand's width, pair and current value.
#[derive(Clone, Copy, Debug, Default)]
pub struct Spot {
    pub kind: u8,
    pub width: u32,
    pub low: u32,
    pub widths: [u32; 3],
    pub lo: [u64; 3],
    pub hi: [u64; 3],
    pub now: [u64; 3],
}

impl Spot {
    #[inline]
    fn part(&self, position: usize) -> Part {
        Part::new(self.lo[position], self.hi[position])
    }

    #[inline]
    fn agrees(&self, position: usize, v: u64) -> bool {
        self.part(position).agrees(v)
    }

    /// The greatest signed number that agrees: without the top bit where it may be 0.
    #[inline]
    fn greatest(&self, position: usize) -> u64 {
        let top = 1 << (self.widths[position] - 1);
        self.hi[position] & (self.lo[position] | !top)
    }

    /// The least: with it where it may be 1.
    #[inline]
    fn least(&self, position: usize) -> u64 {
        let top = 1 << (self.widths[position] - 1);
        self.lo[position] | self.hi[position] & top
    }
}

/// The pick from the inverse set. The proposal is below 2 to the operand's width.
#[inline]
pub fn pick_inverse(spot: &Spot, position: usize, t: u64, p: u64) -> Option<u64> {
    let x = spot.part(position);
    let w = spot.width;
    let [a, b, c] = spot.now;
    let other = if position == 0 { b } else { a };
    match (spot.kind, position) {
        (NOT, _) => x.only(!t & mask(w)),
        (AND, _) => pick_conjunct(x, other, t, p),
        (XOR, _) => x.only(t ^ other),
        (ADD, _) => x.only(t.wrapping_sub(other) & mask(w)),
        (MUL, _) => pick_factor(x, w, other, t, p),
        (SHL, 0) => pick_shifted_left(x, w, b, t, p),
        (SHL, _) => pick_left_amount(x, w, a, t, p),
        (LSHR, 0) => pick_shifted_right(x, w, b, t, p),
        (LSHR, _) => pick_right_amount(x, a, t, p),
        (EQ, _) => pick_equal(x, other, t, p),
        (BELOW, 0) => pick_below(x, b, t, p),
        (BELOW, _) => pick_above(x, a, t, p),
        (IF, 0) => pick_condition(x, b == t, c == t, p),
        (IF, 1) => pick_branch(x, a == 1, c, t, p),
        (IF, _) => pick_branch(x, a == 0, b, t, p),
        (CONCAT, 0) => pick_half(x, t >> spot.widths[1], b == t & mask(spot.widths[1])),
        (CONCAT, _) => pick_half(x, t & mask(spot.widths[1]), a == t >> spot.widths[1]),
        (SIGNED_BELOW, _) => pick_signed(x, spot.widths[0], position, other, t, p),
        (ASHR, 0) => pick_kept(x, w, b.min(u64::from(w - 1)) as u32, t)?.pick(p),
        (ASHR, _) => {
            // A shift of the complement is the complement of the shift, and fills with zeros.
            let turn = if a >> (w - 1) == 1 { mask(w) } else { 0 };
            pick_right_amount(x, a ^ turn, t ^ turn, p)
        }
        (SIGN_EXTEND, _) => {
            let part = t & mask(spot.widths[0]);
            x.only(part).filter(|_| sign_extended(part, spot.widths[0]) & mask(w) == t)
        }
        (UDIV, 0) if b == 0 => x.pick_if(t == mask(w), p),
        (UDIV, 0) => x.from(b * t).up_to(b * t + b - 1).pick(p),
        (UDIV, _) => pick_denominator(x, w, a, t, p),
        _ => x.with(mask(w) << spot.low, t << spot.low).pick(p),
    }
}

/// The pick from the consistent set. The proposal is below 2 to the operand's width. The other operands
/// agree with their pairs in the kinds from AND to CONCAT below, and are any at all in the rest.
#[inline]
pub fn pick_consistent(spot: &Spot, position: usize, t: u64, p: u64) -> Option<u64> {
    let x = spot.part(position);
    let w = spot.width;
    let other = usize::from(position == 0);
    let (lo, hi) = (spot.lo[other], spot.hi[other]);
    match (spot.kind, position) {
        // Where the other is 1, this bit is the target's; where the target is 1, both are.
        (AND, _) => x.with(t | lo, t).pick_if(t & !hi == 0, p),
        (XOR, _) => x.with(!(lo ^ hi), t ^ lo).pick(p),
        (EQ, _) if t == 1 => x.with(!(lo ^ hi), lo).pick(p),
        (EQ, _) if lo == hi => pick_except(x, lo, p),
        (EQ, _) => x.pick(p),
        (BELOW, 0) => pick_below(x, if t == 1 { hi } else { lo }, t, p),
        (BELOW, _) => pick_above(x, if t == 1 { lo } else { hi }, t, p),
        (SIGNED_BELOW, _) => {
            let greatest = (position == 0) == (t == 1);
            let bound = if greatest { spot.greatest(other) } else { spot.least(other) };
            pick_signed(x, spot.widths[0], position, bound, t, p)
        }
        (IF, 0) => pick_condition(x, spot.agrees(1, t), spot.agrees(2, t), p),
        (IF, 1) => pick_open_branch(x, spot.hi[0] == 1, spot.lo[0] == 0 && spot.agrees(2, t), t, p),
        (IF, _) => pick_open_branch(x, spot.lo[0] == 0, spot.hi[0] == 1 && spot.agrees(1, t), t, p),
        (CONCAT, 0) => pick_half(x, t >> spot.widths[1], spot.agrees(1, t & mask(spot.widths[1]))),
        (CONCAT, _) => pick_half(x, t & mask(spot.widths[1]), spot.agrees(0, t >> spot.widths[1])),
        (ADD, _) => x.pick(p),
        (MUL | SHL | LSHR, _) if t == 0 => x.pick(p),
        (MUL, _) => pick_divisor(x, t, p),
        (SHL, 0) => {
            let parts = (0..=t.trailing_zeros()).map(|by| x.with(mask(w - by), t >> by));
            pick_of_all(parts, p)
        }
        (LSHR, 0) => {
            let spare = t.leading_zeros() - (64 - w);
            let parts = (0..=spare).map(|by| x.with(!low_bits(by), t << by));
            pick_of_all(parts, p)
        }
        (SHL, _) => x.up_to(u64::from(t.trailing_zeros())).pick(p),
        (LSHR, _) => x.up_to(u64::from(t.leading_zeros() - (64 - w))).pick(p),
        (UDIV, 0) if t == mask(w) => x.pick(p),
        (UDIV, 0) if t == 0 => x.up_to(mask(w) - 1).pick(p),
        (UDIV, 0) => next_dividend(x, t, p).or_else(|| next_dividend(x, t, 0)),
        (UDIV, _) if t == mask(w) => x.up_to(1).pick(p),
        (UDIV, _) => x.from(1).up_to(mask(w).checked_div(t).unwrap_or(mask(w))).pick(p),
        (ASHR, 0) => pick_of_all((0..signs(t, w)).filter_map(|by| pick_kept(x, w, by, t)), p),
        (ASHR, _) if signs(t, w) == w => x.pick(p),
        (ASHR, _) => x.up_to(u64::from(signs(t, w)) - 1).pick(p),
        _ => pick_inverse(spot, position, t, p),
    }
}

/// Whether no agreeing values of the others give the target while this one keeps its value.
#[inline]
pub fn essential(spot: &Spot, position: usize, t: u64) -> bool {
    let mine = spot.now[position];
    let reached = match (spot.kind, position) {
        (NOT, _) => !mine & mask(spot.width) == t,
        (EXTRACT, _) => mine >> spot.low & mask(spot.width) == t,
        (SIGN_EXTEND, _) => sign_extended(mine, spot.widths[0]) & mask(spot.width) == t,
        (IF, 0) => spot.agrees(2 - mine as usize, t),
        (IF, 1) => spot.hi[0] == 1 && mine == t || spot.lo[0] == 0 && spot.agrees(2, t),
        (IF, _) => spot.lo[0] == 0 && mine == t || spot.hi[0] == 1 && spot.agrees(1, t),
        _ => pick_inverse(spot, 1 - position, t, 0).is_some(),
    };
    !reached
}

/// x · s = t: the zeros at the end of s go out of both, and the odd rest of s has an inverse.
#[inline]
fn pick_factor(x: Part, w: u32, s: u64, t: u64, p: u64) -> Option<u64> {
    if s == 0 {
        return x.pick_if(t == 0, p);
    }
    let zeros = s.trailing_zeros();
    if t & low_bits(zeros) != 0 {
        return None;
    }
    let quotient = (t >> zeros).wrapping_mul(odd_inverse(s >> zeros));
    x.with(mask(w - zeros), quotient).pick(p)
}

/// The inverse of an odd word modulo 2^64: each round doubles the number of right bits, from five.
#[inline]
fn odd_inverse(odd: u64) -> u64 {
    let mut inverse = odd.wrapping_mul(3) ^ 2;
    for _ in 0..4 {
        inverse = inverse.wrapping_mul(2u64.wrapping_sub(odd.wrapping_mul(inverse)));
    }
    inverse
}

/// x & s = t: the bits of s are given.
#[inline]
fn pick_conjunct(x: Part, s: u64, t: u64, p: u64) -> Option<u64> {
    if t & !s != 0 {
        return None;
    }
    x.with(s, t).pick(p)
}

/// x shl by = t: the low bits of x are given, unless all are shifted out.
#[inline]
fn pick_shifted_left(x: Part, w: u32, by: u64, t: u64, p: u64) -> Option<u64> {
    if by >= u64::from(w) {
        return x.pick_if(t == 0, p);
    }
    let by = by as u32;
    if t & low_bits(by) != 0 {
        return None;
    }
    x.with(mask(w - by), t >> by).pick(p)
}

/// x lshr by = t: the high bits of x are given, unless all are shifted out.
#[inline]
fn pick_shifted_right(x: Part, w: u32, by: u64, t: u64, p: u64) -> Option<u64> {
    if by >= u64::from(w) {
        return x.pick_if(t == 0, p);
    }
    let by = by as u32;
    if t & !mask(w - by) != 0 {
        return None;
    }
    x.with(!low_bits(by), t << by).pick(p)
}

/// a shl x = t: for t other than 0 the amount that brings a's lowest bit to t's.
#[inline]
fn pick_left_amount(x: Part, w: u32, a: u64, t: u64, p: u64) -> Option<u64> {
    if a == 0 {
        return x.pick_if(t == 0, p);
    }
    if t == 0 {
        return x.from(u64::from(w - a.trailing_zeros())).pick(p);
    }
    let by = t.trailing_zeros().checked_sub(a.trailing_zeros())?;
    if a << by & mask(w) != t {
        return None;
    }
    x.only(u64::from(by))
}

/// a lshr x = t: for t other than 0 the amount that brings a's highest bit to t's.
#[inline]
fn pick_right_amount(x: Part, a: u64, t: u64, p: u64) -> Option<u64> {
    if a == 0 {
        return x.pick_if(t == 0, p);
    }
    if t == 0 {
        return x.from(u64::from(64 - a.leading_zeros())).pick(p);
    }
    let by = t.leading_zeros().checked_sub(a.leading_zeros())?;
    if a >> by != t {
        return None;
    }
    x.only(u64::from(by))
}

/// (x eq s) = t.
#[inline]
fn pick_equal(x: Part, s: u64, t: u64, p: u64) -> Option<u64> {
    if t == 1 {
        x.only(s)
    } else {
        pick_except(x, s, p)
    }
}

/// (x below s) = t.
#[inline]
fn pick_below(x: Part, s: u64, t: u64, p: u64) -> Option<u64> {
    if t == 1 {
        x.up_to(s.checked_sub(1)?).pick(p)
    } else {
        x.from(s).pick(p)
    }
}

/// (s below x) = t.
#[inline]
fn pick_above(x: Part, s: u64, t: u64, p: u64) -> Option<u64> {
    if t == 1 {
        x.from(s.checked_add(1)?).pick(p)
    } else {
        x.up_to(s).pick(p)
    }
}

/// a udiv x = t: above a / (t + 1) and at most a / t; 0 where t is all ones.
#[inline]
fn pick_denominator(x: Part, w: u32, a: u64, t: u64, p: u64) -> Option<u64> {
    let divisors = x.from(a / (t + 1) + 1).up_to(a.checked_div(t).unwrap_or(mask(w)));
    if t == mask(w) {
        pick_of_all([x.up_to(0), divisors].into_iter(), p)
    } else {
        divisors.pick(p)
    }
}

/// The least member at or above p that some s divides to t, which is neither 0 nor all ones: one from s · t
/// to s · t + s - 1.
#[inline]
fn next_dividend(x: Part, t: u64, mut p: u64) -> Option<u64> {
    loop {
        let v = x.next(p)?;
        let s = v / t;
        if v - s * t < s {
            return Some(v);
        }
        p = (s + 1) * t;
    }
}

/// How many bits from the top are like the top one.
#[inline]
fn signs(t: u64, w: u32) -> u32 {
    let turned = if t >> (w - 1) == 1 { !t & mask(w) } else { t };
    turned.leading_zeros() - (64 - w)
}

/// x ashr by = t, by below the width: the high bits of x are given, where t begins with copies of one bit.
#[inline]
fn pick_kept(x: Part, w: u32, by: u32, t: u64) -> Option<Part> {
    if by >= signs(t, w) {
        return None;
    }
    Some(x.with(mask(w) & !low_bits(by), t << by))
}

/// (x slt s) = t at position 0, (s slt x) = t at position 1. With the top bits turned the signed order is
/// the unsigned one, and the members are those between two words.
#[inline]
fn pick_signed(x: Part, w: u32, position: usize, s: u64, t: u64, p: u64) -> Option<u64> {
    let top = 1 << (w - 1);
    let s = s ^ top;
    match (position, t) {
        (0, 1) => pick_turned(x, top, 0, s.checked_sub(1)?, p),
        (0, _) => pick_turned(x, top, s, mask(w), p),
        (_, 1) if s == mask(w) => None,
        (_, 1) => pick_turned(x, top, s + 1, mask(w), p),
        _ => pick_turned(x, top, 0, s, p),
    }
}

/// Members that lie between two words once their top bits are turned. Those with a top bit of 0 come first.
#[inline]
fn pick_turned(x: Part, top: u64, least: u64, most: u64, p: u64) -> Option<u64> {
    let low = if most >= top { x.from(least.max(top) ^ top).up_to(most ^ top) } else { x.from(1).up_to(0) };
    let high =
        if least < top { x.from(least ^ top).up_to(most.min(top - 1) ^ top) } else { x.from(1).up_to(0) };
    let next = |p: u64| low.next(p).or_else(|| high.next(p));
    next(p).or_else(|| next(0))
}

/// A condition, where the target is the value of the first branch, of the second, or of both.
#[inline]
fn pick_condition(x: Part, first: bool, second: bool, p: u64) -> Option<u64> {
    match (first, second) {
        (true, true) => x.pick(p),
        (true, false) => x.only(1),
        (false, true) => x.only(0),
        (false, false) => None,
    }
}

/// A branch, which is taken or not, beside the other one's value.
#[inline]
fn pick_branch(x: Part, taken: bool, other: u64, t: u64, p: u64) -> Option<u64> {
    if taken {
        x.only(t)
    } else {
        x.pick_if(other == t, p)
    }
}

/// A branch that may be taken, beside another that may be taken with the target for its value.
#[inline]
fn pick_open_branch(x: Part, may_be_taken: bool, other_serves: bool, t: u64, p: u64) -> Option<u64> {
    if other_serves {
        x.pick(p)
    } else if may_be_taken {
        x.only(t)
    } else {
        None
    }
}

/// A half of a concatenation, where the other half is right or not.
#[inline]
fn pick_half(x: Part, half: u64, other_is_right: bool) -> Option<u64> {
    if other_is_right {
        x.only(half)
    } else {
        None
    }
}

/// Any member but `s`.
#[inline]
fn pick_except(x: Part, s: u64, p: u64) -> Option<u64> {
    let next = |from: u64| match x.next(from) {
        Some(v) if v == s => s.checked_add(1).and_then(|after| x.next(after)),
        found => found,
    };
    next(p).or_else(|| next(0))
}

/// Members with no more zeros at the end than t, which is not 0: some bit up to t's lowest is set.
#[inline]
fn pick_divisor(x: Part, t: u64, p: u64) -> Option<u64> {
    let ends = t ^ t.wrapping_sub(1);
    let settable = x.hi & ends;
    if settable == 0 {
        return None;
    }
    let lowest = settable & settable.wrapping_neg();
    let v = x.next(p).or_else(|| x.next(0))?;
    Some(if v & ends == 0 { v | lowest } else { v })
}

/// The pick from the union of parts.
#[inline]
fn pick_of_all(parts: impl Iterator<Item = Part>, p: u64) -> Option<u64> {
    let (mut above, mut least) = (None, None);
    let lower = |best: Option<u64>, found: Option<u64>| match (best, found) {
        (Some(best), Some(found)) => Some(best.min(found)),
        _ => best.or(found),
    };
    for part in parts {
        above = lower(above, part.next(p));
        least = lower(least, part.next(0));
    }
    above.or(least)
}
