//! Proposals. Any word may be one; these are words that lead to values near the ones that are there.
//!
//! A value picked blindly throws away all bits that the target does not speak of, and with them what other roots have
//! reached. So most proposals are the member of the set that is nearest to the operand's value, or that value itself.

use crate::chance::Chance;
use crate::nodes::mask;
use crate::values::signed;
use plain::kind::*;
use plain::picking::Spot;

/// What the members of a set look like, as far as advice goes: the pick itself is exact whatever is proposed.
#[derive(Clone, Copy, Debug)]
enum Shape {
    /// One member, or as good as one.
    One,
    /// Those with these bits under a mask.
    Bits { care: u64, bits: u64 },
    /// Those from a word to another, with the top bit turned where they are signed.
    Range { least: u64, most: u64, turn: u64 },
    /// All but a few.
    Any,
}

/// The shape of the inverse set of an operand.
#[inline]
fn inverse(spot: &Spot, position: usize, t: u64) -> Shape {
    let [a, b, _] = spot.now;
    let other = if position == 0 { b } else { a };
    let w = u64::from(spot.width);
    match (spot.kind, position) {
        (AND, _) => Shape::Bits { care: other, bits: t },
        (MUL, _) if other == 0 => Shape::Any,
        (MUL, _) => factor(spot.width, other, t),
        (SHL | LSHR, 0) if b >= w => Shape::Any,
        (SHL, 0) => Shape::Bits { care: mask(spot.width - b as u32), bits: t >> b },
        (LSHR, 0) => Shape::Bits { care: mask(spot.width) << b, bits: t << b },
        (ASHR, 0) => {
            let by = b.min(w - 1);
            Shape::Bits { care: mask(spot.width) << by, bits: t << by }
        }
        (EXTRACT, _) => Shape::Bits { care: mask(spot.width) << spot.low, bits: t << spot.low },
        (EQ, _) if t == 0 => Shape::Any,
        (BELOW | SIGNED_BELOW, _) => order(spot, position, other, t),
        (IF, 1 | 2) => Shape::Any,
        (UDIV, 0) if b != 0 => Shape::Range { least: b * t, most: b * t + b - 1, turn: 0 },
        (SHL | LSHR | ASHR | UDIV, _) => Shape::Any,
        _ => Shape::One,
    }
}

/// The shape of the consistent set of an operand.
#[inline]
fn consistent(spot: &Spot, position: usize, t: u64) -> Shape {
    let other = usize::from(position == 0);
    let (lo, hi) = (spot.lo[other], spot.hi[other]);
    match (spot.kind, position) {
        (AND, _) => Shape::Bits { care: t | lo, bits: t },
        (XOR, _) => Shape::Bits { care: !(lo ^ hi), bits: t ^ lo },
        (EQ, _) if t == 1 => Shape::Bits { care: !(lo ^ hi), bits: lo },
        (BELOW, _) => order(spot, position, if (position == 0) == (t == 1) { hi } else { lo }, t),
        (NOT | EXTRACT | CONCAT | SIGN_EXTEND, _) => inverse(spot, position, t),
        _ => Shape::Any,
    }
}

/// x · s = t, s other than 0: the low bits are those of a quotient.
#[inline]
fn factor(w: u32, s: u64, t: u64) -> Shape {
    let zeros = s.trailing_zeros();
    let odd = s >> zeros;
    let mut inverse = odd.wrapping_mul(3) ^ 2;
    for _ in 0..4 {
        inverse = inverse.wrapping_mul(2u64.wrapping_sub(odd.wrapping_mul(inverse)));
    }
    Shape::Bits { care: mask(w - zeros.min(w - 1)), bits: (t >> zeros).wrapping_mul(inverse) }
}

/// Below or above a word.
#[inline]
fn order(spot: &Spot, position: usize, s: u64, t: u64) -> Shape {
    let width = spot.widths[0];
    let turn = if spot.kind == SIGNED_BELOW { 1 << (width - 1) } else { 0 };
    let (s, top) = (s ^ turn, mask(width));
    let (least, most) = match (position, t) {
        (0, 1) => (0, s.saturating_sub(1)),
        (0, _) => (s, top),
        (_, 1) => (s.saturating_add(1).min(top), top),
        _ => (0, s),
    };
    Shape::Range { least, most, turn }
}

/// x · s = t as nearly as whole numbers go. Exact factors are those modulo 2^w: mostly great, and nothing that an operand
/// extended from fewer bits can be.
#[inline]
pub fn quotient(chance: &mut Chance, spot: &Spot, position: usize, t: u64) -> u64 {
    let s = spot.now[1 - position];
    if s == 0 {
        return any(chance, spot.width);
    }
    let whole = match chance.below(2) {
        0 => t / s,
        _ => signed(t, spot.width).wrapping_div(signed(s, spot.width)) as u64,
    };
    whole.wrapping_add(u64::from(chance.below(3))).wrapping_sub(1)
}

/// x + s = t where x cannot be that: the end of its pair that is nearest. None where it can.
#[inline]
pub fn clamped(spot: &Spot, position: usize, t: u64) -> Option<u64> {
    let wanted = t.wrapping_sub(spot.now[1 - position]) & mask(spot.width);
    let (lo, hi) = (spot.lo[position], spot.hi[position]);
    if lo & !wanted == 0 && wanted & !hi == 0 {
        return None;
    }
    Some(if signed(wanted, spot.width) < 0 { lo } else { wanted.clamp(lo, hi) })
}

/// x · x = t as nearly as whole numbers go.
#[inline]
pub fn root(chance: &mut Chance, t: u64) -> u64 {
    t.isqrt() + u64::from(chance.below(2))
}

/// How proposals are drawn, in shares of a thousand: the nearest member, the value as it is, one bit of it changed; the
/// rest are any words.
#[derive(Clone, Copy, Debug)]
pub struct Shares {
    pub nearest: u32,
    pub current: u32,
    pub one_bit: u32,
}

/// A proposal for an operand.
#[inline]
pub fn proposal(
    chance: &mut Chance,
    shares: Shares,
    spot: &Spot,
    position: usize,
    t: u64,
    from_inverse: bool,
) -> u64 {
    let shape = if from_inverse { inverse(spot, position, t) } else { consistent(spot, position, t) };
    let (now, width) = (spot.now[position], spot.widths[position]);
    match shape {
        Shape::One => now,
        Shape::Bits { care, bits } => {
            let drawn = varied(chance, shares, now, width, now & !care | bits & care);
            drawn & !care | bits & care
        }
        Shape::Range { least, most, turn } => within(chance, now ^ turn, least, most) ^ turn,
        Shape::Any => {
            let near = now ^ 1 << chance.below(width);
            varied(chance, shares, now, width, near)
        }
    }
}

#[inline]
fn varied(chance: &mut Chance, shares: Shares, now: u64, width: u32, near: u64) -> u64 {
    let at = chance.below(1000);
    if at < shares.nearest {
        near
    } else if at < shares.nearest + shares.current {
        now
    } else if at < shares.nearest + shares.current + shares.one_bit {
        now ^ 1 << chance.below(width)
    } else {
        any(chance, width)
    }
}

/// Any word of a width; a small one as often as a great one.
#[inline]
fn any(chance: &mut Chance, width: u32) -> u64 {
    let word = chance.word() & mask(width);
    if chance.below(2) == 0 {
        word
    } else {
        word >> chance.below(width)
    }
}

/// A word of a range: one of its ends, the value with few bits changed, or any.
#[inline]
fn within(chance: &mut Chance, now: u64, least: u64, most: u64) -> u64 {
    if least >= most {
        return least;
    }
    match chance.below(8) {
        0 => least,
        1 => most,
        2 | 3 => chance.between(least, most),
        4 => now.clamp(least, most),
        _ if now < least => (now | least).min(most),
        _ if now > most => lowered(now, most).max(least),
        _ => now,
    }
}

/// A value above `most` with the bit cleared in which it is first greater.
#[inline]
fn lowered(now: u64, most: u64) -> u64 {
    let first = 63 - (now & !most).leading_zeros();
    now & !(1 << first)
}
