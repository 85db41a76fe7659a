//! The least member, at or above a proposal, of a ternary word within a range.

use crate::low_bits;

/// The values v with every bit of lo and none outside hi, from `least` to `most`.
#[derive(Clone, Copy, Debug)]
pub struct Part {
    pub lo: u64,
    pub hi: u64,
    pub least: u64,
    pub most: u64,
}

impl Part {
    #[inline]
    pub fn new(lo: u64, hi: u64) -> Part {
        Part { lo, hi, least: 0, most: u64::MAX }
    }

    #[inline]
    pub fn agrees(&self, v: u64) -> bool {
        self.lo & !v == 0 && v & !self.hi == 0
    }

    /// `v` where it agrees.
    #[inline]
    pub fn only(&self, v: u64) -> Option<u64> {
        self.agrees(v).then_some(v)
    }

    /// The members whose bits under `care` are those of `bits`.
    #[inline]
    pub fn with(self, care: u64, bits: u64) -> Part {
        Part { lo: self.lo | care & bits, hi: self.hi & (bits | !care), ..self }
    }

    #[inline]
    pub fn from(self, least: u64) -> Part {
        Part { least, ..self }
    }

    #[inline]
    pub fn up_to(self, most: u64) -> Part {
        Part { most, ..self }
    }

    /// The least member at or above `p`.
    #[inline]
    pub fn next(&self, p: u64) -> Option<u64> {
        next(self.lo, self.hi, p.max(self.least)).filter(|&v| v <= self.most)
    }

    /// The least member at or above `p`, else the least.
    #[inline]
    pub fn pick(&self, p: u64) -> Option<u64> {
        self.next(p).or_else(|| self.next(0))
    }

    /// The pick where a condition holds, else none.
    #[inline]
    pub fn pick_if(&self, holds: bool, p: u64) -> Option<u64> {
        if holds {
            self.pick(p)
        } else {
            None
        }
    }
}

/// The least value at or above `p` that agrees with a ternary word, none for lo outside hi.
#[inline]
pub fn next(lo: u64, hi: u64, p: u64) -> Option<u64> {
    if lo & !hi != 0 {
        return None;
    }
    let wrong = lo & !p | p & !hi;
    if wrong == 0 {
        return Some(p);
    }
    // Below the highest wrong bit all is open. Where p lacks that bit, setting it is enough; where p
    // has it, the next higher bit that can go from 0 to 1 has to.
    let top = 63 - wrong.leading_zeros();
    let turn = if lo >> top & 1 == 1 {
        top
    } else {
        let rises = hi & !p & !low_bits(top + 1);
        if rises == 0 {
            return None;
        }
        rises.trailing_zeros()
    };
    let kept = low_bits(turn + 1);
    Some(p & !kept | 1 << turn | lo & kept)
}
