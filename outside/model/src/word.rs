//! Words of 1 to 64 bits, and ternary words: words some of whose bits are fixed.

/// The largest value of `width` bits: all its bits are one.
pub fn ones(width: u32) -> u64 {
    assert!(width <= 64, "no width of {width} bits");
    ((1u128 << width) - 1) as u64
}

/// The number that a word of `width` bits stands for where its top bit counts below 0.
pub fn signed(value: u64, width: u32) -> i128 {
    let below = if value >> (width - 1) & 1 == 1 { 1 << width } else { 0 };
    i128::from(value) - below
}

/// A word of `from` bits as one of `to` bits, its top bit repeated in front of it.
pub fn sign_extended(value: u64, from: u32, to: u32) -> u64 {
    let front = if value >> (from - 1) & 1 == 1 { ones(to) & !ones(from) } else { 0 };
    value | front
}

/// "A ternary word is a pair lo, hi with no bit set in lo and clear in hi. A bit is fixed where lo
/// and hi agree."
#[derive(Clone, Copy, Debug, Default, PartialEq, Eq)]
pub struct Pair {
    pub lo: u64,
    pub hi: u64,
}

impl Pair {
    /// Every bit is free.
    pub fn free(width: u32) -> Pair {
        Pair { lo: 0, hi: ones(width) }
    }

    /// Every bit is fixed: `value` alone agrees.
    pub fn fixed(value: u64) -> Pair {
        Pair { lo: value, hi: value }
    }

    /// Whether the pair is a ternary word of `width` bits.
    pub fn is_ternary(self, width: u32) -> bool {
        self.lo & !self.hi == 0 && self.hi <= ones(width)
    }

    /// "A value v agrees when no bit is in lo and not in v, or in v and not in hi."
    pub fn agrees(self, v: u64) -> bool {
        self.lo & !v == 0 && v & !self.hi == 0
    }

    /// Whether no bit is free.
    pub fn is_fixed(self) -> bool {
        self.lo == self.hi
    }

    /// The free bits.
    pub fn open(self) -> u64 {
        self.lo ^ self.hi
    }

    /// The `width` bits from bit `low` on, as a ternary word of their own.
    pub fn part(self, low: u32, width: u32) -> Pair {
        Pair { lo: self.lo >> low & ones(width), hi: self.hi >> low & ones(width) }
    }

    /// The same word with the bits under a mask turned: fixed ones the other way round, free ones free.
    pub fn turned(self, mask: u64) -> Pair {
        Pair { lo: self.lo & !mask | !self.hi & mask, hi: self.hi & !mask | !self.lo & mask }
    }

    /// The values that agree with both, if there are any: they are a ternary word again.
    pub fn meet(self, other: Pair) -> Option<Pair> {
        let both = Pair { lo: self.lo | other.lo, hi: self.hi & other.hi };
        (both.lo & !both.hi == 0).then_some(both)
    }

    /// The values that agree, ascending. By trying each: for small widths.
    pub fn members(self) -> impl Iterator<Item = u64> {
        (self.lo..=self.hi).filter(move |&v| self.agrees(v))
    }
}

/// All ternary words of `width` bits: three to the power of the width.
pub fn all_pairs(width: u32) -> Vec<Pair> {
    let words = 0..=ones(width);
    words
        .clone()
        .flat_map(|hi| words.clone().map(move |lo| Pair { lo, hi }))
        .filter(|p| p.is_ternary(width))
        .collect()
}

#[cfg(test)]
mod tests {
    use super::*;

    #[test]
    fn ones_at_the_ends() {
        assert_eq!(ones(0), 0);
        assert_eq!(ones(1), 1);
        assert_eq!(ones(64), u64::MAX);
    }

    #[test]
    fn signed_words_of_four_bits() {
        let numbers: Vec<i128> = (0..16).map(|value| signed(value, 4)).collect();
        assert_eq!(numbers, [0, 1, 2, 3, 4, 5, 6, 7, -8, -7, -6, -5, -4, -3, -2, -1]);
        assert_eq!(signed(u64::MAX, 64), -1);
        for value in 0..16 {
            assert_eq!(signed(sign_extended(value, 4, 9), 9), signed(value, 4));
        }
        assert_eq!(sign_extended(1 << 62, 63, 64), 3 << 62);
    }

    #[test]
    fn a_turned_word_has_the_turned_members() {
        for pair in all_pairs(3) {
            let turned: std::collections::BTreeSet<u64> = pair.members().map(|v| v ^ 0b101).collect();
            assert_eq!(pair.turned(0b101).members().collect::<Vec<_>>(), Vec::from_iter(turned));
        }
    }

    #[test]
    fn there_are_three_to_the_width_ternary_words_with_four_to_the_width_members() {
        for width in 1..=4 {
            let pairs = all_pairs(width);
            assert_eq!(pairs.len(), 3usize.pow(width));
            assert_eq!(pairs.iter().map(|p| p.members().count()).sum::<usize>(), 4usize.pow(width));
        }
    }

    #[test]
    fn the_meet_has_the_members_of_both() {
        for a in all_pairs(3) {
            for b in all_pairs(3) {
                let both: Vec<u64> = a.members().filter(|&v| b.agrees(v)).collect();
                let meet: Vec<u64> = a.meet(b).into_iter().flat_map(Pair::members).collect();
                assert_eq!(both, meet, "{a:?} {b:?}");
            }
        }
    }
}
