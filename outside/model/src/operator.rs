//! The table of kinds: how many operands each has, which widths fit, and what it means.

use crate::word::{ones, sign_extended, signed};

/// The kinds by their numbers.
#[derive(Clone, Copy, Debug, PartialEq, Eq, PartialOrd, Ord, Hash)]
pub enum Kind {
    Variable,
    Constant,
    Not,
    And,
    Xor,
    Add,
    Mul,
    Shl,
    Lshr,
    Eq,
    Below,
    If,
    Concat,
    Extract,
    SignedBelow,
    Ashr,
    SignExtend,
    Div,
}

use Kind::*;

impl Kind {
    /// How many there are: refusal 7 begins at this number.
    pub const COUNT: usize = 18;

    pub const ALL: [Kind; Kind::COUNT] = [
        Variable,
        Constant,
        Not,
        And,
        Xor,
        Add,
        Mul,
        Shl,
        Lshr,
        Eq,
        Below,
        If,
        Concat,
        Extract,
        SignedBelow,
        Ashr,
        SignExtend,
        Div,
    ];

    /// The kind of a number, if there is one.
    pub fn from_number(number: u8) -> Option<Kind> {
        Kind::ALL.get(number as usize).copied()
    }

    pub fn number(self) -> u8 {
        self as u8
    }

    /// How many of the fields a, b, c are operands' ids, from a on.
    pub fn operands(self) -> usize {
        match self {
            Variable | Constant => 0,
            Not | Extract | SignExtend => 1,
            And | Xor | Add | Mul | Shl | Lshr | Eq | Below | Concat | SignedBelow | Ashr | Div => 2,
            If => 3,
        }
    }

    /// How many of the fields a, b, c are used, from a on: the operands, and the lowest bit of extract.
    pub fn fields(self) -> usize {
        if self == Extract {
            2
        } else {
            self.operands()
        }
    }

    /// The most bits that its node may have: a division 16.
    pub fn widest(self) -> u32 {
        if self == Div {
            16
        } else {
            64
        }
    }

    /// Document 02, R-4: whether the consistent set admits only such values of the other positions as agree
    /// with their pairs.
    pub fn others_agree(self) -> bool {
        match self {
            And | Xor | Eq | Below | SignedBelow | If | Concat => true,
            Variable | Constant | Not | Add | Mul | Shl | Lshr | Extract | Ashr | SignExtend | Div => false,
        }
    }

    /// The name that the text form has for it.
    pub fn name(self) -> &'static str {
        match self {
            Variable => "var",
            Constant => "const",
            Not => "not",
            And => "and",
            Xor => "xor",
            Add => "add",
            Mul => "mul",
            Shl => "shl",
            Lshr => "lshr",
            Eq => "eq",
            Below => "below",
            If => "if",
            Concat => "concat",
            Extract => "extract",
            SignedBelow => "slt",
            Ashr => "ashr",
            SignExtend => "sext",
            Div => "udiv",
        }
    }
}

/// What a node computes, without its operands' ids: kind, width, the operands' widths (0 where
/// there is no operand) and, for extract, the lowest bit (else 0).
#[derive(Clone, Copy, Debug, PartialEq, Eq)]
pub struct Operator {
    pub kind: Kind,
    pub width: u32,
    pub widths: [u32; 3],
    pub low: u32,
}

impl Operator {
    /// The column "width rule" of the table.
    pub fn widths_fit(&self) -> bool {
        let w = self.width;
        let [a, b, c] = self.widths;
        match self.kind {
            Variable | Constant => true,
            Not => a == w,
            And | Xor | Add | Mul | Shl | Lshr | Ashr | Div => a == w && b == w,
            Eq | Below | SignedBelow => a == b && w == 1,
            If => a == 1 && b == w && c == w,
            Concat => a + b == w,
            Extract => self.low + w <= a,
            SignExtend => w > a,
        }
    }

    /// The value that the operator gives to its operands' values. Variables and constants have none.
    pub fn apply(&self, values: [u64; 3]) -> u64 {
        let w = self.width;
        let modulus = 1u128 << w;
        let [a, b, c] = values.map(u128::from);
        let lshr = |v: u128| if b >= u128::from(w) { 0 } else { v >> b };
        let value = match self.kind {
            Variable | Constant => panic!("a {} computes nothing", self.kind.name()),
            Not => modulus - 1 - a,
            And => a & b,
            Xor => a ^ b,
            Add => (a + b) % modulus,
            Mul => (a * b) % modulus,
            Shl if b >= u128::from(w) => 0,
            Shl => (a << b) % modulus,
            Lshr => lshr(a),
            // SMT-LIB: as lshr where the top bit is 0, else the complement of the complement's lshr.
            Ashr if a < modulus / 2 => lshr(a),
            Ashr => modulus - 1 - lshr(modulus - 1 - a),
            Eq => u128::from(a == b),
            Below => u128::from(a < b),
            If if a == 1 => b,
            If => c,
            Concat => (a << self.widths[1]) + b,
            Extract => (a >> self.low) % modulus,
            SignedBelow => {
                let [a, b] = [0, 1].map(|at| signed(values[at], self.widths[at]));
                u128::from(a < b)
            }
            SignExtend => sign_extended(values[0], self.widths[0], w).into(),
            // SMT-LIB: all ones for a zero divisor.
            Div => a.checked_div(b).unwrap_or(modulus - 1),
        };
        debug_assert!(value < modulus);
        value as u64
    }

    /// The values of an operand's width.
    pub fn largest(&self, position: usize) -> u64 {
        ones(self.widths[position])
    }
}

/// Every operator that has operands, of at most `most` bits each, and whose node has at most `widest`:
/// for tests that go through all of them.
pub fn all_operators(most: u32, widest: u32) -> Vec<Operator> {
    let mut found = Vec::new();
    let widths = |used: bool| if used { 1..=most } else { 0..=0 };
    for kind in Kind::ALL.into_iter().filter(|k| k.operands() > 0) {
        for width in 1..=widest {
            for a in widths(true) {
                for b in widths(kind.operands() > 1) {
                    for c in widths(kind.operands() > 2) {
                        for low in 0..if kind == Extract { most } else { 1 } {
                            found.push(Operator { kind, width, widths: [a, b, c], low });
                        }
                    }
                }
            }
        }
    }
    found.retain(Operator::widths_fit);
    found
}

#[cfg(test)]
mod tests {
    use super::*;

    fn apply(kind: Kind, width: u32, widths: [u32; 3], low: u32, values: [u64; 3]) -> u64 {
        let operator = Operator { kind, width, widths, low };
        assert!(operator.widths_fit());
        operator.apply(values)
    }

    #[test]
    fn a_shift_by_the_width_or_more_gives_zero() {
        for width in [1, 4, 63, 64] {
            for amount in [width as u64, ones(width)] {
                assert_eq!(apply(Shl, width, [width, width, 0], 0, [1, amount, 0]), 0);
                assert_eq!(apply(Lshr, width, [width, width, 0], 0, [ones(width), amount, 0]), 0);
            }
        }
        assert_eq!(apply(Shl, 64, [64, 64, 0], 0, [1, 63, 0]), 1 << 63);
        assert_eq!(apply(Lshr, 64, [64, 64, 0], 0, [u64::MAX, 63, 0]), 1);
    }

    #[test]
    fn sums_and_products_are_taken_modulo() {
        assert_eq!(apply(Add, 8, [8, 8, 0], 0, [100, 200, 0]), 44);
        assert_eq!(apply(Mul, 4, [4, 4, 0], 0, [11, 6, 0]), 2);
        assert_eq!(apply(Mul, 64, [64, 64, 0], 0, [1 << 63, 2, 0]), 0);
    }

    #[test]
    fn parts_and_wholes() {
        assert_eq!(apply(Concat, 64, [1, 63, 0], 0, [1, 5, 0]), (1 << 63) + 5);
        assert_eq!(apply(Extract, 1, [64, 0, 0], 63, [1 << 63, 0, 0]), 1);
        assert_eq!(apply(If, 4, [1, 4, 4], 0, [1, 7, 9]), 7);
        assert_eq!(apply(If, 4, [1, 4, 4], 0, [0, 7, 9]), 9);
        assert_eq!(apply(Below, 1, [4, 4, 0], 0, [7, 9, 0]), 1);
        assert_eq!(apply(Below, 1, [4, 4, 0], 0, [9, 9, 0]), 0);
    }

    /// The signed order by the sign bits, as SMT-LIB has it; the shift by division, rounded down.
    #[test]
    fn signed_kinds_in_other_words() {
        for width in 1..=4 {
            let top = 1 << (width - 1);
            for a in 0..=ones(width) {
                for b in 0..=ones(width) {
                    let below = a & top > b & top || a & top == b & top && a < b;
                    let widths = [width, width, 0];
                    assert_eq!(apply(SignedBelow, 1, widths, 0, [a, b, 0]), u64::from(below));
                    let quotient = signed(a, width).div_euclid(1 << b);
                    let shifted = apply(Ashr, width, widths, 0, [a, b, 0]);
                    assert_eq!(signed(shifted, width), quotient, "{a} by {b} at {width}");
                }
                let wide = apply(SignExtend, 7, [width, 0, 0], 0, [a, 0, 0]);
                assert_eq!(signed(wide, 7), signed(a, width));
            }
        }
        assert_eq!(apply(Ashr, 64, [64, 64, 0], 0, [1 << 63, u64::MAX, 0]), u64::MAX);
    }

    /// What is left of the dividend, zero divisor included: SMT-LIB's remainder is then the dividend.
    #[test]
    fn the_remainder_is_the_dividend_less_divisor_times_quotient() {
        for a in 0..16 {
            for b in 0..16 {
                let quotient = apply(Div, 4, [4, 4, 0], 0, [a, b, 0]);
                let product = apply(Mul, 4, [4, 4, 0], 0, [b, quotient, 0]);
                assert_eq!(a.wrapping_sub(product) & 15, a.checked_rem(b).unwrap_or(a));
            }
        }
        assert_eq!(apply(Div, 16, [16, 16, 0], 0, [65_535, 0, 0]), 65_535);
        assert_eq!(apply(Div, 16, [16, 16, 0], 0, [7, 0, 0]), 65_535);
    }

    #[test]
    fn all_operators_has_every_kind() {
        let all = all_operators(4, 4);
        for kind in Kind::ALL.into_iter().skip(2) {
            assert!(all.iter().any(|o| o.kind == kind), "{kind:?}");
        }
    }
}
