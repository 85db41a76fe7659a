//! Fixed bits of inner nodes, worked out from the operands upward.

use crate::operator::{Kind, Operator};
use crate::problem::Problem;
use crate::word::{ones, signed, Pair};

/// Every node's pair.
pub fn pairs(problem: &Problem) -> Vec<Pair> {
    let mut pairs = Vec::with_capacity(problem.nodes.len());
    for (id, node) in problem.nodes.iter().enumerate() {
        pairs.push(match node.kind {
            Kind::Variable | Kind::Constant => node.pair,
            _ => result(&problem.operator(id), problem.at_operands(id, &pairs)),
        });
    }
    pairs
}

/// The pair of an operator's result, from its operands' pairs.
pub fn result(operator: &Operator, [a, b, c]: [Pair; 3]) -> Pair {
    let w = operator.width;
    let all = ones(w);
    match operator.kind {
        Kind::Variable | Kind::Constant => panic!("a {} carries its pair", operator.kind.name()),
        // Bit by bit, a result bit is fixed at 1 where it is 1 for every choice, and at 0 likewise.
        Kind::Not => Pair { lo: all & !a.hi, hi: all & !a.lo },
        Kind::And => Pair { lo: a.lo & b.lo, hi: a.hi & b.hi },
        Kind::Xor => {
            let open = a.open() | b.open();
            Pair { lo: (a.lo ^ b.lo) & !open, hi: a.lo ^ b.lo | open }
        }
        Kind::Concat => {
            let join = |high: u64, low: u64| high << operator.widths[1] | low;
            Pair { lo: join(a.lo, b.lo), hi: join(a.hi, b.hi) }
        }
        Kind::Extract => a.part(operator.low, w),
        // Document 02, R-9: "a result bit is fixed exactly if it is the same for every pair of agreeing
        // operand values, the two operands taken as independent"
        Kind::Add => sum(w, a, b),
        // "let k be the lowest position free in either operand (w if none). The low k bits are
        // fixed, as computed; the others are free."
        Kind::Mul => {
            let k = (a.open() | b.open()).trailing_zeros().min(w);
            let computed = operator.apply([a.lo, b.lo, 0]) & ones(k);
            Pair { lo: computed, hi: computed | all & !ones(k) }
        }
        // "with a fully fixed amount, the shifted pair (filled places fixed at 0); else all free"
        // and "as lshr with the sign's ternary bit filling"
        Kind::Shl | Kind::Lshr | Kind::Ashr if b.is_fixed() => {
            let shifted = |v: u64| operator.apply([v, b.lo, 0]);
            Pair { lo: shifted(a.lo), hi: shifted(a.hi) }
        }
        Kind::Shl | Kind::Lshr | Kind::Ashr => Pair::free(w),
        // "the top bit's state is copied"
        Kind::SignExtend => {
            let extended = |v: u64| operator.apply([v, 0, 0]);
            Pair { lo: extended(a.lo), hi: extended(a.hi) }
        }
        // "0 if some position is fixed both sides and differs; 1 if both are fully fixed and equal"
        Kind::Eq if (a.lo ^ b.lo) & !a.open() & !b.open() != 0 => Pair::fixed(0),
        Kind::Eq if a.is_fixed() && b.is_fixed() => Pair::fixed(1),
        Kind::Eq => Pair::free(1),
        // "1 if a's hi is below b's lo; 0 if a's lo is at least b's hi; else free"
        Kind::Below if a.hi < b.lo => Pair::fixed(1),
        Kind::Below if a.lo >= b.hi => Pair::fixed(0),
        Kind::Below => Pair::free(1),
        // "decided when the signed least and greatest values of the pairs decide it"
        Kind::SignedBelow if greatest(a, operator.widths[0]) < least(b, operator.widths[1]) => Pair::fixed(1),
        Kind::SignedBelow if least(a, operator.widths[0]) >= greatest(b, operator.widths[1]) => {
            Pair::fixed(0)
        }
        Kind::SignedBelow => Pair::free(1),
        // "the quotient if both sides are fully fixed, else free"
        Kind::Div if a.is_fixed() && b.is_fixed() => Pair::fixed(operator.apply([a.lo, b.lo, 0])),
        Kind::Div => Pair::free(w),
        // "the chosen branch if the condition is fixed; else the bits fixed alike in both branches"
        Kind::If if a == Pair::fixed(1) => b,
        Kind::If if a == Pair::fixed(0) => c,
        Kind::If => Pair { lo: b.lo & c.lo, hi: b.hi | c.hi },
    }
}

/// The bits of a sum that are the same for all operands that agree: added as by hand, bit by bit from the
/// low end, with every carry that the lower bits can bring. These do not depend on the bits above them.
fn sum(w: u32, a: Pair, b: Pair) -> Pair {
    let mut found = Pair::default();
    let mut carries = vec![0];
    for i in 0..w {
        let mut totals = Vec::new();
        for x in a.part(i, 1).members() {
            for y in b.part(i, 1).members() {
                totals.extend(carries.iter().map(|carry| x + y + carry));
            }
        }
        let is_odd = |total: &u64| total % 2 == 1;
        found.lo |= u64::from(totals.iter().all(is_odd)) << i;
        found.hi |= u64::from(totals.iter().any(is_odd)) << i;
        carries = totals.iter().map(|total| total / 2).collect();
        carries.sort();
        carries.dedup();
    }
    found
}

/// The least of the signed values that agree: with the top bit where it may be 1, and no other free one.
fn least(pair: Pair, width: u32) -> i128 {
    let top = 1 << (width - 1);
    signed(pair.lo | pair.hi & top, width)
}

/// The greatest: without the top bit where it may be 0, and with every other free one.
fn greatest(pair: Pair, width: u32) -> i128 {
    let top = 1 << (width - 1);
    signed(pair.hi & (!top | pair.lo), width)
}

/// The pair of the bits that an operator forces: those that are the same for every choice of
/// operands that agree. By going through all of them: for small widths.
pub fn forced(operator: &Operator, pairs: [Pair; 3]) -> Pair {
    let mut found = Pair { lo: ones(operator.width), hi: 0 };
    for a in pairs[0].members() {
        for b in pairs[1].members() {
            for c in pairs[2].members() {
                let value = operator.apply([a, b, c]);
                found.lo &= value;
                found.hi |= value;
            }
        }
    }
    found
}

#[cfg(test)]
mod tests {
    use super::*;
    use crate::operator::all_operators;
    use crate::word::all_pairs;

    /// The pairs that an operand may have; a position without an operand has zeros.
    fn choices(width: u32) -> Vec<Pair> {
        if width == 0 {
            vec![Pair::default()]
        } else {
            all_pairs(width)
        }
    }

    fn for_every_operator_and_pairs(mut see: impl FnMut(&Operator, [Pair; 3])) {
        for operator in all_operators(3, 6) {
            for a in choices(operator.widths[0]) {
                for b in choices(operator.widths[1]) {
                    for c in choices(operator.widths[2]) {
                        see(&operator, [a, b, c]);
                    }
                }
            }
        }
    }

    #[test]
    fn signed_extremes_are_those_of_the_members() {
        for pair in all_pairs(4) {
            let members: Vec<i128> = pair.members().map(|v| signed(v, 4)).collect();
            assert_eq!(members.iter().min(), Some(&least(pair, 4)));
            assert_eq!(members.iter().max(), Some(&greatest(pair, 4)));
        }
    }

    #[test]
    fn sums_fix_exactly_the_forced_bits_to_five_bits() {
        for width in 1..=5 {
            let operator = Operator { kind: Kind::Add, width, widths: [width, width, 0], low: 0 };
            for a in all_pairs(width) {
                for b in all_pairs(width) {
                    let pairs = [a, b, Pair::default()];
                    assert_eq!(result(&operator, pairs), forced(&operator, pairs), "{pairs:?}");
                }
            }
        }
    }

    /// The bitwise kinds, and those whose rules come to the same.
    #[test]
    fn these_kinds_fix_exactly_the_forced_bits() {
        for_every_operator_and_pairs(|operator, pairs| {
            let exact = match operator.kind {
                Kind::Not | Kind::And | Kind::Xor | Kind::Add | Kind::Concat | Kind::Extract => true,
                Kind::Eq | Kind::Below | Kind::SignedBelow | Kind::SignExtend => true,
                Kind::Shl | Kind::Lshr | Kind::Ashr => pairs[1].is_fixed(),
                _ => false,
            };
            if exact {
                assert_eq!(result(operator, pairs), forced(operator, pairs), "{operator:?} {pairs:?}");
            }
        });
    }

    #[test]
    fn no_kind_fixes_a_bit_that_is_not_forced() {
        for_every_operator_and_pairs(|operator, pairs| {
            let (fixed, forced) = (result(operator, pairs), forced(operator, pairs));
            assert!(fixed.is_ternary(operator.width));
            assert!(fixed.agrees(forced.lo) && fixed.agrees(forced.hi), "{operator:?} {pairs:?}");
        });
    }

    /// The rules of the paper, said again bit by bit in other words.
    #[test]
    fn the_other_kinds_fix_what_the_paper_says() {
        let bit = |v: u64, i: u32| v >> i & 1;
        let fixed_at = |p: Pair, i: u32| bit(p.lo, i) == bit(p.hi, i);
        for_every_operator_and_pairs(|operator, pairs| {
            let found = result(operator, pairs);
            let [a, b, c] = pairs;
            let w = operator.width;
            for i in 0..w {
                let fixed = fixed_at(found, i);
                match operator.kind {
                    Kind::Mul => {
                        let all_below = (0..=i).all(|j| fixed_at(a, j) && fixed_at(b, j));
                        assert_eq!(fixed, all_below);
                    }
                    Kind::Shl | Kind::Lshr | Kind::Ashr if !b.is_fixed() => assert!(!fixed),
                    Kind::Shl | Kind::Lshr => {
                        let from = if operator.kind == Kind::Shl {
                            u64::from(i).checked_sub(b.lo)
                        } else {
                            Some(u64::from(i) + b.lo).filter(|&j| j < u64::from(w))
                        };
                        match from {
                            Some(j) => assert_eq!(
                                (bit(found.lo, i), bit(found.hi, i)),
                                (a.lo >> j & 1, a.hi >> j & 1)
                            ),
                            None => assert_eq!((bit(found.lo, i), bit(found.hi, i)), (0, 0)),
                        }
                    }
                    Kind::Eq => {
                        let differs = (0..operator.widths[0])
                            .any(|j| fixed_at(a, j) && fixed_at(b, j) && bit(a.lo, j) != bit(b.lo, j));
                        let same = a.is_fixed() && a == b;
                        assert_eq!(
                            found,
                            if differs {
                                Pair::fixed(0)
                            } else if same {
                                Pair::fixed(1)
                            } else {
                                Pair::free(1)
                            }
                        );
                    }
                    Kind::Div => assert_eq!(fixed, a.is_fixed() && b.is_fixed()),
                    Kind::If if a.is_fixed() => assert_eq!(found, if a.lo == 1 { b } else { c }),
                    Kind::If => {
                        assert_eq!(fixed, fixed_at(b, i) && fixed_at(c, i) && bit(b.lo, i) == bit(c.lo, i))
                    }
                    _ => {}
                }
            }
        });
    }
}
