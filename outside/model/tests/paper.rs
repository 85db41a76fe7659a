//! The paper's worked example and its numbers to test by, of the whole model from bytes on.

use model::files::{bytes_of, printed, tape_file};
use model::problem::read;
use model::{
    definition, exact, pairs, Answer, Kind, Node, Operator, Outcome, Pair, Problem, Refusal, Set, Spot,
    Verdict,
};

fn variable(width: u32, pair: Pair) -> Node {
    Node { kind: Kind::Variable, width, fields: [0; 3], pair }
}

fn constant(width: u32, value: u64) -> Node {
    Node { kind: Kind::Constant, width, fields: [0; 3], pair: Pair::fixed(value) }
}

fn node(kind: Kind, width: u32, fields: [u16; 3]) -> Node {
    Node { kind, width, fields, pair: Pair::default() }
}

/// 0 variable (4 bits, all free), 1 constant 6, 2 mul of 0 and 1, 3 constant 2, 4 eq of 2 and 3; root 4.
fn worked_example() -> Problem {
    Problem {
        nodes: vec![
            variable(4, Pair::free(4)),
            constant(4, 6),
            node(Kind::Mul, 4, [0, 1, 0]),
            constant(4, 2),
            node(Kind::Eq, 1, [2, 3, 0]),
        ],
        roots: vec![4],
    }
}

#[test]
fn the_worked_example() {
    let problem = worked_example().bytes();
    let printed = printed(&problem, &bytes_of(&[0; 5]), &tape_file(1, &[0, 0, 9, 0, 4]));
    assert_eq!(printed, "verdict model moves 1 steps 2 words 5\n0 11\n");
}

/// Nodes evaluated: N at the beginning, and what is above the variable that a finished move sets.
#[test]
fn what_a_run_evaluates() {
    let example = worked_example();
    let run = |values: &mut [u64], tape: &[u64], budget| {
        let answer = model::run(&example.bytes(), values, tape, budget);
        (answer.moves, answer.evaluated)
    };
    assert_eq!([0, 1, 2, 3, 4].map(|id| example.above(id)), [3, 3, 2, 2, 1]);
    assert_eq!(run(&mut [0; 5], &[0, 0, 9, 0, 4], 1), (1, 5 + 3));
    assert_eq!(run(&mut [0; 5], &[0, 0, 9, 0], 1), (0, 5), "an unfinished move");
    assert_eq!(run(&mut [0; 5], &[], 0), (0, 5), "spent at once");
    assert_eq!(run(&mut [3, 0, 0, 0, 0], &[], 9), (0, 5), "a model at once");
    assert_eq!(run(&mut [16, 0, 0, 0, 0], &[], 9), (0, 0), "refused");
    let sum = Problem {
        nodes: vec![
            variable(4, Pair::free(4)),
            variable(4, Pair::free(4)),
            node(Kind::Add, 4, [0, 1, 0]),
            constant(4, 5),
            node(Kind::Eq, 1, [2, 3, 0]),
        ],
        roots: vec![4],
    };
    let mut values = [1, 3, 0, 0, 0];
    let answer = model::run(&sum.bytes(), &mut values, &[0, 0, 0, 1, 1], 1);
    assert_eq!(
        (values, answer.evaluated),
        ([1, 3, 4, 5, 0], 5 + 3),
        "a variable takes the value that it has"
    );
    let twice = Problem {
        nodes: vec![
            variable(4, Pair::free(4)),
            node(Kind::Add, 4, [0, 0, 0]),
            node(Kind::Eq, 1, [0, 1, 0]),
            constant(1, 0),
            node(Kind::Concat, 2, [2, 3, 0]),
            variable(1, Pair::free(1)),
        ],
        roots: vec![2, 5],
    };
    assert_eq!([0, 1, 2, 3, 4, 5].map(|id| twice.above(id)), [4, 3, 2, 2, 1, 1]);
    let mut values = [5, 0, 0, 0, 0, 0];
    let answer = model::run(&twice.bytes(), &mut values, &[1, 0, 0, 0], 2);
    assert_eq!(
        (answer.moves, answer.evaluated),
        (2, 6 + 1 + 4),
        "a variable that nobody reads, then the other"
    );
    let closed = Problem { nodes: vec![constant(1, 0), variable(2, Pair::free(2))], roots: vec![0] };
    let answer = model::run(&closed.bytes(), &mut [0; 2], &[], 9);
    assert_eq!((answer.outcome, answer.evaluated), (Outcome::Settled(Verdict::Closed), 2));
}

#[test]
fn other_endings_of_the_worked_example() {
    let problem = worked_example().bytes();
    let start = bytes_of(&[0; 5]);
    let all = [0, 0, 9, 0, 4];
    for length in 0..5 {
        let printed = printed(&problem, &start, &tape_file(1, &all[..length]));
        assert_eq!(printed, "verdict ended moves 0 steps 0 words 0\n0 0\n", "tape of {length}");
    }
    assert_eq!(
        printed(&problem, &start, &tape_file(0, &all)),
        "verdict spent moves 0 steps 0 words 0\n0 0\n"
    );
    assert_eq!(printed(&problem, &start, &[]), "verdict spent moves 0 steps 0 words 0\n0 0\n");
    assert_eq!(printed(&problem, &bytes_of(&[0; 4]), &tape_file(1, &all)), "refused 14 at 0\n");
    assert_eq!(printed(&problem, &bytes_of(&[16, 0, 0, 0, 0]), &tape_file(1, &all)), "refused 15 at 0\n");
    assert_eq!(
        printed(&problem, &bytes_of(&[3, 9, 9, 9, 9]), &[]),
        "verdict model moves 0 steps 0 words 0\n0 3\n"
    );
    assert_eq!(printed(&[], &[], &[]), "refused 1 at 0\n");
    assert_eq!(printed(b"TBV\x01\0\0\0\0\0", &[], &[]), "verdict model moves 0 steps 0 words 0\n");
}

/// The members of a set, by definition and by the pick at every proposal.
fn members(spot: &Spot, set: Set, position: usize, target: u64) -> Vec<u64> {
    let by_definition = definition::members(spot, set, position, target);
    let width = spot.operator.widths[position];
    let picked: std::collections::BTreeSet<u64> =
        (0..1 << width).filter_map(|p| exact::pick(spot, set, position, target, p)).collect();
    assert_eq!(by_definition, picked.into_iter().collect::<Vec<_>>());
    by_definition
}

/// A spot of two operands of one width: x with its pair at position 0, s at position 1.
fn spot(kind: Kind, operand: u32, x: Pair, s: u64) -> Spot {
    let width = if matches!(kind, Kind::Eq | Kind::Below | Kind::SignedBelow) { 1 } else { operand };
    Spot {
        operator: Operator { kind, width, widths: [operand, operand, 0], low: 0 },
        pairs: [x, Pair::free(operand), Pair::default()],
        values: [x.lo, s, 0],
    }
}

#[test]
fn numbers_to_test_by() {
    let six = spot(Kind::Mul, 4, Pair::free(4), 6);
    assert_eq!(members(&six, Set::Inverse, 0, 2), [3, 11]);
    assert_eq!(exact::pick(&six, Set::Inverse, 0, 2, 4), Some(11));
    assert_eq!(exact::pick(&six, Set::Inverse, 0, 2, 12), Some(3));

    let top = Pair { lo: 2, hi: 3 };
    assert_eq!(members(&spot(Kind::Mul, 2, top, 3), Set::Inverse, 0, 1), [3]);
    assert_eq!(members(&spot(Kind::Mul, 2, top, 0), Set::Inverse, 0, 1), []);
    assert_eq!(members(&spot(Kind::Mul, 2, top, 0), Set::Consistent, 0, 1), [3]);

    let two = spot(Kind::Mul, 64, Pair::free(64), 2);
    let picked = |p| exact::pick(&two, Set::Inverse, 0, 0, p);
    assert_eq!(
        [picked(0), picked(1), picked(1 << 63), picked((1 << 63) + 1)],
        [Some(0), Some(1 << 63), Some(1 << 63), Some(0)]
    );

    assert_eq!(members(&spot(Kind::Add, 8, Pair::free(8), 200), Set::Inverse, 0, 44), [100]);
    assert_eq!(members(&spot(Kind::And, 4, Pair::free(4), 14), Set::Inverse, 0, 1), []);
    assert_eq!(members(&spot(Kind::And, 4, Pair::free(4), 14), Set::Inverse, 0, 2), [2, 3]);

    let mut shifted = spot(Kind::Shl, 4, Pair::free(4), 0);
    shifted.values[0] = 6;
    assert_eq!(members(&shifted, Set::Inverse, 1, 0), (3..=15).collect::<Vec<_>>());
    shifted.pairs[1] = Pair { lo: 0, hi: 3 };
    assert_eq!(members(&shifted, Set::Inverse, 1, 0), [3]);

    let right = spot(Kind::Lshr, 4, Pair::free(4), 0);
    assert_eq!(members(&right, Set::Consistent, 0, 6), [6, 12, 13]);
    assert_eq!(exact::pick(&right, Set::Consistent, 0, 6, 7), Some(12));

    let mut below = spot(Kind::Below, 4, Pair::free(4), 8);
    below.values[0] = 11;
    below.pairs[1] = Pair { lo: 8, hi: 9 };
    assert!(exact::essential(&below, 0, 1) && definition::essential(&below, 0, 1));
    assert!(!exact::essential(&below, 1, 1) && !definition::essential(&below, 1, 1));

    assert_eq!(members(&spot(Kind::Eq, 1, Pair::free(1), 1), Set::Inverse, 0, 0), [0]);
    assert_eq!(members(&spot(Kind::Eq, 1, Pair::fixed(1), 1), Set::Inverse, 0, 0), []);

    let sum = spot(Kind::Add, 4, Pair { lo: 0b0001, hi: 0b1101 }, 3);
    assert_eq!(
        pairs::result(&sum.operator, [sum.pairs[0], Pair::fixed(3), Pair::default()]),
        Pair { lo: 0, hi: 0b1100 }
    );
}

#[test]
fn signed_words() {
    // -8 to -1 are below 0, and 0 to 7 are not.
    let below = spot(Kind::SignedBelow, 4, Pair::free(4), 0);
    assert_eq!(members(&below, Set::Inverse, 0, 1), (8..=15).collect::<Vec<_>>());
    assert_eq!(members(&below, Set::Inverse, 0, 0), (0..=7).collect::<Vec<_>>());
    assert_eq!(exact::pick(&below, Set::Inverse, 0, 1, 3), Some(8));
    // Nothing is below the least, nor above the greatest.
    assert_eq!(members(&spot(Kind::SignedBelow, 4, Pair::free(4), 8), Set::Inverse, 0, 1), []);
    assert_eq!(members(&below, Set::Consistent, 0, 1), (0..=15).filter(|&v| v != 7).collect::<Vec<_>>());
    assert_eq!(members(&below, Set::Consistent, 1, 1), (0..=15).filter(|&v| v != 8).collect::<Vec<_>>());

    assert_eq!(members(&spot(Kind::Ashr, 4, Pair::free(4), 1), Set::Inverse, 0, 12), [8, 9]);
    assert_eq!(members(&spot(Kind::Ashr, 4, Pair::free(4), 1), Set::Inverse, 0, 4), []);
    assert_eq!(
        members(&spot(Kind::Ashr, 4, Pair::free(4), 9), Set::Inverse, 0, 15),
        (8..=15).collect::<Vec<_>>()
    );
    assert_eq!(members(&spot(Kind::Ashr, 4, Pair::free(4), 0), Set::Consistent, 0, 13), [10, 11, 13]);

    let extend = |target| {
        let operator = Operator { kind: Kind::SignExtend, width: 8, widths: [4, 0, 0], low: 0 };
        let spot =
            Spot { operator, pairs: [Pair::free(4), Pair::default(), Pair::default()], values: [0; 3] };
        members(&spot, Set::Inverse, 0, target)
    };
    assert_eq!([extend(0xf8), extend(0x07), extend(0x78)], [vec![8], vec![7], vec![]]);

    let pair = |kind, a: Pair, b: Pair| pairs::result(&spot(kind, 4, a, 0).operator, [a, b, Pair::default()]);
    let sign_free = Pair { lo: 0b0100, hi: 0b1100 };
    assert_eq!(pair(Kind::Ashr, sign_free, Pair::fixed(2)), Pair { lo: 0b0001, hi: 0b1111 });
    assert_eq!(pair(Kind::SignedBelow, Pair { lo: 8, hi: 15 }, Pair { lo: 0, hi: 7 }), Pair::fixed(1));
    assert_eq!(pair(Kind::SignedBelow, sign_free, Pair::fixed(0)), Pair::free(1));
}

/// Document 02, R-4: the consistent sets by the other operand's pair.
#[test]
fn the_other_side_has_fixed_bits_too() {
    let beside = |kind, pair: Pair, target| {
        let mut spot = spot(kind, 4, Pair::free(4), pair.lo);
        spot.pairs[1] = pair;
        members(&spot, Set::Consistent, 0, target)
    };
    let all: Vec<u64> = (0..16).collect();
    // 1**0
    let pair = Pair { lo: 8, hi: 14 };
    assert_eq!(beside(Kind::And, pair, 4), [4, 5, 6, 7]);
    assert_eq!(beside(Kind::And, pair, 1), []);
    assert_eq!(beside(Kind::Xor, pair, 1), [9, 11, 13, 15]);
    assert_eq!(beside(Kind::Eq, pair, 1), [8, 10, 12, 14]);
    assert_eq!(beside(Kind::Eq, pair, 0), all);
    assert_eq!(
        beside(Kind::Eq, Pair::fixed(5), 0),
        all.iter().copied().filter(|&v| v != 5).collect::<Vec<_>>()
    );
    assert_eq!(beside(Kind::Below, pair, 1), (0..14).collect::<Vec<_>>());
    assert_eq!(beside(Kind::Below, pair, 0), (8..16).collect::<Vec<_>>());
    // -8 to -2
    assert_eq!(beside(Kind::SignedBelow, pair, 1), (8..14).collect::<Vec<_>>());
    assert_eq!(beside(Kind::SignedBelow, pair, 0), all);
    // The remaining kinds stay.
    assert_eq!(beside(Kind::Add, pair, 1), all);
    assert_eq!(beside(Kind::Mul, pair, 1), all.iter().copied().filter(|v| v % 2 == 1).collect::<Vec<_>>());

    let joined = Spot {
        operator: Operator { kind: Kind::Concat, width: 8, widths: [4, 4, 0], low: 0 },
        pairs: [Pair::free(4), pair, Pair::default()],
        values: [0, 8, 0],
    };
    assert_eq!(members(&joined, Set::Consistent, 0, 0x3a), [3]);
    assert_eq!(members(&joined, Set::Consistent, 0, 0x3b), []);
}

/// Document 02, R-9: what is fixed above the lowest free bit of a sum. The worked sum, above, is as it was.
#[test]
fn sums_tell_more() {
    let sum = |a: Pair, b: Pair| {
        let width = 4;
        let operator = Operator { kind: Kind::Add, width, widths: [width, width, 0], low: 0 };
        pairs::result(&operator, [a, b, Pair::default()])
    };
    // 000* + 000* is 00**; 000* + 0010 is 001*; 000* + 0011 may carry up to bit 2.
    assert_eq!(sum(Pair { lo: 0, hi: 1 }, Pair { lo: 0, hi: 1 }), Pair { lo: 0, hi: 3 });
    assert_eq!(sum(Pair { lo: 0, hi: 1 }, Pair::fixed(2)), Pair { lo: 2, hi: 3 });
    assert_eq!(sum(Pair { lo: 0, hi: 1 }, Pair::fixed(3)), Pair { lo: 0, hi: 7 });
    // 10*1 + 11*1: the carry out of bit 0 is sure, that into bit 2 is not.
    assert_eq!(sum(Pair { lo: 9, hi: 11 }, Pair { lo: 13, hi: 15 }), Pair { lo: 0, hi: 14 });
}

/// "verdict closed may come where a search was spent": of two counters below 4 the sum is below 8.
#[test]
fn a_sum_closes_a_run() {
    let counters = Problem {
        nodes: vec![
            variable(8, Pair { lo: 0, hi: 3 }),
            variable(8, Pair { lo: 0, hi: 3 }),
            node(Kind::Add, 8, [0, 1, 0]),
            constant(8, 8),
            node(Kind::Eq, 1, [2, 3, 0]),
        ],
        roots: vec![4],
    };
    let mut values = [3, 2, 0, 0, 0];
    let answer = model::run(&counters.bytes(), &mut values, &[0; 10], 9);
    assert_eq!((answer.outcome, values), (Outcome::Settled(Verdict::Closed), [3, 2, 5, 8, 0]));
}

/// "Where the operands' pairs leave no value, the step is blocked": neither branch can be 1.
#[test]
fn a_step_is_blocked_where_no_branch_agrees() {
    let branches = Problem {
        nodes: vec![
            variable(1, Pair::free(1)),
            constant(2, 0),
            constant(2, 3),
            node(Kind::If, 2, [0, 1, 2]),
            constant(2, 1),
            node(Kind::Eq, 1, [3, 4, 0]),
        ],
        roots: vec![5],
    };
    let mut values = [0; 6];
    let answer = model::run(&branches.bytes(), &mut values, &[0, 0, 0, 1, 1], 1);
    assert_eq!(
        answer,
        Answer { moves: 1, steps: 2, words: 5, evaluated: 6, outcome: Outcome::Settled(Verdict::Spent) }
    );
    assert_eq!(values, [0, 0, 3, 3, 1, 0]);
}

#[test]
fn division() {
    let by = |s| spot(Kind::Div, 4, Pair::free(4), s);
    assert_eq!(members(&by(3), Set::Inverse, 0, 2), [6, 7, 8]);
    assert_eq!(members(&by(3), Set::Inverse, 0, 6), []);
    assert_eq!(members(&by(0), Set::Inverse, 0, 15), (0..=15).collect::<Vec<_>>());
    assert_eq!(members(&by(0), Set::Inverse, 0, 0), []);
    let mut thirteen = by(1);
    thirteen.values[0] = 13;
    assert_eq!(members(&thirteen, Set::Inverse, 1, 3), [4]);
    assert_eq!(members(&thirteen, Set::Inverse, 1, 0), [14, 15]);
    assert_eq!(members(&thirteen, Set::Inverse, 1, 15), [0]);
    // 3, then 6 and 7, then from 9 on without gaps.
    let quotient = [3, 6, 7, 9, 10, 11, 12, 13, 14, 15];
    assert_eq!(members(&by(1), Set::Consistent, 0, 3), quotient);
    assert_eq!(members(&by(1), Set::Consistent, 0, 0), (0..=14).collect::<Vec<_>>());
    assert_eq!(members(&by(1), Set::Consistent, 1, 15), [0, 1]);
    assert_eq!(members(&by(1), Set::Consistent, 1, 3), [1, 2, 3, 4, 5]);
    let wide = |width| Problem {
        nodes: vec![variable(width, Pair { lo: 0, hi: 1 }), node(Kind::Div, width, [0, 0, 0])],
        roots: vec![],
    };
    assert_eq!(read(&wide(16).bytes()).err(), None);
    assert_eq!(read(&wide(17).bytes()).err(), Some(Refusal { number: 20, place: 1 }));
    // 20 comes after 8 and before 9.
    let mut bytes = wide(17).bytes();
    bytes[9 + 24 + 2] = 9;
    assert_eq!(read(&bytes).err(), Some(Refusal { number: 20, place: 1 }));
    bytes[9 + 24 + 1] = 65;
    assert_eq!(read(&bytes).err(), Some(Refusal { number: 8, place: 1 }));
}

#[test]
fn limits() {
    let refusal = |problem: &Problem| read(&problem.bytes()).err();
    let wide = |width| Problem { nodes: vec![variable(width, Pair { lo: 0, hi: 1 })], roots: vec![] };
    assert_eq!(refusal(&wide(64)), None);
    assert_eq!(refusal(&wide(65)), Some(Refusal { number: 8, place: 0 }));
    let many = |count| Problem { nodes: vec![variable(1, Pair::free(1)); count], roots: vec![] };
    assert_eq!(refusal(&many(1024)), None);
    assert_eq!(refusal(&many(1025)), Some(Refusal { number: 4, place: 0 }));
    let rooted = |count: u16| Problem { roots: (0..count).collect(), ..many(count.into()) };
    assert_eq!(refusal(&rooted(256)), None);
    assert_eq!(refusal(&rooted(257)), Some(Refusal { number: 5, place: 0 }));
    assert_eq!(many(1024).bytes().len() + 2 * 256, 24_585 + 512);
}

/// Document 02, R-5: 16 at the first repeat, wherever its like stands, once 13 has passed for all roots.
#[test]
fn a_root_may_not_repeat() {
    let nodes = vec![variable(1, Pair::free(1)), variable(1, Pair::free(1)), variable(2, Pair::free(2))];
    for (roots, refused) in [
        (vec![0, 1], None),
        (vec![0; 40], Some((16, 1))),
        (vec![0, 1, 0], Some((16, 2))),
        (vec![0, 1, 1, 0], Some((16, 2))),
        (vec![0, 0, 1, 2], Some((13, 3))),
        (vec![0, 0, 3], Some((13, 2))),
    ] {
        let found = read(&Problem { nodes: nodes.clone(), roots: roots.clone() }.bytes()).err();
        assert_eq!(found.map(|refusal| (refusal.number, refusal.place)), refused, "{roots:?}");
    }
}

#[test]
fn a_root_fixed_at_0_closes_the_run() {
    let closed = Problem { nodes: vec![constant(1, 0)], roots: vec![0] };
    let mut values = [7];
    let answer = model::run(&closed.bytes(), &mut values, &[], 9);
    assert_eq!((answer.outcome, values), (Outcome::Settled(Verdict::Closed), [0]));
}

#[test]
fn a_blocked_move_counts_and_changes_nothing() {
    // x · y = 1 with x even: no value of x is consistent, and no bit of the product is fixed.
    let blocked = Problem {
        nodes: vec![
            variable(4, Pair { lo: 0, hi: 14 }),
            variable(4, Pair::free(4)),
            node(Kind::Mul, 4, [0, 1, 0]),
            constant(4, 1),
            node(Kind::Eq, 1, [2, 3, 0]),
        ],
        roots: vec![4],
    };
    let mut values = [2, 3, 9, 9, 9, 9];
    let answer = model::run(&blocked.bytes(), &mut values, &[0, 0, 1, 0, 0, 0, 1], 1);
    assert_eq!(
        answer,
        Answer { moves: 1, steps: 2, words: 5, evaluated: 5, outcome: Outcome::Settled(Verdict::Spent) }
    );
    assert_eq!(values, [2, 3, 6, 1, 0, 9]);
}
