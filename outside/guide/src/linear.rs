//! Goals as linear equations over the bits of the inputs.
//!
//! A checksum, a scrambler, a parity or a linear feedback is a sum of bits modulo 2. Walks that mend one bit of it turn others,
//! and no distance tells how near a solution is; but elimination has all solutions at once. So every bit of a goal is taken to
//! turn with each input bit by itself, as it does around the values that are there: where that is the whole truth, the inputs
//! found are a solution, and where it is nearly so, some of them may be. What is found is tried, and only a model is told.

use crate::chance::Chance;
use crate::goals::Goal;
use crate::nodes::Ready;
use crate::state::State;
use plain::kind::*;

/// So many bits of inputs at most: elimination takes their square.
const MOST: usize = 512;
/// How many of the equations' solutions are tried.
const TRIED: usize = 12;

/// Every node's value in a model, if one is found from the values of a state.
pub fn model(state: &mut State, chance: &mut Chance) -> Option<Vec<u64>> {
    let ready = state.ready;
    let bits = bits(ready);
    let rows: u32 = ready.goals.iter().map(|goal| height(ready, *goal)).sum();
    if bits.len() > MOST || rows == 0 || state.is_model() {
        return None;
    }
    let equations = Equations::around(state, &bits, rows as usize)?;
    let mut tried = State::new(ready, &inputs(&state.values, &bits, &equations.one));
    // Where the first brings nothing, the goals are no such equations.
    if tried.cost >= state.cost {
        return None;
    }
    for _ in 1..TRIED {
        if tried.is_model() {
            break;
        }
        tried = State::new(ready, &inputs(&state.values, &bits, &equations.any(chance)));
    }
    tried.is_model().then_some(tried.values)
}

/// The input bits that can be 0 or 1 and are read by something under a root.
fn bits(ready: &Ready) -> Vec<(u16, u64)> {
    let mut bits = Vec::new();
    for &variable in ready.variables.iter().filter(|&&id| !ready.above[usize::from(id)].is_empty()) {
        let at = usize::from(variable);
        let free = ready.hi[at] & !ready.lo[at];
        bits.extend((0..64).map(|bit| 1 << bit).filter(|bit| free & bit != 0).map(|bit| (variable, bit)));
    }
    bits
}

/// How many equations a goal makes: of an equality one for each bit, of an order none.
fn height(ready: &Ready, goal: Goal) -> u32 {
    let node = &ready.nodes[usize::from(goal.node)];
    match node.kind {
        EQ if goal.wanted == 1 => node.by.into(),
        EQ | BELOW | SIGNED_BELOW => 0,
        _ => 1,
    }
}

/// The goals' bits, one after the other, each 0 where it is as wanted.
fn left(state: &State, rows: usize) -> Bits {
    let mut left = Bits::zeros(rows);
    let mut at = 0;
    for goal in &state.ready.goals {
        let node = &state.ready.nodes[usize::from(goal.node)];
        let word = match node.kind {
            EQ => node.operands[..2].iter().fold(0, |word, &id| word ^ state.values[usize::from(id)]),
            _ => state.values[usize::from(goal.node)] ^ goal.wanted,
        };
        let height = height(state.ready, *goal) as usize;
        left.put(at, height, word);
        at += height;
    }
    left
}

/// Values with the inputs' bits turned that are named.
fn inputs(values: &[u64], bits: &[(u16, u64)], turned: &Bits) -> Vec<u64> {
    let mut values = values.to_vec();
    for (at, &(variable, bit)) in bits.iter().enumerate() {
        if turned.is_set(at) {
            values[usize::from(variable)] ^= bit;
        }
    }
    values
}

/// All choices of input bits that turn what has to be turned.
struct Equations {
    /// One of them.
    one: Bits,
    /// What may be added to it: choices that turn nothing.
    free: Vec<Bits>,
}

impl Equations {
    /// Around a state. None where there is no solution.
    fn around(state: &mut State, bits: &[(u16, u64)], rows: usize) -> Option<Equations> {
        let wanted = left(state, rows);
        // Sums of columns, each with a leading bit that no later one has, and the columns that make it.
        let mut basis: Vec<(usize, Bits, Bits)> = Vec::new();
        let mut free = Vec::new();
        for (at, &(variable, bit)) in bits.iter().enumerate() {
            let x = state.values[usize::from(variable)] ^ bit;
            let mut column = state.with(variable, x, |state| left(state, rows));
            column.add(&wanted);
            let mut made_of = Bits::zeros(bits.len());
            made_of.turn(at);
            reduce(&basis, &mut column, &mut made_of);
            match column.first() {
                Some(first) => basis.push((first, column, made_of)),
                None => free.push(made_of),
            }
        }
        let (mut rest, mut one) = (wanted, Bits::zeros(bits.len()));
        reduce(&basis, &mut rest, &mut one);
        rest.first().is_none().then_some(Equations { one, free })
    }

    /// Any solution.
    fn any(&self, chance: &mut Chance) -> Bits {
        let mut any = self.one.clone();
        for more in &self.free {
            if chance.below(2) == 0 {
                any.add(more);
            }
        }
        any
    }
}

/// Takes off what sums of columns there are, in their order.
fn reduce(basis: &[(usize, Bits, Bits)], column: &mut Bits, made_of: &mut Bits) {
    for (first, sum, columns) in basis {
        if column.is_set(*first) {
            column.add(sum);
            made_of.add(columns);
        }
    }
}

/// A row of bits.
#[derive(Clone, Debug)]
struct Bits(Vec<u64>);

impl Bits {
    fn zeros(count: usize) -> Bits {
        Bits(vec![0; count.div_ceil(64)])
    }

    fn is_set(&self, at: usize) -> bool {
        self.0[at / 64] >> (at % 64) & 1 == 1
    }

    fn turn(&mut self, at: usize) {
        self.0[at / 64] ^= 1 << (at % 64);
    }

    /// Writes the low bits of a word over zeros.
    fn put(&mut self, at: usize, count: usize, word: u64) {
        if count == 0 {
            return;
        }
        let (place, by) = (at / 64, at % 64);
        self.0[place] |= word << by;
        if by + count > 64 {
            self.0[place + 1] |= word >> (64 - by);
        }
    }

    fn add(&mut self, other: &Bits) {
        self.0.iter_mut().zip(&other.0).for_each(|(word, more)| *word ^= more);
    }

    fn first(&self) -> Option<usize> {
        let at = self.0.iter().position(|&word| word != 0)?;
        Some(64 * at + self.0[at].trailing_zeros() as usize)
    }
}

#[cfg(test)]
mod tests {
    use super::*;
    use generate::Builder;
    use model::{Kind, Pair};

    /// x and its shifts by 3 and 7 are summed bit by bit to a given word: solved at once, from any values.
    #[test]
    fn a_sum_of_shifts_is_solved() {
        for wanted in [0x1234_5678_9abc_def1_u64, 1, u64::MAX >> 1].map(|x| x ^ x << 3 ^ x >> 7) {
            let mut b = Builder::new();
            let x = b.variable(64, Pair::free(64));
            let [three, seven, k] = [3, 7, wanted].map(|value| b.constant(64, value));
            let (left, right) = (b.node(Kind::Shl, &[x, three]), b.node(Kind::Lshr, &[x, seven]));
            let half = b.node(Kind::Xor, &[x, left]);
            let sum = b.node(Kind::Xor, &[half, right]);
            let ok = b.node(Kind::Eq, &[sum, k]);
            b.root(ok);
            let ready = Ready::new(&b.problem.bytes()).unwrap();
            for seed in 0..20 {
                let chance = &mut Chance::of_run(seed, 0);
                let mut state = State::new(&ready, &vec![chance.word(); ready.nodes.len()]);
                let found = super::model(&mut state, chance).expect("a model");
                let x = found[usize::from(x)];
                assert_eq!(x ^ x << 3 ^ x >> 7, wanted);
            }
        }
    }

    /// Two bits that have to be equal and different: no solution, and none is told.
    #[test]
    fn equations_without_a_solution() {
        let mut b = Builder::new();
        let (x, y) = (b.variable(1, Pair::free(1)), b.variable(1, Pair::free(1)));
        let (same, apart) = (b.node(Kind::Eq, &[x, y]), b.node(Kind::Xor, &[x, y]));
        b.root(same);
        b.root(apart);
        let ready = Ready::new(&b.problem.bytes()).unwrap();
        let mut state = State::new(&ready, &vec![0; ready.nodes.len()]);
        assert_eq!(super::model(&mut state, &mut Chance::of_run(1, 0)), None);
    }

    #[test]
    fn words_are_put_across_a_border() {
        let mut bits = Bits::zeros(130);
        bits.put(60, 8, 0b1000_1001);
        bits.put(128, 0, 7);
        bits.put(128, 2, 2);
        assert_eq!(bits.0, [9 << 60, 0b1000, 2]);
        assert_eq!((bits.first(), Bits::zeros(3).first()), (Some(60), None));
    }
}
