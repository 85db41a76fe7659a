//! The benchmark's families: problems of a kind that people have, each with a known solution.

use crate::builder::Builder;
use crate::rng::Rng;
use crate::solved;
use crate::solved::{finish, Solved};
use model::problem::MOST_NODES;
use model::{ones, Kind, Pair, Problem};

/// The values of the variables as they are added, and zeros at the other nodes.
#[derive(Default)]
struct Draft {
    builder: Builder,
    values: Vec<u64>,
}

impl Draft {
    /// A variable that has `value` in the solution, with the bits outside `open` fixed at it.
    fn variable(&mut self, width: u32, value: u64, open: u64) -> u16 {
        let open = open & ones(width);
        let id = self.builder.variable(width, Pair { lo: value & !open, hi: value | open });
        self.values.resize(id as usize, 0);
        self.values.push(value);
        id
    }

    /// The value of a node in the solution.
    fn value(&self, id: u16) -> u64 {
        let mut values = self.values.clone();
        values.resize(self.builder.len(), 0);
        self.builder.problem.evaluate(&mut values);
        values[id as usize]
    }

    fn finish(self) -> Solved {
        finish(self.builder.problem, &self.values)
    }
}

/// A frame: a fixed mark, a length, `words` data words of 16 bits some of whose bits are known, a
/// checksum (a turning sum of them all) and a parity bit. Sought: data that meet them.
pub fn frame(seed: u64, words: usize) -> Solved {
    frames(seed, 1, words)
}

/// A number of frames side by side, each with its own checksum and parity.
pub fn frames(seed: u64, count: usize, words: usize) -> Solved {
    let rng = &mut Rng::new(seed);
    let mut draft = Draft::default();
    for _ in 0..count {
        add_frame(&mut draft, rng, words);
    }
    draft.finish()
}

fn add_frame(draft: &mut Draft, rng: &mut Rng, words: usize) {
    let mark = draft.variable(16, 0xa55a, 0xff);
    let length = draft.variable(16, words as u64, u64::MAX);
    let data: Vec<u16> =
        (0..words).map(|_| draft.variable(16, rng.word() & 0xffff, rng.word() | rng.word())).collect();
    let b = &mut draft.builder;
    let (one, fifteen) = (b.constant(16, 1), b.constant(16, 15));
    let mut sum = b.node(Kind::Add, &[mark, length]);
    let mut folded = b.node(Kind::Xor, &[mark, length]);
    for &word in &data {
        let up = b.node(Kind::Shl, &[sum, one]);
        let down = b.node(Kind::Lshr, &[sum, fifteen]);
        let turned = b.node(Kind::Xor, &[up, down]);
        sum = b.node(Kind::Add, &[turned, word]);
        folded = b.node(Kind::Xor, &[folded, word]);
    }
    for distance in [8, 4, 2, 1] {
        let by = b.constant(16, distance);
        let shifted = b.node(Kind::Lshr, &[folded, by]);
        folded = b.node(Kind::Xor, &[folded, shifted]);
    }
    let parity = b.extract(folded, 0, 1);
    let most = b.constant(16, words as u64 + 1);
    let short = b.node(Kind::Below, &[length, most]);
    b.root(short);
    for (id, part) in [(sum, 0xffff), (parity, 1)] {
        let value = draft.value(id);
        assert!(value <= part);
        draft.builder.root_equals(id, value);
    }
    draft.builder.root_equals(mark, 0xa55a);
}

/// Products with a known answer: `count` factor pairs x, y of `width` bits with x · y, x · 6 + y and
/// an order between them given.
pub fn products(seed: u64, count: usize, width: u32) -> Solved {
    let rng = &mut Rng::new(seed);
    let mut draft = Draft::default();
    for _ in 0..count {
        let small = ones(width / 2);
        let (x, y) = (rng.word() & small | 1, rng.word() & ones(width));
        let x = draft.variable(width, x, small);
        let y = draft.variable(width, y, u64::MAX);
        let b = &mut draft.builder;
        let product = b.node(Kind::Mul, &[x, y]);
        let six = b.constant(width, 6);
        let scaled = b.node(Kind::Mul, &[y, six]);
        let zero = b.constant(width, 0);
        let positive = b.node(Kind::Below, &[zero, x]);
        b.root(positive);
        for id in [product, scaled] {
            let value = draft.value(id);
            draft.builder.root_equals(id, value);
        }
    }
    draft.finish()
}

/// A deep graph of exactly `size` nodes: half of it a chain through every kind in turn, each link
/// with the chain and an earlier node as operands, then single conditions on the chain.
pub fn deep(seed: u64, size: usize) -> Solved {
    const WIDTH: u32 = 32;
    let rng = &mut Rng::new(seed);
    let mut draft = Draft::default();
    let leaves = (size / 16).max(2);
    let mut pool: Vec<u16> = Vec::new();
    for _ in 0..leaves {
        let open = if rng.chance(70) { u64::MAX } else { rng.word() | rng.word() };
        pool.push(draft.variable(WIDTH, rng.value(WIDTH), open));
    }
    let mut roots = Vec::new();
    let most_roots = (size / 256).clamp(1, 4);
    // A link is at most three nodes; a condition on a node of the chain is two.
    while draft.builder.len() + 3 + 2 * most_roots <= size {
        let last = *pool.last().expect("there are leaves");
        let other = if rng.chance(50) { pool[rng.below(leaves)] } else { rng.one_of(&pool) };
        let link = link(rng, &mut draft.builder, last, other);
        pool.push(link);
        roots.push(link);
    }
    while draft.builder.len() + 2 * most_roots < size {
        let (width, value) = (WIDTH, rng.value(WIDTH));
        draft.builder.constant(width, value);
    }
    let every = roots.len().div_ceil(most_roots).max(1);
    let mut chosen: Vec<u16> = roots.iter().rev().step_by(every).copied().collect();
    while chosen.len() < most_roots {
        chosen.push(roots[0]);
    }
    for id in chosen {
        let value = draft.value(id);
        draft.builder.root_equals(id, value);
    }
    assert_eq!(draft.builder.len(), size);
    draft.finish()
}

/// One link of the deep graph: a node of the chain's width over its last node and another one.
fn link(rng: &mut Rng, b: &mut Builder, last: u16, other: u16) -> u16 {
    let width = b.width(last);
    match rng.below(12) {
        0 => b.node(Kind::Not, &[last]),
        1 => b.node(Kind::Mul, &[last, other]),
        2 => {
            let by = b.constant(width, rng.between(1, 7) as u64);
            let shifted = b.node(if rng.chance(50) { Kind::Shl } else { Kind::Lshr }, &[last, by]);
            b.node(Kind::Xor, &[shifted, other])
        }
        3 => {
            let below = b.node(Kind::Below, &[last, other]);
            b.node(Kind::If, &[below, other, last])
        }
        4 => {
            let cut = rng.between(1, width as usize - 1) as u32;
            let (low, high) = (b.extract(last, 0, cut), b.extract(last, cut, width - cut));
            b.node(Kind::Concat, &[low, high])
        }
        5 => b.node(Kind::And, &[last, other]),
        6..=8 => b.node(Kind::Xor, &[last, other]),
        _ => b.node(Kind::Add, &[last, other]),
    }
}

/// Lap counters: `count` of them, of 32 bits of which the low 6 are open and the others fixed at 0, and their
/// running total. Given are the order of neighbours, a bound of the total at every fourth, and the whole.
pub fn laps(seed: u64, count: usize) -> Solved {
    const WIDTH: u32 = 32;
    let rng = &mut Rng::new(seed);
    let mut draft = Draft::default();
    let laps: Vec<u16> = (0..count).map(|_| draft.variable(WIDTH, rng.word() & 63, 63)).collect();
    for pair in laps.windows(2) {
        let [first, second] = [pair[0], pair[1]].map(|id| draft.value(id));
        let order = if first < second { [pair[0], pair[1]] } else { [pair[1], pair[0]] };
        if first != second {
            let below = draft.builder.node(Kind::Below, &order);
            draft.builder.root(below);
        }
    }
    let mut total = laps[0];
    for (number, &lap) in laps.iter().enumerate().skip(1) {
        total = draft.builder.node(Kind::Add, &[total, lap]);
        if number % 4 == 0 {
            let bound = draft.value(total) + rng.between(1, 4) as u64;
            let bound = draft.builder.constant(WIDTH, bound);
            let below = draft.builder.node(Kind::Below, &[total, bound]);
            draft.builder.root(below);
        }
    }
    let value = draft.value(total);
    draft.builder.root_equals(total, value);
    draft.finish()
}

/// A counter of 32 bits over `ticks` ticks, as a bench unrolls it: a tick adds its enable bit, and ten is
/// followed by 0. It starts below 8, its other bits fixed at 0. Given are its values at every fourth tick.
pub fn counter(seed: u64, ticks: usize) -> Solved {
    const WIDTH: u32 = 32;
    let rng = &mut Rng::new(seed);
    let mut draft = Draft::default();
    let mut count = draft.variable(WIDTH, rng.word() & 7, 7);
    let (zero, ten) = (draft.builder.constant(WIDTH, 0), draft.builder.constant(WIDTH, 10));
    let above = draft.builder.constant(WIDTH - 1, 0);
    for tick in 1..=ticks {
        let enable = draft.variable(1, rng.word() & 1, 1);
        let b = &mut draft.builder;
        let step = b.node(Kind::Concat, &[above, enable]);
        let sum = b.node(Kind::Add, &[count, step]);
        let full = b.node(Kind::Eq, &[sum, ten]);
        count = b.node(Kind::If, &[full, zero, sum]);
        if tick % 4 == 0 || tick == ticks {
            let value = draft.value(count);
            draft.builder.root_equals(count, value);
        }
    }
    draft.finish()
}

/// 1,024 nodes of which so many, from 3 on, are above a variable x, spread evenly over all ids; the others are over a second
/// variable. The roots ask for x = 1 and for x = 2, so that every move sets x, in one step, and no run says *model*.
pub fn spread(above: usize) -> Problem {
    const KINDS: [Kind; 6] = [Kind::Add, Kind::Xor, Kind::Mul, Kind::And, Kind::Shl, Kind::Lshr];
    let mut b = Builder::new();
    let variables = [b.variable(32, Pair::free(32)), b.variable(32, Pair::free(32))];
    let targets = [b.constant(32, 1), b.constant(32, 2)];
    // Beside the roots' two nodes.
    let (between, of_x) = (MOST_NODES - b.len() - 2, above - 3);
    let mut last = variables;
    for at in 0..between {
        let side = usize::from(at * of_x % between >= of_x);
        last[side] = b.node(KINDS[at % KINDS.len()], &[last[side], variables[side]]);
    }
    for target in targets {
        let equal = b.node(Kind::Eq, &[variables[0], target]);
        b.root(equal);
    }
    b.problem
}

/// A problem of the family of random ones with a solution: every kind and width.
pub fn mixed(seed: u64, size: usize) -> Solved {
    solved::solved(&mut Rng::new(seed), size)
}

/// A start at random for a family's problem.
pub fn start(seed: u64, solved: &Solved) -> Vec<u64> {
    solved::values(&mut Rng::new(seed), &solved.problem)
}

#[cfg(test)]
mod tests {
    use super::*;
    use model::problem::read;

    #[test]
    fn so_many_are_above_the_variable() {
        for above in [3, 4, 64, 511, 1000, 1020] {
            let problem = spread(above);
            assert_eq!(read(&problem.bytes()).as_ref(), Ok(&problem));
            assert_eq!((problem.nodes.len(), problem.above(0)), (MOST_NODES, above as u64));
        }
    }

    #[test]
    fn every_family_is_accepted_and_solved() {
        let sized = |size| {
            let of_all = [frame(1, 8 * size), products(2, size, 32), mixed(4, 8 * size)];
            of_all.into_iter().chain([laps(5, 4 * size), counter(6, 4 * size), frames(1, size, 8)])
        };
        let deep = [16, 64, 256, 1024].map(|size| deep(3, size));
        for solved in [1, 4].into_iter().flat_map(sized).chain(deep) {
            assert_eq!(read(&solved.problem.bytes()).as_ref(), Ok(&solved.problem));
            assert!(solved.problem.roots.iter().all(|&root| solved.solution[root as usize] == 1));
        }
    }
}
