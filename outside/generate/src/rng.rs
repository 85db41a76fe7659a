//! Numbers from a seed (splitmix64): the same on every machine.

use model::{ones, Pair};

#[derive(Clone, Debug)]
pub struct Rng {
    state: u64,
}

impl Rng {
    pub fn new(seed: u64) -> Rng {
        Rng { state: seed }
    }

    /// The words of a seed, one a call.
    pub fn words(seed: u64) -> impl FnMut() -> u64 {
        let mut rng = Rng::new(seed);
        move || rng.word()
    }

    /// A generator of its own for case number `index` under a seed, so that each case can be made again alone.
    pub fn of_case(seed: u64, index: u64) -> Rng {
        let mut rng = Rng::new(seed);
        let start = rng.word() ^ index.wrapping_mul(0xd1b5_4a32_d192_ed03);
        Rng::new(start)
    }

    /// Any 64-bit word.
    pub fn word(&mut self) -> u64 {
        self.state = self.state.wrapping_add(0x9e37_79b9_7f4a_7c15);
        let mut z = self.state;
        z = (z ^ z >> 30).wrapping_mul(0xbf58_476d_1ce4_e5b9);
        z = (z ^ z >> 27).wrapping_mul(0x94d0_49bb_1331_11eb);
        z ^ z >> 31
    }

    /// A number from 0 to `count` - 1.
    pub fn below(&mut self, count: usize) -> usize {
        assert!(count > 0);
        (self.word() % count as u64) as usize
    }

    /// A number from `from` to `to`, both included.
    pub fn between(&mut self, from: usize, to: usize) -> usize {
        from + self.below(to - from + 1)
    }

    /// True in `percent` of a hundred calls.
    pub fn chance(&mut self, percent: usize) -> bool {
        self.below(100) < percent
    }

    pub fn one_of<T: Copy>(&mut self, list: &[T]) -> T {
        list[self.below(list.len())]
    }

    /// A value of `width` bits; often one at which operators turn: near 0 or the top, with few bits
    /// set, with zeros at an end, about as large as the width.
    pub fn value(&mut self, width: u32) -> u64 {
        let any = self.word();
        let shift = self.below(64) as u32;
        let value = match self.below(10) {
            0 => any % 4,
            1 => u64::MAX - any % 4,
            2 => 1 << shift,
            3 => any << shift,
            4 => (any & ones(width)) >> shift,
            5 => any % (u64::from(width) + 2),
            6 => ones(shift),
            _ => any,
        };
        value & ones(width)
    }

    /// A ternary word of `width` bits: often all free, sometimes all fixed.
    pub fn pair(&mut self, width: u32) -> Pair {
        let value = self.value(width);
        let open = match self.below(10) {
            0..=3 => u64::MAX,
            4 => 0,
            5 => self.word() & self.word(),
            6 => self.word() | self.word(),
            7 => self.value(width),
            _ => self.word(),
        };
        let open = open & ones(width);
        Pair { lo: value & !open, hi: value | open }
    }

    /// A value that agrees with a pair.
    pub fn member(&mut self, pair: Pair) -> u64 {
        let wish = self.value(64);
        pair.lo | wish & pair.hi
    }
}

#[cfg(test)]
mod tests {
    use super::*;

    #[test]
    fn pairs_are_ternary_and_members_agree() {
        let mut rng = Rng::new(1);
        for _ in 0..10_000 {
            let width = rng.between(1, 64) as u32;
            let pair = rng.pair(width);
            assert!(pair.is_ternary(width));
            assert!(pair.agrees(rng.member(pair)));
            assert!(rng.value(width) <= ones(width));
        }
    }
}
