//! Numbers from a seed (splitmix64): the same on every machine.

#[derive(Clone, Debug)]
pub struct Chance {
    state: u64,
}

impl Chance {
    /// The numbers of run number `run` under a seed: each run can be made again alone.
    pub fn of_run(seed: u64, run: u64) -> Chance {
        let mut chance = Chance { state: seed };
        let mixed = chance.word() ^ run.wrapping_mul(0xd1b5_4a32_d192_ed03);
        Chance { state: mixed }
    }

    /// Any word.
    #[inline]
    pub fn word(&mut self) -> u64 {
        self.state = self.state.wrapping_add(0x9e37_79b9_7f4a_7c15);
        let mut z = self.state;
        z = (z ^ z >> 30).wrapping_mul(0xbf58_476d_1ce4_e5b9);
        z = (z ^ z >> 27).wrapping_mul(0x94d0_49bb_1331_11eb);
        z ^ z >> 31
    }

    /// A number below `count`.
    #[inline]
    pub fn below(&mut self, count: u32) -> u32 {
        ((self.word() >> 32) * u64::from(count) >> 32) as u32
    }

    /// True in `share` of a thousand calls.
    #[inline]
    pub fn happens(&mut self, share: u32) -> bool {
        self.below(1000) < share
    }

    /// A number from `least` to `most`.
    #[inline]
    pub fn between(&mut self, least: u64, most: u64) -> u64 {
        match (most - least).checked_add(1) {
            Some(count) => least + self.word() % count,
            None => self.word(),
        }
    }
}
