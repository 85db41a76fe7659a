//! The words of a run, drawn as the run asks for them.
//!
//! Which word of a tape serves as an e depends on the run, so a tape with a given share of words e
//! that ask for the inverse set, which are the even ones, can only be made along with the run.

use model::run::{Search, Words};
use model::Answer;

/// How proposals are drawn.
#[derive(Clone, Copy, Debug, PartialEq, Eq)]
pub enum Proposals {
    /// Any word, each as likely as the others. Where the high bits of an operand are fixed at 0 nearly all
    /// of these are above its members, and the pick goes round to the least.
    Uniform,
    /// Such a word, shifted right by 0 to 63: small ones are as likely as great ones.
    Shifted,
}

/// How the words of a tape are drawn.
#[derive(Clone, Copy, Debug)]
pub struct Manner {
    /// Of a hundred words e, how many are even.
    pub inverse: u64,
    pub proposals: Proposals,
}

impl Manner {
    /// What finds models soon over the benchmark's families, and makes the consistent choice, too.
    pub const USUAL: Manner = Manner { inverse: 95, proposals: Proposals::Shifted };

    /// The words e and p of a step, by three words of chance in either manner.
    pub fn step(self, chance: &mut impl FnMut() -> u64) -> [u64; 2] {
        let [choice, e, p] = [(); 3].map(|()| chance());
        let consistent = u64::from(choice % 100 >= self.inverse);
        let shift = match self.proposals {
            Proposals::Uniform => 0,
            Proposals::Shifted => choice >> 58,
        };
        [e & !1 | consistent, p >> shift]
    }
}

/// Words by chance; at most `most` in all.
pub struct Drawn<Chance> {
    chance: Chance,
    manner: Manner,
    most: usize,
    pub words: Vec<u64>,
}

impl<Chance: FnMut() -> u64> Drawn<Chance> {
    pub fn new(chance: Chance, manner: Manner, most: usize) -> Self {
        Drawn { chance, manner, most, words: Vec::new() }
    }

    fn serve<const COUNT: usize>(&mut self, words: [u64; COUNT]) -> Option<[u64; COUNT]> {
        if self.words.len() + COUNT > self.most {
            return None;
        }
        self.words.extend(words);
        Some(words)
    }
}

impl<Chance: FnMut() -> u64> Words for Drawn<Chance> {
    fn root(&mut self) -> Option<u64> {
        let word = (self.chance)();
        self.serve([word]).map(|[word]| word)
    }

    fn step(&mut self) -> Option<[u64; 2]> {
        let words = self.manner.step(&mut self.chance);
        self.serve(words)
    }
}

/// The tape of a run from a start, and the run's answer. A tape that ends in an unfinished move
/// holds that move's words, too.
pub fn drawn<Chance: FnMut() -> u64>(
    search: &Search,
    start: &[u64],
    budget: u16,
    mut words: Drawn<Chance>,
) -> (Vec<u64>, Answer) {
    let mut values = start.to_vec();
    let answer = search.run(&mut values, &mut words, budget, &mut |_| {});
    (words.words, answer)
}

#[cfg(test)]
mod tests {
    use super::*;

    /// Of words of 64 bits every length is about as likely as any other.
    #[test]
    fn shifted_proposals_are_of_all_lengths() {
        let mut lengths = [0; 65];
        let mut chance = Rng::words(1);
        for _ in 0..64_000 {
            let [_, p] = Manner::USUAL.step(&mut chance);
            lengths[64 - p.leading_zeros() as usize] += 1;
        }
        assert!(lengths[..60].iter().all(|count| (800..1200).contains(count)), "{lengths:?}");
    }

    use crate::families::{products, start};
    use crate::Rng;

    #[test]
    fn a_drawn_tape_brings_the_same_answer() {
        let solved = products(1, 4, 16);
        let bytes = solved.problem.bytes();
        for seed in 0..50 {
            let values = start(seed, &solved);
            let search = Search::accept(&bytes, &values).expect("a start that agrees");
            let proposals = if seed % 2 == 0 { Proposals::Uniform } else { Proposals::Shifted };
            let words = Drawn::new(Rng::words(seed), Manner { inverse: 80, proposals }, 1000);
            let (tape, answer) = drawn(&search, &values, 100, words);
            assert_eq!(model::run(&bytes, &mut values.clone(), &tape, 100), answer);
        }
    }
}
