//! Starts and tapes by chance: what `tape` writes.

use crate::fault::Fault;
use crate::files::tapes::Tapes;
use crate::problem::Accepted;
use crate::progress;
use generate::tape::{drawn, Drawn, Manner, Proposals};
use model::run::Search;
use model::{Kind, Node};
use rand_chacha::rand_core::{RngCore, SeedableRng};
use rand_chacha::ChaCha8Rng;
use std::path::Path;
use std::sync::atomic::{AtomicU64, Ordering};

/// How starts and tapes are drawn.
#[derive(clap::Args)]
pub struct Draw {
    /// The same seed draws the same
    #[arg(long, default_value_t = 1)]
    seed: u64,
    /// The most moves
    #[arg(long, default_value_t = BUDGET)]
    pub budget: u16,
    /// Of a hundred words e, how many ask for the inverse set, that is, are even
    #[arg(long, default_value_t = Manner::USUAL.inverse as u8, value_name = "PERCENT", value_parser = clap::value_parser!(u8).range(0..=100))]
    inverse: u8,
    /// Draw proposals from all words alike, not small ones as often as great ones
    #[arg(long)]
    uniform: bool,
    /// Start each variable at the least value that agrees, not at one by chance
    #[arg(long)]
    least: bool,
}

/// The most moves where none are asked for.
pub const BUDGET: u16 = 1000;

impl Draw {
    /// The chance that a seed gives.
    pub fn chance(&self) -> ChaCha8Rng {
        ChaCha8Rng::seed_from_u64(self.seed)
    }

    /// A word for each node: for a variable a value that agrees, 0 elsewhere.
    pub fn start(&self, problem: &Accepted, chance: &mut ChaCha8Rng) -> Vec<u64> {
        let word = |node: &Node| match node.kind {
            Kind::Variable if self.least => node.pair.lo,
            Kind::Variable => node.pair.lo | chance.next_u64() & node.pair.open(),
            _ => 0,
        };
        problem.problem.nodes.iter().map(word).collect()
    }

    /// A start, and the words that a run from there asks for, at most so many.
    pub fn start_and_words(
        &self,
        problem: &Accepted,
        chance: &mut ChaCha8Rng,
        most: usize,
    ) -> Result<(Vec<u64>, Vec<u64>), String> {
        let start = self.start(problem, chance);
        let search = search(problem, &start)?;
        let proposals = if self.uniform { Proposals::Uniform } else { Proposals::Shifted };
        let manner = Manner { inverse: self.inverse.into(), proposals };
        let (words, _) = drawn(&search, &start, self.budget, Drawn::new(|| chance.next_u64(), manner, most));
        Ok((start, words))
    }

    /// So many starts, one after the other, and for each the words that a run from it asks for, at most so many.
    pub fn many(&self, problem: &Accepted, count: u16, most: usize) -> Result<(Vec<u64>, Tapes), String> {
        let (mut chance, drawn) = (self.chance(), AtomicU64::new(0));
        let (mut starts, mut tapes) = (Vec::new(), Tapes::default());
        progress::shown(progress::count(&drawn, count.into(), "starts drawn"), || {
            for _ in 0..count {
                let (start, words) = self.start_and_words(problem, &mut chance, most)?;
                starts.extend(start);
                tapes.push(&words, self.budget);
                drawn.fetch_add(1, Ordering::Relaxed);
            }
            Ok((starts, tapes))
        })
    }
}

/// The outside's own search from a start, by which tapes are made.
pub fn search(problem: &Accepted, start: &[u64]) -> Result<Search, String> {
    Search::accept(&problem.bytes, start)
        .map_err(|refusal| format!("the model refuses it: {} at {}", refusal.number, refusal.place))
}

/// How many words serve every run of a problem from a file with the budget, from whatever start.
pub fn need(path: &Path, problem: &Accepted, budget: u16) -> Result<u64, Fault> {
    let need = walumpeh::need(&problem.bytes, budget).map_err(|refusal| Fault::at(path, refusal))?;
    Ok(need.words)
}
