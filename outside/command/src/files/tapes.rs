//! The tape file of many starts, in 64-bit little-endian words: the mark, how many starts there are, for each the length of
//! its stretch and its budget (modulo 65536), and the tape, on which the stretches follow each other.

use crate::fault::Fault;
use crate::files::read;
use model::files::{bytes_of, words_of};
use std::io::Read;
use std::path::Path;
use walumpeh::MOST_STARTS;

/// The word that tells such a file from the tape of one run: its bytes are TBVTAPES.
const MARK: u64 = u64::from_le_bytes(*b"TBVTAPES");

/// What the file holds: a length and a budget for each start, and the tape.
#[derive(Default)]
pub struct Tapes {
    pub lengths: Vec<u64>,
    pub budgets: Vec<u16>,
    pub tape: Vec<u64>,
}

impl Tapes {
    /// Puts another start's stretch behind the others.
    pub fn push(&mut self, stretch: &[u64], budget: u16) {
        self.lengths.push(stretch.len() as u64);
        self.budgets.push(budget);
        self.tape.extend(stretch);
    }

    pub fn bytes(&self) -> Vec<u8> {
        let pairs = self.lengths.iter().zip(&self.budgets);
        let pairs = pairs.flat_map(|(&length, &budget)| [length, budget.into()]);
        let head: Vec<u64> = [MARK, self.lengths.len() as u64].into_iter().chain(pairs).collect();
        [bytes_of(&head), bytes_of(&self.tape)].concat()
    }

    /// Of more starts than there may be as many as show it, and of the tape no more than the lengths' sum.
    pub fn read(path: &Path) -> Result<Tapes, Fault> {
        let mut file = read::open(path)?;
        let mut words = |most: u64| {
            let mut bytes = Vec::new();
            match file.by_ref().take(most.saturating_mul(8)).read_to_end(&mut bytes) {
                Ok(_) => Ok(words_of(&bytes)),
                Err(fault) => Err(Fault::at(path, fault)),
            }
        };
        let starts = match words(2)?[..] {
            [MARK, starts] => starts.min(MOST_STARTS as u64 + 1),
            _ => return Err(Fault::at(path, "no tapes of many starts: walumpeh tape --starts makes them")),
        };
        let pairs = words(2 * starts)?;
        if pairs.len() as u64 != 2 * starts {
            return Err(Fault::at(path, "it ends before the lengths and budgets of all starts"));
        }
        let lengths: Vec<u64> = pairs.iter().step_by(2).copied().collect();
        let budgets = pairs.iter().skip(1).step_by(2).map(|&word| word as u16).collect();
        let most = lengths.iter().fold(0u64, |sum, &length| sum.saturating_add(length));
        Ok(Tapes { lengths, budgets, tape: words(most)? })
    }
}
