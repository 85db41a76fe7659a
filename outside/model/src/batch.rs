//! Many starts of one problem: refusals 17 to 19 of the whole call, and a run for each start.

use crate::problem::{read, Problem, Refusal};
use crate::run::{run, Answer};

/// The most starts of one call.
pub const MOST_STARTS: u64 = 256;

/// What is lent beside the values: "one problem and up to 256 starts, each with its own N places in turn, its own stretch of
/// one lent tape given by a length, and its own budget".
#[derive(Clone, Copy, Debug)]
pub struct Lent<'a> {
    pub problem: &'a [u8],
    pub starts: u64,
    pub tape: &'a [u64],
    pub lengths: &'a [u64],
    pub budgets: &'a [u16],
}

impl Lent<'_> {
    /// The problem, where nothing refuses the whole call that is lent so many places: "1 to 13 and 16 as before, then 17 for
    /// more than 256 starts or a list of lengths or budgets that is not one a start, 18 for tape lengths whose sum exceeds the
    /// tape, 19 for fewer places than starts x N".
    pub fn accept(&self, places: usize) -> Result<Problem, Refusal> {
        let problem = read(self.problem)?;
        let refuse = |number| Err(Refusal { number, place: 0 });
        let one_a_start = |entries: usize| entries as u64 == self.starts;
        if self.starts > MOST_STARTS || !one_a_start(self.lengths.len()) || !one_a_start(self.budgets.len()) {
            return refuse(17);
        }
        // A sum of numbers: 256 of them stay far below 2^128.
        let words: u128 = self.lengths.iter().map(|&length| u128::from(length)).sum();
        if words > self.tape.len() as u128 {
            return refuse(18);
        }
        if places < self.starts as usize * problem.nodes.len() {
            return refuse(19);
        }
        Ok(problem)
    }
}

/// "Answers and values equal those of single runs, one after the other": each start's answer, a refusal 15 among them, or the
/// refusal of the whole call, which leaves all values as they were.
pub fn batch(lent: Lent, values: &mut [u64]) -> Result<Vec<Answer>, Refusal> {
    let nodes = lent.accept(values.len())?.nodes.len();
    let (mut places, mut tape) = (values, lent.tape);
    let mut answers = Vec::new();
    for (&length, &budget) in lent.lengths.iter().zip(lent.budgets) {
        let (own, rest) = places.split_at_mut(nodes);
        let (stretch, further) = tape.split_at(length as usize);
        answers.push(run(lent.problem, own, stretch, budget));
        (places, tape) = (rest, further);
    }
    Ok(answers)
}
