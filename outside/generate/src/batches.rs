//! Everything that a batch is lent: up to 256 starts of one problem, some refused, some without words, with no fault, one or
//! two of those that refuse the whole call.

use crate::rng::Rng;
use crate::{damage, random, solved};
use model::batch::{Lent, MOST_STARTS};
use model::{ones, Problem};

/// What a batch is lent.
#[derive(Clone, Debug, Default)]
pub struct Batch {
    pub problem: Vec<u8>,
    pub starts: u64,
    pub values: Vec<u64>,
    pub tape: Vec<u64>,
    pub lengths: Vec<u64>,
    pub budgets: Vec<u16>,
}

impl Batch {
    pub fn lent(&self) -> Lent<'_> {
        let Batch { starts, .. } = *self;
        Lent {
            problem: &self.problem,
            starts,
            tape: &self.tape,
            lengths: &self.lengths,
            budgets: &self.budgets,
        }
    }

    /// The sum of the lengths.
    pub fn words(&self) -> u128 {
        self.lengths.iter().map(|&length| u128::from(length)).sum()
    }
}

/// The refusals of a whole call after the problem's own.
pub const FAULTS: [u8; 3] = [17, 18, 19];

/// Batch number `index` under a seed.
pub fn batch(seed: u64, index: u64) -> Batch {
    let rng = &mut Rng::of_case(seed, index);
    let problem = problem(rng);
    let mut batch = whole(rng, &problem);
    let faults = match rng.below(10) {
        0..=5 => 0,
        6..=8 => 1,
        _ => 2,
    };
    for _ in 0..faults {
        spoil(rng, &problem, &mut batch);
    }
    batch
}

/// A problem with a solution or without; few nodes mostly, as many starts go over each.
fn problem(rng: &mut Rng) -> Problem {
    let size = match rng.below(100) {
        0 => rng.between(200, 900),
        1..=20 => rng.between(20, 60),
        _ => rng.between(0, 20),
    };
    match rng.chance(50) {
        true => random::problem(rng, size),
        false => solved::solved(rng, size.max(1)).problem,
    }
}

/// A batch that is not refused as a whole; of its starts some are.
fn whole(rng: &mut Rng, problem: &Problem) -> Batch {
    let starts = match rng.below(100) {
        0..=2 => 0,
        3 => MOST_STARTS as usize,
        4..=6 => rng.between(20, 255),
        _ => rng.between(1, 12),
    };
    let misfits = rng.one_of(&[0, 0, 10, 50]);
    let mut batch = Batch { problem: problem.bytes(), starts: starts as u64, ..Batch::default() };
    for _ in 0..starts {
        let mut values = solved::values(rng, problem);
        if rng.chance(misfits) {
            misfit(rng, problem, &mut values);
        }
        batch.values.extend(values);
        let length = length(rng);
        batch.tape.extend(crate::case::tape(rng, length));
        batch.lengths.push(length as u64);
        batch.budgets.push(budget(rng));
    }
    if rng.chance(40) {
        let spare = rng.between(1, 30);
        batch.values.extend((0..spare).map(|_| rng.word()));
    }
    if rng.chance(40) {
        let spare = rng.between(1, 30);
        batch.tape.extend((0..spare).map(|_| rng.word()));
    }
    batch
}

/// Makes a variable's start disagree with its pair, where one can.
fn misfit(rng: &mut Rng, problem: &Problem, values: &mut [u64]) {
    let shut = |id: usize| !problem.nodes[id].pair.open() | !ones(problem.nodes[id].width);
    let variables: Vec<usize> = problem.variables().filter(|&id| shut(id) != 0).collect();
    if !variables.is_empty() {
        let id = rng.one_of(&variables);
        let shut = shut(id);
        let bits: Vec<u32> = (0..64).filter(|bit| shut >> bit & 1 == 1).collect();
        values[id] ^= 1 << rng.one_of(&bits);
    }
}

fn length(rng: &mut Rng) -> usize {
    match rng.below(10) {
        0 | 1 => 0,
        2 => rng.between(1, 5),
        3 => rng.between(80, 200),
        _ => rng.between(5, 80),
    }
}

fn budget(rng: &mut Rng) -> u16 {
    match rng.below(10) {
        0 => 0,
        1 => u16::MAX,
        2..=5 => rng.between(1, 4) as u16,
        _ => rng.between(1, 40) as u16,
    }
}

/// One fault more.
fn spoil(rng: &mut Rng, problem: &Problem, batch: &mut Batch) {
    let number = match rng.below(10) {
        0..=2 => rng.one_of(&damage::FAULTS),
        3..=5 => 17,
        6 | 7 => 18,
        _ => 19,
    };
    match number {
        17 => spoil_lists(rng, batch),
        18 => spoil_lengths(rng, batch),
        19 => {
            // Of nodes or starts there may be none; then no number of places is too few.
            let due = batch.starts.min(MOST_STARTS) as usize * problem.nodes.len();
            batch.values.truncate(match rng.chance(50) {
                true => due.saturating_sub(1),
                false => rng.below(due.max(1)),
            });
        }
        number => batch.problem = damage::damaged(rng, problem, number),
    }
}

/// Too many starts, or lists that are not one a start.
fn spoil_lists(rng: &mut Rng, batch: &mut Batch) {
    let count = batch.starts as usize;
    match rng.below(6) {
        0 => {
            let many = rng.one_of(&[257, 257, 300, 512]);
            batch.lengths.resize(many, 0);
            batch.budgets.resize(many, 1);
            batch.starts = many as u64;
        }
        1 => batch.lengths.truncate(rng.below(count.max(1))),
        2 => batch.budgets.truncate(rng.below(count.max(1))),
        3 => batch.lengths.push(0),
        4 => batch.budgets.push(1),
        _ => batch.starts += rng.between(1, 3) as u64,
    }
}

/// Lengths whose sum exceeds the tape, by little, by much, or by a multiple of 2^64 and little else.
fn spoil_lengths(rng: &mut Rng, batch: &mut Batch) {
    if batch.lengths.is_empty() {
        return;
    }
    let at = rng.below(batch.lengths.len());
    match rng.below(5) {
        0 => batch.lengths[at] = u64::MAX,
        1 => batch.lengths[at] = rng.word(),
        2 if batch.lengths.len() > 1 => {
            // As a sum that is reduced modulo 2^64 the tape would be long enough.
            let other = (at + 1) % batch.lengths.len();
            let half = 1 << 63;
            batch.lengths[at] = half;
            batch.lengths[other] = half + rng.below(3) as u64;
        }
        _ => {
            let spare = (batch.tape.len() as u128).saturating_sub(batch.words()) as u64;
            batch.lengths[at] = batch.lengths[at].saturating_add(spare + rng.between(1, 3) as u64);
        }
    }
}
