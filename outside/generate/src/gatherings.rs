//! Everything that a gathering is lent: a batch, names, and places to keep in; with models enough to fill the room, repeats
//! before and after it is full, and faults of every sort.

use crate::batches::{batch, Batch};
use crate::rng::Rng;
use crate::{damage, random, solved};
use model::batch::MOST_STARTS;
use model::frames::{MOST_KEPT, MOST_NAMES};
use model::problem::read;
use model::{ones, Kind, Pair, Problem};

/// What a gathering is lent.
#[derive(Clone, Debug)]
pub struct Gathering {
    pub batch: Batch,
    pub names: Vec<u16>,
    pub places: Vec<u64>,
}

/// Gathering number `index` under a seed.
pub fn gathering(seed: u64, index: u64) -> Gathering {
    let rng = &mut Rng::of_case(seed.rotate_left(16), index);
    let batch = match rng.below(20) {
        0..=11 => batch(seed, index),
        12..=17 => near_solutions(rng),
        _ => filling(rng),
    };
    let problem = read(&batch.problem).unwrap_or_default();
    let names = names(rng, &problem);
    let spare = if rng.chance(30) { rng.between(1, 20) } else { 0 };
    let places = (0..MOST_KEPT * problem.nodes.len() + spare).map(|_| rng.word()).collect();
    let mut gathering = Gathering { batch, names, places };
    let faults = match rng.below(20) {
        0..=13 => 0,
        14..=18 => 1,
        _ => 2,
    };
    for _ in 0..faults {
        spoil(rng, &problem, &mut gathering);
    }
    gathering
}

/// Up to 8 variables, each once, in any order; fewer where there are no more.
fn names(rng: &mut Rng, problem: &Problem) -> Vec<u16> {
    let mut variables: Vec<u16> = problem.variables().map(|id| id as u16).collect();
    let count = if rng.chance(50) { 1 } else { rng.between(1, MOST_NAMES) };
    let mut names = Vec::new();
    while names.len() < count && !variables.is_empty() {
        names.push(variables.swap_remove(rng.below(variables.len())));
    }
    names
}

/// Starts at a solution, or away from it in few variables, with few moves to get back.
fn near_solutions(rng: &mut Rng) -> Batch {
    let size = rng.between(1, 20);
    let solved = solved::solved(rng, size);
    let starts = rng.between(1, 30);
    let mut batch = Batch { problem: solved.problem.bytes(), starts: starts as u64, ..Batch::default() };
    for _ in 0..starts {
        let mut values = solved::start(rng, &solved);
        if rng.chance(50) {
            values.copy_from_slice(&solved.solution);
        }
        push(rng, &mut batch, &values);
    }
    batch
}

/// As many starts as there may be, or nearly, on a problem of few nodes whose roots most starts meet: models enough to fill
/// the room, with some that were there before.
fn filling(rng: &mut Rng) -> Batch {
    let size = rng.between(1, 8);
    let mut builder = random::nodes(rng, size);
    let width = rng.one_of(&[6, 7, 8, 9, 32]);
    let (x, most) = (builder.variable(width, Pair::free(width)), builder.constant(width, ones(width)));
    let below = builder.node(Kind::Below, &[x, most]);
    builder.root(below);
    let problem = builder.problem;
    let starts = if rng.chance(50) { MOST_STARTS as usize } else { rng.between(70, 255) };
    let mut batch = Batch { problem: problem.bytes(), starts: starts as u64, ..Batch::default() };
    let again = rng.one_of(&[0, 20, 60]);
    let mut before: Vec<Vec<u64>> = Vec::new();
    for _ in 0..starts {
        let values = match rng.chance(again) && !before.is_empty() {
            true => before[rng.below(before.len())].clone(),
            false => solved::values(rng, &problem),
        };
        push(rng, &mut batch, &values);
        before.push(values);
    }
    batch
}

/// One start more, with a few words and moves.
fn push(rng: &mut Rng, batch: &mut Batch, values: &[u64]) {
    let length = rng.below(30);
    batch.values.extend(values);
    batch.tape.extend(crate::case::tape(rng, length));
    batch.lengths.push(length as u64);
    batch.budgets.push(rng.below(6) as u16);
}

/// One fault more.
fn spoil(rng: &mut Rng, problem: &Problem, gathering: &mut Gathering) {
    let (nodes, names) = (problem.nodes.len(), &mut gathering.names);
    match rng.below(11) {
        0 | 1 => names.clear(),
        2 => names.resize_with(rng.between(MOST_NAMES + 1, 12), || rng.below(nodes.max(1)) as u16),
        3 if !names.is_empty() => names[0] = nodes as u16,
        4 if !names.is_empty() => {
            let at = rng.below(names.len());
            names[at] = rng.word() as u16;
        }
        5 if !names.is_empty() => {
            // Any node; most are no variable.
            let at = rng.below(names.len());
            names[at] = rng.below(nodes.max(1)) as u16;
        }
        6 if names.len() > 1 => names[1] = names[0],
        7 if !names.is_empty() && names.len() < MOST_NAMES => names.push(names[rng.below(names.len())]),
        8 => {
            let number = rng.one_of(&damage::FAULTS);
            gathering.batch.problem = damage::damaged(rng, problem, number);
        }
        9 => gathering.places.truncate((MOST_KEPT * nodes).saturating_sub(1)),
        _ => gathering.places.truncate(rng.below((MOST_KEPT * nodes).max(1))),
    }
}
