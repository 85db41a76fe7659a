//! A guided run: a start, and moves each of which is the best of some walks; all words written down.

use crate::advice::Shares;
use crate::chance::Chance;
use crate::linear;
use crate::nodes::Ready;
use crate::state::State;
use crate::walk::{Drawing, Walk};

/// How a run is guided.
#[derive(Clone, Copy, Debug)]
pub struct Manner {
    pub drawing: Drawing,
    /// How moves are chosen; runs take these in turn.
    pub choices: [Choice; 4],
    /// Of a thousand moves that bring nothing, how many make unmet goals count more.
    pub stress: u32,
    /// The most moves of a run.
    pub budget: u16,
    /// Start from the least values, not from any.
    pub least: bool,
    /// First take the goals for linear equations.
    pub linear: bool,
}

/// How a move is chosen.
#[derive(Clone, Copy, Debug)]
pub struct Choice {
    /// Walks tried for a move.
    pub walks: u32,
    /// Of a thousand moves, how many make the first walk that changes anything, whatever it brings.
    pub noise: u32,
}

impl Manner {
    pub const USUAL: Manner = Manner {
        drawing: Drawing {
            inverse: 930,
            quotient: 500,
            branch: 200,
            choosy: 900,
            proposals: Shares { nearest: 600, current: 250, one_bit: 100 },
        },
        choices: [
            Choice { walks: 4, noise: 50 },
            Choice { walks: 10, noise: 50 },
            Choice { walks: 2, noise: 300 },
            Choice { walks: 24, noise: 50 },
        ],
        stress: 600,
        budget: 2000,
        least: false,
        linear: true,
    };
}

/// What a run leaves behind.
#[derive(Clone, Debug, Default)]
pub struct Run {
    pub start: Vec<u64>,
    pub tape: Vec<u64>,
    pub values: Vec<u64>,
    pub model: bool,
    pub moves: u64,
    pub steps: u64,
    /// Walks tried.
    pub tried: u64,
    /// The fewest roots that were not 1.
    pub fewest: usize,
    /// Whether a model was known from linear equations, and the moves lead there.
    pub led: bool,
}

/// Run number `number` under a seed, which `stop` can end early.
pub fn run(ready: &Ready, manner: &Manner, seed: u64, number: u64, stop: &dyn Fn() -> bool) -> Run {
    let chance = &mut Chance::of_run(seed, number);
    let choice = manner.choices[(number % 4) as usize];
    let start = start(ready, chance, manner.least);
    let mut state = State::new(ready, &start);
    let mut run = Run { start, fewest: usize::MAX, ..Run::default() };
    let model = if manner.linear { linear::model(&mut state, chance) } else { None };
    run.led = model.is_some();
    let mut walks = Walks::default();
    loop {
        let open: Vec<u16> =
            ready.roots.iter().copied().filter(|&root| state.values[usize::from(root)] != 1).collect();
        run.fewest = run.fewest.min(open.len());
        run.model = open.is_empty();
        if run.model || run.moves == u64::from(manner.budget) || run.moves % 16 == 15 && stop() {
            break;
        }
        match &model {
            Some(model) => walks.best.lead(ready, &state.values, model, (0, open[0])),
            None => run.tried += walks.choose(&mut state, chance, (manner, choice), &open),
        }
        run.make(&walks.best, &mut state);
    }
    state.evaluate();
    run.values = state.values;
    run
}

impl Run {
    /// Makes a move, and writes its words down.
    fn make(&mut self, walk: &Walk, state: &mut State) {
        self.tape.push(walk.root);
        self.tape.extend(&walk.words);
        self.moves += 1;
        self.steps += walk.words.len() as u64 / 2;
        if let Some((variable, value)) = walk.end {
            state.set(variable, value);
        }
    }
}

/// The walks of a move.
#[derive(Default)]
struct Walks {
    walk: Walk,
    /// The best so far.
    best: Walk,
    /// Changes of a variable that were tried for this move, and the cost after each.
    known: Vec<((u16, u64), u64)>,
}

impl Walks {
    /// Leaves the best of some walks, or by noise the first that brings a change; and makes what is unmet count more where it
    /// brings nothing. Gives how many were tried.
    fn choose(
        &mut self,
        state: &mut State,
        chance: &mut Chance,
        (manner, choice): (&Manner, Choice),
        open: &[u16],
    ) -> u64 {
        let walks = if chance.happens(choice.noise) { 0 } else { choice.walks };
        let (mut least, mut tried) = (u64::MAX, 0);
        self.known.clear();
        loop {
            let chosen = chance.below(open.len() as u32);
            let root = (chosen.into(), open[chosen as usize]);
            self.walk.draw(state.ready, &state.values, chance, &manner.drawing, root);
            let cost = self.cost(state);
            if tried == 0 || cost < least {
                least = cost;
                std::mem::swap(&mut self.walk, &mut self.best);
            }
            tried += 1;
            if tried >= u64::from(walks) && (walks > 0 || least < IDLE || tried == ENOUGH) || least == 0 {
                break;
            }
        }
        if least >= state.cost && chance.happens(manner.stress) {
            state.stress();
        }
        tried
    }

    /// The cost after the walk.
    fn cost(&mut self, state: &mut State) -> u64 {
        let Some(change) = self.walk.end else {
            return BLOCKED;
        };
        if state.values[usize::from(change.0)] == change.1 {
            return IDLE;
        }
        if let Some(&(_, cost)) = self.known.iter().find(|(known, _)| *known == change) {
            return cost;
        }
        let cost = state.tried(change.0, change.1);
        self.known.push((change, cost));
        cost
    }
}

/// What a walk costs that changes nothing, and one that is blocked.
const IDLE: u64 = u64::MAX - 1;
const BLOCKED: u64 = u64::MAX;
/// So many walks without a change, and the move is made without one.
const ENOUGH: u64 = 20;

/// A word for each node: for a variable a value that agrees, 0 elsewhere.
fn start(ready: &Ready, chance: &mut Chance, least: bool) -> Vec<u64> {
    let mut start = vec![0; ready.nodes.len()];
    for &variable in &ready.variables {
        let at = usize::from(variable);
        let free = if least { 0 } else { chance.word() };
        start[at] = ready.lo[at] | free & ready.hi[at];
    }
    start
}
