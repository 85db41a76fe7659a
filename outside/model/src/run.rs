//! A run: refusals 14 and 15, the verdicts, moves, steps, words and nodes evaluated.

use crate::operator::Kind;
use crate::problem::{read, Problem, Refusal};
use crate::word::Pair;
use crate::{exact, pairs, Set, Spot};

/// The verdicts, in the order in which the exported library numbers them from 0.
#[derive(Clone, Copy, Debug, PartialEq, Eq)]
pub enum Verdict {
    Model,
    Spent,
    Ended,
    Closed,
}

impl Verdict {
    pub const ALL: [Verdict; 4] = [Verdict::Model, Verdict::Spent, Verdict::Ended, Verdict::Closed];

    /// The name that `tvrun` prints.
    pub fn name(self) -> &'static str {
        match self {
            Verdict::Model => "model",
            Verdict::Spent => "spent",
            Verdict::Ended => "ended",
            Verdict::Closed => "closed",
        }
    }
}

#[derive(Clone, Copy, Debug, PartialEq, Eq)]
pub enum Outcome {
    Refused(Refusal),
    Settled(Verdict),
}

/// "The answer record holds its counts beside one of: a refusal with its number and place, or a verdict."
#[derive(Clone, Copy, Debug, PartialEq, Eq)]
pub struct Answer {
    pub moves: u64,
    pub steps: u64,
    pub words: u64,
    /// "N at the beginning, and for every finished move that sets a variable the number of nodes reachable upward from it,
    /// itself included. Blocked moves and refusals add 0."
    pub evaluated: u64,
    pub outcome: Outcome,
}

impl Answer {
    /// A refusal "has all counts 0".
    pub fn refused(refusal: Refusal) -> Answer {
        Answer { moves: 0, steps: 0, words: 0, evaluated: 0, outcome: Outcome::Refused(refusal) }
    }
}

/// The whole run. The values are changed exactly if the outcome is a verdict, and then in the first
/// N places alone.
pub fn run(bytes: &[u8], values: &mut [u64], tape: &[u64], budget: u16) -> Answer {
    run_seen(bytes, values, tape, budget, &mut |_| {})
}

/// The same, with each step shown as it is made: those of a move that the tape cuts off, too.
pub fn run_seen(
    bytes: &[u8],
    values: &mut [u64],
    tape: &[u64],
    budget: u16,
    see: &mut dyn FnMut(Step),
) -> Answer {
    match Search::accept(bytes, values) {
        Err(refusal) => Answer::refused(refusal),
        Ok(search) => search.run(values, &mut Tape { words: tape }, budget, see),
    }
}

/// A step: the node's kind and, unless the move is blocked there, the position followed and the set
/// that its value was picked from.
#[derive(Clone, Copy, Debug, PartialEq, Eq)]
pub struct Step {
    pub kind: Kind,
    pub followed: Option<(usize, Set)>,
}

/// An accepted problem with its nodes' pairs.
pub struct Search {
    pub problem: Problem,
    pub pairs: Vec<Pair>,
}

/// Where a run's words come from, draw by draw; none where a draw cannot be served whole.
pub trait Words {
    /// The word that chooses a root.
    fn root(&mut self) -> Option<u64>;
    /// The words e and p of a step.
    fn step(&mut self) -> Option<[u64; 2]>;
}

/// The words of a tape that are left.
struct Tape<'a> {
    words: &'a [u64],
}

impl Tape<'_> {
    fn draw<const COUNT: usize>(&mut self) -> Option<[u64; COUNT]> {
        let (drawn, left) = self.words.split_first_chunk()?;
        self.words = left;
        Some(*drawn)
    }
}

impl Words for Tape<'_> {
    fn root(&mut self) -> Option<u64> {
        self.draw().map(|[word]| word)
    }

    fn step(&mut self) -> Option<[u64; 2]> {
        self.draw()
    }
}

/// How a finished move ends: with a variable and the value it takes, or blocked.
struct Move {
    steps: u64,
    change: Option<(usize, u64)>,
}

impl Search {
    /// Refusals 1 to 15, in order.
    pub fn accept(bytes: &[u8], values: &[u64]) -> Result<Search, Refusal> {
        let problem = read(bytes)?;
        if values.len() < problem.nodes.len() {
            return Err(Refusal { number: 14, place: 0 });
        }
        let misfit = problem.variables().find(|&id| !problem.nodes[id].pair.agrees(values[id]));
        match misfit {
            Some(place) => Err(Refusal { number: 15, place }),
            None => Ok(Search { pairs: pairs::pairs(&problem), problem }),
        }
    }

    /// The run after acceptance, with words from anywhere.
    pub fn run(
        &self,
        values: &mut [u64],
        words: &mut dyn Words,
        budget: u16,
        see: &mut dyn FnMut(Step),
    ) -> Answer {
        let (evaluated, outcome) = (self.problem.nodes.len() as u64, Outcome::Settled(Verdict::Closed));
        let mut answer = Answer { moves: 0, steps: 0, words: 0, evaluated, outcome };
        self.problem.evaluate(values);
        if self.problem.roots.iter().any(|&root| self.pairs[root as usize] == Pair::fixed(0)) {
            return answer;
        }
        let verdict = loop {
            if self.unsatisfied(values).is_empty() {
                break Verdict::Model;
            }
            if answer.moves == u64::from(budget) {
                break Verdict::Spent;
            }
            let Some(done) = self.make_move(values, words, see) else {
                break Verdict::Ended;
            };
            if let Some((variable, value)) = done.change {
                values[variable] = value;
                self.problem.evaluate(values);
                answer.evaluated += self.problem.above(variable);
            }
            answer.moves += 1;
            answer.steps += done.steps;
            answer.words += 1 + 2 * done.steps;
        };
        answer.outcome = Outcome::Settled(verdict);
        answer
    }

    /// The root entries whose node is not 1, in file order.
    pub fn unsatisfied(&self, values: &[u64]) -> Vec<usize> {
        self.problem.roots.iter().map(|&root| root as usize).filter(|&root| values[root] != 1).collect()
    }

    /// One move; none where a draw cannot be served.
    fn make_move(&self, values: &[u64], words: &mut dyn Words, see: &mut dyn FnMut(Step)) -> Option<Move> {
        let word = words.root()?;
        let roots = self.unsatisfied(values);
        let mut node = roots[(word % roots.len() as u64) as usize];
        let mut target = 1;
        let mut steps = 0;
        while self.problem.nodes[node].kind != Kind::Variable {
            let [e, p] = words.step()?;
            steps += 1;
            let kind = self.problem.nodes[node].kind;
            let Some((position, set, value)) = self.step(values, node, target, e, p) else {
                see(Step { kind, followed: None });
                return Some(Move { steps, change: None });
            };
            see(Step { kind, followed: Some((position, set)) });
            node = self.problem.nodes[node].operands()[position] as usize;
            target = value;
        }
        Some(Move { steps, change: Some((node, target)) })
    }

    /// One step from a node with its target: the position followed, and the set and value picked for
    /// it; none where the move is blocked.
    fn step(&self, values: &[u64], node: usize, target: u64, e: u64, p: u64) -> Option<(usize, Set, u64)> {
        let spot = self.spot(values, node);
        let candidates = self.candidates(&spot, target);
        if candidates.is_empty() {
            return None;
        }
        let position = candidates[(e / 2 % candidates.len() as u64) as usize];
        let pick = |set| exact::pick(&spot, set, position, target, p).map(|value| (position, set, value));
        let inverse = if e.is_multiple_of(2) { pick(Set::Inverse) } else { None };
        inverse.or_else(|| pick(Set::Consistent))
    }

    /// A node taken out of the problem.
    pub fn spot(&self, values: &[u64], node: usize) -> Spot {
        Spot {
            operator: self.problem.operator(node),
            pairs: self.problem.at_operands(node, &self.pairs),
            values: self.problem.at_operands(node, values),
        }
    }

    /// "Candidates are the essential positions if there are any, else all; then those whose operand
    /// is fully fixed are dropped."
    pub fn candidates(&self, spot: &Spot, target: u64) -> Vec<usize> {
        let all: Vec<usize> = (0..spot.operator.kind.operands()).collect();
        let essential: Vec<usize> =
            all.iter().copied().filter(|&at| exact::essential(spot, at, target)).collect();
        let mut candidates = if essential.is_empty() { all } else { essential };
        candidates.retain(|&at| !spot.pairs[at].is_fixed());
        candidates
    }
}
