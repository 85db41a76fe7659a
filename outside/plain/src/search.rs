//! The run, and runs of one problem from many starts.

use crate::kind::*;
use crate::layout::{check, field, hi, kind, lo, operands, root, width, Node, Problem, Refusal, MOST_NODES};
use crate::mask;
use crate::picking::{essential, pick_consistent, pick_inverse, Spot};
use crate::readers::{Few, Many};
use crate::values::{evaluate, fill, Pairs};

#[derive(Clone, Copy, Debug, PartialEq, Eq)]
pub enum Verdict {
    Model,
    Spent,
    Ended,
    Closed,
}

#[derive(Clone, Copy, Debug, PartialEq, Eq)]
pub enum Outcome {
    Refused(Refusal),
    Settled(Verdict),
}

#[derive(Clone, Copy, Debug, PartialEq, Eq)]
pub struct Answer {
    pub moves: u64,
    pub steps: u64,
    pub words: u64,
    /// Nodes evaluated: all at the beginning, and those above the variable in each move that sets one.
    pub evaluated: u64,
    pub outcome: Outcome,
}

impl Answer {
    fn refused(refusal: Refusal) -> Answer {
        Answer { moves: 0, steps: 0, words: 0, evaluated: 0, outcome: Outcome::Refused(refusal) }
    }
}

/// A whole run that evaluates, after each move, what is above the variable that it set.
pub fn run(bytes: &[u8], values: &mut [u64], tape: &[u64], budget: u16) -> Answer {
    begin(bytes, values, |problem, pairs, values| {
        let nodes = problem.nodes;
        if nodes.len() <= 128 {
            let readers = Few::of(nodes);
            settle(problem, pairs, values, tape, budget, |values, v, x| readers.take(nodes, values, v, x))
        } else {
            let readers = Many::of(nodes);
            settle(problem, pairs, values, tape, budget, |values, v, x| readers.take(nodes, values, v, x))
        }
    })
}

/// A whole run that evaluates all nodes after each move: what the gain is measured by.
pub fn run_evaluating_all(bytes: &[u8], values: &mut [u64], tape: &[u64], budget: u16) -> Answer {
    begin(bytes, values, |problem, pairs, values| {
        settle(problem, pairs, values, tape, budget, |values, v, x| {
            values[v] = x;
            evaluate(problem.nodes, values);
            problem.nodes.len() as u64
        })
    })
}

/// Refuses, or evaluates all nodes, fills in their pairs and goes on.
#[inline(always)]
fn begin(
    bytes: &[u8],
    values: &mut [u64],
    go_on: impl FnOnce(Problem, &Pairs, &mut [u64]) -> Answer,
) -> Answer {
    let problem = match check(bytes) {
        Ok(problem) => problem,
        Err(refusal) => return Answer::refused(refusal),
    };
    let Some(values) = values.get_mut(..problem.nodes.len()) else {
        return Answer::refused(Refusal { number: 14, place: 0 });
    };
    if let Some(place) = misfit(problem.nodes, values) {
        return Answer::refused(Refusal { number: 15, place });
    }
    evaluate(problem.nodes, values);
    let mut pairs = Pairs { lo: [0; MOST_NODES], hi: [0; MOST_NODES] };
    fill(problem.nodes, &mut pairs);
    go_on(problem, &pairs, values)
}

/// The first variable whose start does not agree with its pair.
#[inline]
fn misfit(nodes: &[Node], values: &[u64]) -> Option<usize> {
    let misfit =
        |(node, &v): (&Node, &u64)| kind(node) == VARIABLE && (lo(node) & !v != 0 || v & !hi(node) != 0);
    nodes.iter().zip(values).position(misfit)
}

/// The most starts of a batch.
const MOST_STARTS: u64 = 256;

/// Runs of one problem from many starts; `see` is told each answer, by the start's number.
pub fn batch(
    bytes: &[u8],
    starts: u64,
    values: &mut [u64],
    tape: &[u64],
    lengths: &[u64],
    budgets: &[u16],
    mut see: impl FnMut(usize, Answer),
) -> Result<(), Refusal> {
    let problem = check(bytes)?;
    let nodes = problem.nodes;
    let refuse = |number| Err(Refusal { number, place: 0 });
    if starts > MOST_STARTS || lengths.len() as u64 != starts || budgets.len() as u64 != starts {
        return refuse(17);
    }
    let take = |left: u64, &length: &u64| left.checked_sub(length);
    if lengths.iter().try_fold(tape.len() as u64, take).is_none() {
        return refuse(18);
    }
    if values.len() < starts as usize * nodes.len() {
        return refuse(19);
    }
    let mut pairs = Pairs { lo: [0; MOST_NODES], hi: [0; MOST_NODES] };
    fill(nodes, &mut pairs);
    let starts = Starts { problem, pairs: &pairs, tape, lengths, budgets };
    if nodes.len() <= 128 {
        let readers = Few::of(nodes);
        starts.run(values, |values, v, x| readers.take(nodes, values, v, x), &mut see);
    } else {
        let readers = Many::of(nodes);
        starts.run(values, |values, v, x| readers.take(nodes, values, v, x), &mut see);
    }
    Ok(())
}

/// The starts of a batch that is not refused, without their places.
struct Starts<'a> {
    problem: Problem<'a>,
    pairs: &'a Pairs,
    tape: &'a [u64],
    lengths: &'a [u64],
    budgets: &'a [u16],
}

impl Starts<'_> {
    #[inline(always)]
    fn run(
        &self,
        values: &mut [u64],
        mut take: impl FnMut(&mut [u64], usize, u64) -> u64,
        see: &mut impl FnMut(usize, Answer),
    ) {
        let (nodes, mut tape) = (self.problem.nodes, self.tape);
        for (start, (&length, &budget)) in self.lengths.iter().zip(self.budgets).enumerate() {
            let values = &mut values[start * nodes.len()..(start + 1) * nodes.len()];
            let stretch;
            (stretch, tape) = tape.split_at(length as usize);
            let answer = match misfit(nodes, values) {
                Some(place) => Answer::refused(Refusal { number: 15, place }),
                None => {
                    evaluate(nodes, values);
                    settle(self.problem, self.pairs, values, stretch, budget, &mut take)
                }
            };
            see(start, answer);
        }
    }
}

/// The run of an accepted problem, its values evaluated and its pairs filled in. `take` gives a variable a value,
/// brings the others up to date and answers how many nodes were evaluated.
#[inline(always)]
fn settle(
    problem: Problem,
    pairs: &Pairs,
    values: &mut [u64],
    tape: &[u64],
    budget: u16,
    mut take: impl FnMut(&mut [u64], usize, u64) -> u64,
) -> Answer {
    let (mut moves, mut steps, mut read) = (0, 0, 0);
    let mut evaluated = problem.nodes.len() as u64;
    let verdict = if problem.roots.iter().any(|entry| pairs.hi[root(entry)] == 0) {
        Verdict::Closed
    } else {
        loop {
            let open = problem.roots.iter().filter(|entry| values[root(entry)] != 1).count();
            if open == 0 {
                break Verdict::Model;
            }
            if moves == u64::from(budget) {
                break Verdict::Spent;
            }
            let Some(done) = make_move(problem, pairs, values, open, &tape[read..]) else {
                break Verdict::Ended;
            };
            if let Some((variable, value)) = done.change {
                evaluated += take(values, variable, value);
            }
            moves += 1;
            steps += done.steps;
            read += 1 + 2 * done.steps as usize;
        }
    };
    Answer { moves, steps, words: read as u64, evaluated, outcome: Outcome::Settled(verdict) }
}

/// A finished move: its steps, and the variable and value that it ends with, unless blocked.
struct Move {
    steps: u64,
    change: Option<(usize, u64)>,
}

fn make_move(problem: Problem, pairs: &Pairs, values: &[u64], open: usize, tape: &[u64]) -> Option<Move> {
    let (&word, mut tape) = tape.split_first()?;
    let chosen = (word % open as u64) as usize;
    let mut unsatisfied = problem.roots.iter().map(root).filter(|&id| values[id] != 1);
    let mut id = unsatisfied.nth(chosen).expect("fewer than the unsatisfied");
    let mut target = 1;
    let mut steps = 0;
    while kind(&problem.nodes[id]) != VARIABLE {
        let (&[e, p], rest) = tape.split_first_chunk()?;
        tape = rest;
        steps += 1;
        let Some((operand, value)) = step(problem.nodes, pairs, values, id, target, e, p) else {
            return Some(Move { steps, change: None });
        };
        (id, target) = (operand, value);
    }
    Some(Move { steps, change: Some((id, target)) })
}

/// The operand followed and the value picked for it, unless the move is blocked.
fn step(
    nodes: &[Node],
    pairs: &Pairs,
    values: &[u64],
    id: usize,
    target: u64,
    e: u64,
    p: u64,
) -> Option<(usize, u64)> {
    let node = &nodes[id];
    let spot = spot(nodes, pairs, values, node);
    let count = operands(spot.kind);
    let open = (0..count).fold(0u8, |open, at| open | u8::from(spot.lo[at] != spot.hi[at]) << at);
    // Where one is open, or none, the others stand as they are: it is essential if any position is.
    let essentials = match open.count_ones() {
        0 | 1 => 0,
        _ => (0..count).fold(0u8, |set, at| set | u8::from(essential(&spot, at, target)) << at),
    };
    let candidates = if essentials != 0 { essentials & open } else { open };
    if candidates == 0 {
        return None;
    }
    let chosen = (e / 2 % u64::from(candidates.count_ones())) as usize;
    let position = (0..count).filter(|position| candidates >> position & 1 == 1).nth(chosen)?;
    let p = p & mask(spot.widths[position]);
    let inverse = if e & 1 == 0 { pick_inverse(&spot, position, target, p) } else { None };
    let value = inverse.or_else(|| pick_consistent(&spot, position, target, p))?;
    Some((field(node, position), value))
}

/// A node taken out of its problem.
fn spot(nodes: &[Node], pairs: &Pairs, values: &[u64], node: &Node) -> Spot {
    let kind = kind(node);
    let mut spot = Spot { kind, width: width(node), ..Spot::default() };
    if kind == EXTRACT {
        spot.low = field(node, 1) as u32;
    }
    for position in 0..operands(kind) {
        let operand = field(node, position);
        spot.widths[position] = width(&nodes[operand]);
        spot.lo[position] = pairs.lo[operand];
        spot.hi[position] = pairs.hi[operand];
        spot.now[position] = values[operand];
    }
    spot
}

#[cfg(test)]
mod tests {
    use super::*;
    use generate::families::{deep, frames, mixed, products, start};
    use generate::Rng;

    /// How many nodes are above a variable, itself included, by the definition.
    fn above(nodes: &[Node], variable: usize) -> u64 {
        let mut above = vec![false; nodes.len()];
        above[variable] = true;
        for (id, node) in nodes.iter().enumerate() {
            above[id] |= (0..operands(kind(node))).any(|position| above[field(node, position)]);
        }
        above.into_iter().map(u64::from).sum()
    }

    /// A run that evaluates all nodes after each move, with the count by the definition.
    fn defined(bytes: &[u8], values: &mut [u64], tape: &[u64], budget: u16) -> Answer {
        begin(bytes, values, |problem, pairs, values| {
            settle(problem, pairs, values, tape, budget, |values, v, x| {
                values[v] = x;
                evaluate(problem.nodes, values);
                above(problem.nodes, v)
            })
        })
    }

    #[test]
    fn evaluation_above_gives_what_evaluation_of_all_gives() {
        for index in 0..3000 {
            let mut rng = Rng::of_case(7, index);
            let seed = rng.word();
            let solved = match index % 10 {
                0 => frames(seed, rng.between(1, 8), rng.between(1, 16)),
                1 => products(seed, rng.between(1, 90), 32),
                2 => deep(seed, rng.between(16, 1024)),
                3 => mixed(seed, rng.between(1, 900)),
                _ => mixed(seed, rng.between(1, 60)),
            };
            let bytes = solved.problem.bytes();
            let tape: Vec<u64> = (0..rng.between(0, 3000)).map(|_| rng.word()).collect();
            let (values, budget) = (start(rng.word(), &solved), rng.between(0, 60) as u16);
            let [mut expected, mut found] = [values.clone(), values];
            let answer = defined(&bytes, &mut expected, &tape, budget);
            assert_eq!(run(&bytes, &mut found, &tape, budget), answer, "case {index}");
            assert_eq!(found, expected, "case {index}");
        }
    }
}
