//! One walk from an unsatisfied root down to a variable, and the words of the tape that make it.
//!
//! It is the move of the rules, step by step; only that e and p are chosen here, where the run reads them.

use crate::advice::{clamped, proposal, quotient, root, Shares};
use crate::chance::Chance;
use crate::nodes::{mask, Ready};
use plain::kind::*;
use plain::layout::operands;
use plain::picking::{essential, pick_consistent, pick_inverse, Spot};

/// How walks are drawn, in shares of a thousand.
#[derive(Clone, Copy, Debug)]
pub struct Drawing {
    /// Words e that ask for the inverse set.
    pub inverse: u32,
    /// Steps through a product that ask for the consistent set, with a quotient for the proposal.
    pub quotient: u32,
    /// Steps to an `if` that propose its other branch's value, from the consistent set.
    pub branch: u32,
    /// Steps that pass by an operand without an inverse value where another has one.
    pub choosy: u32,
    pub proposals: Shares,
}

/// A walk's words after the first, two for each step, and where it ends.
#[derive(Clone, Debug, Default)]
pub struct Walk {
    /// The root's number among those that are not 1, in file order.
    pub root: u64,
    pub words: Vec<u64>,
    /// The variable and the value that it takes; none where the walk is blocked.
    pub end: Option<(u16, u64)>,
}

impl Walk {
    /// Walks from a root. Drawn anew into the memory of the walk before.
    pub fn draw(
        &mut self,
        ready: &Ready,
        values: &[u64],
        chance: &mut Chance,
        drawing: &Drawing,
        root: (u64, u16),
    ) {
        self.words.clear();
        let (mut id, mut target) = (root.1, 1);
        self.root = root.0;
        loop {
            if ready.nodes[usize::from(id)].kind == VARIABLE {
                self.end = Some((id, target));
                return;
            }
            let Some((operand, value)) = self.step(ready, values, chance, drawing, id, target) else {
                self.end = None;
                return;
            };
            (id, target) = (operand, value);
        }
    }

    /// Walks from a root towards a model, as demand 3 says: each step goes to an operand that differs from the model, and
    /// proposes its value there.
    pub fn lead(&mut self, ready: &Ready, values: &[u64], model: &[u64], root: (u64, u16)) {
        self.words.clear();
        self.root = root.0;
        let mut id = root.1;
        while ready.nodes[usize::from(id)].kind != VARIABLE {
            let (spot, operands) =
                (spot(ready, values, usize::from(id)), ready.nodes[usize::from(id)].operands);
            let candidates = candidates(&spot, model[usize::from(id)]);
            let differs = |&at: &u32| {
                let position = nth(candidates, at);
                spot.now[position] != model[usize::from(operands[position])]
            };
            let chosen = (0..candidates.count_ones()).find(differs).expect("some candidate differs");
            id = operands[nth(candidates, chosen)];
            self.words.extend([2 * u64::from(chosen) + 1, model[usize::from(id)]]);
        }
        self.end = Some((id, model[usize::from(id)]));
    }

    fn step(
        &mut self,
        ready: &Ready,
        values: &[u64],
        chance: &mut Chance,
        drawing: &Drawing,
        id: u16,
        target: u64,
    ) -> Option<(u16, u64)> {
        if ready.nodes[usize::from(id)].kind == NOT {
            return self.turned(ready, id, target);
        }
        let spot = spot(ready, values, usize::from(id));
        let candidates = candidates(&spot, target);
        if candidates == 0 {
            self.words.extend([0, 0]);
            return None;
        }
        let chosen = choose(chance, drawing, &spot, target, candidates);
        let position = nth(candidates, chosen);
        let operand = ready.nodes[usize::from(id)].operands[position];
        let special = special(ready, values, chance, drawing, (id, &spot), position, target);
        let from_inverse = special.is_none() && chance.happens(drawing.inverse);
        let p = special
            .unwrap_or_else(|| proposal(chance, drawing.proposals, &spot, position, target, from_inverse));
        let p = p & mask(spot.widths[position]);
        self.words.extend([2 * u64::from(chosen) + u64::from(!from_inverse), p]);
        let inverse = if from_inverse { pick_inverse(&spot, position, target, p) } else { None };
        let value = inverse.or_else(|| pick_consistent(&spot, position, target, p))?;
        Some((operand, value))
    }

    /// A step through a `not`, which needs no choice.
    #[inline]
    fn turned(&mut self, ready: &Ready, id: u16, target: u64) -> Option<(u16, u64)> {
        self.words.extend([0, 0]);
        let node = &ready.nodes[usize::from(id)];
        let (operand, value) = (usize::from(node.operands[0]), !target & node.mask);
        let (lo, hi) = (ready.lo[operand], ready.hi[operand]);
        (lo != hi && lo & !value == 0 && value & !hi == 0).then_some((node.operands[0], value))
    }
}

/// A proposal for the consistent set where exact inverse values lead nowhere: of a factor a quotient or a root, of a sum that
/// cannot be met the nearest end, of an `if` the value that it would have with the other branch.
#[inline]
fn special(
    ready: &Ready,
    values: &[u64],
    chance: &mut Chance,
    drawing: &Drawing,
    (id, spot): (u16, &Spot),
    position: usize,
    target: u64,
) -> Option<u64> {
    let operands = ready.nodes[usize::from(id)].operands;
    if spot.kind == MUL && chance.happens(drawing.quotient) {
        let is_square = ready.narrow(operands[0]) == ready.narrow(operands[1]);
        return Some(if is_square { root(chance, target) } else { quotient(chance, spot, position, target) });
    }
    let end = if spot.kind == ADD { clamped(spot, position, target) } else { None };
    if end.is_some() {
        return end;
    }
    let node = &ready.nodes[usize::from(operands[position])];
    if node.kind == IF && chance.happens(drawing.branch) {
        let [condition, first, second] = node.operands.map(|id| values[usize::from(id)]);
        return Some([first, second][condition as usize]).filter(|&other| other != spot.now[position]);
    }
    None
}

/// The positions that may be followed, as bits.
#[inline]
fn candidates(spot: &Spot, target: u64) -> u8 {
    let (mut essentials, mut open) = (0u8, 0u8);
    if operands(spot.kind) == 1 {
        return u8::from(spot.lo[0] != spot.hi[0]);
    }
    for position in 0..operands(spot.kind) {
        essentials |= u8::from(essential(spot, position, target)) << position;
        open |= u8::from(spot.lo[position] != spot.hi[position]) << position;
    }
    if essentials != 0 {
        essentials & open
    } else {
        open
    }
}

/// The number of a candidate. Of an `if` mostly one that has an inverse value, if there is one. Of two operands both have
/// one or neither, wherever both are candidates: one that has none makes the other essential.
#[inline]
fn choose(chance: &mut Chance, drawing: &Drawing, spot: &Spot, target: u64, candidates: u8) -> u32 {
    let count = candidates.count_ones();
    if count == 1 {
        return 0;
    }
    let first = chance.below(count);
    if spot.kind != IF || !chance.happens(drawing.choosy) {
        return first;
    }
    let has_inverse = |&at: &u32| pick_inverse(spot, nth(candidates, at), target, 0).is_some();
    (0..count).map(|more| (first + more) % count).find(has_inverse).unwrap_or(first)
}

/// The position of a candidate.
#[inline]
fn nth(candidates: u8, chosen: u32) -> usize {
    let mut left = candidates;
    for _ in 0..chosen {
        left &= left - 1;
    }
    left.trailing_zeros() as usize
}

/// A node taken out of its problem.
#[inline]
fn spot(ready: &Ready, values: &[u64], id: usize) -> Spot {
    let node = &ready.nodes[id];
    let mut spot = Spot { kind: node.kind, width: node.width.into(), ..Spot::default() };
    if node.kind == EXTRACT {
        spot.low = node.by.into();
    }
    for position in 0..operands(node.kind) {
        let operand = usize::from(node.operands[position]);
        spot.widths[position] = ready.nodes[operand].width.into();
        spot.lo[position] = ready.lo[operand];
        spot.hi[position] = ready.hi[operand];
        spot.now[position] = values[operand];
    }
    spot
}
