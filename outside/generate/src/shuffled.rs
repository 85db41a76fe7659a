//! Problem files whose nodes stand in any order, as the mender takes them: well formed, with a fault for each of its
//! refusals, with two faults at once, and with lent places that are long enough or too short.

use crate::rng::Rng;
use crate::{damage, random};
use model::problem::{Problem, HEADER, NODE};
use model::Kind;

#[derive(Clone, Debug)]
pub struct Shuffled {
    pub problem: Vec<u8>,
    /// How many bytes and how many rows are lent.
    pub room: usize,
    pub rows: usize,
}

/// The mender's refusals, in the order of checking.
pub const FAULTS: [u8; 17] = [1, 2, 3, 4, 5, 6, 7, 8, 20, 21, 22, 10, 11, 12, 13, 16, 25];

/// File number `index` under a seed.
pub fn shuffled(seed: u64, index: u64) -> Shuffled {
    let rng = &mut Rng::of_case(seed, index);
    let size = random::size(rng);
    let problem = random::problem(rng, size);
    let faults = match rng.below(10) {
        0..=2 => 0,
        3..=8 => 1,
        _ => 2,
    };
    let mut aims: Vec<u8> = (0..faults).map(|_| rng.one_of(&FAULTS)).collect();
    // The problem's own fault first, since it is made in bytes that are in order.
    aims.sort_by_key(|aim| matches!(aim, 21 | 22 | 25));
    let mut bytes = problem.bytes();
    if let Some(&own) = aims.first().filter(|aim| !matches!(aim, 21 | 22 | 25)) {
        bytes = damage::damaged(rng, &problem, own);
    } else if rng.chance(5) {
        bytes = damage::scrambled(rng, &problem);
    }
    if let Some(nodes) = count(&bytes) {
        let order = order(rng, nodes);
        bytes = moved(&bytes, &order);
        if aims.contains(&21) {
            lead_astray(rng, nodes, &mut bytes);
        }
        if aims.contains(&22) {
            close_circle(rng, nodes, &mut bytes);
        }
    }
    let (mut room, mut rows) = (bytes.len() + rng.below(4), size + rng.below(4));
    if aims.contains(&25) {
        let (bytes, nodes) = (bytes.len(), problem.nodes.len());
        match rng.below(3) {
            0 => room = rng.below(bytes.max(1)),
            1 if nodes > 0 => rows = rng.below(nodes),
            _ => (room, rows) = (bytes.saturating_sub(1), nodes.saturating_sub(1)),
        }
    }
    Shuffled { problem: bytes, room, rows }
}

/// A problem with its nodes in another order, by the seed.
pub fn turned(seed: u64, problem: &Problem) -> Vec<u8> {
    let order = any_order(&mut Rng::new(seed), problem.nodes.len());
    moved(&problem.bytes(), &order)
}

/// A problem with its nodes from the last to the first.
pub fn reversed(problem: &Problem) -> Vec<u8> {
    let order: Vec<usize> = (0..problem.nodes.len()).rev().collect();
    moved(&problem.bytes(), &order)
}

/// How many nodes the bytes have, if their length is that of their header.
fn count(bytes: &[u8]) -> Option<usize> {
    let number = |at: usize| usize::from(u16::from_le_bytes([bytes[at], bytes[at + 1]]));
    (bytes.len() >= HEADER && bytes.len() == HEADER + NODE * number(5) + 2 * number(7)).then(|| number(5))
}

/// Where each node goes: left in place, from the end, a few exchanged, or anywhere.
fn order(rng: &mut Rng, nodes: usize) -> Vec<usize> {
    let mut order: Vec<usize> = (0..nodes).collect();
    match rng.below(10) {
        0 => {}
        1 => order.reverse(),
        2 | 3 => {
            for _ in 0..rng.between(1, 3).min(nodes) {
                order.swap(rng.below(nodes), rng.below(nodes));
            }
        }
        _ => order = any_order(rng, nodes),
    }
    order
}

fn any_order(rng: &mut Rng, nodes: usize) -> Vec<usize> {
    let mut order: Vec<usize> = (0..nodes).collect();
    for at in (1..nodes).rev() {
        order.swap(at, rng.below(at + 1));
    }
    order
}

/// The bytes with node i at place `order[i]`, and with operands and roots that name nodes following them.
fn moved(bytes: &[u8], order: &[usize]) -> Vec<u8> {
    let mut moved = bytes.to_vec();
    for (old, &new) in order.iter().enumerate() {
        let (from, to) = (HEADER + NODE * old, HEADER + NODE * new);
        moved[to..to + NODE].copy_from_slice(&bytes[from..from + NODE]);
        for position in 0..operands(bytes[from]) {
            follow(&mut moved, to + 2 + 2 * position, order);
        }
    }
    for at in (HEADER + NODE * order.len()..bytes.len()).step_by(2) {
        follow(&mut moved, at, order);
    }
    moved
}

fn operands(kind: u8) -> usize {
    Kind::from_number(kind).map_or(0, Kind::operands)
}

/// An id, if a node has it, becomes that of the node's new place.
fn follow(bytes: &mut [u8], at: usize, order: &[usize]) {
    let id = usize::from(u16::from_le_bytes([bytes[at], bytes[at + 1]]));
    if let Some(&new) = order.get(id) {
        bytes[at..at + 2].copy_from_slice(&(new as u16).to_le_bytes());
    }
}

/// Where the fields of all operands stand, by the node and the position.
fn operand_fields(nodes: usize, bytes: &[u8]) -> Vec<(usize, usize)> {
    let of = |id: usize| {
        let at = HEADER + NODE * id;
        (0..operands(bytes[at])).map(move |position| (id, at + 2 + 2 * position))
    };
    (0..nodes).flat_map(of).collect()
}

/// An operand that no node is, the first such id or any.
fn lead_astray(rng: &mut Rng, nodes: usize, bytes: &mut [u8]) {
    let fields = operand_fields(nodes, bytes);
    if !fields.is_empty() {
        let (_, at) = rng.one_of(&fields);
        let id = if rng.chance(40) { nodes } else { rng.between(nodes, 65_535) };
        bytes[at..at + 2].copy_from_slice(&(id as u16).to_le_bytes());
    }
}

/// An operand that reads its reader: the node itself, one that reads it, or any.
fn close_circle(rng: &mut Rng, nodes: usize, bytes: &mut [u8]) {
    let fields = operand_fields(nodes, bytes);
    if fields.is_empty() {
        return;
    }
    let (id, at) = rng.one_of(&fields);
    let named = |at: usize| usize::from(u16::from_le_bytes([bytes[at], bytes[at + 1]]));
    let readers: Vec<usize> =
        fields.iter().filter(|&&(_, field)| named(field) == id).map(|&(reader, _)| reader).collect();
    let back = match rng.below(4) {
        0 => id,
        1 | 2 if !readers.is_empty() => rng.one_of(&readers),
        _ => rng.below(nodes),
    };
    bytes[at..at + 2].copy_from_slice(&(back as u16).to_le_bytes());
}
