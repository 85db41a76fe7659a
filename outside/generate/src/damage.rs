//! Faults in a problem's bytes, at least one way for each of the problem's refusals.

use crate::rng::Rng;
use model::problem::{Problem, HEADER, NODE};
use model::{ones, Kind};

/// The refusals that a problem's bytes can meet, in the order of checking.
pub const FAULTS: [u8; 15] = [1, 2, 3, 4, 5, 6, 7, 8, 20, 9, 10, 11, 12, 13, 16];

/// The bytes of a well-formed problem with one fault of the sort that refusal `number` names, at
/// any place; unchanged where the problem offers no place for it.
pub fn damaged(rng: &mut Rng, problem: &Problem, number: u8) -> Vec<u8> {
    let mut bytes = problem.bytes();
    match number {
        1 => bytes.truncate(rng.below(HEADER)),
        2 => bytes[rng.below(3)] ^= 1 << rng.below(8),
        3 => bytes[3 + rng.below(2)] ^= 1 << rng.below(8),
        4 => put16(&mut bytes, 5, rng.between(1025, 65_535)),
        5 => put16(&mut bytes, 7, rng.between(257, 65_535)),
        6 => spoil_length(rng, &mut bytes),
        7..=12 | 20 => spoil_node(rng, problem, number, &mut bytes),
        13 => spoil_root(rng, problem, &mut bytes),
        16 => repeat_root(rng, problem, &mut bytes),
        _ => panic!("no fault of refusal {number} in a problem's bytes"),
    }
    bytes
}

/// A few bytes changed, anywhere.
pub fn scrambled(rng: &mut Rng, problem: &Problem) -> Vec<u8> {
    let mut bytes = problem.bytes();
    for _ in 0..rng.between(1, 4) {
        let at = if rng.chance(30) { rng.below(HEADER) } else { rng.below(bytes.len()) };
        bytes[at] = if rng.chance(50) { rng.below(256) as u8 } else { bytes[at] ^ 1 << rng.below(8) };
    }
    bytes
}

fn put16(bytes: &mut [u8], at: usize, number: usize) {
    bytes[at..at + 2].copy_from_slice(&(number as u16).to_le_bytes());
}

fn put64(bytes: &mut [u8], at: usize, number: u64) {
    bytes[at..at + 8].copy_from_slice(&number.to_le_bytes());
}

fn spoil_length(rng: &mut Rng, bytes: &mut Vec<u8>) {
    match rng.below(4) {
        0 => {
            // Once in a while by 2^16, which a length of 16 bits would not see.
            let more = if rng.chance(5) { 65_536 } else { rng.between(1, 30) };
            bytes.resize(bytes.len() + more, 0);
        }
        1 if bytes.len() > HEADER => bytes.truncate(rng.between(HEADER, bytes.len() - 1)),
        2 => put16(bytes, 5, rng.between(0, 1024)),
        _ => put16(bytes, 7, rng.between(0, 256)),
    }
}

fn spoil_node(rng: &mut Rng, problem: &Problem, number: u8, bytes: &mut [u8]) {
    if problem.nodes.is_empty() {
        return;
    }
    let id = rng.below(problem.nodes.len());
    let node = &problem.nodes[id];
    let inner = node.kind.operands() > 0;
    let at = HEADER + NODE * id;
    let field = |position: usize| at + 2 + 2 * position;
    let (lo, hi) = (at + 8, at + 16);
    match number {
        7 => bytes[at] = rng.between(Kind::COUNT, 255) as u8,
        8 => bytes[at + 1] = if rng.chance(40) { 0 } else { rng.between(65, 255) as u8 },
        9 => {
            let kind = if inner { node.kind } else { rng.one_of(&Kind::ALL[2..]) };
            bytes[at] = kind.number();
            let bad = if rng.chance(50) { id } else { rng.between(id, 65_535) };
            put16(bytes, field(rng.below(kind.operands())), bad);
        }
        10 => {
            let unused: Vec<usize> = (node.kind.fields()..3).collect();
            if !unused.is_empty() && (!inner || rng.chance(50)) {
                put16(bytes, field(rng.one_of(&unused)), 1 << rng.below(16));
            } else if inner {
                put64(bytes, if rng.chance(50) { lo } else { hi }, 1 << rng.below(64));
            }
        }
        20 => {
            bytes[at] = Kind::Div.number();
            bytes[at + 1] = rng.between(17, 64) as u8;
        }
        11 if !inner && id > 0 => {
            bytes[at..at + NODE].fill(0);
            bytes[at] = rng.one_of(&[Kind::Concat, Kind::Eq, Kind::Add]).number();
            bytes[at + 1] = node.width as u8;
            put16(bytes, field(0), rng.below(id));
            put16(bytes, field(1), rng.below(id));
        }
        11 if node.kind == Kind::Extract && rng.chance(50) => {
            let least = (problem.operator(id).widths[0] - node.width + 1) as usize;
            put16(bytes, field(1), if rng.chance(50) { least } else { rng.between(least, 65_535) });
        }
        11 if inner && rng.chance(50) => put16(bytes, field(rng.below(node.kind.operands())), rng.below(id)),
        11 => bytes[at + 1] = rng.between(1, 64) as u8,
        _ if inner => {
            bytes[at..at + NODE].fill(0);
            bytes[at + 1] = node.width as u8;
            put64(bytes, lo, 1 << rng.below(64));
        }
        _ if node.kind == Kind::Constant && rng.chance(50) => put64(bytes, lo, rng.value(node.width)),
        _ if node.width < 64 && rng.chance(50) => {
            put64(bytes, hi, node.pair.hi | rng.word() & !ones(node.width))
        }
        _ => put64(bytes, hi, node.pair.hi & rng.word()),
    }
}

fn spoil_root(rng: &mut Rng, problem: &Problem, bytes: &mut [u8]) {
    if problem.roots.is_empty() {
        return;
    }
    let count = problem.nodes.len();
    let wide: Vec<usize> = (0..count).filter(|&id| problem.nodes[id].width != 1).collect();
    let bad = match rng.below(3) {
        0 => count,
        1 if !wide.is_empty() => rng.one_of(&wide),
        _ => rng.between(count, 65_535),
    };
    put16(bytes, HEADER + NODE * count + 2 * rng.below(problem.roots.len()), bad);
}

/// A root's id once more at any later position, next to it or not.
fn repeat_root(rng: &mut Rng, problem: &Problem, bytes: &mut [u8]) {
    if problem.roots.len() < 2 {
        return;
    }
    let later = rng.between(1, problem.roots.len() - 1);
    let id = problem.roots[rng.below(later)];
    put16(bytes, HEADER + NODE * problem.nodes.len() + 2 * later, id.into());
}

#[cfg(test)]
mod tests {
    use super::*;
    use crate::random;
    use model::problem::read;

    #[test]
    fn every_refusal_is_reached_at_many_places() {
        let mut places = vec![std::collections::BTreeSet::new(); 21];
        for index in 0..20_000 {
            let mut rng = Rng::of_case(3, index);
            let problem = random::problem(&mut rng, 30);
            let number = FAULTS[index as usize % FAULTS.len()];
            if let Err(refusal) = read(&damaged(&mut rng, &problem, number)) {
                places[refusal.number as usize].insert(refusal.place);
            }
        }
        for number in FAULTS {
            let count = places[usize::from(number)].len();
            let enough = match number {
                1..=6 => 1,
                11 => 29, // the first node has no operands to be of another width
                13 | 16 => 4,
                _ => 30,
            };
            assert!(count >= enough, "refusal {number} at {count} places");
        }
    }
}
