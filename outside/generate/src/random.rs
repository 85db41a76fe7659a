//! Well-formed problems over every kind and width.

use crate::builder::Builder;
use crate::rng::Rng;
use model::problem::{MOST_NODES, MOST_ROOTS};
use model::{Kind, Problem};

/// Which widths a problem's nodes mostly have.
#[derive(Clone, Copy, Debug)]
pub enum Widths {
    Narrow,
    Wide,
    Any,
    Just(u32),
}

impl Widths {
    fn any(rng: &mut Rng) -> Widths {
        match rng.below(10) {
            0..=3 => Widths::Narrow,
            4 | 5 => Widths::Wide,
            6 | 7 => Widths::Any,
            _ => Widths::Just(rng.one_of(&[1, 2, 3, 4, 8, 16, 31, 32, 33, 48, 63, 64])),
        }
    }

    fn draw(self, rng: &mut Rng) -> u32 {
        match self {
            Widths::Narrow => rng.between(1, 4) as u32,
            Widths::Wide => rng.between(33, 64) as u32,
            Widths::Any => rng.between(1, 64) as u32,
            Widths::Just(width) => width,
        }
    }
}

/// A count of nodes: mostly few, now and then very many.
pub fn size(rng: &mut Rng) -> usize {
    match rng.below(400) {
        0 => MOST_NODES,
        1 => rng.between(0, MOST_NODES),
        2..=40 => rng.between(40, 160),
        41..=44 => 0,
        _ => rng.between(1, 40),
    }
}

/// A problem of about `size` nodes (at least as many where `size` is under 1,000), with some roots.
pub fn problem(rng: &mut Rng, size: usize) -> Problem {
    let mut builder = nodes(rng, size);
    roots(rng, &mut builder);
    builder.problem
}

/// Nodes alone, without roots, of every kind: exactly `size` of them.
pub fn nodes(rng: &mut Rng, size: usize) -> Builder {
    nodes_of(rng, size, &Kind::ALL)
}

/// The same of some kinds alone, and of variables and constants as their operands.
pub fn nodes_of(rng: &mut Rng, size: usize, kinds: &[Kind]) -> Builder {
    let widths = Widths::any(rng);
    let mut builder = Builder::new();
    while builder.len() < size {
        // A node with its new operands is four at most.
        if builder.len() + 4 > size {
            let width = widths.draw(rng);
            leaf(rng, &mut builder, width);
        } else {
            let kind = rng.one_of(kinds);
            node(rng, &mut builder, kind, widths);
        }
    }
    builder
}

/// A variable or constant of a width.
fn leaf(rng: &mut Rng, builder: &mut Builder, width: u32) -> u16 {
    if rng.chance(75) {
        let pair = rng.pair(width);
        builder.variable(width, pair)
    } else {
        let value = rng.value(width);
        builder.constant(width, value)
    }
}

/// A node of a width to serve as operand: one that is there, late ones preferred, or a new leaf.
fn operand(rng: &mut Rng, builder: &mut Builder, width: u32) -> u16 {
    let fitting: Vec<u16> = (0..builder.len() as u16).filter(|&id| builder.width(id) == width).collect();
    if fitting.is_empty() || rng.chance(15) {
        return leaf(rng, builder, width);
    }
    let late = fitting.len() - 1 - rng.below(fitting.len().min(6));
    if rng.chance(50) {
        fitting[late]
    } else {
        rng.one_of(&fitting)
    }
}

/// A node of a kind, with new leaves for operands that are not there.
fn node(rng: &mut Rng, builder: &mut Builder, kind: Kind, widths: Widths) -> u16 {
    let width = widths.draw(rng).min(kind.widest());
    match kind {
        Kind::Variable | Kind::Constant => leaf(rng, builder, width),
        Kind::If => {
            let condition = operand(rng, builder, 1);
            let then = operand(rng, builder, width);
            let otherwise = operand(rng, builder, width);
            builder.node(kind, &[condition, then, otherwise])
        }
        Kind::Concat => {
            let total = width.max(2);
            let low = rng.between(1, total as usize - 1) as u32;
            let high = operand(rng, builder, total - low);
            let low = operand(rng, builder, low);
            builder.node(kind, &[high, low])
        }
        Kind::Extract => {
            let from = operand(rng, builder, width);
            let low = rng.below(width as usize) as u32;
            let taken = rng.between(1, (width - low) as usize) as u32;
            builder.extract(from, low, taken)
        }
        Kind::SignExtend => {
            let total = width.max(2);
            let from = rng.between(1, total as usize - 1) as u32;
            let from = operand(rng, builder, from);
            builder.sign_extend(from, total)
        }
        _ => {
            let operands: Vec<u16> = (0..kind.operands()).map(|_| operand(rng, builder, width)).collect();
            builder.node(kind, &operands)
        }
    }
}

/// Roots among the nodes of one bit: mostly few, late ones preferred, none twice.
fn roots(rng: &mut Rng, builder: &mut Builder) {
    let fitting: Vec<u16> = (0..builder.len() as u16).filter(|&id| builder.width(id) == 1).collect();
    if fitting.is_empty() {
        return;
    }
    let count = match rng.below(200) {
        0 => MOST_ROOTS,
        1 => rng.between(0, MOST_ROOTS),
        2..=9 => 0,
        _ => rng.between(1, 12),
    };
    let open_only = rng.chance(80);
    let pairs = model::pairs::pairs(&builder.problem);
    let preferred: Vec<u16> =
        fitting.iter().copied().filter(|&id| !open_only || pairs[id as usize].hi == 1).collect();
    let mut left = if preferred.is_empty() { fitting } else { preferred };
    for _ in 0..count.min(left.len()) {
        let late = left.len() - 1 - rng.below(left.len().min(4));
        let at = if rng.chance(50) { late } else { rng.below(left.len()) };
        builder.root(left.remove(at));
    }
}

#[cfg(test)]
mod tests {
    use super::*;
    use model::problem::read;

    #[test]
    fn problems_are_accepted_and_have_every_kind_and_width() {
        let mut kinds = [0; Kind::COUNT];
        let mut widths = [0; 65];
        for index in 0..3000 {
            let mut rng = Rng::of_case(1, index);
            let size = size(&mut rng);
            let problem = problem(&mut rng, size);
            assert_eq!(problem.nodes.len(), size);
            assert_eq!(read(&problem.bytes()).as_ref(), Ok(&problem));
            for node in &problem.nodes {
                kinds[node.kind.number() as usize] += 1;
                widths[node.width as usize] += 1;
            }
        }
        assert!(kinds.iter().all(|&count| count > 100), "{kinds:?}");
        assert!(widths[1..].iter().all(|&count| count > 50), "{widths:?}");
    }
}
