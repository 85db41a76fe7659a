//! Problems whose runs use every word that they may need: each move makes as many steps as the longest
//! chain has links, and none brings a model.

use crate::builder::Builder;
use model::problem::{MOST_NODES, MOST_ROOTS};
use model::{Kind, Pair, Problem};

/// The greatest H that a problem can have: a chain through all its nodes.
pub const HIGHEST: usize = MOST_NODES - 1;

/// A problem of that H of which every run of `budget` moves is spent, after budget × (1 + 2H) words. Without
/// chains a move satisfies a root for good, so there the budget is below the most roots.
pub fn tight(height: usize, budget: u16) -> Problem {
    let mut builder = Builder::new();
    match height {
        0 => variables(&mut builder, usize::from(budget) + 1),
        _ => chain(&mut builder, height - 1),
    }
    builder.problem
}

/// A variable for each root. The start that all are 0 leaves as many moves as there are roots.
fn variables(builder: &mut Builder, count: usize) {
    assert!(count <= MOST_ROOTS);
    for _ in 0..count {
        let bit = builder.variable(1, Pair::free(1));
        builder.root(bit);
    }
}

/// So many nots above a comparison of a bit with itself. Its two positions are taken as independent, so
/// each move goes all the way down and turns the bit; the root is 0 after it as before.
fn chain(builder: &mut Builder, nots: usize) {
    let bit = builder.variable(1, Pair::free(1));
    let compared = if nots.is_multiple_of(2) { Kind::Xor } else { Kind::Eq };
    let mut top = builder.node(compared, &[bit, bit]);
    for _ in 0..nots {
        top = builder.node(Kind::Not, &[top]);
    }
    builder.root(top);
}
