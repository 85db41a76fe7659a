//! A problem as text.
//!
//! | module  | what it does                                                          |
//! |---------|-----------------------------------------------------------------------|
//! | `form`  | a problem from text, one line a node                                  |
//! | `sugar` | the names that stand for several nodes of it                          |
//! | `shown` | a problem's bytes as that text, with the refused place marked         |
//! | `dot`   | a problem as a picture for Graphviz                                   |
//! | `smt2`  | a problem as SMT-LIB text                                             |
//!
//! Nothing here decides whether bytes are a problem: that is the proved library's to say.

pub mod dot;
pub mod form;
pub mod shown;
pub mod smt2;
pub mod sugar;

use model::{Kind, Problem};

/// The worked example: x · 6 = 2 on 4 bits.
pub fn worked_example() -> Problem {
    let mut b = generate::Builder::new();
    let x = b.variable(4, model::Pair::free(4));
    let six = b.constant(4, 6);
    let product = b.node(Kind::Mul, &[x, six]);
    b.root_equals(product, 2);
    b.problem
}
