//! An independent model of the search: every rule of the paper, once, as directly as it can be
//! said, with no regard for speed. The proved library is compared with it.
//!
//! | module       | what of the paper it holds                                                |
//! |--------------|---------------------------------------------------------------------------|
//! | `word`       | widths, ternary words, what "agrees" means                                |
//! | `operator`   | the table of kinds: operands, width rule, meaning                         |
//! | `problem`    | problem bytes, their refusals, evaluation, H, what is above a node        |
//! | `pairs`      | fixed bits of inner nodes                                                 |
//! | `definition` | the three sets and the pick by going through all values (small widths)    |
//! | `exact`      | the same sets and pick at every width                                     |
//! | `run`        | a run: refusals 14 and 15, verdicts and counts                            |
//! | `batch`      | many starts of one problem: refusals 17 to 19, a run for each start       |
//! | `frames`     | the frame bench: refusals 23, 24 and 26, and what is kept                 |
//! | `recipe`     | demand 3: the tape that leads from a start to a known solution            |
//! | `judged`     | another solver's model: its text, refusals 30 to 36, the first root that is 0 |
//! | `mended`     | the mender: the order, refusals 21, 22 and 25, and what it writes          |
//! | `btor2`      | BTOR2 in: a text's lines, refusals 1 to 5, the nodes they make, what they mean |
//! | `files`      | the three files of `tvrun`: what they hold and what is printed            |
//! | `calls`      | the proved library's calls, in its numbers                                |

pub mod batch;
pub mod btor2;
pub mod calls;
pub mod definition;
pub mod exact;
pub mod files;
pub mod frames;
pub mod judged;
pub mod mended;
pub mod operator;
pub mod pairs;
pub mod problem;
pub mod recipe;
pub mod run;
pub mod word;

pub use operator::{Kind, Operator};
pub use problem::{Node, Problem, Refusal};
pub use run::{run, Answer, Outcome, Verdict};
pub use word::{ones, Pair};

/// A node taken out of its problem: its operator, and the pair and current value of each operand.
/// Positions that the kind does not have hold zeros.
#[derive(Clone, Copy, Debug, PartialEq, Eq)]
pub struct Spot {
    pub operator: Operator,
    pub pairs: [Pair; 3],
    pub values: [u64; 3],
}

/// The two sets that a value is picked from.
#[derive(Clone, Copy, Debug, PartialEq, Eq)]
pub enum Set {
    Inverse,
    Consistent,
}
