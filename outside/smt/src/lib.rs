//! Holds the proved library against z3, and reads what z3 and cvc5 answer.
//!
//! | module      | what is compared                                                           |
//! |-------------|----------------------------------------------------------------------------|
//! | `solver`    | one run of a solver over a text, and its answers                           |
//! | `terms`     | every node's value in a run of budget 0, with z3's value of the same term  |
//! | `sugar`     | the text form's names for several nodes, with SMT-LIB's operators          |
//! | `models`    | models that the search finds: z3 must call them solutions                  |
//! | `unsolved`  | problems that z3 calls unsatisfiable: no run may bring *model*; and closed  |
//! |             | ones, which z3 must call unsatisfiable                                     |
//! | `answers`   | z3's and cvc5's own models: the library must say yes, and of changed ones  |
//! |             | what z3 says                                                               |
//!
//! A difference is an `Err` with a text that shows it.

pub mod answers;
pub mod models;
pub mod solver;
pub mod sugar;
pub mod terms;
pub mod unsolved;

use walumpeh::{Answer, Refusal, Verdict};

/// The verdict of a run that must not be refused.
fn verdict(answer: Result<Answer, Refusal>) -> Result<Verdict, String> {
    answer.map(|answer| answer.verdict).map_err(|refusal| refusal.to_string())
}
