//! An unproved guide. It looks for a model by the moves of the rules, and writes down as a tape the words that make
//! them. Nothing that it does can make a wrong model: the proved run gets problem, start and tape, makes the moves, and
//! says the verdict.
//!
//! | module   | what it holds                                                                   |
//! |----------|---------------------------------------------------------------------------------|
//! | `nodes`  | a problem made ready: nodes, fixed bits, what is above each variable            |
//! | `values` | what a node has for its value                                                   |
//! | `goals`  | roots taken apart into what has to hold, and how far values are from it         |
//! | `state`  | values, and what a change would do to them                                      |
//! | `advice` | proposals that keep what other roots have reached                               |
//! | `walk`   | one walk from a root to a variable, and its words                               |
//! | `search` | a run: of some walks the best is made, again and again                          |
//! | `solve`  | runs one after the other, on several threads                                    |
//! | `linear` | goals as linear equations over bits, solved by elimination                     |
//! | `many`   | a number of runs, whatever each finds                                           |
//! | `chance` | numbers from a seed                                                             |

pub mod advice;
pub mod chance;
pub mod goals;
pub mod linear;
pub mod many;
pub mod nodes;
pub mod search;
pub mod solve;
pub mod state;
pub mod values;
pub mod walk;

pub use nodes::Ready;
pub use search::{Manner, Run};
