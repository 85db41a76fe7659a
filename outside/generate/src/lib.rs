//! Problems, starts and tapes from a seed.
//!
//! | module     | what it makes                                                          |
//! |------------|------------------------------------------------------------------------|
//! | `rng`      | numbers from a seed                                                    |
//! | `builder`  | a problem node by node, widths worked out                              |
//! | `random`   | well-formed problems over every kind and width                         |
//! | `solved`   | problems with a known solution                                         |
//! | `tight`    | problems whose runs use every word that they may need                  |
//! | `damage`   | one fault in a problem's bytes, for each of the problem's refusals     |
//! | `case`     | everything that a run is lent, of all sorts mixed                      |
//! | `batches`  | everything that many starts of one problem are lent                    |
//! | `gatherings` | the same with names and places to keep solutions in                  |
//! | `answers`  | get-model answers of all sorts, with the names of their variables       |
//! | `shuffled` | problem files whose nodes stand in any order, with the mender's faults    |
//! | `btor2`    | BTOR2 texts, valid up to the limits and damaged, with values that meet their constraints |
//! | `spots`    | single nodes for picking: operators, pairs, values, targets            |
//! | `tape`     | the words of a run as it asks for them, some share for the inverse     |
//! | `families` | the benchmark's families, each with a known solution                   |

pub mod answers;
pub mod batches;
pub mod btor2;
pub mod builder;
pub mod case;
pub mod damage;
pub mod families;
pub mod gatherings;
pub mod random;
pub mod rng;
pub mod shuffled;
pub mod solved;
pub mod spots;
pub mod tape;
pub mod tight;

pub use builder::Builder;
pub use case::Case;
pub use rng::Rng;
