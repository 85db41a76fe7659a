//! Holds a subject, the proved library above all, against the model.
//!
//! | module    | what it compares                                                              |
//! |-----------|-------------------------------------------------------------------------------|
//! | `subject` | the library's calls, answered by the proved library or by plain Rust          |
//! | `narrow`  | picks and essential tests over all cases of few bits, against the definitions |
//! | `wide`    | the same at 33 to 64 bits at random, with witnesses and neighbours            |
//! | `fixed`   | fixed bits of single nodes, as the verdict closed shows them                  |
//! | `refused` | picks whose arguments are not those of a node                                 |
//! | `runs`    | checks and whole runs, with every verdict and refusal counted                 |
//! | `more`    | pairs of runs, of which the second is lent a greater budget and more words    |
//! | `guided`  | runs that the guide wrote the tape of                                         |
//! | `need`    | how long a tape a run takes, and problems that use every word of it           |
//! | `batches` | many starts of one problem at once, and each by a run of its own              |
//! | `gatherings` | solutions that differ on named variables: kept, repeats and unkept          |
//! | `models`  | what is said of get-model answers, with every refusal and every order of two  |
//! | `mends`   | files in any order and what they are mended to, with every refusal            |
//! | `btor2`   | what BTOR2 texts are converted to, every refusal, and constraints against roots |
//! | `program` | what the program `tvrun` prints, whole                                        |
//! | `parts`   | work in parts, on all of the machine's processors                             |
//!
//! A difference is an `Err` with a text that shows it.

pub mod batches;
pub mod btor2;
pub mod fixed;
pub mod gatherings;
pub mod guided;
pub mod mends;
pub mod models;
pub mod more;
pub mod narrow;
pub mod need;
pub mod parts;
pub mod program;
pub mod refused;
pub mod runs;
pub mod subject;
pub mod wide;

pub use subject::{Batches, Converts, Gather, Judge, Library, Mender, Plain, Subject};
