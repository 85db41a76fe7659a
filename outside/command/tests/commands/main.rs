//! The command as a user runs it: what it prints and writes, and that what is wrong is said in words,
//! with a status that is not 0 and nothing written.

mod answers;
mod at;
mod bad_input;
mod batches;
mod convert;
mod faults;
mod gatherings;
mod help;
mod mends;
mod models;
mod printing;
mod solve;
mod tour;
mod verilog;
mod writing;
