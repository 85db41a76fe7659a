//! Files in and out. A fault names its file.

pub mod print;
pub mod read;
pub mod tapes;
pub mod write;
