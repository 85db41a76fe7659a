//! What goes wrong. Every fault ends the command with a status that is not 0.

use std::fmt::Display;
use std::path::Path;

pub enum Fault {
    /// In words for the user: what, and where.
    Told(String),
    /// Nobody reads what is printed any more: nothing is left to say.
    Unheard,
}

impl Fault {
    /// A fault at a file.
    pub fn at(path: &Path, what: impl Display) -> Fault {
        Fault::Told(format!("{}: {what}", path.display()))
    }
}
