//! BTOR2 in: from the combinational part of a BTOR2 text to a problem, with refusals 1 to 5.
//!
//! | module    | what it holds                                                                |
//! |-----------|------------------------------------------------------------------------------|
//! | `lines`   | lines, tokens, keywords and their arguments: refusals 1 and 2                |
//! | `convert` | ids, widths and room, refusals 3 to 5; the nodes and roots that a line makes |
//! | `meaning` | what the lines mean, straight from the format, without nodes                 |

mod convert;
mod lines;
mod meaning;

pub use convert::{convert, ids, names};
pub use lines::{keywords, Fault};
pub use meaning::{mean, Meaning};
