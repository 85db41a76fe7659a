//! Standard output.

use crate::fault::Fault;
use crate::started;
use std::io::{ErrorKind, Write};
use std::process::ExitCode;

/// Prints a text whole.
pub fn text(text: &str) -> Result<ExitCode, Fault> {
    bytes(text.as_bytes())
}

/// Prints bytes as they are.
pub fn bytes(bytes: &[u8]) -> Result<ExitCode, Fault> {
    if started::output_was_closed() {
        return Err(Fault::Told("standard output: closed".into()));
    }
    let mut output = std::io::stdout().lock();
    match output.write_all(bytes).and_then(|()| output.flush()) {
        Ok(()) => Ok(ExitCode::SUCCESS),
        Err(fault) if fault.kind() == ErrorKind::BrokenPipe => Err(Fault::Unheard),
        Err(fault) => Err(Fault::Told(format!("standard output: {fault}"))),
    }
}
