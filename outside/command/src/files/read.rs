//! Reading. `-` is standard input. Nothing reads on for ever: of each sort of file no more is taken
//! than can ever count.

use crate::fault::Fault;
use model::files::{words_of, MOST_BYTES, MOST_PLACES};
use std::fs::File;
use std::io::Read;
use std::path::Path;
use walumpeh::MOST_STARTS;

/// The budget, and as many words as 65,535 moves of 1,023 steps take.
const MOST_TAPE: u64 = 8 * (1 + 65_535 * (1 + 2 * 1023));
/// The longest text: 1,024 nodes take a small part of it.
const MOST_TEXT: u64 = 1 << 24;

/// A problem's bytes; of one that is too long as many as show it.
pub fn problem(path: &Path) -> Result<Vec<u8>, Fault> {
    bytes(path, MOST_BYTES as u64)
}

/// A start's words.
pub fn start(path: &Path) -> Result<Vec<u64>, Fault> {
    bytes(path, 8 * MOST_PLACES as u64).map(|bytes| words_of(&bytes))
}

/// The words of up to 256 starts, one after the other.
pub fn starts(path: &Path) -> Result<Vec<u64>, Fault> {
    bytes(path, 8 * (MOST_STARTS * MOST_PLACES) as u64).map(|bytes| words_of(&bytes))
}

/// A tape file's words: the budget first.
pub fn tape(path: &Path) -> Result<Vec<u64>, Fault> {
    bytes(path, MOST_TAPE).map(|bytes| words_of(&bytes))
}

/// A text's bytes, whatever they are.
pub fn any(path: &Path) -> Result<Vec<u8>, Fault> {
    let bytes = bytes(path, MOST_TEXT + 1)?;
    if bytes.len() as u64 > MOST_TEXT {
        return Err(Fault::at(path, format!("more than {MOST_TEXT} bytes of text")));
    }
    Ok(bytes)
}

pub fn text(path: &Path) -> Result<String, Fault> {
    utf8(path, any(path)?)
}

/// A file's bytes as text.
pub fn utf8(path: &Path, bytes: Vec<u8>) -> Result<String, Fault> {
    String::from_utf8(bytes).map_err(|fault| {
        let before = &fault.as_bytes()[..fault.utf8_error().valid_up_to()];
        let line = 1 + before.iter().filter(|&&byte| byte == b'\n').count();
        Fault::at(path, format!("line {line}: not text: a byte that is not UTF-8"))
    })
}

/// A file, or standard input, to be read from.
pub fn open(path: &Path) -> Result<Box<dyn Read>, Fault> {
    match path.to_str() {
        Some("-") => Ok(Box::new(std::io::stdin().lock())),
        _ => File::open(path)
            .map(|file| Box::new(file) as Box<dyn Read>)
            .map_err(|fault| Fault::at(path, fault)),
    }
}

fn bytes(path: &Path, most: u64) -> Result<Vec<u8>, Fault> {
    let mut bytes = Vec::new();
    match open(path)?.take(most).read_to_end(&mut bytes) {
        Ok(_) => Ok(bytes),
        Err(fault) => Err(Fault::at(path, fault)),
    }
}
