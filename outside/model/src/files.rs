//! The three files of `tvrun`, and what it prints.

use crate::operator::Kind;
use crate::problem::read;
use crate::run::{run, Outcome};

/// The most bytes of `problem.tbv` that are read: an accepted problem has at most 25,097.
pub const MOST_BYTES: usize = 25_098;
/// The most words of `start.bin`.
pub const MOST_PLACES: usize = 1024;
/// The most words of `tape.bin` after the budget.
pub const MOST_WORDS: usize = 1023;

/// The bytes of a word file.
pub fn bytes_of(words: &[u64]) -> Vec<u8> {
    words.iter().flat_map(|word| word.to_le_bytes()).collect()
}

/// The words of a word file. Spare bytes at the end are ignored.
pub fn words_of(bytes: &[u8]) -> Vec<u64> {
    bytes.chunks_exact(8).map(|part| u64::from_le_bytes(part.try_into().expect("eight bytes"))).collect()
}

/// The bytes of `tape.bin`: the budget, then the tape.
pub fn tape_file(budget: u16, tape: &[u64]) -> Vec<u8> {
    let mut bytes = bytes_of(&[u64::from(budget)]);
    bytes.extend(bytes_of(tape));
    bytes
}

/// What `tvrun` prints for the bytes of its three files.
pub fn printed(problem: &[u8], start: &[u8], tape: &[u8]) -> String {
    let problem = &problem[..problem.len().min(MOST_BYTES)];
    let mut values = words_of(start);
    values.truncate(MOST_PLACES);
    let words = words_of(tape);
    let budget = words.first().map_or(0, |&word| word as u16);
    let tape: Vec<u64> = words.into_iter().skip(1).take(MOST_WORDS).collect();
    let answer = run(problem, &mut values, &tape, budget);
    let verdict = match answer.outcome {
        Outcome::Refused(refusal) => return format!("refused {} at {}\n", refusal.number, refusal.place),
        Outcome::Settled(verdict) => verdict.name(),
    };
    let mut text =
        format!("verdict {verdict} moves {} steps {} words {}\n", answer.moves, answer.steps, answer.words);
    let nodes = read(problem).expect("a settled run has an accepted problem").nodes;
    for (id, node) in nodes.iter().enumerate() {
        if node.kind == Kind::Variable {
            text += &format!("{id} {}\n", values[id]);
        }
    }
    text
}
