//! Values for nodes, from an answer, a start or the command line.

use crate::fault::Fault;
use crate::files::read;
use model::{ones, Problem};
use std::path::Path;

/// A node's id and its value.
pub type Pin = (usize, u64);

/// An id and a value with a sign between them.
pub fn pin_of(text: &str, between: char) -> Option<Pin> {
    let (id, value) = text.split_once(between)?;
    Some((usize::try_from(decimal(id)?).ok()?, decimal(value)?))
}

/// Decimal digits alone: the standard library would take a sign, too.
fn decimal(digits: &str) -> Option<u64> {
    Some(digits).filter(|digits| !digits.starts_with('+')).and_then(|digits| digits.parse().ok())
}

/// Pins that came from somewhere, if there are such nodes and the values fit them.
pub fn fitting(problem: &Problem, from: &Path, pins: Vec<Pin>) -> Result<Vec<Pin>, Fault> {
    for &(id, value) in &pins {
        match problem.nodes.get(id) {
            None => return Err(Fault::at(from, format!("there is no node {id} to pin"))),
            Some(node) if value > ones(node.width) => {
                return Err(Fault::at(
                    from,
                    format!("node {id} has {} bits, too few for {value}", node.width),
                ));
            }
            Some(_) => {}
        }
    }
    Ok(pins)
}

/// The values of all nodes, where each variable has its value in an answer.
pub fn answered(problem: &Problem, file: &Path) -> Result<Vec<u64>, Fault> {
    let mut values = placed(problem, file)?;
    problem.evaluate(&mut values);
    Ok(values)
}

/// A place for each node, with each variable's value in an answer at its own, and 0 at the others.
pub fn placed(problem: &Problem, file: &Path) -> Result<Vec<u64>, Fault> {
    let mut values = vec![0; problem.nodes.len()];
    for (id, value) in fitting(problem, file, answer_pins(problem, file)?)? {
        values[id] = value;
    }
    Ok(values)
}

/// Every variable with its word of a file.
pub fn start_pins(problem: &Problem, file: &Path) -> Result<Vec<Pin>, Fault> {
    let words = read::start(file)?;
    if words.len() < problem.nodes.len() {
        return Err(Fault::at(file, format!("{} words for {} nodes", words.len(), problem.nodes.len())));
    }
    Ok(problem.variables().map(|id| (id, words[id])).collect())
}

/// The variables of an answer: its first line is a verdict, each further one `ID VALUE`; every variable
/// is there once, in the order of ids, and nothing else.
pub fn answer_pins(problem: &Problem, file: &Path) -> Result<Vec<Pin>, Fault> {
    let text = read::text(file)?;
    let mut lines = text.lines().enumerate();
    let at = |number: usize, what: String| Fault::at(file, format!("line {}: {what}", number + 1));
    match lines.next() {
        Some((_, first)) if is_verdict(first) => {}
        Some((_, first)) => return Err(at(0, format!("'{first}' is no verdict with its counts"))),
        None => return Err(Fault::at(file, "no answer in it")),
    }
    let mut pins = Vec::new();
    for id in problem.variables() {
        let (number, line) =
            lines.next().ok_or_else(|| Fault::at(file, format!("no value of variable {id}")))?;
        match pin_of(line, ' ') {
            Some((found, value)) if found == id => pins.push((id, value)),
            Some((found, _)) => return Err(at(number, format!("node {found}, expected variable {id}"))),
            None => return Err(at(number, format!("'{line}' is not 'ID VALUE'"))),
        }
    }
    match lines.next() {
        None => Ok(pins),
        Some((number, line)) => Err(at(number, format!("'{line}' after the last variable"))),
    }
}

/// `verdict NAME moves M steps S words W`, perhaps with ` evaluated E`
fn is_verdict(line: &str) -> bool {
    let number = |word: &str| decimal(word).is_some();
    let words: Vec<&str> = line.split(' ').collect();
    let counts = match words[..] {
        [ref counts @ .., "evaluated", e] if number(e) => counts,
        ref counts => counts,
    };
    match *counts {
        ["verdict", name, "moves", m, "steps", s, "words", w] => {
            ["model", "spent", "ended", "closed"].contains(&name) && number(m) && number(s) && number(w)
        }
        _ => false,
    }
}
