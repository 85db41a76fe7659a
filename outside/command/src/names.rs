//! Lists of names: one for each variable, by ascending id, each ended by a line feed.

use crate::fault::Fault;
use crate::files::read;
use model::Problem;
use std::path::Path;

/// A list's bytes.
pub fn list(names: &[String]) -> Vec<u8> {
    names.iter().flat_map(|name| [name.as_bytes(), b"\n"]).flatten().copied().collect()
}

/// The names that export gives by itself: n and the id.
pub fn numbered(problem: &Problem) -> Vec<String> {
    problem.variables().map(|id| format!("n{id}")).collect()
}

/// The names of a list in a file, without bars: as many as there are variables, all different.
pub fn read(path: &Path, problem: &Problem) -> Result<Vec<String>, Fault> {
    let text = read::text(path)?;
    let of = |name: &[u8]| String::from_utf8(name.to_vec()).expect("bars are whole characters");
    let names: Vec<String> = model::judged::names(text.as_bytes()).into_iter().map(of).collect();
    let variables = problem.variables().count();
    if names.len() != variables {
        return Err(Fault::at(path, format!("{} names for {variables} variables", names.len())));
    }
    match (0..names.len()).find(|&at| names[..at].contains(&names[at])) {
        Some(at) => Err(Fault::at(path, format!("line {}: the name '{}' stands above", at + 1, names[at]))),
        None => Ok(names),
    }
}
