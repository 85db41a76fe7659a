//! A known solution from a file: a get-model answer, what run or solve prints, or words as of a start, told apart by
//! content. The library says whether it is a solution.

use crate::fault::Fault;
use crate::files::read;
use crate::problem::Accepted;
use model::files::words_of;
use model::judged::assigned;
use std::path::Path;
use walumpeh::Verdict;

/// Every node's value under the solution of a file.
pub fn solution(path: &Path, of: &Accepted, names: &[String]) -> Result<Vec<u64>, Fault> {
    let content = read::any(path)?;
    let at = |fault: String| Fault::at(path, fault);
    let mut values = match content.trim_ascii_start() {
        [b'(', ..] => from_entries(of, names, &content),
        [b's', b'a', b't', b'\r' | b'\n', rest @ ..] => from_entries(of, names, rest),
        text if text.starts_with(b"verdict") => from_lines(of, names, &content),
        _ => from_words(of, &content),
    }
    .map_err(at)?;
    let answer = walumpeh::run(&of.bytes, &mut values, &[], 0).map_err(|refusal| Fault::at(path, refusal))?;
    match answer.verdict {
        Verdict::Model => Ok(values),
        _ => {
            let is_zero = |&&root: &&u16| values[usize::from(root)] == 0;
            let root = of.problem.roots.iter().find(is_zero).expect("no model has a root that is 0");
            Err(at(format!("no solution: the root at node {root} is 0")))
        }
    }
}

/// Values by name, of which each variable takes one.
fn by_name(of: &Accepted, names: &[String], found: &[(&[u8], u64)]) -> Result<Vec<u64>, String> {
    let mut values = vec![0; of.problem.nodes.len()];
    for (id, name) in of.problem.variables().zip(names) {
        let own: Vec<u64> =
            found.iter().filter(|(n, _)| *n == name.as_bytes()).map(|&(_, value)| value).collect();
        match own[..] {
            [value] => values[id] = value,
            [] => return Err(format!("no value of '{name}'")),
            _ => return Err(format!("more than one value of '{name}'")),
        }
    }
    Ok(values)
}

fn from_entries(of: &Accepted, names: &[String], text: &[u8]) -> Result<Vec<u64>, String> {
    by_name(of, names, &assigned(text).ok_or("no get-model answer of define-fun entries")?)
}

/// What run and solve print: a verdict, and lines 'ID VALUE' or 'NAME VALUE'.
fn from_lines(of: &Accepted, names: &[String], text: &[u8]) -> Result<Vec<u64>, String> {
    let ids: Vec<String> = of.problem.variables().map(|id| id.to_string()).collect();
    let mut found = Vec::new();
    for (number, line) in
        text.split(|&byte| byte == b'\n').enumerate().skip(1).filter(|(_, line)| !line.is_empty())
    {
        let parts = line.iter().rposition(|&byte| byte == b' ').map(|at| (&line[..at], &line[at + 1..]));
        let value = |digits: &[u8]| std::str::from_utf8(digits).ok().and_then(|digits| digits.parse().ok());
        match parts.and_then(|(name, digits)| Some((name, value(digits)?))) {
            Some(entry) => found.push(entry),
            None => return Err(format!("line {}: neither 'ID VALUE' nor 'NAME VALUE'", number + 1)),
        }
    }
    let by_id = found.iter().all(|(name, _)| ids.iter().any(|id| id.as_bytes() == *name));
    by_name(of, if by_id { &ids } else { names }, &found)
}

fn from_words(of: &Accepted, content: &[u8]) -> Result<Vec<u64>, String> {
    let (words, nodes) = (words_of(content), of.problem.nodes.len());
    if words.len() < nodes {
        return Err(format!("neither an answer nor a word for each of {nodes} nodes"));
    }
    Ok(words[..nodes].to_vec())
}
