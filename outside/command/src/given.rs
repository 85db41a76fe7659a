//! A problem from a file of any sort: problem bytes, our text form or BTOR2, told apart by content. The library says
//! whether it is accepted.

use crate::fault::Fault;
use crate::files::read;
use crate::problem::decoded;
use crate::{btor2, names};
use model::Problem;
use std::collections::HashSet;
use std::path::Path;
use text::form;

/// An accepted problem with the names of its variables, all different, by ascending id.
pub struct Given {
    pub bytes: Vec<u8>,
    pub problem: Problem,
    pub names: Vec<String>,
    /// The numbers that these variables go by in the file: of BTOR2 their lines' ids, else their nodes' ids.
    pub ids: Vec<String>,
}

#[derive(Clone, Copy, Debug, PartialEq, Eq)]
enum Sort {
    Bytes,
    Btor2,
    Form,
}

/// The problem of a file; a list of names stands in for its own.
pub fn given(path: &Path, list: Option<&Path>) -> Result<Given, Fault> {
    let content = read::any(path)?;
    let at = |fault: String| Fault::at(path, fault);
    let (bytes, names, ids) = match sort(&content) {
        Sort::Bytes => (content, Vec::new(), None),
        Sort::Btor2 => {
            let bytes = btor2::converted(path, &content)?;
            (bytes, btor2::input_names(&content), Some(btor2::input_ids(&content)))
        }
        Sort::Form => {
            let (problem, names) = form::named(&read::utf8(path, content)?).map_err(at)?;
            (problem.bytes(), names, None)
        }
    };
    walumpeh::check(&bytes).map_err(|refusal| Fault::at(path, refusal))?;
    let problem = decoded(&bytes).map_err(at)?;
    if problem.roots.is_empty() {
        return Err(at("no root or constraint: every start would be a model".into()));
    }
    let names = match list {
        Some(list) => names::read(list, &problem)?,
        None => different(&problem, &names),
    };
    let ids = ids.unwrap_or_else(|| problem.variables().map(|id| id.to_string()).collect());
    Ok(Given { bytes, problem, names, ids })
}

/// What a file holds, by its first line that is not empty or a remark.
fn sort(content: &[u8]) -> Sort {
    if content.starts_with(b"TBV") {
        return Sort::Bytes;
    }
    for line in content.split(|&byte| byte == b'\n') {
        if line.trim_ascii_start().starts_with(b";") {
            return Sort::Btor2;
        }
        match tokens(line)[..] {
            [] => {}
            [first, ..] if first[0] == b'#' => return Sort::Form,
            [_, b"=", ..] => return Sort::Form,
            [first, ..] if first.iter().all(u8::is_ascii_digit) => return Sort::Btor2,
            _ => return Sort::Form,
        }
    }
    Sort::Form
}

/// The words of a line.
fn tokens(line: &[u8]) -> Vec<&[u8]> {
    line.split(|byte| b" \t\r".contains(byte)).filter(|token| !token.is_empty()).collect()
}

/// A name for each variable: its own where no other has it, else n and the id with as many _ in front as it takes.
fn different(problem: &Problem, own: &[String]) -> Vec<String> {
    let mut taken: HashSet<String> = own.iter().cloned().collect();
    let mut numbered = |id: usize| {
        let mut names = (0..).map(|more| format!("{}n{id}", "_".repeat(more)));
        names.find(|name| taken.insert(name.clone())).expect("names are finite")
    };
    let is_own = |at: usize| own.get(at).filter(|name| own.iter().filter(|other| other == name).count() == 1);
    let named = |(at, id): (usize, usize)| is_own(at).cloned().unwrap_or_else(|| numbered(id));
    problem.variables().enumerate().map(named).collect()
}

#[cfg(test)]
mod tests {
    use super::*;

    #[test]
    fn files_are_told_apart() {
        for (content, expected) in [
            (&b"TBV\x01\0"[..], Sort::Bytes),
            (b"TBV", Sort::Bytes),
            (b"1 sort bitvec 4\n", Sort::Btor2),
            (b"; yosys\n1 sort bitvec 4\n", Sort::Btor2),
            (b"\n \t; \n", Sort::Btor2),
            (b"\n  17\tinput 1 x\n", Sort::Btor2),
            (b"0 = var 4\n", Sort::Form),
            (b"# 6 nodes\n0 = var 4\n", Sort::Form),
            (b"x = var 4\n", Sort::Form),
            (b"root 0\n", Sort::Form),
            (b"", Sort::Form),
            (b"anything else", Sort::Form),
        ] {
            assert_eq!(sort(content), expected, "{}", String::from_utf8_lossy(content));
        }
    }

    #[test]
    fn every_variable_has_a_name_of_its_own() {
        let problem = form::parse("a = var 4\nb = var 4\nc = var 4\nd = var 4\ne = var 4\n").unwrap();
        let own = |names: &[&str]| {
            different(&problem, &names.iter().map(|name| name.to_string()).collect::<Vec<_>>())
        };
        assert_eq!(own(&["x", "n4", "x", "z", "y"]), ["n0", "n4", "n2", "z", "y"]);
        assert_eq!(own(&["n1", "y", "y"]), ["n1", "_n1", "n2", "n3", "n4"]);
        assert_eq!(own(&[]), ["n0", "n1", "n2", "n3", "n4"]);
    }
}
