//! One run of a solver over a text, and its answers.

use std::io::{Read, Write};
use std::process::{Command, ExitStatus, Stdio};

/// A solver, with what it is called with beside the text.
#[derive(Clone, Copy)]
pub enum Solver {
    Z3(&'static [&'static str]),
    Cvc5(&'static [&'static str]),
}

impl Solver {
    /// The variables Z3 and CVC5 may name other programs than `z3` and `cvc5`.
    fn command(self) -> (String, Vec<&'static str>) {
        let (variable, name, own, more): (_, _, &[&str], _) = match self {
            Solver::Z3(more) => ("Z3", "z3", &["-smt2", "-in"], more),
            Solver::Cvc5(more) => ("CVC5", "cvc5", &["--lang=smt2", "-"], more),
        };
        (std::env::var(variable).unwrap_or(name.into()), [more, own].concat())
    }
}

/// What z3 prints for a text, in which nothing may be wrong.
pub fn answers(text: String) -> Result<String, String> {
    let (printed, status) = printed(Solver::Z3(&[]), text)?;
    if printed.contains("(error") || !status.success() {
        let error = printed.lines().find(|line| line.contains("(error")).unwrap_or("no message");
        return Err(format!("z3: {status}: {error}"));
    }
    Ok(printed)
}

/// What a solver prints for a text, and its status.
pub fn printed(solver: Solver, text: String) -> Result<(String, ExitStatus), String> {
    let (program, arguments) = solver.command();
    let mut solver = Command::new(&program)
        .args(arguments)
        .stdin(Stdio::piped())
        .stdout(Stdio::piped())
        .spawn()
        .map_err(|fault| format!("{program}: {fault}"))?;
    let mut input = solver.stdin.take().expect("piped");
    // z3 answers while it reads: someone has to take the answers meanwhile.
    let writer = std::thread::spawn(move || input.write_all(text.as_bytes()));
    let mut printed = String::new();
    solver
        .stdout
        .take()
        .expect("piped")
        .read_to_string(&mut printed)
        .map_err(|fault| format!("{program}: {fault}"))?;
    let written = writer.join().expect("the writer does not panic");
    let status = solver.wait().map_err(|fault| format!("{program}: {fault}"))?;
    written.map_err(|fault| format!("{program}: {fault}"))?;
    Ok((printed, status))
}

/// The answers to a text's questions (check-sat) alone.
pub fn verdicts(text: String) -> Result<Vec<String>, String> {
    Ok(answers(text)?.lines().map(String::from).collect())
}

/// The names and values that get-value printed, in order.
pub fn values(printed: &str) -> Result<Vec<(&str, u64)>, String> {
    let words: Vec<&str> = printed
        .split(|c: char| c.is_whitespace() || c == '(' || c == ')')
        .filter(|word| !word.is_empty())
        .collect();
    words
        .chunks(2)
        .map(|both| Ok((both[0], literal(both.get(1).ok_or("a name without a value")?)?)))
        .collect()
}

fn literal(word: &str) -> Result<u64, String> {
    let parsed = match (word.strip_prefix("#x"), word.strip_prefix("#b")) {
        (Some(hex), _) => u64::from_str_radix(hex, 16).ok(),
        (_, Some(binary)) => u64::from_str_radix(binary, 2).ok(),
        _ => None,
    };
    parsed.ok_or(format!("z3 printed '{word}' for a value"))
}

#[cfg(test)]
mod tests {
    use super::*;

    #[test]
    fn printed_values_are_read() {
        let printed = "((p0n0 #xf0)\n (p0n1 #b1))\n((p1n0 #x0))\n";
        assert_eq!(values(printed), Ok(vec![("p0n0", 0xf0), ("p0n1", 1), ("p1n0", 0)]));
        assert!(values("((a b))").is_err());
    }
}
