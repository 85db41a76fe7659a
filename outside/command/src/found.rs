//! What `solve` found, in the forms that it is printed in.

use crate::fault::Fault;
use crate::given::Given;
use std::fmt::Write;
use text::smt2::symbol;
use walumpeh::Answer;

#[derive(Clone, Copy, Debug, PartialEq, Eq, clap::ValueEnum)]
pub enum Format {
    /// The answer's line, and a line 'NAME VALUE' for each input
    Text,
    /// One object
    Json,
    /// A get-model answer, or 'unsat' or 'unknown'
    Smt2,
    /// A witness of one frame, or 'unsat' or 'unknown'
    Btor2,
}

/// What came out.
pub enum Outcome<'a> {
    /// The proved run's answer, the number of the run, and the values of all nodes.
    Model {
        answer: Answer,
        run: u64,
        values: &'a [u64],
    },
    Closed,
    NotFound {
        runs: u64,
        moves: u64,
        fewest: u64,
    },
}

/// An input: its name, width and value.
struct Input<'a> {
    name: &'a str,
    id: usize,
    width: u32,
    value: u64,
}

fn inputs<'a>(given: &'a Given, values: &'a [u64]) -> impl Iterator<Item = Input<'a>> {
    given.problem.variables().zip(&given.names).map(|(id, name)| Input {
        name,
        id,
        width: given.problem.nodes[id].width,
        value: values[id],
    })
}

/// The text that is printed.
pub fn shown(format: Format, given: &Given, outcome: &Outcome) -> Result<String, Fault> {
    Ok(match (format, outcome) {
        (Format::Text, _) => text(given, outcome),
        (Format::Json, _) => json(given, outcome),
        (_, Outcome::Closed) => "unsat\n".into(),
        (_, Outcome::NotFound { .. }) => "unknown\n".into(),
        (Format::Smt2, Outcome::Model { values, .. }) => smt2(given, values)?,
        (Format::Btor2, Outcome::Model { values, .. }) => btor2(given, values),
    })
}

fn text(given: &Given, outcome: &Outcome) -> String {
    match outcome {
        Outcome::Model { answer, values, .. } => {
            let Answer { moves, steps, words, .. } = answer;
            let mut text = format!("verdict model moves {moves} steps {steps} words {words}\n");
            for input in inputs(given, values) {
                writeln!(text, "{} {}", input.name, input.value).expect("text takes all");
            }
            text
        }
        Outcome::Closed => "verdict closed moves 0 steps 0 words 0\n".into(),
        Outcome::NotFound { runs, moves, fewest } => {
            format!("not found runs {runs} moves {moves} fewest unsatisfied roots {fewest}\n")
        }
    }
}

fn json(given: &Given, outcome: &Outcome) -> String {
    match outcome {
        Outcome::Model { answer, run, values } => {
            let Answer { moves, steps, words, .. } = answer;
            let inputs: Vec<String> = inputs(given, values)
                .map(|Input { name, id, width, value }| {
                    let name = quoted(name);
                    format!("{{\"name\": {name}, \"id\": {id}, \"width\": {width}, \"value\": {value}}}")
                })
                .collect();
            let counts =
                format!("\"run\": {run}, \"moves\": {moves}, \"steps\": {steps}, \"words\": {words}");
            format!("{{\"verdict\": \"model\", {counts}, \"inputs\": [{}]}}\n", inputs.join(", "))
        }
        Outcome::Closed => "{\"verdict\": \"closed\"}\n".into(),
        Outcome::NotFound { runs, moves, fewest } => {
            format!("{{\"verdict\": \"not found\", \"runs\": {runs}, \"moves\": {moves}, \"fewest\": {fewest}}}\n")
        }
    }
}

/// A text as JSON writes it.
pub fn quoted(name: &str) -> String {
    let mut text = String::from("\"");
    for character in name.chars() {
        match character {
            '"' | '\\' => text.extend(['\\', character]),
            control if (control as u32) < 32 => {
                write!(text, "\\u{:04x}", control as u32).expect("text takes all")
            }
            other => text.push(other),
        }
    }
    text + "\""
}

fn smt2(given: &Given, values: &[u64]) -> Result<String, Fault> {
    let mut text = String::from("(\n");
    for Input { name, width, value, .. } in inputs(given, values) {
        let symbol = symbol(name).ok_or_else(|| {
            Fault::Told(format!("the name '{name}' has a bar or a backslash, which SMT-LIB cannot write"))
        })?;
        let bits = width as usize;
        writeln!(text, "  (define-fun {symbol} () (_ BitVec {width}) #b{value:0bits$b})")
            .expect("text takes all");
    }
    Ok(text + ")\n")
}

/// The form asks for a property that is reached: b0 stands there, since constraints alone have none.
fn btor2(given: &Given, values: &[u64]) -> String {
    let mut text = String::from("sat\nb0\n#0\n@0\n");
    for (at, Input { name, width, value, .. }) in inputs(given, values).enumerate() {
        let bits = width as usize;
        writeln!(text, "{at} {value:0bits$b} {name}@0").expect("text takes all");
    }
    text + ".\n"
}

#[cfg(test)]
mod tests {
    use super::*;

    #[test]
    fn names_are_quoted() {
        assert_eq!(quoted("a\"b\\c\td"), "\"a\\\"b\\\\c\\u0009d\"");
    }
}
