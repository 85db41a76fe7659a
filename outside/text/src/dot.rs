//! A problem as a picture for Graphviz: an ellipse for each node, with its operation, its width and
//! its fixed bits; arrows from a node to its operands; roots with a double line. Given the values of
//! an answer, each node tells its own, and roots that are not 1 stand out, with the ways that a move
//! could take down from them: through operands that have an open bit.

use crate::shown::digits;
use model::{pairs, Kind, Pair, Problem};
use std::fmt::Write;

/// What stands out.
const COLOUR: &str = "red";

/// The picture, with the values of all nodes where they are given.
pub fn picture(problem: &Problem, values: Option<&[u64]>) -> String {
    let pairs = pairs::pairs(problem);
    let open = values.map(|values| ways(problem, &pairs, values)).unwrap_or_default();
    let is_open = |id: usize| open.get(id) == Some(&true);
    let mut text = String::from("digraph problem {\n    node [fontname=monospace];\n");
    for (id, node) in problem.nodes.iter().enumerate() {
        let mut label = format!("{id}: {}\\n{}", title(problem, id), digits(pairs[id], node.width));
        if let Some(values) = values {
            write!(label, "\\n= {}", values[id]).expect("text takes all");
        }
        let root = if problem.roots.contains(&(id as u16)) { ", peripheries=2" } else { "" };
        writeln!(text, "    n{id} [label=\"{label}\"{root}{}];", coloured(is_open(id)))
            .expect("text takes all");
    }
    for (id, node) in problem.nodes.iter().enumerate() {
        for (&operand, position) in node.operands().iter().zip(["a", "b", "c"]) {
            let way = is_open(id) && is_open(operand.into()) && !pairs[usize::from(operand)].is_fixed();
            let colour = coloured(way);
            writeln!(text, "    n{id} -> n{operand} [label={position}{colour}];").expect("text takes all");
        }
    }
    text + "}\n"
}

/// A node's kind and width, and what it has beside operands.
fn title(problem: &Problem, id: usize) -> String {
    let node = &problem.nodes[id];
    let name = node.kind.name();
    match node.kind {
        Kind::Constant => format!("{name} {} {}", node.width, node.pair.lo),
        Kind::Extract => format!("{name} {} from {}", node.width, node.fields[1]),
        _ => format!("{name} {}", node.width),
    }
}

fn coloured(so: bool) -> String {
    if so {
        format!(", color={COLOUR}, fontcolor={COLOUR}")
    } else {
        String::new()
    }
}

/// Which nodes are a root that is not 1, or lie below one through operands with an open bit.
fn ways(problem: &Problem, pairs: &[Pair], values: &[u64]) -> Vec<bool> {
    let mut ways = vec![false; problem.nodes.len()];
    for &root in &problem.roots {
        ways[usize::from(root)] |= values[usize::from(root)] != 1;
    }
    for id in (0..ways.len()).rev().filter(|&id| problem.nodes[id].kind != Kind::Variable) {
        if ways[id] {
            for &operand in problem.nodes[id].operands() {
                ways[usize::from(operand)] |= !pairs[usize::from(operand)].is_fixed();
            }
        }
    }
    ways
}

#[cfg(test)]
mod tests {
    use super::*;

    #[test]
    fn the_worked_example() {
        let problem = crate::worked_example();
        let text = picture(&problem, None);
        assert!(text.contains("n0 [label=\"0: var 4\\n****\"];\n"), "{text}");
        assert!(text.contains("n4 [label=\"4: eq 1\\n*\", peripheries=2];\n"), "{text}");
        assert!(text.contains("n2 -> n0 [label=a];\n"), "{text}");
        assert!(!text.contains(COLOUR), "{text}");
    }

    #[test]
    fn a_false_root_and_the_ways_down_are_coloured() {
        let problem = crate::worked_example();
        let mut values = vec![0; 5];
        problem.evaluate(&mut values);
        let text = picture(&problem, Some(&values));
        assert!(
            text.contains("n4 [label=\"4: eq 1\\n*\\n= 0\", peripheries=2, color=red, fontcolor=red];"),
            "{text}"
        );
        assert!(text.contains("n2 -> n0 [label=a, color=red, fontcolor=red];"), "{text}");
        assert!(text.contains("n2 -> n1 [label=b];"), "{text}");
        values[0] = 11;
        problem.evaluate(&mut values);
        assert!(!picture(&problem, Some(&values)).contains(COLOUR));
    }
}
