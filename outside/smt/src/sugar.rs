//! The names of the text form that stand for several nodes: z3 must find no values for which their last
//! node differs from SMT-LIB's operator of that meaning.

use crate::solver;
use text::form::parse;
use text::smt2::{nodes, Variables};

/// What stands in the text, and SMT-LIB's term of the variables n0 and n1; of one bit where it is a relation.
const MEANINGS: [(&str, &str); 10] = [
    ("or a b", "(bvor n0 n1)"),
    ("sub a b", "(bvsub n0 n1)"),
    ("neg a", "(bvneg n0)"),
    ("ne a b", "(ite (distinct n0 n1) #b1 #b0)"),
    ("ule a b", "(ite (bvule n0 n1) #b1 #b0)"),
    ("sle a b", "(ite (bvsle n0 n1) #b1 #b0)"),
    ("ugt a b", "(ite (bvugt n0 n1) #b1 #b0)"),
    ("sgt a b", "(ite (bvsgt n0 n1) #b1 #b0)"),
    ("zext 16 a", "((_ zero_extend FRONT) n0)"),
    ("urem a b", "(bvurem n0 n1)"),
];

const WIDTHS: [u32; 4] = [1, 2, 5, 8];

/// Gives how many names at how many widths were confirmed.
pub fn compare() -> Result<usize, String> {
    let asked: Vec<(u32, &str, &str)> =
        WIDTHS.iter().flat_map(|&width| MEANINGS.map(|(line, term)| (width, line, term))).collect();
    let questions = asked.iter().map(|&(width, line, term)| {
        let problem = parse(&format!("a = var {width}\nb = var {width}\ns = {line}\n"))?;
        let (last, nodes) = (problem.nodes.len() - 1, nodes(&problem, "", Variables::Open));
        let term = term.replace("FRONT", &(16 - width).to_string());
        Ok(format!("(push 1)\n{nodes}(assert (distinct n{last} {term}))\n(check-sat)\n(pop 1)\n"))
    });
    let questions = questions.collect::<Result<String, String>>()?;
    let answers = solver::verdicts(format!("(set-logic QF_BV)\n{questions}"))?;
    if answers.len() != asked.len() {
        return Err(format!("z3 answered {} of {} questions", answers.len(), asked.len()));
    }
    match answers.iter().position(|answer| answer != "unsat") {
        Some(at) => Err(format!("{:?}: z3 calls another value {}", asked[at], answers[at])),
        None => Ok(asked.len()),
    }
}
