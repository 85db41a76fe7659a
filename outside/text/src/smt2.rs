//! A problem as SMT-LIB text of the logic QF_BV: node i is the name `n`i, after a prefix where many
//! problems share one text.

use model::{Kind, Node, Problem};
use std::fmt::Write;

/// A value of a width.
pub fn literal(value: u64, width: u32) -> String {
    format!("(_ bv{value} {width})")
}

/// How variables appear.
#[derive(Clone, Copy)]
pub enum Variables<'a> {
    /// Declared, with their fixed bits asserted.
    Open,
    /// Defined as these values.
    Given(&'a [u64]),
}

/// The names of a problem's nodes in a text: `n` and the id after a prefix.
fn numbered(problem: &Problem, prefix: &str) -> Vec<String> {
    (0..problem.nodes.len()).map(|id| format!("{prefix}n{id}")).collect()
}

/// Every node under its name.
pub fn nodes(problem: &Problem, prefix: &str, variables: Variables) -> String {
    let names = numbered(problem, prefix);
    let mut text = String::new();
    for (id, node) in problem.nodes.iter().enumerate() {
        let (name, width) = (&names[id], node.width);
        match (node.kind, variables) {
            (Kind::Variable, Variables::Open) => text += &declared(name, node),
            _ => {
                let term = match variables {
                    Variables::Given(values) if node.kind == Kind::Variable => literal(values[id], width),
                    _ => term(problem, id, &names),
                };
                writeln!(text, "(define-fun {name} () (_ BitVec {width}) {term})").expect("text takes all");
            }
        }
    }
    text
}

/// A variable, with its fixed bits asserted.
fn declared(name: &str, node: &Node) -> String {
    let width = node.width;
    let agrees = agrees(name, node.pair.lo, node.pair.hi, width);
    format!("(declare-fun {name} () (_ BitVec {width}))\n{agrees}")
}

/// The text that asks for a model in which nodes have values. Only variables are declared, each under its symbol; what other nodes
/// are stands inside one assertion, because some solvers count what a text defines as part of the model.
pub fn model(problem: &Problem, symbols: &[String], values: &[(usize, u64)]) -> String {
    let names = inner_names(problem, symbols);
    let mut text = String::from("(set-option :produce-models true)\n(set-logic QF_BV)\n");
    text.extend(problem.variables().map(|id| declared(&names[id], &problem.nodes[id])));
    let inner: Vec<usize> =
        (0..problem.nodes.len()).filter(|&id| problem.nodes[id].kind != Kind::Variable).collect();
    text += "(assert\n";
    text.extend(inner.iter().map(|&id| format!("(let (({} {}))\n", names[id], term(problem, id, &names))));
    let has = |&(id, value): &(usize, u64)| format!(" {}", equals(problem, &names[id], id, value));
    text += &format!("(and true{})", values.iter().map(has).collect::<String>());
    text + &")".repeat(inner.len()) + ")\n(check-sat)\n(get-model)\n"
}

/// The variables' symbols, and for the other nodes names that no variable has.
fn inner_names(problem: &Problem, symbols: &[String]) -> Vec<String> {
    let taken = |prefix: &str| {
        symbols.iter().any(|symbol| symbol.trim_matches('|').strip_prefix(prefix).is_some_and(is_number))
    };
    let prefix = (0..).map(|more| "_".repeat(more)).find(|prefix| !taken(&format!("{prefix}n")));
    let mut names = numbered(problem, &prefix.expect("names are finite"));
    for (id, symbol) in problem.variables().zip(symbols) {
        names[id] = symbol.clone();
    }
    names
}

fn is_number(digits: &str) -> bool {
    digits.bytes().all(|digit| digit.is_ascii_digit())
}

/// Words that stand for something else in a text, so that a variable of that name is written with bars.
const RESERVED: &str =
    "! _ as BINARY DECIMAL exists HEXADECIMAL forall let match NUMERAL par STRING assert check-sat \
    check-sat-assuming declare-const declare-datatype declare-datatypes declare-fun declare-sort define-fun \
    define-fun-rec define-funs-rec define-sort echo exit get-assertions get-assignment get-info get-model \
    get-option get-proof get-unsat-assumptions get-unsat-core get-value pop push reset reset-assertions \
    set-info set-logic set-option";

/// A name as SMT-LIB writes it; none of a name that it cannot write.
pub fn symbol(name: &str) -> Option<String> {
    let simple = |c: char| c.is_ascii_alphanumeric() || "~!@$%^&*_-+=<>.?/".contains(c);
    let begins = name.chars().next().is_some_and(|first| !first.is_ascii_digit());
    if begins && name.chars().all(simple) && !RESERVED.split(' ').any(|word| word == name) {
        return Some(name.into());
    }
    (!name.contains(['|', '\\'])).then(|| format!("|{name}|"))
}

/// The assertion that a variable agrees with its pair, where it has fixed bits.
fn agrees(name: &str, lo: u64, hi: u64, width: u32) -> String {
    if lo == 0 && hi == model::ones(width) {
        return String::new();
    }
    let (low, high) = (literal(lo, width), literal(hi, width));
    format!("(assert (= (bvand {name} {low}) {low}))\n(assert (= (bvor {name} {high}) {high}))\n")
}

/// What a constant or inner node is.
fn term(problem: &Problem, id: usize, names: &[String]) -> String {
    let node = &problem.nodes[id];
    // A field that is no operand names none.
    let [a, b, c] = node.fields.map(|field| names.get(usize::from(field)).map_or("", String::as_str));
    let bit = |condition: String| format!("(ite {condition} {} {})", literal(1, 1), literal(0, 1));
    match node.kind {
        Kind::Variable => panic!("a variable has no term"),
        Kind::Constant => literal(node.pair.lo, node.width),
        Kind::Not => format!("(bvnot {a})"),
        Kind::And => format!("(bvand {a} {b})"),
        Kind::Xor => format!("(bvxor {a} {b})"),
        Kind::Add => format!("(bvadd {a} {b})"),
        Kind::Mul => format!("(bvmul {a} {b})"),
        Kind::Shl => format!("(bvshl {a} {b})"),
        Kind::Lshr => format!("(bvlshr {a} {b})"),
        Kind::Eq => bit(format!("(= {a} {b})")),
        Kind::Below => bit(format!("(bvult {a} {b})")),
        Kind::If => format!("(ite (= {a} {}) {b} {c})", literal(1, 1)),
        Kind::Concat => format!("(concat {a} {b})"),
        Kind::Extract => {
            let low = u32::from(node.fields[1]);
            format!("((_ extract {} {low}) {a})", low + node.width - 1)
        }
        Kind::SignedBelow => bit(format!("(bvslt {a} {b})")),
        Kind::Ashr => format!("(bvashr {a} {b})"),
        Kind::Div => format!("(bvudiv {a} {b})"),
        Kind::SignExtend => {
            let front = node.width - problem.nodes[node.fields[0] as usize].width;
            format!("((_ sign_extend {front}) {a})")
        }
    }
}

/// That a node has a value, and the assertion of it.
fn equals(problem: &Problem, name: &str, id: usize, value: u64) -> String {
    format!("(= {name} {})", literal(value, problem.nodes[id].width))
}

pub fn pin(problem: &Problem, prefix: &str, id: usize, value: u64) -> String {
    format!("(assert {})\n", equals(problem, &format!("{prefix}n{id}"), id, value))
}

/// The assertions that every root is 1.
pub fn roots(problem: &Problem, prefix: &str) -> String {
    problem.roots.iter().map(|&root| pin(problem, prefix, root.into(), 1)).collect()
}

/// The question for the values of some nodes.
pub fn values(ids: impl Iterator<Item = usize>, prefix: &str) -> String {
    let names: Vec<String> = ids.map(|id| format!("{prefix}n{id}")).collect();
    if names.is_empty() {
        String::new()
    } else {
        format!("(get-value ({}))\n", names.join(" "))
    }
}

#[cfg(test)]
mod tests {
    use super::*;

    #[test]
    fn signed_kinds_and_division() {
        let text = "x = var 4\ny = slt x x\nz = ashr x x\nw = sext 7 x\nq = udiv x z\n";
        let problem = crate::form::parse(text).unwrap();
        let expected = "\
(declare-fun n0 () (_ BitVec 4))
(define-fun n1 () (_ BitVec 1) (ite (bvslt n0 n0) (_ bv1 1) (_ bv0 1)))
(define-fun n2 () (_ BitVec 4) (bvashr n0 n0))
(define-fun n3 () (_ BitVec 7) ((_ sign_extend 3) n0))
(define-fun n4 () (_ BitVec 4) (bvudiv n0 n2))
";
        assert_eq!(nodes(&problem, "", Variables::Open), expected);
    }

    /// Names that need bars, and inner nodes that are called as no variable is.
    #[test]
    fn a_model_is_asked_for() {
        let problem = crate::form::parse("x = var 4\ny = var 2 0*\nz = const 4 6\np = mul x z\n").unwrap();
        let expected = "\
(set-option :produce-models true)
(set-logic QF_BV)
(declare-fun |a b| () (_ BitVec 4))
(declare-fun n3 () (_ BitVec 2))
(assert (= (bvand n3 (_ bv0 2)) (_ bv0 2)))
(assert (= (bvor n3 (_ bv1 2)) (_ bv1 2)))
(assert
(let ((_n2 (_ bv6 4)))
(let ((_n3 (bvmul |a b| _n2)))
(and true (= _n3 (_ bv2 4)) (= n3 (_ bv1 2))))))
(check-sat)
(get-model)
";
        let symbols = ["a b", "n3"].map(|name| symbol(name).unwrap());
        assert_eq!(model(&problem, &symbols, &[(3, 2), (1, 1)]), expected);
        let shown = ["x!", "let", "9", "", "a|b", "a\\b"].map(|name| symbol(name).unwrap_or("none".into()));
        assert_eq!(shown, ["x!", "|let|", "|9|", "||", "none", "none"]);
    }

    #[test]
    fn the_worked_example() {
        let problem = crate::worked_example();
        let expected = "\
(declare-fun n0 () (_ BitVec 4))
(define-fun n1 () (_ BitVec 4) (_ bv6 4))
(define-fun n2 () (_ BitVec 4) (bvmul n0 n1))
(define-fun n3 () (_ BitVec 4) (_ bv2 4))
(define-fun n4 () (_ BitVec 1) (ite (= n2 n3) (_ bv1 1) (_ bv0 1)))
(assert (= n4 (_ bv1 1)))
(get-value (n0 n2))
";
        let text =
            nodes(&problem, "", Variables::Open) + &roots(&problem, "") + &values([0, 2].into_iter(), "");
        assert_eq!(text, expected);
    }
}
