//! Another solver's model: the list of names, the text of a get-model answer, refusals 30 to 36, and
//! whether every root is 1.

use crate::problem::{read, Problem, Refusal};
use crate::word::ones;
use std::collections::HashSet;

/// What is said of a model that is not refused.
#[derive(Clone, Copy, Debug, PartialEq, Eq)]
pub enum Judged {
    /// All roots are 1.
    Yes,
    /// The first root that is 0, by its position.
    No(usize),
}

/// Our word for the values of a text, or the first refusal: the problem's own, then 30 to 36, each tried
/// over the whole text before the next.
pub fn judge(problem: &[u8], list: &[u8], text: &[u8]) -> Result<Judged, Refusal> {
    let problem = read(problem)?;
    let variables: Vec<usize> = problem.variables().collect();
    let refused = |number, place| Refusal { number, place };
    let names = names(list);
    let different: HashSet<&[u8]> = names.iter().copied().collect();
    if names.len() != variables.len() || different.len() != names.len() {
        return Err(refused(30, 0));
    }
    let entries = entries(text).ok_or(refused(31, 0))?;
    let first = |number, fault: &dyn Fn(usize) -> bool| {
        (0..entries.len()).find(|&at| fault(at)).map_or(Ok(()), |at| Err(refused(number, at)))
    };
    let owner = |at: usize| names.iter().position(|name| *name == entries[at].name);
    first(32, &|at| owner(at).is_none())?;
    first(33, &|at| entries[..at].iter().any(|earlier| earlier.name == entries[at].name))?;
    let width = |at: usize| problem.nodes[variables[owner(at).expect("32 has passed")]].width;
    first(34, &|at| !entries[at].fits(width(at)))?;
    let mut values = vec![0; problem.nodes.len()];
    for (id, name) in variables.iter().zip(&names) {
        let entry = entries.iter().find(|entry| entry.name == *name).ok_or(refused(35, *id))?;
        values[*id] = entry.value.expect("34 has passed");
    }
    match variables.iter().find(|&&id| !problem.nodes[id].pair.agrees(values[id])) {
        Some(&id) => Err(refused(36, id)),
        None => Ok(roots(&problem, values)),
    }
}

fn roots(problem: &Problem, mut values: Vec<u64>) -> Judged {
    problem.evaluate(&mut values);
    let zero = problem.roots.iter().position(|&root| values[root as usize] == 0);
    zero.map_or(Judged::Yes, Judged::No)
}

/// The names of a list: one before each line feed, and what is left at the end if it is not empty. Of a
/// name with a bar at both ends the inside counts.
pub fn names(list: &[u8]) -> Vec<&[u8]> {
    let mut lines: Vec<&[u8]> = list.split(|&byte| byte == b'\n').collect();
    if lines.last().is_some_and(|last| last.is_empty()) {
        lines.pop();
    }
    lines.into_iter().map(without_bars).collect()
}

fn without_bars(name: &[u8]) -> &[u8] {
    match name {
        [b'|', inside @ .., b'|'] => inside,
        name => name,
    }
}

/// The names of an answer's entries, in their order; none of a text that is no answer.
pub fn entry_names(text: &[u8]) -> Option<Vec<&[u8]>> {
    Some(entries(text)?.into_iter().map(|entry| entry.name).collect())
}

/// The names and values of an answer's entries; none of a text that is no answer, or has a value that 64 bits do not hold.
pub fn assigned(text: &[u8]) -> Option<Vec<(&[u8], u64)>> {
    entries(text)?.into_iter().map(|entry| Some((entry.name, entry.value?))).collect()
}

/// What an entry says. A value of none is a decimal that 64 bits do not hold.
struct Entry<'a> {
    name: &'a [u8],
    sort: u32,
    width: u32,
    value: Option<u64>,
}

impl Entry<'_> {
    /// Whether sort and value are those of a variable of that width, and the value is not too large.
    fn fits(&self, width: u32) -> bool {
        self.sort == width && self.width == width && self.value.is_some_and(|value| value <= ones(width))
    }
}

/// A piece of the text with all that is inside its parentheses.
#[derive(Debug, PartialEq)]
enum Term<'a> {
    Bare(&'a [u8]),
    /// Without its bars.
    Quoted(&'a [u8]),
    List(Vec<Term<'a>>),
}

use Term::{Bare, List, Quoted};

/// The terms of a text; none where a parenthesis has no other, a bar has none, a backslash stands between
/// bars, or there is a quotation mark.
fn terms(text: &[u8]) -> Option<Vec<Term<'_>>> {
    let mut open = vec![Vec::new()];
    let mut rest = text;
    while let [first, after @ ..] = rest {
        let until = |stops: &[u8]| rest.iter().position(|byte| stops.contains(byte)).unwrap_or(rest.len());
        rest = match first {
            b' ' | b'\t' | b'\n' | b'\r' => after,
            b';' => &rest[until(b"\n\r")..],
            b'"' => return None,
            b'(' => {
                open.push(Vec::new());
                after
            }
            b')' => {
                let list = open.pop()?;
                open.last_mut()?.push(List(list));
                after
            }
            b'|' => {
                let end = after.iter().position(|&byte| byte == b'|')?;
                let (inside, after) = (&after[..end], &after[end + 1..]);
                if inside.contains(&b'\\') {
                    return None;
                }
                open.last_mut()?.push(Quoted(inside));
                after
            }
            _ => {
                let (bare, after) = rest.split_at(until(b" \t\n\r();|\""));
                open.last_mut()?.push(Bare(bare));
                after
            }
        };
    }
    let whole = open.pop()?;
    open.is_empty().then_some(whole)
}

/// `(`, perhaps `model`, entries, `)`, and nothing else.
fn entries(text: &[u8]) -> Option<Vec<Entry<'_>>> {
    let [List(answer)] = &terms(text)?[..] else {
        return None;
    };
    let entries = match &answer[..] {
        [Bare(b"model"), entries @ ..] => entries,
        entries => entries,
    };
    entries.iter().map(entry).collect()
}

/// `(define-fun NAME () (_ BitVec W) VALUE)`
fn entry<'a>(term: &Term<'a>) -> Option<Entry<'a>> {
    let List(parts) = term else {
        return None;
    };
    let [Bare(b"define-fun"), name, List(arguments), List(sort), value] = &parts[..] else {
        return None;
    };
    let [Bare(b"_"), Bare(b"BitVec"), Bare(sort)] = sort[..] else {
        return None;
    };
    let name = match name {
        Quoted(name) => name,
        Bare(name) if is_simple(name) => name,
        _ => return None,
    };
    let (sort, (width, value)) = (width(sort)?, value_of(value)?);
    arguments.is_empty().then_some(Entry { name, sort, width, value })
}

fn is_simple(symbol: &[u8]) -> bool {
    let in_symbols = |byte: &u8| byte.is_ascii_alphanumeric() || b"~!@$%^&*_-+=<>.?/".contains(byte);
    symbol.iter().all(in_symbols) && !symbol[0].is_ascii_digit()
}

/// A value with its own width: `#b..`, `#x..` or `(_ bvN w)`.
fn value_of(term: &Term) -> Option<(u32, Option<u64>)> {
    match term {
        Bare([b'#', b'b', digits @ ..]) => literal(digits, 2, 1),
        Bare([b'#', b'x', digits @ ..]) => literal(digits, 16, 4),
        List(parts) => match parts[..] {
            [Bare(b"_"), Bare([b'b', b'v', n @ ..]), Bare(bits)] => Some((width(bits)?, decimal(n)?)),
            _ => None,
        },
        _ => None,
    }
}

/// Digits of a base, so many bits each: 1 to 64 bits in all.
fn literal(digits: &[u8], base: u32, bits: usize) -> Option<(u32, Option<u64>)> {
    let width = digits.len() * bits;
    if !(1..=64).contains(&width) {
        return None;
    }
    let next = |value: u64, &byte: &u8| Some(value << bits | u64::from(char::from(byte).to_digit(base)?));
    Some((width as u32, Some(digits.iter().try_fold(0, next)?)))
}

/// A numeral that is a width of 1 to 64.
fn width(digits: &[u8]) -> Option<u32> {
    let width = decimal(digits)??;
    (1..=64).contains(&width).then_some(width as u32)
}

/// A numeral, without a leading zero; within, none where 64 bits do not hold it.
fn decimal(digits: &[u8]) -> Option<Option<u64>> {
    let numeral = match digits {
        [] => false,
        [b'0', _, ..] => false,
        digits => digits.iter().all(u8::is_ascii_digit),
    };
    numeral.then(|| std::str::from_utf8(digits).ok()?.parse().ok())
}

#[cfg(test)]
mod tests {
    use super::*;
    use crate::operator::Kind;
    use crate::problem::Node;
    use crate::word::Pair;

    /// x of 8 bits whose lowest is 1, y of 1 bit; roots: x = 5, y.
    fn problem() -> Vec<u8> {
        let node = |kind, width, fields, pair| Node { kind, width, fields, pair };
        let nodes = vec![
            node(Kind::Variable, 8, [0; 3], Pair { lo: 1, hi: 255 }),
            node(Kind::Variable, 1, [0; 3], Pair::free(1)),
            node(Kind::Constant, 8, [0; 3], Pair::fixed(5)),
            node(Kind::Eq, 1, [0, 2, 0], Pair::default()),
        ];
        Problem { nodes, roots: vec![3, 1] }.bytes()
    }

    fn said(list: &str, text: &str) -> Result<Judged, (u8, usize)> {
        judge(&problem(), list.as_bytes(), text.as_bytes()).map_err(|refusal| (refusal.number, refusal.place))
    }

    const X: &str = "(define-fun x () (_ BitVec 8) #x05)";
    const Y: &str = "(define-fun y () (_ BitVec 1) #b1)";

    #[test]
    fn models_in_all_their_forms() {
        for (x, answer) in [
            ("#x05", Ok(Judged::Yes)),
            ("#b00000101", Ok(Judged::Yes)),
            ("(_ bv5 8)", Ok(Judged::Yes)),
            ("#x07", Ok(Judged::No(0))),
            ("#xfF", Ok(Judged::No(0))),
            ("#x04", Err((36, 0))),
            ("#x5", Err((34, 0))),
            ("(_ bv256 8)", Err((34, 0))),
            ("(_ bv255 8)", Ok(Judged::No(0))),
            ("(_ bv99999999999999999999999 8)", Err((34, 0))),
            ("(_ bv05 8)", Err((31, 0))),
            ("(_ bv5 08)", Err((31, 0))),
            ("(_ bv5 0)", Err((31, 0))),
            ("(_ bv5 65)", Err((31, 0))),
            ("(_ |bv5| 8)", Err((31, 0))),
            ("#x00000000000000000", Err((31, 0))),
            ("#b", Err((31, 0))),
            ("#b2", Err((31, 0))),
            ("#x0g", Err((31, 0))),
            ("#X05", Err((31, 0))),
            ("5", Err((31, 0))),
        ] {
            let text = format!("(model (define-fun |x| () (_ BitVec 8) {x}) ; a \"remark\"\r {Y})");
            assert_eq!(said("x\ny\n", &text), answer, "{x}");
        }
        let no = format!("({X} (define-fun y () (_ BitVec 1) #b0))");
        assert_eq!(said("x\ny", &no), Ok(Judged::No(1)));
    }

    #[test]
    fn lists_of_names() {
        let text = format!("({Y}{X})");
        for list in ["x\ny\n", "x\ny", "|x|\n|y|"] {
            assert_eq!(said(list, &text), Ok(Judged::Yes), "{list}");
        }
        for list in ["", "\n", "x\n", "x\ny\n\n", "x\ny\nz", "x\nx", "x\n|x|\n"] {
            assert_eq!(said(list, ""), Err((30, 0)), "{list}");
        }
        assert_eq!(said("x\r\ny\n", &text), Err((32, 1)));
        assert_eq!(said("|\ny", &text), Err((32, 1)));
        let bare = "((define-fun || () (_ BitVec 8) #x05)(define-fun let () (_ BitVec 1) #b1))";
        assert_eq!(said("\n|let|", bare), Ok(Judged::Yes));
    }

    #[test]
    fn what_is_no_answer() {
        for text in [
            "",
            "(",
            ")",
            "sat",
            "(model",
            "(models)",
            "(|model|)",
            "(Model)",
            "(model model)",
            "()()",
            "\u{b}()",
            "()\"\"",
            "(|)",
        ] {
            assert_eq!(said("x\ny", text), Err((31, 0)), "{text}");
        }
        for entry in [
            "define-fun x () (_ BitVec 0) #x05",
            "define-fun x () (_ BitVec 65) #x05",
            "define-fun x () (_ BitVec 08) #x05",
            "define-fun x () (_ bitvec 8) #x05",
            "define-fun x (y) (_ BitVec 8) #x05",
            "define-fun x () (_ BitVec 8)",
            "define-fun x () (_ BitVec 8) #x05 #x05",
            "define-fun 8x () (_ BitVec 8) #x05",
            "define-fun #x () (_ BitVec 8) #x05",
            "define-fun x|y| () (_ BitVec 8) #x05",
            "define-fun |x\\y| () (_ BitVec 8) #x05",
            "define-fun () () (_ BitVec 8) #x05",
            "define-const x () (_ BitVec 8) #x05",
            "define-fun x () Bool true",
        ] {
            assert_eq!(said("x\ny", &format!("({X}{X}({entry}))")), Err((31, 0)), "{entry}");
        }
    }

    #[test]
    fn each_is_tried_over_the_whole_text() {
        let wide = "(define-fun y () (_ BitVec 2) #b01)";
        let odd = "(define-fun z () (_ BitVec 1) #b1)";
        for (text, answer) in [
            (format!("({X}{X}{wide}{odd})"), (32, 3)),
            (format!("({X}{wide}{X})"), (33, 2)),
            (format!("({X}{wide})"), (34, 1)),
            (format!("({wide})"), (34, 0)),
            ("()".into(), (35, 0)),
            (format!("({X})"), (35, 1)),
            ("((define-fun x () (_ BitVec 8) #x04))".into(), (35, 1)),
        ] {
            assert_eq!(said("x\ny", &text), Err(answer), "{text}");
        }
        assert_eq!(judge(b"TBV", b"", b""), Err(Refusal { number: 1, place: 0 }));
    }
}
