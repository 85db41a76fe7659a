//! The converter: ids, widths and room, and the nodes and roots that a line makes.

use super::lines::{compare, line, shown, Fault, Line, Reference, Wrong};
use crate::operator::Kind;
use crate::problem::{Node, Problem, HEADER, MOST_NODES, MOST_ROOTS, NODE};
use crate::word::{ones, Pair};
use std::cmp::Ordering;
use std::collections::HashMap;

/// The problem that a text is, if so many bytes hold it; or the first line that fails.
pub fn convert(text: &[u8], room: usize) -> Result<Problem, Fault> {
    if room < HEADER {
        return Err(Fault {
            number: 5,
            line: 0,
            what: format!("{room} bytes are lent, fewer than {HEADER}"),
        });
    }
    let mut converter = Converter { named: HashMap::new(), last: b"0", problem: Problem::default(), room };
    for (at, text) in text.split(|&byte| byte == b'\n').enumerate() {
        let taken = line(text).and_then(|line| line.map_or(Ok(()), |line| converter.take(&line)));
        taken.map_err(|(number, what)| Fault { number, line: at + 1, what })?;
    }
    Ok(converter.problem)
}

/// The inputs' names of a text that is converted, in the order of their lines: the symbol; or the id of one that has
/// none, or whose symbol is a number or another input's too. So all are different, also without bars.
pub fn names(text: &[u8]) -> Vec<Vec<u8>> {
    let inputs = inputs(text);
    let mut symbols: HashMap<&[u8], usize> = HashMap::new();
    for symbol in inputs.iter().filter_map(|line| line.symbol) {
        *symbols.entry(without_bars(symbol)).or_default() += 1;
    }
    let fits = |symbol: &&[u8]| {
        let inside = without_bars(symbol);
        symbols[inside] == 1 && !inside.iter().all(u8::is_ascii_digit)
    };
    inputs.iter().map(|line| line.symbol.filter(fits).unwrap_or(line.id).to_vec()).collect()
}

/// The inputs' ids, in the order of their lines.
pub fn ids(text: &[u8]) -> Vec<Vec<u8>> {
    inputs(text).iter().map(|line| line.id.to_vec()).collect()
}

fn inputs(text: &[u8]) -> Vec<Line<'_>> {
    let lines = text.split(|&byte| byte == b'\n').filter_map(|text| line(text).ok().flatten());
    lines.filter(|line| line.keyword == "input").collect()
}

fn without_bars(symbol: &[u8]) -> &[u8] {
    match symbol {
        [b'|', inside @ .., b'|'] => inside,
        symbol => symbol,
    }
}

/// What an id stands for.
#[derive(Clone, Copy)]
enum Named {
    Sort(u32),
    Node(u16),
}

struct Converter<'a> {
    /// Digits have no leading zeros: the same number is the same digits.
    named: HashMap<&'a [u8], Named>,
    last: &'a [u8],
    problem: Problem,
    room: usize,
}

impl<'a> Converter<'a> {
    /// A line of the list: 3, then 4, then its nodes, then 5.
    fn take(&mut self, line: &Line<'a>) -> Result<(), Wrong> {
        if compare(line.id, self.last) != Ordering::Greater {
            return Err((3, format!("the id {} is not above {}", shown(line.id), shown(self.last))));
        }
        let width = line.sort.map(|id| self.sort(id)).transpose()?;
        let operands: Vec<u16> =
            line.references.iter().map(|reference| self.node(reference.id)).collect::<Result<_, _>>()?;
        let named = match (line.keyword, width) {
            ("sort", _) => Some(Named::Sort(width_of_sort(line.numbers[0])?)),
            ("constraint", _) => {
                self.constrain(line.references[0], operands[0])?;
                None
            }
            (_, Some(width)) => Some(Named::Node(self.line(line, width, &operands)?)),
            _ => unreachable!("every other keyword takes a sort"),
        };
        self.last = line.id;
        self.named.extend(named.map(|named| (line.id, named)));
        self.fits_the_room()
    }

    fn sort(&self, id: &[u8]) -> Result<u32, Wrong> {
        match self.named.get(id) {
            Some(&Named::Sort(width)) => Ok(width),
            _ => Err((3, format!("no sort {} stands above", shown(id)))),
        }
    }

    fn node(&self, id: &[u8]) -> Result<u16, Wrong> {
        match self.named.get(id) {
            Some(&Named::Node(node)) => Ok(node),
            _ => Err((3, format!("no node {} stands above", shown(id)))),
        }
    }

    fn width(&self, node: u16) -> u32 {
        self.problem.nodes[usize::from(node)].width
    }

    /// "over 1,024 nodes, over 256 roots, or 9 + 24 × nodes + 2 × roots over the room, as needed so far"
    fn fits_the_room(&self) -> Result<(), Wrong> {
        let (nodes, roots) = (self.problem.nodes.len(), self.problem.roots.len());
        let needed = HEADER + NODE * nodes + 2 * roots;
        if nodes > MOST_NODES {
            Err((5, format!("{nodes} nodes are needed, more than {MOST_NODES}")))
        } else if roots > MOST_ROOTS {
            Err((5, format!("{roots} roots are needed, more than {MOST_ROOTS}")))
        } else if needed > self.room {
            Err((5, format!("{needed} bytes are needed, and {} are lent", self.room)))
        } else {
            Ok(())
        }
    }

    /// A root, "once for each node, at its first constraint".
    fn constrain(&mut self, reference: Reference, operand: u16) -> Result<(), Wrong> {
        if self.width(operand) != 1 {
            return Err((4, format!("a constraint on {} bits", self.width(operand))));
        }
        let node = self.signed(reference, operand);
        if !self.problem.roots.contains(&node) {
            self.problem.roots.push(node);
        }
        Ok(())
    }

    /// The nodes of any other line, of which the last is the one that its id stands for.
    fn line(&mut self, line: &Line, width: u32, operands: &[u16]) -> Result<u16, Wrong> {
        let constant = match line.keyword {
            "const" => Some(binary(line.value, width)?),
            "constd" => Some(decimal(line.value, width)?),
            "consth" => Some(hexadecimal(line.value, width)?),
            "zero" => Some(0),
            "one" => Some(1),
            "ones" => Some(ones(width)),
            _ => None,
        };
        let widths: Vec<u32> = operands.iter().map(|&operand| self.width(operand)).collect();
        if !fits(line.keyword, width, &widths, &line.numbers) {
            let numbers: String = line.numbers.iter().map(|digits| format!(" {}", shown(digits))).collect();
            return Err((
                4,
                format!("{}{numbers} of widths {widths:?} to {width} does not fit", line.keyword),
            ));
        }
        let operands: Vec<u16> = (line.references.iter().zip(operands))
            .map(|(&reference, &operand)| self.signed(reference, operand))
            .collect();
        Ok(match constant {
            Some(value) => self.leaf(Kind::Constant, width, Pair::fixed(value)),
            None => self.nodes(line, width, &operands),
        })
    }

    /// An operand, or a not of it, never shared, where its reference is negative.
    fn signed(&mut self, reference: Reference, operand: u16) -> u16 {
        if reference.negative {
            self.not(operand)
        } else {
            operand
        }
    }

    fn nodes(&mut self, line: &Line, width: u32, operands: &[u16]) -> u16 {
        let kind = match (line.keyword, operands) {
            ("input", _) => return self.leaf(Kind::Variable, width, Pair::free(width)),
            ("or", &[a, b]) => {
                let (a, b) = (self.not(a), self.not(b));
                let and = self.inner(Kind::And, width, &[a, b]);
                return self.not(and);
            }
            ("sub", &[a, b]) => {
                let a = self.not(a);
                let sum = self.inner(Kind::Add, width, &[a, b]);
                return self.not(sum);
            }
            ("neq", _) => {
                let eq = self.inner(Kind::Eq, width, operands);
                return self.not(eq);
            }
            ("slice", &[a]) => {
                let lower = small(line.numbers[1]).expect("4 has passed");
                return self.inner(Kind::Extract, width, &[a, lower as u16]);
            }
            ("uext" | "sext", &[a]) if self.width(a) == width => return a,
            ("uext", &[a]) => {
                let front = self.leaf(Kind::Constant, width - self.width(a), Pair::fixed(0));
                return self.inner(Kind::Concat, width, &[front, a]);
            }
            ("not", _) => Kind::Not,
            ("and", _) => Kind::And,
            ("xor", _) => Kind::Xor,
            ("add", _) => Kind::Add,
            ("mul", _) => Kind::Mul,
            ("sll", _) => Kind::Shl,
            ("srl", _) => Kind::Lshr,
            ("sra", _) => Kind::Ashr,
            ("eq", _) => Kind::Eq,
            ("ult", _) => Kind::Below,
            ("slt", _) => Kind::SignedBelow,
            ("ite", _) => Kind::If,
            ("concat", _) => Kind::Concat,
            ("sext", _) => Kind::SignExtend,
            (other, _) => unreachable!("'{other}' makes no node"),
        };
        self.inner(kind, width, operands)
    }

    fn not(&mut self, operand: u16) -> u16 {
        self.inner(Kind::Not, self.width(operand), &[operand])
    }

    fn leaf(&mut self, kind: Kind, width: u32, pair: Pair) -> u16 {
        self.push(Node { kind, width, fields: [0; 3], pair })
    }

    fn inner(&mut self, kind: Kind, width: u32, used: &[u16]) -> u16 {
        let mut fields = [0; 3];
        fields[..used.len()].copy_from_slice(used);
        self.push(Node { kind, width, fields, pair: Pair::default() })
    }

    fn push(&mut self, node: Node) -> u16 {
        self.problem.nodes.push(node);
        self.problem.nodes.len() as u16 - 1
    }
}

/// A number that may be a width, a bound or an extension: none of one that is over 64, and so fits nowhere.
fn small(digits: &[u8]) -> Option<u32> {
    if compare(digits, b"64") == Ordering::Greater {
        return None;
    }
    std::str::from_utf8(digits).ok()?.parse().ok()
}

fn width_of_sort(digits: &[u8]) -> Result<u32, Wrong> {
    match small(digits) {
        None | Some(0) => Err((4, format!("a sort of {} bits, outside 1 to 64", shown(digits)))),
        Some(width) => Ok(width),
    }
}

/// Whether the widths of a line's operands and its numbers fit its own.
fn fits(keyword: &str, w: u32, widths: &[u32], numbers: &[&[u8]]) -> bool {
    match (keyword, widths, numbers) {
        ("not", &[a], _) => a == w,
        ("and" | "or" | "xor" | "add" | "sub" | "mul" | "sll" | "srl" | "sra", &[a, b], _) => {
            a == w && b == w
        }
        ("eq" | "neq" | "ult" | "slt", &[a, b], _) => a == b && w == 1,
        ("ite", &[a, b, c], _) => a == 1 && b == w && c == w,
        ("concat", &[a, b], _) => a + b == w,
        ("slice", &[a], &[upper, lower]) => match (small(upper), small(lower)) {
            (Some(upper), Some(lower)) => lower <= upper && upper < a && upper - lower + 1 == w,
            _ => false,
        },
        ("uext" | "sext", &[a], &[n]) => small(n).is_some_and(|n| a + n == w),
        _ => true,
    }
}

fn too_wide(digits: &[u8], width: u32) -> Wrong {
    (4, format!("the value {} is not one of {width} bits", shown(digits)))
}

/// "const has exactly w digits"
fn binary(digits: &[u8], width: u32) -> Result<u64, Wrong> {
    if digits.len() != width as usize {
        return Err((4, format!("{} digits for {width} bits", digits.len())));
    }
    Ok(digits.iter().fold(0, |value, digit| value << 1 | u64::from(digit - b'0')))
}

/// "consth a value below 2^w, leading zeros allowed"
fn hexadecimal(digits: &[u8], width: u32) -> Result<u64, Wrong> {
    let zeros = digits.iter().take_while(|&&digit| digit == b'0').count();
    let value = match &digits[zeros..] {
        [] => Some(0),
        counting => std::str::from_utf8(counting).ok().and_then(|text| u64::from_str_radix(text, 16).ok()),
    };
    value.filter(|&value| value <= ones(width)).ok_or_else(|| too_wide(digits, width))
}

/// "constd n < 2^w, or −n with n ≤ 2^(w−1), two's complement"
fn decimal(number: &[u8], width: u32) -> Result<u64, Wrong> {
    let (negative, digits) = match number {
        [b'-', digits @ ..] => (true, digits),
        digits => (false, digits),
    };
    let magnitude: Option<u128> = std::str::from_utf8(digits).ok().and_then(|digits| digits.parse().ok());
    let modulus = 1u128 << width;
    let value = match magnitude {
        Some(n) if !negative && n < modulus => n,
        Some(n) if negative && n <= modulus / 2 => (modulus - n) % modulus,
        _ => return Err(too_wide(number, width)),
    };
    Ok(value as u64)
}

#[cfg(test)]
mod tests {
    use super::*;

    /// A text's problem in words: its nodes, and its roots.
    fn made(text: &str) -> Result<String, (u8, usize)> {
        let problem = convert(text.as_bytes(), 100_000).map_err(|fault| (fault.number, fault.line))?;
        crate::problem::read(&problem.bytes()).expect("accepted");
        let nodes = problem.nodes.iter().map(|node| {
            let operands: String = node.operands().iter().map(|id| format!(" {id}")).collect();
            match node.kind {
                Kind::Constant => format!("const {}", node.pair.lo),
                Kind::Extract => format!("extract{operands} {}", node.fields[1]),
                kind => format!("{}{operands}", kind.name()),
            }
        });
        let nodes: Vec<String> = nodes.collect();
        Ok(format!("{}; {:?}", nodes.join(", "), problem.roots))
    }

    const BITS: &str = "1 sort bitvec 4\n2 sort bitvec 1\n3 input 1 x\n4 input 1\n5 input 2\n";

    #[test]
    fn lines_make_their_nodes() {
        for (lines, nodes) in [
            ("6 or 1 3 4", "not 0, not 1, and 3 4, not 5; []"),
            ("6 sub 1 3 -4", "not 1, not 0, add 4 3, not 5; []"),
            ("6 neq 2 3 4", "eq 0 1, not 3; []"),
            ("6 uext 1 5 3", "const 0, concat 3 2; []"),
            ("6 sext 1 -5 3\n7 not 1 6", "not 2, sext 3, not 4; []"),
            ("6 uext 1 3 0\n7 sext 1 -6 0 symbol;\n8 add 1 7 6", "not 0, add 3 0; []"),
            ("6 ite 1 -5 -3 -4", "not 2, not 0, not 1, if 3 4 5; []"),
            ("6 slice 2 3 2 2", "extract 0 2; []"),
            (
                "6 constraint -5 \n 7 constraint 5\n\n;\n8 constraint 5 ; no\n9 constraint -5",
                "not 2, not 2; [3, 2, 4]",
            ),
            (
                "6 constd 1 -8\n7 consth 1 00F\n8 const 1 0101\n9 ones 1\n10 one 1\n11 zero 1",
                "const 8, const 15, const 5, const 15, const 1, const 0; []",
            ),
            (
                "6 slt 2 3 4\r\n7 sra 1 3 4\t\t\r;\n8 ult 2 3 3 a b;c".trim_end_matches(" b;c"),
                "slt 0 1, ashr 0 1, below 0 0; []",
            ),
        ] {
            let expected = format!("var, var, var, {nodes}");
            assert_eq!(made(&format!("{BITS}{lines}")), Ok(expected), "{lines}");
        }
        assert_eq!(made(""), Ok("; []".into()));
    }

    #[test]
    fn lines_are_refused() {
        for (line, number) in [
            ("06 input 1", 1),
            ("0 input 1", 1),
            ("-6 input 1", 1),
            ("18446744073709551616 state 1", 1),
            ("6", 1),
            ("6 Input 1", 1),
            ("6 input", 1),
            ("6 input 1 a b", 1),
            ("6 input -1", 1),
            ("6 not 1 +3", 1),
            ("6 not 1 -0", 1),
            ("6 slice 2 3 02 2", 1),
            ("6 const 1 0121", 1),
            ("6 constd 1 -", 1),
            ("6 constd 1 007", 1),
            ("6 consth 1 0x7", 1),
            ("6 sort", 1),
            ("6 sort Bitvec 3", 1),
            ("6 sort bitvec", 1),
            ("6 sort array", 2),
            ("6 sort bitvecs x y z", 2),
            ("6 state", 2),
            ("5 output 0 0 0", 2),
            ("5 input 1", 3),
            ("3 not 1 77", 3),
            ("6 input 3", 3),
            ("6 input 9", 3),
            ("6 not 1 2", 3),
            ("6 not 1 6", 3),
            ("6 not 1 18446744073709551619", 3),
            ("6 slice 9 3 4 4", 3),
            ("6 sort bitvec 0", 4),
            ("6 sort bitvec 65", 4),
            ("6 sort bitvec 18446744073709551617", 4),
            ("6 not 2 3", 4),
            ("6 eq 1 3 4", 4),
            ("6 ite 1 3 3 4", 4),
            ("6 concat 1 3 5", 4),
            ("6 slice 2 3 4 4", 4),
            ("6 slice 2 3 1 2", 4),
            ("6 uext 1 5 18446744073709551619", 4),
            ("6 sext 1 3 1", 4),
            ("6 constraint 3", 4),
            ("6 const 1 00001", 4),
            ("6 consth 1 10", 4),
            ("6 constd 1 16", 4),
            ("6 constd 1 -9", 4),
            ("6 constd 1 99999999999999999999999999999999999999999999", 4),
        ] {
            let text = format!("{BITS}{line} ; remark\n7 nonsense");
            assert_eq!(made(&text), Err((number, 6)), "{line}");
        }
        assert_eq!(made("18446744073709551615 sort bitvec 64"), Ok("; []".into()));
        assert_eq!(
            made("1 sort bitvec 64\n2 constd 1 -9223372036854775808 -"),
            Ok("const 9223372036854775808; []".into())
        );
    }

    #[test]
    fn room_is_needed_so_far() {
        let refused = |text: &str, room| {
            convert(text.as_bytes(), room)
                .map(|problem| problem.bytes().len())
                .map_err(|f| (f.number, f.line))
        };
        assert_eq!(refused("nonsense", 8), Err((5, 0)));
        assert_eq!(refused("", 9), Ok(9));
        assert_eq!(refused(&format!("{BITS}6 constraint 5"), 83), Ok(83));
        assert_eq!(refused(&format!("{BITS}6 constraint 5"), 82), Err((5, 6)));
        assert_eq!(refused(&format!("{BITS}6 constraint 5"), 80), Err((5, 5)));
        assert_eq!(refused(&format!("{BITS}6 constraint 3"), 82), Err((4, 6)));
        let many = |count: usize| {
            let inputs: String = (6..6 + count).map(|id| format!("{id} input 1\n")).collect();
            refused(&format!("1 sort bitvec 1\n{inputs}"), usize::MAX)
        };
        assert_eq!(many(1024), Ok(9 + 24 * 1024));
        assert_eq!(many(1025), Err((5, 1026)));
    }

    #[test]
    fn names_are_all_different() {
        let text = "1 sort bitvec 1\n2 input 1 x\n3 input 1\n4 input 1 y;z\n5 input 1 |x|\n6 input 1 3\n7 input 1 a ;b";
        let names: Vec<String> =
            names(text.as_bytes()).into_iter().map(|name| String::from_utf8(name).unwrap()).collect();
        assert_eq!(names, ["2", "3", "y;z", "5", "6", "a"]);
    }
}
