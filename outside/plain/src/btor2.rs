//! BTOR2 in: the converter in one pass, with a hash map for the ids.

use crate::kind::*;
use crate::layout::{Node, Refusal, HEADER, MOST_NODES, MOST_ROOTS, NODE};
use crate::low_bits;
use std::collections::HashMap;

/// What an id stands for.
#[derive(Clone, Copy)]
enum Named {
    Sort { width: u32 },
    Node(Operand),
}

#[derive(Clone, Copy, Default)]
struct Operand {
    id: u16,
    width: u32,
}

/// What a line makes: a node of a kind from its operands, or something of its own.
#[derive(Clone, Copy, PartialEq)]
enum Make {
    Input,
    Constant(Digits),
    /// Every operand of the line's width.
    Same(u8),
    /// Two operands of the same width to one bit.
    Bit(u8),
    Or,
    Sub,
    Neq,
    If,
    Concat,
    Slice,
    Extend {
        signed: bool,
    },
    Constraint,
}

#[derive(Clone, Copy, PartialEq)]
enum Digits {
    Binary,
    Decimal,
    Hexadecimal,
    Zero,
    One,
    Ones,
}

/// The most tokens that a line can have: an id, a keyword, four arguments and a symbol, and one more to see that there are more.
const TOKENS: usize = 8;

/// Writes the problem that a text is to the front of a buffer, and gives its length.
pub fn convert(text: &[u8], problem: &mut [u8]) -> Result<usize, Refusal> {
    if problem.len() < HEADER {
        return Err(Refusal { number: 5, place: 0 });
    }
    let mut converter = Converter {
        named: HashMap::new(),
        last: 0,
        nodes: Vec::with_capacity(64),
        roots: Vec::new(),
        is_root: [false; MOST_NODES + TOKENS],
        room: problem.len(),
    };
    for (at, line) in text.split(|&byte| byte == b'\n').enumerate() {
        converter.line(line).map_err(|number| Refusal { number, place: at + 1 })?;
    }
    Ok(converter.write(problem))
}

struct Converter {
    named: HashMap<u64, Named>,
    last: u64,
    nodes: Vec<Node>,
    roots: Vec<u16>,
    is_root: [bool; MOST_NODES + TOKENS],
    room: usize,
}

impl Converter {
    fn write(&self, problem: &mut [u8]) -> usize {
        let (header, rest) = problem.split_at_mut(HEADER);
        header[..5].copy_from_slice(b"TBV\x01\0");
        header[5..7].copy_from_slice(&(self.nodes.len() as u16).to_le_bytes());
        header[7..9].copy_from_slice(&(self.roots.len() as u16).to_le_bytes());
        let (nodes, roots) = rest.split_at_mut(NODE * self.nodes.len());
        nodes.copy_from_slice(self.nodes.as_flattened());
        for (place, root) in roots.chunks_mut(2).zip(&self.roots) {
            place.copy_from_slice(&root.to_le_bytes());
        }
        HEADER + NODE * self.nodes.len() + 2 * self.roots.len()
    }

    fn line(&mut self, line: &[u8]) -> Result<(), u8> {
        let (tokens, count) = tokens(line);
        if count == 0 {
            return Ok(());
        }
        let id = number(tokens[0]).flatten().filter(|&id| id > 0).ok_or(1)?;
        if count < 2 || !is_word(tokens[1]) {
            return Err(1);
        }
        if tokens[1] == b"sort" {
            return self.sort(id, &tokens[2..count]);
        }
        let (make, references) = making(tokens[1]).ok_or(2)?;
        let arguments = &tokens[2..count];
        let (sort, from) = match make {
            Make::Constraint => (None, 0),
            _ => (Some(number(arguments.first().ok_or(1)?).filter(|&sort| sort != Some(0)).ok_or(1)?), 1),
        };
        let numbers = match make {
            Make::Slice => 2,
            Make::Extend { .. } | Make::Constant(Digits::Binary | Digits::Decimal | Digits::Hexadecimal) => 1,
            _ => 0,
        };
        let whole = from + references + numbers;
        if arguments.len() < whole || arguments.len() > whole + 1 {
            return Err(1);
        }
        let mut referred = [(false, None); 3];
        for (place, token) in referred.iter_mut().zip(&arguments[from..from + references]) {
            let (negative, digits) = match token {
                [b'-', digits @ ..] => (true, digits),
                digits => (false, *digits),
            };
            *place = (negative, number(digits).filter(|&id| id != Some(0)).ok_or(1)?);
        }
        let rest = &arguments[from + references..whole];
        let mut bounds = [u64::MAX; 2];
        match make {
            Make::Constant(digits) => has_form(digits, rest)?,
            _ => {
                for (bound, token) in bounds.iter_mut().zip(rest) {
                    *bound = number(token).ok_or(1)?.unwrap_or(u64::MAX);
                }
            }
        }
        if id <= self.last {
            return Err(3);
        }
        let width = match sort {
            None => 1,
            Some(sort) => match sort.and_then(|sort| self.named.get(&sort)) {
                Some(&Named::Sort { width }) => width,
                _ => return Err(3),
            },
        };
        let mut operands = [Operand::default(); 3];
        for (operand, (_, id)) in operands.iter_mut().zip(&referred[..references]) {
            *operand = match id.and_then(|id| self.named.get(&id)) {
                Some(&Named::Node(node)) => node,
                _ => return Err(3),
            };
        }
        if !fits(make, width, operands.map(|operand| operand.width), bounds) {
            return Err(4);
        }
        let value = match make {
            Make::Constant(digits) => {
                value(digits, rest.first().copied().unwrap_or_default(), width).ok_or(4)?
            }
            _ => 0,
        };
        for (operand, &(negative, _)) in operands.iter_mut().zip(&referred[..references]) {
            if negative {
                operand.id = self.not(operand.id, operand.width);
            }
        }
        let made = self.make(make, width, operands, value, bounds);
        self.last = id;
        match make {
            Make::Constraint => {
                if !std::mem::replace(&mut self.is_root[usize::from(made)], true) {
                    self.roots.push(made);
                }
            }
            _ => {
                self.named.insert(id, Named::Node(Operand { id: made, width }));
            }
        }
        self.fits_the_room()
    }

    fn sort(&mut self, id: u64, rest: &[&[u8]]) -> Result<(), u8> {
        match rest.first() {
            Some(what) if is_word(what) && *what != b"bitvec" => return Err(2),
            Some(what) if is_word(what) => {}
            _ => return Err(1),
        }
        if rest.len() < 2 || rest.len() > 3 {
            return Err(1);
        }
        let width = number(rest[1]).ok_or(1)?;
        if id <= self.last {
            return Err(3);
        }
        match width {
            Some(width @ 1..=64) => {
                self.named.insert(id, Named::Sort { width: width as u32 });
                self.last = id;
                self.fits_the_room()
            }
            _ => Err(4),
        }
    }

    fn fits_the_room(&self) -> Result<(), u8> {
        let (nodes, roots) = (self.nodes.len(), self.roots.len());
        if nodes > MOST_NODES || roots > MOST_ROOTS || HEADER + NODE * nodes + 2 * roots > self.room {
            return Err(5);
        }
        Ok(())
    }

    fn make(&mut self, make: Make, w: u32, [a, b, c]: [Operand; 3], value: u64, bounds: [u64; 2]) -> u16 {
        match make {
            Make::Input => self.push(VARIABLE, w, [0; 3], 0, low_bits(w)),
            Make::Constant(_) => self.push(CONSTANT, w, [0; 3], value, value),
            Make::Same(NOT) => self.not(a.id, w),
            Make::Same(kind) | Make::Bit(kind) => self.push(kind, w, [a.id, b.id, 0], 0, 0),
            Make::Or => {
                let (a, b) = (self.not(a.id, w), self.not(b.id, w));
                let and = self.push(AND, w, [a, b, 0], 0, 0);
                self.not(and, w)
            }
            Make::Sub => {
                let a = self.not(a.id, w);
                let sum = self.push(ADD, w, [a, b.id, 0], 0, 0);
                self.not(sum, w)
            }
            Make::Neq => {
                let eq = self.push(EQ, 1, [a.id, b.id, 0], 0, 0);
                self.not(eq, 1)
            }
            Make::If => self.push(IF, w, [a.id, b.id, c.id], 0, 0),
            Make::Concat => self.push(CONCAT, w, [a.id, b.id, 0], 0, 0),
            Make::Slice => self.push(EXTRACT, w, [a.id, bounds[1] as u16, 0], 0, 0),
            Make::Extend { .. } if a.width == w => a.id,
            Make::Extend { signed: true } => self.push(SIGN_EXTEND, w, [a.id, 0, 0], 0, 0),
            Make::Extend { signed: false } => {
                let front = self.push(CONSTANT, w - a.width, [0; 3], 0, 0);
                self.push(CONCAT, w, [front, a.id, 0], 0, 0)
            }
            Make::Constraint => a.id,
        }
    }

    fn not(&mut self, id: u16, width: u32) -> u16 {
        self.push(NOT, width, [id, 0, 0], 0, 0)
    }

    fn push(&mut self, kind: u8, width: u32, fields: [u16; 3], lo: u64, hi: u64) -> u16 {
        let mut node = [0; NODE];
        (node[0], node[1]) = (kind, width as u8);
        for (place, field) in node[2..8].chunks_mut(2).zip(fields) {
            place.copy_from_slice(&field.to_le_bytes());
        }
        node[8..16].copy_from_slice(&lo.to_le_bytes());
        node[16..24].copy_from_slice(&hi.to_le_bytes());
        self.nodes.push(node);
        self.nodes.len() as u16 - 1
    }
}

/// The tokens of a line before a remark, and how many there are, at most one more than a line can have.
fn tokens(line: &[u8]) -> ([&[u8]; TOKENS], usize) {
    let (mut tokens, mut count) = ([[].as_slice(); TOKENS], 0);
    let runs = line.split(|byte| matches!(byte, b' ' | b'\t' | b'\r')).filter(|run| !run.is_empty());
    for token in runs.take_while(|token| token[0] != b';').take(TOKENS) {
        tokens[count] = token;
        count += 1;
    }
    (tokens, count)
}

fn is_word(token: &[u8]) -> bool {
    token.iter().all(u8::is_ascii_lowercase)
}

/// A number without leading zeros; within, none where 64 bits do not hold it.
fn number(token: &[u8]) -> Option<Option<u64>> {
    match token {
        [] | [b'0', _, ..] => return None,
        _ => {}
    }
    let mut value = Some(0u64);
    for byte in token {
        let digit = byte.wrapping_sub(b'0');
        if digit > 9 {
            return None;
        }
        value = value.and_then(|value| value.checked_mul(10)?.checked_add(digit.into()));
    }
    Some(value)
}

/// What a keyword makes, and from how many references.
fn making(keyword: &[u8]) -> Option<(Make, usize)> {
    Some(match keyword {
        b"input" => (Make::Input, 0),
        b"const" => (Make::Constant(Digits::Binary), 0),
        b"constd" => (Make::Constant(Digits::Decimal), 0),
        b"consth" => (Make::Constant(Digits::Hexadecimal), 0),
        b"zero" => (Make::Constant(Digits::Zero), 0),
        b"one" => (Make::Constant(Digits::One), 0),
        b"ones" => (Make::Constant(Digits::Ones), 0),
        b"not" => (Make::Same(NOT), 1),
        b"and" => (Make::Same(AND), 2),
        b"or" => (Make::Or, 2),
        b"xor" => (Make::Same(XOR), 2),
        b"add" => (Make::Same(ADD), 2),
        b"sub" => (Make::Sub, 2),
        b"mul" => (Make::Same(MUL), 2),
        b"sll" => (Make::Same(SHL), 2),
        b"srl" => (Make::Same(LSHR), 2),
        b"sra" => (Make::Same(ASHR), 2),
        b"eq" => (Make::Bit(EQ), 2),
        b"neq" => (Make::Neq, 2),
        b"ult" => (Make::Bit(BELOW), 2),
        b"slt" => (Make::Bit(SIGNED_BELOW), 2),
        b"ite" => (Make::If, 3),
        b"concat" => (Make::Concat, 2),
        b"slice" => (Make::Slice, 1),
        b"uext" => (Make::Extend { signed: false }, 1),
        b"sext" => (Make::Extend { signed: true }, 1),
        b"constraint" => (Make::Constraint, 1),
        _ => return None,
    })
}

fn has_form(digits: Digits, rest: &[&[u8]]) -> Result<(), u8> {
    let fits = match (digits, rest) {
        (Digits::Binary, [token]) => token.iter().all(|byte| matches!(byte, b'0' | b'1')),
        (Digits::Hexadecimal, [token]) => token.iter().all(u8::is_ascii_hexdigit),
        (Digits::Decimal, [token]) => number(token.strip_prefix(b"-").unwrap_or(token)).is_some(),
        _ => true,
    };
    fits.then_some(()).ok_or(1)
}

/// Whether widths and bounds fit the line's width.
fn fits(make: Make, w: u32, [a, b, c]: [u32; 3], [first, second]: [u64; 2]) -> bool {
    match make {
        Make::Input | Make::Constant(_) => true,
        Make::Same(NOT) => a == w,
        Make::Same(_) | Make::Or | Make::Sub => a == w && b == w,
        Make::Bit(_) | Make::Neq => a == b && w == 1,
        Make::If => a == 1 && b == w && c == w,
        Make::Concat => a + b == w,
        Make::Slice => second <= first && first < a.into() && first - second + 1 == w.into(),
        Make::Extend { .. } => first.saturating_add(a.into()) == w.into(),
        Make::Constraint => a == 1,
    }
}

/// The value of a constant, if it has so many bits.
fn value(digits: Digits, token: &[u8], width: u32) -> Option<u64> {
    let most = low_bits(width);
    match digits {
        Digits::Zero => Some(0),
        Digits::One => Some(1),
        Digits::Ones => Some(most),
        Digits::Binary if token.len() != width as usize => None,
        Digits::Binary => Some(token.iter().fold(0, |value, digit| value << 1 | u64::from(digit & 1))),
        Digits::Hexadecimal => {
            let zeros = token.iter().take_while(|&&digit| digit == b'0').count();
            let digits = &token[zeros..];
            let digit = |byte: u8| (byte & 15) + if byte > b'9' { 9 } else { 0 };
            let value = digits.iter().fold(0, |value, &byte| value << 4 | u64::from(digit(byte)));
            (digits.len() <= 16 && value <= most).then_some(value)
        }
        Digits::Decimal => match token {
            [b'-', digits @ ..] => {
                let value = number(digits)??;
                (value <= most / 2 + 1).then_some(value.wrapping_neg() & most)
            }
            digits => number(digits)?.filter(|&value| value <= most),
        },
    }
}
