//! A problem from text, one line a node:
//!
//! ```text
//! x   = var 4            # 4 bits, all free
//! y   = var 4 10**       # the top two bits fixed at 1 and 0
//! six = const 4 6        # also 0x6, 0b0110
//! p   = mul x six        # the width follows from the operands
//! q   = extract p 1 2    # from bit 1, two bits
//! s   = sext 8 p         # 8 bits, the top bit repeated in front
//! ok  = eq p y
//! root ok
//! ```
//!
//! Names are any words; nodes have their ids in the order of the lines. What follows `#` is a remark. Beside
//! the kinds there are names that are expanded into several nodes: see `sugar`.

use crate::sugar::{self, Sugar};
use generate::Builder;
use model::problem::{MOST_NODES, MOST_ROOTS};
use model::{ones, Kind, Pair, Problem};
use std::collections::HashMap;

/// The problem that a text describes, or the line and what is wrong with it.
pub fn parse(text: &str) -> Result<Problem, String> {
    named(text).map(|(problem, _)| problem)
}

/// The same with the names of the variables, by ascending id.
pub fn named(text: &str) -> Result<(Problem, Vec<String>), String> {
    let mut draft = Draft { builder: Builder::new(), ids: HashMap::new() };
    // Some editors begin a text with a mark of its encoding.
    for (index, line) in text.trim_start_matches('\u{feff}').lines().enumerate() {
        let words: Vec<&str> = line.split('#').next().unwrap_or("").split_whitespace().collect();
        draft.line(&words).map_err(|fault| format!("line {}: {fault}", index + 1))?;
    }
    let (problem, mut names) = (draft.builder.problem, draft.ids.into_iter().collect::<Vec<_>>());
    names.retain(|&(_, id)| problem.nodes[usize::from(id)].kind == Kind::Variable);
    names.sort_by_key(|&(_, id)| id);
    Ok((problem, names.into_iter().map(|(name, _)| name).collect()))
}

struct Draft {
    builder: Builder,
    ids: HashMap<String, u16>,
}

impl Draft {
    fn line(&mut self, words: &[&str]) -> Result<(), String> {
        match words {
            [] => Ok(()),
            [name, "=", kind, rest @ ..] => {
                let id = self.node(kind, rest)?;
                match self.ids.insert(name.to_string(), id) {
                    Some(_) => Err(format!("there is a node '{name}' already")),
                    None => Ok(()),
                }
            }
            ["root"] => Err("expected: root NODE..".into()),
            ["root", names @ ..] => names.iter().try_for_each(|name| self.root(name)),
            _ => Err("neither 'NAME = KIND ..' nor 'root NODE..'".into()),
        }
    }

    fn root(&mut self, name: &str) -> Result<(), String> {
        let id = self.id(name)?;
        match self.builder.width(id) {
            1 if self.builder.problem.roots.contains(&id) => {
                Err(format!("root '{name}' stands above already"))
            }
            1 if self.builder.problem.roots.len() == MOST_ROOTS => {
                Err(format!("more than {MOST_ROOTS} roots"))
            }
            1 => {
                self.builder.root(id);
                Ok(())
            }
            width => Err(format!("root '{name}' has {width} bits, not 1")),
        }
    }

    fn node(&mut self, kind: &str, rest: &[&str]) -> Result<u16, String> {
        let id = match (sugar::named(kind), Kind::ALL.into_iter().find(|k| k.name() == kind)) {
            (Some(sugar), _) => self.sugar(sugar, rest)?,
            (None, Some(kind)) => self.node_of(kind, rest)?,
            (None, None) if kind == "zext" => {
                let (from, width) = self.extended("zext", rest)?;
                sugar::zext(&mut self.builder, from, width)
            }
            (None, None) => return Err(format!("no kind '{kind}'")),
        };
        if self.builder.len() > MOST_NODES {
            return Err(format!("more than {MOST_NODES} nodes"));
        }
        Ok(id)
    }

    fn node_of(&mut self, kind: Kind, rest: &[&str]) -> Result<u16, String> {
        let id = match (kind, rest) {
            (Kind::Variable, [bits]) => {
                let width = width(bits)?;
                self.builder.variable(width, Pair::free(width))
            }
            (Kind::Variable, [bits, digits]) => {
                let width = width(bits)?;
                self.builder.variable(width, ternary(digits, width)?)
            }
            (Kind::Constant, [bits, value]) => {
                let width = width(bits)?;
                let value = number(value)?;
                if value > ones(width) {
                    return Err(format!("{value} has more than {width} bits"));
                }
                self.builder.constant(width, value)
            }
            (Kind::Extract, [from, low, bits]) => {
                let (from, width) = (self.id(from)?, width(bits)?);
                let low = u32::try_from(number(low)?).unwrap_or(u32::MAX);
                if low.saturating_add(width) > self.builder.width(from) {
                    return Err(format!(
                        "{width} bits from bit {low} are not in a node of {} bits",
                        self.builder.width(from)
                    ));
                }
                self.builder.extract(from, low, width)
            }
            (Kind::SignExtend, _) => {
                let (from, width) = self.extended("sext", rest)?;
                self.builder.sign_extend(from, width)
            }
            (_, names) if names.len() == kind.operands() && !names.is_empty() => {
                let operands = names.iter().map(|name| self.id(name)).collect::<Result<Vec<_>, _>>()?;
                self.builder.node(kind, &operands)
            }
            _ => return Err(format!("expected: {}", usage(kind))),
        };
        self.fits(id)
    }

    /// The nodes that a name stands for.
    fn sugar(&mut self, sugar: &Sugar, names: &[&str]) -> Result<u16, String> {
        if names.len() != sugar.operands {
            return Err(format!("expected: {}{}", sugar.name, [" A", " A B"][sugar.operands - 1]));
        }
        let operands = names.iter().map(|name| self.id(name)).collect::<Result<Vec<_>, _>>()?;
        let widths: Vec<u32> = operands.iter().map(|&id| self.builder.width(id)).collect();
        if !sugar.takes(&widths) {
            return Err(misfit(sugar.name, &widths));
        }
        Ok(sugar.expand(&mut self.builder, &operands))
    }

    /// The node and the greater width of an extension.
    fn extended(&self, name: &str, rest: &[&str]) -> Result<(u16, u32), String> {
        let [bits, from] = rest else {
            return Err(format!("expected: {name} WIDTH NODE"));
        };
        let (width, from) = (width(bits)?, self.id(from)?);
        match self.builder.width(from) {
            own if own < width => Ok((from, width)),
            own => Err(format!("a node of {own} bits is not extended to {width}")),
        }
    }

    /// The node just added, if its widths fit.
    fn fits(&self, id: u16) -> Result<u16, String> {
        let operator = self.builder.problem.operator(id as usize);
        if operator.widths_fit() && operator.width <= operator.kind.widest() {
            return Ok(id);
        }
        Err(misfit(operator.kind.name(), &operator.widths[..operator.kind.operands()]))
    }

    fn id(&self, name: &str) -> Result<u16, String> {
        self.ids.get(name).copied().ok_or(format!("no node '{name}' above"))
    }
}

fn misfit(name: &str, widths: &[u32]) -> String {
    let widths: Vec<String> = widths.iter().map(u32::to_string).collect();
    format!("{name} does not take operands of {} bits", widths.join(", "))
}

fn usage(kind: Kind) -> String {
    match kind {
        Kind::Variable => "var WIDTH, or var WIDTH DIGITS with 0, 1 or * for each bit".into(),
        Kind::Constant => "const WIDTH VALUE".into(),
        Kind::Extract => "extract NODE LOWEST-BIT WIDTH".into(),
        _ => format!("{}{}", kind.name(), [" A", " A B", " A B C"][kind.operands() - 1]),
    }
}

fn width(word: &str) -> Result<u32, String> {
    match number(word) {
        Ok(width @ 1..=64) => Ok(width as u32),
        _ => Err(format!("'{word}' is not a width of 1 to 64")),
    }
}

/// A number: decimal, 0x.. or 0b.., with _ anywhere between its digits.
fn number(word: &str) -> Result<u64, String> {
    let (digits, radix) = match (word.strip_prefix("0x"), word.strip_prefix("0b")) {
        (Some(hex), _) => (hex, 16),
        (_, Some(binary)) => (binary, 2),
        _ => (word, 10),
    };
    // The standard library would take a sign, too.
    let parsed = Some(digits).filter(|digits| !digits.starts_with('+'));
    parsed
        .and_then(|digits| u64::from_str_radix(&digits.replace('_', ""), radix).ok())
        .ok_or(format!("'{word}' is not a number of 64 bits"))
}

/// A ternary word, its highest bit first: 0 and 1 are fixed, * is free.
fn ternary(digits: &str, width: u32) -> Result<Pair, String> {
    let digits = digits.replace('_', "");
    if digits.chars().count() != width as usize {
        return Err(format!("'{digits}' has not {width} digits"));
    }
    digits.chars().try_fold(Pair::default(), |pair, digit| {
        let (lo, hi) = match digit {
            '0' => (0, 0),
            '1' => (1, 1),
            '*' => (0, 1),
            other => return Err(format!("'{other}' is none of 0, 1 and *")),
        };
        Ok(Pair { lo: pair.lo << 1 | lo, hi: pair.hi << 1 | hi })
    })
}

#[cfg(test)]
mod tests {
    use super::*;

    #[test]
    fn the_worked_example() {
        let text = "x = var 4\nsix = const 4 0b01_10 # six\np = mul x six\n\ntwo = const 4 2\nok = eq p two\nroot ok\n";
        assert_eq!(parse(text), Ok(crate::worked_example()));
        assert_eq!(parse(&format!("\u{feff}{}", text.replace('\n', "\r\n"))), Ok(crate::worked_example()));
    }

    #[test]
    fn nodes_of_one_line_count_one_by_one() {
        let with = |variables: usize| {
            let lines: String = (0..variables).map(|at| format!("x{at} = var 1\n")).collect();
            parse(&format!("{lines}y = or x0 x1\n")).map(|problem| problem.nodes.len())
        };
        assert_eq!(with(1020), Ok(1024));
        assert_eq!(with(1021), Err("line 1022: more than 1024 nodes".into()));
    }

    #[test]
    fn variables_have_names() {
        let text = "b = var 4\na = var 4\nk = const 4 1\ns = add a b\nz = var 1\nroot z\n";
        assert_eq!(named(text).unwrap().1, ["b", "a", "z"]);
    }

    #[test]
    fn faults_name_their_line() {
        let faults = [
            ("x = var 0", "line 1: '0' is not a width of 1 to 64"),
            ("x = var 65", "line 1: '65' is not a width of 1 to 64"),
            ("x = var 2 01*", "line 1: '01*' has not 2 digits"),
            ("x = var 2 0a", "line 1: 'a' is none of 0, 1 and *"),
            ("x = const 2 4", "line 1: 4 has more than 2 bits"),
            ("x = const 2 four", "line 1: 'four' is not a number of 64 bits"),
            ("x = const 2 +1", "line 1: '+1' is not a number of 64 bits"),
            (
                "x = const 64 18446744073709551616",
                "line 1: '18446744073709551616' is not a number of 64 bits",
            ),
            ("x = var 2\nx = var 2", "line 2: there is a node 'x' already"),
            ("x = not y", "line 1: no node 'y' above"),
            ("x = var 2\ny = add x", "line 2: expected: add A B"),
            ("x = var 2\ny = var 3\nz = add x y", "line 3: add does not take operands of 2, 3 bits"),
            ("x = var 40\nz = concat x x", "line 2: concat does not take operands of 40, 40 bits"),
            ("x = var 4\ny = extract x 3 2", "line 2: 2 bits from bit 3 are not in a node of 4 bits"),
            ("x = var 4\nroot x", "line 2: root 'x' has 4 bits, not 1"),
            ("x = var 1\ny = var 1\nroot x y\nroot x", "line 4: root 'x' stands above already"),
            ("x = var 4\ny = sext 4 x", "line 2: a node of 4 bits is not extended to 4"),
            ("x = var 17\ny = udiv x x", "line 2: udiv does not take operands of 17, 17 bits"),
            ("x = var 4\ny = sext x", "line 2: expected: sext WIDTH NODE"),
            ("x = var 4\ny = zext 3 x", "line 2: a node of 4 bits is not extended to 3"),
            ("x = var 4\ny = zext 5 x x", "line 2: expected: zext WIDTH NODE"),
            ("x = var 4\ny = neg x x", "line 2: expected: neg A"),
            ("x = var 4\ny = or x", "line 2: expected: or A B"),
            ("x = var 4\ny = var 5\nz = or x y", "line 3: or does not take operands of 4, 5 bits"),
            ("x = var 17\ny = urem x x", "line 2: urem does not take operands of 17, 17 bits"),
            ("x = var 4\ny = var 5\nz = slt x y", "line 3: slt does not take operands of 4, 5 bits"),
            ("x = nand y y", "line 1: no kind 'nand'"),
            ("x var 4", "line 1: neither 'NAME = KIND ..' nor 'root NODE..'"),
            ("x = var 1\n\nroot # x", "line 3: expected: root NODE.."),
        ];
        for (text, fault) in faults {
            assert_eq!(parse(text).unwrap_err(), fault, "{text}");
        }
    }
}
