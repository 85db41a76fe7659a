//! What BTOR2 lines mean, straight from the format: the value of each line under values of the inputs, and whether
//! the constraints hold. By whole numbers, line by line; no node is made. For texts that are not refused.

use std::collections::HashMap;

/// A value and its width.
type Word = (u128, u32);

/// What lines mean, those so far.
#[derive(Clone, Debug, Default)]
pub struct Meaning {
    sorts: HashMap<u64, u32>,
    /// The values of all lines that have one, by id.
    pub values: HashMap<u64, Word>,
    /// Whether each constraint holds, in the order of their lines.
    pub constraints: Vec<bool>,
}

/// The meaning of a text, where the inputs have these values in the order of their lines.
pub fn mean(text: &[u8], inputs: &[u64]) -> Meaning {
    let mut inputs = inputs.iter().copied();
    let mut meaning = Meaning::default();
    text.split(|&byte| byte == b'\n').for_each(|line| meaning.take(line, || inputs.next()));
    meaning
}

impl Meaning {
    /// One line more; the value of an input is asked for, and is 0 where there is none.
    pub fn take(&mut self, line: &[u8], input: impl FnOnce() -> Option<u64>) {
        let line = String::from_utf8_lossy(line);
        let words: Vec<&str> = (line.split([' ', '\t', '\r']).filter(|word| !word.is_empty()))
            .take_while(|word| !word.starts_with(';'))
            .collect();
        let [id, keyword, rest @ ..] = &words[..] else {
            assert!(words.is_empty(), "a refused line: {line}");
            return;
        };
        let id = number(id);
        match *keyword {
            "sort" => {
                self.sorts.insert(id, number(rest[1]) as u32);
            }
            "constraint" => self.constraints.push(self.referred(rest[0]).0 == 1),
            _ => {
                let width = self.sorts[&number(rest[0])];
                let value = match *keyword {
                    "input" => input().unwrap_or(0).into(),
                    keyword => self.value(keyword, width, &rest[1..]),
                };
                self.values.insert(id, (value % (1 << width), width));
            }
        }
    }

    /// Whether all constraints hold.
    pub fn holds(&self) -> bool {
        self.constraints.iter().all(|&holds| holds)
    }
}

fn number(digits: &str) -> u64 {
    digits.parse().expect("a line that is not refused")
}

/// The number that a word stands for where its top bit counts below 0.
fn signed((value, width): Word) -> i128 {
    let value = value as i128;
    if value < 1 << (width - 1) {
        value
    } else {
        value - (1 << width)
    }
}

impl Meaning {
    /// What a reference refers to; a negative one to the complement.
    fn referred(&self, reference: &str) -> Word {
        match reference.strip_prefix('-') {
            None => self.values[&number(reference)],
            Some(id) => {
                let (value, width) = self.values[&number(id)];
                ((1 << width) - 1 - value, width)
            }
        }
    }

    /// A line's value, from what follows its sort; to be taken modulo 2^width.
    fn value(&self, keyword: &str, width: u32, rest: &[&str]) -> u128 {
        let modulus = 1u128 << width;
        let operand = |at: usize| self.referred(rest[at]);
        let [a, b] = match keyword {
            "zero" => return 0,
            "one" => return 1,
            "ones" => return modulus - 1,
            "const" => return u128::from_str_radix(rest[0], 2).expect("binary digits"),
            "consth" => return u128::from_str_radix(rest[0].trim_start_matches('0'), 16).unwrap_or(0),
            "constd" => {
                return rest[0].parse::<i128>().expect("decimal digits").rem_euclid(modulus as i128) as u128
            }
            "not" => return modulus - 1 - operand(0).0,
            "uext" => return operand(0).0,
            "sext" => return signed(operand(0)).rem_euclid(modulus as i128) as u128,
            "slice" => return operand(0).0 >> number(rest[2]),
            "ite" => return if operand(0).0 == 1 { operand(1).0 } else { operand(2).0 },
            _ => [operand(0), operand(1)],
        };
        match keyword {
            "and" => a.0 & b.0,
            "or" => a.0 | b.0,
            "xor" => a.0 ^ b.0,
            "add" => a.0 + b.0,
            "sub" => a.0 + modulus - b.0,
            "mul" => a.0 * b.0,
            "sll" if b.0 < width.into() => a.0 << b.0,
            "srl" if b.0 < width.into() => a.0 >> b.0,
            "sll" | "srl" => 0,
            "sra" => (signed(a) >> b.0.min(127)).rem_euclid(modulus as i128) as u128,
            "eq" => (a.0 == b.0).into(),
            "neq" => (a.0 != b.0).into(),
            "ult" => (a.0 < b.0).into(),
            "slt" => (signed(a) < signed(b)).into(),
            "concat" => (a.0 << b.1) + b.0,
            other => panic!("'{other}' has no value"),
        }
    }
}

#[cfg(test)]
mod tests {
    use super::*;

    /// The values of some lines over x = 5 and y = 12, of 4 bits.
    #[test]
    fn values_of_four_bits() {
        let bits = "1 sort bitvec 4\n2 sort bitvec 1\n3 sort bitvec 8\n4 input 1 x\n5 input 1 y ; 6 remark\n";
        for (line, value) in [
            ("and 1 4 5", 4),
            ("or 1 4 5", 13),
            ("xor 1 4 -5", 6),
            ("add 1 4 5", 1),
            ("sub 1 4 5", 9),
            ("mul 1 4 5", 12),
            ("sll 1 5 4", 0),
            ("srl 1 5 4", 0),
            ("sra 1 5 4", 15),
            ("sra 1 4 5", 0),
            ("eq 2 4 -5", 0),
            ("neq 2 4 5", 1),
            ("ult 2 4 5", 1),
            ("slt 2 4 5", 0),
            ("concat 3 4 5", 0x5c),
            ("slice 2 5 2 2", 1),
            ("uext 3 5 4", 12),
            ("sext 3 5 4", 0xfc),
            ("not 1 -4", 5),
            ("constd 1 -8", 8),
            ("constd 1 -0", 0),
            ("consth 1 000F", 15),
            ("consth 1 00", 0),
            ("const 1 0110", 6),
            ("ones 1 symbol", 15),
        ] {
            let meaning = mean(format!("{bits}7 {line}").as_bytes(), &[5, 12]);
            assert_eq!(meaning.values[&7].0, value, "{line}");
        }
        let held = mean(
            format!("{bits}7 ult 2 5 4\n8 constraint 7\n9 constraint -7\n10 ite 1 7 4 5").as_bytes(),
            &[5, 12],
        );
        assert_eq!((held.constraints, held.values[&10]), (vec![false, true], (12, 4)));
    }
}
