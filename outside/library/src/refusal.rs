//! Refusals: number, place and meaning; those of a BTOR2 text have numbers of their own.

use std::fmt::{Display, Formatter};

/// A refusal's number, and its place: a node's id, a root's or an entry's position, or 0.
#[derive(Clone, Copy, Debug, PartialEq, Eq)]
pub struct Refusal {
    pub number: u8,
    pub place: u64,
}

/// What a refusal's place is.
#[derive(Clone, Copy, Debug, PartialEq, Eq)]
pub enum Place {
    /// The bytes or the call as a whole.
    Whole,
    /// A node, by its id.
    Node(u64),
    /// A root, by its position.
    Root(u64),
    /// An entry of another solver's model, from 0.
    Entry(u64),
}

impl Refusal {
    /// The refusal that a call answers as number + 256 × place; 0 is none.
    pub(crate) fn of(answer: u64) -> Result<(), Refusal> {
        match answer {
            0 => Ok(()),
            refused => Err(Refusal { number: refused as u8, place: refused >> 8 }),
        }
    }

    pub fn at(self) -> Place {
        match self.number {
            7..=12 | 15 | 20..=22 | 35 | 36 => Place::Node(self.place),
            13 | 16 => Place::Root(self.place),
            32..=34 => Place::Entry(self.place),
            _ => Place::Whole,
        }
    }

    /// What the number means, in words.
    pub fn meaning(self) -> &'static str {
        match self.number {
            1 => "fewer than 9 bytes",
            2 => "the mark is not TBV",
            3 => "the version is not 1",
            4 => "more than 1,024 nodes",
            5 => "more than 256 roots",
            6 => "the length is not 9 + 24 for each node + 2 for each root",
            7 => "the kind is over 17",
            8 => "the width is 0 or over 64",
            9 => "an operand's id is not below the node's own",
            10 => "a field that the kind does not use is not zero",
            11 => "the widths do not fit",
            12 => "lo, hi are not a ternary word of the width, or a constant's lo and hi differ",
            13 => "the root is no node, or one of more than 1 bit",
            14 => "fewer places than nodes",
            15 => "a variable's start does not agree with its pair",
            16 => "the root stands earlier in the file",
            17 => "more than 256 starts, or lengths or budgets that are not one a start",
            18 => "the lengths' sum exceeds the tape",
            19 => "fewer places than starts times nodes",
            20 => "a division of more than 16 bits",
            21 => "an operand's id is no node's",
            22 => "the node can never be placed: it reads itself, or operands under it form a circle",
            23 => "no name, or more than 8",
            24 => "a name that is no variable, or is given twice",
            25 => "a lent output is too short",
            26 => "fewer than 64 times as many places to keep in as nodes",
            30 => "too few or too many names for the variables, or one twice",
            31 => "no get-model answer of define-fun entries, or a width outside 1 to 64",
            32 => "no variable has the name",
            33 => "an earlier entry has the name",
            34 => "sort or value are not of the variable's width, or the value is too large",
            35 => "the variable has no entry",
            36 => "the value contradicts a fixed bit",
            _ => "no such refusal",
        }
    }
}

/// `refused NUMBER at PLACE`, as tvrun prints it, what the place is, and the meaning.
impl Display for Refusal {
    fn fmt(&self, f: &mut Formatter) -> std::fmt::Result {
        write!(f, "refused {} at {}", self.number, self.place)?;
        match self.at() {
            Place::Whole => write!(f, ": {}", self.meaning()),
            Place::Node(id) => write!(f, ": node {id}: {}", self.meaning()),
            Place::Root(position) => write!(f, ": root {position}: {}", self.meaning()),
            Place::Entry(position) => write!(f, ": entry {position}: {}", self.meaning()),
        }
    }
}

impl std::error::Error for Refusal {}

/// A BTOR2 text's refusal: its number, and the line that fails, from 1; 0 where fewer than 9 bytes are lent.
#[derive(Clone, Copy, Debug, PartialEq, Eq)]
pub struct LineRefusal {
    pub number: u8,
    pub line: u64,
}

impl LineRefusal {
    /// The refusal that the call answers as number + 256 × line; 0 is none.
    pub(crate) fn of(answer: u64) -> Result<(), LineRefusal> {
        Refusal::of(answer).map_err(|Refusal { number, place }| LineRefusal { number, line: place })
    }

    /// What the number means, in words.
    pub fn meaning(self) -> &'static str {
        match self.number {
            1 => "not a line of the format",
            2 => "a keyword outside the list",
            3 => "an id not increasing or not defined",
            4 => "sorts or widths that do not fit, or a value too wide",
            5 => "more than 1,024 nodes, 256 roots or the lent bytes are needed",
            _ => "no such refusal",
        }
    }
}

/// `refused NUMBER at line LINE`, and the meaning.
impl Display for LineRefusal {
    fn fmt(&self, f: &mut Formatter) -> std::fmt::Result {
        write!(f, "refused {} at line {}: {}", self.number, self.line, self.meaning())
    }
}

impl std::error::Error for LineRefusal {}
