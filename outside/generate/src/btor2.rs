//! BTOR2 texts: valid ones with every keyword, up to the limits of nodes and roots, with values of the inputs that meet
//! the constraints in most; and damaged ones, with a fault for each of refusals 1 to 5, with two, or byte by byte.

use crate::rng::Rng;
use model::btor2::{convert, Meaning};
use model::problem::{HEADER, MOST_NODES, MOST_ROOTS};

#[derive(Clone, Debug)]
pub struct Case {
    pub text: Vec<u8>,
    /// How many bytes are lent.
    pub room: usize,
    /// Values of the inputs, in the order of their lines.
    pub inputs: Vec<u64>,
    pub extent: Extent,
    /// The refusals that were aimed at on one line, ascending.
    pub aims: Vec<u8>,
}

/// How far a valid text goes, and how much room it is lent.
#[derive(Clone, Copy, Debug, PartialEq, Eq)]
pub enum Extent {
    /// Anything.
    Any,
    /// As many bytes as it needs.
    Exact,
    /// One byte less.
    OneShort,
    /// Fewer than a header.
    NoHeader,
    /// So many nodes or roots exactly, with room for all.
    Nodes(usize),
    Roots(usize),
}

impl Extent {
    /// Those that every comparison must reach, each with whether it is converted.
    pub const ALL: [(Extent, bool); 7] = [
        (Extent::Exact, true),
        (Extent::OneShort, false),
        (Extent::NoHeader, false),
        (Extent::Nodes(MOST_NODES), true),
        (Extent::Nodes(MOST_NODES + 1), false),
        (Extent::Roots(MOST_ROOTS), true),
        (Extent::Roots(MOST_ROOTS + 1), false),
    ];
}

/// The refusals of a text.
pub const FAULTS: [u8; 5] = [1, 2, 3, 4, 5];

/// Room for every problem.
const PLENTY: usize = 30_000;

/// Valid text number `index` under a seed.
pub fn valid(seed: u64, index: u64) -> Case {
    let rng = &mut Rng::of_case(seed, index);
    let extent = match rng.below(400) {
        0..=3 => rng.one_of(&Extent::ALL[3..]).0,
        4..=200 => Extent::Exact,
        201..=240 => Extent::OneShort,
        241..=250 => Extent::NoHeader,
        _ => Extent::Any,
    };
    let written = written(rng, extent);
    let text = rendered(rng, &written.lines);
    let needed = convert(&text, usize::MAX).map_or(PLENTY, |problem| problem.bytes().len());
    let room = match extent {
        Extent::Exact => needed,
        Extent::OneShort => needed - 1,
        Extent::NoHeader => rng.below(HEADER),
        Extent::Nodes(_) | Extent::Roots(_) => rng.one_of(&[needed, needed + 1, PLENTY]),
        Extent::Any if rng.chance(20) => rng.between(HEADER, needed),
        Extent::Any => needed + rng.below(100),
    };
    Case { text, room, inputs: written.inputs, extent, aims: Vec::new() }
}

/// Damaged text number `index` under a seed.
pub fn damaged(seed: u64, index: u64) -> Case {
    let rng = &mut Rng::of_case(!seed, index);
    let mut written = written(rng, Extent::Any);
    let mut aims = Vec::new();
    let mut room = PLENTY;
    let lines = &mut written.lines;
    if !lines.is_empty() && rng.chance(80) {
        let at = rng.below(lines.len());
        let count = rng.one_of(&[1, 1, 2]);
        aims = (0..count).map(|_| rng.one_of(&FAULTS)).collect();
        aims.sort();
        aims.dedup();
        for &aim in &aims {
            spoil(rng, aim, lines, at, &mut room);
        }
        if rng.chance(20) {
            let (aim, other) = (rng.one_of(&FAULTS[..4]), rng.below(lines.len()));
            spoil(rng, aim, lines, other, &mut room);
            aims.clear();
        }
    }
    let mut text = rendered(rng, lines);
    if aims.is_empty() {
        scramble(rng, &mut text);
        room = if rng.chance(30) { rng.below(600) } else { PLENTY };
    }
    Case { text, room, inputs: written.inputs, extent: Extent::Any, aims }
}

// ---- valid lines

/// A line's tokens, the last of which may be a symbol.
#[derive(Clone, Debug)]
struct Line {
    tokens: Vec<Vec<u8>>,
    /// How many of them the line must have: id, keyword and arguments.
    whole: usize,
}

struct Written {
    lines: Vec<Line>,
    inputs: Vec<u64>,
}

struct Writer<'a> {
    rng: &'a mut Rng,
    lines: Vec<Line>,
    meaning: Meaning,
    inputs: Vec<u64>,
    /// The ids and widths of sorts and of what makes or names a node.
    sorts: Vec<(u64, u32)>,
    nodes: Vec<(u64, u32)>,
    last: u64,
    gaps: &'static [u64],
    widths: (u32, u32),
    /// Of a hundred references so many are negative.
    negative: usize,
    symbols: usize,
    /// How many nodes are needed so far.
    count: usize,
}

/// Lines up to an extent.
fn written(rng: &mut Rng, extent: Extent) -> Written {
    let nodes = match extent {
        Extent::Nodes(nodes) => nodes,
        Extent::Roots(_) => 600,
        _ => match rng.below(200) {
            0 => rng.between(0, 400),
            1..=5 => 0,
            6..=20 => rng.between(30, 80),
            _ => rng.between(1, 24),
        },
    };
    let mut writer = Writer::new(rng);
    writer.fill(nodes, extent);
    Written { lines: writer.lines, inputs: writer.inputs }
}

impl<'a> Writer<'a> {
    fn new(rng: &'a mut Rng) -> Writer<'a> {
        const GAPS: [&[u64]; 5] = [&[1], &[1, 1, 1, 2, 5], &[1 << 32], &[1, 100, 10_000], &[10, 1 << 40, 1]];
        let last = match rng.below(12) {
            0 => u64::MAX - 20_000,
            1 => rng.word() >> 20,
            _ => 0,
        };
        let gaps = if last > 1 << 60 { GAPS[0] } else { rng.one_of(&GAPS) };
        let widths = rng.one_of(&[(1, 4), (1, 4), (1, 64), (33, 64), (1, 1), (8, 8), (64, 64)]);
        let (negative, symbols) = (rng.one_of(&[0, 10, 40]), rng.one_of(&[0, 20, 80]));
        Writer {
            rng,
            lines: Vec::new(),
            meaning: Meaning::default(),
            inputs: Vec::new(),
            sorts: Vec::new(),
            nodes: Vec::new(),
            last,
            gaps,
            widths,
            negative,
            symbols,
            count: 0,
        }
    }

    /// Lines up to so many nodes, with constraints here and there.
    fn fill(&mut self, nodes: usize, extent: Extent) {
        // Room to stop at so many nodes exactly: more than a line takes with new operands and a constraint on it.
        let spare = if let Extent::Nodes(_) = extent { 24 } else { 1 };
        // Two constraints can be one root: where roots are counted, all come at the end.
        let constraints = if let Extent::Roots(_) = extent { 0 } else { 12 };
        while self.count + spare <= nodes {
            match self.rng.below(40) {
                _ if self.rng.chance(constraints) => self.constraint(),
                5 => {
                    self.new_sort(None);
                }
                _ => self.any(),
            }
        }
        match extent {
            Extent::Nodes(nodes) => {
                self.negative = 0;
                while self.count < nodes {
                    let width = self.width();
                    self.leaf(width);
                }
            }
            Extent::Roots(roots) => {
                for _ in 0..roots {
                    let node = self.operand(1);
                    self.line("constraint", &[format!("-{node}")]);
                }
            }
            _ => {}
        }
    }

    /// A line of these arguments; gives its id.
    fn line(&mut self, keyword: &str, arguments: &[String]) -> u64 {
        self.last += self.rng.one_of(self.gaps);
        let id = self.last;
        let mut tokens: Vec<Vec<u8>> = vec![id.to_string().into(), keyword.into()];
        tokens.extend(arguments.iter().map(|argument| argument.clone().into_bytes()));
        self.meaning.take(&tokens.join(&b' '), || self.inputs.last().copied());
        let whole = tokens.len();
        if self.rng.chance(self.symbols) {
            tokens.push(symbol(self.rng));
        }
        self.lines.push(Line { tokens, whole });
        id
    }

    /// A line that makes a node of a width, by the nodes that it needs.
    fn node(&mut self, keyword: &str, width: u32, arguments: &[String], nodes: usize) -> u64 {
        let sort = self.sort(width);
        let id = self.line(keyword, &[&[sort.to_string()][..], arguments].concat());
        self.nodes.push((id, width));
        self.count += nodes;
        id
    }

    fn width(&mut self) -> u32 {
        self.rng.between(self.widths.0 as usize, self.widths.1 as usize) as u32
    }

    /// A sort of a width, one that is there if there is one.
    fn sort(&mut self, width: u32) -> u64 {
        let fitting: Vec<u64> = self.sorts.iter().filter(|sort| sort.1 == width).map(|sort| sort.0).collect();
        if fitting.is_empty() || self.rng.chance(1) {
            return self.new_sort(Some(width));
        }
        self.rng.one_of(&fitting)
    }

    fn new_sort(&mut self, width: Option<u32>) -> u64 {
        let width = width.unwrap_or_else(|| self.width());
        let id = self.line("sort", &["bitvec".into(), width.to_string()]);
        self.sorts.push((id, width));
        id
    }

    /// A node of a width, late ones preferred, or a new input or constant.
    fn operand(&mut self, width: u32) -> u64 {
        let fitting: Vec<u64> = self.nodes.iter().filter(|node| node.1 == width).map(|node| node.0).collect();
        if fitting.is_empty() || self.rng.chance(10) {
            return self.leaf(width);
        }
        match self.rng.chance(50) {
            true => fitting[fitting.len() - 1 - self.rng.below(fitting.len().min(6))],
            false => self.rng.one_of(&fitting),
        }
    }

    /// A reference to a node of a width, perhaps a negative one.
    fn reference(&mut self, width: u32) -> String {
        let id = self.operand(width);
        if self.rng.chance(self.negative) {
            self.count += 1;
            return format!("-{id}");
        }
        id.to_string()
    }

    fn leaf(&mut self, width: u32) -> u64 {
        let value = self.rng.value(width);
        let digits = width as usize;
        match self.rng.below(9) {
            0..=3 => {
                self.inputs.push(value);
                self.node("input", width, &[], 1)
            }
            4 => {
                let keyword = self.rng.one_of(&["zero", "one", "ones"]);
                self.node(keyword, width, &[], 1)
            }
            5 => self.node("const", width, &[format!("{value:0digits$b}")], 1),
            6 => self.node("constd", width, &[value.to_string()], 1),
            7 => {
                let zeros = "0".repeat(self.rng.one_of(&[0, 0, 1, 20]));
                let digits = if self.rng.chance(50) { format!("{value:x}") } else { format!("{value:X}") };
                self.node("consth", width, &[zeros + &digits], 1)
            }
            _ => {
                let magnitude = 1 << (width - 1);
                let below = if self.rng.chance(30) { magnitude } else { value % (magnitude + 1) };
                self.node("constd", width, &[format!("-{below}")], 1)
            }
        }
    }

    /// A line of any keyword that makes a node.
    fn any(&mut self) {
        const SAME: [(&str, usize); 9] = [
            ("and", 1),
            ("or", 4),
            ("xor", 1),
            ("add", 1),
            ("sub", 3),
            ("mul", 1),
            ("sll", 1),
            ("srl", 1),
            ("sra", 1),
        ];
        const BIT: [(&str, usize); 4] = [("eq", 1), ("neq", 2), ("ult", 1), ("slt", 1)];
        let width = self.width();
        match self.rng.below(12) {
            0 => {
                self.leaf(width);
            }
            1 => {
                let a = self.reference(width);
                self.node("not", width, &[a], 1);
            }
            2..=5 => {
                let (keyword, nodes) = self.rng.one_of(&SAME);
                let both = [self.reference(width), self.reference(width)];
                self.node(keyword, width, &both, nodes);
            }
            6 | 7 => {
                let (keyword, nodes) = self.rng.one_of(&BIT);
                let both = [self.reference(width), self.reference(width)];
                self.node(keyword, 1, &both, nodes);
            }
            8 => {
                let all = [self.reference(1), self.reference(width), self.reference(width)];
                self.node("ite", width, &all, 1);
            }
            9 if width > 1 => {
                let high = self.rng.between(1, width as usize - 1) as u32;
                let both = [self.reference(high), self.reference(width - high)];
                self.node("concat", width, &both, 1);
            }
            10 => {
                let a = self.reference(width);
                let lower = self.rng.below(width as usize);
                let upper = self.rng.between(lower, width as usize - 1);
                let taken = (upper - lower + 1) as u32;
                self.node("slice", taken, &[a, upper.to_string(), lower.to_string()], 1);
            }
            _ => self.extension(width),
        }
    }

    fn extension(&mut self, width: u32) {
        let from = if self.rng.chance(30) { width } else { self.rng.between(1, width as usize) as u32 };
        let arguments = [self.reference(from), (width - from).to_string()];
        let (keyword, nodes) = self.rng.one_of(&[("uext", 2), ("sext", 1)]);
        self.node(keyword, width, &arguments, if from == width { 0 } else { nodes });
    }

    /// A constraint that holds, as a rule: on a bit, or that some node has its value.
    fn constraint(&mut self) {
        let (mut node, mut width) = match self.nodes.is_empty() {
            true => (self.operand(1), 1),
            false => self.rng.one_of(&self.nodes),
        };
        if width != 1 {
            let value = self.meaning.values[&node].0;
            let constant = self.node("constd", width, &[value.to_string()], 1);
            (node, width) = (self.node("eq", 1, &[node.to_string(), constant.to_string()], 1), 1);
        }
        let holds = self.meaning.values[&node] == (1, width);
        let negative = holds == self.rng.chance(4);
        self.line("constraint", &[format!("{}{node}", if negative { "-" } else { "" })]);
        self.count += usize::from(negative);
    }
}

/// Any bytes but blanks and line feeds, not beginning with `;`.
fn symbol(rng: &mut Rng) -> Vec<u8> {
    const SYMBOLS: [&[u8]; 12] = [
        b"x",
        b"bus;1",
        b"a;",
        b"frame.parity[3]",
        b"$auto$opt_expr.cc:123$4",
        b"7",
        b"-1",
        b"|q|",
        b"\xff\xfe",
        b"\x0b\0",
        b"constraint",
        b"\"\\",
    ];
    match rng.below(3) {
        0 => format!("s{}", rng.below(50)).into_bytes(),
        _ => rng.one_of(&SYMBOLS).to_vec(),
    }
}

// ---- the text

/// The lines as one text, with blanks, remarks and empty lines.
fn rendered(rng: &mut Rng, lines: &[Line]) -> Vec<u8> {
    const AFTER: [&[u8]; 6] = [b" ; src.v:7.3-7.9", b"\t;", b" ", b"\r", b" \t \r", b" ;;; 9 constraint 1"];
    const BETWEEN: [&[u8]; 5] = [b"", b"; begin x", b"   ;", b"\t\r", b";1 sort bitvec 3"];
    const BLANKS: [&[u8]; 4] = [b" ", b"  ", b"\t", b" \r\t"];
    let wild = rng.one_of(&[0, 10, 50]);
    let mut text = Vec::new();
    for (at, line) in lines.iter().enumerate() {
        while rng.chance(wild / 2) {
            text.extend(rng.one_of(&BETWEEN));
            text.push(b'\n');
        }
        if rng.chance(wild) {
            text.extend(rng.one_of(&BLANKS));
        }
        for (place, token) in line.tokens.iter().enumerate() {
            if place > 0 {
                text.extend(if rng.chance(wild) { rng.one_of(&BLANKS) } else { b" " });
            }
            text.extend(token);
        }
        if rng.chance(wild) {
            text.extend(rng.one_of(&AFTER));
        }
        if at + 1 < lines.len() || rng.chance(70) {
            text.push(b'\n');
        }
    }
    text
}

// ---- faults

/// Keywords of BTOR2 that are not in the list, and words that are like those in it.
const OTHERS: [&str; 30] = [
    "state",
    "init",
    "next",
    "output",
    "bad",
    "fair",
    "justice",
    "redor",
    "redand",
    "redxor",
    "inc",
    "dec",
    "neg",
    "nand",
    "nor",
    "xnor",
    "iff",
    "implies",
    "ugt",
    "ugte",
    "ulte",
    "sgte",
    "rol",
    "udiv",
    "urem",
    "saddo",
    "read",
    "a",
    "inputs",
    "constrain",
];

/// A fault of a refusal at a line.
fn spoil(rng: &mut Rng, aim: u8, lines: &mut [Line], at: usize, room: &mut usize) {
    match aim {
        1 => spoil_format(rng, &mut lines[at]),
        2 => spoil_keyword(rng, &mut lines[at]),
        3 => spoil_id(rng, lines, at),
        4 => spoil_width(rng, lines, at),
        _ => {
            // What is needed before the line, or a little less.
            let before: Vec<Vec<u8>> = lines[..at].iter().map(|line| line.tokens.join(&b' ')).collect();
            let needed = convert(&before.join(&b'\n'), usize::MAX).map_or(PLENTY, |p| p.bytes().len());
            *room = needed + rng.below(24);
        }
    }
}

fn spoil_format(rng: &mut Rng, line: &mut Line) {
    if line.tokens.len() < 2 {
        return;
    }
    let whole = line.whole.min(line.tokens.len());
    let arguments = whole - 2;
    match rng.below(8) {
        0 => {
            let id = [
                b"0".as_slice(),
                b"+7",
                b"-7",
                b"x",
                b"18446744073709551616",
                b"99999999999999999999999",
                b"07",
            ];
            line.tokens[0] = rng.one_of(&id).to_vec();
        }
        1 => line.tokens[0].insert(0, rng.one_of(b"0+-a")),
        2 => {
            let end = line.tokens[1].len();
            match rng.below(3) {
                0 => line.tokens[1][0].make_ascii_uppercase(),
                1 => line.tokens[1].insert(end, rng.one_of(b"1_-\x80{`")),
                _ => line.tokens.truncate(1),
            }
        }
        3 => line.tokens.truncate(whole - 1),
        4 => {
            line.tokens.truncate(whole);
            line.tokens.extend([symbol(rng), symbol(rng)]);
        }
        5 if arguments > 0 => {
            let place = 2 + rng.below(arguments);
            line.tokens[place].insert(0, rng.one_of(b"0+-2g"));
        }
        6 if arguments > 0 => {
            let place = 2 + rng.below(arguments);
            line.tokens[place] =
                rng.one_of(&[b"-0".as_slice(), b"-", b"0", b"x", b"--1", b"1-", b"0x1"]).to_vec();
        }
        _ => {
            line.tokens[whole - 1].push(rng.one_of(b"gG-:/"));
        }
    }
}

fn spoil_keyword(rng: &mut Rng, line: &mut Line) {
    if line.tokens.len() < 2 {
        return;
    }
    if line.tokens[1] == b"sort" && line.tokens.len() > 2 && rng.chance(70) {
        line.tokens[2] = rng.one_of(&["array", "bitvecs", "bit", "x"]).into();
        if rng.chance(50) {
            line.tokens.truncate(3);
        }
    } else {
        line.tokens[1] = rng.one_of(&OTHERS).into();
        if rng.chance(30) {
            line.tokens.truncate(2);
        }
    }
}

/// Where a line has references.
fn references(line: &Line) -> std::ops::Range<usize> {
    let count = match line.tokens.get(1).map(Vec::as_slice) {
        Some(b"constraint") => return 2..3,
        Some(b"sort" | b"input" | b"const" | b"constd" | b"consth" | b"zero" | b"one" | b"ones") | None => 0,
        Some(b"not" | b"slice" | b"uext" | b"sext") => 1,
        Some(b"ite") => 3,
        Some(_) => 2,
    };
    3..3 + count
}

fn id_of(line: &Line) -> u128 {
    let digits = line.tokens.first().and_then(|id| std::str::from_utf8(id).ok());
    digits.and_then(|digits| digits.parse().ok()).unwrap_or(1)
}

fn spoil_id(rng: &mut Rng, lines: &mut [Line], at: usize) {
    let own = id_of(&lines[at]);
    let other = id_of(&lines[rng.below(lines.len())]);
    let before = if at > 0 { id_of(&lines[at - 1]) } else { 1 };
    let line = &mut lines[at];
    let references = references(line).filter(|&place| place < line.tokens.len());
    let places: Vec<usize> = if line.tokens.get(1).is_some_and(|keyword| keyword == b"sort") {
        Vec::new()
    } else {
        // The sort's place, and the references'.
        references.chain((line.tokens.len() > 2).then_some(2)).collect()
    };
    if places.is_empty() || rng.chance(30) {
        line.tokens[0] = rng.one_of(&[before, before, 1, before.saturating_sub(1).max(1)]).to_string().into();
        return;
    }
    let place = rng.one_of(&places);
    let sign = if line.tokens[place].first() == Some(&b'-') { "-" } else { "" };
    let right: u128 =
        String::from_utf8_lossy(&line.tokens[place]).trim_start_matches('-').parse().unwrap_or(1);
    let wrong = [
        own,
        own + 1,
        other,
        right.wrapping_add(1),
        right.wrapping_add(1 << 32),
        right.wrapping_add(1 << 64),
        right.wrapping_add(1 << 16),
        right.wrapping_mul(10),
    ];
    let mut digits = rng.one_of(&wrong).to_string();
    if rng.chance(10) {
        digits += &"0".repeat(rng.between(20, 60));
    }
    line.tokens[place] = format!("{sign}{digits}").into();
}

fn spoil_width(rng: &mut Rng, lines: &mut [Line], at: usize) {
    const WIDE: [&str; 8] =
        ["0", "65", "64", "256", "4294967297", "18446744073709551616", "18446744073709551617", "1"];
    let sorts: Vec<Vec<u8>> = lines[..at]
        .iter()
        .filter(|line| line.tokens.get(1).is_some_and(|k| k == b"sort"))
        .map(|line| line.tokens[0].clone())
        .collect();
    let nodes: Vec<Vec<u8>> = lines[..at]
        .iter()
        .filter(|line| line.tokens.get(1).is_some_and(|k| k != b"sort" && k != b"constraint"))
        .map(|line| line.tokens[0].clone())
        .collect();
    let line = &mut lines[at];
    let references = references(line);
    let last = line.whole.min(line.tokens.len()) - 1;
    let keyword = line.tokens.get(1).cloned().unwrap_or_default();
    match keyword.as_slice() {
        b"sort" if line.tokens.len() > 3 => line.tokens[3] = rng.one_of(&WIDE).into(),
        b"const" if rng.chance(70) => match rng.chance(50) {
            true => line.tokens[last].push(b'1'),
            false => {
                line.tokens[last].pop();
            }
        },
        b"consth" if rng.chance(70) => line.tokens[last].insert(0, rng.one_of(b"123f")),
        b"constd" if rng.chance(70) => {
            let more: &[u8] = rng.one_of(&[b"0".as_slice(), b"99999999999999999999", b"5"]);
            line.tokens[last].extend(more);
        }
        b"slice" | b"uext" | b"sext" if rng.chance(60) => line.tokens[last] = rng.one_of(&WIDE).into(),
        b"constraint" if last >= 2 && !nodes.is_empty() => {
            line.tokens[2] = nodes[rng.below(nodes.len())].clone();
        }
        _ if !nodes.is_empty() && !references.is_empty() && rng.chance(60) => {
            let place = references.start + rng.below(references.len());
            if place < line.tokens.len() {
                line.tokens[place] = nodes[rng.below(nodes.len())].clone();
            }
        }
        _ if !sorts.is_empty() && line.tokens.len() > 2 => {
            line.tokens[2] = sorts[rng.below(sorts.len())].clone()
        }
        _ => {}
    }
}

/// Bytes changed, put in, taken out, or lines doubled, one to four times.
fn scramble(rng: &mut Rng, text: &mut Vec<u8>) {
    const ODD: &[u8] = b"0123456789 -\n\t\r;azASZx+\0\xff\x0b\x0c";
    for _ in 0..rng.between(1, 4) {
        let at = rng.below(text.len() + 1);
        let inside = at < text.len();
        match rng.below(6) {
            0 if inside => text[at] = rng.one_of(ODD),
            1 if inside => text[at] ^= 1 << rng.below(8),
            2 if inside => {
                text.remove(at);
            }
            3 if inside => {
                let end = rng.between(at, text.len().min(at + 30));
                let copy = text[at..end].to_vec();
                text.splice(at..at, copy);
            }
            4 if inside => {
                let end = rng.between(at, text.len().min(at + 30));
                text.drain(at..end);
            }
            _ => text.insert(at, rng.one_of(ODD)),
        }
    }
}

#[cfg(test)]
mod tests {
    use super::*;
    use model::btor2::{keywords, mean};

    #[test]
    fn valid_texts_are_converted_and_most_are_met() {
        let (mut met, mut converted) = (0, 0);
        let mut seen: Vec<&str> = Vec::new();
        for index in 0..3000 {
            let case = valid(1, index);
            let Ok(problem) = convert(&case.text, case.room) else {
                continue;
            };
            converted += 1;
            assert_eq!(problem.variables().count(), case.inputs.len());
            met += usize::from(mean(&case.text, &case.inputs).holds());
            let text = String::from_utf8_lossy(&case.text).into_owned();
            let used = keywords().filter(|keyword| text.contains(&format!(" {keyword} ")));
            seen.extend(used.filter(|keyword| !seen.contains(keyword)).collect::<Vec<_>>());
        }
        assert!(converted > 2000 && met > converted / 2, "{converted} {met}");
        assert_eq!(seen.len(), keywords().count(), "{seen:?}");
    }

    #[test]
    fn extents_are_what_they_say() {
        for (extent, is_converted) in Extent::ALL {
            let mut rng = Rng::new(7);
            let lines = written(&mut rng, extent).lines;
            let text = rendered(&mut rng, &lines);
            let converted = convert(&text, PLENTY);
            match extent {
                Extent::Nodes(nodes) if is_converted => assert_eq!(converted.unwrap().nodes.len(), nodes),
                Extent::Roots(roots) if is_converted => assert_eq!(converted.unwrap().roots.len(), roots),
                Extent::Nodes(_) | Extent::Roots(_) => assert_eq!(converted.unwrap_err().number, 5),
                _ => {}
            }
        }
    }
}
