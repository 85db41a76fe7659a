//! Problem bytes: reading them with refusals 1 to 13, 16 and 20, writing them, evaluation, what is above a node, H, and how
//! long a tape it takes.

use crate::operator::{Kind, Operator};
use crate::word::Pair;

pub const HEADER: usize = 9;
pub const NODE: usize = 24;
pub const MOST_NODES: usize = 1024;
pub const MOST_ROOTS: usize = 256;

/// A refusal and its place: a node's id, a root's position, or 0.
#[derive(Clone, Copy, Debug, PartialEq, Eq)]
pub struct Refusal {
    pub number: u8,
    pub place: usize,
}

/// A node of an accepted problem. `fields` are a, b, c; `pair` is lo, hi as written.
#[derive(Clone, Copy, Debug, PartialEq, Eq)]
pub struct Node {
    pub kind: Kind,
    pub width: u32,
    pub fields: [u16; 3],
    pub pair: Pair,
}

impl Node {
    /// The ids of the operands.
    pub fn operands(&self) -> &[u16] {
        &self.fields[..self.kind.operands()]
    }
}

/// A problem. Those that `read` gives are accepted ones.
#[derive(Clone, Debug, Default, PartialEq, Eq)]
pub struct Problem {
    pub nodes: Vec<Node>,
    pub roots: Vec<u16>,
}

/// A little-endian number.
pub(crate) fn number(bytes: &[u8]) -> u64 {
    bytes.iter().rev().fold(0, |n, &byte| n << 8 | u64::from(byte))
}

/// A problem's parts: 24 bytes for each node, and the roots.
pub(crate) struct Parts<'a> {
    pub nodes: Vec<&'a [u8]>,
    pub roots: Vec<u16>,
}

/// The parts of a problem's bytes, or the first refusal of 1 to 6.
pub(crate) fn parts(bytes: &[u8]) -> Result<Parts<'_>, Refusal> {
    let refuse = |number| Err(Refusal { number, place: 0 });
    if bytes.len() < HEADER {
        return refuse(1);
    }
    if &bytes[0..3] != b"TBV" {
        return refuse(2);
    }
    if number(&bytes[3..5]) != 1 {
        return refuse(3);
    }
    let node_count = number(&bytes[5..7]) as usize;
    if node_count > MOST_NODES {
        return refuse(4);
    }
    let root_count = number(&bytes[7..9]) as usize;
    if root_count > MOST_ROOTS {
        return refuse(5);
    }
    if bytes.len() != HEADER + NODE * node_count + 2 * root_count {
        return refuse(6);
    }
    let (nodes, roots) = bytes[HEADER..].split_at(NODE * node_count);
    let roots = roots.chunks(2).map(|part| number(part) as u16);
    Ok(Parts { nodes: nodes.chunks(NODE).collect(), roots: roots.collect() })
}

/// The problem that the bytes hold, or the first refusal in the order of checking.
pub fn read(bytes: &[u8]) -> Result<Problem, Refusal> {
    let refuse = |number, place| Err(Refusal { number, place });
    let parts = parts(bytes)?;
    let mut problem = Problem::default();
    for part in parts.nodes {
        let node = read_node(part, &problem.nodes)?;
        problem.nodes.push(node);
    }
    for (place, &root) in parts.roots.iter().enumerate() {
        match problem.nodes.get(root as usize) {
            Some(node) if node.width == 1 => problem.roots.push(root),
            _ => return refuse(13, place),
        }
    }
    let repeats = |&place: &usize| problem.roots[..place].contains(&problem.roots[place]);
    match (0..problem.roots.len()).find(repeats) {
        Some(place) => refuse(16, place),
        None => Ok(problem),
    }
}

/// What a node's 24 bytes say, or the first refusal of 7, 8 and 20.
pub(crate) fn node_of(part: &[u8]) -> Result<Node, u8> {
    let kind = Kind::from_number(part[0]).ok_or(7)?;
    let width = u32::from(part[1]);
    if width == 0 || width > 64 {
        return Err(8);
    }
    if width > kind.widest() {
        return Err(20);
    }
    let fields = [2, 4, 6].map(|at| number(&part[at..at + 2]) as u16);
    let pair = Pair { lo: number(&part[8..16]), hi: number(&part[16..24]) };
    Ok(Node { kind, width, fields, pair })
}

/// One node from its 24 bytes, after those before it; or its first refusal of 7, 8, 20 and 9 to 12.
fn read_node(part: &[u8], before: &[Node]) -> Result<Node, Refusal> {
    let own = before.len();
    let refuse = |number| Err(Refusal { number, place: own });
    let node = node_of(part).map_err(|number| Refusal { number, place: own })?;
    let Node { kind, width, fields, pair } = node;
    if node.operands().iter().any(|&id| id as usize >= own) {
        return refuse(9);
    }
    let carries_pair = kind == Kind::Variable || kind == Kind::Constant;
    if fields[kind.fields()..].iter().any(|&field| field != 0) || !carries_pair && pair != Pair::default() {
        return refuse(10);
    }
    if !operator(&node, before).widths_fit() {
        return refuse(11);
    }
    if carries_pair && !pair.is_ternary(width) || kind == Kind::Constant && pair.lo != pair.hi {
        return refuse(12);
    }
    Ok(node)
}

/// A node's operator, where its operands are among `nodes`.
pub(crate) fn operator(node: &Node, nodes: &[Node]) -> Operator {
    let mut widths = [0; 3];
    for (width, &id) in widths.iter_mut().zip(node.operands()) {
        *width = nodes[id as usize].width;
    }
    let low = if node.kind == Kind::Extract { u32::from(node.fields[1]) } else { 0 };
    Operator { kind: node.kind, width: node.width, widths, low }
}

impl Problem {
    pub fn operator(&self, id: usize) -> Operator {
        operator(&self.nodes[id], &self.nodes)
    }

    /// What a list with a place for each node has at a node's operands; `T`'s default where there is none.
    pub fn at_operands<T: Copy + Default>(&self, id: usize, list: &[T]) -> [T; 3] {
        let mut found = [T::default(); 3];
        for (place, &operand) in found.iter_mut().zip(self.nodes[id].operands()) {
            *place = list[operand as usize];
        }
        found
    }

    /// The ids of the variables, ascending.
    pub fn variables(&self) -> impl Iterator<Item = usize> + '_ {
        (0..self.nodes.len()).filter(|&id| self.nodes[id].kind == Kind::Variable)
    }

    /// Sets every node's value from the variables' values. Only variables' places are read.
    pub fn evaluate(&self, values: &mut [u64]) {
        for (id, node) in self.nodes.iter().enumerate() {
            match node.kind {
                Kind::Variable => {}
                Kind::Constant => values[id] = node.pair.lo,
                _ => values[id] = self.operator(id).apply(self.at_operands(id, values)),
            }
        }
    }

    /// How many nodes are reachable upward from a node, itself included: it, and each that reads one of them.
    pub fn above(&self, id: usize) -> u64 {
        let mut is_above = vec![false; self.nodes.len()];
        is_above[id] = true;
        // Operands come before their readers, so one pass upward reaches all.
        for (reader, node) in self.nodes.iter().enumerate() {
            is_above[reader] |= node.operands().iter().any(|&operand| is_above[operand as usize]);
        }
        is_above.into_iter().map(u64::from).sum()
    }

    /// H, "the longest chain of operand links under any root, 0 if there are none".
    pub fn height(&self) -> usize {
        let mut links = vec![0; self.nodes.len()];
        for (id, node) in self.nodes.iter().enumerate() {
            links[id] = node.operands().iter().map(|&operand| links[operand as usize] + 1).max().unwrap_or(0);
        }
        self.roots.iter().map(|&root| links[root as usize]).max().unwrap_or(0)
    }

    /// The most words that so many moves take: one each, and two for each step, of which no move makes
    /// more than H.
    pub fn words_for(&self, moves: u64) -> u64 {
        moves * (1 + 2 * self.height() as u64)
    }

    /// The problem's bytes.
    pub fn bytes(&self) -> Vec<u8> {
        let mut bytes = b"TBV".to_vec();
        for count in [1, self.nodes.len(), self.roots.len()] {
            bytes.extend((count as u16).to_le_bytes());
        }
        for node in &self.nodes {
            bytes.extend([node.kind.number(), node.width as u8]);
            bytes.extend(node.fields.iter().flat_map(|field| field.to_le_bytes()));
            bytes.extend(node.pair.lo.to_le_bytes());
            bytes.extend(node.pair.hi.to_le_bytes());
        }
        bytes.extend(self.roots.iter().flat_map(|root| root.to_le_bytes()));
        bytes
    }
}
