//! Problem bytes as they are lent: nodes of 24 bytes, roots, the problem's refusals, and H.

use crate::kind::*;
use crate::mask;

pub const HEADER: usize = 9;
pub const NODE: usize = 24;
pub const MOST_NODES: usize = 1024;
pub const MOST_ROOTS: usize = 256;

#[derive(Clone, Copy, Debug, PartialEq, Eq)]
pub struct Refusal {
    pub number: u8,
    pub place: usize,
}

/// A node where it stands in the problem's bytes.
pub type Node = [u8; NODE];

#[inline]
pub fn kind(node: &Node) -> u8 {
    node[0]
}

#[inline]
pub fn width(node: &Node) -> u32 {
    u32::from(node[1])
}

/// Field a, b or c.
#[inline]
pub fn field(node: &Node, position: usize) -> usize {
    usize::from(u16::from_le_bytes([node[2 + 2 * position], node[3 + 2 * position]]))
}

#[inline]
pub fn lo(node: &Node) -> u64 {
    u64::from_le_bytes(*node[8..].first_chunk().expect("a node has 24 bytes"))
}

#[inline]
pub fn hi(node: &Node) -> u64 {
    u64::from_le_bytes(*node[16..].first_chunk().expect("a node has 24 bytes"))
}

/// How many operands a kind has; none that is not there.
#[inline]
pub fn operands(kind: u8) -> usize {
    const OPERANDS: [u8; COUNT as usize] = [0, 0, 1, 2, 2, 2, 2, 2, 2, 2, 2, 3, 2, 1, 2, 2, 1, 2];
    OPERANDS.get(usize::from(kind)).map_or(0, |&count| count.into())
}

/// The most bits of a kind's node.
#[inline]
pub fn widest(kind: u8) -> u32 {
    if kind == UDIV {
        16
    } else {
        64
    }
}

/// The nodes and roots of an accepted problem.
#[derive(Clone, Copy, Debug)]
pub struct Problem<'a> {
    pub nodes: &'a [Node],
    pub roots: &'a [[u8; 2]],
}

#[inline]
pub fn root(entry: &[u8; 2]) -> usize {
    usize::from(u16::from_le_bytes(*entry))
}

/// The problem check.
pub fn check(bytes: &[u8]) -> Result<Problem<'_>, Refusal> {
    let problem = parts(bytes).map_err(|number| Refusal { number, place: 0 })?;
    for (place, node) in problem.nodes.iter().enumerate() {
        check_node(node, &problem.nodes[..place]).map_err(|number| Refusal { number, place })?;
    }
    let fits = |entry: &[u8; 2]| problem.nodes.get(root(entry)).is_some_and(|node| width(node) == 1);
    if let Some(place) = problem.roots.iter().position(|entry| !fits(entry)) {
        return Err(Refusal { number: 13, place });
    }
    let mut passed = [false; MOST_NODES];
    match problem.roots.iter().position(|entry| std::mem::replace(&mut passed[root(entry)], true)) {
        Some(place) => Err(Refusal { number: 16, place }),
        None => Ok(problem),
    }
}

/// The header's refusals, 1 to 6.
pub fn parts(bytes: &[u8]) -> Result<Problem<'_>, u8> {
    let Some((header, rest)) = bytes.split_first_chunk::<HEADER>() else {
        return Err(1);
    };
    let number = |at: usize| usize::from(u16::from_le_bytes([header[at], header[at + 1]]));
    let (node_count, root_count) = (number(5), number(7));
    if &header[..3] != b"TBV" {
        return Err(2);
    }
    if number(3) != 1 {
        return Err(3);
    }
    if node_count > MOST_NODES {
        return Err(4);
    }
    if root_count > MOST_ROOTS {
        return Err(5);
    }
    if rest.len() != NODE * node_count + 2 * root_count {
        return Err(6);
    }
    let (nodes, roots) = rest.split_at(NODE * node_count);
    Ok(Problem { nodes: nodes.as_chunks().0, roots: roots.as_chunks().0 })
}

/// A node's refusals, 7, 8 and 20.
#[inline]
pub fn check_kind(node: &Node) -> Result<(), u8> {
    let (kind, w) = (kind(node), width(node));
    if kind >= COUNT {
        return Err(7);
    }
    if w == 0 || w > 64 {
        return Err(8);
    }
    if w > widest(kind) {
        return Err(20);
    }
    Ok(())
}

/// A node's refusals, 7, 8, 20 and 9 to 12.
fn check_node(node: &Node, before: &[Node]) -> Result<(), u8> {
    let (kind, w) = (kind(node), width(node));
    check_kind(node)?;
    let count = operands(kind);
    let mut widths = [0; 3];
    for (position, operand_width) in widths.iter_mut().enumerate().take(count) {
        *operand_width = width(before.get(field(node, position)).ok_or(9)?);
    }
    let used = if kind == EXTRACT { 2 } else { count };
    if (used..3).any(|position| field(node, position) != 0) || count > 0 && (lo(node) | hi(node)) != 0 {
        return Err(10);
    }
    let low = if kind == EXTRACT { field(node, 1) as u32 } else { 0 };
    if !widths_fit(kind, w, widths, low) {
        return Err(11);
    }
    if count == 0
        && (lo(node) & !hi(node) != 0 || hi(node) & !mask(w) != 0 || kind == CONSTANT && lo(node) != hi(node))
    {
        return Err(12);
    }
    Ok(())
}

/// H, the longest chain of operand links under any root: heights in one pass upward.
pub fn height(problem: Problem) -> u64 {
    let mut heights = [0u16; MOST_NODES];
    for (id, node) in problem.nodes.iter().enumerate() {
        let above = (0..operands(kind(node))).map(|position| heights[field(node, position)] + 1);
        heights[id] = above.max().unwrap_or(0);
    }
    problem.roots.iter().map(|entry| heights[root(entry)].into()).max().unwrap_or(0)
}

/// The width rule of a kind, for the node's width and its operands'.
#[inline]
pub fn widths_fit(kind: u8, w: u32, [a, b, c]: [u32; 3], low: u32) -> bool {
    match kind {
        VARIABLE | CONSTANT => true,
        NOT => a == w,
        AND..=LSHR | ASHR | UDIV => a == w && b == w,
        EQ | BELOW | SIGNED_BELOW => a == b && w == 1,
        IF => a == 1 && b == w && c == w,
        CONCAT => a + b == w,
        SIGN_EXTEND => w > a,
        _ => low + w <= a,
    }
}
