//! A problem made ready for the search: nodes as numbers in one place, fixed bits, what each variable is read by.

use crate::goals::{goals, Goal};
use plain::kind::*;
use plain::layout::{self, check, field, operands, root, Refusal, MOST_NODES};
use plain::values::{fill, Pairs};

/// A node. Operands that its kind does not have are its first one again, so that all three can be looked at.
#[derive(Clone, Copy, Debug)]
pub struct Node {
    pub kind: u8,
    pub width: u8,
    /// Of extract the lowest bit, of concat the width of b, else the width of a.
    pub by: u8,
    pub operands: [u16; 3],
    pub mask: u64,
    /// A constant's value.
    pub value: u64,
}

/// An accepted problem.
pub struct Ready {
    pub nodes: Vec<Node>,
    pub roots: Vec<u16>,
    pub variables: Vec<u16>,
    pub lo: Vec<u64>,
    pub hi: Vec<u64>,
    /// For each node that is a variable, the nodes above it that are also under a root, ascending.
    pub above: Vec<Vec<u16>>,
    pub goals: Vec<Goal>,
    /// For each node the number of the goal that it is, plus 1; 0 for none.
    pub goal_at: Vec<u16>,
    /// Whether a root is fixed at 0.
    pub closed: bool,
    /// H, the longest chain of operand links under a root.
    pub height: u64,
}

impl Ready {
    pub fn new(bytes: &[u8]) -> Result<Ready, Refusal> {
        let problem = check(bytes)?;
        let nodes: Vec<Node> = problem.nodes.iter().map(|node| flat(node, problem.nodes)).collect();
        let mut pairs = Pairs { lo: [0; MOST_NODES], hi: [0; MOST_NODES] };
        fill(problem.nodes, &mut pairs);
        let (lo, hi) = (pairs.lo[..nodes.len()].to_vec(), pairs.hi[..nodes.len()].to_vec());
        let roots: Vec<u16> = problem.roots.iter().map(|entry| root(entry) as u16).collect();
        let variables = (0..nodes.len() as u16).filter(|&id| nodes[usize::from(id)].kind == VARIABLE);
        let mut ready = Ready {
            variables: variables.collect(),
            above: vec![Vec::new(); nodes.len()],
            goals: Vec::new(),
            goal_at: vec![0; nodes.len()],
            closed: roots.iter().any(|&root| hi[usize::from(root)] == 0),
            height: layout::height(problem),
            nodes,
            roots,
            lo,
            hi,
        };
        ready.goals = goals(&ready);
        for (at, goal) in ready.goals.iter().enumerate() {
            ready.goal_at[usize::from(goal.node)] = at as u16 + 1;
        }
        ready.find_readers();
        Ok(ready)
    }

    /// Whether a node has just one value.
    #[inline]
    pub fn is_fixed(&self, id: usize) -> bool {
        self.lo[id] == self.hi[id]
    }

    /// What a node is extended from, if it is; else itself.
    #[inline]
    pub fn narrow(&self, id: u16) -> u16 {
        let node = &self.nodes[usize::from(id)];
        match node.kind {
            SIGN_EXTEND => node.operands[0],
            CONCAT if self.hi[usize::from(node.operands[0])] == 0 => node.operands[1],
            _ => id,
        }
    }

    fn find_readers(&mut self) {
        let under = self.under_roots();
        for &variable in &self.variables {
            let mut reached = vec![false; self.nodes.len()];
            reached[usize::from(variable)] = true;
            for id in usize::from(variable) + 1..self.nodes.len() {
                let reads = |&operand: &u16| reached[usize::from(operand)];
                // What has just one value never changes.
                if under[id] && !self.is_fixed(id) && self.operands(id).iter().any(reads) {
                    reached[id] = true;
                    self.above[usize::from(variable)].push(id as u16);
                }
            }
        }
    }

    fn under_roots(&self) -> Vec<bool> {
        let mut under = vec![false; self.nodes.len()];
        self.roots.iter().for_each(|&root| under[usize::from(root)] = true);
        for id in (0..self.nodes.len()).rev().filter(|&id| self.nodes[id].kind > CONSTANT) {
            if under[id] {
                self.operands(id).iter().for_each(|&operand| under[usize::from(operand)] = true);
            }
        }
        under
    }

    /// The operands that a node has.
    pub fn operands(&self, id: usize) -> &[u16] {
        &self.nodes[id].operands[..operands(self.nodes[id].kind)]
    }
}

fn flat(node: &layout::Node, all: &[layout::Node]) -> Node {
    let (kind, width) = (layout::kind(node), layout::width(node));
    let count = operands(kind);
    let at = |position: usize| field(node, if position < count { position } else { 0 }) as u16;
    let width_of = |position: usize| layout::width(&all[field(node, position)]) as u8;
    let by = match kind {
        VARIABLE | CONSTANT => 0,
        EXTRACT => field(node, 1) as u8,
        CONCAT => width_of(1),
        _ => width_of(0),
    };
    Node {
        kind,
        width: width as u8,
        by,
        operands: if count == 0 { [0; 3] } else { [at(0), at(1), at(2)] },
        mask: mask(width),
        value: layout::lo(node),
    }
}

/// The bits of a width of 1 to 64.
#[inline]
pub fn mask(width: u32) -> u64 {
    u64::MAX >> ((64 - width) & 63)
}
