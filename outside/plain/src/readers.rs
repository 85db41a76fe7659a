//! Who reads each node, and the evaluation of what is above a variable that takes a value.
//!
//! A node is above a variable if it is the variable or reads a node above it: after a move no other node's value
//! can be new. The first of them stands at the variable's first reader, and one pass from there to the last asks
//! each node whether one of its operands is above the variable, and evaluates it if so. All of them are evaluated,
//! also where no operand's value is new: which nodes are above a variable is the same in every move and so is
//! foreseen by the processor, which values change is not, and a wrong guess costs more than a value. The pass counts
//! what it evaluates, and that is the count of the answer.

use crate::kind::*;
use crate::layout::{field, kind, Node};
use crate::values::value;

/// For each of up to `NODES` nodes, a power of two, those that read it: by ascending id, each once.
///
/// A node has four slots, from 4 × its id on. In the first begins the chain of its own readers; the others are its
/// links in the chains of its operands a, b and c. A slot holds the number of the next slot of its chain, and 0
/// ends it: slot 0 is where the chain of node 0 begins, hence no link. A link's number divided by 4 is the
/// reader's id. A variable has no operands: its second slot tells where the nodes above it end.
pub struct Readers<const NODES: usize, const SLOTS: usize> {
    slots: [u16; SLOTS],
}

/// Problems of up to 128 nodes, whose index must not cost more than the few moves that it serves.
pub type Few = Readers<128, 512>;
/// All others.
pub type Many = Readers<1024, 4096>;

impl<const NODES: usize, const SLOTS: usize> Readers<NODES, SLOTS> {
    /// Built from the last node down: each link goes before those of higher ids. Until a node has its links, its
    /// second slot tells where the nodes above it end, as its readers hand it down.
    #[inline]
    pub fn of(nodes: &[Node]) -> Self {
        const { assert!(NODES.is_power_of_two() && SLOTS == 4 * NODES) };
        let mut readers = Readers { slots: [0; SLOTS] };
        for (id, node) in nodes.iter().enumerate().rev() {
            let [a, b, c] = [0, 1, 2].map(|position| field(node, position));
            let end = readers.slots[(4 * id + 1) % SLOTS].max(id as u16 + 1);
            match kind(node) {
                VARIABLE | CONSTANT => {}
                NOT | EXTRACT | SIGN_EXTEND => readers.link(id, 0, a, end),
                of_more => {
                    readers.link(id, 0, a, end);
                    if b != a {
                        readers.link(id, 1, b, end);
                    }
                    if of_more == IF && c != a && c != b {
                        readers.link(id, 2, c, end);
                    }
                }
            }
        }
        readers
    }

    /// Puts node `id`, which has `operand` at a position, in front of the operand's readers. What is above the node
    /// ends at `end`.
    #[inline]
    fn link(&mut self, id: usize, position: usize, operand: usize, end: u16) {
        let (begin, link) = (4 * operand % SLOTS, (4 * id + 1 + position) % SLOTS);
        self.slots[link] = self.slots[begin];
        self.slots[begin] = link as u16;
        let ends = (4 * operand + 1) % SLOTS;
        self.slots[ends] = self.slots[ends].max(end);
    }

    /// The nodes that read a node.
    pub fn of_node(&self, id: usize) -> impl Iterator<Item = usize> + '_ {
        let next = |slot: usize| Some(usize::from(self.slots[slot])).filter(|&next| next != 0);
        std::iter::successors(next(4 * id), move |&link| next(link)).map(|link| link / 4)
    }

    /// Where the nodes above a variable that is read end: the last of them stands before this id.
    pub fn end(&self, variable: usize) -> usize {
        usize::from(self.slots[4 * variable + 1])
    }

    /// Gives variable `v` the value `x` and all nodes above it theirs. Answers how many these are, `v` included.
    #[inline(never)]
    pub fn take(&self, nodes: &[Node], values: &mut [u64], v: usize, x: u64) -> u64 {
        values[v] = x;
        let Some(first) = self.of_node(v).next() else {
            return 1;
        };
        // Of one length, so that an operand's id is tested once.
        let (values, above) = (&mut values[..nodes.len()], &mut [false; NODES][..nodes.len()]);
        above[v] = true;
        let mut count = 1;
        for (id, node) in (first..).zip(&nodes[first..self.end(v)]) {
            let reads_one =
                |operands: usize| (0..operands).fold(false, |one, at| one | above[field(node, at)]);
            if let Some(value) = value(nodes, values, node, reads_one) {
                values[id] = value;
                above[id] = true;
                count += 1;
            }
        }
        count
    }
}

#[cfg(test)]
mod tests {
    use super::*;
    use crate::layout::{check, operands};
    use generate::families::{deep, mixed};
    use generate::solved::Solved;

    /// Holds the index of a problem against the definition.
    fn hold<const NODES: usize, const SLOTS: usize>(solved: &Solved) {
        let bytes = solved.problem.bytes();
        let nodes = check(&bytes).expect("accepted").nodes;
        let readers = Readers::<NODES, SLOTS>::of(nodes);
        for id in 0..nodes.len() {
            let reads = |node: &Node| (0..operands(kind(node))).any(|position| field(node, position) == id);
            let reading = (0..nodes.len()).filter(|&reader| reads(&nodes[reader]));
            assert!(readers.of_node(id).eq(reading), "node {id}");
        }
        for id in (0..nodes.len()).filter(|&id| kind(&nodes[id]) == VARIABLE) {
            assert_eq!(readers.end(id), end_above(nodes, id), "variable {id}");
        }
    }

    /// Past the last node above a variable other than itself, and 0 where none is.
    fn end_above(nodes: &[Node], variable: usize) -> usize {
        let mut above: Vec<bool> = (0..nodes.len()).map(|id| id == variable).collect();
        for (id, node) in nodes.iter().enumerate() {
            above[id] |= (0..operands(kind(node))).any(|position| above[field(node, position)]);
        }
        let last = (variable + 1..nodes.len()).rev().find(|&id| above[id]);
        last.map_or(0, |id| id + 1)
    }

    #[test]
    fn readers_are_all_there_once_in_ascending_order_and_variables_know_their_end() {
        for seed in 0..100 {
            hold::<128, 512>(&mixed(seed, 100));
            hold::<1024, 4096>(&mixed(seed, 400));
        }
        hold::<1024, 4096>(&deep(1, 1024));
    }
}
