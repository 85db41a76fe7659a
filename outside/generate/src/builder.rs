//! A problem put together node by node; each node's width follows from its operands.

use model::{Kind, Node, Pair, Problem};

#[derive(Clone, Debug, Default)]
pub struct Builder {
    pub problem: Problem,
}

impl Builder {
    pub fn new() -> Builder {
        Builder::default()
    }

    pub fn len(&self) -> usize {
        self.problem.nodes.len()
    }

    pub fn is_empty(&self) -> bool {
        self.len() == 0
    }

    pub fn width(&self, id: u16) -> u32 {
        self.problem.nodes[id as usize].width
    }

    /// Adds a node; gives its id.
    pub fn push(&mut self, node: Node) -> u16 {
        self.problem.nodes.push(node);
        (self.len() - 1) as u16
    }

    pub fn variable(&mut self, width: u32, pair: Pair) -> u16 {
        self.push(Node { kind: Kind::Variable, width, fields: [0; 3], pair })
    }

    pub fn constant(&mut self, width: u32, value: u64) -> u16 {
        self.push(Node { kind: Kind::Constant, width, fields: [0; 3], pair: Pair::fixed(value) })
    }

    /// A node of an operator whose width its operands decide: all kinds but extract and sext.
    pub fn node(&mut self, kind: Kind, operands: &[u16]) -> u16 {
        assert_eq!(operands.len(), kind.operands());
        let width = match kind {
            Kind::Eq | Kind::Below | Kind::SignedBelow => 1,
            Kind::If => self.width(operands[1]),
            Kind::Concat => self.width(operands[0]) + self.width(operands[1]),
            _ => self.width(operands[0]),
        };
        let mut fields = [0; 3];
        fields[..operands.len()].copy_from_slice(operands);
        self.push(Node { kind, width, fields, pair: Pair::default() })
    }

    /// The `width` bits of node `a` from bit `low` on.
    pub fn extract(&mut self, a: u16, low: u32, width: u32) -> u16 {
        self.push(Node { kind: Kind::Extract, width, fields: [a, low as u16, 0], pair: Pair::default() })
    }

    /// Node `a` with its top bit repeated in front, `width` bits in all.
    pub fn sign_extend(&mut self, a: u16, width: u32) -> u16 {
        self.push(Node { kind: Kind::SignExtend, width, fields: [a, 0, 0], pair: Pair::default() })
    }

    /// Makes a node a root, where it is none yet: roots may not repeat.
    pub fn root(&mut self, id: u16) {
        if !self.problem.roots.contains(&id) {
            self.problem.roots.push(id);
        }
    }

    /// The root that says that a node has a value.
    pub fn root_equals(&mut self, id: u16, value: u64) {
        let width = self.width(id);
        let constant = self.constant(width, value);
        let eq = self.node(Kind::Eq, &[id, constant]);
        self.root(eq);
    }
}
