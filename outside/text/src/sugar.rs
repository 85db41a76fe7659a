//! Names that the text form has for more than one node, or for a node with its operands the other way
//! round: each stands for the last of the nodes that it is expanded into.

use generate::Builder;
use model::Kind;

pub struct Sugar {
    pub name: &'static str,
    pub operands: usize,
    /// The nodes that it becomes, in their order. A and B are its operands; what a node leaves out is the
    /// node before it.
    pub nodes: &'static str,
    expand: fn(&mut Builder, &[u16]) -> u16,
}

/// All but `zext`, which takes a width.
pub const ALL: [Sugar; 9] = [
    Sugar { name: "or", operands: 2, nodes: "not A, not B, and of both, not", expand: or },
    Sugar { name: "sub", operands: 2, nodes: "not A, add B, not", expand: |b, ids| sub(b, ids[0], ids[1]) },
    Sugar { name: "neg", operands: 1, nodes: "const 1, not A, add of both", expand: neg },
    Sugar { name: "ne", operands: 2, nodes: "eq A B, not", expand: |b, ids| negated(b, Kind::Eq, ids) },
    Sugar {
        name: "ule",
        operands: 2,
        nodes: "below B A, not",
        expand: |b, ids| at_most(b, Kind::Below, ids),
    },
    Sugar {
        name: "sle",
        operands: 2,
        nodes: "slt B A, not",
        expand: |b, ids| at_most(b, Kind::SignedBelow, ids),
    },
    Sugar {
        name: "ugt",
        operands: 2,
        nodes: "below B A",
        expand: |b, ids| b.node(Kind::Below, &[ids[1], ids[0]]),
    },
    Sugar {
        name: "sgt",
        operands: 2,
        nodes: "slt B A",
        expand: |b, ids| b.node(Kind::SignedBelow, &[ids[1], ids[0]]),
    },
    Sugar { name: "urem", operands: 2, nodes: "udiv A B, mul B, not A, add of both, not", expand: urem },
];

/// What `zext WIDTH A` becomes.
pub const ZEXT: &str = "const 0 of the bits in front, concat A";

pub fn named(name: &str) -> Option<&'static Sugar> {
    ALL.iter().find(|sugar| sugar.name == name)
}

impl Sugar {
    /// Whether it takes operands of these widths: all of one, and for a remainder at most 16 bits.
    pub fn takes(&self, widths: &[u32]) -> bool {
        let most = if self.name == "urem" { Kind::Div.widest() } else { 64 };
        widths.iter().all(|&width| width == widths[0] && width <= most)
    }

    /// Adds the nodes; gives the last one's id. The operands are such as it takes.
    pub fn expand(&self, builder: &mut Builder, operands: &[u16]) -> u16 {
        (self.expand)(builder, operands)
    }
}

/// Node `a` with zeros in front, `width` bits in all, which are more than it has.
pub fn zext(builder: &mut Builder, a: u16, width: u32) -> u16 {
    let front = width - builder.width(a);
    let zero = builder.constant(front, 0);
    builder.node(Kind::Concat, &[zero, a])
}

fn or(builder: &mut Builder, ids: &[u16]) -> u16 {
    let neither = [ids[0], ids[1]].map(|id| builder.node(Kind::Not, &[id]));
    negated(builder, Kind::And, &neither)
}

/// a - b is the complement of b more than the complement of a.
fn sub(builder: &mut Builder, a: u16, b: u16) -> u16 {
    let complement = builder.node(Kind::Not, &[a]);
    negated(builder, Kind::Add, &[complement, b])
}

fn neg(builder: &mut Builder, ids: &[u16]) -> u16 {
    let width = builder.width(ids[0]);
    let one = builder.constant(width, 1);
    let complement = builder.node(Kind::Not, &[ids[0]]);
    builder.node(Kind::Add, &[complement, one])
}

/// a is at most b where b is not below a.
fn at_most(builder: &mut Builder, below: Kind, ids: &[u16]) -> u16 {
    negated(builder, below, &[ids[1], ids[0]])
}

/// a - b · (a div b), zero divisor included.
fn urem(builder: &mut Builder, ids: &[u16]) -> u16 {
    let quotient = builder.node(Kind::Div, ids);
    let product = builder.node(Kind::Mul, &[ids[1], quotient]);
    sub(builder, ids[0], product)
}

fn negated(builder: &mut Builder, kind: Kind, ids: &[u16]) -> u16 {
    let node = builder.node(kind, ids);
    builder.node(Kind::Not, &[node])
}

#[cfg(test)]
mod tests {
    use super::*;
    use model::word::signed;

    /// What each means, on 4 bits; zext to 7.
    fn meaning(name: &str, a: u64, b: u64) -> u64 {
        match name {
            "or" => a | b,
            "sub" => a.wrapping_sub(b) & 15,
            "neg" => a.wrapping_neg() & 15,
            "ne" => u64::from(a != b),
            "ule" => u64::from(a <= b),
            "sle" => u64::from(signed(a, 4) <= signed(b, 4)),
            "ugt" => u64::from(a > b),
            "sgt" => u64::from(signed(a, 4) > signed(b, 4)),
            "urem" => a.checked_rem(b).unwrap_or(a),
            "zext" => a,
            _ => panic!("no meaning of {name}"),
        }
    }

    #[test]
    fn each_means_what_it_says_in_as_many_nodes() {
        let sugars = ALL.iter().map(|sugar| {
            let operands = ["a", "a b"][sugar.operands - 1];
            (sugar.name, format!("{} {operands}", sugar.name), sugar.nodes)
        });
        for (name, line, nodes) in sugars.chain([("zext", "zext 7 a".into(), ZEXT)]) {
            let problem = crate::form::parse(&format!("a = var 4\nb = var 4\ns = {line}\n")).unwrap();
            assert_eq!(problem.nodes.len(), 2 + nodes.split(", ").count(), "{name}");
            let mut values = vec![0; problem.nodes.len()];
            for (a, b) in (0..16).flat_map(|a| (0..16).map(move |b| (a, b))) {
                (values[0], values[1]) = (a, b);
                problem.evaluate(&mut values);
                assert_eq!(values.last(), Some(&meaning(name, a, b)), "{name} of {a}, {b}");
            }
        }
    }
}
