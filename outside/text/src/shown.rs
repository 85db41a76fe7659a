//! A problem's bytes as text, in the form that `form` reads, with widths and derived pairs as remarks.
//! A refused problem is shown as far as its bytes go, with the refused place marked.

use model::problem::{Node, Problem, HEADER, NODE};
use model::{ones, pairs, Kind, Pair};
use std::fmt::Write;
use walumpeh::{Place, Refusal};

/// A ternary word's digits, the highest bit first.
pub fn digits(pair: Pair, width: u32) -> String {
    let digit = |i: u32| match (pair.lo >> i & 1, pair.hi >> i & 1) {
        (0, 0) => '0',
        (1, _) => '1',
        _ => '*',
    };
    (0..width).rev().map(digit).collect()
}

/// The text of an accepted problem.
pub fn accepted(problem: &Problem) -> String {
    let (nodes, roots) = (problem.nodes.len(), problem.roots.len());
    let mut text = format!(
        "# {}, {}, longest chain under a root {}\n",
        count(nodes, "node"),
        count(roots, "root"),
        problem.height()
    );
    for (id, (node, pair)) in problem.nodes.iter().zip(pairs::pairs(problem)).enumerate() {
        let remark = format!("{} {}", count(node.width as usize, "bit"), digits(pair, node.width));
        line(&mut text, &Raw::of(node).shown(id), &remark);
    }
    for root in &problem.roots {
        writeln!(text, "root {root}").expect("text takes all");
    }
    text
}

/// What a node of an accepted problem is: its kind and operands.
pub fn operation(node: &Node) -> String {
    Raw::of(node).operation()
}

/// The text of refused bytes, as far as they go: no nodes where the header is refused.
pub fn refused(bytes: &[u8], refusal: Refusal) -> String {
    let mut text = format!("# {refusal}\n");
    let field = |at: usize| usize::from(bytes[at]) | usize::from(bytes[at + 1]) << 8;
    if refusal.number < 3 {
        return text + &format!("# {} bytes\n", bytes.len());
    }
    let (version, nodes, roots) = (field(3), field(5), field(7));
    let (of_nodes, of_roots) = (count(nodes, "node"), count(roots, "root"));
    writeln!(text, "# version {version}, {of_nodes}, {of_roots}, {} bytes", bytes.len())
        .expect("text takes all");
    if refusal.number > 6 {
        let (nodes, roots) = bytes[HEADER..].split_at(NODE * nodes);
        refused_nodes(&mut text, nodes, refusal);
        refused_roots(&mut text, roots, refusal);
    }
    text
}

fn refused_nodes(text: &mut String, nodes: &[u8], refusal: Refusal) {
    for (id, part) in nodes.chunks(NODE).enumerate() {
        let raw = Raw::new(part);
        let remark = if refusal.at() == Place::Node(id as u64) {
            format!("<== refused {}: {}: {}", refusal.number, refusal.meaning(), raw.bare())
        } else {
            count(raw.width.into(), "bit")
        };
        line(text, &raw.shown(id), &remark);
    }
}

fn refused_roots(text: &mut String, roots: &[u8], refusal: Refusal) {
    for (position, root) in roots.chunks(2).enumerate() {
        let shown = format!("root {}", u16::from_le_bytes([root[0], root[1]]));
        if refusal.at() == Place::Root(position as u64) {
            line(text, &shown, &format!("<== refused {}: {}", refusal.number, refusal.meaning()));
        } else {
            writeln!(text, "{shown}").expect("text takes all");
        }
    }
}

fn line(text: &mut String, shown: &str, remark: &str) {
    writeln!(text, "{shown:<28} # {remark}").expect("text takes all");
}

fn count(number: usize, thing: &str) -> String {
    format!("{number} {thing}{}", if number == 1 { "" } else { "s" })
}

/// A node as its bytes have it, accepted or not.
struct Raw {
    kind: u8,
    width: u8,
    fields: [u16; 3],
    pair: Pair,
}

impl Raw {
    fn new(part: &[u8]) -> Raw {
        let word = |at: usize| u64::from_le_bytes(part[at..at + 8].try_into().expect("eight bytes"));
        let field = |at: usize| u16::from_le_bytes([part[at], part[at + 1]]);
        Raw {
            kind: part[0],
            width: part[1],
            fields: [field(2), field(4), field(6)],
            pair: Pair { lo: word(8), hi: word(16) },
        }
    }

    fn of(node: &Node) -> Raw {
        Raw { kind: node.kind.number(), width: node.width as u8, fields: node.fields, pair: node.pair }
    }

    /// The line of the text form.
    fn shown(&self, id: usize) -> String {
        format!("{id} = {}", self.operation())
    }

    /// What the node is, as that line has it after its name.
    fn operation(&self) -> String {
        let (w, [a, b, c]) = (self.width, self.fields);
        let Some(kind) = Kind::from_number(self.kind) else {
            return self.bare();
        };
        let name = kind.name();
        match kind {
            Kind::Variable if (1..=64).contains(&w) && self.pair != Pair::free(w.into()) => {
                let width = u32::from(w);
                let outside = if self.pair.hi > ones(width) { "?" } else { "" };
                format!("{name} {w} {outside}{}", digits(self.pair, width))
            }
            Kind::Variable => format!("{name} {w}"),
            Kind::Constant => format!("{name} {w} {}", self.pair.lo),
            Kind::Extract => format!("{name} {a} {b} {w}"),
            Kind::SignExtend => format!("{name} {w} {a}"),
            _ => match kind.operands() {
                1 => format!("{name} {a}"),
                2 => format!("{name} {a} {b}"),
                _ => format!("{name} {a} {b} {c}"),
            },
        }
    }

    /// Every field by its number.
    fn bare(&self) -> String {
        let [a, b, c] = self.fields;
        format!(
            "kind {} width {} a {a} b {b} c {c} lo {:#x} hi {:#x}",
            self.kind, self.width, self.pair.lo, self.pair.hi
        )
    }
}

#[cfg(test)]
mod tests {
    use super::*;
    use generate::{damage, random, Rng};

    #[test]
    fn the_worked_example() {
        let text = accepted(&crate::worked_example());
        let lines: Vec<&str> = text.lines().collect();
        assert_eq!(lines[0], "# 5 nodes, 1 root, longest chain under a root 2");
        assert_eq!(lines[1], "0 = var 4                    # 4 bits ****");
        assert_eq!(lines[5], "4 = eq 2 3                   # 1 bit *");
        assert_eq!(lines[6], "root 4");
    }

    #[test]
    fn what_is_printed_is_read_back() {
        for index in 0..500 {
            let mut rng = Rng::of_case(5, index);
            let size = random::size(&mut rng);
            let problem = random::problem(&mut rng, size);
            assert_eq!(crate::form::parse(&accepted(&problem)), Ok(problem));
        }
    }

    #[test]
    fn a_refused_place_is_marked() {
        for index in 0..2000 {
            let mut rng = Rng::of_case(6, index);
            let problem = random::problem(&mut rng, 20);
            let number = damage::FAULTS[index as usize % damage::FAULTS.len()];
            let bytes = damage::damaged(&mut rng, &problem, number);
            let Err(refusal) = walumpeh::check(&bytes) else {
                continue;
            };
            let text = refused(&bytes, refusal);
            let mark = format!("<== refused {}", refusal.number);
            let marked: Vec<usize> =
                text.lines().enumerate().filter(|(_, line)| line.contains(&mark)).map(|(at, _)| at).collect();
            let place = refusal.place as usize;
            match refusal.number {
                1..=6 => assert_eq!(marked, []),
                7..=12 | 20 => assert_eq!(marked, [2 + place]),
                _ => assert_eq!(marked, [2 + 20 + place]),
            }
        }
    }
}
