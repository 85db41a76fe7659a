//! The problem check on documents 01 and 02's limits, on one input or more for each refusal 1 to 13, 16
//! and 20, and on inputs with two faults. The answers are worked out by hand, not by the model.

use walumpeh::check;

/// Kind, width, fields a, b, c, and the pair.
#[derive(Clone, Copy)]
struct Node(u8, u8, [u16; 3], u64, u64);

fn leaf(kind: u8, width: u8, lo: u64, hi: u64) -> Node {
    Node(kind, width, [0; 3], lo, hi)
}
fn inner(kind: u8, width: u8, a: u16, b: u16, c: u16) -> Node {
    Node(kind, width, [a, b, c], 0, 0)
}

/// A problem before it is written: what its header says, its nodes and its roots.
#[derive(Clone)]
struct Problem {
    mark: [u8; 3],
    version: u16,
    counts: Option<[u16; 2]>,
    nodes: Vec<Node>,
    roots: Vec<u16>,
}

impl Problem {
    fn new(nodes: Vec<Node>, roots: Vec<u16>) -> Problem {
        Problem { mark: *b"TBV", version: 1, counts: None, nodes, roots }
    }

    fn bytes(&self) -> Vec<u8> {
        let counts = self.counts.unwrap_or([self.nodes.len() as u16, self.roots.len() as u16]);
        let mut bytes = self.mark.to_vec();
        for number in [self.version, counts[0], counts[1]] {
            bytes.extend(number.to_le_bytes());
        }
        for &Node(kind, width, fields, lo, hi) in &self.nodes {
            bytes.extend([kind, width]);
            bytes.extend(fields.iter().flat_map(|field| field.to_le_bytes()));
            bytes.extend([lo, hi].iter().flat_map(|half| half.to_le_bytes()));
        }
        bytes.extend(self.roots.iter().flat_map(|root| root.to_le_bytes()));
        bytes
    }
}

/// A problem that has every kind. Node 0 has 1 bit, nodes 1 and 2 have 4 bits, and from 3 on the kind is
/// one below the id; the roots are 10 and 11.
fn every_kind() -> Problem {
    let nodes = vec![
        leaf(0, 1, 0, 1),
        leaf(0, 4, 0, 15),
        leaf(1, 4, 6, 6),
        inner(2, 4, 1, 0, 0),
        inner(3, 4, 1, 2, 0),
        inner(4, 4, 1, 2, 0),
        inner(5, 4, 1, 2, 0),
        inner(6, 4, 1, 2, 0),
        inner(7, 4, 1, 2, 0),
        inner(8, 4, 1, 2, 0),
        inner(9, 1, 1, 2, 0),
        inner(10, 1, 1, 2, 0),
        inner(11, 4, 0, 1, 2),
        inner(12, 5, 1, 0, 0),
        inner(13, 3, 1, 1, 0),
        inner(14, 1, 1, 2, 0),
        inner(15, 4, 1, 2, 0),
        inner(16, 8, 1, 0, 0),
        inner(17, 4, 1, 2, 0),
    ];
    Problem::new(nodes, vec![10, 11])
}

/// The same with one node changed.
fn with(id: usize, node: Node) -> Problem {
    let mut problem = every_kind();
    problem.nodes[id] = node;
    problem
}

/// The same with other roots.
fn rooted(roots: &[u16]) -> Problem {
    Problem { roots: roots.to_vec(), ..every_kind() }
}

/// The number and place that the check tells, 0 and 0 where it accepts.
fn told(bytes: &[u8]) -> (u8, u64) {
    check(bytes).map_or_else(|refusal| (refusal.number, refusal.place), |()| (0, 0))
}

fn expect(name: &str, bytes: &[u8], number: u8, place: u64) {
    assert_eq!(told(bytes), (number, place), "{name}");
}

fn refused(name: &str, problem: &Problem, number: u8, place: u64) {
    expect(name, &problem.bytes(), number, place);
}

fn accepted(name: &str, problem: &Problem) {
    refused(name, problem, 0, 0);
}

#[test]
fn limits() {
    let one = |width, hi| Problem::new(vec![leaf(0, width, 0, hi)], vec![]);
    accepted("width 1", &one(1, 1));
    accepted("width 64", &one(64, u64::MAX));
    refused("width 65", &one(65, u64::MAX), 8, 0);
    refused("width 0", &one(0, 0), 8, 0);
    let counted =
        |nodes: usize, roots: u16| Problem::new(vec![leaf(0, 1, 0, 1); nodes], (0..roots).collect());
    accepted("no nodes and no roots", &counted(0, 0));
    accepted("1024 nodes", &counted(1024, 0));
    refused("1025 nodes", &counted(1025, 0), 4, 0);
    accepted("256 roots", &counted(256, 256));
    refused("257 roots", &counted(257, 257), 5, 0);
    accepted("1024 nodes and 256 roots", &counted(1024, 256));
}

#[test]
fn headers() {
    accepted("every kind", &every_kind());
    let bytes = every_kind().bytes();
    expect("no byte", &[], 1, 0);
    expect("8 bytes", &bytes[..8], 1, 0);
    for (at, mark) in [b"tBV", b"TbV", b"TBv"].into_iter().enumerate() {
        refused(&format!("mark differs at {at}"), &Problem { mark: *mark, ..every_kind() }, 2, 0);
    }
    for version in [0, 2, 257] {
        refused(&format!("version {version}"), &Problem { version, ..every_kind() }, 3, 0);
    }
    let count = every_kind().nodes.len() as u16;
    let counted = |nodes, roots| Problem { counts: Some([nodes, roots]), ..every_kind() };
    refused("count of 65535 nodes", &counted(65535, 2), 4, 0);
    refused("count of 65535 roots", &counted(count, 65535), 5, 0);
    refused("a node fewer counted", &counted(count - 1, 2), 6, 0);
    refused("a root more counted", &counted(count, 3), 6, 0);
    expect("9 bytes", &bytes[..9], 6, 0);
    expect("a byte too few", &bytes[..bytes.len() - 1], 6, 0);
    expect("a byte too many", &[bytes.as_slice(), &[0]].concat(), 6, 0);
}

#[test]
fn kinds_widths_operands() {
    refused("the first number that is no kind", &with(6, inner(18, 4, 1, 2, 0)), 7, 6);
    refused("kind 255", &with(14, inner(255, 4, 0, 0, 0)), 7, 14);
    refused("and of width 0", &with(4, inner(3, 0, 1, 2, 0)), 8, 4);
    refused("add of width 65", &with(6, inner(5, 65, 1, 2, 0)), 8, 6);
    refused("not of itself", &with(3, inner(2, 4, 3, 0, 0)), 9, 3);
    refused("xor of 1 and itself", &with(5, inner(4, 4, 1, 5, 0)), 9, 5);
    refused("if whose c is above it", &with(12, inner(11, 4, 0, 1, 13)), 9, 12);
    refused("extract whose b is no operand", &with(14, inner(13, 3, 1, 15, 0)), 11, 14);
    refused("signed below of 1 and itself", &with(15, inner(14, 1, 1, 15, 0)), 9, 15);
    refused("sign extension of itself", &with(17, inner(16, 8, 17, 0, 0)), 9, 17);
}

#[test]
fn divisions() {
    refused("division of width 16, operands of 4 bits", &with(18, inner(17, 16, 1, 2, 0)), 11, 18);
    refused("division of width 17", &with(18, inner(17, 17, 1, 2, 0)), 20, 18);
    refused("division of width 65", &with(18, inner(17, 65, 1, 2, 0)), 8, 18);
    refused("division whose b has 1 bit", &with(18, inner(17, 4, 1, 0, 0)), 11, 18);
    refused("division of width 17, and operand above", &with(6, inner(17, 17, 1, 9, 0)), 20, 6);
    let wide = |width| Problem::new(vec![leaf(0, width, 0, 1), inner(17, width, 0, 0, 0)], vec![]);
    accepted("division of 16 bits", &wide(16));
    refused("division of 17 bits", &wide(17), 20, 1);
}

#[test]
fn unused_fields() {
    refused("variable with field a", &with(1, Node(0, 4, [1, 0, 0], 0, 15)), 10, 1);
    refused("constant with field c", &with(2, Node(1, 4, [0, 0, 1], 6, 6)), 10, 2);
    refused("not with field b", &with(3, inner(2, 4, 1, 1, 0)), 10, 3);
    refused("concat with field c", &with(13, inner(12, 5, 1, 0, 1)), 10, 13);
    refused("extract with field c", &with(14, inner(13, 3, 1, 1, 1)), 10, 14);
    refused("arithmetic shift with field c", &with(16, inner(15, 4, 1, 2, 1)), 10, 16);
    refused("sign extension with field b", &with(17, inner(16, 8, 1, 1, 0)), 10, 17);
    refused("add with lo", &with(6, Node(5, 4, [1, 2, 0], 1, 0)), 10, 6);
    refused("mul with hi", &with(7, Node(6, 4, [1, 2, 0], 0, 1)), 10, 7);
    refused("sign extension with hi", &with(17, Node(16, 8, [1, 0, 0], 0, 1)), 10, 17);
}

#[test]
fn width_rules() {
    refused("not narrower than a", &with(3, inner(2, 3, 1, 0, 0)), 11, 3);
    refused("and wider than a and b", &with(4, inner(3, 5, 1, 2, 0)), 11, 4);
    refused("shl whose b has 1 bit", &with(8, inner(7, 4, 1, 0, 0)), 11, 8);
    refused("eq of width 4", &with(10, inner(9, 4, 1, 2, 0)), 11, 10);
    refused("below of 4 bits and 1 bit", &with(11, inner(10, 1, 1, 0, 0)), 11, 11);
    refused("if whose a has 4 bits", &with(12, inner(11, 4, 1, 1, 2)), 11, 12);
    refused("if whose c has 1 bit", &with(12, inner(11, 4, 0, 1, 0)), 11, 12);
    refused("concat of 4 bits and 1 bit to 6", &with(13, inner(12, 6, 1, 0, 0)), 11, 13);
    refused("extract of 3 bits from bit 2 of 4", &with(14, inner(13, 3, 1, 2, 0)), 11, 14);
    accepted("extract of 2 bits from bit 2 of 4", &with(14, inner(13, 2, 1, 2, 0)));
    refused("signed below of 4 bits and 1 bit", &with(15, inner(14, 1, 1, 0, 0)), 11, 15);
    refused("arithmetic shift whose b has 1 bit", &with(16, inner(15, 4, 1, 0, 0)), 11, 16);
    refused("sign extension to the same width", &with(17, inner(16, 4, 1, 0, 0)), 11, 17);
    accepted("sign extension by 1 bit", &with(17, inner(16, 5, 1, 0, 0)));
}

#[test]
fn pairs_and_roots() {
    refused("variable whose lo is outside hi", &with(1, leaf(0, 4, 1, 14)), 12, 1);
    refused("variable whose hi is 16", &with(1, leaf(0, 4, 0, 16)), 12, 1);
    refused("constant 16", &with(2, leaf(1, 4, 16, 16)), 12, 2);
    refused("constant apart", &with(2, leaf(1, 4, 6, 7)), 12, 2);
    accepted("variable with one bit fixed", &with(1, leaf(0, 4, 8, 15)));
    let beyond = every_kind().nodes.len() as u16;
    refused("a root beyond the nodes", &rooted(&[beyond, 11]), 13, 0);
    refused("second root of 4 bits", &rooted(&[10, 12]), 13, 1);
    accepted("second root a variable", &rooted(&[10, 0]));
}

#[test]
fn repeated_roots() {
    let beyond = every_kind().nodes.len() as u16;
    accepted("roots 11, 10 and 0", &rooted(&[11, 10, 0]));
    refused("root 10 twice", &rooted(&[10, 10]), 16, 1);
    refused("the same root forty times", &rooted(&[0; 40]), 16, 1);
    refused("root 10 again after 11", &rooted(&[10, 11, 10]), 16, 2);
    refused("16 at root 2 and at root 3", &rooted(&[10, 11, 11, 10]), 16, 2);
    refused("16 at root 1, 13 at root 2", &rooted(&[10, 10, 12]), 13, 2);
    refused("a root beyond the nodes twice", &rooted(&[beyond, beyond]), 13, 0);
}

#[test]
fn the_first_of_two_faults_in_the_header() {
    let empty = Problem::new(vec![], vec![]);
    let mark = *b"tBV";
    let marked = Problem { mark, ..empty.clone() };
    expect("short, and mark wrong", &marked.bytes()[..8], 1, 0);
    refused("mark and version wrong", &Problem { version: 2, ..marked }, 2, 0);
    let counted = |nodes, roots| Problem { counts: Some([nodes, roots]), ..empty.clone() };
    refused("version wrong, and 1025 nodes", &Problem { version: 2, ..counted(1025, 0) }, 3, 0);
    refused("1025 nodes and 257 roots", &counted(1025, 257), 4, 0);
    refused("257 roots, and length wrong", &counted(1, 257), 5, 0);
    let zero = Problem::new(vec![leaf(0, 0, 0, 0)], vec![]).bytes();
    expect("length wrong, and node 0 of width 0", &[zero.as_slice(), &[0]].concat(), 6, 0);
}

#[test]
fn the_first_of_two_faults_in_nodes_and_roots() {
    refused("no kind, and width 65", &with(6, inner(200, 65, 1, 2, 0)), 7, 6);
    refused("width 0, and operand above", &with(6, inner(5, 0, 1, 9, 0)), 8, 6);
    refused("operand above, and field c", &with(6, inner(5, 4, 1, 9, 1)), 9, 6);
    refused("field c, and width rule", &with(6, inner(5, 3, 1, 2, 1)), 10, 6);
    refused("field a, and hi is 16", &with(1, Node(0, 4, [1, 0, 0], 0, 16)), 10, 1);
    let two = |id: usize, node, other: usize, second| {
        let mut problem = with(id, node);
        problem.nodes[other] = second;
        problem
    };
    refused("12 at node 2, 7 at node 6", &two(6, inner(200, 4, 1, 2, 0), 2, leaf(1, 4, 6, 7)), 12, 2);
    refused("11 at node 6, 8 at node 7", &two(6, inner(5, 3, 1, 2, 0), 7, inner(6, 0, 1, 2, 0)), 11, 6);
    let beyond = every_kind().nodes.len() as u16;
    let both = Problem { roots: vec![beyond, 11], ..with(14, inner(13, 4, 1, 1, 0)) };
    refused("11 at node 14, 13 at root 0", &both, 11, 14);
    refused("13 at both roots", &rooted(&[12, beyond]), 13, 0);
}
