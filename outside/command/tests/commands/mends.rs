//! Shuffled problems put in order, and what cannot be.

use crate::at::{text, At};

/// x + y = 200, of 8 bits each.
const SUM: &str = "\
x = var 8
y = var 8
s = add x y
k = const 8 200
is = eq s k
root is
";

const NODE: usize = 24;

/// Node i of the problem's bytes at a place, its operands as given.
fn put(bytes: &mut [u8], from: &[u8], i: usize, place: usize, operands: &[u8]) {
    let (from, to) = (&from[9 + NODE * i..][..NODE], 9 + NODE * place);
    bytes[to..to + NODE].copy_from_slice(from);
    for (position, &operand) in operands.iter().enumerate() {
        bytes[to + 2 + 2 * position] = operand;
    }
}

/// The sum's problem, and the same with its comparison first, then the sum, the constant, y and x.
fn sum(name: &str) -> (At, Vec<u8>, Vec<u8>) {
    let at = At::new(name);
    at.write("sum.txt", SUM);
    at.prints("build sum.txt problem.tbv", "");
    let ordered = at.read("problem.tbv");
    let mut shuffled = ordered.clone();
    put(&mut shuffled, &ordered, 4, 0, &[1, 2]);
    put(&mut shuffled, &ordered, 2, 1, &[4, 3]);
    put(&mut shuffled, &ordered, 3, 2, &[]);
    put(&mut shuffled, &ordered, 1, 3, &[]);
    put(&mut shuffled, &ordered, 0, 4, &[]);
    shuffled[9 + NODE * 5] = 0;
    at.write("shuffled.tbv", &shuffled);
    (at, ordered, shuffled)
}

#[test]
fn a_shuffled_problem_is_put_in_order() {
    let (at, _, _) = sum("mended");
    at.fails(
        "check shuffled.tbv",
        "shuffled.tbv: refused 9 at 0: node 0: an operand's id is not below the node's own",
    );
    at.prints("mend shuffled.tbv mended.tbv --map map.bin", "");
    assert_eq!(at.read("map.bin"), [2, 0, 3, 0, 4, 0, 1, 0, 0, 0]);
    let shown = at.printed("show mended.tbv");
    for part in ["add 2 1", "eq 3 0"] {
        assert!(shown.contains(part), "{shown}");
    }
    at.prints("mend mended.tbv again.tbv --map same.bin", "");
    assert_eq!(at.read("again.tbv"), at.read("mended.tbv"));
    assert_eq!(at.read("same.bin"), [0, 0, 1, 0, 2, 0, 3, 0, 4, 0]);
}

#[test]
fn a_problem_in_order_comes_back_byte_for_byte() {
    let (at, ordered, _) = sum("unmended");
    at.prints("mend problem.tbv same.tbv", "");
    assert_eq!(at.read("same.tbv"), ordered);
    let piped = at.run("mend problem.tbv -");
    assert_eq!((piped.status.code(), piped.stdout), (Some(0), ordered));
}

/// Each of the mender's own refusals with its number, the id in the file that was read, and its meaning.
#[test]
fn refusals_of_the_mender() {
    let (at, _, shuffled) = sum("unmendable");
    let refused = |bytes: &[u8], said: &str| {
        at.write("bad.tbv", bytes);
        at.fails("mend bad.tbv out.tbv --map map.bin", &format!("bad.tbv: {said}"));
        assert!(!at.path("out.tbv").exists() && !at.path("map.bin").exists());
    };
    let changed = |place: usize, byte: u8| {
        let mut bytes = shuffled.clone();
        bytes[place] = byte;
        bytes
    };
    let a = |node: usize| 9 + NODE * node + 2;
    refused(&changed(a(1), 5), "refused 21 at 1: node 1: an operand's id is no node's");
    let circle = "the node can never be placed: it reads itself, or operands under it form a circle";
    refused(&changed(a(1), 1), &format!("refused 22 at 0: node 0: {circle}"));
    // The comparison is node 4 of what would be written.
    refused(&changed(9 + 1, 2), "refused 11 at 0: node 0: the widths do not fit");
    refused(&changed(a(4), 1), "refused 10 at 4: node 4: a field that the kind does not use is not zero");
    refused(&shuffled[..20], "refused 6 at 0: the length is not 9 + 24 for each node + 2 for each root");
    at.fails("mend shuffled.tbv shuffled.tbv", "shuffled.tbv: named for two things at once");
    at.misunderstood("mend shuffled.tbv", &["<MENDED>"]);
}

#[test]
fn help_says_what_the_map_is() {
    let at = At::new("mend-help");
    assert!(text(&at.run("mend --help").stdout).contains("for each new id the old one"));
}
