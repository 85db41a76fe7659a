//! BTOR2 in, of the library alone: what is written, the limits, each refusal with its line, and that a refusal changes nothing.

use walumpeh::{btor2, check, LineRefusal, LONGEST_PROBLEM};

/// Two words and a bit.
const BITS: &str =
    "; two words\n1 sort bitvec 4\n2 sort bitvec 1\n\n3 input 1 x\n4 input 1 y;1 ; a remark\n5 input 2\n";
/// How many lines these are, and how many bytes they need.
const LINES: u64 = 7;
const BYTES: usize = 9 + 3 * 24;

/// The nodes' kinds and operands, and the roots, that a text is converted to.
#[track_caller]
fn converted(text: &str) -> (Vec<(u8, [u16; 3])>, Vec<u16>) {
    let mut bytes = [7; LONGEST_PROBLEM + 1];
    let length = btor2(text.as_bytes(), &mut bytes).unwrap();
    assert!(bytes[length..].iter().all(|&byte| byte == 7), "what lies behind is changed");
    let bytes = &bytes[..length];
    assert_eq!(check(bytes), Ok(()));
    let number = |at: usize| u16::from_le_bytes([bytes[at], bytes[at + 1]]);
    let (nodes, roots) = (usize::from(number(5)), usize::from(number(7)));
    let node = |id: usize| (bytes[9 + 24 * id], [2, 4, 6].map(|field| number(9 + 24 * id + field)));
    ((0..nodes).map(node).collect(), (0..roots).map(|root| number(9 + 24 * nodes + 2 * root)).collect())
}

/// A refusal must change nothing, whatever the room.
#[track_caller]
fn refused(text: &str, room: usize, number: u8, line: u64) {
    let mut bytes = vec![7; room];
    assert_eq!(btor2(text.as_bytes(), &mut bytes), Err(LineRefusal { number, line }), "{text}");
    assert!(bytes.iter().all(|&byte| byte == 7), "{text}");
}

#[test]
fn nodes_in_the_order_of_lines() {
    let (variable, constant, not) = ((0, [0; 3]), (1, [0; 3]), |a| (2, [a, 0, 0]));
    for (lines, nodes, roots) in [
        ("6 or 1 3 -4", vec![not(1), not(0), not(3), (3, [4, 5, 0]), not(6)], vec![]),
        ("6 sub 1 3 4", vec![not(0), (5, [3, 1, 0]), not(4)], vec![]),
        ("6 neq 2 -3 4", vec![not(0), (9, [3, 1, 0]), not(4)], vec![]),
        ("6 uext 1 5 3", vec![constant, (12, [3, 2, 0])], vec![]),
        ("6 sext 1 5 3 z", vec![(16, [2, 0, 0])], vec![]),
        ("6 uext 1 -3 0\n7 sext 1 6 0\n8 mul 1 7 3", vec![not(0), (6, [3, 0, 0])], vec![]),
        ("6 slice 2 3 2 2", vec![(13, [0, 2, 0])], vec![]),
        ("6 ite 1 5 3 4", vec![(11, [2, 0, 1])], vec![]),
        (
            "6 slt 2 3 4\n7 constraint 6\n8 constraint -6\n9 constraint 6",
            vec![(14, [0, 1, 0]), not(3)],
            vec![3, 4],
        ),
        (
            "6 constraint 5\n7 uext 2 5 0\n8 constraint 7\n9 constraint -5\n10 constraint -5",
            vec![not(2), not(2)],
            vec![2, 3, 4],
        ),
    ] {
        let expected: Vec<_> = [variable; 3].into_iter().chain(nodes).collect();
        assert_eq!(converted(&format!("{BITS}{lines}")), (expected, roots), "{lines}");
    }
    assert_eq!(converted(""), (vec![], vec![]));
    assert_eq!(converted("18446744073709551615 sort bitvec 64"), (vec![], vec![]));
}

/// The first line that fails, and its number: what follows it is not looked at.
#[test]
fn each_refusal_names_its_line() {
    for (line, number) in [
        ("06 input 1", 1),
        ("18446744073709551616 input 1", 1),
        ("6 input 1 a b", 1),
        ("6 not 1 -0", 1),
        ("6 Not 1 3", 1),
        ("6 sort 4", 1),
        ("6 sort array 1 1", 2),
        ("6 state", 2),
        ("5 output -", 2),
        ("5 input 1", 3),
        ("4294967301 input 4294967297", 3),
        ("6 not 1 18446744073709551619", 3),
        ("6 and 1 3 6", 3),
        ("6 constraint 2", 3),
        ("6 sort bitvec 65", 4),
        ("6 sort bitvec 18446744073709551617", 4),
        ("6 and 1 3 5", 4),
        ("6 slice 2 3 4 4", 4),
        ("6 sext 1 3 18446744073709551616", 4),
        ("6 constd 1 16", 4),
        ("6 constd 1 -9", 4),
        ("6 consth 1 10", 4),
        ("6 const 1 101", 4),
        ("6 constraint 3", 4),
    ] {
        refused(&format!("{BITS}{line}\n0 nonsense"), LONGEST_PROBLEM, number, LINES + 1);
    }
}

#[test]
fn limits_and_room() {
    let text = |nodes: usize, roots: usize| {
        let inputs: String = (2..nodes + 2).map(|id| format!("{id} input 1\n")).collect();
        let constraints: String =
            (0..roots).map(|k| format!("{} constraint {}\n", nodes + 2 + k, k + 2)).collect();
        format!("1 sort bitvec 1\n{inputs}{constraints}")
    };
    assert_eq!(converted(&text(1024, 256)).0.len(), 1024);
    refused(&text(1025, 0), LONGEST_PROBLEM + 99, 5, 1026);
    refused(&text(300, 257), LONGEST_PROBLEM, 5, 1 + 300 + 257);
    for room in 0..9 {
        refused("nonsense", room, 5, 0);
    }
    refused("nonsense", 9, 1, 1);
    refused(BITS, BYTES - 1, 5, LINES);
    assert_eq!(btor2(BITS.as_bytes(), &mut [0; BYTES]), Ok(BYTES));
    let rooted = format!("{BITS}6 constraint 5\n7 constraint 5");
    refused(&rooted, BYTES + 1, 5, LINES + 1);
    assert_eq!(btor2(rooted.as_bytes(), &mut [0; BYTES + 2]), Ok(BYTES + 2));
    // 4 comes before 5 on one line.
    refused(&format!("{BITS}6 constraint 3"), BYTES, 4, LINES + 1);
}

#[test]
fn a_refusal_in_words() {
    let refusal = btor2(b"\n1 next", &mut [0; 9]).unwrap_err();
    assert_eq!(refusal.to_string(), "refused 2 at line 2: a keyword outside the list");
}
