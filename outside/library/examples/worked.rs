//! Solves the worked example, x · 6 = 2 on 4 bits, and prints what tvrun prints for it.

/// A node's 24 bytes: kind, width, operands a and b, lo and hi.
fn node(kind: u8, width: u8, [a, b]: [u16; 2], lo: u64, hi: u64) -> Vec<u8> {
    let fields = [a, b, 0].map(u16::to_le_bytes);
    [&[kind, width], fields.as_flattened(), &lo.to_le_bytes(), &hi.to_le_bytes()].concat()
}

fn main() {
    let problem = [
        b"TBV\x01\0\x05\0\x01\0".to_vec(),
        node(0, 4, [0, 0], 0, 15), // x, all free
        node(1, 4, [0, 0], 6, 6),  // the constant 6
        node(6, 4, [0, 1], 0, 0),  // x · 6
        node(1, 4, [0, 0], 2, 2),  // the constant 2
        node(9, 1, [2, 3], 0, 0),  // x · 6 = 2
        vec![4, 0],                // the root
    ]
    .concat();
    let mut values = [0; 5];
    match walumpeh::run(&problem, &mut values, &[0, 0, 9, 0, 4], 1) {
        Err(refusal) => println!("{refusal}"),
        Ok(answer) => {
            let (name, moves) = (answer.verdict.name(), answer.moves);
            println!("verdict {name} moves {moves} steps {} words {}", answer.steps, answer.words);
            println!("0 {}", values[0]);
        }
    }
}
