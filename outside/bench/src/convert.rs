//! BTOR2 in: the library beside plain Rust with a hash map, on a file as yosys writes it, on remarks, and on what costs a
//! converter of bounded memory most: many ids that it cannot keep.

use crate::measure::fastest;
use std::fmt::Write;
use std::hint::black_box;

/// The conversion as both sides have it.
type Convert = fn(&[u8], &mut [u8], &mut [u64]) -> u64;

const SIDES: [Convert; 2] = [walumpeh::raw::btor2, plain::calls::btor2];

/// Sixteen words of a frame in a row, as yosys wrote them.
const FRAMES: &[u8] = include_bytes!("../../../examples/btor2/frames.btor");

pub fn table(rounds: usize) -> Result<(), String> {
    println!(
        "{:34} {:>8} {:>7} {:>6}   {:>10} {:>10}   {:>8} {:>8}   {:>6}",
        "text", "bytes", "lines", "nodes", "us", "plain", "ns/line", "plain", "ratio"
    );
    for (name, text, rounds) in texts(rounds) {
        let mut problem = vec![0; walumpeh::LONGEST_PROBLEM];
        let mut out = [0];
        let answers = SIDES.map(|convert| (convert(&text, &mut problem, &mut out), out[0]));
        if answers[0] != answers[1] || answers[0].0 != 0 {
            return Err(format!("{name}: library and plain Rust answer {answers:?}"));
        }
        let [library, plain] = fastest(rounds, 1, |side, _| {
            black_box(SIDES[side](black_box(&text), &mut problem, &mut out));
        });
        let lines = text.iter().filter(|&&byte| byte == b'\n').count();
        println!(
            "{name:34} {:>8} {lines:>7} {:>6}   {:>10.1} {:>10.1}   {:>8.1} {:>8.1}   {:>6.2}",
            text.len(),
            u16::from_le_bytes([problem[5], problem[6]]),
            library / 1000.0,
            plain / 1000.0,
            library / lines as f64,
            plain / lines as f64,
            plain / library
        );
    }
    Ok(())
}

/// What is measured, and in how many rounds.
fn texts(rounds: usize) -> Vec<(String, Vec<u8>, usize)> {
    let remark = "; a remark of sixty-four bytes, as many of them as a megabyte has\n";
    let mut texts = vec![
        ("frames, as yosys writes it".into(), FRAMES.to_vec(), rounds),
        ("a megabyte of remarks".into(), remark.repeat((1 << 20) / remark.len()).into_bytes(), rounds),
    ];
    let few = (rounds / 10).max(3);
    for lines in [1000, 4000] {
        texts.push((format!("{lines} aliases of the first line"), aliases(lines, |_| 2), few));
        texts.push((format!("{lines} aliases, each of half its id"), aliases(lines, |id| id / 2 + 1), few));
        texts.push((format!("{lines} sorts, then 1000 inputs"), sorts(lines), few));
    }
    // From the library's 1,024th id on each costs a reading of the text for each name that it goes through.
    for lines in [1000, 1200, 1400] {
        texts.push((format!("{lines} aliases, each of the last"), aliases(lines, |id| id - 1), few));
    }
    texts
}

/// One input, and names upon names of it.
fn aliases(lines: u64, of: impl Fn(u64) -> u64) -> Vec<u8> {
    let mut text = String::from("1 sort bitvec 8\n2 input 1 x\n");
    for id in 3..3 + lines {
        writeln!(text, "{id} uext 1 {} 0 name{id}", of(id)).expect("text takes all");
    }
    text.into_bytes()
}

/// Many sorts, and inputs of sorts all over them.
fn sorts(lines: u64) -> Vec<u8> {
    let mut text = String::new();
    for id in 1..=lines {
        writeln!(text, "{id} sort bitvec {}", id % 64 + 1).expect("text takes all");
    }
    for id in 0..1000 {
        writeln!(text, "{} input {}", lines + 1 + id, id * 7919 % lines + 1).expect("text takes all");
    }
    text.into_bytes()
}
