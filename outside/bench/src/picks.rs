//! Single picks and essential tests of each kind: nanoseconds a call.

use crate::measure::fastest;
use generate::{spots, Rng};
use model::calls::words_of;
use model::{Kind, Spot};
use std::hint::black_box;

struct Question {
    spot: Spot,
    words: [u64; 12],
    position: u32,
    target: u64,
    proposal: u64,
}

/// The calls of the library and of plain Rust.
const SIDES: [(Pick, Essential); 2] =
    [(walumpeh::raw::pick, walumpeh::raw::essential), (plain::calls::pick, plain::calls::essential)];

/// The calls that are measured; the last is the essential test.
const CALLS: [&str; 3] = ["inverse", "consistent", "essential"];

pub fn table(rounds: usize) {
    println!("{:8} {:10}   {:>8} {:>8}   {:>5}", "kind", "call", "ns", "plain", "ratio");
    for kind in Kind::ALL.into_iter().skip(2) {
        let questions = questions(kind);
        for (which, name) in CALLS.into_iter().enumerate() {
            let parts: Vec<&[Question]> = questions.chunks(500).collect();
            let work =
                |side: usize, part: usize| parts[part].iter().for_each(|q| ask(SIDES[side], q, which as u8));
            let times = fastest(rounds, parts.len(), work);
            let [library, plain] = times.map(|time| time / questions.len() as f64);
            println!("{:8} {name:10}   {library:>8.1} {plain:>8.1}   {:>5.2}", kind.name(), plain / library);
        }
    }
}

/// Nodes of a kind with operands of 1 to 64 bits, at every position.
fn questions(kind: Kind) -> Vec<Question> {
    let mut rng = Rng::new(kind as u64);
    let question = |index: usize| {
        let operator = spots::operator(&mut rng, kind, 1, 64);
        let spot = spots::spot(&mut rng, operator);
        let position = index % kind.operands();
        let target = spots::target(&mut rng, &spot, position);
        let proposal = spots::proposal(&mut rng, &spot, position);
        Question { spot, words: words_of(&spot), position: position as u32, target, proposal }
    };
    (0..6000).map(question).collect()
}

type Pick = fn(u8, u32, u32, &[u64; 12], u32, u64, u64, u8, &mut [u64; 1]) -> u8;
type Essential = fn(u8, u32, u32, &[u64; 12], u32, u64) -> u8;

/// One call of a side.
fn ask((pick, essential): (Pick, Essential), q: &Question, which: u8) {
    let o = &q.spot.operator;
    let kind = o.kind.number();
    let mut out = [0];
    let answer = match which {
        2 => essential(kind, o.width, o.low, &q.words, q.position, q.target),
        _ => pick(kind, o.width, o.low, &q.words, q.position, q.target, q.proposal, which, &mut out),
    };
    black_box((answer, out));
}
