//! get-model answers with the names of their variables: in every form that solvers print, with a fault
//! for each of refusals 30 to 36 and for the problem's own, with two faults at once, and damaged byte by byte.

use crate::rng::Rng;
use crate::{damage, random, solved};
use model::{ones, Node, Problem};
use std::collections::HashSet;

#[derive(Clone, Debug)]
pub struct Answer {
    pub problem: Vec<u8>,
    pub names: Vec<u8>,
    pub text: Vec<u8>,
    /// The refusals that were aimed at, ascending.
    pub aims: Vec<u8>,
}

/// The refusals of a text, its list and its values.
pub const FAULTS: [u8; 7] = [30, 31, 32, 33, 34, 35, 36];

/// Answer number `index` under a seed.
pub fn answer(seed: u64, index: u64) -> Answer {
    let rng = &mut Rng::of_case(seed, index);
    let aims = aims(rng);
    let size = random::size(rng);
    let (problem, mut values) = if rng.chance(60) {
        let solved = solved::solved(rng, size);
        (solved.problem, solved.solution)
    } else {
        let problem = random::problem(rng, size);
        let values = solved::values(rng, &problem);
        (problem, values)
    };
    if aims.contains(&36) {
        contradict(rng, &problem, &mut values);
    }
    let variables: Vec<usize> = problem.variables().collect();
    let mut names = names(rng, variables.len());
    let mut entries: Vec<Entry> = (variables.iter().zip(&names))
        .map(|(&id, name)| Entry::new(rng, name, &problem.nodes[id], values[id]))
        .collect();
    shuffle(rng, &mut entries);
    for &aim in &aims {
        spoil(rng, aim, &mut names, &mut entries);
    }
    let mut bytes = problem.bytes();
    if let Some(&own) = aims.iter().find(|&&aim| aim < 30) {
        bytes = damage::damaged(rng, &problem, own);
    }
    let mut answer = Answer { problem: bytes, names: list(rng, &names), text: text(rng, &entries), aims };
    if answer.aims.contains(&31) {
        spoil_text(rng, &mut answer.text);
    }
    match rng.below(10) {
        0 | 1 => scramble(rng, &mut answer.text),
        2 => scramble(rng, &mut answer.names),
        _ => {}
    }
    answer
}

/// Mostly none or one; in some cases two, to see which is told.
fn aims(rng: &mut Rng) -> Vec<u8> {
    let count = rng.one_of(&[0, 0, 0, 1, 1, 1, 2, 2]);
    let mut aims: Vec<u8> = (0..count).map(|_| rng.one_of(&FAULTS)).collect();
    if rng.chance(3) {
        aims.push(rng.one_of(&damage::FAULTS));
    }
    aims.sort();
    aims.dedup();
    aims
}

/// The values of some variables against their fixed bits.
fn contradict(rng: &mut Rng, problem: &Problem, values: &mut [u64]) {
    let shut = |id: usize| !problem.nodes[id].pair.open() & ones(problem.nodes[id].width);
    let fixed: Vec<usize> = problem.variables().filter(|&id| shut(id) != 0).collect();
    for _ in 0..rng.between(1, 3) {
        if !fixed.is_empty() {
            let id = rng.one_of(&fixed);
            let flipped = shut(id) & rng.word();
            values[id] ^= if flipped == 0 { shut(id) } else { flipped };
        }
    }
}

fn shuffle<T>(rng: &mut Rng, list: &mut [T]) {
    let order = rng.below(3);
    for at in 1..list.len() {
        match order {
            0 => {}
            1 => list[..=at].rotate_right(1),
            _ => list.swap(at, rng.below(at + 1)),
        }
    }
}

// ---- names

const WORDS: [&str; 26] = [
    "x",
    "X",
    "y",
    "n0",
    "n1",
    "let",
    "par",
    "_",
    "!",
    "as",
    "exists",
    "forall",
    "match",
    "define-fun",
    "model",
    "assert",
    "BitVec",
    "bv5",
    "sat",
    "x.y",
    "@0",
    "-",
    "true",
    "a b",
    "#b1",
    "9",
];

/// Names that are all different; none has a bar, a backslash or a line feed.
fn names(rng: &mut Rng, count: usize) -> Vec<Vec<u8>> {
    let style = rng.below(4);
    let mut taken = HashSet::new();
    let mut names = Vec::new();
    while names.len() < count {
        let name = match style {
            0 => format!("n{}", names.len()).into_bytes(),
            1 => format!("bus[{:04}].valid", names.len()).into_bytes(),
            _ => name(rng),
        };
        if taken.insert(name.clone()) {
            names.push(name);
        }
    }
    names
}

fn name(rng: &mut Rng) -> Vec<u8> {
    let from = |rng: &mut Rng, bytes: &[u8], most: usize| -> Vec<u8> {
        let length = rng.between(0, most);
        (0..length).map(|_| rng.one_of(bytes)).collect()
    };
    match rng.below(8) {
        0..=2 => rng.one_of(&WORDS).as_bytes().to_vec(),
        3 | 4 => from(rng, SIMPLE, 12),
        5 => from(rng, b" ()\"#;\t\r'[]{},:`ab01\0\x7f\xff\xc3\xa9", 8),
        6 => from(rng, b"aA", 10),
        _ => from(rng, b"01ab", 6),
    }
}

const SIMPLE: &[u8] = b"abcdefghijklmnopqrstuvwxyzABCDEFGHIJKLMNOPQRSTUVWXYZ0123456789~!@$%^&*_-+=<>.?/";

fn is_simple(name: &[u8]) -> bool {
    name.iter().all(|byte| SIMPLE.contains(byte)) && name.first().is_some_and(|first| !first.is_ascii_digit())
}

/// The list's bytes: each name with or without bars.
fn list(rng: &mut Rng, names: &[Vec<u8>]) -> Vec<u8> {
    let barred = rng.one_of(&[0, 20, 100]);
    let mut list = Vec::new();
    for (at, name) in names.iter().enumerate() {
        list.extend(if rng.chance(barred) { quoted(name) } else { name.clone() });
        // The last line feed may be missing, but for an empty name.
        if at + 1 < names.len() || name.is_empty() || rng.chance(70) {
            list.push(b'\n');
        }
    }
    list
}

fn quoted(name: &[u8]) -> Vec<u8> {
    [b"|", name, b"|"].concat()
}

// ---- entries

/// An entry as its tokens: name, sort, and the value's.
#[derive(Clone, Debug)]
struct Entry {
    name: Vec<u8>,
    sort: String,
    value: Vec<String>,
    width: u32,
}

impl Entry {
    fn new(rng: &mut Rng, name: &[u8], node: &Node, value: u64) -> Entry {
        let width = node.width;
        Entry { name: symbol(rng, name), sort: width.to_string(), value: form(rng, value, width), width }
    }
}

fn symbol(rng: &mut Rng, name: &[u8]) -> Vec<u8> {
    if is_simple(name) && rng.chance(80) {
        name.to_vec()
    } else {
        quoted(name)
    }
}

/// A value in one of its forms.
fn form(rng: &mut Rng, value: u64, width: u32) -> Vec<String> {
    let digits = width as usize / 4;
    match rng.below(4) {
        0 if width % 4 == 0 => vec![format!("#x{value:0digits$x}")],
        1 if width % 4 == 0 => vec![format!("#x{value:0digits$X}")],
        0 | 2 => vec![format!("#b{value:0width$b}", width = width as usize)],
        _ => decimal(&value.to_string(), width),
    }
}

fn decimal(value: &str, width: u32) -> Vec<String> {
    ["(", "_", &format!("bv{value}"), &width.to_string(), ")"].map(String::from).to_vec()
}

/// The answer's bytes, with gaps of all sorts between its tokens.
fn text(rng: &mut Rng, entries: &[Entry]) -> Vec<u8> {
    let mut tokens: Vec<Vec<u8>> = vec![b"(".into()];
    if rng.chance(30) {
        tokens.push(b"model".into());
    }
    for entry in entries {
        tokens.extend(["(", "define-fun"].map(|token| token.into()));
        tokens.push(entry.name.clone());
        tokens.extend(["(", ")", "(", "_", "BitVec", &entry.sort, ")"].map(|token| token.into()));
        tokens.extend(entry.value.iter().map(|token| token.clone().into_bytes()));
        tokens.push(b")".into());
    }
    tokens.push(b")".into());
    let style = rng.below(3);
    let mut text = Vec::new();
    for token in tokens {
        let apart = text.last().is_some_and(|&last| !is_end(last)) && !is_end(token[0]);
        text.extend(gap(rng, style, apart));
        text.extend(token);
    }
    text.extend(gap(rng, style, false));
    text
}

/// A byte that a bare token does not go on over.
fn is_end(byte: u8) -> bool {
    b"()| \t\r\n".contains(&byte)
}

/// What stands between two tokens, of which the two may need to be kept apart: as solvers print it, as little
/// as can be, or anything.
fn gap(rng: &mut Rng, style: usize, apart: bool) -> Vec<u8> {
    const GAPS: [&[u8]; 8] =
        [b" ", b"\n  ", b"\t", b"\r\n", b"; (define-fun x\n", b";|\r", b" ;\"\\ \n", b"  \t\r"];
    match style {
        0 if apart || rng.chance(70) => b" ".to_vec(),
        1 if apart => b" ".to_vec(),
        2 if apart || rng.chance(50) => rng.one_of(&GAPS).to_vec(),
        _ => Vec::new(),
    }
}

// ---- faults

/// A fault in the list or the entries; where there is nothing to spoil, none.
fn spoil(rng: &mut Rng, aim: u8, names: &mut Vec<Vec<u8>>, entries: &mut Vec<Entry>) {
    match aim {
        30 => spoil_names(rng, names),
        32 => {
            let name = loop {
                let name = name(rng);
                if !names.contains(&name) {
                    break symbol(rng, &name);
                }
            };
            match entries.len() {
                0 => entries.push(Entry { name, sort: "8".into(), value: vec!["#x05".into()], width: 8 }),
                _ => {
                    let at = rng.below(entries.len());
                    let copy = Entry { name, ..entries[at].clone() };
                    match rng.chance(50) {
                        true => entries[at] = copy,
                        false => entries.insert(at, copy),
                    }
                }
            }
        }
        33 => spoil_again(rng, entries),
        34 if !entries.is_empty() => {
            let at = rng.below(entries.len());
            misfit(rng, &mut entries[at]);
        }
        35 if !entries.is_empty() => {
            for _ in 0..rng.between(1, entries.len().min(3)) {
                entries.remove(rng.below(entries.len()));
            }
        }
        _ => {}
    }
}

fn spoil_names(rng: &mut Rng, names: &mut Vec<Vec<u8>>) {
    match rng.below(4) {
        0 if !names.is_empty() => {
            names.remove(rng.below(names.len()));
        }
        1 if names.len() > 1 => {
            let (one, other) = (rng.below(names.len()), rng.below(names.len() - 1));
            names[one] = names[if other < one { other } else { other + 1 }].clone();
        }
        2 => {
            let names_before = names.len();
            names.insert(rng.below(names_before + 1), name(rng));
        }
        _ => names.push(name(rng)),
    }
}

/// An entry again, or many times; with the same value or another.
fn spoil_again(rng: &mut Rng, entries: &mut Vec<Entry>) {
    if entries.is_empty() {
        return;
    }
    let copies = if rng.chance(1) { 3000 } else { rng.between(1, 2) };
    for _ in 0..copies {
        let mut copy = entries[rng.below(entries.len())].clone();
        if rng.chance(50) {
            let value = rng.value(copy.width);
            copy.value = form(rng, value, copy.width);
        }
        let at = rng.between(0, entries.len());
        entries.insert(at, copy);
    }
}

/// A sort or a value of another width, or a decimal that is too large.
fn misfit(rng: &mut Rng, entry: &mut Entry) {
    let other = |rng: &mut Rng, width: u32| loop {
        let other = rng.between(1, 64) as u32;
        if other != width {
            return other;
        }
    };
    let width = entry.width;
    match rng.below(5) {
        0 => entry.sort = other(rng, width).to_string(),
        1 => {
            let other = other(rng, width);
            let value = rng.value(other);
            entry.value = form(rng, value, other);
        }
        2 => {
            let other = other(rng, width);
            let value = rng.value(other);
            (entry.sort, entry.value) = (other.to_string(), form(rng, value, other));
        }
        3 => {
            let beyond = (1u128 << width) + u128::from(rng.word() % 3);
            entry.value = decimal(&beyond.to_string(), width);
        }
        _ => {
            let digits: String =
                (0..rng.between(20, 60)).map(|_| char::from(b'1' + rng.below(9) as u8)).collect();
            entry.value = decimal(&digits, width);
        }
    }
}

/// A text that is no answer any more, as a rule.
fn spoil_text(rng: &mut Rng, text: &mut Vec<u8>) {
    const CHANGES: [(&[u8], &[u8]); 22] = [
        (b"(", b"sat\n("),
        (b"(", b"(model"),
        (b"(", b"(("),
        (b")", b"))"),
        (b")", b""),
        (b"(", b""),
        (b"define-fun", b"define-const"),
        (b"define-fun", b"Define-fun"),
        (b"define-fun", b"|define-fun|"),
        (b"_", b"|_|"),
        (b"_", b""),
        (b"BitVec", b"bitvec"),
        (b"BitVec", b"BitVec 8"),
        (b"BitVec ", b"BitVec 0"),
        (b"BitVec ", b"BitVec 6"),
        (b"#b", b"#b2"),
        (b"#x", b"#X"),
        (b"bv", b"bv0"),
        (b"bv", b"BV"),
        (b"#b", b"#b0000000000000000000000000000000000000000000000000000000000000000"),
        (b"#x", b"\"#x"),
        (b"(define-fun ", b"(define-fun 0"),
    ];
    let (old, new) = rng.one_of(&CHANGES);
    let places: Vec<usize> = (0..text.len()).filter(|&at| text[at..].starts_with(old)).collect();
    match places.is_empty() {
        true => text.push(b')'),
        false => {
            let at = if rng.chance(30) { places[0] } else { rng.one_of(&places) };
            text.splice(at..at + old.len(), new.iter().copied());
        }
    }
}

/// Bytes changed, put in, taken out or doubled, one to four times.
fn scramble(rng: &mut Rng, bytes: &mut Vec<u8>) {
    const ODD: &[u8] = b"()|;\"\\ \n\r\t#bx0189aAfFg_.-\0\x0b\x7f\x80\xff";
    for _ in 0..rng.between(1, 4) {
        let at = rng.between(0, bytes.len());
        let inside = at < bytes.len();
        match rng.below(7) {
            0 if inside => bytes[at] ^= 1 << rng.below(8),
            1 if inside => bytes[at] = rng.one_of(ODD),
            2 if inside => {
                bytes.remove(at);
            }
            3 if inside => {
                let end = rng.between(at, bytes.len().min(at + 40));
                let piece = bytes[at..end].to_vec();
                let to = rng.between(0, bytes.len());
                bytes.splice(to..to, piece);
            }
            4 if inside => {
                let end = rng.between(at, bytes.len().min(at + 40));
                bytes.drain(at..end);
            }
            5 if rng.chance(20) => bytes.truncate(at),
            _ => bytes.insert(at, rng.one_of(ODD)),
        }
    }
}

#[cfg(test)]
mod tests {
    use super::*;
    use model::judged::{judge, Judged};

    #[test]
    fn every_answer_and_every_aim_is_reached() {
        let (mut yes, mut no, mut refused) = (0, 0, [0; 37]);
        for index in 0..20_000 {
            let a = answer(1, index);
            match judge(&a.problem, &a.names, &a.text) {
                Ok(Judged::Yes) => yes += 1,
                Ok(Judged::No(_)) => no += 1,
                Err(refusal) => refused[refusal.number as usize] += 1,
            }
        }
        assert!(yes > 1000 && no > 1000, "yes {yes} no {no}");
        assert!(FAULTS.iter().all(|&number| refused[number as usize] > 300), "{refused:?}");
        assert!(damage::FAULTS.iter().all(|&number| refused[number as usize] > 5), "{refused:?}");
    }
}
