//! Other solvers' models: get-model answers of all sorts, with what is said of them, every refusal and
//! every order of two counted.

use crate::parts;
use crate::runs::refusal_shown;
use crate::subject::{Judge, Model};
use generate::answers::{answer, Answer, FAULTS};
use generate::{damage, Rng};
use model::calls::{MODEL_OUT, TOO_SHORT};
use std::ops::Range;
use std::path::Path;

/// One more than the greatest refusal.
const NUMBERS: usize = 37;

/// What was reached.
#[derive(Clone, Debug)]
pub struct Counts {
    pub yes: u64,
    pub no: u64,
    pub refusals: [u64; NUMBERS],
    /// Texts with two faults of which the first was told, by the numbers of both.
    pub orders: [[u64; NUMBERS]; NUMBERS],
}

impl Default for Counts {
    fn default() -> Counts {
        Counts { yes: 0, no: 0, refusals: [0; NUMBERS], orders: [[0; NUMBERS]; NUMBERS] }
    }
}

impl Counts {
    /// What was never reached, by name.
    pub fn missing(&self) -> Vec<String> {
        let answers = [("yes", self.yes), ("no", self.no)].into_iter();
        let answers = answers.filter(|(_, count)| *count == 0).map(|(name, _)| name.to_string());
        let refusals = (damage::FAULTS.iter().chain(&FAULTS))
            .filter(|&&number| self.refusals[usize::from(number)] == 0)
            .map(|number| format!("refusal {number}"));
        let orders = orders()
            .filter(|&(first, second)| self.orders[first][second] == 0)
            .map(|(first, second)| format!("refusal {first} of a text that {second} would refuse"));
        answers.chain(refusals).chain(orders).collect()
    }

    /// The least often reached order of two.
    pub fn rarest(&self) -> u64 {
        orders().map(|(first, second)| self.orders[first][second]).min().unwrap_or(0)
    }

    fn add(&mut self, other: &Counts) {
        let add = |to: &mut [u64], from: &[u64]| to.iter_mut().zip(from).for_each(|(to, from)| *to += from);
        self.yes += other.yes;
        self.no += other.no;
        add(&mut self.refusals, &other.refusals);
        add(self.orders.as_flattened_mut(), other.orders.as_flattened());
    }

    fn see(&mut self, answer: &Answer, refusal: u64, out: [u64; MODEL_OUT]) {
        let number = (refusal & 255) as usize;
        match (number, out[0]) {
            (0, 1) => self.yes += 1,
            (0, _) => self.no += 1,
            _ => self.refusals[number] += 1,
        }
        if let [first, second] = answer.aims[..] {
            if usize::from(first) == number {
                self.orders[number][usize::from(second)] += 1;
            }
        }
    }
}

/// Every two of refusals 30 to 36, the earlier first.
fn orders() -> impl Iterator<Item = (usize, usize)> {
    let numbers = FAULTS.map(usize::from);
    numbers.into_iter().flat_map(move |first| numbers.map(|second| (first, second))).filter(|(a, b)| a < b)
}

/// An answer that is judged otherwise, and how.
#[derive(Debug)]
pub struct Difference {
    pub index: u64,
    pub what: String,
    pub answer: Answer,
}

/// How many answers are compared in one go.
const PART: u64 = 500;

/// Compares answers 0 to `cases` - 1 under a seed, up to the first difference.
pub fn compare(subject: &impl Judge, seed: u64, cases: u64) -> Result<Counts, Box<Difference>> {
    let parts: Vec<Range<u64>> =
        (0..cases.div_ceil(PART)).map(|k| k * PART..cases.min((k + 1) * PART)).collect();
    let counted = parts::each(&parts, |part| {
        let mut counts = Counts::default();
        for index in part.clone() {
            let answer = answer(seed, index);
            let mut rng = Rng::of_case(!seed, index);
            if let Err(what) = compare_one(subject, &mut rng, &answer, &mut counts) {
                return Err(Box::new(Difference { index, what, answer }));
            }
        }
        Ok(counts)
    })?;
    let mut counts = Counts::default();
    counted.iter().for_each(|one| counts.add(one));
    Ok(counts)
}

/// What both say of an answer, which must be the same.
fn compare_answer(subject: &impl Judge, a: &Answer) -> Result<(u64, [u64; MODEL_OUT]), String> {
    let (mut out, mut expected) = ([7; MODEL_OUT + 1], [7; MODEL_OUT + 1]);
    let refusal = subject.model(&a.problem, &a.names, &a.text, &mut out);
    let due = Model.model(&a.problem, &a.names, &a.text, &mut expected);
    if (refusal, out) != (due, expected) {
        let (found, due) = (refusal_shown(refusal), refusal_shown(due));
        return Err(format!("model answered {found} {out:?}, expected {due} {expected:?}"));
    }
    Ok((refusal, [out[0], out[1]]))
}

fn compare_one(subject: &impl Judge, rng: &mut Rng, a: &Answer, counts: &mut Counts) -> Result<(), String> {
    let (refusal, out) = compare_answer(subject, a)?;
    counts.see(a, refusal, out);
    // Too few words for the answer: it must say so, and write nothing.
    let (room, mut short) = (rng.below(MODEL_OUT), [7; MODEL_OUT]);
    let refusal = subject.model(&a.problem, &a.names, &a.text, &mut short[..room]);
    if refusal != TOO_SHORT || short != [7; MODEL_OUT] {
        return Err(format!("model with {room} words for the answer is {}", refusal_shown(refusal)));
    }
    Ok(())
}

/// How many short answers are damaged byte by byte.
const DAMAGED: usize = 6;

/// Short answers that were a yes, with each byte of text and list changed to every other, taken out, and with every byte put in
/// before it; gives how many there were.
pub fn compare_each_byte(subject: &impl Judge, seed: u64) -> Result<u64, Box<Difference>> {
    let is_short = |a: &Answer| (60..300).contains(&a.text.len()) && a.names.len() < 40;
    let says_yes = |a: &Answer| {
        let mut out = [0; MODEL_OUT];
        Model.model(&a.problem, &a.names, &a.text, &mut out) == 0 && out[0] == 1
    };
    let answers: Vec<(u64, Answer)> = (0..)
        .map(|index| (index, answer(seed, index)))
        .filter(|(_, a)| is_short(a) && says_yes(a))
        .take(DAMAGED)
        .collect();
    let counted = parts::each(&answers, |(index, a)| {
        let mut counted = 0;
        for changed in each_text(a).chain(each_list(a)) {
            if let Err(what) = compare_answer(subject, &changed) {
                return Err(Box::new(Difference { index: *index, what, answer: changed }));
            }
            counted += 1;
        }
        Ok(counted)
    })?;
    Ok(counted.iter().sum())
}

fn each_text(a: &Answer) -> impl Iterator<Item = Answer> + '_ {
    damaged(&a.text).map(|text| Answer { text, ..a.clone() })
}

fn each_list(a: &Answer) -> impl Iterator<Item = Answer> + '_ {
    damaged(&a.names).map(|names| Answer { names, ..a.clone() })
}

/// Every way to change one byte, to take one out and to put one in.
fn damaged(bytes: &[u8]) -> impl Iterator<Item = Vec<u8>> + '_ {
    let with = |from: usize, to: usize, byte: Option<u8>| {
        let mut changed = bytes.to_vec();
        changed.splice(from..to, byte);
        changed
    };
    let changed =
        (0..bytes.len()).flat_map(move |at| (0..=255).map(move |byte| with(at, at + 1, Some(byte))));
    let taken = (0..bytes.len()).map(move |at| with(at, at + 1, None));
    let put = (0..=bytes.len()).flat_map(move |at| (0..=255).map(move |byte| with(at, at, Some(byte))));
    changed.chain(taken).chain(put)
}

/// Writes an answer's three files into a folder, as `walumpeh model` takes them.
pub fn write_files(answer: &Answer, folder: &Path) -> std::io::Result<()> {
    std::fs::create_dir_all(folder)?;
    std::fs::write(folder.join("problem.tbv"), &answer.problem)?;
    std::fs::write(folder.join("names.txt"), &answer.names)?;
    std::fs::write(folder.join("answer.txt"), &answer.text)
}

#[cfg(test)]
mod tests {
    use super::*;

    #[test]
    fn every_refusal_and_every_order_is_reached() {
        let counts = compare(&Model, 1, 20_000).map_err(|d| d.what).unwrap();
        assert!(counts.missing().is_empty(), "{:?}", counts.missing());
    }
}
