//! Batches of starts: answers and values of whole calls, with every refusal and every order of two counted; and that each
//! start is answered as by a run of its own.

use crate::parts;
use crate::runs::{refusal_shown, shown};
use crate::subject::{Batches, Model, Subject};
use generate::batches::{batch, Batch, FAULTS};
use generate::{damage, Rng};
use model::batch::MOST_STARTS;
use model::calls::{ANSWER, RUN_OUT, TOO_SHORT};
use model::problem::{read, HEADER};
use model::Verdict;
use std::ops::Range;

/// One more than the greatest refusal.
const NUMBERS: usize = 21;

/// The problem's refusals, 17, 18 and 19.
const SORTS: [&str; 4] = ["the problem's", "17", "18", "19"];

/// What was reached.
#[derive(Clone, Debug, Default)]
pub struct Counts {
    /// Calls that were refused as a whole, by number; at 0 those that were not.
    pub calls: [u64; NUMBERS],
    /// Calls with faults of two sorts, of which the first was told.
    pub orders: [[u64; SORTS.len()]; SORTS.len()],
    /// Starts of calls that were not refused, by verdict; the last are refused 15.
    pub starts: [u64; 5],
    /// Of those the ones that stand between starts that are not refused.
    pub between: u64,
    /// Stretches without a word.
    pub empty: u64,
    /// Calls of no start, and of as many as there may be.
    pub none: u64,
    pub most: u64,
    /// Calls whose lengths' sum passes 2^64, and those among them where it is short enough modulo 2^64.
    pub over: u64,
    pub over_unseen: u64,
}

impl Counts {
    /// What was never reached, by name.
    pub fn missing(&self) -> Vec<String> {
        let refusals = (damage::FAULTS.iter().chain(&FAULTS))
            .filter(|&&number| self.calls[usize::from(number)] == 0)
            .map(|number| format!("refusal {number}"));
        let orders = orders()
            .filter(|&(first, second)| self.orders[first][second] == 0)
            .map(|(first, second)| format!("refusal {} before {}", SORTS[first], SORTS[second]));
        let others = [
            ("a call that is not refused", self.calls[0]),
            ("a start refused between others", self.between),
            ("a stretch without a word", self.empty),
            ("a call of no start", self.none),
            ("a call of 256 starts", self.most),
            ("a sum over 64 bits", self.over),
            ("a sum over 64 bits that looks small", self.over_unseen),
        ];
        let others = self.by_verdict().chain(others).filter(|(_, count)| *count == 0);
        refusals.chain(orders).chain(others.map(|(name, _)| name.to_string())).collect()
    }

    /// The starts by the name of their verdict.
    pub fn by_verdict(&self) -> impl Iterator<Item = (&'static str, u64)> {
        Verdict::ALL.map(Verdict::name).into_iter().chain(["refused"]).zip(self.starts)
    }

    /// The least often reached order of two.
    pub fn rarest(&self) -> u64 {
        orders().map(|(first, second)| self.orders[first][second]).min().unwrap_or(0)
    }

    fn add(&mut self, other: &Counts) {
        let add = |to: &mut [u64], from: &[u64]| to.iter_mut().zip(from).for_each(|(to, from)| *to += from);
        add(&mut self.calls, &other.calls);
        add(self.orders.as_flattened_mut(), other.orders.as_flattened());
        add(&mut self.starts, &other.starts);
        for (to, from) in [
            (&mut self.between, other.between),
            (&mut self.empty, other.empty),
            (&mut self.none, other.none),
            (&mut self.most, other.most),
            (&mut self.over, other.over),
            (&mut self.over_unseen, other.over_unseen),
        ] {
            *to += from;
        }
    }

    fn see(&mut self, batch: &Batch, refusal: u64, answers: &[u64]) {
        self.calls[(refusal & 255) as usize] += 1;
        let faults = faults(batch);
        if let Some(first) = faults.iter().position(|&is| is) {
            let later = (first + 1..SORTS.len()).filter(|&second| faults[second]);
            later.for_each(|second| self.orders[first][second] += 1);
        }
        if faults[1..3] == [false, true] && batch.words() >> 64 != 0 {
            self.over += 1;
            self.over_unseen += u64::from(batch.words() as u64 <= batch.tape.len() as u64);
        }
        if refusal != 0 {
            return;
        }
        self.none += u64::from(batch.starts == 0);
        self.most += u64::from(batch.starts == MOST_STARTS);
        self.empty += batch.lengths.iter().filter(|&&length| length == 0).count() as u64;
        let answers: Vec<&[u64]> = answers.chunks(ANSWER).take(batch.starts as usize).collect();
        answers.iter().for_each(|answer| self.starts[answer[1] as usize] += 1);
        let is_between = |three: &&[&[u64]]| three[0][0] == 0 && three[1][0] != 0 && three[2][0] == 0;
        self.between += answers.windows(3).filter(is_between).count() as u64;
    }
}

/// Every two sorts of refusals, the earlier first.
fn orders() -> impl Iterator<Item = (usize, usize)> {
    let sorts = 0..SORTS.len();
    sorts
        .clone()
        .flat_map(move |first| sorts.clone().map(move |second| (first, second)))
        .filter(|(a, b)| a < b)
}

/// Which sorts of refusals a call could be given, each looked at by itself.
pub(crate) fn faults(batch: &Batch) -> [bool; SORTS.len()] {
    let count = |entries: usize| entries as u64 != batch.starts;
    let nodes = nodes_told(&batch.problem);
    [
        read(&batch.problem).is_err(),
        batch.starts > MOST_STARTS || count(batch.lengths.len()) || count(batch.budgets.len()),
        batch.words() > batch.tape.len() as u128,
        (batch.values.len() as u64) < batch.starts * nodes,
    ]
}

/// How many nodes a problem's header tells, accepted or not.
pub(crate) fn nodes_told(problem: &[u8]) -> u64 {
    let header = problem.first_chunk::<HEADER>();
    header.map_or(0, |header| u16::from_le_bytes([header[5], header[6]]).into())
}

/// A batch whose answers differ, and how.
#[derive(Debug)]
pub struct Difference {
    pub index: u64,
    pub what: String,
    pub batch: Batch,
}

/// How many batches are compared in one go.
const PART: u64 = 100;

/// Compares batches 0 to `cases` - 1 under a seed, up to the first difference.
pub fn compare(subject: &(impl Batches + Subject), seed: u64, cases: u64) -> Result<Counts, Box<Difference>> {
    let parts: Vec<Range<u64>> =
        (0..cases.div_ceil(PART)).map(|k| k * PART..cases.min((k + 1) * PART)).collect();
    let counted = parts::each(&parts, |part| {
        let mut counts = Counts::default();
        for index in part.clone() {
            let batch = batch(seed, index);
            let mut rng = Rng::of_case(!seed, index);
            if let Err(what) = compare_one(subject, &mut rng, &batch, &mut counts) {
                return Err(Box::new(Difference { index, what, batch }));
            }
        }
        Ok(counts)
    })?;
    let mut counts = Counts::default();
    counted.iter().for_each(|one| counts.add(one));
    Ok(counts)
}

/// What a call leaves behind.
struct Left {
    refusal: u64,
    values: Vec<u64>,
    answers: Vec<u64>,
}

impl Left {
    /// A call that is lent so many words for its answers, each 7 beforehand.
    fn of(subject: &impl Batches, batch: &Batch, room: usize) -> Left {
        let (mut values, mut answers) = (batch.values.clone(), vec![7; room]);
        let refusal = subject.batch(batch.lent(), &mut values, &mut answers);
        Left { refusal, values, answers }
    }
}

fn compare_one(
    subject: &(impl Batches + Subject),
    rng: &mut Rng,
    batch: &Batch,
    counts: &mut Counts,
) -> Result<(), String> {
    let due = ANSWER * batch.starts as usize;
    let room = due + rng.below(8);
    let (found, expected) = (Left::of(subject, batch, room), Left::of(&Model, batch, room));
    if found.refusal != expected.refusal {
        let (found, expected) = (refusal_shown(found.refusal), refusal_shown(expected.refusal));
        return Err(format!("batch answered {found}, expected {expected}"));
    }
    if let Some(at) = (0..room).find(|&at| found.answers[at] != expected.answers[at]) {
        let (start, word) = (at / ANSWER, at % ANSWER);
        let [found, expected] = [found.answers[at], expected.answers[at]];
        return Err(format!("word {word} of start {start}'s answer is {found}, expected {expected}"));
    }
    if let Some(place) = (0..found.values.len()).find(|&place| found.values[place] != expected.values[place])
    {
        let [found, expected] = [found.values[place], expected.values[place]];
        return Err(format!("place {place} holds {found}, expected {expected}"));
    }
    counts.see(batch, found.refusal, &found.answers);
    if found.refusal == 0 {
        compare_with_runs(subject, batch, &found)?;
    }
    // Too few words for the answers: it must say so, and do nothing.
    if due > 0 {
        let room = if rng.chance(50) { due - 1 } else { rng.below(due) };
        let short = Left::of(subject, batch, room);
        let untouched = short.values == batch.values && short.answers.iter().all(|&word| word == 7);
        if short.refusal != TOO_SHORT || !untouched {
            return Err(format!("with {room} words for {due} it is {}", refusal_shown(short.refusal)));
        }
    }
    Ok(())
}

/// Each start by a single run of the same subject.
fn compare_with_runs(subject: &impl Subject, batch: &Batch, found: &Left) -> Result<(), String> {
    let nodes = read(&batch.problem).expect("a call that was not refused").nodes.len();
    let mut from = 0;
    for (start, (&length, &budget)) in batch.lengths.iter().zip(&batch.budgets).enumerate() {
        let (places, words) = (start * nodes..(start + 1) * nodes, from..from + length as usize);
        let mut values = batch.values[places.clone()].to_vec();
        let mut out = [0; RUN_OUT];
        let refusal = subject.run(&batch.problem, &mut values, &batch.tape[words.clone()], budget, &mut out);
        let answer = &found.answers[ANSWER * start..][..ANSWER];
        if answer[0] != refusal || answer[1..] != out || found.values[places] != values {
            return Err(format!(
                "start {start} by itself is {}, and its answer {answer:?}",
                shown(refusal, out)
            ));
        }
        from = words.end;
    }
    Ok(())
}

#[cfg(test)]
mod tests {
    use super::*;
    use crate::subject::Plain;

    #[test]
    fn plain_rust_passes_and_everything_is_reached() {
        let counts = compare(&Plain, 1, 5000).map_err(|d| d.what).unwrap();
        assert!(counts.missing().is_empty(), "{:?}", counts.missing());
    }
}
