//! The frame bench: what is kept of many starts' models, with every refusal and every order of two counted.

use crate::batches::{faults as faults_of_batch, nodes_told};
use crate::parts;
use crate::runs::refusal_shown;
use crate::subject::{Gather, Model};
use generate::batches::FAULTS;
use generate::gatherings::{gathering, Gathering};
use generate::{damage, Rng};
use model::calls::{ANSWER, GATHER_OUT, TOO_SHORT};
use model::frames::{MOST_KEPT, MOST_NAMES};
use model::problem::read;
use model::{Kind, Verdict};
use std::ops::Range;

/// One more than the greatest refusal.
const NUMBERS: usize = 27;

/// The refusals after those of a batch.
const OWN: [u8; 3] = [23, 24, 26];

/// The problem's refusals, those of a batch, and these.
const SORTS: [&str; 7] = ["the problem's", "17", "18", "19", "23", "24", "26"];

/// What was reached.
#[derive(Clone, Debug)]
pub struct Counts {
    /// Calls that were refused, by number; at 0 those that were not.
    pub calls: [u64; NUMBERS],
    /// Calls with faults of two sorts, of which the first was told.
    pub orders: [[u64; SORTS.len()]; SORTS.len()],
    pub kept: u64,
    pub repeats: u64,
    pub unkept: u64,
    /// Calls that filled the room, and those among them with a repeat after that.
    pub full: u64,
    pub repeats_after: u64,
    /// Calls with a start that is refused, and with one that says no model.
    pub passed_over: u64,
    pub without: u64,
}

impl Default for Counts {
    fn default() -> Counts {
        Counts {
            calls: [0; NUMBERS],
            orders: Default::default(),
            kept: 0,
            repeats: 0,
            unkept: 0,
            full: 0,
            repeats_after: 0,
            passed_over: 0,
            without: 0,
        }
    }
}

impl Counts {
    /// What was never reached, by name.
    pub fn missing(&self) -> Vec<String> {
        let refusals = (damage::FAULTS.iter().chain(&FAULTS).chain(&OWN))
            .filter(|&&number| self.calls[usize::from(number)] == 0)
            .map(|number| format!("refusal {number}"));
        let orders = orders()
            .filter(|&(first, second)| self.orders[first][second] == 0)
            .map(|(first, second)| format!("refusal {} before {}", SORTS[first], SORTS[second]));
        let others = [
            ("a call that is not refused", self.calls[0]),
            ("a kept solution", self.kept),
            ("a repeat", self.repeats),
            ("a model without room", self.unkept),
            ("a repeat after the room is full", self.repeats_after),
            ("a refused start", self.passed_over),
            ("a start without a model", self.without),
        ];
        let others = others.into_iter().filter(|(_, count)| *count == 0).map(|(name, _)| name.to_string());
        refusals.chain(orders).chain(others).collect()
    }

    /// The least often reached order of two.
    pub fn rarest(&self) -> u64 {
        orders().map(|(first, second)| self.orders[first][second]).min().unwrap_or(0)
    }

    fn add(&mut self, other: &Counts) {
        let add = |to: &mut [u64], from: &[u64]| to.iter_mut().zip(from).for_each(|(to, from)| *to += from);
        add(&mut self.calls, &other.calls);
        add(self.orders.as_flattened_mut(), other.orders.as_flattened());
        for (to, from) in [
            (&mut self.kept, other.kept),
            (&mut self.repeats, other.repeats),
            (&mut self.unkept, other.unkept),
            (&mut self.full, other.full),
            (&mut self.repeats_after, other.repeats_after),
            (&mut self.passed_over, other.passed_over),
            (&mut self.without, other.without),
        ] {
            *to += from;
        }
    }

    fn see(&mut self, gathering: &Gathering, found: &Left) {
        self.calls[(found.refusal & 255) as usize] += 1;
        let faults = faults(gathering);
        if let Some(first) = faults.iter().position(|&is| is) {
            let later = (first + 1..SORTS.len()).filter(|&second| faults[second]);
            later.for_each(|second| self.orders[first][second] += 1);
        }
        if found.refusal != 0 {
            return;
        }
        let [kept, repeats, unkept] = found.out;
        self.kept += kept;
        self.repeats += repeats;
        self.unkept += unkept;
        self.full += u64::from(kept == MOST_KEPT as u64);
        self.repeats_after += u64::from(repeats_after_the_room_is_full(gathering, found));
        let answers = || found.answers.chunks(ANSWER).take(gathering.batch.starts as usize);
        self.passed_over += u64::from(answers().any(|answer| answer[0] != 0));
        let has_none = |answer: &[u64]| answer[0] == 0 && answer[1] != Verdict::Model as u64;
        self.without += u64::from(answers().any(has_none));
    }
}

/// Every two sorts of refusals, the earlier first.
fn orders() -> impl Iterator<Item = (usize, usize)> {
    let sorts = 0..SORTS.len();
    sorts
        .clone()
        .flat_map(move |first| sorts.clone().map(move |second| (first, second)))
        .filter(|(a, b)| a < b)
}

/// Which sorts of refusals a call could be given, each looked at by itself.
fn faults(gathering: &Gathering) -> [bool; SORTS.len()] {
    let names = &gathering.names;
    let [problem, lists, lengths, places] = faults_of_batch(&gathering.batch);
    // Of a refused problem there are no variables.
    let nodes = read(&gathering.batch.problem).unwrap_or_default().nodes;
    let is_variable = |id: u16| nodes.get(usize::from(id)).is_some_and(|node| node.kind == Kind::Variable);
    [
        problem,
        lists,
        lengths,
        places,
        names.is_empty() || names.len() > MOST_NAMES,
        (0..names.len()).any(|at| !is_variable(names[at]) || names[..at].contains(&names[at])),
        (gathering.places.len() as u64) < MOST_KEPT as u64 * nodes_told(&gathering.batch.problem),
    ]
}

/// Whether a model came that agrees with a kept one, after 64 were kept.
fn repeats_after_the_room_is_full(gathering: &Gathering, found: &Left) -> bool {
    if found.out[0] < MOST_KEPT as u64 {
        return false;
    }
    let nodes = read(&gathering.batch.problem).expect("a call that was not refused").nodes.len();
    let named = |values: &[u64]| gathering.names.iter().map(|&id| values[id as usize]).collect::<Vec<u64>>();
    let kept: Vec<Vec<u64>> = found.kept.chunks(nodes).take(MOST_KEPT).map(named).collect();
    let answers = found.answers.chunks(ANSWER).take(gathering.batch.starts as usize);
    let models =
        found.values.chunks(nodes).zip(answers).filter(|(_, answer)| answer[0] == 0 && answer[1] == 0);
    let models: Vec<Vec<u64>> = models.map(|(values, _)| named(values)).collect();
    let last =
        models.iter().position(|model| *model == kept[MOST_KEPT - 1]).expect("the last kept is a model");
    models[last + 1..].iter().any(|model| kept.contains(model))
}

/// A gathering that ends otherwise, and how.
#[derive(Debug)]
pub struct Difference {
    pub index: u64,
    pub what: String,
    pub gathering: Gathering,
}

/// How many gatherings are compared in one go.
const PART: u64 = 100;

/// Compares gatherings 0 to `cases` - 1 under a seed, up to the first difference.
pub fn compare(subject: &impl Gather, seed: u64, cases: u64) -> Result<Counts, Box<Difference>> {
    let parts: Vec<Range<u64>> =
        (0..cases.div_ceil(PART)).map(|k| k * PART..cases.min((k + 1) * PART)).collect();
    let counted = parts::each(&parts, |part| {
        let mut counts = Counts::default();
        for index in part.clone() {
            let gathering = gathering(seed, index);
            let mut rng = Rng::of_case(!seed, index);
            if let Err(what) = compare_one(subject, &mut rng, &gathering, &mut counts) {
                return Err(Box::new(Difference { index, what, gathering }));
            }
        }
        Ok(counts)
    })?;
    let mut counts = Counts::default();
    counted.iter().for_each(|one| counts.add(one));
    Ok(counts)
}

/// What a call leaves behind.
#[derive(PartialEq)]
struct Left {
    refusal: u64,
    out: [u64; GATHER_OUT],
    values: Vec<u64>,
    kept: Vec<u64>,
    answers: Vec<u64>,
}

impl Left {
    /// A call that is lent so many words for its answers and for `out`, each 7 beforehand.
    fn of(subject: &impl Gather, gathering: &Gathering, answers: usize, out_len: usize) -> Left {
        let Gathering { batch, names, places } = gathering;
        let mut left = Left {
            refusal: 0,
            out: [7; GATHER_OUT],
            values: batch.values.clone(),
            kept: places.clone(),
            answers: vec![7; answers],
        };
        let Left { values, kept, answers, out, .. } = &mut left;
        left.refusal = subject.gather(batch.lent(), values, names, kept, answers, &mut out[..out_len]);
        left
    }
}

fn compare_one(
    subject: &impl Gather,
    rng: &mut Rng,
    gathering: &Gathering,
    counts: &mut Counts,
) -> Result<(), String> {
    let due = ANSWER * gathering.batch.starts as usize;
    let room = due + rng.below(8);
    let found = Left::of(subject, gathering, room, GATHER_OUT);
    let expected = Left::of(&Model, gathering, room, GATHER_OUT);
    if (found.refusal, found.out) != (expected.refusal, expected.out) {
        let shown = |left: &Left| format!("{} {:?}", refusal_shown(left.refusal), left.out);
        return Err(format!("gather answered {}, expected {}", shown(&found), shown(&expected)));
    }
    for (what, found, expected) in [
        ("the answers' word", &found.answers, &expected.answers),
        ("place", &found.values, &expected.values),
        ("the kept solutions' place", &found.kept, &expected.kept),
    ] {
        if let Some(at) = (0..found.len()).find(|&at| found[at] != expected[at]) {
            return Err(format!("{what} {at} holds {}, expected {}", found[at], expected[at]));
        }
    }
    counts.see(gathering, &found);
    // Too few words for the answers or for what was gathered: it must say so, and do nothing.
    let (answers, out) = match due > 0 && rng.chance(50) {
        true => (rng.below(due), GATHER_OUT),
        false => (due, rng.below(GATHER_OUT)),
    };
    let short = Left::of(subject, gathering, answers, out);
    let untouched = Left {
        refusal: TOO_SHORT,
        out: [7; GATHER_OUT],
        values: gathering.batch.values.clone(),
        kept: gathering.places.clone(),
        answers: vec![7; answers],
    };
    if short != untouched {
        return Err(format!("with {answers} and {out} words it is {}", refusal_shown(short.refusal)));
    }
    Ok(())
}

#[cfg(test)]
mod tests {
    use super::*;

    #[test]
    fn everything_is_reached() {
        let counts = compare(&Model, 1, 5000).map_err(|d| d.what).unwrap();
        assert!(counts.missing().is_empty(), "{:?}", counts.missing());
    }
}
