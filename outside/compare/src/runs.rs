//! Checks and whole runs, of all sorts of problems, starts and tapes, with every verdict and every
//! refusal counted; and demand 3: tapes built from a known solution bring *model* within its bounds.

use crate::subject::{Model, Subject};
use crate::{more, need, parts};
use generate::case::{case, Case};
use generate::{damage, Rng};
use model::calls::{RUN_OUT, TOO_SHORT};
use model::files::{bytes_of, tape_file};
use model::run::{run_seen, Step};
use model::{Kind, Verdict};
use std::ops::Range;
use std::path::Path;

/// What was reached.
#[derive(Clone, Debug, Default)]
pub struct Counts {
    pub cases: u64,
    pub verdicts: [u64; 4],
    pub refusals: [u64; 21],
    pub promised: u64,
    pub moves: u64,
    pub steps: u64,
    /// Nodes evaluated.
    pub evaluated: u64,
    /// Steps by the kind and position followed, from the inverse and from the consistent set.
    pub followed: [[[u64; 2]; 3]; Kind::COUNT],
    /// Steps at which a move was blocked, by kind.
    pub blocked: [u64; Kind::COUNT],
    /// Problem checks alone, and how many of them refused.
    pub checks: u64,
    pub checks_refused: u64,
    /// Runs that were lent exactly the words of their need.
    pub served: u64,
}

impl Counts {
    /// What was never reached, by name.
    pub fn missing(&self) -> Vec<String> {
        let verdicts = Verdict::ALL
            .into_iter()
            .filter(|&v| self.verdicts[v as usize] == 0)
            .map(|v| v.name().to_string());
        let refusals =
            refusals().filter(|&number| self.refusals[number] == 0).map(|number| format!("refusal {number}"));
        let promised = (self.promised == 0).then(|| "a promised model".into());
        let steps = Kind::ALL.into_iter().flat_map(|kind| {
            let unused = move |&position: &usize| self.followed[kind as usize][position].contains(&0);
            (0..kind.operands()).filter(unused).map(move |position| {
                format!("a step from {} to position {position} by each set", kind.name())
            })
        });
        verdicts.chain(refusals).chain(promised).chain(steps).collect()
    }

    fn add(&mut self, other: &Counts) {
        let add = |to: &mut [u64], from: &[u64]| to.iter_mut().zip(from).for_each(|(to, from)| *to += from);
        add(&mut self.verdicts, &other.verdicts);
        add(&mut self.refusals, &other.refusals);
        add(&mut self.blocked, &other.blocked);
        add(
            self.followed.as_flattened_mut().as_flattened_mut(),
            other.followed.as_flattened().as_flattened(),
        );
        for (to, from) in [
            (&mut self.cases, other.cases),
            (&mut self.promised, other.promised),
            (&mut self.moves, other.moves),
            (&mut self.steps, other.steps),
            (&mut self.evaluated, other.evaluated),
            (&mut self.checks, other.checks),
            (&mut self.checks_refused, other.checks_refused),
            (&mut self.served, other.served),
        ] {
            *to += from;
        }
    }

    fn see(&mut self, step: Step) {
        match step.followed {
            None => self.blocked[step.kind as usize] += 1,
            Some((position, set)) => self.followed[step.kind as usize][position][set as usize] += 1,
        }
    }
}

/// The numbers of a run's refusals, in the order of checking.
pub fn refusals() -> impl Iterator<Item = usize> {
    damage::FAULTS.into_iter().chain([14, 15]).map(usize::from)
}

/// A case whose answers differ, and how.
#[derive(Debug)]
pub struct Difference {
    pub index: u64,
    pub what: String,
    pub case: Case,
}

/// How many cases are compared in one go.
const PART: u64 = 500;

/// Compares cases 0 to `cases` - 1 under a seed, up to the first difference.
pub fn compare(subject: &impl Subject, seed: u64, cases: u64) -> Result<Counts, Box<Difference>> {
    let mut counts = Counts::default();
    let compare_one = |index: u64, case: &Case, counts: &mut Counts| {
        compare_case(subject, case, counts)?;
        compare_short(subject, case, index as usize % RUN_OUT)?;
        compare_damaged(subject, seed, index, case, counts)?;
        compare_need(subject, seed, index, case, counts)
    };
    for one in each_case(seed, cases, compare_one)? {
        counts.add(&one);
    }
    Ok(counts)
}

/// Compares pairs of runs, of which the second is lent more, by cases 0 to `cases` - 1.
pub fn compare_more(subject: &impl Subject, seed: u64, cases: u64) -> Result<more::Counts, Box<Difference>> {
    let mut counts = more::Counts::default();
    let compare_one = |index: u64, case: &Case, counts: &mut more::Counts| {
        more::compare_case(subject, &mut Rng::of_case(!seed, index), case, counts)
    };
    for one in each_case(seed, cases, compare_one)? {
        counts.iter_mut().zip(one).for_each(|(sum, one)| *sum += one);
    }
    Ok(counts)
}

/// Cases 0 to `cases` - 1 under a seed, part by part; gives what was counted in each part, or the first
/// difference.
fn each_case<Counts: Default + Send>(
    seed: u64,
    cases: u64,
    compare: impl Fn(u64, &Case, &mut Counts) -> Result<(), String> + Sync,
) -> Result<Vec<Counts>, Box<Difference>> {
    let parts: Vec<Range<u64>> =
        (0..cases.div_ceil(PART)).map(|k| k * PART..cases.min((k + 1) * PART)).collect();
    parts::each(&parts, |part| {
        let mut counts = Counts::default();
        for index in part.clone() {
            let case = case(seed, index);
            if let Err(what) = compare(index, &case, &mut counts) {
                return Err(Box::new(Difference { index, what, case }));
            }
        }
        Ok(counts)
    })
}

/// One run by both, and what it must keep.
fn compare_case(subject: &impl Subject, case: &Case, counts: &mut Counts) -> Result<(), String> {
    let (checked, due) = (subject.check(&case.problem), Model.check(&case.problem));
    if checked != due {
        return Err(format!("check answered {}, expected {}", refusal_shown(checked), refusal_shown(due)));
    }
    let (mut values, mut expected_values) = (case.values.clone(), case.values.clone());
    let (mut out, mut expected_out) = ([u64::MAX; RUN_OUT], [0; RUN_OUT]);
    let refusal = subject.run(&case.problem, &mut values, &case.tape, case.budget, &mut out);
    let answer =
        run_seen(&case.problem, &mut expected_values, &case.tape, case.budget, &mut |step| counts.see(step));
    let expected = model::calls::numbers(&answer, &mut expected_out);
    if (refusal, out) != (expected, expected_out) {
        return Err(format!(
            "run answered {}, expected {}",
            shown(refusal, out),
            shown(expected, expected_out)
        ));
    }
    if let Some(place) = (0..values.len()).find(|&place| values[place] != expected_values[place]) {
        return Err(format!(
            "after {} place {place} holds {}, expected {}",
            shown(refusal, out),
            values[place],
            expected_values[place]
        ));
    }
    let [verdict, moves, steps, words, evaluated] = out;
    if let Some(promise) = case.promise {
        counts.promised += 1;
        if verdict != Verdict::Model as u64 || moves > promise.moves || words > promise.words {
            return Err(format!(
                "{}, but a model was promised within {} moves and {} words",
                shown(refusal, out),
                promise.moves,
                promise.words
            ));
        }
    }
    counts.cases += 1;
    counts.moves += moves;
    counts.steps += steps;
    counts.evaluated += evaluated;
    match refusal & 255 {
        0 => counts.verdicts[verdict as usize] += 1,
        number => counts.refusals[number as usize] += 1,
    }
    Ok(())
}

/// A run that is lent too few words for its answer: it must say so, and do nothing.
fn compare_short(subject: &impl Subject, case: &Case, room: usize) -> Result<(), String> {
    let (mut values, mut out) = (case.values.clone(), [7; RUN_OUT]);
    let refusal = subject.run(&case.problem, &mut values, &case.tape, case.budget, &mut out[..room]);
    if refusal != TOO_SHORT || values != case.values || out != [7; RUN_OUT] {
        return Err(format!("with {room} words for the answer it is {}", refusal_shown(refusal)));
    }
    Ok(())
}

/// The check alone, of the case's problem with a fault.
fn compare_damaged(
    subject: &impl Subject,
    seed: u64,
    index: u64,
    case: &Case,
    counts: &mut Counts,
) -> Result<(), String> {
    let Ok(problem) = model::problem::read(&case.problem) else {
        return Ok(());
    };
    let mut rng = Rng::of_case(!seed, index);
    let number = damage::FAULTS[index as usize % damage::FAULTS.len()];
    let bytes = damage::damaged(&mut rng, &problem, number);
    let (checked, due) = (subject.check(&bytes), Model.check(&bytes));
    counts.checks += 1;
    counts.checks_refused += u64::from(due != 0);
    if checked != due {
        return Err(format!("check of a damaged copy answered {checked}, expected {due}: {bytes:?}"));
    }
    Ok(())
}

/// How long a tape the case takes.
fn compare_need(
    subject: &impl Subject,
    seed: u64,
    index: u64,
    case: &Case,
    counts: &mut Counts,
) -> Result<(), String> {
    let mut rng = Rng::of_case(seed.rotate_left(32), index);
    counts.served += u64::from(need::compare_case(subject, &mut rng, case)?);
    Ok(())
}

/// An answer in words.
pub(crate) fn shown(refusal: u64, [verdict, moves, steps, words, evaluated]: [u64; RUN_OUT]) -> String {
    let name = match Verdict::ALL.get(verdict as usize) {
        Some(verdict) => verdict.name().into(),
        None => format!("number {verdict}"),
    };
    let counts = format!("verdict {name} moves {moves} steps {steps} words {words} evaluated {evaluated}");
    format!("{} with {counts}", refusal_shown(refusal))
}

pub(crate) fn refusal_shown(refusal: u64) -> String {
    match refusal {
        0 => "accepted".into(),
        refused => format!("refused {} at {}", refused & 255, refused >> 8),
    }
}

/// Writes a case's three files into a folder, as `tvrun` reads them.
pub fn write_files(case: &Case, folder: &Path) -> std::io::Result<()> {
    std::fs::create_dir_all(folder)?;
    std::fs::write(folder.join("problem.tbv"), &case.problem)?;
    std::fs::write(folder.join("start.bin"), bytes_of(&case.values))?;
    std::fs::write(folder.join("tape.bin"), tape_file(case.budget, &case.tape))
}

#[cfg(test)]
mod tests {
    use super::*;
    use crate::subject::Plain;

    #[test]
    fn plain_rust_passes_and_everything_is_reached() {
        let counts = compare(&Plain, 1, 20_000).map_err(|d| d.what).unwrap();
        assert!(counts.missing().is_empty(), "{:?}", counts.missing());
    }

    #[test]
    fn more_is_never_worse_in_the_model_and_in_plain_rust() {
        for counts in [compare_more(&Model, 1, 5000), compare_more(&Plain, 1, 20_000)] {
            assert!(!counts.map_err(|d| d.what).unwrap().contains(&0));
        }
    }
}
