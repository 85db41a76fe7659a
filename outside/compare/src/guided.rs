//! Guided runs: the guide says how many moves and steps it made, where it ended and whether that is a model. The subject
//! must answer the same of its start and tape, values of all nodes included.

use crate::parts;
use crate::runs::{shown, Difference};
use crate::subject::Subject;
use generate::case::Case;
use generate::{random, solved, Rng};
use guide::search::{run, Choice, Manner, Run};
use guide::Ready;
use model::calls::RUN_OUT;
use model::Verdict;

/// How many runs there were, by the guide's word.
#[derive(Clone, Copy, Debug, Default)]
pub struct Counts {
    pub models: u64,
    pub spent: u64,
    pub closed: u64,
    /// Models that linear equations gave.
    pub led: u64,
    pub moves: u64,
    pub steps: u64,
    /// Walks that were tried for these moves.
    pub tried: u64,
}

/// How many cases are compared in one go.
const PART: u64 = 500;

/// Compares runs 0 to `cases` - 1 under a seed, up to the first difference.
pub fn compare(subject: &impl Subject, seed: u64, cases: u64) -> Result<Counts, Box<Difference>> {
    let parts: Vec<u64> = (0..cases.div_ceil(PART)).collect();
    let counted = parts::each(&parts, |part| -> Result<Counts, Box<Difference>> {
        let mut counts = Counts::default();
        for index in part * PART..cases.min((part + 1) * PART) {
            compare_one(subject, seed, index, &mut counts)?;
        }
        Ok(counts)
    })?;
    Ok(counted.into_iter().fold(Counts::default(), |sum, one| Counts {
        models: sum.models + one.models,
        spent: sum.spent + one.spent,
        closed: sum.closed + one.closed,
        led: sum.led + one.led,
        moves: sum.moves + one.moves,
        steps: sum.steps + one.steps,
        tried: sum.tried + one.tried,
    }))
}

fn compare_one(
    subject: &impl Subject,
    seed: u64,
    index: u64,
    counts: &mut Counts,
) -> Result<(), Box<Difference>> {
    let rng = &mut Rng::of_case(seed, index);
    let size = random::size(rng).min(400);
    let problem = if rng.chance(70) { solved::solved(rng, size).problem } else { random::problem(rng, size) };
    let bytes = problem.bytes();
    let ready = Ready::new(&bytes).expect("a well-formed problem");
    let (verdict, run) = match ready.closed {
        true => (Verdict::Closed, closed(&problem)),
        false => {
            let run = run(&ready, &manner(rng), seed, index, &|| false);
            (if run.model { Verdict::Model } else { Verdict::Spent }, run)
        }
    };
    counts.models += u64::from(verdict == Verdict::Model);
    counts.spent += u64::from(verdict == Verdict::Spent);
    counts.closed += u64::from(verdict == Verdict::Closed);
    counts.led += u64::from(run.led && run.moves > 0);
    counts.moves += run.moves;
    counts.steps += run.steps;
    counts.tried += run.tried;
    replayed(subject, &bytes, verdict, &run).map_err(|what| {
        let (values, tape, budget) = (run.start, run.tape, run.moves as u16);
        Box::new(Difference {
            index,
            what,
            case: Case { problem: bytes, values, tape, budget, promise: None },
        })
    })
}

/// What a run of a closed problem is: nothing but its values.
fn closed(problem: &model::Problem) -> Run {
    let start: Vec<u64> = problem.nodes.iter().map(|node| node.pair.lo).collect();
    let mut values = start.clone();
    problem.evaluate(&mut values);
    Run { start, values, ..Run::default() }
}

/// Any manner: one walk or several, much noise or little, every share of inverse choices.
fn manner(rng: &mut Rng) -> Manner {
    let mut manner = Manner::USUAL;
    manner.drawing.inverse = rng.one_of(&[0, 300, 700, 930, 1000]);
    manner.drawing.choosy = rng.one_of(&[0, 500, 1000]);
    manner.drawing.proposals.nearest = rng.one_of(&[0, 200, 500]);
    manner.drawing.branch = rng.one_of(&[0, 200, 1000]);
    manner.drawing.quotient = rng.one_of(&[0, 300, 1000]);
    manner.choices =
        [(); 4].map(|()| Choice { walks: rng.between(1, 8) as u32, noise: rng.one_of(&[0, 80, 500]) });
    manner.budget = rng.between(0, 40) as u16;
    manner.least = rng.chance(20);
    manner.linear = rng.chance(50);
    manner
}

/// The subject's answer to the guide's start and tape.
fn replayed(subject: &impl Subject, bytes: &[u8], verdict: Verdict, run: &Run) -> Result<(), String> {
    let (mut values, mut out) = (run.start.clone(), [u64::MAX; RUN_OUT]);
    let refusal = subject.run(bytes, &mut values, &run.tape, run.moves as u16, &mut out);
    let guided = [verdict as u64, run.moves, run.steps, run.tape.len() as u64];
    if refusal != 0 || out[..4] != guided {
        let name = verdict.name();
        let [_, moves, steps, words] = guided;
        let guided = format!("{name} moves {moves} steps {steps} words {words}");
        return Err(format!("run answered {}, the guide said {guided}", shown(refusal, out)));
    }
    match (0..values.len()).find(|&place| values[place] != run.values[place]) {
        Some(place) => {
            Err(format!("place {place} holds {}, the guide said {}", values[place], run.values[place]))
        }
        None => Ok(()),
    }
}

#[cfg(test)]
mod tests {
    use super::*;
    use crate::subject::{Model, Plain};

    #[test]
    fn the_guide_says_what_the_model_and_plain_rust_say() {
        for counts in [compare(&Model, 1, 2000), compare(&Plain, 1, 20_000)] {
            let counts = counts.map_err(|d| d.what).unwrap();
            assert!(
                [counts.models, counts.spent, counts.closed, counts.led].iter().all(|&count| count > 0),
                "{counts:?}"
            );
        }
    }
}
