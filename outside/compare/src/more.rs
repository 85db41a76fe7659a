//! More is never worse: pairs of runs from one start, the second with a greater or equal budget and a tape
//! that begins with the words that the first one used and goes on with any others.
//!
//! A run that said *model* must be answered again, values and counts alike, and so must *closed* and a
//! refusal. One that was spent, or whose tape ended, must be passed through: after as many moves the second
//! run is in that very state. So with just that many moves it says *spent* there; and with all its moves
//! it answers as a run from that state does with what is left of budget and tape, the counts added.

use crate::runs::shown;
use crate::subject::Subject;
use generate::case::{tape, Case};
use generate::Rng;
use model::calls::RUN_OUT;
use model::Verdict;

/// How many pairs there were, by the first run's verdict; the last are refusals.
pub type Counts = [u64; 5];

const SPENT: u64 = Verdict::Spent as u64;
const ENDED: u64 = Verdict::Ended as u64;
/// Where the nodes evaluated stand.
const EVALUATED: usize = 4;

/// What a run leaves behind.
#[derive(Clone, Debug, PartialEq)]
struct Left {
    refusal: u64,
    out: [u64; RUN_OUT],
    values: Vec<u64>,
}

impl Left {
    fn of(subject: &impl Subject, problem: &[u8], values: &[u64], tape: &[u64], budget: u16) -> Left {
        let (mut out, mut values) = ([u64::MAX; RUN_OUT], values.to_vec());
        let refusal = subject.run(problem, &mut values, tape, budget, &mut out);
        Left { refusal, out, values }
    }

    /// The same as if these moves, steps, words and nodes evaluated had gone before: all nodes, of which there are so many,
    /// were evaluated at the beginning of each.
    fn after(mut self, before: &Left, nodes: u64) -> Left {
        (1..RUN_OUT).for_each(|at| self.out[at] += before.out[at]);
        self.out[EVALUATED] -= nodes;
        self
    }
}

/// One pair by a case: its own run, and one that is lent more.
pub fn compare_case(
    subject: &impl Subject,
    rng: &mut Rng,
    case: &Case,
    counts: &mut Counts,
) -> Result<(), String> {
    let run = |values: &[u64], tape: &[u64], budget| Left::of(subject, &case.problem, values, tape, budget);
    let first = run(&case.values, &case.tape, case.budget);
    let [verdict, moves, _, words, _] = first.out;
    if verdict >= counts.len() as u64 || moves > case.budget.into() || words > case.tape.len() as u64 {
        return Err(format!("{}, which cannot be", shown(first.refusal, first.out)));
    }
    counts[verdict as usize] += 1;
    let (moves, words) = (moves as u16, words as usize);
    let budget = more(rng, case.budget);
    let further = rng.below(200);
    let long = [&case.tape[..words], &tape(rng, further)].concat();
    let second = run(&case.values, &long, budget);
    if verdict != SPENT && verdict != ENDED {
        return alike("with more", &second, &first);
    }
    let mut there = first.clone();
    there.out[0] = SPENT;
    alike("with more words and just as many moves", &run(&case.values, &long, moves), &there)?;
    let rest = run(&first.values, &long[words..], budget - moves);
    let nodes = u64::from(u16::from_le_bytes([case.problem[5], case.problem[6]]));
    if rest.out[EVALUATED] < nodes {
        return Err(format!("{}, fewer than all {nodes}", shown(rest.refusal, rest.out)));
    }
    alike("from the state passed through", &rest.after(&first, nodes), &second)
}

/// A budget that is greater or equal: mostly by a little, so that the longer run is not much longer.
fn more(rng: &mut Rng, budget: u16) -> u16 {
    match rng.below(10) {
        0 => budget,
        1 => u16::MAX,
        _ => budget.saturating_add(rng.between(1, 30) as u16),
    }
}

fn alike(what: &str, found: &Left, due: &Left) -> Result<(), String> {
    if found == due {
        return Ok(());
    }
    let (answer, expected) = (shown(found.refusal, found.out), shown(due.refusal, due.out));
    let place = found.values.iter().zip(&due.values).position(|(found, due)| found != due);
    let values = place.map_or("alike".into(), |place| format!("apart at place {place}"));
    Err(format!("{what}: {answer}, expected {expected}, values {values}"))
}
