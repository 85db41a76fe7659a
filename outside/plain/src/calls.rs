//! The calls in the library's own numbers and with its own tests of the arguments, so that the
//! two are measured at the same work. Never inlined, as the library's are not.

use crate::btor2::convert;
use crate::kind::{COUNT, EXTRACT};
use crate::layout::{check as check_problem, height, operands, widest, Refusal};
use crate::mask;
use crate::mending::mend as mend_problem;
use crate::picking::{essential as is_essential, pick_consistent, pick_inverse, Spot};
use crate::search::{batch as run_batch, run as run_problem, run_evaluating_all, Answer, Outcome};

/// 0 where the problem is accepted, else the refusal's number + 256 × its place.
#[inline(never)]
pub fn check(problem: &[u8]) -> u64 {
    check_problem(problem).map_or_else(code, |_| 0)
}

fn code(refusal: Refusal) -> u64 {
    u64::from(refusal.number) + 256 * refusal.place as u64
}

/// 0, or the refusal's number + 256 × its place; 255 where `out` is too short. It takes the verdict
/// (0 model, 1 spent, 2 ended, 3 closed, 4 refused), moves, steps, words and nodes evaluated.
#[inline(never)]
pub fn run(problem: &[u8], values: &mut [u64], tape: &[u64], budget: u16, out: &mut [u64]) -> u64 {
    let Some(out) = out.first_chunk_mut() else {
        return 255;
    };
    let refusal;
    (refusal, *out) = numbers(run_problem(problem, values, tape, budget));
    refusal
}

/// The same by evaluating all nodes after each move, which is what it counts: what the gain is measured by.
#[inline(never)]
pub fn run_all(problem: &[u8], values: &mut [u64], tape: &[u64], budget: u16, out: &mut [u64]) -> u64 {
    let Some(out) = out.first_chunk_mut() else {
        return 255;
    };
    let refusal;
    (refusal, *out) = numbers(run_evaluating_all(problem, values, tape, budget));
    refusal
}

/// An answer in numbers.
fn numbers(answer: Answer) -> (u64, [u64; 5]) {
    let (refusal, verdict) = match answer.outcome {
        Outcome::Settled(verdict) => (0, verdict as u64),
        Outcome::Refused(refusal) => (code(refusal), 4),
    };
    (refusal, [verdict, answer.moves, answer.steps, answer.words, answer.evaluated])
}

/// The same of the whole call; `answers` takes six words for each start: its own refusal, and those of a run.
#[inline(never)]
pub fn batch(
    problem: &[u8],
    starts: u64,
    values: &mut [u64],
    tape: &[u64],
    lengths: &[u64],
    budgets: &[u16],
    answers: &mut [u64],
) -> u64 {
    let answers = answers.as_chunks_mut::<6>().0;
    if (answers.len() as u64) < starts {
        return 255;
    }
    let see = |start: usize, answer| {
        let (refusal, [verdict, moves, steps, words, evaluated]) = numbers(answer);
        answers[start] = [refusal, verdict, moves, steps, words, evaluated];
    };
    run_batch(problem, starts, values, tape, lengths, budgets, see).map_or_else(code, |()| 0)
}

/// The same; `out` takes H and budget × (1 + 2H), or two zeros.
#[inline(never)]
pub fn need(problem: &[u8], budget: u16, out: &mut [u64]) -> u64 {
    let Some(out) = out.first_chunk_mut() else {
        return 255;
    };
    let (refusal, height, moves) = match check_problem(problem) {
        Ok(problem) => (0, height(problem), budget.into()),
        Err(refusal) => (code(refusal), 0, 0),
    };
    *out = [height, moves * (1 + 2 * height)];
    refusal
}

/// The same; where nothing is refused, `mended` begins with the problem in order, and `map` with the old id of each
/// new one.
#[inline(never)]
pub fn mend(problem: &[u8], mended: &mut [u8], map: &mut [u16]) -> u64 {
    mend_problem(problem, mended, map).map_or_else(code, |()| 0)
}

/// 0 with the problem that a BTOR2 text is in `problem` and its length in `out`, or the refusal's number + 256 × its line
/// with 0.
#[inline(never)]
pub fn btor2(text: &[u8], problem: &mut [u8], out: &mut [u64]) -> u64 {
    let Some(out) = out.first_mut() else {
        return 255;
    };
    let (refusal, length) = match convert(text, problem) {
        Ok(length) => (0, length),
        Err(refusal) => (code(refusal), 0),
    };
    *out = length as u64;
    refusal
}

/// 1 with the value in `out`, 0 where the set (0 inverse, else consistent) is empty, 2 where the
/// arguments are not those of a node.
#[allow(clippy::too_many_arguments)]
#[inline(never)]
pub fn pick(
    kind: u8,
    width: u32,
    low: u32,
    words: &[u64; 12],
    position: u32,
    target: u64,
    proposal: u64,
    which: u8,
    out: &mut [u64; 1],
) -> u8 {
    let Some(spot) = spot(kind, width, low, words, position, target) else {
        return 2;
    };
    let position = position as usize;
    let p = proposal & mask(spot.widths[position]);
    let picked = match which {
        0 => pick_inverse(&spot, position, target, p),
        _ => pick_consistent(&spot, position, target, p),
    };
    match picked {
        None => 0,
        Some(value) => {
            out[0] = value;
            1
        }
    }
}

/// 1 where the position is essential, 0 where it is not, 2 as above.
#[inline(never)]
pub fn essential(kind: u8, width: u32, low: u32, words: &[u64; 12], position: u32, target: u64) -> u8 {
    match spot(kind, width, low, words, position, target) {
        None => 2,
        Some(spot) => u8::from(is_essential(&spot, position as usize, target)),
    }
}

/// The spot of a call, if the arguments are those of a node of an accepted problem.
#[inline]
fn spot(kind: u8, width: u32, low: u32, words: &[u64; 12], position: u32, target: u64) -> Option<Spot> {
    let count = operands(kind);
    if kind >= COUNT || position as usize >= count || kind != EXTRACT && low != 0 || low > 64 {
        return None;
    }
    if width == 0 || width > widest(kind) || target & !mask(width) != 0 {
        return None;
    }
    let mut spot = Spot { kind, width, low, ..Spot::default() };
    for at in 0..3 {
        let [w, lo, hi, now] = [words[at], words[3 + at], words[6 + at], words[9 + at]];
        let fits = if at < count {
            (1..=64).contains(&w) && hi & !mask(w as u32) == 0 && lo & !now == 0 && now & !hi == 0
        } else {
            w | lo | hi | now == 0
        };
        if !fits {
            return None;
        }
        (spot.widths[at], spot.lo[at], spot.hi[at], spot.now[at]) = (w as u32, lo, hi, now);
    }
    crate::layout::widths_fit(kind, width, spot.widths, low).then_some(spot)
}
