//! The proved library's calls as the model answers them, in the library's own numbers: what each
//! must answer.

use crate::batch::{batch as model_batch, Lent};
use crate::btor2::convert;
use crate::frames::{gather as model_gather, Gathered};
use crate::judged::{judge, Judged};
use crate::mended;
use crate::problem::read;
use crate::{exact, ones, run as model_run, Answer, Kind, Operator, Outcome, Pair, Refusal, Set, Spot};

/// The words that describe a node's operands: widths, los, his and current values of a, b and c.
pub const SPOT_WORDS: usize = 12;

/// How many words a run's answer takes: verdict, moves, steps, words and nodes evaluated.
pub const RUN_OUT: usize = 5;

/// How many words a start's answer takes in a batch: its refusal, and what a run's answer takes.
pub const ANSWER: usize = 1 + RUN_OUT;

/// How many words tell what was gathered: kept, repeats and unkept.
pub const GATHER_OUT: usize = 3;

/// How many words the answer of `need` takes: H and the number of words.
pub const NEED_OUT: usize = 2;

/// How many words the answer of `model` takes: 1 for yes and 0 otherwise, and the first root that is 0.
pub const MODEL_OUT: usize = 2;

/// How many words the answer of `btor2` takes: how many bytes were written.
pub const BTOR2_OUT: usize = 1;

/// The refusal of a call that is lent too few words for its answer.
pub const TOO_SHORT: u64 = 255;

/// 0 where the problem is accepted, else the refusal's number + 256 × its place.
pub fn check(problem: &[u8]) -> u64 {
    read(problem).map_or_else(code, |_| 0)
}

fn code(refusal: Refusal) -> u64 {
    u64::from(refusal.number) + 256 * refusal.place as u64
}

/// How long a tape a run takes: 0 with H and budget × (1 + 2H) in `out`, or the refusal with 0 and 0.
/// Nothing is done where `out` is too short.
pub fn need(problem: &[u8], budget: u16, out: &mut [u64]) -> u64 {
    let Some(out) = out.first_chunk_mut::<NEED_OUT>() else {
        return TOO_SHORT;
    };
    match read(problem) {
        Ok(problem) => {
            *out = [problem.height() as u64, problem.words_for(budget.into())];
            0
        }
        Err(refusal) => {
            *out = [0, 0];
            code(refusal)
        }
    }
}

/// Whether another solver's model makes all roots 1: 0 with 1 and 0 in `out`, or 0 and the first root that is 0; or the
/// refusal with 0 and 0. Nothing is done where `out` is too short.
pub fn model(problem: &[u8], names: &[u8], text: &[u8], out: &mut [u64]) -> u64 {
    let Some(out) = out.first_chunk_mut::<MODEL_OUT>() else {
        return TOO_SHORT;
    };
    let (refusal, answer) = match judge(problem, names, text) {
        Ok(Judged::Yes) => (0, [1, 0]),
        Ok(Judged::No(root)) => (0, [0, root as u64]),
        Err(refusal) => (code(refusal), [0, 0]),
    };
    *out = answer;
    refusal
}

/// The mended file and its map at the beginning of the lent places: 0, or the refusal with nothing written.
pub fn mend(problem: &[u8], file: &mut [u8], map: &mut [u16]) -> u64 {
    match mended::mend(problem, file.len(), map.len()) {
        Ok(mended) => {
            file[..mended.bytes.len()].copy_from_slice(&mended.bytes);
            map[..mended.map.len()].copy_from_slice(&mended.map);
            0
        }
        Err(refusal) => code(refusal),
    }
}

/// The problem that a BTOR2 text is: 0 with its bytes in `problem` and how many they are in `out`; or the refusal's number
/// + 256 × its line with 0, and `problem` as it was. Nothing is done where `out` is too short.
pub fn btor2(text: &[u8], problem: &mut [u8], out: &mut [u64]) -> u64 {
    let Some(out) = out.first_chunk_mut::<BTOR2_OUT>() else {
        return TOO_SHORT;
    };
    match convert(text, problem.len()) {
        Ok(converted) => {
            let bytes = converted.bytes();
            problem[..bytes.len()].copy_from_slice(&bytes);
            *out = [bytes.len() as u64];
            0
        }
        Err(fault) => {
            *out = [0];
            code(Refusal { number: fault.number, place: fault.line })
        }
    }
}

/// The run's answer in numbers; nothing is done where `out` is too short for it.
pub fn run(problem: &[u8], values: &mut [u64], tape: &[u64], budget: u16, out: &mut [u64]) -> u64 {
    if out.len() < RUN_OUT {
        return TOO_SHORT;
    }
    numbers(&model_run(problem, values, tape, budget), out)
}

/// The answers of a batch in numbers, six words a start, or the refusal of the whole call, which writes none; nothing is
/// done where `answers` is too short for them.
pub fn batch(lent: Lent, values: &mut [u64], answers: &mut [u64]) -> u64 {
    if too_short_for(lent.starts, answers) {
        return TOO_SHORT;
    }
    match model_batch(lent, values) {
        Err(refusal) => code(refusal),
        Ok(found) => {
            write_answers(&found, answers);
            0
        }
    }
}

fn too_short_for(starts: u64, answers: &[u64]) -> bool {
    (answers.len() as u128) < ANSWER as u128 * u128::from(starts)
}

fn write_answers(found: &[Answer], answers: &mut [u64]) {
    for (answer, out) in found.iter().zip(answers.chunks_mut(ANSWER)) {
        out[0] = numbers(answer, &mut out[1..]);
    }
}

/// The same, with what was gathered in `out`: kept, repeats and unkept, each 0 beside a refusal.
pub fn gather(
    lent: Lent,
    values: &mut [u64],
    names: &[u16],
    kept: &mut [u64],
    answers: &mut [u64],
    out: &mut [u64],
) -> u64 {
    let Some(out) = out.first_chunk_mut::<GATHER_OUT>().filter(|_| !too_short_for(lent.starts, answers))
    else {
        return TOO_SHORT;
    };
    match model_gather(lent, values, names, kept) {
        Err(refusal) => {
            *out = [0; GATHER_OUT];
            code(refusal)
        }
        Ok(Gathered { answers: found, kept, repeats, unkept }) => {
            *out = [kept, repeats, unkept];
            write_answers(&found, answers);
            0
        }
    }
}

/// 0, or the refusal's number + 256 × its place. `out` takes the verdict (0 model, 1 spent, 2 ended,
/// 3 closed, 4 refused), moves, steps, words and nodes evaluated.
pub fn numbers(answer: &Answer, out: &mut [u64]) -> u64 {
    let (refusal, verdict) = match answer.outcome {
        Outcome::Settled(verdict) => (0, verdict as u64),
        Outcome::Refused(refusal) => (code(refusal), 4),
    };
    let Answer { moves, steps, words, evaluated, .. } = *answer;
    out[..RUN_OUT].copy_from_slice(&[verdict, moves, steps, words, evaluated]);
    refusal
}

/// 1 with the value in `out[0]`, 0 where the set (0 inverse, else consistent) is empty, 2 where the
/// arguments are not those of a node of an accepted problem, or `out` has no place.
#[allow(clippy::too_many_arguments)]
pub fn pick(
    kind: u8,
    width: u32,
    low: u32,
    words: &[u64],
    position: u32,
    target: u64,
    proposal: u64,
    which: u8,
    out: &mut [u64],
) -> u8 {
    let set = if which == 0 { Set::Inverse } else { Set::Consistent };
    let (Some(spot), Some(out)) = (spot(kind, width, low, words, position, target), out.first_mut()) else {
        return 2;
    };
    match exact::pick(&spot, set, position as usize, target, proposal) {
        None => 0,
        Some(value) => {
            *out = value;
            1
        }
    }
}

/// 1 where the position is essential, 0 where it is not, 2 as above.
pub fn essential(kind: u8, width: u32, low: u32, words: &[u64], position: u32, target: u64) -> u8 {
    match spot(kind, width, low, words, position, target) {
        None => 2,
        Some(spot) => u8::from(exact::essential(&spot, position as usize, target)),
    }
}

/// The words that describe a spot's operands.
pub fn words_of(spot: &Spot) -> [u64; SPOT_WORDS] {
    let mut words = [0; SPOT_WORDS];
    for at in 0..3 {
        words[at] = u64::from(spot.operator.widths[at]);
        words[3 + at] = spot.pairs[at].lo;
        words[6 + at] = spot.pairs[at].hi;
        words[9 + at] = spot.values[at];
    }
    words
}

/// The spot of a call, if the arguments are those of a node of an accepted problem: an operator with
/// that position whose widths fit, operands that are ternary words of their width with current
/// values that agree, zeros where the kind has no operand, and a target of the node's width.
fn spot(kind: u8, width: u32, low: u32, words: &[u64], position: u32, target: u64) -> Option<Spot> {
    let kind = Kind::from_number(kind)?;
    if position as usize >= kind.operands() {
        return None;
    }
    // Words that are missing are 0.
    let at = |group: usize, position: usize| words.get(3 * group + position).copied().unwrap_or(0);
    let unused = (kind.operands()..3).all(|position| (0..4).all(|group| at(group, position) == 0));
    let sized = (0..kind.operands()).all(|position| (1..=64).contains(&at(0, position)));
    if !unused
        || !sized
        || !(1..=kind.widest()).contains(&width)
        || low > 64
        || (kind != Kind::Extract && low != 0)
    {
        return None;
    }
    let positions = [0, 1, 2];
    let operator = Operator { kind, width, widths: positions.map(|position| at(0, position) as u32), low };
    let pairs = positions.map(|position| Pair { lo: at(1, position), hi: at(2, position) });
    let values = positions.map(|position| at(3, position));
    let agree =
        positions.iter().all(|&p| pairs[p].is_ternary(operator.widths[p]) && pairs[p].agrees(values[p]));
    (operator.widths_fit() && agree && target <= ones(width)).then_some(Spot { operator, pairs, values })
}
