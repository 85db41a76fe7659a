//! Picks and essential tests at 33 to 64 bits, at random: equal to the model's, and checked beside that
//! by membership, by witnesses and by neighbours that must not be members.

use crate::parts;
use crate::subject::{Asked, Model, Subject};
use generate::{spots, Rng};
use model::{definition, exact, ones, Kind, Pair, Set, Spot};

/// What was found.
#[derive(Clone, Copy, Debug, Default)]
pub struct Found {
    /// Picks that had a value.
    pub values: u64,
    /// Consistent picks that would be others, or would have a value, if the other operands were free.
    pub narrowed: u64,
}

impl std::iter::Sum for Found {
    fn sum<All: Iterator<Item = Found>>(all: All) -> Found {
        all.fold(Found::default(), |sum, one| Found {
            values: sum.values + one.values,
            narrowed: sum.narrowed + one.narrowed,
        })
    }
}

/// Compares `cases` spots of each kind and position.
pub fn compare(subject: &impl Subject, cases: u64, seed: u64) -> Result<Found, String> {
    let with_positions = |kind: Kind| (0..kind.operands()).map(move |position| (kind, position));
    let places: Vec<(Kind, usize)> = Kind::ALL.into_iter().skip(2).flat_map(with_positions).collect();
    let found = parts::each(&places, |&(kind, position)| {
        let found = (0..cases).map(|case| {
            let mut rng = Rng::of_case(seed, case << 8 | u64::from(kind.number()) << 2 | position as u64);
            compare_case(subject, &mut rng, kind, position)
                .map_err(|difference| format!("case {case} of {}: {difference}", kind.name()))
        });
        found.sum::<Result<Found, String>>()
    })?;
    Ok(found.into_iter().sum())
}

fn compare_case(subject: &impl Subject, rng: &mut Rng, kind: Kind, position: usize) -> Result<Found, String> {
    let operator = spots::operator(rng, kind, 33, 64);
    let spot = spots::spot(rng, operator);
    let target = spots::target(rng, &spot, position);
    let asked = Asked::new(&spot, position, target);
    let show = |what: &str| format!("{what} at {position} for {target} of {spot:?}");

    let essential = subject.essential(&asked);
    if essential != Model.essential(&asked) {
        return Err(show(&format!("essential answered {essential}")));
    }
    if essential == 1 {
        for _ in 0..4 {
            let mut values = spot.pairs.map(|pair| rng.member(pair));
            values[position] = spot.values[position];
            if operator.apply(values) == target {
                return Err(show(&format!("essential, but {values:?} give the target")));
            }
        }
    }

    let mut found = Found::default();
    for set in [Set::Inverse, Set::Consistent] {
        let proposal = spots::proposal(rng, &spot, position);
        let (mut out, mut expected) = ([u64::MAX], [u64::MAX]);
        let answer = subject.pick(&asked, set, proposal, &mut out);
        let due = Model.pick(&asked, set, proposal, &mut expected);
        if (answer, out) != (due, expected) {
            return Err(show(&format!(
                "{set:?} pick of {proposal} answered {answer} {out:?}, expected {due} {expected:?}"
            )));
        }
        let value = (answer == 1).then_some(out[0]);
        found.values += u64::from(answer == 1);
        found.narrowed +=
            u64::from(exact::pick(&freed(&spot, position), set, position, target, proposal) != value);
        confirm(rng, &spot, set, position, target, proposal, value)
            .map_err(|fault| show(&format!("{set:?} pick of {proposal}: {fault}")))?;
    }
    Ok(found)
}

/// Confirms a pick beside the model's: that it is a member, and that values passed over are not. For
/// the consistent set "not" rests on `witness`, and so on the model's search for the other operand.
fn confirm(
    rng: &mut Rng,
    spot: &Spot,
    set: Set,
    position: usize,
    target: u64,
    proposal: u64,
    value: Option<u64>,
) -> Result<(), String> {
    let top = ones(spot.operator.widths[position]);
    let p = proposal & top;
    if let Some(v) = value {
        if !is_member(spot, set, position, target, v) {
            return Err(format!("{v} is not a member"));
        }
    }
    // What lies before the pick on the way from the proposal up and round, as closed ranges.
    let passed = match value {
        Some(v) if v == p => vec![],
        Some(v) if v > p => vec![(p, v - 1)],
        Some(0) => vec![(p, top)],
        Some(v) => vec![(p, top), (0, v - 1)],
        None => vec![(0, top)],
    };
    for (from, to) in passed {
        for _ in 0..6 {
            let step = rng.word() % 8;
            let near_member = rng.member(spot.pairs[position]);
            for u in [from.saturating_add(step), to.saturating_sub(step), near_member] {
                if (from..=to).contains(&u) && is_member(spot, set, position, target, u) {
                    return Err(format!("{u} is a member and was passed over"));
                }
            }
        }
    }
    Ok(())
}

/// The spot with every bit of the other operands free.
fn freed(spot: &Spot, position: usize) -> Spot {
    let mut freed = *spot;
    for other in (0..spot.operator.kind.operands()).filter(|&at| at != position) {
        freed.pairs[other] = Pair::free(spot.operator.widths[other]);
    }
    freed
}

/// Membership by the definition; for the consistent set by values of the others that give the target, and
/// agree with their pairs in the kinds that ask for it.
fn is_member(spot: &Spot, set: Set, position: usize, target: u64, v: u64) -> bool {
    if set == Set::Inverse {
        return definition::has(spot, set, position, target, v);
    }
    let spot = if spot.operator.kind.others_agree() { *spot } else { freed(spot, position) };
    spot.pairs[position].agrees(v) && witness(&spot, position, v, target).is_some()
}

/// Agreeing values of all positions, this one's being `v`, that give the target.
fn witness(spot: &Spot, position: usize, v: u64, target: u64) -> Option<[u64; 3]> {
    let operator = &spot.operator;
    let mut values = spot.values;
    values[position] = v;
    let candidates = match operator.kind {
        Kind::Not | Kind::Extract | Kind::SignExtend => vec![values],
        // Either branch may give the target, and what is not taken may stay as it is.
        Kind::If => {
            let [a, b, c] = values;
            match position {
                0 => vec![[a, target, target], [a, target, c], [a, b, target]],
                1 => vec![[1, b, c], [0, b, target]],
                _ => vec![[0, b, c], [1, target, c]],
            }
        }
        _ => {
            let other = 1 - position;
            let there = Spot { values, ..*spot };
            values[other] = exact::pick(&there, Set::Inverse, other, target, 0)?;
            vec![values]
        }
    };
    let serves = |values: &[u64; 3]| {
        let agree = (0..operator.kind.operands()).all(|at| spot.pairs[at].agrees(values[at]));
        agree && operator.apply(*values) == target
    };
    candidates.into_iter().find(serves)
}

#[cfg(test)]
mod tests {
    use super::*;
    use crate::subject::Plain;

    #[test]
    fn the_model_and_plain_rust_pass() {
        let found = compare(&Model, 100, 1).unwrap();
        assert!(found.values > 1000 && found.narrowed > 100, "{found:?}");
        let found = compare(&Plain, 2000, 1).unwrap();
        assert!(found.values > 20_000 && found.narrowed > 2000, "{found:?}");
    }
}
