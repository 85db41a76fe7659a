//! Picks and essential tests whose arguments are not those of a node of an accepted problem: each
//! must be refused, with nothing written.

use crate::subject::{Asked, Subject};
use generate::{spots, Rng};
use model::{Kind, Set};

/// Compares `cases` spots of each kind, each spoilt in every way; gives how many calls were made.
pub fn compare(subject: &impl Subject, cases: u64, seed: u64) -> Result<u64, String> {
    let mut calls = 0;
    for kind in Kind::ALL.into_iter().skip(2) {
        for case in 0..cases {
            let mut rng = Rng::of_case(seed, case << 8 | u64::from(kind.number()));
            for (fault, asked) in spoilt(&mut rng, kind) {
                let mut out = [7];
                let refused = subject.essential(&asked) == 2
                    && [Set::Inverse, Set::Consistent]
                        .into_iter()
                        .all(|set| subject.pick(&asked, set, rng.word(), &mut out) == 2);
                calls += 3;
                if !refused || out != [7] {
                    return Err(format!("{fault}: not refused, or written: {asked:?}"));
                }
            }
        }
    }
    Ok(calls)
}

/// A well-formed question of a kind with one fault each.
fn spoilt(rng: &mut Rng, kind: Kind) -> Vec<(&'static str, Asked)> {
    let operator = spots::operator(rng, kind, 2, 63);
    let spot = spots::spot(rng, operator);
    let position = rng.below(kind.operands());
    let asked = Asked::new(&spot, position, spots::target(rng, &spot, position));
    let at = rng.below(kind.operands());
    let with = |change: &dyn Fn(&mut Asked)| {
        let mut changed = asked;
        change(&mut changed);
        changed
    };
    let shut = !spot.pairs[at].open();
    let extends = kind == Kind::SignExtend;
    let mut faults = vec![
        ("no such kind", with(&|q| q.kind = Kind::COUNT as u8)),
        ("a variable", with(&|q| q.kind = 0)),
        ("a constant", with(&|q| q.kind = 1)),
        ("no such position", with(&|q| q.position = kind.operands() as u32)),
        ("width 0", with(&|q| q.width = 0)),
        ("width 65", with(&|q| q.width = 65)),
        ("an operand of no bits", with(&|q| q.words[at] = 0)),
        ("an operand of 65 bits", with(&|q| q.words[at] = 65)),
        ("a node of another width", with(&|q| q.width = if extends { operator.widths[0] } else { 64 })),
        ("lo outside hi", with(&|q| (q.words[3 + at], q.words[6 + at]) = (1, 0))),
        ("hi outside the width", with(&|q| q.words[6 + at] = u64::MAX)),
        ("a value that does not agree", with(&|q| q.words[9 + at] ^= 1 << shut.trailing_zeros())),
    ];
    if kind != Kind::Extract {
        faults.push(("a lowest bit that the kind has not", with(&|q| q.low = 7)));
    }
    if kind == Kind::Div {
        faults.push(("a division of 17 bits", with(&|q| (q.width, q.words[0], q.words[1]) = (17, 17, 17))));
    }
    for unused in (kind.operands()..3).flat_map(|position| [0, 3, 6, 9].map(|group| group + position)) {
        faults.push(("an operand that the kind has not", with(&|q| q.words[unused] = 1)));
    }
    faults
}

#[cfg(test)]
mod tests {
    use super::*;
    use crate::subject::{Model, Plain};

    #[test]
    fn the_model_and_plain_rust_refuse() {
        compare(&Model, 50, 1).unwrap();
        compare(&Plain, 50, 1).unwrap();
    }
}
