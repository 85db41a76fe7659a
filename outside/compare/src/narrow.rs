//! Picks and essential tests over all cases of few bits: every operator, position, pair and current
//! value of each operand, target and proposal, against the definitions.
//!
//! The definitions go through all values, so what they say is kept in tables: the inverse set of a
//! free operand by the others' values and the target, the consistent set by the others' pairs and the
//! target, and the essential test by the value, the others' pairs and the target.

use crate::parts;
use crate::subject::{Asked, Subject};
use generate::Rng;
use model::operator::all_operators;
use model::word::all_pairs;
use model::{definition, ones, Kind, Operator, Pair, Set, Spot};

/// How much is compared.
#[derive(Clone, Copy, Debug)]
pub struct Extent {
    /// The most bits of an operand and of a node.
    pub operand: u32,
    pub node: u32,
    /// Operands of nodes up to so many bits have every current value that agrees; those of wider nodes, which
    /// have more targets, one by chance for each pair.
    pub whole: u32,
    /// Up to so many spots of an operator all are taken, else as many by chance.
    pub spots: u64,
    /// The chance seed.
    pub seed: u64,
}

#[derive(Clone, Copy, Debug, Default)]
pub struct Count {
    pub operators: u64,
    pub spots: u64,
    pub picks: u64,
    /// Picks from a consistent set that the others' pairs make smaller.
    pub narrowed: u64,
    pub essentials: u64,
}

/// Compares all operators; gives the counts by kind number.
pub fn compare(subject: &impl Subject, extent: Extent) -> Result<[Count; Kind::COUNT], String> {
    let operators: Vec<Operator> = all_operators(extent.operand, extent.node);
    let compared = parts::each(&operators, |operator| compare_operator(subject, operator, extent))?;
    let mut counts = [Count::default(); Kind::COUNT];
    for (operator, one) in operators.iter().zip(compared) {
        let count = &mut counts[operator.kind.number() as usize];
        count.operators += 1;
        count.spots += one.spots;
        count.picks += one.picks;
        count.narrowed += one.narrowed;
        count.essentials += one.essentials;
    }
    Ok(counts)
}

/// A pair, the place of that pair in the list of all, and a value that agrees.
#[derive(Clone, Copy)]
struct Operand {
    pair: Pair,
    number: usize,
    value: u64,
}

fn operands(width: u32) -> Vec<Operand> {
    let with_values =
        |(number, pair): (usize, Pair)| pair.members().map(move |value| Operand { pair, number, value });
    pairs_of(width).into_iter().enumerate().flat_map(with_values).collect()
}

/// Each pair with one value.
fn operands_by_chance(width: u32, rng: &mut Rng) -> Vec<Operand> {
    let with_value = |(number, pair): (usize, Pair)| Operand { pair, number, value: rng.member(pair) };
    pairs_of(width).into_iter().enumerate().map(with_value).collect()
}

/// All ternary words of an operand; a position without an operand has zeros.
fn pairs_of(width: u32) -> Vec<Pair> {
    if width == 0 {
        vec![Pair::default()]
    } else {
        all_pairs(width)
    }
}

/// The place of a ternary word in the list of all.
fn number_of(width: u32, pair: Pair) -> usize {
    pairs_of(width).iter().position(|&other| other == pair).expect("a ternary word")
}

fn compare_operator(subject: &impl Subject, operator: &Operator, extent: Extent) -> Result<Count, String> {
    let mut count = Count::default();
    let mut rng = Rng::new(extent.seed);
    let mut choices = operator.widths.map(operands);
    if operator.width > extent.whole {
        choices = operator.widths.map(|width| operands_by_chance(width, &mut rng));
    }
    let tables: Vec<Table> =
        (0..operator.kind.operands()).map(|position| Table::new(operator, position)).collect();
    let total: u64 = choices.iter().map(|list| list.len() as u64).product();
    let mut compare = |number: u64| {
        let mut rest = number;
        let chosen = [0, 1, 2].map(|at| {
            let list = &choices[at];
            let operand = list[(rest % list.len() as u64) as usize];
            rest /= list.len() as u64;
            operand
        });
        count.spots += 1;
        compare_spot(subject, operator, chosen, &tables, &mut count)
    };
    if total <= extent.spots {
        (0..total).try_for_each(&mut compare)?;
    } else {
        (0..extent.spots).try_for_each(|_| compare(rng.word() % total))?;
    }
    Ok(count)
}

fn compare_spot(
    subject: &impl Subject,
    operator: &Operator,
    chosen: [Operand; 3],
    tables: &[Table],
    count: &mut Count,
) -> Result<(), String> {
    let spot = Spot { operator: *operator, pairs: chosen.map(|o| o.pair), values: chosen.map(|o| o.value) };
    for (position, table) in tables.iter().enumerate() {
        for target in 0..=ones(operator.width) {
            let asked = Asked::new(&spot, position, target);
            count.essentials += 1;
            let essential = subject.essential(&asked);
            if essential != u8::from(table.essential(&chosen, target)) {
                return Err(format!(
                    "essential at {position} for {target} of {spot:?}: answered {essential}"
                ));
            }
            count.narrowed += u64::from(table.is_narrowed(&chosen, target)) << operator.widths[position];
            for set in [Set::Inverse, Set::Consistent] {
                let members = table.members(&chosen, set, target);
                count.picks += 1 << operator.widths[position];
                compare_picks(subject, &asked, set, members, operator.widths[position]).map_err(
                    |difference| format!("{set:?} at {position} for {target} of {spot:?}: {difference}"),
                )?;
            }
        }
    }
    Ok(())
}

/// The pick of every proposal, with and without bits above the operand's width.
fn compare_picks(
    subject: &impl Subject,
    asked: &Asked,
    set: Set,
    members: u64,
    width: u32,
) -> Result<(), String> {
    let above = members.wrapping_mul(0x9e37_79b9_7f4a_7c15) << width;
    for p in 0..=ones(width) {
        let proposal = if p % 2 == 0 { p } else { p | above };
        let mut out = [u64::MAX];
        let found = subject.pick(asked, set, proposal, &mut out);
        let expected = match pick(members, p) {
            None => (0, [u64::MAX]),
            Some(value) => (1, [value]),
        };
        if (found, out) != expected {
            return Err(format!("proposal {proposal}: answered {found} {out:?}, expected {expected:?}"));
        }
    }
    Ok(())
}

/// The pick from a set of values below 64, given as a word with a bit for each.
fn pick(members: u64, p: u64) -> Option<u64> {
    let from = members >> p;
    if from != 0 {
        Some(p + u64::from(from.trailing_zeros()))
    } else {
        (members != 0).then(|| u64::from(members.trailing_zeros()))
    }
}

fn bits(members: impl IntoIterator<Item = u64>) -> u64 {
    members.into_iter().fold(0, |bits, v| bits | 1 << v)
}

/// What the definitions say of an operator's position.
struct Table {
    position: usize,
    others: [usize; 2],
    /// The sizes of the other positions' values, and of their lists of pairs; and where in these lists
    /// all bits are free.
    values: [usize; 2],
    pairs: [usize; 2],
    free: [usize; 2],
    targets: usize,
    own: usize,
    /// The members of each pair of the position.
    agreeing: Vec<u64>,
    inverse: Vec<u64>,
    consistent: Vec<u64>,
    essential: Vec<bool>,
}

impl Table {
    fn new(operator: &Operator, position: usize) -> Table {
        let others = [(position + 1) % 3, (position + 2) % 3];
        let count = |width: u32| 1usize << width;
        let mut table = Table {
            position,
            others,
            values: others.map(|at| count(operator.widths[at])),
            pairs: others.map(|at| pairs_of(operator.widths[at]).len()),
            free: others.map(|at| number_of(operator.widths[at], Pair::free(operator.widths[at]))),
            targets: count(operator.width),
            own: count(operator.widths[position]),
            agreeing: pairs_of(operator.widths[position])
                .into_iter()
                .map(|pair| bits(pair.members()))
                .collect(),
            inverse: Vec::new(),
            consistent: Vec::new(),
            essential: Vec::new(),
        };
        table.fill(operator);
        table
    }

    fn fill(&mut self, operator: &Operator) {
        let position = self.position;
        let free = operator.widths.map(|width| if width == 0 { Pair::default() } else { Pair::free(width) });
        let mut spot = Spot { operator: *operator, pairs: free, values: [0; 3] };
        let targets = 0..self.targets as u64;
        for first in 0..self.values[0] {
            for second in 0..self.values[1] {
                spot.values[self.others[0]] = first as u64;
                spot.values[self.others[1]] = second as u64;
                for target in targets.clone() {
                    self.inverse.push(bits(definition::members(&spot, Set::Inverse, position, target)));
                }
            }
        }
        for first in pairs_of(operator.widths[self.others[0]]) {
            for second in pairs_of(operator.widths[self.others[1]]) {
                spot.pairs[self.others[0]] = first;
                spot.pairs[self.others[1]] = second;
                for target in targets.clone() {
                    self.consistent.push(bits(definition::members(&spot, Set::Consistent, position, target)));
                }
                for own in 0..self.own {
                    spot.values[position] = own as u64;
                    for target in targets.clone() {
                        self.essential.push(definition::essential(&spot, position, target));
                    }
                }
            }
        }
    }

    fn members(&self, chosen: &[Operand; 3], set: Set, target: u64) -> u64 {
        let whole = match set {
            Set::Consistent => self.consistent_of(self.others.map(|at| chosen[at].number), target),
            Set::Inverse => {
                let [first, second] = self.others.map(|at| chosen[at].value as usize);
                self.inverse[(first * self.values[1] + second) * self.targets + target as usize]
            }
        };
        whole & self.agreeing[chosen[self.position].number]
    }

    /// The consistent set of a free operand, by the others' pairs.
    fn consistent_of(&self, [first, second]: [usize; 2], target: u64) -> u64 {
        self.consistent[(first * self.pairs[1] + second) * self.targets + target as usize]
    }

    /// Whether the consistent set would have more members if the others were free.
    fn is_narrowed(&self, chosen: &[Operand; 3], target: u64) -> bool {
        let own = self.agreeing[chosen[self.position].number];
        self.members(chosen, Set::Consistent, target) != self.consistent_of(self.free, target) & own
    }

    fn essential(&self, chosen: &[Operand; 3], target: u64) -> bool {
        let [first, second] = self.others.map(|at| chosen[at].number);
        let row = (first * self.pairs[1] + second) * self.own + chosen[self.position].value as usize;
        self.essential[row * self.targets + target as usize]
    }
}

#[cfg(test)]
mod tests {
    use super::*;
    use crate::subject::{Model, Plain};

    #[test]
    fn the_quick_pick_is_the_defined_one() {
        for members in 0..256u64 {
            let list: Vec<u64> = (0..8).filter(|v| members >> v & 1 == 1).collect();
            for p in 0..8 {
                assert_eq!(pick(members, p), definition::pick(&list, 3, p));
            }
        }
    }

    /// The tables hold what the definitions say of the very spot.
    #[test]
    fn the_tables_are_the_definitions() {
        for operator in all_operators(2, 3) {
            let [first, second, third] = operator.widths.map(operands);
            for position in 0..operator.kind.operands() {
                let table = Table::new(&operator, position);
                for &a in &first {
                    for &b in &second {
                        for &c in &third {
                            let chosen = [a, b, c];
                            let spot = Spot {
                                operator,
                                pairs: chosen.map(|o| o.pair),
                                values: chosen.map(|o| o.value),
                            };
                            for target in 0..=ones(operator.width) {
                                assert_eq!(
                                    table.essential(&chosen, target),
                                    definition::essential(&spot, position, target)
                                );
                                for set in [Set::Inverse, Set::Consistent] {
                                    let members = bits(definition::members(&spot, set, position, target));
                                    assert_eq!(table.members(&chosen, set, target), members);
                                }
                            }
                        }
                    }
                }
            }
        }
    }

    #[test]
    fn the_model_and_plain_rust_pass_at_two_bits() {
        let extent = Extent { operand: 2, node: 4, whole: 3, spots: u64::MAX, seed: 1 };
        compare(&Model, extent).unwrap();
        compare(&Plain, extent).unwrap();
    }
}
