//! BTOR2 in: valid and damaged texts, what they are converted to, byte by byte, with every refusal counted; and on values
//! of the inputs, whether the constraints hold exactly where all roots are 1.

use crate::parts;
use crate::subject::{Converts, Model, Subject};
use generate::btor2::{damaged, valid, Case, Extent, FAULTS};
use generate::Rng;
use model::btor2::{keywords, mean};
use model::calls::{BTOR2_OUT, TOO_SHORT};
use model::ones;
use model::problem::read;
use std::collections::BTreeMap;
use std::ops::Range;
use std::path::Path;

/// What was reached.
#[derive(Clone, Debug, Default)]
pub struct Counts {
    pub converted: u64,
    /// By number, from 1.
    pub refusals: [u64; 6],
    /// Extents that were reached as they should be.
    extents: [u64; Extent::ALL.len()],
    /// Lines with two faults of which the first was told, by the numbers of both.
    orders: [[u64; 6]; 6],
    /// Of converted texts: lines by keyword, negative references, and other names of a node.
    pub keywords: BTreeMap<String, u64>,
    pub negative: u64,
    pub names: u64,
    /// Values of the inputs that meet all constraints, and that do not.
    pub met: u64,
    pub unmet: u64,
}

impl Counts {
    /// What was never reached, by name.
    pub fn missing(&self) -> Vec<String> {
        let counted = [
            ("converted", self.converted),
            ("a negative reference", self.negative),
            ("another name of a node", self.names),
            ("constraints that hold", self.met),
            ("constraints that do not", self.unmet),
        ];
        let counted = counted.into_iter().map(|(name, count)| (name.to_string(), count));
        let refusals =
            FAULTS.iter().map(|&number| (format!("refusal {number}"), self.refusals[usize::from(number)]));
        let extents =
            Extent::ALL.iter().zip(self.extents).map(|((extent, _), count)| (format!("{extent:?}"), count));
        let orders = orders().map(|(first, second)| {
            (format!("{first} on a line that {second} would refuse"), self.orders[first][second])
        });
        let used = keywords()
            .map(|keyword| (format!("'{keyword}'"), self.keywords.get(keyword).copied().unwrap_or(0)));
        let all = counted.chain(refusals).chain(extents).chain(orders).chain(used);
        all.filter(|(_, count)| *count == 0).map(|(name, _)| name).collect()
    }

    /// The least often reached order of two on one line.
    pub fn rarest(&self) -> u64 {
        orders().map(|(first, second)| self.orders[first][second]).min().unwrap_or(0)
    }

    /// Each extent with how often it was reached.
    pub fn extents(&self) -> impl Iterator<Item = (String, u64)> + '_ {
        Extent::ALL.iter().zip(self.extents).map(|((extent, _), count)| (format!("{extent:?}"), count))
    }

    fn add(&mut self, other: &Counts) {
        let add = |to: &mut [u64], from: &[u64]| to.iter_mut().zip(from).for_each(|(to, from)| *to += from);
        let one =
            |counts: &Counts| [counts.converted, counts.negative, counts.names, counts.met, counts.unmet];
        let mut sum = one(self);
        add(&mut sum, &one(other));
        [self.converted, self.negative, self.names, self.met, self.unmet] = sum;
        add(&mut self.refusals, &other.refusals);
        add(&mut self.extents, &other.extents);
        add(self.orders.as_flattened_mut(), other.orders.as_flattened());
        for (keyword, count) in &other.keywords {
            *self.keywords.entry(keyword.clone()).or_default() += count;
        }
    }

    /// Counts the lines of a text that was converted.
    fn see_lines(&mut self, text: &[u8]) {
        for line in String::from_utf8_lossy(text).lines() {
            let words: Vec<&str> =
                line.split_whitespace().take_while(|word| !word.starts_with(';')).collect();
            let [_, keyword, arguments @ ..] = &words[..] else {
                continue;
            };
            *self.keywords.entry((*keyword).into()).or_default() += 1;
            if !keyword.starts_with("const") || *keyword == "constraint" {
                self.negative += arguments.iter().filter(|argument| argument.starts_with('-')).count() as u64;
            }
            self.names += u64::from(keyword.ends_with("ext") && arguments[2] == "0");
        }
    }
}

/// Every two of the refusals, the earlier first.
fn orders() -> impl Iterator<Item = (usize, usize)> {
    let numbers = FAULTS.map(usize::from);
    numbers.into_iter().flat_map(move |first| numbers.map(|second| (first, second))).filter(|(a, b)| a < b)
}

/// A text that is converted otherwise, and how.
#[derive(Debug)]
pub struct Difference {
    pub name: String,
    pub what: String,
    pub case: Case,
}

/// How many texts are compared in one go.
const PART: u64 = 500;

/// Compares so many valid and as many damaged texts under a seed, up to the first difference.
pub fn compare(subject: &impl Converts, seed: u64, cases: u64) -> Result<Counts, Box<Difference>> {
    let part = |k: u64| k * PART..cases.min((k + 1) * PART);
    let parts: Vec<(bool, Range<u64>)> =
        (0..cases.div_ceil(PART)).flat_map(|k| [(true, part(k)), (false, part(k))]).collect();
    let counted = parts::each(&parts, |(is_valid, part)| {
        let mut counts = Counts::default();
        for index in part.clone() {
            let (name, case) = match is_valid {
                true => (format!("valid text {index}"), valid(seed, index)),
                false => (format!("damaged text {index}"), damaged(seed, index)),
            };
            let mut rng = Rng::of_case(seed.wrapping_add(1), index);
            if let Err(what) = compare_one(subject, &mut rng, &case, &mut counts) {
                return Err(Box::new(Difference { name, what, case }));
            }
        }
        Ok(counts)
    })?;
    let mut counts = Counts::default();
    counted.iter().for_each(|one| counts.add(one));
    Ok(counts)
}

/// What a buffer holds beforehand.
const BEFORE: u8 = 0xa5;

fn compare_one(
    subject: &impl Converts,
    rng: &mut Rng,
    case: &Case,
    counts: &mut Counts,
) -> Result<(), String> {
    let (mut out, mut expected_out) = ([7; BTOR2_OUT + 1], [7; BTOR2_OUT + 1]);
    let (mut bytes, mut expected) = (vec![BEFORE; case.room], vec![BEFORE; case.room]);
    // Too few words for the answer: it must say so, and write nothing.
    let refusal = subject.btor2(&case.text, &mut bytes, &mut out[..0]);
    if refusal != TOO_SHORT || bytes != expected {
        return Err(format!("btor2 without a word for the answer is {}", shown(refusal)));
    }
    let refusal = subject.btor2(&case.text, &mut bytes, &mut out);
    let due = Model.btor2(&case.text, &mut expected, &mut expected_out);
    if (refusal, out) != (due, expected_out) {
        let (found, due) = (shown(refusal), shown(due));
        return Err(format!("btor2 answered {found} {out:?}, expected {due} {expected_out:?}"));
    }
    if bytes != expected {
        let at = bytes.iter().zip(&expected).position(|(found, due)| found != due).unwrap_or(0);
        return Err(format!("byte {at} of the problem is {}, expected {}", bytes[at], expected[at]));
    }
    see_extent(case, refusal, counts)?;
    match refusal {
        0 => compare_meaning(rng, case, &bytes[..out[0] as usize], counts),
        _ => {
            let number = (refusal & 255) as usize;
            counts.refusals[number] += 1;
            if let [first, second] = case.aims[..] {
                counts.orders[number][usize::from(second)] += u64::from(usize::from(first) == number);
            }
            Ok(())
        }
    }
}

/// A text of an extent must be converted, or refused with 5.
fn see_extent(case: &Case, refusal: u64, counts: &mut Counts) -> Result<(), String> {
    let Some(at) = Extent::ALL.iter().position(|(extent, _)| *extent == case.extent) else {
        return Ok(());
    };
    let (extent, is_converted) = Extent::ALL[at];
    let due = match (extent, is_converted) {
        (_, true) => refusal == 0,
        (Extent::NoHeader, _) => refusal == 5,
        _ => refusal & 255 == 5,
    };
    if !due {
        return Err(format!("{extent:?} is {}", shown(refusal)));
    }
    counts.extents[at] += 1;
    Ok(())
}

/// What is written must be accepted, with the inputs as its variables; and the constraints hold exactly where all roots
/// are 1: on the values that came with the text, and on others.
fn compare_meaning(rng: &mut Rng, case: &Case, bytes: &[u8], counts: &mut Counts) -> Result<(), String> {
    let accepted = crate::Library.check(bytes);
    if accepted != 0 {
        return Err(format!("what is written is refused: {}", crate::runs::refusal_shown(accepted)));
    }
    let problem = read(bytes).map_err(|refusal| format!("the model refuses what is written: {refusal:?}"))?;
    let variables: Vec<usize> = problem.variables().collect();
    let widths: Vec<u32> = variables.iter().map(|&id| problem.nodes[id].width).collect();
    if variables.iter().any(|&id| problem.nodes[id].pair.open() != ones(problem.nodes[id].width)) {
        return Err("an input has fixed bits".into());
    }
    let mut inputs: Vec<u64> = widths.iter().map(|&width| rng.value(width)).collect();
    for (place, &given) in inputs.iter_mut().zip(&case.inputs) {
        *place = given;
    }
    for (place, &width) in inputs.iter_mut().zip(&widths) {
        *place &= ones(width);
    }
    for again in 0..2 {
        if again == 1 && !inputs.is_empty() {
            let at = rng.below(inputs.len());
            inputs[at] ^= 1 << rng.below(widths[at] as usize);
        }
        let mut values = vec![0; problem.nodes.len()];
        variables.iter().zip(&inputs).for_each(|(&id, &value)| values[id] = value);
        problem.evaluate(&mut values);
        let roots = problem.roots.iter().all(|&root| values[usize::from(root)] == 1);
        let constraints = mean(&case.text, &inputs).holds();
        if roots != constraints {
            return Err(format!("inputs {inputs:?}: constraints {constraints}, roots {roots}"));
        }
        if constraints {
            counts.met += 1;
        } else {
            counts.unmet += 1;
        }
    }
    counts.converted += 1;
    counts.see_lines(&case.text);
    Ok(())
}

fn shown(refusal: u64) -> String {
    match refusal {
        0 => "converted".into(),
        refused => format!("refused {} at line {}", refused & 255, refused >> 8),
    }
}

/// Writes a text into a folder, with how many bytes were lent in its name.
pub fn write_files(case: &Case, folder: &Path) -> std::io::Result<()> {
    std::fs::create_dir_all(folder)?;
    std::fs::write(folder.join(format!("room-{}.btor", case.room)), &case.text)
}

#[cfg(test)]
mod tests {
    use super::*;
    use crate::Plain;

    #[test]
    fn every_refusal_keyword_and_extent_is_reached() {
        let counts = compare(&Model, 1, 5_000).map_err(|d| (d.name, d.what)).unwrap();
        assert!(counts.missing().is_empty(), "{:?}", counts.missing());
    }

    #[test]
    fn plain_rust_converts_alike() {
        compare(&Plain, 2, 5_000).map_err(|d| (d.name, d.what)).unwrap();
    }
}
