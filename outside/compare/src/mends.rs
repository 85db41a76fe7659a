//! The mender: files whose nodes stand in any order, with every refusal counted; all lent places are compared, and
//! the values of what is mended must solve the file as it stood.

use crate::parts;
use crate::runs::refusal_shown;
use crate::subject::{Mender, Model};
use generate::shuffled::{shuffled, Shuffled, FAULTS};
use generate::{solved, Rng};
use model::mended::holds;
use model::problem::read;
use std::ops::Range;
use std::path::Path;

/// One more than the greatest refusal.
const NUMBERS: usize = 26;

/// What was reached.
#[derive(Clone, Debug, Default)]
pub struct Counts {
    /// Files that came back byte for byte, and files that were put in order.
    pub same: u64,
    pub moved: u64,
    pub refusals: [u64; NUMBERS],
    /// Refusals 10 to 12 of a node whose place in the mended file is another.
    pub told_by_old_id: u64,
    /// Nodes of what was mended, whose values solve the file as it stood.
    pub nodes: u64,
}

impl Counts {
    /// What was never reached, by name.
    pub fn missing(&self) -> Vec<String> {
        let counts = [("a file in order", self.same), ("a file out of order", self.moved)];
        let others = [("a refusal by old id", self.told_by_old_id)];
        let named = counts.into_iter().chain(others).filter(|(_, count)| *count == 0);
        let refusals = FAULTS.iter().filter(|&&number| self.refusals[usize::from(number)] == 0);
        named
            .map(|(name, _)| name.to_string())
            .chain(refusals.map(|number| format!("refusal {number}")))
            .collect()
    }

    fn add(&mut self, other: &Counts) {
        self.same += other.same;
        self.moved += other.moved;
        self.refusals.iter_mut().zip(other.refusals).for_each(|(to, from)| *to += from);
        self.told_by_old_id += other.told_by_old_id;
        self.nodes += other.nodes;
    }
}

/// A file that is mended otherwise, and how.
#[derive(Debug)]
pub struct Difference {
    pub index: u64,
    pub what: String,
    pub file: Shuffled,
}

/// How many files are compared in one go.
const PART: u64 = 500;

/// Compares files 0 to `cases` - 1 under a seed, up to the first difference.
pub fn compare(subject: &impl Mender, seed: u64, cases: u64) -> Result<Counts, Box<Difference>> {
    let parts: Vec<Range<u64>> =
        (0..cases.div_ceil(PART)).map(|k| k * PART..cases.min((k + 1) * PART)).collect();
    let counted = parts::each(&parts, |part| {
        let mut counts = Counts::default();
        for index in part.clone() {
            let file = shuffled(seed, index);
            let mut rng = Rng::of_case(!seed, index);
            if let Err(what) = compare_one(subject, &mut rng, &file, &mut counts) {
                return Err(Box::new(Difference { index, what, file }));
            }
        }
        Ok(counts)
    })?;
    let mut counts = Counts::default();
    counted.iter().for_each(|one| counts.add(one));
    Ok(counts)
}

/// What a call answers and leaves in places that held a mark.
fn answered(subject: &impl Mender, file: &Shuffled) -> (u64, Vec<u8>, Vec<u16>) {
    let (mut mended, mut map) = (vec![0xa5; file.room], vec![0xa5a5; file.rows]);
    let refusal = subject.mend(&file.problem, &mut mended, &mut map);
    (refusal, mended, map)
}

fn compare_one(
    subject: &impl Mender,
    rng: &mut Rng,
    file: &Shuffled,
    counts: &mut Counts,
) -> Result<(), String> {
    let (refusal, mended, map) = answered(subject, file);
    let due = answered(&Model, file);
    if refusal != due.0 {
        return Err(format!("mend answered {}, expected {}", refusal_shown(refusal), refusal_shown(due.0)));
    }
    if let Some(at) = (0..mended.len()).find(|&at| mended[at] != due.1[at]) {
        return Err(format!("byte {at} of the mended file is {}, expected {}", mended[at], due.1[at]));
    }
    if let Some(at) = (0..map.len()).find(|&at| map[at] != due.2[at]) {
        return Err(format!("entry {at} of the map is {}, expected {}", map[at], due.2[at]));
    }
    match (refusal & 255) as usize {
        0 => solved_alike(rng, file, &mended, &map, counts),
        number => {
            counts.refusals[number] += 1;
            counts.told_by_old_id += u64::from((10..=12).contains(&number) && old_differs(file, refusal));
            Ok(())
        }
    }
}

/// Whether the place of 10 to 12 is not the one that the problem check names, which goes by the order of the file.
fn old_differs(file: &Shuffled, refusal: u64) -> bool {
    model::calls::check(&file.problem) != refusal
}

/// Values of the mended file, under any values of its variables, solve the file as it stood: each old node's value is
/// that of its new id. A file in order came back as it was.
fn solved_alike(
    rng: &mut Rng,
    file: &Shuffled,
    mended: &[u8],
    map: &[u16],
    counts: &mut Counts,
) -> Result<(), String> {
    let problem =
        read(&mended[..file.problem.len()]).map_err(|_| "the mended file is refused".to_string())?;
    let mut values = solved::values(rng, &problem);
    problem.evaluate(&mut values);
    let mut old = vec![0; values.len()];
    for (&id, &value) in map.iter().zip(&values) {
        old[usize::from(id)] = value;
    }
    if !holds(&file.problem, &old) {
        return Err("the mended file's values do not solve the file".into());
    }
    counts.nodes += values.len() as u64;
    match read(&file.problem) {
        Ok(_) if mended[..file.problem.len()] != file.problem => {
            return Err("a file in order was changed".into())
        }
        Ok(_) => counts.same += 1,
        Err(_) => counts.moved += 1,
    }
    Ok(())
}

/// Writes a file into a folder, as `walumpeh mend` takes it.
pub fn write_files(file: &Shuffled, folder: &Path) -> std::io::Result<()> {
    std::fs::create_dir_all(folder)?;
    std::fs::write(folder.join("problem.tbv"), &file.problem)
}

#[cfg(test)]
mod tests {
    use super::*;

    #[test]
    fn every_refusal_is_reached() {
        let counts = compare(&Model, 1, 5000).map_err(|d| d.what).unwrap();
        assert!(counts.missing().is_empty(), "{:?}", counts.missing());
    }
}
