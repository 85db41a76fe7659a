//! What `tvrun` prints, whole: the program is run in a folder with the three files, some of them
//! missing, cut short or with spare bytes.

use generate::case::case;
use generate::Rng;
use model::files::{bytes_of, printed, tape_file};
use std::path::Path;
use std::process::Command;

const NAMES: [&str; 3] = ["problem.tbv", "start.bin", "tape.bin"];

/// Compares `cases` runs of a program in a folder; gives how many printed a verdict.
pub fn compare(program: &Path, folder: &Path, seed: u64, cases: u64) -> Result<u64, String> {
    let mut verdicts = 0;
    for index in 0..cases {
        let rng = &mut Rng::of_case(!seed, index);
        let files = files(rng, seed, index);
        write(folder, &files).map_err(|fault| format!("{}: {fault}", folder.display()))?;
        let output = Command::new(program)
            .current_dir(folder)
            .output()
            .map_err(|fault| format!("{}: {fault}", program.display()))?;
        let [problem, start, tape] = files.each_ref().map(|file| file.as_deref().unwrap_or_default());
        let expected = printed(problem, start, tape);
        let found = String::from_utf8_lossy(&output.stdout);
        if found != expected || !output.status.success() || !output.stderr.is_empty() {
            let status = output.status;
            return Err(format!("case {index}: {status}, printed:\n{found}expected:\n{expected}"));
        }
        verdicts += u64::from(expected.starts_with("verdict"));
    }
    Ok(verdicts)
}

/// The three files of a case; none where one is missing.
fn files(rng: &mut Rng, seed: u64, index: u64) -> [Option<Vec<u8>>; 3] {
    let case = case(seed, index);
    let contents = [case.problem, bytes_of(&case.values), tape_file(case.budget, &case.tape)];
    let mut place = 0;
    contents.map(|mut bytes| {
        place += 1;
        if place > 1 && rng.chance(20) {
            let spare = rng.between(1, 7);
            bytes.extend((0..spare).map(|_| 0xff));
        }
        (!rng.chance(5)).then_some(bytes)
    })
}

fn write(folder: &Path, files: &[Option<Vec<u8>>; 3]) -> std::io::Result<()> {
    std::fs::create_dir_all(folder)?;
    for (name, file) in NAMES.iter().zip(files) {
        let path = folder.join(name);
        match file {
            Some(bytes) => std::fs::write(path, bytes)?,
            None if path.exists() => std::fs::remove_file(path)?,
            None => {}
        }
    }
    Ok(())
}
