//! The problems of bench/verilog: every one is read, and every one that has a model is solved.

use crate::at::{text, At};
use std::path::{Path, PathBuf};

/// The BTOR2 files of a half.
fn problems(half: &str) -> Vec<PathBuf> {
    let folder = Path::new(env!("CARGO_MANIFEST_DIR")).join("../../bench/verilog").join(half);
    let paths = std::fs::read_dir(folder).unwrap().map(|entry| entry.unwrap().path());
    paths.filter(|path| path.extension().is_some_and(|extension| extension == "btor2")).collect()
}

#[test]
fn problems_made_from_verilog_are_solved() {
    let at = At::new("verilog");
    let problems = [problems("choose"), problems("measure")].concat();
    assert_eq!(problems.len(), 49);
    for path in problems {
        let is_unsat = path.file_name().unwrap().to_string_lossy().starts_with("unsat");
        let (limit, status) = if is_unsat { ("--runs 2", 0) } else { ("--time 300", 10) };
        let output = at.command(&format!("solve {limit}")).arg(&path).output().unwrap();
        let said = text(&output.stderr);
        assert_eq!((output.status.code(), said.as_str()), (Some(status), ""), "{}", path.display());
    }
}
