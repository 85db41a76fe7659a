//! Makes wrong builds of the library: copies of its archive in which one operator of the evaluation is
//! another one. No archive is made of what is not proved, so the compiled code is changed instead. The
//! script `caught` then shows that the comparison finds each.

use clap::Parser;
use std::ops::Range;
use std::path::{Path, PathBuf};
use std::process::ExitCode;

/// Write a copy of the library's archive for each place of an operator that is changed in the compiled evaluation
///
/// a below b, with signs or without, to a at most b; xor to or.
#[derive(Parser)]
#[command(name = "wrong")]
struct Line {
    archive: PathBuf,
    /// Where the copies are written to
    folder: PathBuf,
}

/// An operator's instruction: what its first byte may be, its second, and the byte that takes its place.
struct Change {
    name: &'static str,
    first: std::ops::RangeInclusive<u8>,
    second: u8,
    wrong: u8,
}

impl Change {
    fn is_at(&self, code: &[u8], place: usize) -> bool {
        self.first.contains(&code[place]) && code.get(place + 1) == Some(&self.second)
    }
}

/// setb and setbe; xor and or of 64 bits, from a register and from memory.
const CHANGES: [Change; 3] = [
    Change { name: "below-as-at-most", first: 0x0f..=0x0f, second: 0x92, wrong: 0x96 },
    Change { name: "xor-as-or", first: 0x48..=0x4f, second: 0x31, wrong: 0x09 },
    Change { name: "xor-as-or", first: 0x48..=0x4f, second: 0x33, wrong: 0x0b },
];

fn main() -> ExitCode {
    let line = Line::parse();
    match wrong_builds(&line.archive, &line.folder) {
        Ok(0) => {
            eprintln!("wrong: the evaluation has none of the instructions that are changed");
            ExitCode::FAILURE
        }
        Ok(_) => ExitCode::SUCCESS,
        Err(fault) => {
            eprintln!("wrong: {fault}");
            ExitCode::FAILURE
        }
    }
}

/// Writes the copies; gives how many there are.
fn wrong_builds(archive: &Path, folder: &Path) -> Result<usize, String> {
    let at = |path: &Path, fault: std::io::Error| format!("{}: {fault}", path.display());
    let bytes = std::fs::read(archive).map_err(|fault| at(archive, fault))?;
    let code =
        evaluation(&bytes).ok_or(format!("{}: no section has the evaluation's code", archive.display()))?;
    std::fs::create_dir_all(folder).map_err(|fault| at(folder, fault))?;
    let mut written = 0;
    for change in &CHANGES {
        for place in code.iter().cloned().flatten().filter(|&place| change.is_at(&bytes, place)) {
            written += 1;
            let mut wrong = bytes.clone();
            wrong[place + 1] = change.wrong;
            let file = folder.join(format!("lib{}-{written}.a", change.name));
            std::fs::write(&file, wrong).map_err(|fault| at(&file, fault))?;
            println!("{}", file.display());
        }
    }
    Ok(written)
}

/// Where the archive has the compiled evaluation: the sections of its object files that are named after
/// the functions which compute a node's value.
fn evaluation(archive: &[u8]) -> Option<Vec<Range<usize>>> {
    let mut found = Vec::new();
    let mut at = 8; // past the archive's mark
    while let Some(header) = archive.get(at..at + 60) {
        let size: usize = std::str::from_utf8(&header[48..58]).ok()?.trim().parse().ok()?;
        let member = archive.get(at + 60..at + 60 + size)?;
        if member.starts_with(b"\x7fELF") {
            found.extend(code_of(member)?.into_iter().map(|r| at + 60 + r.start..at + 60 + r.end));
        }
        at += 60 + size + size % 2;
    }
    (!found.is_empty()).then_some(found)
}

/// The sections of an object file (64-bit ELF) that have the evaluation's code.
fn code_of(object: &[u8]) -> Option<Vec<Range<usize>>> {
    let number = |at: usize, bytes: usize| {
        let field = object.get(at..at + bytes)?;
        Some(field.iter().rev().fold(0, |n, &byte| n << 8 | usize::from(byte)))
    };
    let (sections, entry, count, names) =
        (number(0x28, 8)?, number(0x3a, 2)?, number(0x3c, 2)?, number(0x3e, 2)?);
    let strings = number(sections + names * entry + 0x18, 8)?;
    let mut found = Vec::new();
    for section in (0..count).map(|i| sections + i * entry) {
        let name = object.get(strings + number(section, 4)?..)?.split(|&byte| byte == 0).next()?;
        let name = String::from_utf8_lossy(name);
        if name.starts_with(".text")
            && ["evaluation::pass", "evaluate", "meaning"].iter().any(|part| name.contains(part))
        {
            let start = number(section + 0x18, 8)?;
            found.push(start..start + number(section + 0x20, 8)?);
        }
    }
    Some(found)
}
