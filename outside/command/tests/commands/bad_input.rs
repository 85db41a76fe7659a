//! Bad input of every kind, for everything that any command reads or writes: what is said, and the status, are those of
//! `bad_input.txt`; nothing is written, and nothing left behind. What reads a file that nobody may read, or writes where nobody
//! may write, runs as a user without privileges, since root may.

use crate::at::{text, At, WALUMPEH};
use std::fs::Permissions;
use std::os::unix::fs::PermissionsExt;
use std::os::unix::process::CommandExt;
use std::path::{Path, PathBuf};
use std::process::{Command, Stdio};
use std::sync::OnceLock;

/// Lines that read a file IN, and what is wrong with the files that it stands for. A tape of any words and length is good,
/// and zeros are a start.
const READING: [(&str, &[&str]); 32] = [
    ("build IN new", TEXTS),
    ("convert IN new", TEXTS),
    ("show IN", TEXTS),
    ("show IN --dot", TEXTS),
    ("show problem.tbv --dot --answer IN", TEXTS),
    ("check IN", TEXTS),
    ("mend IN new --map more", TEXTS),
    ("need IN", TEXTS),
    ("tape IN new more", TEXTS),
    ("tape IN new more --starts 3", TEXTS),
    ("tape problem.tbv new more --to IN", TEXTS),
    ("tape problem.tbv new more --to model.txt --names IN", TEXTS),
    ("run IN", TEXTS),
    ("run problem.tbv IN", STARTS),
    ("run problem.tbv start.bin IN", WORDS),
    ("run --from IN", TEXTS),
    ("batch IN", TEXTS),
    ("batch problem.tbv IN", STARTS),
    ("batch problem.tbv starts.bin IN", TEXTS),
    ("gather IN --name 0 --vcd new --readmemh more", TEXTS),
    ("gather problem.tbv --name x --names IN --vcd new", TEXTS),
    ("solve IN --tape new --start more", TEXTS),
    ("solve problem.tbv --names IN --tape new", TEXTS),
    ("export IN", TEXTS),
    ("export IN --model --write-names new", TEXTS),
    ("export problem.tbv --answer IN", TEXTS),
    ("export problem.tbv --start IN", STARTS),
    ("export problem.tbv --model --names IN", TEXTS),
    ("model IN names.txt model.txt", TEXTS),
    ("model problem.tbv IN model.txt", TEXTS),
    ("model problem.tbv names.txt IN", TEXTS),
    ("completions IN", &["missing"]),
];

const TEXTS: &[&str] =
    &["missing", "folder", "unreadable", "empty", "garbage", "latin", "large", "/dev/zero"];
const STARTS: &[&str] = &["missing", "folder", "unreadable", "empty", "garbage", "latin", "large"];
const WORDS: &[&str] = &["missing", "folder", "unreadable"];

/// Lines that write a file OUT, and what is wrong with the places that it stands for.
const WRITING: [(&str, &[&str]); 19] = [
    ("build sum.txt OUT", PLACES),
    ("build sum.txt new --names OUT", PLACES),
    ("convert sum.btor OUT", PLACES),
    ("convert sum.btor new --names OUT", PLACES),
    ("mend problem.tbv OUT", PLACES),
    ("mend problem.tbv new --map OUT", PLACES),
    ("tape problem.tbv OUT new", PLACES),
    ("tape problem.tbv new OUT", PLACES),
    ("tape problem.tbv OUT new --starts 3", PLACES),
    ("tape problem.tbv new OUT --starts 3", PLACES),
    ("tape problem.tbv OUT new --to model.txt --names names.txt", PLACES),
    ("tape problem.tbv new OUT --to model.txt --names names.txt", PLACES),
    ("batch --values OUT", PLACES),
    ("gather sum.txt --name x --vcd OUT --readmemh new", PLACES),
    ("gather sum.txt --name x --vcd new --readmemh OUT", PLACES),
    ("solve sum.txt --tape OUT --start new", PLACES),
    ("solve sum.txt --tape new --start OUT", PLACES),
    ("export problem.tbv --model --write-names OUT", PLACES),
    ("example OUT", &["no/such", "read-only", "unwritable"]),
];

const PLACES: &[&str] = &["folder", "no/such", "read-only", "/dev/full", "unwritable/new"];

/// A folder that everybody may look into, with a program that everybody may run: the repository need not be one.
struct Open {
    at: At,
    program: PathBuf,
}

impl Open {
    fn new() -> Open {
        let folder = std::env::temp_dir().join(format!("walumpeh-bad-input-{}", std::process::id()));
        let (files, program) = (folder.join("files"), folder.join("walumpeh"));
        std::fs::create_dir_all(&files).unwrap();
        std::fs::copy(WALUMPEH, &program).unwrap();
        for (path, mode) in [(&folder, 0o755), (&files, 0o777), (&program, 0o755)] {
            std::fs::set_permissions(path, Permissions::from_mode(mode)).unwrap();
        }
        let open = Open { at: At { folder: files }, program };
        open.fill();
        open
    }

    /// Good files, and all bad ones.
    fn fill(&self) {
        let at = &self.at;
        at.prints("example", "");
        at.prints("tape problem.tbv starts.bin tapes.bin --starts 2", "");
        at.write("names.txt", "x\n");
        at.write("model.txt", "((define-fun x () (_ BitVec 4) #xb))\n");
        at.write("sum.txt", "x = var 5\ny = var 5\ns = add x y\nk = const 5 20\nok = eq s k\nroot ok\n");
        at.write("sum.btor", "1 sort bitvec 4\n2 input 1 a\n3 sort bitvec 1\n4 eq 3 2 2\n5 constraint 4\n");
        at.write("empty", "");
        at.write("garbage", (0..200u8).map(|at| at.wrapping_mul(97) ^ 0x1b).collect::<Vec<_>>());
        at.write("latin", b"x = var 4\n# caf\xe9\n");
        at.write("large", at.read("problem.tbv"));
        std::fs::OpenOptions::new().write(true).open(at.path("large")).unwrap().set_len(1 << 25).unwrap();
        at.write("unreadable", at.read("problem.tbv"));
        at.write("read-only", "old");
        std::fs::create_dir(at.path("folder")).unwrap();
        std::fs::create_dir(at.path("unwritable")).unwrap();
        for (name, mode) in [("unreadable", 0), ("read-only", 0o444), ("unwritable", 0o555)] {
            std::fs::set_permissions(at.path(name), Permissions::from_mode(mode)).unwrap();
        }
    }

    /// What a line ends with: its status, and the first line of what it prints and of what it says.
    fn said(&self, line: &str, unprivileged: bool) -> String {
        let mut command = Command::new(&self.program);
        command.args(line.split(' ')).current_dir(&self.at.folder).stdin(Stdio::null());
        // SAFETY: the call takes nothing and cannot fail.
        if unprivileged && unsafe { libc::geteuid() } == 0 {
            command.uid(NOBODY).gid(NOBODY);
        }
        let output = command.output().unwrap();
        let (printed, said) = (text(&output.stdout), text(&output.stderr));
        let first = |text: &str| text.lines().next().unwrap_or("").to_string();
        assert!(!said.contains("panicked"), "{line}: {said}");
        let status = output.status.code().expect("no signal ends it");
        assert_ne!(status, 0, "{line}");
        assert!(!(said.is_empty() && printed.is_empty()), "{line}: nothing is said");
        [status.to_string(), first(&printed), first(&said)]
            .into_iter()
            .filter(|part| !part.is_empty())
            .collect::<Vec<_>>()
            .join(" | ")
    }

    /// All names with sizes: contents are too large to be kept for each line.
    fn sizes(&self) -> Vec<(PathBuf, u64)> {
        let of = |folder: &Path| {
            let entries = std::fs::read_dir(folder).unwrap();
            entries
                .map(|entry| entry.unwrap().path())
                .map(|path| (path.clone(), path.metadata().unwrap().len()))
                .collect()
        };
        let folders = ["", "folder", "unwritable"].map(|name| self.at.path(name));
        let mut sizes: Vec<(PathBuf, u64)> =
            folders.iter().flat_map(|folder| -> Vec<_> { of(folder) }).collect();
        sizes.sort();
        sizes
    }
}

const NOBODY: u32 = 65534;

/// Whether a program can be run without privileges: where root is the only user that there is, as in some containers, not.
fn can_be_nobody() -> bool {
    static CAN: OnceLock<bool> = OnceLock::new();
    // SAFETY: the call takes nothing and cannot fail.
    let is_root = unsafe { libc::geteuid() } == 0;
    !is_root || *CAN.get_or_init(|| Command::new("true").uid(NOBODY).gid(NOBODY).status().is_ok())
}

impl Drop for Open {
    fn drop(&mut self) {
        let _ = std::fs::remove_dir_all(self.at.folder.parent().expect("it has one"));
    }
}

/// Runs a line for each bad file in the place of a word, and tells what is said.
fn told(open: &Open, line: &str, word: &str, bad: &[&str]) -> String {
    let mut rows = format!("{line}\n");
    for name in bad.iter().filter(|name| can_be_nobody() || !name.starts_with("un")) {
        let before = open.sizes();
        let line =
            line.split(' ').map(|part| if part == word { name } else { part }).collect::<Vec<_>>().join(" ");
        let said = open.said(&line, name.starts_with("un"));
        assert_eq!(open.sizes(), before, "{line} wrote");
        rows += &format!("    {name}: {said}\n");
    }
    rows
}

#[test]
fn bad_input_of_every_kind_is_told() {
    let open = Open::new();
    let reading: String = READING.iter().map(|(line, bad)| told(&open, line, "IN", bad)).collect();
    let writing: String = WRITING.iter().map(|(line, bad)| told(&open, line, "OUT", bad)).collect();
    let found = reading + &writing;
    let known =
        include_str!("bad_input.txt").lines().filter(|row| can_be_nobody() || !row.starts_with("    un"));
    let expected: String = known.flat_map(|row| [row, "\n"]).collect();
    if found != expected {
        let at = At::new("bad-input");
        at.write("bad_input.txt", &found);
        let differing = found.lines().zip(expected.lines()).find(|(one, other)| one != other);
        panic!(
            "not as in bad_input.txt; first {differing:?}; all of it is in {}",
            at.path("bad_input.txt").display()
        );
    }
}

/// Every command that reads or writes a file is in the tables.
#[test]
fn every_command_is_tried() {
    let tried = |command: &&str| {
        let first = |line: &str| line.split(' ').next() == Some(command);
        READING.iter().any(|(line, _)| first(line)) || WRITING.iter().any(|(line, _)| first(line))
    };
    let left: Vec<&str> = crate::help::COMMANDS.into_iter().filter(|command| !tried(command)).collect();
    assert_eq!(left, ["man"]);
}
