//! A folder of its own for a test, and the command run in it.

use std::ffi::OsStr;
use std::path::{Path, PathBuf};
use std::process::{Command, Output, Stdio};

pub const WALUMPEH: &str = env!("CARGO_BIN_EXE_walumpeh");

pub struct At {
    pub folder: PathBuf,
}

impl At {
    /// An empty folder.
    pub fn new(name: &str) -> At {
        let folder = Path::new(env!("CARGO_TARGET_TMPDIR")).join(name);
        let _ = std::fs::remove_dir_all(&folder);
        std::fs::create_dir_all(&folder).unwrap();
        At { folder }
    }

    /// A folder with the worked example's three files.
    pub fn example(name: &str) -> At {
        let at = At::new(name);
        at.prints("example", "");
        at
    }

    pub fn path(&self, name: impl AsRef<OsStr>) -> PathBuf {
        self.folder.join(name.as_ref())
    }

    pub fn read(&self, name: &str) -> Vec<u8> {
        std::fs::read(self.path(name)).unwrap()
    }

    pub fn write(&self, name: &str, bytes: impl AsRef<[u8]>) {
        std::fs::write(self.path(name), bytes).unwrap();
    }

    /// The command with words that have no blanks.
    pub fn command(&self, line: &str) -> Command {
        let mut command = Command::new(WALUMPEH);
        command.args(line.split_whitespace()).current_dir(&self.folder).stdin(Stdio::null());
        command
    }

    pub fn run(&self, line: &str) -> Output {
        self.command(line).output().unwrap()
    }

    /// Runs a command that must succeed, say nothing on standard error and print this.
    #[track_caller]
    pub fn prints(&self, line: &str, expected: &str) {
        assert_eq!(self.printed(line), expected, "{line}");
    }

    /// What a command prints that must succeed and say nothing on standard error.
    #[track_caller]
    pub fn printed(&self, line: &str) -> String {
        let output = self.run(line);
        let message = String::from_utf8_lossy(&output.stderr);
        assert!(output.status.success() && message.is_empty(), "{line}: {message}");
        String::from_utf8(output.stdout).unwrap()
    }

    /// Runs a command that must end with status 1, print nothing, say exactly this, and write nothing.
    #[track_caller]
    pub fn fails(&self, line: &str, message: &str) {
        let before = self.listing();
        let output = self.run(line);
        assert_eq!(text(&output.stderr), format!("walumpeh: {message}\n"), "{line}");
        assert_eq!(output.status.code(), Some(1), "{line}");
        assert_eq!(text(&output.stdout), "", "{line}");
        assert_eq!(self.listing(), before, "{line} wrote");
    }

    /// Runs a command whose line must not be understood: status 2, a message with these words, and
    /// nothing written.
    #[track_caller]
    pub fn misunderstood(&self, line: &str, words: &[&str]) {
        let before = self.listing();
        let output = self.run(line);
        let message = text(&output.stderr);
        assert!(words.iter().all(|word| message.contains(word)), "{line}: {message}");
        assert_eq!(output.status.code(), Some(2), "{line}");
        assert_eq!(text(&output.stdout), "", "{line}");
        assert_eq!(self.listing(), before, "{line} wrote");
    }

    /// The names and contents of all files.
    pub fn listing(&self) -> Vec<(PathBuf, Option<Vec<u8>>)> {
        let content = |path: PathBuf| {
            let regular = path.symlink_metadata().is_ok_and(|file| file.is_file());
            (path.clone(), regular.then(|| std::fs::read(path).ok()).flatten())
        };
        let entries = std::fs::read_dir(&self.folder).unwrap();
        let mut files: Vec<_> = entries.map(|entry| content(entry.unwrap().path())).collect();
        files.sort();
        files
    }
}

/// Links go when a test ends, however it ends: `rt ci` refuses a repository that has one.
impl Drop for At {
    fn drop(&mut self) {
        for entry in std::fs::read_dir(&self.folder).into_iter().flatten().flatten() {
            if entry.path().is_symlink() {
                let _ = std::fs::remove_file(entry.path());
            }
        }
    }
}

pub fn text(bytes: &[u8]) -> String {
    String::from_utf8(bytes.to_vec()).unwrap()
}
