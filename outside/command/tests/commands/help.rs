//! Help, version, and lines that are not understood.

use crate::at::{text, At, WALUMPEH};
use std::process::Command;

pub const COMMANDS: [&str; 16] = [
    "build",
    "convert",
    "show",
    "check",
    "mend",
    "need",
    "tape",
    "run",
    "batch",
    "gather",
    "solve",
    "export",
    "model",
    "example",
    "completions",
    "man",
];

#[test]
fn help_names_every_command() {
    let at = At::new("help");
    let help = at.printed("--help");
    assert_eq!(at.printed("-h"), help);
    for command in COMMANDS {
        assert!(help.lines().any(|line| line.trim_start().starts_with(command)), "{command}: {help}");
    }
    assert!(help.contains("Exit status"), "{help}");
}

#[test]
fn every_command_has_help() {
    let at = At::new("helps");
    for command in COMMANDS {
        for asked in ["--help", "-h"] {
            let help = at.printed(&format!("{command} {asked}"));
            assert!(help.contains(&format!("Usage: walumpeh {command}")), "{help}");
        }
        assert!(at.printed(&format!("help {command}")).contains(&format!("Usage: walumpeh {command}")));
    }
    for (command, words) in [
        ("build", ["--rootless", "root ok"]),
        ("mend", ["--map <FILE>", "byte for byte"]),
        ("convert", ["--names <FILE>", "IN:LINE: refused NUMBER"]),
        ("need", ["--budget <BUDGET>", "longest chain H"]),
        ("tape", ["--starts <K>", "[default: 95]"]),
        ("gather", ["--name <X>", "kept K repeats R unkept U"]),
        ("batch", ["--only <K>", "starts K model M spent S"]),
        ("run", ["--from <ANSWER>", "3 spent, 4 ended, 5 closed"]),
        ("export", ["--answer <FILE>", "--pin <ID=VALUE>"]),
        ("model", ["<NAMES>", "0 yes; 1 no; 2 nothing was judged"]),
        ("show", ["--dot", "<=="]),
        ("example", ["[default: .]", "0 11"]),
    ] {
        let help = at.printed(&format!("{command} --help"));
        assert!(words.iter().all(|word| help.contains(word)), "{help}");
    }
}

/// The help of every command has an example, and each example runs as it stands.
#[test]
fn every_example_in_help_runs() {
    let at = At::example("help-examples");
    let top = std::path::Path::new(env!("CARGO_MANIFEST_DIR")).join("../..");
    for (name, from) in [
        ("sum.txt", "outside/tour/sum.txt"),
        ("shuffled.tbv", "outside/tour/shuffled.tbv"),
        ("frame.btor", "examples/btor2/frame.btor"),
    ] {
        std::fs::copy(top.join(from), at.path(name)).unwrap();
    }
    let folder = std::path::Path::new(WALUMPEH).parent().unwrap().display();
    for command in COMMANDS {
        // Each finds the files as they were.
        at.prints("example", "");
        at.write("names.txt", "x\n");
        at.write("answer.txt", "sat\n((define-fun x () (_ BitVec 4) #xb))\n");
        let help = at.printed(&format!("{command} --help"));
        let examples = help.split_once("Example:\n").map(|(_, rest)| rest.lines()).into_iter().flatten();
        let examples: Vec<&str> =
            examples.map_while(|line| line.strip_prefix("    ")).filter(|line| !line.is_empty()).collect();
        assert!(examples.iter().any(|line| line.contains(&format!("walumpeh {command}"))), "{help}");
        for line in examples {
            let script = format!("PATH={folder}:$PATH; set -e; {line}");
            let output = Command::new("bash").args(["-c", &script]).current_dir(&at.folder).output().unwrap();
            let status = output.status.code();
            // Of solve 10 says that there is a model.
            assert!(matches!(status, Some(0 | 10)), "{line}: {status:?} {}", text(&output.stderr));
            assert!(output.stderr.is_empty(), "{line}: {}", text(&output.stderr));
        }
    }
}

/// Every name that stands for several nodes, with these nodes.
#[test]
fn help_and_readme_have_all_sugar() {
    let help = At::new("sugar").printed("build --help");
    let readme = include_str!("../../../README.md");
    let named = text::sugar::ALL.iter().map(|sugar| (sugar.name, sugar.nodes));
    for (name, nodes) in named.chain([("zext", text::sugar::ZEXT)]) {
        let mut lines = help.lines().map(str::trim_start);
        assert!(
            lines.any(|line| line.starts_with(&format!("{name} ")) && line.contains(nodes)),
            "{name}: {help}"
        );
        let mut rows = readme.lines();
        assert!(rows.any(|row| row.starts_with(&format!("| `{name} ")) && row.contains(nodes)), "{name}");
    }
}

#[test]
fn the_version_is_said() {
    let at = At::new("version");
    let version = at.printed("--version");
    assert!(version.starts_with(concat!("walumpeh ", env!("CARGO_PKG_VERSION"), " (")), "{version}");
    at.prints("-V", &version);
    at.prints("tape --version", &version.replace("walumpeh", "walumpeh-tape"));
}

/// The commit that is checked out, where there is one.
#[test]
fn the_version_names_the_commit() {
    let at = At::new("commit");
    let said = std::process::Command::new("git").args(["rev-parse", "--short=12", "HEAD"]).output();
    let Some(said) = said.ok().filter(|said| said.status.success()) else {
        return;
    };
    let commit = String::from_utf8(said.stdout).unwrap();
    let version = at.printed("--version");
    assert!(version.contains(commit.trim()), "{version}: not {commit}");
    assert_eq!(version.contains("unproved"), !walumpeh::PROVED);
}

#[test]
fn completions_and_manual_name_every_command() {
    let at = At::new("completions");
    let page = at.printed("man");
    assert!(page.starts_with(".TH WALUMPEH 1 "), "{page}");
    for command in COMMANDS {
        assert!(page.contains(&format!(".SH {}\n", command.to_uppercase())), "{command}");
        for shell in ["bash", "zsh", "fish"] {
            assert!(at.printed(&format!("completions {shell}")).contains(command), "{shell}: {command}");
        }
    }
    at.misunderstood("completions nonsense", &["nonsense", "bash"]);
    at.misunderstood("completions", &["<SHELL>"]);
}

#[test]
fn lines_that_are_not_understood() {
    let at = At::example("lines");
    at.misunderstood("", &["Usage: walumpeh <COMMAND>", "build"]);
    at.misunderstood("nonsense", &["nonsense"]);
    at.misunderstood("show", &["<PROBLEM>"]);
    at.misunderstood("show problem.tbv --nonsense", &["--nonsense"]);
    at.misunderstood("show problem.tbv more", &["more"]);
    at.misunderstood("build only.txt", &["<PROBLEM>"]);
    at.misunderstood("tape problem.tbv --inverse 101", &["--inverse", "101", "0..=100"]);
    at.misunderstood("tape problem.tbv --budget 65536", &["--budget", "65536"]);
    at.misunderstood("tape problem.tbv --seed=-1", &["--seed", "-1"]);
    at.misunderstood("tape problem.tbv --seed", &["--seed"]);
    at.misunderstood("tape problem.tbv --seed 1 --seed 2", &["--seed"]);
    at.misunderstood("export problem.tbv --pin 0", &["--pin", "not ID=VALUE"]);
    at.misunderstood("export problem.tbv --pin 0=+1", &["--pin", "not ID=VALUE"]);
}
