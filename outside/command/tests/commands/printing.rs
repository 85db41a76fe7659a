//! A standard output that is closed, full, or no longer read.

use crate::at::{text, At, WALUMPEH};
use std::process::{Command, Output};

const PRINTING: [&str; 19] = [
    "show problem.tbv",
    "show problem.tbv --dot --answer answer.txt",
    "check problem.tbv",
    "need problem.tbv",
    "run",
    "run --from answer.txt",
    "batch",
    "tape problem.tbv --to answer.txt",
    "gather problem.tbv --name 0",
    "gather problem.tbv --name 0 --json --vcd new.vcd",
    "gather problem.tbv --name 0 --readmemh -",
    "solve problem.tbv",
    "export problem.tbv",
    "export problem.tbv --model",
    "build sum.txt -",
    "completions bash",
    "man",
    "--help",
    "tape --help",
];

/// A folder with all that these read.
fn folder(name: &str) -> At {
    let at = At::example(name);
    at.prints("tape problem.tbv --starts 2", "");
    at.write("answer.txt", at.printed("run"));
    at.write("sum.txt", "x = var 4\ny = not x\nok = below x y\nroot ok\n");
    at
}

/// The command with its standard output sent elsewhere by a shell.
fn sent(at: &At, line: &str, to: &str) -> Output {
    let script = format!("'{WALUMPEH}' {line} {to}");
    Command::new("sh").args(["-c", &script]).current_dir(&at.folder).output().unwrap()
}

#[test]
fn a_closed_standard_output_is_noticed() {
    let at = folder("closed");
    for line in PRINTING {
        let output = sent(&at, line, ">&-");
        let found = (output.status.code(), text(&output.stderr));
        assert_eq!(found, (Some(1), "walumpeh: standard output: closed\n".into()), "{line}");
    }
    assert!(!at.path("new.vcd").exists());
    let quiet = sent(&at, "tape problem.tbv", ">&-");
    assert_eq!((quiet.status.code(), text(&quiet.stderr).as_str()), (Some(0), ""));
}

/// Of `model` 1 says no: what cannot be printed has another status.
#[test]
fn a_judgement_that_cannot_be_printed_is_none() {
    let at = At::example("unjudged");
    at.write("names.txt", "x\n");
    for answer in ["((define-fun x () (_ BitVec 4) #xb))", "((define-fun x () (_ BitVec 4) #x0))", "()"] {
        at.write("answer.txt", answer);
        let output = sent(&at, "model problem.tbv names.txt answer.txt", ">&-");
        let found = (output.status.code(), text(&output.stderr));
        assert_eq!(found, (Some(2), "walumpeh: standard output: closed\n".into()), "{answer}");
    }
}

#[test]
fn an_output_that_nobody_reads_ends_quietly() {
    let at = folder("unread");
    for line in PRINTING {
        // The reader is gone before the command starts; what it says and its status come by files.
        let to = "2>said; echo $? >status; } | true";
        let script = format!("{{ sleep 0.2; '{WALUMPEH}' {line} {to}");
        Command::new("sh").args(["-c", &script]).current_dir(&at.folder).status().unwrap();
        let found = (text(&at.read("status")), text(&at.read("said")));
        assert_eq!(found, ("1\n".into(), String::new()), "{line}");
    }
}

#[test]
fn faults_that_nobody_reads_keep_their_status() {
    let at = At::example("unsaid");
    for (line, status) in [("check none", "1\n"), ("nonsense", "2\n")] {
        let script = format!("{{ sleep 0.2; '{WALUMPEH}' {line} 2>&1; echo $? >status; }} | true");
        Command::new("sh").args(["-c", &script]).current_dir(&at.folder).status().unwrap();
        assert_eq!(text(&at.read("status")), status, "{line}");
    }
}

#[test]
fn a_full_output_is_told() {
    let at = folder("full");
    for line in PRINTING {
        let output = sent(&at, line, ">/dev/full");
        let found = (output.status.code(), text(&output.stderr));
        let said = "walumpeh: standard output: No space left on device (os error 28)\n";
        assert_eq!(found, (Some(1), said.into()), "{line}");
    }
}
