//! What cannot be read or makes no sense.

use crate::at::{text, At};
use std::ffi::OsStr;
use std::os::unix::ffi::OsStrExt;

#[test]
fn missing_files_are_named() {
    let at = At::example("missing");
    let missing = "No such file or directory (os error 2)";
    for line in [
        "show none",
        "check none",
        "need none",
        "tape none",
        "export none",
        "run none",
        "build none new.tbv",
        "convert none new.tbv",
    ] {
        at.fails(line, &format!("none: {missing}"));
    }
    at.fails("run problem.tbv none", &format!("none: {missing}"));
    at.fails("run problem.tbv start.bin none", &format!("none: {missing}"));
    at.fails("export problem.tbv --answer none", &format!("none: {missing}"));
    at.fails("show .", ".: Is a directory (os error 21)");
}

#[test]
fn texts_are_refused_by_line() {
    let at = At::example("texts");
    at.write("bad.txt", "x = var 4\ny = add x z\n");
    at.fails("build bad.txt new.tbv", "bad.txt: line 2: no node 'z' above");
    at.fails("build problem.tbv new.tbv", "problem.tbv: line 1: neither 'NAME = KIND ..' nor 'root NODE..'");
    at.write("latin.txt", b"x = var 4\n# caf\xe9\n");
    at.fails("build latin.txt new.tbv", "latin.txt: line 2: not text: a byte that is not UTF-8");
}

/// What would be a model at once has to be asked for.
#[test]
fn problems_without_roots_have_to_be_asked_for() {
    let at = At::new("rootless");
    let none = "no root: every start would be a model (--rootless allows it)";
    at.write("empty.txt", "");
    at.write("nodes.txt", "x = var 4\n");
    at.write("root.txt", "x = var 1\nroot\n");
    at.fails("build empty.txt new.tbv", &format!("empty.txt: {none}"));
    at.fails("build nodes.txt new.tbv", &format!("nodes.txt: {none}"));
    at.fails("build root.txt new.tbv --rootless", "root.txt: line 2: expected: root NODE..");
    at.prints("build nodes.txt nodes.tbv --rootless", "");
    at.prints("build empty.txt empty.tbv --rootless", "");
    at.prints("check nodes.tbv", "accepted\n");
    assert_eq!(at.read("empty.tbv"), b"TBV\x01\0\0\0\0\0");
}

#[test]
fn pins_must_fit() {
    let at = At::example("pins");
    assert!(at.printed("export problem.tbv --pin 0=3 --pin 2=2").contains("(assert (= n2 (_ bv2 4)))"));
    assert!(!at.printed("export problem.tbv --no-roots").contains("assert"));
    assert!(at.printed("export problem.tbv --start start.bin").contains("(assert (= n0 (_ bv0 4)))"));
    at.fails("export problem.tbv --pin 5=1", "--pin: there is no node 5 to pin");
    at.fails("export problem.tbv --pin 0=16", "--pin: node 0 has 4 bits, too few for 16");
    at.write("three.bin", [0; 24]);
    at.fails("export problem.tbv --start three.bin", "three.bin: 3 words for 5 nodes");
}

/// A name that is no text is a name like any other; an option's value that is no text is said to be so.
#[test]
fn arguments_that_are_no_text() {
    let at = At::example("no-text");
    let name = OsStr::from_bytes(b"caf\xe9.tbv");
    std::fs::copy(at.path("problem.tbv"), at.path(name)).unwrap();
    let checked = at.command("check").arg(name).output().unwrap();
    assert_eq!((checked.status.code(), text(&checked.stdout).as_str()), (Some(0), "accepted\n"));
    std::fs::remove_file(at.path(name)).unwrap();
    let missing = at.command("check").arg(name).output().unwrap();
    assert_eq!(missing.status.code(), Some(1));
    assert!(text(&missing.stderr).contains("No such file"));
    for line in ["tape problem.tbv --seed", "", "export problem.tbv --pin"] {
        let output = at.command(line).arg(OsStr::from_bytes(b"\xff")).output().unwrap();
        assert_eq!(output.status.code(), Some(2), "{line}");
        assert!(!text(&output.stderr).contains("panicked"), "{line}");
        assert!(!output.stderr.is_empty(), "{line}");
    }
}
