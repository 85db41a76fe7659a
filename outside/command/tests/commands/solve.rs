//! solve: a guide writes the tape, the proved run judges; and tapes to a known solution.

use crate::at::{text, At};
use std::fs::File;
use std::io::Read;
use std::os::fd::FromRawFd;
use std::process::Stdio;

const SUM: &str = include_str!("../../../tour/sum.txt");
/// x · 6 = 1 on 4 bits: no value does it, and no fixed bit shows it.
const ODD: &str = "x = var 4\nsix = const 4 6\np = mul x six\none = const 4 1\nok = eq p one\nroot ok\n";
/// A bit that is fixed at 0 has to be 1.
const SHUT: &str = "x = var 4 0***\nk = const 4 15\nok = eq x k\nroot ok\n";

/// Runs a command that must end with a status and say nothing on standard error; gives what it prints.
#[track_caller]
fn ends(at: &At, line: &str, status: i32) -> String {
    let output = at.run(line);
    assert_eq!((output.status.code(), text(&output.stderr).as_str()), (Some(status), ""), "{line}");
    text(&output.stdout)
}

/// The sum's problem as text and as bytes, and the names of its variables.
fn sum(name: &str) -> At {
    let at = At::new(name);
    at.write("sum.txt", SUM);
    at.prints("build sum.txt sum.tbv --names names.txt", "");
    at
}

/// The value of a variable in what is printed.
fn value(printed: &str, name: &str) -> u64 {
    let line = printed.lines().find_map(|line| line.strip_prefix(&format!("{name} ")));
    line.unwrap_or_else(|| panic!("no {name} in {printed}")).parse().unwrap()
}

/// From text and from bytes, by the names that are there, and read again by the run along the tape that is kept.
#[test]
fn a_model_is_found_and_kept() {
    let at = sum("solved");
    let printed = ends(&at, "solve sum.txt --tape tape.bin --start start.bin", 10);
    let (first, _) = printed.split_once('\n').unwrap();
    assert!(first.starts_with("verdict model moves "), "{printed}");
    let (x, y) = (value(&printed, "x"), value(&printed, "y"));
    assert!(x < 200 && y < 16 && x + y == 200, "{printed}");
    assert_eq!(printed.lines().count(), 3);
    at.prints("run sum.tbv start.bin tape.bin", &format!("{first}\n0 {x}\n1 {y}\n"));
    assert_eq!(ends(&at, "solve sum.tbv", 10), format!("{first}\nn0 {x}\nn1 {y}\n"));
    assert_eq!(ends(&at, "solve sum.tbv --names names.txt", 10), printed);
    let file = std::fs::File::open(at.path("sum.tbv")).unwrap();
    let output = at.command("solve - --names names.txt").stdin(file).output().unwrap();
    assert_eq!((output.status.code(), text(&output.stdout)), (Some(10), printed));
}

#[test]
fn a_model_is_printed_in_four_forms() {
    let at = sum("forms");
    let printed = ends(&at, "solve sum.txt", 10);
    let (x, y) = (value(&printed, "x"), value(&printed, "y"));
    let json = ends(&at, "solve sum.txt --format json", 10);
    assert!(json.starts_with("{\"verdict\": \"model\", \"run\": 0, \"moves\": "), "{json}");
    let inputs = format!(
        "\"inputs\": [{{\"name\": \"x\", \"id\": 0, \"width\": 8, \"value\": {x}}}, {{\"name\": \"y\", \"id\": 1, \"width\": 8, \"value\": {y}}}]}}\n"
    );
    assert!(json.ends_with(&inputs), "{json}");
    let smt2 = ends(&at, "solve sum.txt --format smt2", 10);
    let entry = |name, value| format!("  (define-fun {name} () (_ BitVec 8) #b{value:08b})\n");
    assert_eq!(smt2, format!("(\n{}{})\n", entry("x", x), entry("y", y)));
    at.write("answer.txt", &smt2);
    at.prints("model sum.tbv names.txt answer.txt", "yes\n");
    let witness = ends(&at, "solve sum.txt --format btor2", 10);
    assert_eq!(witness, format!("sat\nb0\n#0\n@0\n0 {x:08b} x@0\n1 {y:08b} y@0\n.\n"));
}

#[test]
fn what_is_closed_or_not_found() {
    let at = At::new("unsolved");
    at.write("shut.txt", SHUT);
    at.write("odd.txt", ODD);
    for (format, closed, not_found) in [
        (
            "text",
            "verdict closed moves 0 steps 0 words 0\n",
            "not found runs 3 moves 150 fewest unsatisfied roots 1\n",
        ),
        (
            "json",
            "{\"verdict\": \"closed\"}\n",
            "{\"verdict\": \"not found\", \"runs\": 3, \"moves\": 150, \"fewest\": 1}\n",
        ),
        ("smt2", "unsat\n", "unknown\n"),
        ("btor2", "unsat\n", "unknown\n"),
    ] {
        assert_eq!(ends(&at, &format!("solve shut.txt --format {format}"), 20), closed);
        let line = format!("solve odd.txt --runs 3 --budget 50 --format {format} --tape t.bin --start s.bin");
        assert_eq!(ends(&at, &line, 0), not_found);
    }
    assert_eq!(
        ends(&at, "solve odd.txt --runs 0", 0),
        "not found runs 0 moves 0 fewest unsatisfied roots 1\n"
    );
    assert!(ends(&at, "solve odd.txt --time 0.05", 0).starts_with("not found runs "));
    assert!(!at.path("t.bin").exists() && !at.path("s.bin").exists());
}

/// On a terminal a line tells how far it is, and is gone at the end; what is printed is the same.
#[test]
fn a_terminal_sees_how_far_it_is() {
    let at = At::new("terminal");
    at.write("odd.txt", ODD);
    // Evaluating so many nodes takes its time.
    at.write(
        "wide.txt",
        ODD.to_string() + &(0..900).map(|at| format!("n{at} = not x\n")).collect::<String>(),
    );
    at.prints("build wide.txt wide.tbv", "");
    let search = [" runs, ", "moves/s, fewest unsatisfied roots "];
    let nothing = "x\nkept 0 repeats 0 unkept 0\nstarts 256 ";
    for (line, words, printed) in [
        ("solve odd.txt --time 0.6 --jobs 1", search, "not found runs "),
        ("gather odd.txt --name x --time 0.6 --jobs 1 --budget 65535", search, nothing),
        ("tape wide.tbv --starts 256 --budget 400", [" of 256 ", "starts drawn"], ""),
    ] {
        let (mut seen, terminal) = terminal();
        let mut command = at.command(line);
        command.env("TERM", "xterm").stderr(terminal).stdout(Stdio::piped());
        let child = command.spawn().unwrap();
        // The terminal ends, with an error, where nobody holds its other side any more.
        drop(command);
        let mut lines = Vec::new();
        let _ = seen.read_to_end(&mut lines);
        let output = child.wait_with_output().unwrap();
        let lines = String::from_utf8_lossy(&lines);
        assert!(words.iter().all(|word| lines.contains(word)), "{line}: {lines}");
        assert!(text(&output.stdout).starts_with(printed), "{line}: {}", text(&output.stdout));
        assert!(lines.ends_with("\r\x1b[2K"), "{line}: {lines:?}");
        // In a pipe nothing is said, for as long.
        assert!(at.run(line).stderr.is_empty(), "{line}");
    }
}

/// A terminal's two sides: what is seen on it, and what a program holds.
fn terminal() -> (File, File) {
    let (mut ours, mut theirs) = (0, 0);
    // SAFETY: the call writes the two numbers of open files, and is given nothing else.
    unsafe {
        let none = (std::ptr::null_mut(), std::ptr::null(), std::ptr::null());
        assert_eq!(libc::openpty(&mut ours, &mut theirs, none.0, none.1, none.2), 0);
        (File::from_raw_fd(ours), File::from_raw_fd(theirs))
    }
}

/// The words e of the tape ask for the inverse set as often as it is asked for.
#[test]
fn inverse_choices_are_asked_for() {
    let at = At::new("inverse");
    at.write("above.txt", "x = var 8\nk = const 8 250\nok = below k x\nroot ok\n");
    for (inverse, odd) in [(0, 1), (100, 0)] {
        for seed in 1..=5 {
            let line = format!("solve above.txt --inverse {inverse} --seed {seed} --tape tape.bin");
            let printed = ends(&at, &line, 10);
            assert!(printed.starts_with("verdict model moves 1 steps 1 words 3\n"), "{printed}");
            let words = model::files::words_of(&at.read("tape.bin"));
            assert_eq!((words[0], words.len(), words[2] % 2), (1, 4, odd), "{words:?}");
        }
    }
}

/// A checksum is a linear equation: its model is known at once, and the moves lead there.
#[test]
fn a_checksum_is_solved_at_once() {
    let at = At::new("checksum");
    at.write(
        "sum.txt",
        "x = var 64\nfar = const 64 13\nnear = const 64 7\nl = shl x far\na = xor x l\nr = lshr a near\n\
        h = xor a r\nk = const 64 1311768467463790320\nok = eq h k\nroot ok\n",
    );
    at.prints("build sum.txt sum.tbv", "");
    for seed in 1..=5 {
        let line = format!("solve sum.txt --runs 1 --seed {seed} --tape tape.bin --start start.bin");
        let printed = ends(&at, &line, 10);
        assert!(printed.starts_with("verdict model moves 1 "), "{printed}");
        let x = value(&printed, "x");
        let a = x ^ x << 13;
        assert_eq!(a ^ a >> 7, 1311768467463790320);
        assert_eq!(at.printed("run sum.tbv"), printed.replace("x ", "0 "));
    }
}

/// A seed finds the same whatever the number of threads; another one may find something else.
#[test]
fn threads_change_nothing() {
    let at = At::new("threads");
    let squares = "x = var 9\ny = var 9\nzx = zext 18 x\nzy = zext 18 y\nxx = mul zx zx\nyy = mul zy zy\ns = add xx yy\n\
        k = const 18 130573\nok = eq s k\nless = below x y\nroot ok less\n";
    at.write("squares.txt", squares);
    let mut found = std::collections::HashSet::new();
    for seed in 1..=4 {
        let line = |jobs: u32| {
            format!("solve squares.txt --seed {seed} --jobs {jobs} --budget 30 --time 0 --format json")
        };
        let one = ends(&at, &line(1), 10);
        assert_eq!(ends(&at, &line(4), 10), one);
        assert_eq!(ends(&at, &line(13), 10), one);
        found.insert(one);
    }
    assert!(found.len() > 1, "{found:?}");
}

#[test]
fn what_cannot_be_solved() {
    let at = sum("cannot");
    at.fails("solve none", "none: No such file or directory (os error 2)");
    at.write("bad.txt", "x = var 4\ny = add x z\n");
    at.fails("solve bad.txt", "bad.txt: line 2: no node 'z' above");
    at.write("rootless.txt", "x = var 4\n");
    at.fails("solve rootless.txt", "rootless.txt: no root or constraint: every start would be a model");
    at.write("empty", "");
    at.fails("solve empty", "empty: no root or constraint: every start would be a model");
    at.write("latin.txt", b"x = var 4\n# caf\xe9\n");
    at.fails("solve latin.txt", "latin.txt: line 2: not text: a byte that is not UTF-8");
    let mut wide = at.read("sum.tbv");
    wide[9 + 24 * 2 + 1] = 65;
    at.write("wide.tbv", wide);
    at.fails("solve wide.tbv", "wide.tbv: refused 8 at 2: node 2: the width is 0 or over 64");
    at.write("short.tbv", b"TBV\x01\0");
    at.fails("solve short.tbv", "short.tbv: refused 1 at 0: fewer than 9 bytes");
    at.write("one.txt", "x\n");
    at.fails("solve sum.tbv --names one.txt", "one.txt: 1 names for 2 variables");
    at.fails("solve sum.tbv --tape none/t.bin", "none/t.bin: No such file or directory (os error 2)");
    at.fails("solve sum.tbv --tape sum.tbv", "sum.tbv: named for two things at once");
    at.fails("solve sum.tbv --tape new.bin --start new.bin", "new.bin: named for two things at once");
    at.write("bars.txt", "a|b\ny\n");
    at.fails(
        "solve sum.tbv --names bars.txt --format smt2 --tape new.bin",
        "the name 'a|b' has a bar or a backslash, which SMT-LIB cannot write",
    );
    assert!(!at.path("new.bin").exists());
}

/// BTOR2 as yosys writes it, and the line that fails.
#[test]
fn problems_in_btor2() {
    let at = At::new("btor2");
    let sum =
        "; by hand\n1 sort bitvec 8\n2 input 1 a;b\n3 input 1\n4 add 1 2 3\n5 consth 1 c8\n6 sort bitvec 1\n\
        7 eq 6 4 5\n8 ult 6 2 3\n9 constraint 7\n10 constraint 8 ; a;b < 3\n";
    at.write("sum.btor2", sum);
    let printed = ends(&at, "solve sum.btor2 --start start.bin --tape tape.bin", 10);
    let (a, b) = (value(&printed, "a;b"), value(&printed, "3"));
    assert!(a < b && (a + b) % 256 == 200, "{printed}");
    let witness = ends(&at, "solve sum.btor2 --format btor2", 10);
    assert_eq!(witness, format!("sat\nb0\n#0\n@0\n0 {a:08b} a;b@0\n1 {b:08b} 3@0\n.\n"));
    at.prints("convert sum.btor2 sum.tbv --names names.txt", "");
    assert_eq!(ends(&at, "solve sum.tbv --names names.txt", 10), printed);
    let first = printed.lines().next().unwrap();
    at.prints("run sum.tbv start.bin tape.bin", &format!("{first}\n0 {a}\n1 {b}\n"));
    at.write("bad.btor2", sum.replace("ult 6 2 3", "ult 6 2 4711"));
    let output = at.run("solve bad.btor2");
    assert_eq!(output.status.code(), Some(1));
    let said = text(&output.stderr);
    assert!(said.starts_with("walumpeh: bad.btor2:9: refused 3: "), "{said}");
    at.write("free.btor2", "1 sort bitvec 8\n2 input 1\n");
    at.fails("solve free.btor2", "free.btor2: no root or constraint: every start would be a model");
}

#[test]
fn lines_of_solve_that_are_not_understood() {
    let at = sum("solve-lines");
    at.misunderstood("solve", &["<FILE>"]);
    for (option, words) in [
        ("--time=-1", ["--time", "not a number of seconds"]),
        ("--time soon", ["--time", "not a number of seconds"]),
        ("--time nan", ["--time", "not a number of seconds"]),
        ("--jobs 0", ["--jobs", "0"]),
        ("--inverse 101", ["--inverse", "0..=100"]),
        ("--budget 65536", ["--budget", "65536"]),
        ("--format xml", ["--format", "text, json, smt2, btor2"]),
    ] {
        at.misunderstood(&format!("solve sum.txt {option}"), &words);
    }
}

#[test]
fn help_tells_of_solve_and_of_known_solutions() {
    let at = At::new("solve-help");
    assert!(at.printed("--help").lines().any(|line| line.trim_start().starts_with("solve ")));
    for (line, words) in [
        ("solve --help", ["Usage: walumpeh solve", "--format <FORMAT>", "10 a model, 20 closed"]),
        ("tape --help", ["--to <VALUES>", "--names <FILE>", "differing variables D"]),
    ] {
        let help = at.printed(line);
        assert!(words.iter().all(|word| help.contains(word)), "{help}");
    }
}

/// A tape to a solution in every form that one comes in, and what it says.
#[test]
fn a_tape_leads_to_a_known_solution() {
    let at = sum("to");
    at.write("run.txt", "verdict model moves 1 steps 2 words 5\n0 190\n1 10\n");
    at.write("solve.txt", "verdict model moves 1 steps 2 words 5\nx 190\ny 10\n");
    at.write(
        "entries.txt",
        "(\n(define-fun y () (_ BitVec 8) #x0a)(define-fun x () (_ BitVec 8) (_ bv190 8))\n)\n",
    );
    at.write("sat.txt", [b"sat\n", &at.read("entries.txt")[..]].concat());
    at.write("numbered.txt", "((define-fun n0 () (_ BitVec 8) #xbe) (define-fun n1 () (_ BitVec 8) #x0a))");
    at.write("words.bin", model::files::bytes_of(&[190, 10, 0, 0, 0, 0]));
    for values in [
        "run.txt",
        "solve.txt --names names.txt",
        "entries.txt --names names.txt",
        "sat.txt --names names.txt",
        "numbered.txt",
        "words.bin",
    ] {
        for seed in 1..5 {
            let printed = at.printed(&format!("tape sum.tbv --seed {seed} --to {values}"));
            assert!(printed.starts_with("differing variables 2\nwords "), "{values}: {printed}");
            assert!(printed.ends_with(" of at most 10\n"), "{values}: {printed}");
            let answer = at.printed("run sum.tbv");
            assert!(answer.starts_with("verdict model moves "), "{answer}");
            assert!(at.read("tape.bin").len() <= 8 * (1 + 10));
        }
    }
    at.prints("tape sum.tbv --least --to words.bin", "differing variables 2\nwords 10 of at most 10\n");
    at.prints("run sum.tbv", "verdict model moves 2 steps 4 words 10\n0 190\n1 10\n");
    at.write("least.bin", model::files::bytes_of(&[0; 6]));
    at.write("zero.txt", "x = var 8\nk = const 8 0\nok = eq x k\nroot ok\n");
    at.prints("build zero.txt zero.tbv", "");
    at.prints("tape zero.tbv --least --to least.bin", "differing variables 0\nwords 0 of at most 0\n");
    at.prints("run zero.tbv", "verdict model moves 0 steps 0 words 0\n0 0\n");
}

#[test]
fn values_that_are_no_solution() {
    let at = sum("to-nothing");
    for (content, fault) in [
        ("verdict model moves 1 steps 2 words 5\n0 190\n1 11\n", "no solution: the root at node 4 is 0"),
        ("verdict model moves 1 steps 2 words 5\n0 190\n", "no value of '1'"),
        ("verdict model moves 1 steps 2 words 5\n0 190\n0 190\n1 10\n", "more than one value of '0'"),
        ("verdict model moves 1 steps 2 words 5\nx 190\ny 10\n", "no value of 'n0'"),
        (
            "verdict model moves 1 steps 2 words 5\n0 190\n1 ten\n",
            "line 3: neither 'ID VALUE' nor 'NAME VALUE'",
        ),
        (
            "verdict model moves 1 steps 2 words 5\n0 190\n1 16\n",
            "refused 15 at 1: node 1: a variable's start does not agree with its pair",
        ),
        ("(define-fun x () (_ BitVec 8) #x00)", "no get-model answer of define-fun entries"),
        ("sat\n()", "no value of 'n0'"),
        ("few", "neither an answer nor a word for each of 6 nodes"),
    ] {
        at.write("values", content);
        at.fails("tape sum.tbv --to values", &format!("values: {fault}"));
    }
    at.fails("tape sum.tbv --to none", "none: No such file or directory (os error 2)");
    at.write("words.bin", model::files::bytes_of(&[190, 10, 0, 0, 0, 0]));
    at.fails("tape sum.tbv words.bin tape.bin --to words.bin", "words.bin: named for two things at once");
    for option in ["--budget 3", "--inverse 90", "--uniform", "--words 7", "--starts 3"] {
        at.misunderstood(&format!("tape sum.tbv --to words.bin {option}"), &["--to", "cannot be used with"]);
    }
    at.misunderstood("tape sum.tbv --names names.txt", &["--to"]);
}
