//! Verdicts and refusals, their statuses, and answers that are read back.

use crate::at::{text, At};
use model::files::{bytes_of, tape_file};

/// Runs with a status and these lines, and standard error.
#[track_caller]
fn answers(at: &At, line: &str, status: i32, printed: &str, said: &str) {
    let output = at.run(line);
    assert_eq!((text(&output.stdout).as_str(), text(&output.stderr).as_str()), (printed, said), "{line}");
    assert_eq!(output.status.code(), Some(status), "{line}");
}

#[test]
fn every_verdict_has_its_status() {
    let at = At::example("verdicts");
    answers(&at, "run", 0, "verdict model moves 1 steps 2 words 5\n0 11\n", "");
    answers(&at, "run --budget 0", 3, "verdict spent moves 0 steps 0 words 0\n0 0\n", "");
    at.write("short.bin", tape_file(1, &[0, 0, 9, 0]));
    answers(
        &at,
        "run problem.tbv start.bin short.bin",
        4,
        "verdict ended moves 0 steps 0 words 0\n0 0\n",
        "",
    );
    at.write("zero.txt", "x = var 2\nno = const 1 0\nroot no\n");
    at.prints("build zero.txt zero.tbv", "");
    answers(&at, "run zero.tbv", 5, "verdict closed moves 0 steps 0 words 0\n0 0\n", "");
}

/// Where it is asked for, the answer's line ends with the nodes evaluated; export takes such an answer, too.
#[test]
fn nodes_evaluated_are_told_where_asked_for() {
    let at = At::example("evaluated");
    let model = "verdict model moves 1 steps 2 words 5 evaluated 8\n0 11\n";
    answers(&at, "run --evaluated", 0, model, "");
    let spent = "verdict spent moves 0 steps 0 words 0 evaluated 5\n0 0\n";
    answers(&at, "run --budget 0 --evaluated", 3, spent, "");
    at.write("answer", model);
    assert!(at.printed("export problem.tbv --answer answer").contains("(assert (= n0 (_ bv11 4)))"));
    at.write("bad", "verdict model moves 1 steps 2 words 5 evaluated\n0 11\n");
    let fault = "'verdict model moves 1 steps 2 words 5 evaluated' is no verdict with its counts";
    at.fails("export problem.tbv --answer bad", &format!("bad: line 1: {fault}"));
}

/// As tvrun: the budget is the first word modulo 65,536, spare bytes count nowhere, an empty file holds
/// nothing.
#[test]
fn files_are_read_as_by_tvrun() {
    let at = At::example("as-tvrun");
    let model = "verdict model moves 1 steps 2 words 5\n0 11\n";
    at.write("over.bin", [bytes_of(&[65_537, 0, 0, 9, 0, 4]), vec![1; 7]].concat());
    at.write("spare.bin", [0; 47]);
    answers(&at, "run problem.tbv spare.bin over.bin", 0, model, "");
    at.write("empty", "");
    let none = "verdict spent moves 0 steps 0 words 0\n0 0\n";
    answers(&at, "run problem.tbv start.bin empty", 3, none, "");
    answers(&at, "run problem.tbv start.bin /dev/null", 3, none, "");
}

#[test]
fn refusals_say_number_place_and_meaning() {
    let at = At::example("refusals");
    let mut wide = at.read("problem.tbv");
    wide[9 + 24 * 2 + 1] = 65;
    at.write("wide.tbv", &wide);
    let why = "walumpeh: wide.tbv: refused 8 at 2: node 2: the width is 0 or over 64\n";
    answers(&at, "run wide.tbv", 1, "refused 8 at 2\n", why);
    answers(&at, "check wide.tbv", 1, "", why);
    let shown = at.run("show wide.tbv");
    assert_eq!((shown.status.code(), text(&shown.stderr).as_str()), (Some(1), why));
    assert!(text(&shown.stdout).contains("\n2 = mul 0 1                  # <== refused 8: "));
    for command in ["need wide.tbv", "tape wide.tbv", "export wide.tbv"] {
        at.fails(command, why.trim_end().trim_start_matches("walumpeh: "));
    }
    at.write("root.tbv", [&at.read("problem.tbv")[..129], &[3, 0]].concat());
    let why = "walumpeh: root.tbv: refused 13 at 0: root 0: the root is no node, or one of more than 1 bit\n";
    answers(&at, "run root.tbv", 1, "refused 13 at 0\n", why);
    let mut twice = [&at.read("problem.tbv")[..], &[4, 0]].concat();
    twice[7] = 2;
    at.write("twice.tbv", twice);
    let why = "walumpeh: twice.tbv: refused 16 at 1: root 1: the root stands earlier in the file\n";
    answers(&at, "run twice.tbv", 1, "refused 16 at 1\n", why);
    answers(&at, "check twice.tbv", 1, "", why);
    let mut divides = at.read("problem.tbv");
    divides[9 + 24 * 2..][..2].copy_from_slice(&[17, 17]);
    at.write("divides.tbv", &divides);
    let why = "walumpeh: divides.tbv: refused 20 at 2: node 2: a division of more than 16 bits\n";
    answers(&at, "run divides.tbv", 1, "refused 20 at 2\n", why);
    assert!(text(&at.run("show divides.tbv").stdout)
        .contains("\n2 = udiv 0 1                 # <== refused 20: "));
    at.write("four.bin", [0; 32]);
    let why = "walumpeh: four.bin: refused 14 at 0: fewer places than nodes\n";
    answers(&at, "run problem.tbv four.bin", 1, "refused 14 at 0\n", why);
    at.write("far.bin", bytes_of(&[16, 0, 0, 0, 0]));
    let why = "walumpeh: far.bin: refused 15 at 0: node 0: a variable's start does not agree with its pair\n";
    answers(&at, "run problem.tbv far.bin", 1, "refused 15 at 0\n", why);
    at.write("long.tbv", [at.read("problem.tbv"), vec![0; 100_000]].concat());
    let why =
        "walumpeh: long.tbv: refused 6 at 0: the length is not 9 + 24 for each node + 2 for each root\n";
    answers(&at, "check long.tbv", 1, "", why);
}

/// An answer is taken only if it lists every variable once and nothing else.
#[test]
fn answers_must_be_whole() {
    let at = At::new("whole");
    at.write("two.txt", "x = var 4\ny = var 4\nok = below x y\nroot ok\n");
    at.prints("build two.txt two.tbv", "");
    let verdict = "verdict model moves 1 steps 1 words 3";
    at.write("good", format!("{verdict}\n0 3\n1 4\n"));
    assert!(at.printed("export two.tbv --answer good").contains("(assert (= n1 (_ bv4 4)))"));
    for (answer, fault) in [
        (String::new(), "no answer in it"),
        ("refused 1 at 0\n".into(), "line 1: 'refused 1 at 0' is no verdict with its counts"),
        ("verdict model\n0 3\n1 4\n".into(), "line 1: 'verdict model' is no verdict with its counts"),
        (format!("{verdict}\n"), "no value of variable 0"),
        (format!("{verdict}\n0 3\n"), "no value of variable 1"),
        (format!("{verdict}\n1 4\n"), "line 2: node 1, expected variable 0"),
        (format!("{verdict}\n0 3\n0 3\n"), "line 3: node 0, expected variable 1"),
        (format!("{verdict}\n0 3\n2 1\n"), "line 3: node 2, expected variable 1"),
        (format!("{verdict}\n0 3\n1 4\n1 4\n"), "line 4: '1 4' after the last variable"),
        (format!("{verdict}\n0 3\n1\n"), "line 3: '1' is not 'ID VALUE'"),
        (format!("{verdict}\n0 3\n1 -4\n"), "line 3: '1 -4' is not 'ID VALUE'"),
        (format!("{verdict}\n0 3\n1 16\n"), "node 1 has 4 bits, too few for 16"),
    ] {
        at.write("bad", answer);
        at.fails("export two.tbv --answer bad", &format!("bad: {fault}"));
    }
}

/// A run that goes on from an answer is the rest of the run.
#[test]
fn a_run_goes_on_from_an_answer() {
    let at = At::example("on");
    at.write("none.txt", at.run("run --budget 0").stdout);
    at.prints("run --from none.txt", "verdict model moves 1 steps 2 words 5\n0 11\n");
    at.write("model.txt", at.printed("run"));
    at.prints(
        "run --from model.txt problem.tbv none start.bin",
        "verdict model moves 0 steps 0 words 0\n0 11\n",
    );
    at.write("wide.txt", "verdict spent moves 0 steps 0 words 0\n0 16\n");
    at.fails("run --from wide.txt", "wide.txt: node 0 has 4 bits, too few for 16");
    at.write("short.txt", "verdict spent moves 0 steps 0 words 0\n");
    at.fails("run --from short.txt", "short.txt: no value of variable 0");
    at.fails("run --from missing.txt", "missing.txt: No such file or directory (os error 2)");
    let mut wide = at.read("problem.tbv");
    wide[9 + 24 * 2 + 1] = 65;
    at.write("wide.tbv", &wide);
    let why = "walumpeh: wide.tbv: refused 8 at 2: node 2: the width is 0 or over 64\n";
    answers(&at, "run --from missing.txt wide.tbv", 1, "refused 8 at 2\n", why);
}

#[test]
fn a_picture_has_the_values_of_an_answer() {
    let at = At::example("picture");
    let bare = at.printed("show problem.tbv --dot");
    assert!(bare.starts_with("digraph problem {\n") && !bare.contains("= 11"), "{bare}");
    at.write("answer.txt", at.printed("run"));
    let picture = at.printed("show problem.tbv --dot --answer answer.txt");
    assert!(picture.contains("\\n= 11\"") && !picture.contains("red"), "{picture}");
    at.write("none.txt", at.run("run --budget 0").stdout);
    assert!(at.printed("show problem.tbv --dot --answer none.txt").contains("color=red"));
    at.fails("show problem.tbv --dot --answer missing", "missing: No such file or directory (os error 2)");
    at.misunderstood("show problem.tbv --answer answer.txt", &["--dot"]);
}
