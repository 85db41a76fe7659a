//! Our word for other solvers' models, lists of names, and texts that ask for a model.

use crate::at::{text, At};

/// x + y = 200 with x below 200, of 8 bits each, y's upper half 0; and a bit that has to be set.
const SUM: &str = "\
x = var 8
y = var 8 0000****
set = var 1
s = add x y
k = const 8 200
is = eq s k
less = below x k
root is less set
";

/// What z3 4.8.12, cvc5 1.0.3 and cvc4 1.8 print for such a problem, a first line included.
const PRINTED: [&str; 3] = [
    "sat\n(\n  (define-fun y () (_ BitVec 8)\n    #x04)\n  (define-fun set () (_ BitVec 1)\n    #b1)\n  (define-fun x () (_ BitVec 8)\n    #xc4)\n)\n",
    "sat\n(\n(define-fun x () (_ BitVec 8) #b11000001)\n(define-fun y () (_ BitVec 8) #b00000111)\n(define-fun set () (_ BitVec 1) #b1)\n)\n",
    "sat\n(model\n(define-fun x () (_ BitVec 8) #b10111100)\n(define-fun y () (_ BitVec 8) #b00001100)\n(define-fun set () (_ BitVec 1) (_ bv1 1))\n)\n",
];

fn sum(name: &str) -> At {
    let at = At::new(name);
    at.write("sum.txt", SUM);
    at.prints("build sum.txt problem.tbv --names names.txt", "");
    at
}

/// An answer with these three values.
fn answer(x: &str, y: &str, set: &str) -> String {
    format!("((define-fun x () (_ BitVec 8) {x})(define-fun y () (_ BitVec 8) {y})(define-fun set () (_ BitVec 1) {set}))")
}

/// What is printed of an answer, and the status.
#[track_caller]
fn judged(at: &At, answer: &str, status: i32, printed: &str) {
    at.write("answer.txt", answer);
    says(at, "model problem.tbv names.txt answer.txt", status, printed, "");
}

#[track_caller]
fn says(at: &At, line: &str, status: i32, printed: &str, said: &str) {
    let output = at.run(line);
    assert_eq!((text(&output.stdout).as_str(), text(&output.stderr).as_str()), (printed, said), "{line}");
    assert_eq!(output.status.code(), Some(status), "{line}");
}

#[test]
fn models_of_solvers() {
    let at = sum("solvers");
    assert_eq!(text(&at.read("names.txt")), "x\ny\nset\n");
    for printed in PRINTED {
        judged(&at, printed, 0, "yes\n");
        judged(&at, printed.strip_prefix("sat\n").unwrap(), 0, "yes\n");
        judged(&at, &printed.replace('\n', "\r\n"), 0, "yes\n");
    }
    judged(&at, &answer("#xc7", "#x01", "#b1"), 0, "yes\n");
    judged(&at, &answer("#xc8", "#x00", "#b1"), 1, "no: root 1 (node 6, below 0 4) is 0\n");
    judged(&at, &answer("#xc8", "#x01", "#b0"), 1, "no: root 0 (node 5, eq 3 4) is 0\n");
    judged(&at, &answer("#xc7", "#x01", "#b0"), 1, "no: root 2 (node 2, set) is 0\n");
}

#[test]
fn an_answer_may_come_by_standard_input() {
    let at = sum("piped");
    at.write("answer.txt", PRINTED[0]);
    let file = std::fs::File::open(at.path("answer.txt")).unwrap();
    let output = at.command("model problem.tbv names.txt -").stdin(file).output().unwrap();
    assert_eq!((output.status.code(), text(&output.stdout).as_str()), (Some(0), "yes\n"));
}

/// Each refusal with its number, place, meaning and, where something has one, its name.
#[test]
fn refusals_of_models() {
    let at = sum("refused");
    let syntax = "refused 31 at 0: no get-model answer of define-fun entries, or a width outside 1 to 64\n";
    for text in ["", "unsat\n", "sat", "sat \n()", "sat\nsat\n()", "(model", "(error \"line 9\")\n"] {
        judged(&at, text, 2, syntax);
    }
    judged(
        &at,
        "((define-fun x () (_ BitVec 8) #xc7)(define-fun |no such| () (_ BitVec 8) #x01))",
        2,
        "refused 32 at 1: entry 1: no variable has the name (no such)\n",
    );
    judged(
        &at,
        "((define-fun y () (_ BitVec 8) #x01)(define-fun |y| () (_ BitVec 8) #x01))",
        2,
        "refused 33 at 1: entry 1: an earlier entry has the name (y)\n",
    );
    let wide = "sort or value are not of the variable's width, or the value is too large";
    judged(&at, &answer("#xc7", "#x1", "#b1"), 2, &format!("refused 34 at 1: entry 1: {wide} (y)\n"));
    judged(&at, &answer("(_ bv300 8)", "#x01", "#b1"), 2, &format!("refused 34 at 0: entry 0: {wide} (x)\n"));
    judged(&at, "()", 2, "refused 35 at 0: node 0: the variable has no entry (x)\n");
    judged(
        &at,
        &answer("#xb7", "#x11", "#b1"),
        2,
        "refused 36 at 1: node 1: the value contradicts a fixed bit (y)\n",
    );
    at.write("names.txt", "x\ny\n");
    judged(&at, "", 2, "refused 30 at 0: too few or too many names for the variables, or one twice\n");
    let mut wide = at.read("problem.tbv");
    wide[9 + 1] = 65;
    at.write("problem.tbv", wide);
    judged(&at, "", 2, "refused 8 at 0: node 0: the width is 0 or over 64\n");
}

/// 1 says no: so what cannot be read, and a line that is not understood, have status 2 as a refusal has, with
/// nothing on standard output.
#[test]
fn nothing_is_judged_without_files() {
    let at = sum("unread-model");
    at.write("answer.txt", PRINTED[0]);
    let missing = "walumpeh: none: No such file or directory (os error 2)\n";
    says(&at, "model none names.txt answer.txt", 2, "", missing);
    says(&at, "model problem.tbv none answer.txt", 2, "", missing);
    says(&at, "model problem.tbv names.txt none", 2, "", missing);
    at.misunderstood("model problem.tbv names.txt", &["<ANSWER>"]);
    at.misunderstood("model problem.tbv names.txt answer.txt more", &["more"]);
}

#[test]
fn a_model_is_asked_for() {
    let at = sum("asked");
    let question = at.printed("export problem.tbv --model --names names.txt");
    assert!(question.starts_with("(set-option :produce-models true)\n(set-logic QF_BV)\n(declare-fun x ()"));
    assert!(question.contains("(let ((n3 (bvadd x y)))\n"), "{question}");
    let end =
        "(and true (= n5 (_ bv1 1)) (= n6 (_ bv1 1)) (= set (_ bv1 1))))))))\n(check-sat)\n(get-model)\n";
    assert!(question.ends_with(end), "{question}");
    assert!(!question.contains("define-fun"), "{question}");
    let numbered = at.printed("export problem.tbv --model --write-names new.txt --pin 0=199 --no-roots");
    assert!(numbered.contains("(declare-fun n2 () (_ BitVec 1))\n"), "{numbered}");
    assert!(numbered.contains("(and true (= n0 (_ bv199 8)))"), "{numbered}");
    assert_eq!(text(&at.read("new.txt")), "n0\nn1\nn2\n");
    at.write("odd.txt", "|a b|\nlet\n\n");
    let odd = at.printed("export problem.tbv --model --names odd.txt");
    assert!(
        ["|a b|", "|let|", "||"].iter().all(|name| odd.contains(&format!("(declare-fun {name} ()"))),
        "{odd}"
    );
}

#[test]
fn lists_that_do_not_fit() {
    let at = sum("lists");
    for (list, fault) in [
        ("x\ny\n", "2 names for 3 variables"),
        ("x\ny\nz\n\n", "4 names for 3 variables"),
        ("x\ny\n|x|\n", "line 3: the name 'x' stands above"),
        ("x\ny|\nz", "the name 'y|' has a bar or a backslash, which SMT-LIB cannot write"),
    ] {
        at.write("bad.txt", list);
        at.fails("export problem.tbv --model --names bad.txt", &format!("bad.txt: {fault}"));
    }
    at.misunderstood("export problem.tbv --names names.txt", &["--model"]);
    at.misunderstood("export problem.tbv --model --values", &["--values"]);
    at.misunderstood(
        "export problem.tbv --model --names names.txt --write-names new.txt",
        &["--write-names"],
    );
    at.fails("build sum.txt new.tbv --names new.tbv", "new.tbv: named for two things at once");
}
