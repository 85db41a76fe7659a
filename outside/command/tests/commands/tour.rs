//! The way through: text to problem, start and tape, run, SMT-LIB.

use crate::at::{text, At};

const ANSWER: &str = "verdict model moves 1 steps 2 words 5\n0 11\n";

#[test]
fn the_worked_example() {
    let at = At::example("worked");
    assert_eq!(at.read("problem.tbv").len(), 131);
    at.prints("check problem.tbv", "accepted\n");
    at.prints("run", ANSWER);
    at.prints("run problem.tbv start.bin tape.bin", ANSWER);
    let shown = at.printed("show problem.tbv");
    assert!(shown.contains("\n2 = mul 0 1                  # 4 bits ****\n"), "{shown}");
    at.write("again.txt", &shown);
    at.prints("build again.txt again.tbv", "");
    assert_eq!(at.read("again.tbv"), at.read("problem.tbv"));
    at.write("answer.txt", ANSWER);
    let smt2 = at.printed("export problem.tbv --answer answer.txt --values");
    let end =
        "(assert (= n0 (_ bv11 4)))\n(assert (= n4 (_ bv1 1)))\n(check-sat)\n(get-value (n0 n1 n2 n3 n4))\n";
    assert!(smt2.starts_with("(set-logic QF_BV)\n(declare-fun n0") && smt2.ends_with(end), "{smt2}");
}

#[test]
fn a_file_may_be_standard_input_or_output() {
    let at = At::example("stdin");
    let from = |line: &str| {
        let file = std::fs::File::open(at.path("problem.tbv")).unwrap();
        at.command(line).stdin(file).output().unwrap()
    };
    assert_eq!(text(&from("check -").stdout), "accepted\n");
    assert_eq!(text(&from("run - start.bin tape.bin").stdout), ANSWER);
    at.write("p.txt", at.printed("show problem.tbv"));
    let text = std::fs::File::open(at.path("p.txt")).unwrap();
    let built = at.command("build - -").stdin(text).output().unwrap();
    assert_eq!((built.status.code(), built.stdout), (Some(0), at.read("problem.tbv")));
}

#[test]
fn a_seed_makes_a_start_and_a_tape() {
    let at = At::example("seeds");
    let made = |line: &str| {
        at.prints(&format!("tape problem.tbv {line}"), "");
        (at.read("start.bin"), at.read("tape.bin"))
    };
    let three = made("--seed 3");
    assert_eq!(made("--seed=3"), three);
    assert_ne!(made("--seed 4").1, three.1);
    assert!(at.printed("run").starts_with("verdict model"));
    assert_eq!(made("--least").0, [0; 40]);
    assert_eq!(made("--budget 7 --words 0").1, [7, 0, 0, 0, 0, 0, 0, 0]);
    at.prints("tape problem.tbv there.bin here.bin --seed 3", "");
    assert_eq!((at.read("there.bin"), at.read("here.bin")), three);
}

/// The longest chain and the words, and a tape that has as many: no run of the budget ends along it.
#[test]
fn a_tape_has_the_words_that_are_needed() {
    let at = At::example("need");
    at.prints("need problem.tbv", "longest chain 2\nwords 5000 for 1000 moves\n");
    at.prints("need problem.tbv --budget 1", "longest chain 2\nwords 5 for 1 move\n");
    at.prints("need problem.tbv --budget 0", "longest chain 2\nwords 0 for 0 moves\n");
    at.prints("need problem.tbv --budget 65535", "longest chain 2\nwords 327675 for 65535 moves\n");
    at.write("rootless.txt", "x = var 4\ny = not x\n");
    at.prints("build rootless.txt rootless.tbv --rootless", "");
    at.prints("need rootless.tbv --budget 9", "longest chain 0\nwords 9 for 9 moves\n");
    for (line, words) in [("", 5000), ("--budget 30", 150), ("--words 7", 7), ("--words 6000", 5000)] {
        at.prints(&format!("tape problem.tbv {line}"), "");
        assert_eq!(at.read("tape.bin").len(), 8 * (1 + words), "{line}");
    }
    at.prints("tape problem.tbv --budget 3 --seed 5", "");
    for x in 0..16 {
        at.write("other.bin", model::files::bytes_of(&[x, 0, 0, 0, 0]));
        let status = at.run("run problem.tbv other.bin").status.code();
        assert!(matches!(status, Some(0 | 3)), "{x}: {status:?}");
    }
}

/// A problem without a solution, x · 6 = 1: every move takes a word and two for each of its two steps.
const ODD: &str = "x = var 4\nsix = const 4 6\np = mul x six\none = const 4 1\nok = eq p one\nroot ok\n";

/// Proposals are small as often as great, unless all words are to be alike.
#[test]
fn how_proposals_are_drawn() {
    let at = At::new("proposals");
    at.write("odd.txt", ODD);
    at.prints("build odd.txt odd.tbv", "");
    for (asked, small) in [("", 850..1150), ("--uniform", 0..5)] {
        at.prints(&format!("tape odd.tbv --budget 1000 {asked}"), "");
        let tape = model::files::words_of(&at.read("tape.bin"));
        let proposals = tape[1..].chunks(5).flat_map(|words| [words[2], words[4]]);
        let count = proposals.filter(|&p| p < 1 << 32).count();
        assert!(small.contains(&count), "{asked}: {count}");
    }
}

/// Of the words e those asked for are even, and a tape can be longer than tvrun reads.
#[test]
fn the_share_of_inverse_choices_and_long_tapes() {
    let at = At::new("share");
    at.write("odd.txt", ODD);
    at.prints("build odd.txt odd.tbv", "");
    for (share, even) in [(0, 0), (100, 2000)] {
        at.prints(&format!("tape odd.tbv --budget 1000 --words 10000 --inverse {share}"), "");
        let tape = model::files::words_of(&at.read("tape.bin"));
        assert_eq!(tape.len(), 1 + 1000 * 5);
        let is_even =
            |move_words: &[u64]| [move_words[1], move_words[3]].iter().filter(|&e| e % 2 == 0).count();
        assert_eq!(tape[1..].chunks(5).map(is_even).sum::<usize>(), even);
        let output = at.run("run odd.tbv");
        assert_eq!(output.status.code(), Some(3));
        assert!(text(&output.stdout).starts_with("verdict spent moves 1000 steps 2000 words 5000\n"));
    }
}
