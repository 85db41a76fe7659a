//! Many starts at once: the files, what is printed, statuses, and what is refused.

use crate::at::{text, At};
use model::files::{bytes_of, words_of};

/// A folder with the worked example, and the files of some starts of it.
fn folder(name: &str, asked: &str) -> At {
    let at = At::example(name);
    at.prints(&format!("tape problem.tbv {asked}"), "");
    at
}

/// The words of a tape file of many starts.
fn tapes(pairs: &[(u64, u64)], tape: &[u64]) -> Vec<u8> {
    let head = [u64::from_le_bytes(*b"TBVTAPES"), pairs.len() as u64];
    let pairs: Vec<u64> = pairs.iter().flat_map(|&(length, budget)| [length, budget]).collect();
    bytes_of(&[&head[..], &pairs, tape].concat())
}

#[track_caller]
fn answers(at: &At, line: &str, status: i32, printed: &str, said: &str) {
    let output = at.run(line);
    assert_eq!((text(&output.stdout).as_str(), text(&output.stderr).as_str()), (printed, said), "{line}");
    assert_eq!(output.status.code(), Some(status), "{line}");
}

/// The worked example's tape for a good start, a start that does not agree, no word, and one budget of 0.
#[test]
fn each_start_is_answered_by_itself() {
    let at = At::example("each-start");
    at.write("starts.bin", bytes_of(&[[0; 5], [16, 0, 0, 0, 0], [0; 5], [3, 0, 0, 0, 0]].concat()));
    at.write("tapes.bin", tapes(&[(5, 1), (0, 1), (0, 9), (1, 65_536)], &[0, 0, 9, 0, 4, 7]));
    let blocks = [
        "verdict model moves 1 steps 2 words 5\n0 11\n",
        "refused 15 at 0\n",
        "verdict ended moves 0 steps 0 words 0\n0 0\n",
        "verdict model moves 0 steps 0 words 0\n0 3\n",
    ];
    let whole: String = (0..4).map(|start| format!("start {start}\n{}", blocks[start])).collect();
    let whole = whole + "starts 4 model 2 spent 0 ended 1 closed 0 refused 1\n";
    answers(&at, "batch", 0, &whole, "");
    answers(&at, "batch problem.tbv starts.bin tapes.bin", 0, &whole, "");
    for (start, status) in [(0, 0), (1, 3), (2, 3), (3, 0)] {
        answers(&at, &format!("batch --only {start}"), status, blocks[start], "");
    }
    at.fails("batch --only 4", "tapes.bin: there is no start 4 among 4");
    let counted = text(&at.run("batch --evaluated").stdout);
    assert!(
        counted.contains("words 5 evaluated 8\n")
            && counted.contains("ended moves 0 steps 0 words 0 evaluated 5\n")
    );
    answers(&at, "batch --values after.bin", 0, &whole, "");
    let after = words_of(&at.read("after.bin"));
    assert_eq!(after[..5], [11, 6, 2, 2, 1]);
    assert_eq!(after[5..10], [16, 0, 0, 0, 0]);
    assert_eq!(after[15..], [3, 6, 2, 2, 1]);
    at.fails("batch --values tapes.bin", "tapes.bin: named for two things at once");
}

/// Every start is answered as by a run of its own, and the first is that of the seed by itself.
#[test]
fn a_seed_makes_many_starts() {
    let at = folder("many", "--seed 7 --starts 20 --budget 3");
    let (starts, tape) = (words_of(&at.read("starts.bin")), words_of(&at.read("tapes.bin")));
    assert_eq!((starts.len(), tape[1]), (20 * 5, 20));
    let printed = text(&at.run("batch").stdout);
    assert!(printed.ends_with(" ended 0 closed 0 refused 0\n"), "{printed}");
    let mut from = 2 + 2 * 20;
    for start in 0..20 {
        let (length, budget) = (tape[2 + 2 * start] as usize, tape[3 + 2 * start]);
        at.write("start.bin", bytes_of(&starts[5 * start..5 * start + 5]));
        at.write("tape.bin", bytes_of(&[&[budget], &tape[from..from + length]].concat()));
        from += length;
        let single = text(&at.run("run").stdout);
        assert!(printed.contains(&format!("start {start}\n{single}")), "{start}: {single}");
        assert_eq!(text(&at.run(&format!("batch --only {start}")).stdout), single);
    }
    assert_eq!(from, tape.len());
    at.prints("tape problem.tbv --seed 7 --budget 3", "");
    assert_eq!(words_of(&at.read("start.bin")), starts[..5]);
    let first = tape[2] as usize;
    assert_eq!(words_of(&at.read("tape.bin"))[1..=first], tape[2 + 2 * 20..][..first]);
    at.prints("tape problem.tbv here.bin there.bin --seed 7 --starts 20 --budget 3", "");
    assert_eq!((at.read("here.bin"), at.read("there.bin")), (at.read("starts.bin"), at.read("tapes.bin")));
}

#[test]
fn no_start_and_as_many_as_there_may_be() {
    let at = folder("none-and-most", "--starts 0");
    answers(&at, "batch", 3, "starts 0 model 0 spent 0 ended 0 closed 0 refused 0\n", "");
    at.prints("tape problem.tbv --starts 256 --words 0 --budget 1", "");
    let output = at.run("batch");
    assert!(text(&output.stdout).contains("\nstarts 256 model "), "{output:?}");
    at.misunderstood("tape problem.tbv --starts 257", &["257", "0..=256"]);
    at.misunderstood("tape problem.tbv --starts -1", &["-1"]);
    at.misunderstood("batch --only x", &["'x'", "--only <K>"]);
}

#[test]
fn refusals_of_the_whole_name_their_file() {
    let at = folder("whole-refused", "--starts 3 --budget 2");
    let refused = |line: &str, number: u32, why: &str| {
        let said = format!("walumpeh: {why}\n");
        answers(&at, line, 1, &format!("refused {number} at 0\n"), &said);
    };
    at.write("many.bin", tapes(&[(0, 0); 257], &[]));
    let lists = "more than 256 starts, or lengths or budgets that are not one a start";
    refused("batch problem.tbv starts.bin many.bin", 17, &format!("many.bin: refused 17 at 0: {lists}"));
    let sum = "the lengths' sum exceeds the tape";
    for (name, pairs) in [("one.bin", [(1, 1), (0, 1)]), ("over.bin", [(1 << 63, 1), (1 << 63, 1)])] {
        at.write(name, tapes(&pairs, &[]));
        refused(
            &format!("batch problem.tbv starts.bin {name}"),
            18,
            &format!("{name}: refused 18 at 0: {sum}"),
        );
    }
    at.write("few.bin", [0; 8 * 14]);
    let few = "fewer places than starts times nodes";
    refused("batch problem.tbv few.bin", 19, &format!("few.bin: refused 19 at 0: {few}"));
    at.write("bad.tbv", "TBx");
    refused("batch bad.tbv", 1, "bad.tbv: refused 1 at 0: fewer than 9 bytes");
}

/// What is no such file is said to be none; and a tape of one run is none.
#[test]
fn files_that_are_no_tapes() {
    let at = folder("no-tapes", "--starts 3");
    let none = "no tapes of many starts: walumpeh tape --starts makes them";
    at.fails("batch problem.tbv starts.bin tape.bin", &format!("tape.bin: {none}"));
    at.write("empty", "");
    at.fails("batch problem.tbv starts.bin empty", &format!("empty: {none}"));
    at.fails("batch problem.tbv starts.bin /dev/zero", &format!("/dev/zero: {none}"));
    let cut = &at.read("tapes.bin")[..8 * 7];
    at.write("cut.bin", cut);
    at.fails(
        "batch problem.tbv starts.bin cut.bin",
        "cut.bin: it ends before the lengths and budgets of all starts",
    );
    let missing = "No such file or directory (os error 2)";
    for line in ["batch none", "batch problem.tbv none", "batch problem.tbv starts.bin none"] {
        at.fails(line, &format!("none: {missing}"));
    }
    at.fails("batch problem.tbv starts.bin .", ".: Is a directory (os error 21)");
    answers_from_standard_input(&at);
}

fn answers_from_standard_input(at: &At) {
    let file = std::fs::File::open(at.path("tapes.bin")).unwrap();
    let piped = at.command("batch problem.tbv starts.bin -").stdin(file).output().unwrap();
    assert_eq!(piped.stdout, at.run("batch").stdout);
}
