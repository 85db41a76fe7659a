//! Time to a model on satisfiable families: the library with tapes from seeds, z3's default and z3's
//! own local search.

use generate::families::{deep, frame, mixed, products, start};
use generate::solved::Solved;
use generate::tape::{drawn, Drawn, Manner};
use generate::Rng;
use model::run::Search;
use std::io::Write;
use std::process::{Command, Stdio};
use std::time::{Duration, Instant};
use text::smt2::{nodes, roots, Variables};

const ATTEMPTS: u64 = 20;

fn problems() -> Vec<(&'static str, Solved)> {
    vec![
        ("frame 8", frame(1, 8)),
        ("frame 32", frame(1, 32)),
        ("frame 128", frame(1, 128)),
        ("products 4 x 16 bits", products(2, 4, 16)),
        ("products 4 x 32 bits", products(2, 4, 32)),
        ("products 16 x 32 bits", products(2, 16, 32)),
        ("deep 64", deep(3, 64)),
        ("deep 256", deep(3, 256)),
        ("deep 1024", deep(3, 1024)),
        ("mixed 100", mixed(4, 100)),
        ("mixed 500", mixed(4, 500)),
    ]
}

pub fn table(seconds: u64) -> Result<(), String> {
    println!("milliseconds to a model, at most {seconds} s each; the library's are of its runs alone, tapes drawn beforehand, z3's include its start; up to {ATTEMPTS} from different seeds");
    println!("{:22} {:>12} {:>9}   {:>12}   {:>12}", "problem", "library", "moves", "z3", "z3 qfbv-sls");
    for (name, solved) in problems() {
        let ours = by_library(&solved, Duration::from_secs(seconds));
        let text = format!(
            "(set-logic QF_BV)\n{}{}",
            nodes(&solved.problem, "", Variables::Open),
            roots(&solved.problem, "")
        );
        let default = by_z3(&format!("{text}(check-sat)\n"), seconds)?;
        let local = by_z3(&format!("{text}(check-sat-using qfbv-sls)\n"), seconds)?;
        let shown = |time: Option<Duration>| {
            time.map_or("-".into(), |time| format!("{:.2}", time.as_secs_f64() * 1000.0))
        };
        println!(
            "{name:22} {:>12} {:>9}   {:>12}   {:>12}",
            shown(ours.map(|(time, _)| time)),
            ours.map_or("-".into(), |(_, moves)| moves.to_string()),
            shown(default),
            shown(local)
        );
    }
    Ok(())
}

/// The time of the library's runs up to the first model, and their moves.
fn by_library(solved: &Solved, limit: Duration) -> Option<(Duration, u64)> {
    let bytes = solved.problem.bytes();
    let (mut time, mut moves) = (Duration::ZERO, 0);
    let begun = Instant::now();
    for seed in 0..ATTEMPTS {
        let mut values = start(seed, solved);
        let search = Search::accept(&bytes, &values).expect("a start that agrees");
        let words = Drawn::new(Rng::words(seed), Manner::USUAL, usize::MAX);
        let (tape, _) = drawn(&search, &values, 10_000, words);
        let run = Instant::now();
        let answer = walumpeh::run(&bytes, &mut values, &tape, 10_000);
        time += run.elapsed();
        let answer = answer.expect("a start that agrees");
        moves += answer.moves;
        if answer.verdict == walumpeh::Verdict::Model {
            return Some((time, moves));
        }
        if begun.elapsed() > limit {
            return None;
        }
    }
    None
}

/// The time of z3 to answer sat, its start included.
fn by_z3(text: &str, seconds: u64) -> Result<Option<Duration>, String> {
    let program = std::env::var("Z3").unwrap_or("z3".into());
    let begun = Instant::now();
    let mut solver = Command::new(&program)
        .args(["-smt2", "-in", &format!("-T:{seconds}")])
        .stdin(Stdio::piped())
        .stdout(Stdio::piped())
        .stderr(Stdio::null())
        .spawn()
        .map_err(|fault| format!("{program}: {fault}"))?;
    let written = solver.stdin.take().expect("piped").write_all(text.as_bytes());
    let output = solver.wait_with_output().map_err(|fault| format!("{program}: {fault}"))?;
    written.map_err(|fault| format!("{program}: {fault}"))?;
    Ok((output.stdout.starts_with(b"sat")).then(|| begun.elapsed()))
}
