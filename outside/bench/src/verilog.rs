//! Time to a model on problems made from Verilog, beside other solvers: whole processes, from start to end.
//!
//! Half of the problems, in `choose`, chose how the guide works; the other half, in `measure`, are only measured.

use crate::solved;
use std::path::{Path, PathBuf};
use std::process::{Command, Stdio};
use std::time::{Duration, Instant};

/// What is measured.
#[derive(clap::Args)]
pub struct Asked {
    /// The folder of problems
    #[arg(long, value_name = "FOLDER", default_value = "bench/verilog")]
    folder: PathBuf,
    /// Ours is run from so many seeds
    #[arg(long, default_value_t = 20)]
    seeds: usize,
    /// Another solver is run so often, in turns with ours
    #[arg(long, default_value_t = 5)]
    times: usize,
    /// The most that a process may take
    #[arg(long, default_value_t = 10)]
    seconds: u64,
    /// Count the processor's time, user and system, of each process: other work on the machine changes it less
    #[arg(long)]
    processor: bool,
    /// Measure ours alone
    #[arg(long)]
    ours: bool,
    /// Measure one half alone: choose or measure
    #[arg(long)]
    half: Option<String>,
    /// Measure problems alone that have this in their names
    #[arg(long, default_value = "")]
    only: String,
    /// Where a plot of solved problems over time is written to
    #[arg(long, value_name = "FILE")]
    svg: Option<PathBuf>,
}

/// A solver: its name, the file that it reads, and what it prints or its status where it is done.
struct Solver {
    name: &'static str,
    extension: &'static str,
    /// The words of its command, with %F for the file, %T for seconds, %M for milliseconds and %S for a seed.
    words: &'static [&'static str],
    done: fn(&Ended) -> bool,
}

/// How a process ended.
struct Ended {
    status: Option<i32>,
    printed: Vec<u8>,
    time: Duration,
}

const SOLVERS: [Solver; 5] = [
    Solver {
        name: "walumpeh",
        extension: "btor2",
        words: &["walumpeh", "solve", "%F", "--seed", "%S", "--time", "%T", "--jobs", "1"],
        done: |ended| ended.status == Some(10) || ended.status == Some(20),
    },
    Solver { name: "z3", extension: "smt2", words: &["z3", "-T:%T", "%F"], done: answered },
    Solver {
        name: "z3 qfbv-sls",
        extension: "smt2",
        words: &["z3", "-T:%T", "tactic.default_tactic=qfbv-sls", "%F"],
        done: answered,
    },
    Solver { name: "cvc5", extension: "smt2", words: &["cvc5", "--tlimit=%M", "%F"], done: answered },
    // Debian's 1.5 reads neither BTOR2 nor define-fun: it gets the problem as export --model writes it.
    Solver { name: "boolector", extension: "let", words: &["boolector", "-t", "%T", "%F"], done: answered },
];

fn answered(ended: &Ended) -> bool {
    ended.printed.split(|&byte| byte == b'\n').any(|line| line == b"sat" || line == b"unsat")
}

/// The times of a solver on a problem; none where it did not answer in time.
#[derive(Default)]
struct Times {
    each: Vec<Option<Duration>>,
}

impl Times {
    /// The middle one; of an even number the later of the two in the middle.
    fn median(&self) -> Option<Duration> {
        let mut sorted: Vec<Duration> = self.each.iter().map(|time| time.unwrap_or(Duration::MAX)).collect();
        sorted.sort();
        sorted.get(sorted.len() / 2).copied().filter(|&time| time < Duration::MAX)
    }

    /// Whether more than so many runs have failed: the others need not be waited for.
    fn has_failed(&self, most: usize) -> bool {
        self.each.len() - self.answered() > most
    }

    fn answered(&self) -> usize {
        self.each.iter().flatten().count()
    }

    fn shown(&self) -> String {
        self.median().map_or("-".into(), |time| format!("{:.1}", time.as_secs_f64() * 1000.0))
    }
}

/// A problem with every solver's times.
struct Row {
    half: String,
    name: String,
    times: Vec<Times>,
}

impl Row {
    fn has_model(&self) -> bool {
        !self.name.starts_with("unsat")
    }

    /// Which solver's median is the least.
    fn soonest(&self) -> Option<usize> {
        let medians = self.times.iter().enumerate().filter_map(|(at, times)| Some((times.median()?, at)));
        medians.min().map(|(_, at)| at)
    }
}

pub fn table(asked: &Asked) -> Result<(), String> {
    let solvers = if asked.ours { &SOLVERS[..1] } else { &SOLVERS[..] };
    let names: Vec<&str> = solvers.iter().map(|solver| solver.name).collect();
    println!("| problem | found | {} | soonest |", names.join(" | "));
    println!("|---|---|{}", "---|".repeat(names.len() + 1));
    let mut rows = Vec::new();
    for (half, name) in problems(asked)? {
        let row = Row { times: measured(asked, solvers, &half, &name)?, half, name };
        let each: Vec<String> = row.times.iter().map(Times::shown).collect();
        let soonest = row.soonest().map_or("-", |at| names[at]);
        let (found, of) = (row.times[0].answered(), row.times[0].each.len());
        println!("| {}/{} | {found} of {of} | {} | {soonest} |", row.half, row.name, each.join(" | "));
        rows.push(row);
    }
    sums(&rows, &names);
    match &asked.svg {
        Some(path) => write_plot(path, &rows, &names),
        None => Ok(()),
    }
}

/// The halves' names and the problems' in them.
fn problems(asked: &Asked) -> Result<Vec<(String, String)>, String> {
    let mut found = Vec::new();
    for half in ["choose", "measure"]
        .into_iter()
        .filter(|half| asked.half.as_deref().is_none_or(|only| only == *half))
    {
        let folder = asked.folder.join(half);
        let entries = std::fs::read_dir(&folder).map_err(|fault| format!("{}: {fault}", folder.display()))?;
        let paths = entries.filter_map(|entry| entry.ok().map(|entry| entry.path()));
        let names = paths.filter(|path| path.extension().is_some_and(|extension| extension == "btor2"));
        let stem = |path: PathBuf| path.file_stem().map(|name| name.to_string_lossy().into_owned());
        found.extend(
            names.filter_map(stem).filter(|name| name.contains(&asked.only)).map(|name| (half.into(), name)),
        );
    }
    found.sort();
    Ok(found)
}

/// Every solver's times on a problem. They take turns, so that whatever else the machine does falls on all alike.
fn measured(asked: &Asked, solvers: &[Solver], half: &str, name: &str) -> Result<Vec<Times>, String> {
    let stem = asked.folder.join(half).join(name);
    let made: Vec<Made> = solvers.iter().map(|solver| Made::new(solver, &stem)).collect::<Result<_, _>>()?;
    let mut times: Vec<Times> = solvers.iter().map(|_| Times::default()).collect();
    for round in 0..asked.times {
        for ((solver, made), times) in solvers.iter().zip(&made).zip(&mut times) {
            let count = count(asked, solver, name);
            // Another seed may do better; another run of the same will not.
            let most = if solver.name == "walumpeh" { count / 2 } else { 0 };
            for seed in count * round / asked.times + 1..=count * (round + 1) / asked.times {
                if !times.has_failed(most) {
                    let ended = run(asked, solver, &made.path, seed)?;
                    times.each.push((solver.done)(&ended).then_some(ended.time));
                }
            }
        }
    }
    Ok(times)
}

/// How often a solver is run on a problem: ours from every seed, or once where there is no model to be found.
fn count(asked: &Asked, solver: &Solver, name: &str) -> usize {
    match (solver.name, name.starts_with("unsat")) {
        ("walumpeh", true) => 1,
        ("walumpeh", false) => asked.seeds,
        _ => asked.times,
    }
}

fn run(asked: &Asked, solver: &Solver, file: &Path, seed: usize) -> Result<Ended, String> {
    let word = |word: &&str| {
        let (seconds, milliseconds) = (asked.seconds.to_string(), (1000 * asked.seconds).to_string());
        let word = word.replace("%T", &seconds).replace("%M", &milliseconds);
        word.replace("%S", &seed.to_string()).replace("%F", &file.to_string_lossy())
    };
    let mut words = solver.words.iter().map(word);
    let program = program(&words.next().expect("a command"));
    let mut command = Command::new(&program);
    command.args(words).stdin(Stdio::null()).stdout(Stdio::piped()).stderr(Stdio::null());
    let (begun, used) = (Instant::now(), used());
    let output = command.output().map_err(|fault| format!("{}: {fault}", program.display()))?;
    let time = if asked.processor { self::used() - used } else { begun.elapsed() };
    Ok(Ended { status: output.status.code(), printed: output.stdout, time })
}

/// The processor's time of all processes that were started here and have ended.
fn used() -> Duration {
    // SAFETY: all zeros are a value of it, and the call writes to nothing else.
    let usage = unsafe {
        let mut usage: libc::rusage = std::mem::zeroed();
        assert_eq!(libc::getrusage(libc::RUSAGE_CHILDREN, &mut usage), 0);
        usage
    };
    let time = |time: libc::timeval| Duration::new(time.tv_sec as u64, 1000 * time.tv_usec as u32);
    time(usage.ru_utime) + time(usage.ru_stime)
}

/// The file that a solver reads; one that was made for it is gone afterwards.
struct Made {
    path: PathBuf,
    is_new: bool,
}

impl Made {
    fn new(solver: &Solver, stem: &Path) -> Result<Made, String> {
        if solver.extension != "let" {
            return Ok(Made { path: stem.with_extension(solver.extension), is_new: false });
        }
        let path = std::env::temp_dir().join(format!("walumpeh-bench-{}.smt2", std::process::id()));
        let shown = |path: &Path, fault: String| format!("{}: {fault}", path.display());
        let from = stem.with_extension("btor2");
        let text = std::fs::read(&from).map_err(|fault| shown(&from, fault.to_string()))?;
        let problem = model::btor2::convert(&text, walumpeh::LONGEST_PROBLEM)
            .map_err(|fault| shown(&from, format!("line {}: {}", fault.line, fault.what)))?;
        let names: Vec<String> = problem.variables().map(|id| format!("n{id}")).collect();
        let roots: Vec<(usize, u64)> = problem.roots.iter().map(|&root| (root.into(), 1)).collect();
        let asked = text::smt2::model(&problem, &names, &roots);
        let lines = asked.lines().filter(|line| !line.contains("set-option") && !line.contains("get-model"));
        let written = std::fs::write(
            &path,
            lines.chain(["(exit)"]).map(|line| format!("{line}\n")).collect::<String>(),
        );
        written.map_err(|fault| shown(&path, fault.to_string()))?;
        Ok(Made { path, is_new: true })
    }
}

impl Drop for Made {
    fn drop(&mut self) {
        if self.is_new {
            let _ = std::fs::remove_file(&self.path);
        }
    }
}

/// Ours lies beside this program; the others are on the path.
fn program(name: &str) -> PathBuf {
    let own = std::env::current_exe().ok().map(|own| own.with_file_name(name));
    own.filter(|own| name == "walumpeh" && own.exists()).unwrap_or(name.into())
}

/// What a half comes to.
fn sums(rows: &[Row], names: &[&str]) {
    for half in ["choose", "measure"] {
        let rows: Vec<&Row> = rows.iter().filter(|row| row.half == half && row.has_model()).collect();
        if rows.is_empty() {
            continue;
        }
        let solved = |at: usize| rows.iter().filter(|row| row.times[at].median().is_some()).count();
        let soonest = |at: usize| rows.iter().filter(|row| row.soonest() == Some(at)).count();
        println!("\n{half}: {} problems with a model", rows.len());
        for (at, name) in names.iter().enumerate() {
            println!("{name}: found on {}, soonest on {}", solved(at), soonest(at));
        }
        let runs: usize = rows.iter().map(|row| row.times[0].each.len()).sum();
        let found: usize = rows.iter().map(|row| row.times[0].answered()).sum();
        println!("ours: {found} of {runs} runs");
    }
}

/// Over time, how many problems of the measured half have a model.
fn write_plot(path: &Path, rows: &[Row], names: &[&str]) -> Result<(), String> {
    let rows: Vec<&Row> = rows.iter().filter(|row| row.half == "measure" && row.has_model()).collect();
    let times = |at: usize| {
        rows.iter().filter_map(|row| row.times[at].median()).map(|time| time.as_secs_f64()).collect()
    };
    let lines: Vec<(&str, Vec<f64>)> =
        names.iter().enumerate().map(|(at, name)| (*name, times(at))).collect();
    std::fs::write(path, solved::plot(&lines, rows.len()))
        .map_err(|fault| format!("{}: {fault}", path.display()))
}
