//! The comparison's command line.

use clap::{Parser, ValueEnum};
use compare::narrow::{self, Extent};
use compare::runs::{self, Counts, Difference};
use compare::{
    batches, btor2, fixed, gatherings, mends, models, need, program, refused, wide, Batches, Converts,
    Library, Mender, Plain, Subject,
};
use model::{Kind, Verdict};
use std::path::{Path, PathBuf};
use std::process::ExitCode;
use std::time::Instant;

/// Hold the proved library, or the search in plain Rust, against the model
///
/// The status is not 0 where anything differs or a verdict or refusal is never reached.
#[derive(Parser)]
#[command(name = "compare")]
struct Line {
    #[command(subcommand)]
    what: What,
    /// What is compared with the model
    #[arg(long, global = true, value_enum, default_value_t = Side::Library)]
    subject: Side,
    /// The same seed gives the same cases on every machine
    #[arg(long, global = true, default_value_t = 1)]
    seed: u64,
}

#[derive(Clone, Copy, ValueEnum)]
enum Side {
    Library,
    Plain,
}

#[derive(Parser)]
enum What {
    /// Picks, essential tests and fixed bits of every kind and position
    ///
    /// At 1 to 4 bits over all operands, values, targets and proposals, against the definitions; and at
    /// random at 33 to 64 bits. Fixed bits over all ternary words of 1 to 3 bits, those of sums to 5.
    Picks {
        /// Of an operator with more spots than this, so many by chance
        #[arg(long, default_value_t = 262_144)]
        spots: u64,
        /// So many cases of each kind and position at 33 to 64 bits
        #[arg(long, default_value_t = 20_000)]
        cases: u64,
    },
    /// Checks and whole runs; the first difference is shown
    Runs {
        #[arg(long, default_value_t = 300_000)]
        cases: u64,
        /// Where the files of a difference are written to
        #[arg(long, value_name = "FOLDER", default_value = "differences")]
        out: PathBuf,
    },
    /// Pairs of runs: with a greater budget and a longer tape nothing that was found is lost
    More {
        #[arg(long, default_value_t = 200_000)]
        cases: u64,
        /// Where the files of a difference are written to
        #[arg(long, value_name = "FOLDER", default_value = "differences")]
        out: PathBuf,
    },
    /// Many starts of one problem at once, and each by a run of its own; with every refusal
    Batches {
        #[arg(long, default_value_t = 20_000)]
        cases: u64,
    },
    /// Solutions that differ on named variables; with every refusal, and more of them than there is room for
    Gatherings {
        #[arg(long, default_value_t = 20_000)]
        cases: u64,
    },
    /// Guided runs: the guide's moves, steps, words and values, and whether they are a model
    Guided {
        #[arg(long, default_value_t = 100_000)]
        cases: u64,
        /// Where the files of a difference are written to
        #[arg(long, value_name = "FOLDER", default_value = "differences")]
        out: PathBuf,
    },
    /// Problems that use every word of the tape that they may need, and say ended with one word less
    Need,
    /// What is said of other solvers' models: get-model answers well formed, damaged, and with every refusal
    Models {
        #[arg(long, default_value_t = 100_000)]
        cases: u64,
        /// Where the files of a difference are written to
        #[arg(long, value_name = "FOLDER", default_value = "differences")]
        out: PathBuf,
    },
    /// Files whose nodes stand in any order, mended: well formed, damaged and circular, with every refusal
    Mends {
        #[arg(long, default_value_t = 100_000)]
        cases: u64,
        /// Where the file of a difference is written to
        #[arg(long, value_name = "FOLDER", default_value = "differences")]
        out: PathBuf,
    },
    /// What BTOR2 texts are converted to: valid ones up to all limits, and as many damaged ones; and constraints against roots
    Btor2 {
        #[arg(long, default_value_t = 100_000)]
        cases: u64,
        /// Where the text of a difference is written to
        #[arg(long, value_name = "FOLDER", default_value = "differences")]
        out: PathBuf,
    },
    /// The whole output of a program that does as tvrun does, run in a folder of its own
    Program {
        program: PathBuf,
        #[arg(long, default_value_t = 1000)]
        cases: u64,
    },
}

fn main() -> ExitCode {
    let line = Line::parse();
    println!("seed {}", line.seed);
    let compared = match line.subject {
        Side::Library => {
            if walumpeh::raw::IS_STUB {
                println!("the proved library is not linked: the model stands in for it");
            }
            compare(&Library, &line)
        }
        Side::Plain => compare(&Plain, &line),
    };
    match compared {
        Ok(()) => ExitCode::SUCCESS,
        Err(fault) => {
            eprintln!("compare: {fault}");
            ExitCode::FAILURE
        }
    }
}

fn compare(subject: &(impl Subject + Batches + Mender + Converts), line: &Line) -> Result<(), String> {
    match &line.what {
        What::Picks { spots, cases } => picks(subject, line.seed, *spots, *cases),
        What::Runs { cases, out } => whole_runs(subject, line.seed, *cases, out),
        What::More { cases, out } => pairs(subject, line.seed, *cases, out),
        What::Batches { cases } => whole_batches(subject, line.seed, *cases),
        What::Gatherings { cases } => whole_gatherings(line, *cases),
        What::Guided { cases, out } => guided_runs(subject, line.seed, *cases, out),
        What::Need => whole_tapes(subject, line.seed),
        What::Models { cases, out } => answers(line, *cases, out),
        What::Mends { cases, out } => mended(subject, line.seed, *cases, out),
        What::Btor2 { cases, out } => conversions(subject, line.seed, *cases, out),
        What::Program { program, cases } => whole_outputs(program, line.seed, *cases),
    }
}

fn whole_outputs(program: &Path, seed: u64, cases: u64) -> Result<(), String> {
    let start = Instant::now();
    let program = program.canonicalize().map_err(|fault| format!("{}: {fault}", program.display()))?;
    let folder = std::env::temp_dir().join(format!("compare-program-{}", std::process::id()));
    let compared = program::compare(&program, &folder, seed, cases);
    let verdicts = compared.map_err(|d| format!("difference: {d}its files are in {}", folder.display()))?;
    std::fs::remove_dir_all(&folder).map_err(|fault| format!("{}: {fault}", folder.display()))?;
    println!("program: {cases} outputs, {verdicts} with a verdict, no difference, {}", seconds(start));
    Ok(())
}

fn whole_tapes(subject: &impl Subject, seed: u64) -> Result<(), String> {
    let start = Instant::now();
    let problems = need::compare_tight(subject, seed).map_err(|d| format!("difference: {d}"))?;
    println!(
        "need: {problems} problems use every word and end with one less, no difference, {}",
        seconds(start)
    );
    Ok(())
}

fn picks(subject: &impl Subject, seed: u64, spots: u64, cases: u64) -> Result<(), String> {
    let start = Instant::now();
    let extent = Extent { operand: 4, node: 8, whole: 6, spots, seed };
    let counts = narrow::compare(subject, extent).map_err(|d| format!("difference: {d}"))?;
    println!(
        "{:8} {:>9} {:>9} {:>12} {:>12} {:>11}",
        "kind", "operators", "spots", "picks", "narrowed", "essentials"
    );
    for (kind, count) in Kind::ALL.iter().zip(counts).skip(2) {
        println!(
            "{:8} {:>9} {:>9} {:>12} {:>12} {:>11}",
            kind.name(),
            count.operators,
            count.spots,
            count.picks,
            count.narrowed,
            count.essentials
        );
    }
    let picks: u64 = counts.iter().map(|count| count.picks).sum();
    let narrowed: u64 = counts.iter().map(|count| count.narrowed).sum();
    println!(
        "narrow: {picks} picks, {narrowed} from sets that the others' fixed bits make smaller, no difference, {}",
        seconds(start)
    );
    let start = Instant::now();
    let found = wide::compare(subject, cases, seed).map_err(|d| format!("difference: {d}"))?;
    println!(
        "wide: {cases} cases of each kind and position, {} values picked, {} picks changed by the others' fixed bits, no difference, {}",
        found.values,
        found.narrowed,
        seconds(start)
    );
    fixed_bits("at few bits", || fixed::compare_narrow(subject))?;
    fixed_bits("at 33 to 64 bits", || fixed::compare_wide(subject, cases, seed))?;
    let calls = refused::compare(subject, 500, seed).map_err(|d| format!("difference: {d}"))?;
    println!("refused: {calls} calls, none let through");
    Ok(())
}

fn fixed_bits(at: &str, compare: impl Fn() -> Result<fixed::Count, String>) -> Result<(), String> {
    let start = Instant::now();
    let count = compare().map_err(|d| format!("difference: {d}"))?;
    println!(
        "fixed bits {at}: {} nodes, {} of them sums ({} with a bit fixed above the lowest free one), {} runs, {} closed, no difference, {}",
        count.nodes,
        count.sums,
        count.sums_fixed_above,
        count.runs,
        count.closed,
        seconds(start)
    );
    Ok(())
}

fn whole_runs(subject: &impl Subject, seed: u64, cases: u64, out: &Path) -> Result<(), String> {
    let start = Instant::now();
    let counts = runs::compare(subject, seed, cases).map_err(|difference| kept(&difference, seed, out))?;
    show(&counts);
    println!(
        "{} cases, {} moves, {} steps, {} nodes evaluated, no difference, {}",
        counts.cases,
        counts.moves,
        counts.steps,
        counts.evaluated,
        seconds(start)
    );
    match counts.missing().as_slice() {
        [] => Ok(()),
        missing => Err(format!("never reached: {}", missing.join(", "))),
    }
}

fn pairs(subject: &impl Subject, seed: u64, cases: u64, out: &Path) -> Result<(), String> {
    let start = Instant::now();
    let counts =
        runs::compare_more(subject, seed, cases).map_err(|difference| kept(&difference, seed, out))?;
    let names = Verdict::ALL.map(Verdict::name).into_iter().chain(["refused"]);
    let shown: Vec<String> = names.zip(counts).map(|(name, count)| format!("{name} {count}")).collect();
    println!("more: {cases} pairs of runs ({}), no difference, {}", shown.join(", "), seconds(start));
    match counts.contains(&0) {
        true => Err("a verdict was never reached".into()),
        false => Ok(()),
    }
}

fn whole_batches(subject: &(impl Subject + Batches), seed: u64, cases: u64) -> Result<(), String> {
    let start = Instant::now();
    let counts = batches::compare(subject, seed, cases).map_err(|difference| {
        let (index, what) = (difference.index, difference.what);
        format!("difference at batch {index} of seed {seed}: {what}; {:?}", difference.batch)
    })?;
    for (number, count) in counts.calls.iter().enumerate().skip(1).filter(|(_, count)| **count > 0) {
        println!("refusal {number:<3} {count:>8}");
    }
    let shown: Vec<String> = counts.by_verdict().map(|(name, count)| format!("{name} {count}")).collect();
    println!("starts of calls that are not refused: {}", shown.join(", "));
    println!("refused between others {}, without a word {}", counts.between, counts.empty);
    println!("calls of no start {}, of 256 {}", counts.none, counts.most);
    println!("lengths whose sum passes 2^64 {}, small modulo 2^64 {}", counts.over, counts.over_unseen);
    println!("every order of two, the earlier told, {} times or more", counts.rarest());
    println!("batches: {cases} calls, {} not refused, no difference, {}", counts.calls[0], seconds(start));
    match counts.missing().as_slice() {
        [] => Ok(()),
        missing => Err(format!("never reached: {}", missing.join(", "))),
    }
}

fn whole_gatherings(line: &Line, cases: u64) -> Result<(), String> {
    if let Side::Plain = line.subject {
        return Err("plain Rust does not gather".into());
    }
    let start = Instant::now();
    let counts = gatherings::compare(&Library, line.seed, cases).map_err(|difference| {
        let (index, what) = (difference.index, difference.what);
        format!("difference at gathering {index} of seed {}: {what}; {:?}", line.seed, difference.gathering)
    })?;
    for (number, count) in counts.calls.iter().enumerate().skip(1).filter(|(_, count)| **count > 0) {
        println!("refusal {number:<3} {count:>8}");
    }
    println!("kept {}, repeats {}, unkept {}", counts.kept, counts.repeats, counts.unkept);
    println!("calls that fill the room {}, with repeats after that {}", counts.full, counts.repeats_after);
    println!("every order of two, the earlier told, {} times or more", counts.rarest());
    println!("gatherings: {cases} calls, {} not refused, no difference, {}", counts.calls[0], seconds(start));
    match counts.missing().as_slice() {
        [] => Ok(()),
        missing => Err(format!("never reached: {}", missing.join(", "))),
    }
}

fn guided_runs(subject: &impl Subject, seed: u64, cases: u64, out: &Path) -> Result<(), String> {
    let start = Instant::now();
    let counts =
        compare::guided::compare(subject, seed, cases).map_err(|difference| kept(&difference, seed, out))?;
    println!(
        "guided: {cases} runs (model {}, {} of them by linear equations, spent {}, closed {}), {} moves, {} steps, {} walks tried, no difference, {}",
        counts.models,
        counts.led,
        counts.spent,
        counts.closed,
        counts.moves,
        counts.steps,
        counts.tried,
        seconds(start)
    );
    match [counts.models, counts.led, counts.spent, counts.closed].contains(&0) {
        true => Err("a verdict was never reached, or no model by equations".into()),
        false => Ok(()),
    }
}

fn answers(line: &Line, cases: u64, out: &Path) -> Result<(), String> {
    if let Side::Plain = line.subject {
        return Err("plain Rust does not read other solvers' models".into());
    }
    let start = Instant::now();
    let kept = |difference: Box<models::Difference>| {
        let written = written(models::write_files(&difference.answer, out), out);
        let (index, what) = (difference.index, difference.what);
        format!("difference at answer {index} of seed {}: {what}; {written}", line.seed)
    };
    let counts = models::compare(&Library, line.seed, cases).map_err(kept)?;
    let damaged = models::compare_each_byte(&Library, line.seed).map_err(kept)?;
    println!("yes {:>8}\nno  {:>8}", counts.yes, counts.no);
    for number in (1..counts.refusals.len()).filter(|&number| counts.refusals[number] > 0) {
        println!("refusal {number:<3} {:>8}", counts.refusals[number]);
    }
    println!("every order of two of refusals 30 to 36, the earlier told, {} times or more", counts.rarest());
    println!(
        "models: {cases} answers, {damaged} more with one byte damaged, no difference, {}",
        seconds(start)
    );
    match counts.missing().as_slice() {
        [] => Ok(()),
        missing => Err(format!("never reached: {}", missing.join(", "))),
    }
}

fn mended(subject: &impl Mender, seed: u64, cases: u64, out: &Path) -> Result<(), String> {
    let start = Instant::now();
    let counts = mends::compare(subject, seed, cases).map_err(|difference| {
        let written = written(mends::write_files(&difference.file, out), out);
        format!("difference at file {} of seed {seed}: {}; {written}", difference.index, difference.what)
    })?;
    println!("byte for byte {:>8}\nput in order  {:>8}", counts.same, counts.moved);
    for number in (1..counts.refusals.len()).filter(|&number| counts.refusals[number] > 0) {
        println!("refusal {number:<5} {:>8}", counts.refusals[number]);
    }
    println!(
        "refusals 10 to 12 told by an old id where the problem check says another: {}",
        counts.told_by_old_id
    );
    println!("nodes whose values solve the file as it stood: {}", counts.nodes);
    println!("mends: {cases} files, no difference, {}", seconds(start));
    match counts.missing().as_slice() {
        [] => Ok(()),
        missing => Err(format!("never reached: {}", missing.join(", "))),
    }
}

fn conversions(subject: &impl Converts, seed: u64, cases: u64, out: &Path) -> Result<(), String> {
    let start = Instant::now();
    let counts = btor2::compare(subject, seed, cases).map_err(|difference| {
        let written = written(btor2::write_files(&difference.case, out), out);
        format!("difference at {} of seed {seed}: {}; {written}", difference.name, difference.what)
    })?;
    println!("converted {:>8}", counts.converted);
    for (number, count) in counts.refusals.iter().enumerate().skip(1) {
        println!("refusal {number} {count:>8}");
    }
    let extents: Vec<String> = counts.extents().map(|(extent, count)| format!("{extent} {count}")).collect();
    println!("limits: {}", extents.join(", "));
    let used: Vec<String> =
        counts.keywords.iter().map(|(keyword, count)| format!("{keyword} {count}")).collect();
    println!("lines converted: {}", used.join(", "));
    println!("negative references {}, other names of a node {}", counts.negative, counts.names);
    println!("every order of two refusals on one line, the earlier told, {} times or more", counts.rarest());
    println!(
        "values of the inputs: {} meet all constraints, {} do not, and so do the roots",
        counts.met, counts.unmet
    );
    println!("btor2: {cases} valid and {cases} damaged texts, no difference, {}", seconds(start));
    match counts.missing().as_slice() {
        [] => Ok(()),
        missing => Err(format!("never reached: {}", missing.join(", "))),
    }
}

/// A difference in words, its files written to a folder.
fn kept(difference: &Difference, seed: u64, out: &Path) -> String {
    let written = written(runs::write_files(&difference.case, out), out);
    format!("difference at case {} of seed {seed}: {}; {written}", difference.index, difference.what)
}

fn written(files: std::io::Result<()>, out: &Path) -> String {
    match files {
        Ok(()) => format!("its files are in {}", out.display()),
        Err(fault) => format!("its files could not be written to {}: {fault}", out.display()),
    }
}

fn show(counts: &Counts) {
    for verdict in Verdict::ALL {
        println!("verdict {:7} {:>8}", verdict.name(), counts.verdicts[verdict as usize]);
    }
    for number in runs::refusals() {
        println!("refusal {number:<7} {:>8}", counts.refusals[number]);
    }
    println!(
        "{:8} {:>29}   {:>29}   {:>7}",
        "steps", "by the inverse set: a, b, c", "by the consistent set: a, b, c", "blocked"
    );
    for kind in Kind::ALL.into_iter().skip(2) {
        let row = counts.followed[kind as usize];
        let shown = |set: usize| -> String {
            let followed = row[..kind.operands()].iter().map(|sets| format!(" {:>9}", sets[set]));
            format!("{:30}", followed.collect::<String>())
        };
        println!("{:8} {}  {}   {:>7}", kind.name(), shown(0), shown(1), counts.blocked[kind as usize]);
    }
    println!("models promised by demand 3, and found within its bounds: {}", counts.promised);
    println!("checks of damaged copies: {}, refused {}", counts.checks, counts.checks_refused);
    println!("runs that were lent the words of their need, none ended: {}", counts.served);
}

fn seconds(since: Instant) -> String {
    format!("{:.1} s", since.elapsed().as_secs_f64())
}
