//! Real answers to get-model: z3's and cvc5's, with values in each of their forms, quoted and reserved names. The
//! library must say yes to each, and of a changed one what z3 says.

use crate::solver::{self, Solver};
use generate::solved::Solved;
use generate::{families, random, Rng};
use model::judged::assigned;
use model::Problem;
use std::collections::HashMap;
use text::smt2::{model, nodes, pin, roots, symbol, Variables};
use walumpeh::{Judged, Refusal};

/// What the solvers are asked by, and how they print values.
const SOLVERS: [(&str, Solver); 4] = [
    ("z3 #x", Solver::Z3(&["-T:20"])),
    ("z3 bv", Solver::Z3(&["-T:20", "pp.bv_literals=false"])),
    ("cvc5 #b", Solver::Cvc5(&["--tlimit=20000"])),
    ("cvc5 bv", Solver::Cvc5(&["--tlimit=20000", "--bv-print-consts-as-indexed-symbols"])),
];

/// Names beside n0, n1, ..: those that take bars, and those that solvers print without them.
const NAMES: [&str; 16] = [
    "a b",
    "let",
    "par",
    "define-fun",
    "model",
    "9",
    "x;y",
    "q\"r",
    "(",
    "assert",
    "x!",
    "[3]",
    "~/@",
    "X",
    "x",
    "check-sat",
];

/// How many answers there were, and what was said of changed ones.
#[derive(Clone, Debug, Default)]
pub struct Counts {
    pub answers: [u64; SOLVERS.len()],
    pub unanswered: u64,
    pub solve: u64,
    pub do_not: u64,
    pub contradict: u64,
}

impl Counts {
    pub fn shown(&self) -> String {
        let answers: u64 = self.answers.iter().sum();
        let each: Vec<String> =
            SOLVERS.iter().zip(self.answers).map(|((name, _), count)| format!("{name} {count}")).collect();
        format!(
            "{answers} ({}), all yes; changed ones as z3 judges them: {} solve, {} do not, {} contradict a fixed bit; {} not found in time",
            each.join(", "), self.solve, self.do_not, self.contradict, self.unanswered
        )
    }

    pub fn complete(&self) -> bool {
        !self.answers.contains(&0) && self.solve > 0 && self.do_not > 0 && self.contradict > 0
    }
}

/// An answer with one value changed, and whether the library says yes.
struct Changed {
    problem: Problem,
    values: Vec<(usize, u64)>,
    yes: bool,
    text: String,
}

/// Compares the answers to `problems` problems with a solution, each by every solver and form.
pub fn compare(problems: u64, seed: u64) -> Result<Counts, String> {
    let mut counts = Counts::default();
    let mut changed = Vec::new();
    for index in 0..problems {
        let rng = &mut Rng::of_case(seed, index);
        let Solved { problem, .. } = solvable(rng);
        let names = names(rng, &problem);
        let symbols: Vec<String> = names.iter().filter_map(|name| symbol(name)).collect();
        let ones: Vec<(usize, u64)> = problem.roots.iter().map(|&root| (root.into(), 1)).collect();
        let question = model(&problem, &symbols, &ones);
        let asked = Asked { problem, names };
        for (at, (name, solver)) in SOLVERS.iter().enumerate() {
            let (printed, _) = solver::printed(*solver, question.clone())?;
            let fault = |what: String| format!("problem {index}, {name}: {what} of {printed}");
            let Some(answer) = model_of(&printed).map_err(fault)? else {
                counts.unanswered += 1;
                continue;
            };
            asked.solved_by(answer, &printed).map_err(fault)?;
            counts.answers[at] += 1;
            changed.push(asked.changed(rng, answer, &mut counts).map_err(fault)?);
        }
    }
    judged_alike(&changed)?;
    counts.solve += changed.iter().flatten().filter(|one| one.yes).count() as u64;
    Ok(counts)
}

/// The model that a solver printed for a problem with a solution; none where it ran out of time.
fn model_of(printed: &str) -> Result<Option<&str>, String> {
    match printed.split_once('\n') {
        Some(("sat", answer)) => Ok(Some(answer)),
        Some(("unknown" | "timeout" | "cvc5 interrupted by timeout.", _)) | None => Ok(None),
        Some((first, _)) => Err(format!("'{first}'")),
    }
}

/// A problem with a solution that a solver finds soon.
fn solvable(rng: &mut Rng) -> Solved {
    let seed = rng.word();
    match rng.below(10) {
        0 => families::frame(seed, 4),
        1 => families::products(seed, 2, 8),
        2 => families::deep(seed, 32),
        _ => {
            let size = random::size(rng).clamp(2, 30);
            families::mixed(seed, size)
        }
    }
}

/// Names for a problem's variables: n and the id, or some of those above among them.
fn names(rng: &mut Rng, problem: &Problem) -> Vec<String> {
    let mut names: Vec<String> = problem.variables().map(|id| format!("n{id}")).collect();
    if rng.chance(70) {
        let mut left = NAMES.to_vec();
        for name in &mut names {
            if rng.chance(60) && !left.is_empty() {
                *name = left.remove(rng.below(left.len())).into();
            }
        }
    }
    names
}

/// A problem that a solver was asked, with the names of its variables.
struct Asked {
    problem: Problem,
    names: Vec<String>,
}

impl Asked {
    fn judged(&self, text: &str) -> Result<Judged, Refusal> {
        walumpeh::model(&self.problem.bytes(), self.names.join("\n").as_bytes(), text.as_bytes())
    }

    /// The answer must be a yes, also as older solvers begin it; with the line before it, it is refused.
    fn solved_by(&self, answer: &str, printed: &str) -> Result<(), String> {
        let older = answer.replacen('(', "(model", 1);
        for text in [answer, &older] {
            match self.judged(text) {
                Ok(Judged::Yes) => {}
                other => return Err(format!("{other:?}")),
            }
        }
        match self.judged(printed) {
            Err(Refusal { number: 31, place: 0 }) => Ok(()),
            other => Err(format!("{other:?}, with the line 'sat'")),
        }
    }

    /// The answer with one value changed; none where there is no value.
    fn changed(&self, rng: &mut Rng, answer: &str, counts: &mut Counts) -> Result<Option<Changed>, String> {
        let Some(text) = with_another_value(rng, answer) else {
            return Ok(None);
        };
        let given: HashMap<&[u8], u64> =
            assigned(text.as_bytes()).ok_or("no answer any more")?.into_iter().collect();
        let values: Vec<(usize, u64)> = (self.problem.variables().zip(&self.names))
            .map(|(id, name)| (id, given[name.as_bytes()]))
            .collect();
        let yes = match self.judged(&text) {
            Ok(Judged::Yes) => true,
            Ok(Judged::No(_)) => {
                counts.do_not += 1;
                false
            }
            Err(Refusal { number: 36, .. }) => {
                counts.contradict += 1;
                false
            }
            Err(refusal) => return Err(refusal.to_string()),
        };
        Ok(Some(Changed { problem: self.problem.clone(), values, yes, text }))
    }
}

/// A text with another digit in one of its values: names that hold `#b`, `#x` or `bv` are not among ours.
fn with_another_value(rng: &mut Rng, text: &str) -> Option<String> {
    let starts = |mark: &'static str, base: u32| {
        text.match_indices(mark).map(move |(at, mark)| (at + mark.len(), base)).collect::<Vec<_>>()
    };
    let values = [starts("#b", 2), starts("#x", 16), starts("bv", 10)].concat();
    if values.is_empty() {
        return None;
    }
    (0..50).find_map(|_| {
        let (start, base) = rng.one_of(&values);
        with_another_digit(rng, text, start, base)
    })
}

/// The text with another digit in the value that starts at a place; none where it cannot have one.
fn with_another_digit(rng: &mut Rng, text: &str, start: usize, base: u32) -> Option<String> {
    let length = text[start..].find(|c: char| !c.is_digit(base)).unwrap_or(text.len() - start);
    // The first digit of a decimal stays, and none becomes greater: the value must fit its width.
    let first = usize::from(base == 10 && length > 1);
    let at = start + rng.between(first, length - 1);
    let digit = text[at..].chars().next()?.to_digit(base)?;
    let other = rng.below(if base == 10 { digit as usize + 1 } else { base as usize }) as u32;
    let other = char::from_digit(other, base).filter(|_| other != digit)?;
    Some(format!("{}{other}{}", &text[..at], &text[at + 1..]))
}

/// z3 must call the values of each a solution exactly if the library said yes.
fn judged_alike(changed: &[Option<Changed>]) -> Result<(), String> {
    let asked = |one: &Changed| {
        let pins: String = one.values.iter().map(|&(id, value)| pin(&one.problem, "", id, value)).collect();
        let (nodes, roots) = (nodes(&one.problem, "", Variables::Open), roots(&one.problem, ""));
        format!("(push 1)\n{nodes}{pins}{roots}(check-sat)\n(pop 1)\n")
    };
    let all: Vec<&Changed> = changed.iter().flatten().collect();
    let text: String = all.iter().map(|one| asked(one)).collect();
    let answers = solver::verdicts(format!("(set-logic QF_BV)\n{text}"))?;
    if answers.len() != all.len() {
        return Err(format!("z3 answered {} of {} questions", answers.len(), all.len()));
    }
    match all.iter().zip(&answers).find(|(one, answer)| (answer.as_str() == "sat") != one.yes) {
        Some((one, answer)) => Err(format!("z3 says {answer}, the library {} of {}", one.yes, one.text)),
        None => Ok(()),
    }
}
