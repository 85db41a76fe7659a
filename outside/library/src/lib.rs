//! The proved library in safe Rust: the problem check, the run and how long a tape it takes, many runs of one
//! problem at once, solutions gathered from them, our word for another solver's model, shuffled problems put in
//! order, BTOR2 converted to a problem, and the picks of a single node.
//!
//! Every call takes whole slices and answers for every input; nothing has to hold beforehand. Calls
//! share nothing and may run on several threads. The calls behind them, with the library's own numbers,
//! are in `raw`.

pub mod raw;
mod refusal;

pub use refusal::{LineRefusal, Place, Refusal};

/// Whether the calls are the proved library's, and not the unproved stand-in's.
pub const PROVED: bool = !cfg!(feature = "stub");

#[derive(Clone, Copy, Debug, PartialEq, Eq)]
pub enum Verdict {
    /// Every root is 1.
    Model,
    /// The budget is used up.
    Spent,
    /// The tape cannot serve a draw whole.
    Ended,
    /// A root is fixed at 0.
    Closed,
}

impl Verdict {
    pub const ALL: [Verdict; 4] = [Verdict::Model, Verdict::Spent, Verdict::Ended, Verdict::Closed];

    /// The verdict of the library's number.
    fn of(number: u64) -> Option<Verdict> {
        Verdict::ALL.get(usize::try_from(number).ok()?).copied()
    }

    /// The name that `tvrun` prints.
    pub fn name(self) -> &'static str {
        match self {
            Verdict::Model => "model",
            Verdict::Spent => "spent",
            Verdict::Ended => "ended",
            Verdict::Closed => "closed",
        }
    }
}

/// What a run answers beside the values.
#[derive(Clone, Copy, Debug, PartialEq, Eq)]
pub struct Answer {
    pub verdict: Verdict,
    pub moves: u64,
    pub steps: u64,
    pub words: u64,
    /// Nodes evaluated: all at the beginning, and for every finished move that sets a variable those reachable upward from
    /// it, itself included.
    pub evaluated: u64,
}

impl Answer {
    /// The answer in the library's numbers, where nothing is refused.
    fn of([verdict, moves, steps, words, evaluated]: [u64; raw::RUN_OUT]) -> Answer {
        let verdict = Verdict::of(verdict).expect("a run that is not refused has a verdict");
        Answer { verdict, moves, steps, words, evaluated }
    }
}

/// Whether a problem's bytes are accepted.
pub fn check(problem: &[u8]) -> Result<(), Refusal> {
    Refusal::of(raw::check(problem))
}

/// A whole run. Only the variables' places of `values` are read; after a verdict the first N hold
/// every node's value, and after a refusal none is changed.
pub fn run(problem: &[u8], values: &mut [u64], tape: &[u64], budget: u16) -> Result<Answer, Refusal> {
    let mut out = [0; raw::RUN_OUT];
    Refusal::of(raw::run(problem, values, tape, budget, &mut out))?;
    Ok(Answer::of(out))
}

/// The most starts of one batch.
pub const MOST_STARTS: usize = 256;

/// Runs of one problem from many starts, each with N places in turn, as many words of the tape as its length says, after
/// those of the starts before it, and its own budget: one of each list for each start. Answers and values are those of
/// single runs, a refusal 15 of a start included. A refusal of the whole call changes nothing.
pub fn batch(
    problem: &[u8],
    values: &mut [u64],
    tape: &[u64],
    lengths: &[u64],
    budgets: &[u16],
) -> Result<Vec<Result<Answer, Refusal>>, Refusal> {
    let mut answers = vec![0; raw::ANSWER * lengths.len()];
    let starts = lengths.len() as u64;
    Refusal::of(raw::batch(problem, starts, values, tape, lengths, budgets, &mut answers))?;
    Ok(answers.as_chunks().0.iter().map(answer_of_start).collect())
}

/// A start's answer in the library's numbers.
fn answer_of_start(&[refusal, out @ ..]: &[u64; raw::ANSWER]) -> Result<Answer, Refusal> {
    Refusal::of(refusal).map(|()| Answer::of(out))
}

/// The most solutions that are kept of one gathering, and the most variables that tell them apart.
pub const MOST_KEPT: usize = 64;
pub const MOST_NAMES: usize = 8;

/// What was gathered.
#[derive(Clone, Debug, PartialEq, Eq)]
pub struct Gathered {
    /// Each start's answer, as of a batch.
    pub answers: Vec<Result<Answer, Refusal>>,
    /// How many solutions are kept, in order of arrival, N places each.
    pub kept: usize,
    /// Models that agree with a kept one on all named variables.
    pub repeats: u64,
    /// Models that agree with none and found no room.
    pub unkept: u64,
}

/// A batch, and of its models up to 64 that differ on the named variables (up to 8, by their ids): their values of all nodes
/// in the first places of `kept`, of which there must be 64 × N. Places after the last kept solution stay unchanged, and a
/// refusal changes nothing.
pub fn gather(
    problem: &[u8],
    values: &mut [u64],
    tape: &[u64],
    lengths: &[u64],
    budgets: &[u16],
    names: &[u16],
    kept: &mut [u64],
) -> Result<Gathered, Refusal> {
    let (mut answers, mut out) = (vec![0; raw::ANSWER * lengths.len()], [0; raw::GATHER_OUT]);
    let starts = lengths.len() as u64;
    Refusal::of(raw::gather(
        problem,
        starts,
        values,
        tape,
        lengths,
        budgets,
        names,
        kept,
        &mut answers,
        &mut out,
    ))?;
    let answers = answers.as_chunks().0.iter().map(answer_of_start).collect();
    let [kept, repeats, unkept] = out;
    Ok(Gathered { answers, kept: kept as usize, repeats, unkept })
}

/// How long a tape a problem's runs take.
#[derive(Clone, Copy, Debug, PartialEq, Eq)]
pub struct Need {
    /// H, the longest chain of operand links under any root: no move makes more steps.
    pub chain: u64,
    /// The budget × (1 + 2H): a run that is lent so many words never says *ended*.
    pub words: u64,
}

/// How many words serve every run of a problem with that budget or a smaller one, from whatever start.
pub fn need(problem: &[u8], budget: u16) -> Result<Need, Refusal> {
    let mut out = [0; raw::NEED_OUT];
    Refusal::of(raw::need(problem, budget, &mut out))?;
    let [chain, words] = out;
    Ok(Need { chain, words })
}

/// What is said of another solver's model.
#[derive(Clone, Copy, Debug, PartialEq, Eq)]
pub enum Judged {
    /// All roots are 1.
    Yes,
    /// The first root that is 0, by its position.
    No(u16),
}

/// Whether all roots are 1 under the values of a get-model answer in SMT-LIB syntax. The list has a name for
/// each variable, by ascending id, each ended by a line feed, the last perhaps by the list's end.
pub fn model(problem: &[u8], names: &[u8], text: &[u8]) -> Result<Judged, Refusal> {
    let mut out = [0; raw::MODEL_OUT];
    Refusal::of(raw::model(problem, names, text, &mut out))?;
    match out {
        [0, root] => Ok(Judged::No(root as u16)),
        _ => Ok(Judged::Yes),
    }
}

/// Puts a problem in order whose operands stand anywhere: nodes are placed one by one, always the lowest id that is
/// ready, and operands and roots renumbered. `mended` then begins with as many bytes as the problem has, and `map`
/// with the old id of each new one; what lies beyond is not touched, and after a refusal nothing is.
pub fn mend(problem: &[u8], mended: &mut [u8], map: &mut [u16]) -> Result<(), Refusal> {
    Refusal::of(raw::mend(problem, mended, map))
}

/// The most bytes that a problem has: 1,024 nodes and 256 roots.
pub const LONGEST_PROBLEM: usize = 9 + 24 * 1024 + 2 * 256;

/// Writes the problem that a BTOR2 text is to the front of `problem`, and tells how many bytes it has. Its inputs are the
/// variables, in the order of their lines; an assignment meets all constraints exactly if it makes all roots 1. With
/// `LONGEST_PROBLEM` lent, no refusal is for want of bytes. Refused, nothing is changed.
pub fn btor2(text: &[u8], problem: &mut [u8]) -> Result<usize, LineRefusal> {
    let mut out = [0; raw::BTOR2_OUT];
    LineRefusal::of(raw::btor2(text, problem, &mut out))?;
    Ok(out[0] as usize)
}

/// The set that a value is picked from.
#[derive(Clone, Copy, Debug, PartialEq, Eq)]
pub enum Set {
    Inverse,
    Consistent,
}

/// A node taken out of its problem: kind (2 to 17), width, the lowest bit of extract (else 0), and of
/// each operand the width, lo, hi and current value (zeros where there is none).
#[derive(Clone, Copy, Debug, Default, PartialEq, Eq)]
pub struct Spot {
    pub kind: u8,
    pub width: u32,
    pub low: u32,
    pub widths: [u32; 3],
    pub los: [u64; 3],
    pub his: [u64; 3],
    pub values: [u64; 3],
}

/// The arguments are not those of a node of an accepted problem.
#[derive(Clone, Copy, Debug, PartialEq, Eq)]
pub struct NotANode;

impl Spot {
    fn words(&self) -> [u64; 12] {
        let mut words = [0; 12];
        words[0..3].copy_from_slice(&self.widths.map(u64::from));
        words[3..6].copy_from_slice(&self.los);
        words[6..9].copy_from_slice(&self.his);
        words[9..12].copy_from_slice(&self.values);
        words
    }
}

/// The pick from a set of an operand's position, for a target and a proposal; none from an empty set.
pub fn pick(
    spot: &Spot,
    set: Set,
    position: u32,
    target: u64,
    proposal: u64,
) -> Result<Option<u64>, NotANode> {
    let mut out = [0];
    match raw::pick(
        spot.kind,
        spot.width,
        spot.low,
        &spot.words(),
        position,
        target,
        proposal,
        set as u8,
        &mut out,
    ) {
        0 => Ok(None),
        1 => Ok(Some(out[0])),
        _ => Err(NotANode),
    }
}

/// Whether an operand's position is essential for a target.
pub fn essential(spot: &Spot, position: u32, target: u64) -> Result<bool, NotANode> {
    match raw::essential(spot.kind, spot.width, spot.low, &spot.words(), position, target) {
        0 => Ok(false),
        1 => Ok(true),
        _ => Err(NotANode),
    }
}
