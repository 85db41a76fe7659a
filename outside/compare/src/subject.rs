//! What is compared with the model: the calls in the library's own numbers.

use model::batch::Lent;
use model::{Set, Spot};

pub trait Subject: Sync {
    /// 0, or a refusal's number + 256 × its place.
    fn check(&self, problem: &[u8]) -> u64;
    /// The same; `out` takes verdict, moves, steps, words and nodes evaluated.
    fn run(&self, problem: &[u8], values: &mut [u64], tape: &[u64], budget: u16, out: &mut [u64]) -> u64;
    /// The same; `out` takes H and how many words the budget needs.
    fn need(&self, problem: &[u8], budget: u16, out: &mut [u64]) -> u64;
    /// 0 for nothing, 1 for a value in `out`, 2 for refused arguments.
    fn pick(&self, asked: &Asked, set: Set, proposal: u64, out: &mut [u64; 1]) -> u8;
    /// 0, 1, or 2 for refused arguments.
    fn essential(&self, asked: &Asked) -> u8;
}

/// Many starts of one problem at once.
pub trait Batches: Sync {
    /// 0, or the refusal of the whole call; `answers` takes six words for each start.
    fn batch(&self, lent: Lent, values: &mut [u64], answers: &mut [u64]) -> u64;
}

/// Solutions that differ on named variables; plain Rust has no such call.
pub trait Gather: Sync {
    /// 0, or the refusal of the whole call; `kept` takes up to 64 solutions, `answers` six words for each start, and `out`
    /// kept, repeats and unkept.
    fn gather(
        &self,
        lent: Lent,
        values: &mut [u64],
        names: &[u16],
        kept: &mut [u64],
        answers: &mut [u64],
        out: &mut [u64],
    ) -> u64;
}

/// Our word for another solver's model; plain Rust has no such call.
pub trait Judge: Sync {
    /// 0, or a refusal's number + 256 × its place; `out` takes 1 for yes and 0 otherwise, and the first root that is 0.
    fn model(&self, problem: &[u8], names: &[u8], text: &[u8], out: &mut [u64]) -> u64;
}

/// Problems put in order.
pub trait Mender: Sync {
    /// 0 with the mended file and its map written, or a refusal's number + 256 × its place.
    fn mend(&self, problem: &[u8], mended: &mut [u8], map: &mut [u16]) -> u64;
}

/// BTOR2 in.
pub trait Converts: Sync {
    /// 0, or a refusal's number + 256 × its line; `problem` takes the bytes, and `out` how many they are.
    fn btor2(&self, text: &[u8], problem: &mut [u8], out: &mut [u64]) -> u64;
}

/// A node, a position and a target, as the calls take them.
#[derive(Clone, Copy, Debug)]
pub struct Asked {
    pub kind: u8,
    pub width: u32,
    pub low: u32,
    pub words: [u64; 12],
    pub position: u32,
    pub target: u64,
}

impl Asked {
    pub fn new(spot: &Spot, position: usize, target: u64) -> Asked {
        let operator = &spot.operator;
        Asked {
            kind: operator.kind.number(),
            width: operator.width,
            low: operator.low,
            words: model::calls::words_of(spot),
            position: position as u32,
            target,
        }
    }
}

/// The proved library, or the stub in its place.
pub struct Library;

impl Subject for Library {
    fn check(&self, problem: &[u8]) -> u64 {
        walumpeh::raw::check(problem)
    }

    fn run(&self, problem: &[u8], values: &mut [u64], tape: &[u64], budget: u16, out: &mut [u64]) -> u64 {
        walumpeh::raw::run(problem, values, tape, budget, out)
    }

    fn need(&self, problem: &[u8], budget: u16, out: &mut [u64]) -> u64 {
        walumpeh::raw::need(problem, budget, out)
    }

    fn pick(&self, q: &Asked, set: Set, proposal: u64, out: &mut [u64; 1]) -> u8 {
        walumpeh::raw::pick(q.kind, q.width, q.low, &q.words, q.position, q.target, proposal, set as u8, out)
    }

    fn essential(&self, q: &Asked) -> u8 {
        walumpeh::raw::essential(q.kind, q.width, q.low, &q.words, q.position, q.target)
    }
}

impl Batches for Library {
    fn batch(&self, l: Lent, values: &mut [u64], answers: &mut [u64]) -> u64 {
        walumpeh::raw::batch(l.problem, l.starts, values, l.tape, l.lengths, l.budgets, answers)
    }
}

impl Gather for Library {
    fn gather(
        &self,
        l: Lent,
        values: &mut [u64],
        names: &[u16],
        kept: &mut [u64],
        answers: &mut [u64],
        out: &mut [u64],
    ) -> u64 {
        let Lent { problem, starts, tape, lengths, budgets } = l;
        walumpeh::raw::gather(problem, starts, values, tape, lengths, budgets, names, kept, answers, out)
    }
}

impl Judge for Library {
    fn model(&self, problem: &[u8], names: &[u8], text: &[u8], out: &mut [u64]) -> u64 {
        walumpeh::raw::model(problem, names, text, out)
    }
}

impl Mender for Library {
    fn mend(&self, problem: &[u8], mended: &mut [u8], map: &mut [u16]) -> u64 {
        walumpeh::raw::mend(problem, mended, map)
    }
}

impl Converts for Library {
    fn btor2(&self, text: &[u8], problem: &mut [u8], out: &mut [u64]) -> u64 {
        walumpeh::raw::btor2(text, problem, out)
    }
}

/// The model itself: what every subject is to answer at any width.
pub struct Model;

impl Subject for Model {
    fn check(&self, problem: &[u8]) -> u64 {
        model::calls::check(problem)
    }

    fn run(&self, problem: &[u8], values: &mut [u64], tape: &[u64], budget: u16, out: &mut [u64]) -> u64 {
        model::calls::run(problem, values, tape, budget, out)
    }

    fn need(&self, problem: &[u8], budget: u16, out: &mut [u64]) -> u64 {
        model::calls::need(problem, budget, out)
    }

    fn pick(&self, q: &Asked, set: Set, proposal: u64, out: &mut [u64; 1]) -> u8 {
        model::calls::pick(q.kind, q.width, q.low, &q.words, q.position, q.target, proposal, set as u8, out)
    }

    fn essential(&self, q: &Asked) -> u8 {
        model::calls::essential(q.kind, q.width, q.low, &q.words, q.position, q.target)
    }
}

impl Batches for Model {
    fn batch(&self, lent: Lent, values: &mut [u64], answers: &mut [u64]) -> u64 {
        model::calls::batch(lent, values, answers)
    }
}

impl Gather for Model {
    fn gather(
        &self,
        lent: Lent,
        values: &mut [u64],
        names: &[u16],
        kept: &mut [u64],
        answers: &mut [u64],
        out: &mut [u64],
    ) -> u64 {
        model::calls::gather(lent, values, names, kept, answers, out)
    }
}

impl Judge for Model {
    fn model(&self, problem: &[u8], names: &[u8], text: &[u8], out: &mut [u64]) -> u64 {
        model::calls::model(problem, names, text, out)
    }
}

impl Mender for Model {
    fn mend(&self, problem: &[u8], mended: &mut [u8], map: &mut [u16]) -> u64 {
        model::calls::mend(problem, mended, map)
    }
}

impl Converts for Model {
    fn btor2(&self, text: &[u8], problem: &mut [u8], out: &mut [u64]) -> u64 {
        model::calls::btor2(text, problem, out)
    }
}

/// The search in plain Rust.
pub struct Plain;

impl Subject for Plain {
    fn check(&self, problem: &[u8]) -> u64 {
        plain::calls::check(problem)
    }

    fn run(&self, problem: &[u8], values: &mut [u64], tape: &[u64], budget: u16, out: &mut [u64]) -> u64 {
        plain::calls::run(problem, values, tape, budget, out)
    }

    fn need(&self, problem: &[u8], budget: u16, out: &mut [u64]) -> u64 {
        plain::calls::need(problem, budget, out)
    }

    fn pick(&self, q: &Asked, set: Set, proposal: u64, out: &mut [u64; 1]) -> u8 {
        plain::calls::pick(q.kind, q.width, q.low, &q.words, q.position, q.target, proposal, set as u8, out)
    }

    fn essential(&self, q: &Asked) -> u8 {
        plain::calls::essential(q.kind, q.width, q.low, &q.words, q.position, q.target)
    }
}

impl Batches for Plain {
    fn batch(&self, l: Lent, values: &mut [u64], answers: &mut [u64]) -> u64 {
        plain::calls::batch(l.problem, l.starts, values, l.tape, l.lengths, l.budgets, answers)
    }
}

impl Mender for Plain {
    fn mend(&self, problem: &[u8], mended: &mut [u8], map: &mut [u16]) -> u64 {
        plain::calls::mend(problem, mended, map)
    }
}

impl Converts for Plain {
    fn btor2(&self, text: &[u8], problem: &mut [u8], out: &mut [u64]) -> u64 {
        plain::calls::btor2(text, problem, out)
    }
}
