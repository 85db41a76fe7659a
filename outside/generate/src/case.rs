//! Everything that a run is lent, of all sorts mixed: problems well formed and damaged, starts that
//! fit and do not, tapes at random, short and long, and tapes built from a known solution.

use crate::rng::Rng;
use crate::{damage, random, solved};
use model::run::Search;
use model::{ones, recipe, Kind, Pair, Problem};

#[derive(Clone, Debug)]
pub struct Case {
    pub problem: Vec<u8>,
    pub values: Vec<u64>,
    pub tape: Vec<u64>,
    pub budget: u16,
    pub promise: Option<Promise>,
}

/// Demand 3: the verdict is *model*, within so many moves and words.
#[derive(Clone, Copy, Debug)]
pub struct Promise {
    pub moves: u64,
    pub words: u64,
}

/// One case in so many uses its whole budget of 65,535 moves.
const LONG: u64 = 50_000;

/// Case number `index` under a seed.
pub fn case(seed: u64, index: u64) -> Case {
    let mut rng = Rng::of_case(seed, index);
    let rng = &mut rng;
    if index % LONG == LONG - 1 {
        return long(rng);
    }
    match rng.below(100) {
        0..=17 => damaged(rng),
        18..=23 => misfit(rng),
        24..=54 => at_random(rng),
        55..=74 => by_recipe(rng),
        _ => towards_a_solution(rng),
    }
}

/// A fault in the problem's bytes; once in a while a second one, or any bytes changed.
fn damaged(rng: &mut Rng) -> Case {
    let mut case = at_random(rng);
    let Ok(problem) = model::problem::read(&case.problem) else {
        return case;
    };
    let number = rng.one_of(&damage::FAULTS);
    case.problem = if rng.chance(25) {
        damage::scrambled(rng, &problem)
    } else {
        damage::damaged(rng, &problem, number)
    };
    if rng.chance(10) && case.problem.len() > 9 {
        let at = rng.between(9, case.problem.len() - 1);
        case.problem[at] ^= 1 << rng.below(8);
    }
    case
}

/// Too few places, or a variable's start that does not agree, or both.
fn misfit(rng: &mut Rng) -> Case {
    let mut case = at_random(rng);
    let Ok(problem) = model::problem::read(&case.problem) else {
        return case;
    };
    let variables: Vec<usize> = problem.variables().collect();
    for _ in 0..rng.below(3) {
        if !variables.is_empty() {
            let id = rng.one_of(&variables);
            let node = &problem.nodes[id];
            let shut = !node.pair.open() | !ones(node.width);
            case.values[id] ^= shut & (1 << rng.below(64) | rng.word() & rng.word() & rng.word());
        }
    }
    if rng.chance(40) {
        case.values.truncate(rng.below(problem.nodes.len().max(1)));
    }
    case
}

fn at_random(rng: &mut Rng) -> Case {
    let size = random::size(rng);
    let problem = random::problem(rng, size);
    let values = solved::values(rng, &problem);
    lent(rng, &problem, values)
}

/// A problem that has a solution, with a tape at random.
fn towards_a_solution(rng: &mut Rng) -> Case {
    let size = random::size(rng);
    let solved = solved::solved(rng, size);
    let values = solved::start(rng, &solved);
    lent(rng, &solved.problem, values)
}

/// A problem that has a solution, with the tape that leads there, and any words after it.
fn by_recipe(rng: &mut Rng) -> Case {
    let size = random::size(rng);
    let solved = solved::solved(rng, size);
    let values = solved::start(rng, &solved);
    let mut case = lent(rng, &solved.problem, values);
    let search = Search::accept(&case.problem, &case.values).expect("a start that agrees");
    let mut now = case.values.clone();
    solved.problem.evaluate(&mut now);
    let distance = recipe::distance(&search, &now, &solved.solution);
    case.tape = recipe::tape(&search, &now, &solved.solution, &mut || rng.word());
    let follow = rng.below(4);
    case.tape.extend((0..follow).map(|_| rng.word()));
    case.budget = if rng.chance(70) { distance } else { rng.between(distance, 65_535) } as u16;
    let moves = distance as u64;
    case.promise = Some(Promise { moves, words: solved.problem.words_for(moves) });
    case
}

/// The largest budget, on a problem without a solution that does not close: x · y = 1 with x even,
/// and other roots that come and go. Counts go over 16 bits.
fn long(rng: &mut Rng) -> Case {
    let mut builder = random::nodes(rng, 20);
    let x = builder.variable(8, Pair { lo: 0, hi: 0xfe });
    let y = builder.variable(8, Pair::free(8));
    let product = builder.node(Kind::Mul, &[x, y]);
    builder.root_equals(product, 1);
    for (id, value) in [(x, 6), (y, 7)] {
        builder.root_equals(id, value);
    }
    let values = solved::values(rng, &builder.problem);
    let mut case = lent(rng, &builder.problem, values);
    case.tape = tape(rng, 65_535 * 5);
    case.budget = 65_535;
    case
}

/// A case of a problem and its start, with spare places, a tape and a budget at random.
fn lent(rng: &mut Rng, problem: &Problem, mut values: Vec<u64>) -> Case {
    let spare = if rng.chance(30) { rng.between(1, 5) } else { 0 };
    values.extend((0..spare).map(|_| rng.word()));
    let length = match rng.below(40) {
        0 => rng.between(1000, 4000),
        1..=15 => rng.between(100, 1023),
        16..=21 => rng.between(0, 4),
        _ => rng.between(5, 80),
    };
    let budget = match rng.below(20) {
        0 => 0,
        1 => 65_535,
        2..=5 => rng.between(1, 3),
        6..=10 => rng.between(1, 400),
        _ => rng.between(1, 40),
    };
    Case { problem: problem.bytes(), values, tape: tape(rng, length), budget: budget as u16, promise: None }
}

/// A tape of any words, or of small ones, or of both.
pub fn tape(rng: &mut Rng, length: usize) -> Vec<u64> {
    let small = rng.one_of(&[0, 20, 90]);
    (0..length).map(|_| if rng.chance(small) { rng.word() % 8 } else { rng.word() }).collect()
}
