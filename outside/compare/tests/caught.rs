//! Wrong programs, each of which the comparison must catch: those that the paper names, and slips
//! that are easily made in picking. Each is the model with one thing changed.

use compare::narrow::{self, Extent};
use compare::subject::{Asked, Model};
use compare::{batches, btor2, fixed, gatherings, mends, models, need, runs, wide};
use compare::{Batches, Converts, Gather, Judge, Mender, Subject};
use model::batch::{Lent, MOST_STARTS};
use model::calls::{ANSWER, MODEL_OUT};
use model::problem::{HEADER, NODE};
use model::{pairs, Kind, Pair, Set};

/// The model with some calls changed.
#[derive(Clone, Copy, PartialEq)]
enum Wrong {
    RefusesEverything,
    AlwaysSpent,
    WritesNoValues,
    CountsAfterTheFirstMove,
    InventsAStep,
    NamesNoPlace,
    AcceptsWidth65,
    MissesRepeatsApart,
    TakesAShortAnswer,
    KeepsOldCounts,
    CountsAllNodes,
    CountsWhatChanged,
    ForgetsTheBeginning,
    CountsThoughRefused,
    LinksTheLowestBit,
    MeasuresTheFirstRoot,
    MeasuresOneTooFew,
    StartsWithTheLastWord,
    SharesTheBudgetOut,
    ThrowsSumsAway,
    ForgetsToGoRound,
    PassesTheProposalOver,
    JudgesEssentialByWidth,
    DropsTheConsistentChoice,
    LetsTheOthersBeAnything,
    TakesShiftAmountsModulo,
    TakesOneOperatorForAnother,
    OrdersSignedAsUnsigned,
    FillsWithZeros,
    DividesByZeroToZero,
    DividesProductsAlone,
}

use Wrong::*;

impl Subject for Wrong {
    fn check(&self, problem: &[u8]) -> u64 {
        let checked = Model.check(problem);
        match self {
            RefusesEverything => 1,
            NamesNoPlace => checked & 255,
            AcceptsWidth65 if checked & 255 == 8 => 0,
            MissesRepeatsApart if checked & 255 == 16 && !repeats_the_one_before(problem, checked >> 8) => 0,
            _ => checked,
        }
    }

    fn run(&self, problem: &[u8], values: &mut [u64], tape: &[u64], budget: u16, out: &mut [u64]) -> u64 {
        let before = values.to_vec();
        let refusal = match self {
            CountsAfterTheFirstMove => Model.run(problem, values, tape, budget.min(1), out),
            StartsWithTheLastWord => {
                let backwards: Vec<u64> = tape.iter().rev().copied().collect();
                Model.run(problem, values, &backwards, budget, out)
            }
            SharesTheBudgetOut => Model.run(problem, values, tape, budget / 2 + budget % 2, out),
            _ => Model.run(problem, values, tape, budget, out),
        };
        match self {
            TakesAShortAnswer if refusal == 255 => return Model.check(problem),
            _ if refusal == 255 => return refusal,
            RefusesEverything => return 1,
            AlwaysSpent if refusal == 0 => out[0] = 1,
            WritesNoValues => values.copy_from_slice(&before),
            CountsAfterTheFirstMove if out[0] == 1 => out[1] = budget.into(),
            InventsAStep if refusal == 0 => (out[2], out[3]) = (out[2] + 1, out[3] + 2),
            KeepsOldCounts if refusal != 0 => out[1] = 1,
            CountsAllNodes if refusal == 0 => out[4] = nodes(problem) * (1 + out[1]),
            CountsWhatChanged if refusal == 0 => {
                out[4] = nodes(problem) + changed(problem, &before, tape, out[1])
            }
            ForgetsTheBeginning if refusal == 0 => out[4] -= nodes(problem),
            CountsThoughRefused if refusal & 255 == 15 => out[4] = nodes(problem),
            ThrowsSumsAway if out[0] == 3 && !closes_by_the_low_bits_of_sums(problem) => out[0] = 1,
            _ => {}
        }
        refusal
    }

    fn need(&self, problem: &[u8], budget: u16, out: &mut [u64]) -> u64 {
        let refusal = Model.need(problem, budget, out);
        let Ok(mut read) = model::problem::read(problem) else {
            return refusal;
        };
        let height = match self {
            LinksTheLowestBit => {
                // Concat has two links; the widths do not matter here.
                let extracts =
                    read.nodes.iter_mut().enumerate().filter(|(_, node)| node.kind == Kind::Extract);
                for (id, node) in extracts {
                    node.fields[1] = node.fields[1].min(id as u16 - 1);
                    node.kind = Kind::Concat;
                }
                read.height()
            }
            MeasuresTheFirstRoot => {
                read.roots.truncate(1);
                read.height()
            }
            MeasuresOneTooFew => read.height().saturating_sub(1),
            _ => return refusal,
        };
        if refusal == 0 {
            out[..2].copy_from_slice(&[height as u64, u64::from(budget) * (1 + 2 * height as u64)]);
        }
        refusal
    }

    fn pick(&self, asked: &Asked, set: Set, proposal: u64, out: &mut [u64; 1]) -> u8 {
        let mut asked = *asked;
        let width = asked.words[asked.position as usize] as u32;
        let set = if *self == DropsTheConsistentChoice { Set::Inverse } else { set };
        let proposal = if *self == PassesTheProposalOver { proposal.wrapping_add(1) } else { proposal };
        let shift = asked.kind == Kind::Shl.number() || asked.kind == Kind::Lshr.number();
        if *self == TakesShiftAmountsModulo && shift && asked.position == 0 {
            asked.words[10] %= u64::from(asked.width);
            (asked.words[4], asked.words[7]) = (0, model::ones(asked.width));
        }
        if *self == TakesOneOperatorForAnother && asked.kind == Kind::Shl.number() {
            asked.kind = Kind::Lshr.number();
        }
        if *self == OrdersSignedAsUnsigned && asked.kind == Kind::SignedBelow.number() {
            asked.kind = Kind::Below.number();
        }
        if *self == FillsWithZeros && asked.kind == Kind::Ashr.number() {
            asked.kind = Kind::Lshr.number();
        }
        let divides = asked.kind == Kind::Div.number() && asked.position == 0;
        if *self == DividesByZeroToZero && divides && asked.words[10] == 0 {
            asked.target ^= model::ones(asked.width);
        }
        if *self == LetsTheOthersBeAnything && set == Set::Consistent {
            free_the_others(&mut asked);
        }
        let mut picked = [0];
        let found = Model.pick(&asked, set, proposal, &mut picked);
        if *self == DividesProductsAlone && divides && picked[0] % asked.target.max(1) != 0 {
            return 0;
        }
        if found != 1 || *self == ForgetsToGoRound && picked[0] < proposal & model::ones(width) {
            return 0;
        }
        *out = picked;
        found
    }

    fn essential(&self, asked: &Asked) -> u8 {
        let mut asked = *asked;
        if *self == JudgesEssentialByWidth {
            free_the_others(&mut asked);
        }
        Model.essential(&asked)
    }
}

fn nodes(problem: &[u8]) -> u64 {
    u16::from_le_bytes([problem[5], problem[6]]).into()
}

/// How many nodes got another value, over so many moves made one by one.
fn changed(problem: &[u8], start: &[u64], mut tape: &[u64], moves: u64) -> u64 {
    let (mut values, mut changed) = (start.to_vec(), 0);
    model::run(problem, &mut values, &[], 0);
    for _ in 0..moves {
        let before = values.clone();
        let answer = model::run(problem, &mut values, tape, 1);
        tape = &tape[answer.words as usize..];
        changed += values.iter().zip(before).filter(|(now, before)| **now != *before).count() as u64;
    }
    changed
}

/// Whether a root is fixed at 0 where of a sum only the bits below the lowest free one are fixed.
fn closes_by_the_low_bits_of_sums(problem: &[u8]) -> bool {
    let problem = model::problem::read(problem).expect("an accepted problem");
    let mut found: Vec<Pair> = Vec::new();
    for (id, node) in problem.nodes.iter().enumerate() {
        let mut pair = match node.kind {
            Kind::Variable | Kind::Constant => node.pair,
            _ => pairs::result(&problem.operator(id), problem.at_operands(id, &found)),
        };
        if node.kind == Kind::Add && pair.open() != 0 {
            let low = model::ones(pair.open().trailing_zeros());
            pair = Pair { lo: pair.lo & low, hi: pair.lo & low | model::ones(node.width) & !low };
        }
        found.push(pair);
    }
    problem.roots.iter().any(|&root| found[root as usize] == Pair::fixed(0))
}

/// Takes the other operands' fixed bits away.
fn free_the_others(asked: &mut Asked) {
    for at in [1, 2].map(|further| (asked.position as usize + further) % 3) {
        (asked.words[3 + at], asked.words[6 + at]) = (0, model::ones(asked.words[at] as u32));
    }
}

/// The model's reader with one answer changed.
#[derive(Clone, Copy, Debug, PartialEq)]
enum WrongReader {
    TakesTheLaterOfTwo,
    TakesDecimalsModulo,
    TellsUnknownNamesBeforeSyntax,
    SaysYesWhereOneIsAbsent,
    PassesFixedBitsOver,
    TakesTwoNamesForOne,
    CountsEntriesFromOne,
    NamesTheLastRoot,
}

use WrongReader::*;

impl Judge for WrongReader {
    fn model(&self, problem: &[u8], names: &[u8], text: &[u8], out: &mut [u64]) -> u64 {
        let refusal = Model.model(problem, names, text, out);
        let yes = |out: &mut [u64]| {
            out[..MODEL_OUT].copy_from_slice(&[1, 0]);
            0
        };
        match (self, refusal & 255) {
            (_, 255) => refusal,
            (TakesTheLaterOfTwo, 33) => yes(out),
            (TakesDecimalsModulo, 34) => yes(out),
            (TellsUnknownNamesBeforeSyntax, 31) => 32,
            (SaysYesWhereOneIsAbsent, 35) => yes(out),
            (PassesFixedBitsOver, 36) => yes(out),
            (TakesTwoNamesForOne, 30) => yes(out),
            (CountsEntriesFromOne, 32..=34) => refusal + 256,
            (NamesTheLastRoot, 0) if out[0] == 0 => {
                let roots = u64::from(u16::from_le_bytes([problem[7], problem[8]]));
                out[1] = roots - 1;
                refusal
            }
            _ => refusal,
        }
    }
}

#[test]
fn wrong_readers_are_caught() {
    for wrong in [
        TakesTheLaterOfTwo,
        TakesDecimalsModulo,
        TellsUnknownNamesBeforeSyntax,
        SaysYesWhereOneIsAbsent,
        PassesFixedBitsOver,
        TakesTwoNamesForOne,
        CountsEntriesFromOne,
        NamesTheLastRoot,
    ] {
        assert!(models::compare(&wrong, 1, 2000).is_err(), "{wrong:?} passed");
    }
}

/// The model's mender with one answer changed.
#[derive(Clone, Copy, Debug, PartialEq)]
enum WrongMender {
    PlacesTheHighest,
    RenumbersTheLowestBit,
    TellsTheNewId,
    WritesThoughRefused,
    WritesTheMapTheOtherWayRound,
    TellsCirclesFirst,
    LeavesRootsAsTheyWere,
}

use WrongMender::*;

/// The nodes from the last to the first, and the operands with them.
fn turned_round(problem: &[u8]) -> Vec<u8> {
    let nodes = usize::from(u16::from_le_bytes([problem[5], problem[6]]));
    let mut turned = problem.to_vec();
    for id in 0..nodes {
        let (from, to) = (HEADER + NODE * id, HEADER + NODE * (nodes - 1 - id));
        turned[to..to + NODE].copy_from_slice(&problem[from..from + NODE]);
        for position in 0..Kind::from_number(problem[from]).map_or(0, Kind::operands) {
            let field = &mut turned[to + 2 + 2 * position..][..2];
            let operand = usize::from(u16::from_le_bytes([field[0], field[1]]));
            field.copy_from_slice(&((nodes - 1 - operand) as u16).to_le_bytes());
        }
    }
    turned
}

impl Mender for WrongMender {
    fn mend(&self, problem: &[u8], mended: &mut [u8], map: &mut [u16]) -> u64 {
        let refusal = Model.mend(problem, mended, map);
        match (self, refusal & 255) {
            (PlacesTheHighest, 0) if mended[7..9] == [0, 0] => {
                let nodes = u16::from_le_bytes([problem[5], problem[6]]);
                let refusal = Model.mend(&turned_round(problem), mended, map);
                map[..usize::from(nodes)].iter_mut().for_each(|old| *old = nodes - 1 - *old);
                refusal
            }
            (RenumbersTheLowestBit, 0) => {
                let count = usize::from(u16::from_le_bytes([problem[5], problem[6]]));
                let nodes = mended[HEADER..][..NODE * count].chunks_mut(NODE);
                let extracts = nodes.filter(|node| node[0] == Kind::Extract.number());
                extracts.for_each(|node| {
                    let low = usize::from(u16::from_le_bytes([node[4], node[5]]));
                    let new = map.iter().position(|&old| usize::from(old) == low).unwrap_or(low);
                    node[4..6].copy_from_slice(&(new as u16).to_le_bytes());
                });
                0
            }
            (TellsTheNewId, 10..=12) => refusal & 255,
            (WritesThoughRefused, 11) if !mended.is_empty() => {
                mended[0] = b'T';
                refusal
            }
            (WritesTheMapTheOtherWayRound, 0) => {
                let nodes = usize::from(u16::from_le_bytes([problem[5], problem[6]]));
                let old = map[..nodes].to_vec();
                old.iter().enumerate().for_each(|(new, &old)| map[usize::from(old)] = new as u16);
                0
            }
            (TellsCirclesFirst, 21) => 22 + (refusal & !255),
            (LeavesRootsAsTheyWere, 0) => {
                let nodes = usize::from(u16::from_le_bytes([problem[5], problem[6]]));
                let roots = HEADER + NODE * nodes;
                mended[roots..problem.len()].copy_from_slice(&problem[roots..]);
                0
            }
            _ => refusal,
        }
    }
}

/// The model's converter with one thing changed: in the text that it is handed, or in its answer.
#[derive(Clone, Copy, Debug, PartialEq)]
enum WrongConverter {
    AddsTheNegatedOther,
    LeavesOutTheLastNotOfOr,
    IgnoresNegativeReferences,
    ComparesIdsByTheirLow32Bits,
    WritesARootTwice,
    CountsLinesFromZero,
    WritesBeforeItRefuses,
    NeedsAByteMore,
    TellsIdsBeforeTheFormat,
    EndsTokensAtSemicolons,
    ForgetsWidths,
    TakesAliasesForNodes,
}

use WrongConverter::*;

impl WrongConverter {
    /// The words of a line, as this one reads them.
    fn read(self, words: &mut [String]) {
        let keyword = words.get(1).cloned().unwrap_or_default();
        let is_constant = keyword.starts_with("const") && keyword != "constraint";
        match (self, keyword.as_str()) {
            // The sum of a and not b is one too few.
            (AddsTheNegatedOther, "sub") if words.len() > 4 => {
                words[1] = "add".into();
                words[4].insert(0, '-');
            }
            (LeavesOutTheLastNotOfOr, "or") if words.len() > 4 => {
                words[1] = "and".into();
                words[3..5].iter_mut().for_each(|word| word.insert(0, '-'));
            }
            (IgnoresNegativeReferences, _) if !is_constant => {
                words.iter_mut().for_each(|word| *word = word.trim_start_matches('-').into());
            }
            (ComparesIdsByTheirLow32Bits, _) if !is_constant => {
                for word in words.iter_mut() {
                    if let Ok(id) = word.parse::<u64>() {
                        *word = (id as u32).to_string();
                    }
                }
            }
            (TakesAliasesForNodes, "uext" | "sext") if words.get(4).is_some_and(|n| n == "0") => {
                words[1] = "not".into();
                words[3].insert(0, '-');
                words[4] = "alias".into();
            }
            (EndsTokensAtSemicolons, _) => {
                for word in words.iter_mut() {
                    *word = word.replace(';', " ;");
                }
            }
            _ => {}
        }
    }

    /// The text as this one reads it; as it is, where it is not UTF-8.
    fn text(self, text: &[u8]) -> Vec<u8> {
        let Ok(text) = std::str::from_utf8(text) else {
            return text.to_vec();
        };
        let lines = text.split('\n').map(|line| {
            let mut words: Vec<String> = line.split([' ', '\t', '\r']).map(String::from).collect();
            words.retain(|word| !word.is_empty());
            self.read(&mut words);
            words.join(" ")
        });
        lines.collect::<Vec<_>>().join("\n").into_bytes()
    }
}

impl Converts for WrongConverter {
    fn btor2(&self, text: &[u8], problem: &mut [u8], out: &mut [u64]) -> u64 {
        let before = problem.to_vec();
        let refusal = Model.btor2(&self.text(text), problem, out);
        if refusal == 255 {
            return refusal;
        }
        match (self, refusal & 255) {
            (CountsLinesFromZero, 1..) if refusal > 255 => return refusal - 256,
            (TellsIdsBeforeTheFormat, 1) => return refusal + 2,
            (ForgetsWidths, 4) => {
                out[0] = 9;
                return 0;
            }
            (WritesBeforeItRefuses, 1..) if !problem.is_empty() => problem[0] = b'T',
            (NeedsAByteMore, 0) if out[0] as usize == before.len() => {
                problem.copy_from_slice(&before);
                out[0] = 0;
                return 5 + 256;
            }
            (WritesARootTwice, 0) => write_a_root_twice(problem, &mut out[0]),
            _ => {}
        }
        refusal
    }
}

/// The first root again behind the last, where there is one, and room.
fn write_a_root_twice(problem: &mut [u8], length: &mut u64) {
    let nodes = usize::from(u16::from_le_bytes([problem[5], problem[6]]));
    let (roots, end) = (HEADER + NODE * nodes, *length as usize);
    if end > roots && end + 2 <= problem.len() {
        problem.copy_within(roots..roots + 2, end);
        problem[7] = problem[7].wrapping_add(1);
        *length += 2;
    }
}

#[test]
fn wrong_menders_are_caught() {
    for wrong in [
        PlacesTheHighest,
        RenumbersTheLowestBit,
        TellsTheNewId,
        WritesThoughRefused,
        WritesTheMapTheOtherWayRound,
        TellsCirclesFirst,
        LeavesRootsAsTheyWere,
    ] {
        assert!(mends::compare(&wrong, 1, 2000).is_err(), "{wrong:?} passed");
    }
}

#[test]
fn wrong_converters_are_caught() {
    for wrong in [
        AddsTheNegatedOther,
        LeavesOutTheLastNotOfOr,
        IgnoresNegativeReferences,
        ComparesIdsByTheirLow32Bits,
        WritesARootTwice,
        CountsLinesFromZero,
        WritesBeforeItRefuses,
        NeedsAByteMore,
        TellsIdsBeforeTheFormat,
        EndsTokensAtSemicolons,
        ForgetsWidths,
        TakesAliasesForNodes,
    ] {
        assert!(btor2::compare(&wrong, 1, 2000).is_err(), "{wrong:?} passed");
    }
}

/// Whether the root at a position is that of the position before.
fn repeats_the_one_before(problem: &[u8], position: u64) -> bool {
    let nodes = usize::from(u16::from_le_bytes([problem[5], problem[6]]));
    let at = HEADER + NODE * nodes + 2 * position as usize;
    problem[at..at + 2] == problem[at - 2..at]
}

/// The model's batch with one thing changed.
#[derive(Clone, Copy, Debug, PartialEq)]
enum WrongBatch {
    ReadsOnFromTheFirst,
    WritesWhereRefused,
    StopsAtARefusedStart,
    ReducesTheSum,
    TakesTheLongestList,
    TellsPlacesBeforeLengths,
    GivesFourteen,
    SharesOneBudget,
    AnswersARefusedCall,
    CountsThroughAllStarts,
}

use WrongBatch::*;

impl Subject for WrongBatch {
    fn check(&self, problem: &[u8]) -> u64 {
        Model.check(problem)
    }

    fn run(&self, problem: &[u8], values: &mut [u64], tape: &[u64], budget: u16, out: &mut [u64]) -> u64 {
        Model.run(problem, values, tape, budget, out)
    }

    fn need(&self, problem: &[u8], budget: u16, out: &mut [u64]) -> u64 {
        Model.need(problem, budget, out)
    }

    fn pick(&self, asked: &Asked, set: Set, proposal: u64, out: &mut [u64; 1]) -> u8 {
        Model.pick(asked, set, proposal, out)
    }

    fn essential(&self, asked: &Asked) -> u8 {
        Model.essential(asked)
    }
}

impl Batches for WrongBatch {
    fn batch(&self, lent: Lent, values: &mut [u64], answers: &mut [u64]) -> u64 {
        let before = values.to_vec();
        let refusal = Model.batch(lent, values, answers);
        let taken = answers.len() / ANSWER * ANSWER;
        match (self, refusal & 255) {
            (_, 255) => {}
            (ReadsOnFromTheFirst, 0) if lent.starts > 1 => {
                // The second start's words begin where the first one stopped reading.
                let (used, nodes) = (answers[4] as usize, nodes(lent.problem) as usize);
                let end = (lent.lengths[0] + lent.lengths[1]) as usize;
                values[nodes..2 * nodes].copy_from_slice(&before[nodes..2 * nodes]);
                let own = &mut values[nodes..2 * nodes];
                let out = &mut answers[ANSWER..2 * ANSWER];
                out[0] = Model.run(lent.problem, own, &lent.tape[used..end], lent.budgets[1], &mut out[1..]);
            }
            (WritesWhereRefused, 0) => {
                let refused =
                    answers.chunks(ANSWER).take(lent.starts as usize).position(|answer| answer[0] != 0);
                if let Some(start) = refused {
                    values[start * nodes(lent.problem) as usize] ^= 1;
                }
            }
            (StopsAtARefusedStart, 0) => {
                let refused =
                    answers.chunks(ANSWER).take(lent.starts as usize).position(|answer| answer[0] != 0);
                if let Some(start) = refused {
                    let from = (start + 1) * nodes(lent.problem) as usize;
                    values[from..].copy_from_slice(&before[from..]);
                }
            }
            (ReducesTheSum, 18) => {
                let sum = lent.lengths.iter().fold(0u64, |sum, &length| sum.wrapping_add(length));
                return if sum <= lent.tape.len() as u64 { 0 } else { refusal };
            }
            (TakesTheLongestList, 17) if lent.starts <= MOST_STARTS => return 0,
            (TellsPlacesBeforeLengths, 18)
                if values.len() < lent.starts as usize * nodes(lent.problem) as usize =>
            {
                return 19
            }
            (GivesFourteen, 19) => return 14,
            (SharesOneBudget, 0) if lent.starts > 1 => {
                let budgets = vec![lent.budgets[0]; lent.starts as usize];
                values.copy_from_slice(&before);
                return Model.batch(Lent { budgets: &budgets, ..lent }, values, answers);
            }
            (AnswersARefusedCall, 1..) => answers[..taken].fill(0),
            (CountsThroughAllStarts, 0) if lent.starts > 1 => answers[ANSWER + 5] += answers[5],
            _ => {}
        }
        refusal
    }
}

#[test]
fn wrong_batches_are_caught() {
    for wrong in [
        ReadsOnFromTheFirst,
        WritesWhereRefused,
        StopsAtARefusedStart,
        ReducesTheSum,
        TakesTheLongestList,
        TellsPlacesBeforeLengths,
        GivesFourteen,
        SharesOneBudget,
        AnswersARefusedCall,
        CountsThroughAllStarts,
    ] {
        assert!(batches::compare(&wrong, 1, 1000).is_err(), "{wrong:?} passed");
    }
}

/// The model's frame bench with one thing changed.
#[derive(Clone, Copy, Debug, PartialEq)]
enum WrongBench {
    ComparesAllVariables,
    ComparesTheFirstName,
    ComparesWithTheLastKept,
    CountsRepeatsAsUnkept,
    CountsUnkeptAsRepeats,
    KeepsOneTooFew,
    KeepsWhatIsNoModel,
    ClearsTheRest,
    TakesAnyNode,
    TakesANameTwice,
    TellsNamesBeforeTheBatch,
    CountsThoughItRefuses,
}

use WrongBench::*;

impl Gather for WrongBench {
    fn gather(
        &self,
        lent: Lent,
        values: &mut [u64],
        names: &[u16],
        kept: &mut [u64],
        answers: &mut [u64],
        out: &mut [u64],
    ) -> u64 {
        let places = kept.to_vec();
        let refusal = Model.gather(lent, values, names, kept, answers, out);
        let nodes = nodes(lent.problem.get(..9).unwrap_or(&[0; 9])) as usize;
        match (self, refusal & 255) {
            (_, 255) => return refusal,
            (TellsNamesBeforeTheBatch, 17..=19) if names.is_empty() => return 23,
            (TakesAnyNode | TakesANameTwice, 24) => {
                let is_twice = (1..names.len()).any(|at| names[..at].contains(&names[at]));
                return if is_twice == (*self == TakesANameTwice) { 0 } else { refusal };
            }
            (CountsThoughItRefuses, 1..) => out[2] = 1,
            (ClearsTheRest, 0) => kept[out[0] as usize * nodes..].fill(0),
            (_, 0) => {
                kept.copy_from_slice(&places);
                let problem = model::problem::read(lent.problem).expect("an accepted problem");
                let all: Vec<u16> = problem.variables().map(|id| id as u16).collect();
                let names = match self {
                    ComparesAllVariables => &all,
                    ComparesTheFirstName => &names[..1],
                    _ => names,
                };
                let starts =
                    values.chunks(nodes.max(1)).zip(answers.chunks(ANSWER)).take(lent.starts as usize);
                out[..3].copy_from_slice(&self.gathered(starts, nodes, names, kept));
            }
            _ => {}
        }
        refusal
    }
}

impl WrongBench {
    /// What it keeps and counts of the starts' values and answers.
    fn gathered<'a>(
        &self,
        starts: impl Iterator<Item = (&'a [u64], &'a [u64])>,
        nodes: usize,
        names: &[u16],
        kept: &mut [u64],
    ) -> [u64; 3] {
        let room = if *self == KeepsOneTooFew { 63 } else { 64 };
        let (mut count, mut repeats, mut unkept) = (0, 0, 0);
        for (values, answer) in starts {
            if answer[0] != 0 || answer[1] > u64::from(*self == KeepsWhatIsNoModel) {
                continue;
            }
            let from = if *self == ComparesWithTheLastKept { count - count.min(1) } else { 0 };
            let agrees =
                |at: usize| names.iter().all(|&id| kept[at * nodes + id as usize] == values[id as usize]);
            let is_full = count == room;
            if (from..count).any(agrees) && !(is_full && *self == CountsRepeatsAsUnkept) {
                repeats += 1;
            } else if !is_full {
                kept[count * nodes..][..nodes].copy_from_slice(values);
                count += 1;
            } else if *self == CountsUnkeptAsRepeats {
                repeats += 1;
            } else {
                unkept += 1;
            }
        }
        [count as u64, repeats, unkept]
    }
}

#[test]
fn wrong_benches_are_caught() {
    for wrong in [
        ComparesAllVariables,
        ComparesTheFirstName,
        ComparesWithTheLastKept,
        CountsRepeatsAsUnkept,
        CountsUnkeptAsRepeats,
        KeepsOneTooFew,
        KeepsWhatIsNoModel,
        ClearsTheRest,
        TakesAnyNode,
        TakesANameTwice,
        TellsNamesBeforeTheBatch,
        CountsThoughItRefuses,
    ] {
        assert!(gatherings::compare(&wrong, 1, 2000).is_err(), "{wrong:?} passed");
    }
}

#[test]
fn wrong_runs_are_caught() {
    for (number, wrong) in [
        RefusesEverything,
        AlwaysSpent,
        WritesNoValues,
        CountsAfterTheFirstMove,
        InventsAStep,
        NamesNoPlace,
        AcceptsWidth65,
        MissesRepeatsApart,
        TakesAShortAnswer,
        KeepsOldCounts,
        CountsAllNodes,
        CountsWhatChanged,
        ForgetsTheBeginning,
        CountsThoughRefused,
        LinksTheLowestBit,
        MeasuresTheFirstRoot,
        MeasuresOneTooFew,
    ]
    .into_iter()
    .enumerate()
    {
        assert!(runs::compare(&wrong, 1, 2000).is_err(), "wrong run {number} passed");
    }
}

/// Two searches that are sound by themselves, and lose what they had where they are lent more.
#[test]
fn runs_that_lose_what_they_had_are_caught() {
    assert!(runs::compare_more(&Model, 1, 2000).is_ok());
    for wrong in [StartsWithTheLastWord, SharesTheBudgetOut] {
        assert!(runs::compare_more(&wrong, 1, 2000).is_err());
    }
}

#[test]
fn sums_that_tell_too_little_are_caught_at_few_bits_and_at_many() {
    assert!(fixed::compare_narrow(&ThrowsSumsAway).is_err());
    assert!(fixed::compare_wide(&ThrowsSumsAway, 2000, 1).is_err());
}

#[test]
fn an_h_one_too_small_is_caught_by_problems_that_use_every_word() {
    assert!(need::compare_tight(&MeasuresOneTooFew, 1).is_err());
}

#[test]
fn wrong_picks_are_caught_at_few_bits_and_at_many() {
    let extent = Extent { operand: 3, node: 3, whole: 3, spots: 1000, seed: 1 };
    let wrongs = [
        ForgetsToGoRound,
        PassesTheProposalOver,
        JudgesEssentialByWidth,
        DropsTheConsistentChoice,
        LetsTheOthersBeAnything,
        TakesShiftAmountsModulo,
        TakesOneOperatorForAnother,
        OrdersSignedAsUnsigned,
        FillsWithZeros,
        DividesByZeroToZero,
        DividesProductsAlone,
    ];
    for (number, wrong) in wrongs.into_iter().enumerate() {
        assert!(narrow::compare(&wrong, extent).is_err(), "wrong pick {number} passed at few bits");
        assert!(wide::compare(&wrong, 2000, 1).is_err(), "wrong pick {number} passed at many bits");
    }
}
