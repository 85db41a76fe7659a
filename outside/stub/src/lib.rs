//! The model under the names of the proved library's calls: linked in the archive's place, it lets
//! everything here be built and tried without the proved library.
//!
//! Each slice comes as a pointer and a length, and the callers here make both from Rust slices.

use model::batch::Lent;
use model::calls;
use std::slice::{from_raw_parts, from_raw_parts_mut};

/// # Safety
/// The pointer and length are those of a slice.
#[no_mangle]
pub unsafe extern "C" fn wal_check(problem: *const u8, problem_len: usize) -> u64 {
    calls::check(from_raw_parts(problem, problem_len))
}

/// # Safety
/// Each pointer and length are those of a slice; no two that are written overlap.
#[no_mangle]
pub unsafe extern "C" fn wal_run(
    problem: *const u8,
    problem_len: usize,
    values: *mut u64,
    values_len: usize,
    tape: *const u64,
    tape_len: usize,
    budget: u16,
    out: *mut u64,
    out_len: usize,
) -> u64 {
    let problem = from_raw_parts(problem, problem_len);
    let values = from_raw_parts_mut(values, values_len);
    let tape = from_raw_parts(tape, tape_len);
    calls::run(problem, values, tape, budget, from_raw_parts_mut(out, out_len))
}

/// # Safety
/// Each pointer and length are those of a slice; `out` overlaps no other.
#[no_mangle]
pub unsafe extern "C" fn wal_need(
    problem: *const u8,
    problem_len: usize,
    budget: u16,
    out: *mut u64,
    out_len: usize,
) -> u64 {
    calls::need(from_raw_parts(problem, problem_len), budget, from_raw_parts_mut(out, out_len))
}

/// # Safety
/// Each pointer and length are those of a slice; no two that are written overlap.
#[no_mangle]
pub unsafe extern "C" fn wal_batch(
    problem: *const u8,
    problem_len: usize,
    starts: u64,
    values: *mut u64,
    values_len: usize,
    tape: *const u64,
    tape_len: usize,
    lengths: *const u64,
    lengths_len: usize,
    budgets: *const u16,
    budgets_len: usize,
    answers: *mut u64,
    answers_len: usize,
) -> u64 {
    let lent = Lent {
        problem: from_raw_parts(problem, problem_len),
        starts,
        tape: from_raw_parts(tape, tape_len),
        lengths: from_raw_parts(lengths, lengths_len),
        budgets: from_raw_parts(budgets, budgets_len),
    };
    let values = from_raw_parts_mut(values, values_len);
    calls::batch(lent, values, from_raw_parts_mut(answers, answers_len))
}

/// # Safety
/// Each pointer and length are those of a slice; no two that are written overlap.
#[no_mangle]
pub unsafe extern "C" fn wal_gather(
    problem: *const u8,
    problem_len: usize,
    starts: u64,
    values: *mut u64,
    values_len: usize,
    tape: *const u64,
    tape_len: usize,
    lengths: *const u64,
    lengths_len: usize,
    budgets: *const u16,
    budgets_len: usize,
    names: *const u16,
    names_len: usize,
    kept: *mut u64,
    kept_len: usize,
    answers: *mut u64,
    answers_len: usize,
    out: *mut u64,
    out_len: usize,
) -> u64 {
    let lent = Lent {
        problem: from_raw_parts(problem, problem_len),
        starts,
        tape: from_raw_parts(tape, tape_len),
        lengths: from_raw_parts(lengths, lengths_len),
        budgets: from_raw_parts(budgets, budgets_len),
    };
    let values = from_raw_parts_mut(values, values_len);
    let names = from_raw_parts(names, names_len);
    let kept = from_raw_parts_mut(kept, kept_len);
    let answers = from_raw_parts_mut(answers, answers_len);
    calls::gather(lent, values, names, kept, answers, from_raw_parts_mut(out, out_len))
}

/// # Safety
/// Each pointer and length are those of a slice; `out` overlaps no other.
#[no_mangle]
pub unsafe extern "C" fn wal_model(
    problem: *const u8,
    problem_len: usize,
    names: *const u8,
    names_len: usize,
    text: *const u8,
    text_len: usize,
    out: *mut u64,
    out_len: usize,
) -> u64 {
    let problem = from_raw_parts(problem, problem_len);
    let names = from_raw_parts(names, names_len);
    let text = from_raw_parts(text, text_len);
    calls::model(problem, names, text, from_raw_parts_mut(out, out_len))
}

/// # Safety
/// Each pointer and length are those of a slice; those that are written overlap no other.
#[no_mangle]
pub unsafe extern "C" fn wal_mend(
    problem: *const u8,
    problem_len: usize,
    mended: *mut u8,
    mended_len: usize,
    map: *mut u16,
    map_len: usize,
) -> u64 {
    let problem = from_raw_parts(problem, problem_len);
    calls::mend(problem, from_raw_parts_mut(mended, mended_len), from_raw_parts_mut(map, map_len))
}

/// # Safety
/// Each pointer and length are those of a slice; `problem` and `out` overlap no other.
#[no_mangle]
pub unsafe extern "C" fn wal_btor2(
    text: *const u8,
    text_len: usize,
    problem: *mut u8,
    problem_len: usize,
    out: *mut u64,
    out_len: usize,
) -> u64 {
    let text = from_raw_parts(text, text_len);
    let problem = from_raw_parts_mut(problem, problem_len);
    calls::btor2(text, problem, from_raw_parts_mut(out, out_len))
}

/// # Safety
/// Each pointer and length are those of a slice.
#[no_mangle]
pub unsafe extern "C" fn wal_pick(
    kind: u8,
    width: u32,
    low: u32,
    spot: *const u64,
    spot_len: usize,
    position: u32,
    target: u64,
    proposal: u64,
    which: u8,
    out: *mut u64,
    out_len: usize,
) -> u8 {
    let spot = from_raw_parts(spot, spot_len);
    calls::pick(kind, width, low, spot, position, target, proposal, which, from_raw_parts_mut(out, out_len))
}

/// # Safety
/// The pointer and length are those of a slice.
#[no_mangle]
pub unsafe extern "C" fn wal_essential(
    kind: u8,
    width: u32,
    low: u32,
    spot: *const u64,
    spot_len: usize,
    position: u32,
    target: u64,
) -> u8 {
    calls::essential(kind, width, low, from_raw_parts(spot, spot_len), position, target)
}
