//! The exported calls with the library's own numbers, on slices: outside/c/walumpeh.h says what each is
//! told and answers.

#[cfg(feature = "stub")]
extern crate stub as _;

mod calls {
    extern "C" {
        pub fn wal_check(problem: *const u8, problem_len: usize) -> u64;
        pub fn wal_run(
            problem: *const u8,
            problem_len: usize,
            values: *mut u64,
            values_len: usize,
            tape: *const u64,
            tape_len: usize,
            budget: u16,
            out: *mut u64,
            out_len: usize,
        ) -> u64;
        pub fn wal_need(
            problem: *const u8,
            problem_len: usize,
            budget: u16,
            out: *mut u64,
            out_len: usize,
        ) -> u64;
        pub fn wal_batch(
            problem: *const u8,
            problem_len: usize,
            starts: u64,
            values: *mut u64,
            values_len: usize,
            tape: *const u64,
            tape_len: usize,
            lengths: *const u64,
            lengths_len: usize,
            budgets: *const u16,
            budgets_len: usize,
            answers: *mut u64,
            answers_len: usize,
        ) -> u64;
        pub fn wal_gather(
            problem: *const u8,
            problem_len: usize,
            starts: u64,
            values: *mut u64,
            values_len: usize,
            tape: *const u64,
            tape_len: usize,
            lengths: *const u64,
            lengths_len: usize,
            budgets: *const u16,
            budgets_len: usize,
            names: *const u16,
            names_len: usize,
            kept: *mut u64,
            kept_len: usize,
            answers: *mut u64,
            answers_len: usize,
            out: *mut u64,
            out_len: usize,
        ) -> u64;
        pub fn wal_model(
            problem: *const u8,
            problem_len: usize,
            names: *const u8,
            names_len: usize,
            text: *const u8,
            text_len: usize,
            out: *mut u64,
            out_len: usize,
        ) -> u64;
        pub fn wal_mend(
            problem: *const u8,
            problem_len: usize,
            mended: *mut u8,
            mended_len: usize,
            map: *mut u16,
            map_len: usize,
        ) -> u64;
        pub fn wal_btor2(
            text: *const u8,
            text_len: usize,
            problem: *mut u8,
            problem_len: usize,
            out: *mut u64,
            out_len: usize,
        ) -> u64;
        pub fn wal_pick(
            kind: u8,
            width: u32,
            low: u32,
            spot: *const u64,
            spot_len: usize,
            position: u32,
            target: u64,
            proposal: u64,
            which: u8,
            out: *mut u64,
            out_len: usize,
        ) -> u8;
        pub fn wal_essential(
            kind: u8,
            width: u32,
            low: u32,
            spot: *const u64,
            spot_len: usize,
            position: u32,
            target: u64,
        ) -> u8;
    }
}

/// Whether the model stands in for the proved library.
pub const IS_STUB: bool = cfg!(feature = "stub");

/// How many words a run needs for its answer: verdict, moves, steps, words and nodes evaluated.
pub const RUN_OUT: usize = 5;

/// How many words `batch` needs for each start's answer: its refusal, verdict, moves, steps, words and nodes evaluated.
pub const ANSWER: usize = 1 + RUN_OUT;

/// How many words `gather` needs for what was gathered: kept, repeats and unkept.
pub const GATHER_OUT: usize = 3;

/// How many words `need` needs for its answer: H and the number of words.
pub const NEED_OUT: usize = 2;

/// How many words `model` needs for its answer: 1 for yes and 0 otherwise, and the first root that is 0.
pub const MODEL_OUT: usize = 2;

/// How many words `btor2` needs for its answer: how many bytes were written.
pub const BTOR2_OUT: usize = 1;

/// The refusal of a call that is lent too few words for its answer.
pub const TOO_SHORT: u64 = 255;

/// 0 where the problem is accepted, else the refusal's number + 256 × its place.
pub fn check(problem: &[u8]) -> u64 {
    // SAFETY: the pointer and length are those of a slice, which is only read.
    unsafe { calls::wal_check(problem.as_ptr(), problem.len()) }
}

/// 0, or the refusal's number + 256 × its place. `out` takes the verdict (0 model, 1 spent, 2 ended,
/// 3 closed, 4 refused), moves, steps, words and nodes evaluated.
pub fn run(problem: &[u8], values: &mut [u64], tape: &[u64], budget: u16, out: &mut [u64]) -> u64 {
    // SAFETY: the pointers and lengths are those of slices; the two that are written are borrowed
    // for this call alone.
    unsafe {
        calls::wal_run(
            problem.as_ptr(),
            problem.len(),
            values.as_mut_ptr(),
            values.len(),
            tape.as_ptr(),
            tape.len(),
            budget,
            out.as_mut_ptr(),
            out.len(),
        )
    }
}

/// The same; `out` takes H and budget × (1 + 2H), or two zeros.
pub fn need(problem: &[u8], budget: u16, out: &mut [u64]) -> u64 {
    // SAFETY: as above.
    unsafe { calls::wal_need(problem.as_ptr(), problem.len(), budget, out.as_mut_ptr(), out.len()) }
}

/// The same of the whole call; `answers` takes six words for each start: its own refusal, and those of a run.
pub fn batch(
    problem: &[u8],
    starts: u64,
    values: &mut [u64],
    tape: &[u64],
    lengths: &[u64],
    budgets: &[u16],
    answers: &mut [u64],
) -> u64 {
    // SAFETY: as above.
    unsafe {
        calls::wal_batch(
            problem.as_ptr(),
            problem.len(),
            starts,
            values.as_mut_ptr(),
            values.len(),
            tape.as_ptr(),
            tape.len(),
            lengths.as_ptr(),
            lengths.len(),
            budgets.as_ptr(),
            budgets.len(),
            answers.as_mut_ptr(),
            answers.len(),
        )
    }
}

/// The same, with solutions in `kept`, N words each; `out` takes kept, repeats and unkept, or three zeros.
#[allow(clippy::too_many_arguments)]
pub fn gather(
    problem: &[u8],
    starts: u64,
    values: &mut [u64],
    tape: &[u64],
    lengths: &[u64],
    budgets: &[u16],
    names: &[u16],
    kept: &mut [u64],
    answers: &mut [u64],
    out: &mut [u64],
) -> u64 {
    // SAFETY: as above.
    unsafe {
        calls::wal_gather(
            problem.as_ptr(),
            problem.len(),
            starts,
            values.as_mut_ptr(),
            values.len(),
            tape.as_ptr(),
            tape.len(),
            lengths.as_ptr(),
            lengths.len(),
            budgets.as_ptr(),
            budgets.len(),
            names.as_ptr(),
            names.len(),
            kept.as_mut_ptr(),
            kept.len(),
            answers.as_mut_ptr(),
            answers.len(),
            out.as_mut_ptr(),
            out.len(),
        )
    }
}

/// The same; `out` takes 1 for yes and 0 otherwise, and the first root that is 0, or two zeros.
pub fn model(problem: &[u8], names: &[u8], text: &[u8], out: &mut [u64]) -> u64 {
    // SAFETY: as above.
    unsafe {
        calls::wal_model(
            problem.as_ptr(),
            problem.len(),
            names.as_ptr(),
            names.len(),
            text.as_ptr(),
            text.len(),
            out.as_mut_ptr(),
            out.len(),
        )
    }
}

/// The same; where nothing is refused, `mended` begins with the problem in order, and `map` with the old id of each
/// new one.
pub fn mend(problem: &[u8], mended: &mut [u8], map: &mut [u16]) -> u64 {
    // SAFETY: as above.
    unsafe {
        calls::wal_mend(
            problem.as_ptr(),
            problem.len(),
            mended.as_mut_ptr(),
            mended.len(),
            map.as_mut_ptr(),
            map.len(),
        )
    }
}

/// 0, or the refusal's number + 256 × its line; `problem` takes the bytes that the text is converted to, and `out` how many
/// they are, or 0.
pub fn btor2(text: &[u8], problem: &mut [u8], out: &mut [u64]) -> u64 {
    // SAFETY: as above.
    unsafe {
        calls::wal_btor2(
            text.as_ptr(),
            text.len(),
            problem.as_mut_ptr(),
            problem.len(),
            out.as_mut_ptr(),
            out.len(),
        )
    }
}

/// 1 with the value in `out`, 0 where the set is empty, 2 where the arguments are refused.
#[allow(clippy::too_many_arguments)]
#[inline]
pub fn pick(
    kind: u8,
    width: u32,
    low: u32,
    spot: &[u64; 12],
    position: u32,
    target: u64,
    proposal: u64,
    which: u8,
    out: &mut [u64; 1],
) -> u8 {
    // SAFETY: as above.
    unsafe {
        calls::wal_pick(
            kind,
            width,
            low,
            spot.as_ptr(),
            spot.len(),
            position,
            target,
            proposal,
            which,
            out.as_mut_ptr(),
            out.len(),
        )
    }
}

/// 1 where the position is essential, 0 where it is not, 2 where the arguments are refused.
#[inline]
pub fn essential(kind: u8, width: u32, low: u32, spot: &[u64; 12], position: u32, target: u64) -> u8 {
    // SAFETY: as above.
    unsafe { calls::wal_essential(kind, width, low, spot.as_ptr(), spot.len(), position, target) }
}
