//! An older build of the library, linked under other names where the variable WALUMPEH_BEFORE named its archive when this
//! was built (`build.rs`).

use crate::measure::Run;

/// Its run, if there is one.
pub fn run() -> Option<Run> {
    #[cfg(before)]
    return Some(linked::run);
    #[cfg(not(before))]
    None
}

#[cfg(before)]
mod linked {
    extern "C" {
        fn before_wal_run(
            problem: *const u8,
            problem_len: usize,
            values: *mut u64,
            values_len: usize,
            tape: *const u64,
            tape_len: usize,
            budget: u16,
            out: *mut u64,
            out_len: usize,
        ) -> u64;
    }

    pub fn run(problem: &[u8], values: &mut [u64], tape: &[u64], budget: u16, out: &mut [u64]) -> u64 {
        // SAFETY: the pointers and lengths are those of slices; the two that are written are borrowed for this call alone.
        unsafe {
            before_wal_run(
                problem.as_ptr(),
                problem.len(),
                values.as_mut_ptr(),
                values.len(),
                tape.as_ptr(),
                tape.len(),
                budget,
                out.as_mut_ptr(),
                out.len(),
            )
        }
    }
}
