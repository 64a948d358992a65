//! The analysis by hand in C, in two passes: see `two_pass.c`.

use compare::support::calls::{Calls, COMPARE};

/// The calls of compare, but with this analysis.
pub const TWO_PASS: Calls = Calls { analyse, ..COMPARE };

extern "C" {
    fn two_pass_analyse(
        table: *const u8,
        table_length: usize,
        start_sets: *mut u64,
        start_sets_length: usize,
        any_sets: *mut u64,
        any_sets_length: usize,
        contexts: *mut u64,
        contexts_length: usize,
        marks: *mut u8,
        marks_length: usize,
        answer: *mut u64,
        answer_length: usize,
    ) -> u32;
}

/// The figures are the nodes, the loop depth and 0.
pub fn analyse(
    table: &[u8],
    start_sets: &mut [u64],
    any_sets: &mut [u64],
    contexts: &mut [u64],
    marks: &mut [u8],
    answer: &mut [u64],
) -> u32 {
    // SAFETY: each pointer is followed by the length of its own slice. The function stays within
    // the lengths and keeps no pointer.
    unsafe {
        two_pass_analyse(
            table.as_ptr(),
            table.len(),
            start_sets.as_mut_ptr(),
            start_sets.len(),
            any_sets.as_mut_ptr(),
            any_sets.len(),
            contexts.as_mut_ptr(),
            contexts.len(),
            marks.as_mut_ptr(),
            marks.len(),
            answer.as_mut_ptr(),
            answer.len(),
        )
    }
}
