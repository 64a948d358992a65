//! The functions of libabi.a as they are: each returns 0, or number + 256 * node of a refusal. After
//! 0 its figures are the first three entries of the answer; after a refusal no buffer has changed.
//! An answer of fewer than three entries is refused by check 3, like the other buffers that are too
//! short. All of the unsafe code is here.
//!
//! Each slice is lent as its pointer and its length. The functions stay within the lengths and
//! keep no pointer; the borrows see to it that what is written overlaps nothing else.

use crate::{CodeSet, Mark};

type InstantCall = unsafe extern "C" fn(
    table: *const u8,
    table_length: usize,
    answers: *const u8,
    answers_length: usize,
    state: *mut u8,
    state_length: usize,
    emissions: *mut u8,
    emissions_length: usize,
    answer: *mut u64,
    answer_length: usize,
) -> u32;

extern "C" {
    fn bavzhrono_analyse(
        table: *const u8,
        table_length: usize,
        start_sets: *mut u64,
        start_sets_length: usize,
        any_sets: *mut u64,
        any_sets_length: usize,
        contexts: *mut u64,
        contexts_length: usize,
        marks: *mut u8,
        marks_length: usize,
        answer: *mut u64,
        answer_length: usize,
    ) -> u32;

    fn bavzhrono_start(
        table: *const u8,
        table_length: usize,
        answers: *const u8,
        answers_length: usize,
        state: *mut u8,
        state_length: usize,
        emissions: *mut u8,
        emissions_length: usize,
        answer: *mut u64,
        answer_length: usize,
    ) -> u32;

    fn bavzhrono_resume(
        table: *const u8,
        table_length: usize,
        answers: *const u8,
        answers_length: usize,
        state: *mut u8,
        state_length: usize,
        emissions: *mut u8,
        emissions_length: usize,
        answer: *mut u64,
        answer_length: usize,
    ) -> u32;

    fn bavzhrono_render(
        table: *const u8,
        table_length: usize,
        text: *mut u8,
        text_length: usize,
        answer: *mut u64,
        answer_length: usize,
    ) -> u32;

    fn bavzhrono_read(
        text: *const u8,
        text_length: usize,
        table: *mut u8,
        table_length: usize,
        answer: *mut u64,
        answer_length: usize,
    ) -> u32;

    fn bavzhrono_read_place(
        text: *const u8,
        text_length: usize,
        answer: *mut u64,
        answer_length: usize,
    ) -> u32;

    fn bavzhrono_tick(
        table: *const u8,
        table_length: usize,
        answers: *mut u8,
        answers_length: usize,
        answer: *mut u64,
        answer_length: usize,
    ) -> u32;

    fn bavzhrono_fetch(
        file: *const u8,
        file_length: usize,
        program: u16,
        table: *mut u8,
        table_length: usize,
        answer: *mut u64,
        answer_length: usize,
    ) -> u32;

    fn bavzhrono_part(
        file: *const u8,
        file_length: usize,
        program: u16,
        edition: u16,
        part: u8,
        answer: *mut u64,
        answer_length: usize,
    ) -> u32;

    fn bavzhrono_narrow(
        table: *const u8,
        table_length: usize,
        ties: *const u8,
        ties_length: usize,
        sets: *mut u64,
        sets_length: usize,
        answer: *mut u64,
        answer_length: usize,
    ) -> u32;

    fn bavzhrono_first_tick(
        table: *const u8,
        table_length: usize,
        answer: *mut u64,
        answer_length: usize,
    ) -> u32;

    fn bavzhrono_first_tick_answers(
        table: *const u8,
        table_length: usize,
        answers: *mut u8,
        answers_length: usize,
        answer: *mut u64,
        answer_length: usize,
    ) -> u32;

    fn bavzhrono_ask(
        table: *const u8,
        table_length: usize,
        node: u64,
        code: u64,
        answer: *mut u64,
        answer_length: usize,
    ) -> u32;

    fn bavzhrono_trial(
        table: *const u8,
        table_length: usize,
        node: u64,
        answer: *mut u64,
        answer_length: usize,
    ) -> u32;
}

/// The figures are the nodes, the loop depth and 0.
pub fn analyse(
    table: &[u8],
    start_sets: &mut [u64],
    any_sets: &mut [u64],
    contexts: &mut [u64],
    marks: &mut [u8],
    answer: &mut [u64],
) -> u32 {
    // SAFETY: each pointer is followed by the length of its own slice.
    unsafe {
        bavzhrono_analyse(
            table.as_ptr(),
            table.len(),
            start_sets.as_mut_ptr(),
            start_sets.len(),
            any_sets.as_mut_ptr(),
            any_sets.len(),
            contexts.as_mut_ptr(),
            contexts.len(),
            marks.as_mut_ptr(),
            marks.len(),
            answer.as_mut_ptr(),
            answer.len(),
        )
    }
}

/// The figures are the code, the answers taken and the entries. The state needs
/// [`STATE_BYTES`](crate::STATE_BYTES) bytes, those of a [`State`](crate::State).
pub fn start(
    table: &[u8],
    answers: &[u8],
    state: &mut [u8],
    emissions: &mut [u8],
    answer: &mut [u64],
) -> u32 {
    instant(bavzhrono_start, table, answers, state, emissions, answer)
}

/// The figures and the state are as for [`start`].
pub fn resume(
    table: &[u8],
    answers: &[u8],
    state: &mut [u8],
    emissions: &mut [u8],
    answer: &mut [u64],
) -> u32 {
    instant(bavzhrono_resume, table, answers, state, emissions, answer)
}

/// The figures are the length of the text, 0 and 0. Whatever the table, the only refusal is 3.
pub fn render(table: &[u8], text: &mut [u8], answer: &mut [u64]) -> u32 {
    // SAFETY: each pointer is followed by the length of its own slice.
    unsafe {
        bavzhrono_render(
            table.as_ptr(),
            table.len(),
            text.as_mut_ptr(),
            text.len(),
            answer.as_mut_ptr(),
            answer.len(),
        )
    }
}

/// The figures are the nodes, the number of signals and 0. A table or an answer that is too short is
/// refused ahead of all else.
pub fn read(text: &[u8], table: &mut [u8], answer: &mut [u64]) -> u32 {
    // SAFETY: each pointer is followed by the length of its own slice.
    unsafe {
        bavzhrono_read(
            text.as_ptr(),
            text.len(),
            table.as_mut_ptr(),
            table.len(),
            answer.as_mut_ptr(),
            answer.len(),
        )
    }
}

/// The figures are the number and the node with which [`read`] refuses the text and the place of the
/// fault; for a text that is read they are 0, 0 and 0. Whatever the text, the only refusal is 3.
pub fn read_place(text: &[u8], answer: &mut [u64]) -> u32 {
    // SAFETY: each pointer is followed by the length of its own slice.
    unsafe { bavzhrono_read_place(text.as_ptr(), text.len(), answer.as_mut_ptr(), answer.len()) }
}

/// The figures are 1, the node and the length of the list if check 11 fails, which is not returned;
/// for an accepted table they are 0, the nodes and the loop depth.
pub fn tick(table: &[u8], answers: &mut [u8], answer: &mut [u64]) -> u32 {
    // SAFETY: each pointer is followed by the length of its own slice.
    unsafe {
        bavzhrono_tick(
            table.as_ptr(),
            table.len(),
            answers.as_mut_ptr(),
            answers.len(),
            answer.as_mut_ptr(),
            answer.len(),
        )
    }
}

/// The figures are the length of the table in bytes, the edition and the number of parts. A table
/// or an answer that is too short is refused ahead of all else.
pub fn fetch(file: &[u8], program: u16, table: &mut [u8], answer: &mut [u64]) -> u32 {
    // SAFETY: each pointer is followed by the length of its own slice.
    unsafe {
        bavzhrono_fetch(
            file.as_ptr(),
            file.len(),
            program,
            table.as_mut_ptr(),
            table.len(),
            answer.as_mut_ptr(),
            answer.len(),
        )
    }
}

/// The figures are the place in the file where the used content begins, its length and 0; for an
/// empty part they are 0, 0 and 0. Whatever the file, the only refusal is 3.
pub fn part(file: &[u8], program: u16, edition: u16, part: u8, answer: &mut [u64]) -> u32 {
    // SAFETY: each pointer is followed by the length of its own slice.
    unsafe {
        bavzhrono_part(
            file.as_ptr(),
            file.len(),
            program,
            edition,
            part,
            answer.as_mut_ptr(),
            answer.len(),
        )
    }
}

/// The figures are the nodes, 0 and 0.
pub fn narrow(table: &[u8], ties: &[u8], sets: &mut [u64], answer: &mut [u64]) -> u32 {
    // SAFETY: each pointer is followed by the length of its own slice.
    unsafe {
        bavzhrono_narrow(
            table.as_ptr(),
            table.len(),
            ties.as_ptr(),
            ties.len(),
            sets.as_mut_ptr(),
            sets.len(),
            answer.as_mut_ptr(),
            answer.len(),
        )
    }
}

/// The figures are the entries, 0 and 0.
pub fn first_tick(table: &[u8], answer: &mut [u64]) -> u32 {
    // SAFETY: each pointer is followed by the length of its own slice.
    unsafe {
        bavzhrono_first_tick(
            table.as_ptr(),
            table.len(),
            answer.as_mut_ptr(),
            answer.len(),
        )
    }
}

/// The figures are the entries, the length of the list and 0.
pub fn first_tick_answers(table: &[u8], answers: &mut [u8], answer: &mut [u64]) -> u32 {
    // SAFETY: each pointer is followed by the length of its own slice.
    unsafe {
        bavzhrono_first_tick_answers(
            table.as_ptr(),
            table.len(),
            answers.as_mut_ptr(),
            answers.len(),
            answer.as_mut_ptr(),
            answer.len(),
        )
    }
}

/// The figures are 1 if the code is in the node's start set and else 0, the nodes looked at, and 0.
/// Node and code may be any numbers.
pub fn ask(table: &[u8], node: u64, code: u64, answer: &mut [u64]) -> u32 {
    // SAFETY: each pointer is followed by the length of its own slice.
    unsafe {
        bavzhrono_ask(
            table.as_ptr(),
            table.len(),
            node,
            code,
            answer.as_mut_ptr(),
            answer.len(),
        )
    }
}

/// The figures are the set of the codes that the starts of the node gave, the number of present
/// statements in the node, and 0. The node may be any number.
pub fn trial(table: &[u8], node: u64, answer: &mut [u64]) -> u32 {
    // SAFETY: each pointer is followed by the length of its own slice.
    unsafe {
        bavzhrono_trial(
            table.as_ptr(),
            table.len(),
            node,
            answer.as_mut_ptr(),
            answer.len(),
        )
    }
}

fn instant(
    call: InstantCall,
    table: &[u8],
    answers: &[u8],
    state: &mut [u8],
    emissions: &mut [u8],
    answer: &mut [u64],
) -> u32 {
    // SAFETY: each pointer is followed by the length of its own slice.
    unsafe {
        call(
            table.as_ptr(),
            table.len(),
            answers.as_ptr(),
            answers.len(),
            state.as_mut_ptr(),
            state.len(),
            emissions.as_mut_ptr(),
            emissions.len(),
            answer.as_mut_ptr(),
            answer.len(),
        )
    }
}

/// The numbers of some sets.
pub(crate) fn numbers(sets: &mut [CodeSet]) -> &mut [u64] {
    // SAFETY: a CodeSet is a u64 (repr(transparent)).
    unsafe { std::slice::from_raw_parts_mut(sets.as_mut_ptr().cast(), sets.len()) }
}

/// The bytes of some marks.
pub(crate) fn bytes(marks: &mut [Mark]) -> &mut [u8] {
    // SAFETY: a Mark is a u8 (repr(transparent)).
    unsafe { std::slice::from_raw_parts_mut(marks.as_mut_ptr().cast(), marks.len()) }
}
