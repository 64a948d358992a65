//! The analysis: all sets and marks of a table, into lent buffers or new ones.

use crate::{checks, sets, Refusal};

/// Fills the first n entries of each buffer and hands back the number of
/// nodes n and the loop depth d. A refusal leaves every buffer as it was.
pub fn analyse(
    table: &[u8],
    start_sets: &mut [u64],
    any_sets: &mut [u64],
    contexts: &mut [u64],
    marks: &mut [u8],
) -> Result<(usize, usize), Refusal> {
    let program = checks::accept(table, |size| {
        start_sets.len() >= size
            && any_sets.len() >= size
            && contexts.len() >= size
            && marks.len() >= size
    })?;
    let tree = &program.tree;
    let size = tree.size();
    let any_sets = &mut any_sets[..size];
    let contexts = &mut contexts[..size];
    start_sets[..size].copy_from_slice(&program.start_sets);
    sets::fill_any_sets(tree, any_sets);
    sets::fill_contexts(tree, &program.start_sets, &program.around.traps, contexts);
    sets::fill_marks(any_sets, contexts, &mut marks[..size]);
    Ok((size, program.loop_depth()))
}

/// All that the analysis finds, an entry a node.
pub struct Sets {
    pub start_sets: Vec<u64>,
    pub any_sets: Vec<u64>,
    pub contexts: Vec<u64>,
    pub marks: Vec<u8>,
    pub loop_depth: usize,
}

impl Sets {
    pub fn of(table: &[u8]) -> Result<Sets, Refusal> {
        let size = table.len() / 2;
        let mut sets = Sets {
            start_sets: vec![0; size],
            any_sets: vec![0; size],
            contexts: vec![0; size],
            marks: vec![0; size],
            loop_depth: 0,
        };
        (_, sets.loop_depth) = analyse(
            table,
            &mut sets.start_sets,
            &mut sets.any_sets,
            &mut sets.contexts,
            &mut sets.marks,
        )?;
        Ok(sets)
    }
}
