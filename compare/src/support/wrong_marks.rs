//! Marks by wrong rules, which runs must tell from the right ones.

use crate::checks::{self, Program};
use crate::sets::{self, CAUGHT, PAUSED};
use crate::table::Statement;
use crate::Sets;

/// Code 1 is left out under a parallel, as before F-5.
pub fn before_f5(table: &[u8]) -> Vec<u8> {
    marks_with(table, |program, node, contexts| {
        if let Statement::Parallel { left, right } = program.tree.statements[node] {
            contexts[left] &= !PAUSED;
            contexts[right] &= !PAUSED;
        }
    })
}

/// Code 2 is left out under a trap.
pub fn without_caught(table: &[u8]) -> Vec<u8> {
    marks_with(table, |program, node, contexts| {
        if let Statement::Trap { body } = program.tree.statements[node] {
            contexts[body] &= !CAUGHT;
        }
    })
}

/// The second of a sequence has its parent's context even if the first can't end at once.
pub fn second_as_its_parent(table: &[u8]) -> Vec<u8> {
    marks_with(table, |program, node, contexts| {
        if let Statement::Sequence { second, .. } = program.tree.statements[node] {
            contexts[second] = contexts[node];
        }
    })
}

/// K is in the place of A.
pub fn by_start_sets(table: &[u8]) -> Vec<u8> {
    let mut sets = Sets::of(table).expect("an accepted table");
    sets::fill_marks(&sets.start_sets, &sets.contexts, &mut sets.marks);
    sets.marks
}

/// After the right rule has given the contexts of a node's children, they are changed.
fn marks_with(table: &[u8], change: fn(&Program, usize, &mut [u64])) -> Vec<u8> {
    let program = checks::accept(table, |_| true).expect("an accepted table");
    let Program {
        tree,
        around,
        start_sets,
    } = &program;
    let (mut any_sets, mut contexts) = (vec![0; tree.size()], vec![0; tree.size()]);
    for node in (0..tree.size()).rev() {
        sets::fill_contexts_beneath(tree, node, start_sets, &around.traps, &mut contexts);
        change(&program, node, &mut contexts);
    }
    let mut marks = vec![0; tree.size()];
    sets::fill_any_sets(tree, &mut any_sets);
    sets::fill_marks(&any_sets, &contexts, &mut marks);
    marks
}
