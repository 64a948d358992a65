//! Sets of completion codes: start sets K, any-instant sets A, context sets S
//! and marks. A set is a number with bit k for code k, from 0 to 63.

use crate::table::{Statement, Tree};

pub const ENDED: u64 = 1;
pub const PAUSED: u64 = 1 << 1;
/// The code of an exit to the innermost trap.
pub const CAUGHT: u64 = 1 << 2;

/// Writes the start set K of every node.
pub fn fill_start_sets(tree: &Tree, start_sets: &mut [u64]) {
    fill_upward(tree, PAUSED, start_sets);
}

/// Writes the any-instant set A of every node: a pause that is resumed ends.
pub fn fill_any_sets(tree: &Tree, any_sets: &mut [u64]) {
    fill_upward(tree, ENDED | PAUSED, any_sets);
}

fn fill_upward(tree: &Tree, pause: u64, sets: &mut [u64]) {
    for (node, &statement) in tree.statements.iter().enumerate() {
        sets[node] = set_of(statement, pause, |child| sets[child]);
    }
}

/// The start set of a statement, from those of its children.
pub fn start_set(statement: Statement, of: impl Fn(usize) -> u64) -> u64 {
    set_of(statement, PAUSED, of)
}

fn set_of(statement: Statement, pause: u64, of: impl Fn(usize) -> u64) -> u64 {
    match statement {
        Statement::Nothing | Statement::Emit { .. } => ENDED,
        Statement::Pause => pause,
        Statement::Exit { level } => CAUGHT << level,
        Statement::Signal { body } | Statement::Suspend { body } => of(body),
        Statement::Present { then, otherwise } => of(then) | of(otherwise),
        Statement::Loop { body } => of(body) & !ENDED,
        Statement::Sequence { first, second } => sequence(of(first), of(second)),
        Statement::Parallel { left, right } => parallel(of(left), of(right)),
        Statement::Trap { body } => trap(of(body)),
    }
}

/// The codes of a sequence: the second starts only where the first ends.
pub fn sequence(first: u64, second: u64) -> u64 {
    if first & ENDED != 0 {
        (first & !ENDED) | second
    } else {
        first
    }
}

/// Every larger one of a left and a right code. A code of either side is the
/// larger one of some pair unless all codes of the other side exceed it.
pub fn parallel(left: u64, right: u64) -> u64 {
    if left == 0 || right == 0 {
        return 0;
    }
    let least = left.trailing_zeros().max(right.trailing_zeros());
    (left | right) & (u64::MAX << least)
}

/// The codes of a trap: 0 and 2 become 0, 1 stays, k from 3 becomes k - 1.
pub fn trap(body: u64) -> u64 {
    let ended = if body & (ENDED | CAUGHT) != 0 {
        ENDED
    } else {
        0
    };
    let further_out = (body & !(ENDED | PAUSED | CAUGHT)) >> 1;
    ended | (body & PAUSED) | further_out
}

/// Writes the context set S of every node, from the program down. `traps` has
/// the number of traps around each node, itself not counted.
pub fn fill_contexts(tree: &Tree, start_sets: &[u64], traps: &[usize], contexts: &mut [u64]) {
    contexts[tree.root()] = 0;
    for node in (0..tree.size()).rev() {
        fill_contexts_beneath(tree, node, start_sets, traps, contexts);
    }
}

/// Writes the context sets of a node's children, from its own.
pub fn fill_contexts_beneath(
    tree: &Tree,
    node: usize,
    start_sets: &[u64],
    traps: &[usize],
    contexts: &mut [u64],
) {
    let outer = contexts[node];
    match tree.statements[node] {
        Statement::Nothing | Statement::Pause | Statement::Emit { .. } | Statement::Exit { .. } => {
        }
        Statement::Signal { body } | Statement::Suspend { body } => contexts[body] = outer,
        Statement::Present { then, otherwise } => {
            contexts[then] = outer;
            contexts[otherwise] = outer;
        }
        Statement::Loop { body } => contexts[body] = outer | ENDED,
        Statement::Sequence { first, second } => {
            contexts[first] = context_of_first(outer, start_sets[second]);
            contexts[second] = context_of_second(outer, start_sets[first]);
        }
        Statement::Parallel { left, right } => {
            contexts[left] = context_under_parallel(outer, traps[left]);
            contexts[right] = context_under_parallel(outer, traps[right]);
        }
        Statement::Trap { body } => contexts[body] = context_under_trap(outer),
    }
}

fn context_of_first(outer: u64, second: u64) -> u64 {
    if second & outer != 0 {
        outer | ENDED
    } else {
        outer & !ENDED
    }
}

fn context_of_second(outer: u64, first: u64) -> u64 {
    if first & ENDED != 0 {
        outer
    } else {
        0
    }
}

/// Code 63 has no place to move to. It is never in `outer`: a trap has at most 61
/// others around it, and its codes end with 62.
fn context_under_trap(outer: u64) -> u64 {
    let caught = if outer & ENDED != 0 { CAUGHT } else { 0 };
    let further_out = (outer & !(ENDED | PAUSED)) << 1;
    (outer & (ENDED | PAUSED)) | caught | further_out
}

/// All codes up to the exit to the outermost trap, as F-5 has it from footnote 4
/// of document 004. Code 1 is among them: a branch that pauses can be dropped by
/// its neighbour's exit and started again in that instant.
fn context_under_parallel(outer: u64, traps: usize) -> u64 {
    if outer == 0 {
        return 0;
    }
    // The last one alone, then with all below it: under 62 traps it is code 63,
    // and no bit is left above it.
    let last = PAUSED << traps;
    last | (last - 1)
}

/// Writes the marks: 1 where the any-instant set meets the context, else 0.
pub fn fill_marks(any_sets: &[u64], contexts: &[u64], marks: &mut [u8]) {
    for (mark, (any_set, context)) in marks.iter_mut().zip(any_sets.iter().zip(contexts)) {
        *mark = u8::from(any_set & context != 0);
    }
}
