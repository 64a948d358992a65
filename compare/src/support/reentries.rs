//! The nodes that need a mark, found by running.

use std::collections::BTreeSet;
use std::convert::Infallible;

use super::runs::{every_instant, Instant};
use crate::account::account;
use crate::reentry::entered_twice;
use crate::table::{self, Tree};

/// The nodes that are entered twice in an instant, and those that were held beneath a
/// suspended statement, dropped, and started again.
pub fn reentered(tree: &Tree, instant: &Instant) -> BTreeSet<usize> {
    let account = account(tree, instant.before.as_deref(), &instant.answers);
    let dropped = account.expect("enough answers").dropped_unentered;
    let twice = entered_twice(&instant.trail);
    twice.into_iter().chain(dropped).collect()
}

/// The nodes for which this is so in some run of an accepted program.
pub fn ever_reentered(table: &[u8]) -> BTreeSet<usize> {
    let tree = table::read(table).expect("an accepted table");
    let mut ever = BTreeSet::new();
    let Ok(()) = every_instant(table, |instant| -> Result<(), Infallible> {
        ever.extend(reentered(&tree, instant));
        Ok(())
    });
    ever
}

/// An instant of a run in which nodes are entered again without a mark.
#[derive(Debug, PartialEq, Eq)]
pub struct Unmarked {
    pub before: Option<Vec<usize>>,
    pub answers: Vec<u8>,
    pub nodes: Vec<usize>,
}

/// Holds marks of an accepted program against all of its runs.
pub fn check_marks(table: &[u8], marks: &[u8]) -> Result<(), Unmarked> {
    let tree = table::read(table).expect("an accepted table");
    every_instant(table, |instant| check_marks_of(&tree, marks, instant))
}

/// Holds marks against one instant.
pub fn check_marks_of(tree: &Tree, marks: &[u8], instant: &Instant) -> Result<(), Unmarked> {
    let mut nodes = reentered(tree, instant);
    nodes.retain(|&node| marks[node] != 1);
    if nodes.is_empty() {
        return Ok(());
    }
    Err(Unmarked {
        before: instant.before.clone(),
        answers: instant.answers.clone(),
        nodes: nodes.into_iter().collect(),
    })
}
