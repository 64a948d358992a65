//! A mark is not always needed: there are marked nodes that no run enters again.

use std::collections::BTreeSet;
use std::convert::Infallible;

use compare::reentry::entered_twice;
use compare::support::edges::W3;
use compare::support::every::{deciding_in_runs, every_program};
use compare::support::reentries::ever_reentered;
use compare::support::runs::{every_instant, Instant};
use compare::{read, Sets};

/// The marked nodes of an accepted table.
fn marked(table: &[u8]) -> BTreeSet<usize> {
    let marks = Sets::of(table).expect("an accepted table").marks;
    (0..marks.len()).filter(|&node| marks[node] == 1).collect()
}

/// Those that no run enters again.
fn unneeded(table: &[u8]) -> Vec<usize> {
    let (marked, needed) = (marked(table), ever_reentered(table));
    assert!(needed.is_subset(&marked));
    marked.difference(&needed).copied().collect()
}

/// Beside a pause, a branch that ends at once is entered once in each instant.
#[test]
fn the_smallest_programs() {
    let mut found = Vec::new();
    every_program(&deciding_in_runs(), 4, |table, _| {
        if !unneeded(table).is_empty() {
            found.push((table.to_vec(), unneeded(table)));
        }
    });
    let on_the_left = (vec![1, 0, 2, 0, 10, 0, 8, 0], vec![0]);
    let on_the_right = (vec![2, 0, 1, 0, 10, 0, 8, 0], vec![1]);
    assert_eq!(found, [on_the_left, on_the_right]);
}

/// The two exits of document 004's trap priorities: under a parallel S has all codes.
#[test]
fn trap_priorities() {
    assert_eq!(unneeded(W3), [0, 1]);
}

fn table(text: &str) -> Vec<u8> {
    let mut table = vec![0; 2048];
    let (nodes, _) = read(text.as_bytes(), &mut table).expect("a program");
    table.truncate(2 * nodes);
    table
}

/// A local signal that would not have to be copied: the emit is node 0.
#[test]
fn a_local_signal_beside_a_pause() {
    let beside = table("loop [signal S in emit S end || pause] end");
    assert_eq!(unneeded(&beside), [0, 1]);
    let before = table("loop signal S in emit S end; pause end");
    assert_eq!(marked(&before), [2, 3].into());
    assert_eq!(unneeded(&before), []);
}

/// Figure 1 (2), and the contexts of sections 4, 4.1, 4.3 and 4.4, have no parallel, and
/// just the marks that they need.
#[test]
fn examples_of_document_004() {
    for text in [
        "loop signal S in present S then nothing end; pause; emit S end end",
        "loop signal S in pause end end",
        "loop pause; signal S in emit S end end",
        "signal S in loop pause; present S then pause end end end",
        "loop trap T in loop trap U in pause; exit U; pause end end end; pause end",
        "loop trap T in loop trap U in pause; pause end end end; pause end",
        "loop signal S in pause; emit S end end",
    ] {
        assert_eq!(unneeded(&table(text)), [], "{text}");
    }
}

/// As section 4.1 has it, this pause is not entered again: S is present. Here an answer
/// may say that it is absent.
#[test]
fn answers_that_no_signal_gives() {
    let table = table("signal S in loop pause; emit S; present S then pause end end end");
    let twice = |answer| {
        let instant = Instant::of(&table, Some(&[0]), &[answer]).expect("a reached state");
        entered_twice(&instant.trail)
    };
    assert_eq!(twice(1), []);
    assert_eq!(twice(0), [0, 2, 6]);
    assert_eq!(unneeded(&table), []);
}

/// The nodes that some run enters.
fn ever_entered(table: &[u8]) -> BTreeSet<usize> {
    let mut entered = BTreeSet::new();
    let Ok(()) = every_instant(table, |instant| -> Result<(), Infallible> {
        entered.extend(instant.trail.iter().map(|entry| entry.node));
        Ok(())
    });
    entered
}

/// Without a parallel each mark is needed, but for a statement that is never come to.
#[test]
fn without_a_parallel() {
    let mut letters = deciding_in_runs();
    letters.retain(|([kind, _], _)| *kind != 10);
    let (mut programs, mut never_entered) = (0, 0);
    every_program(&letters, 7, |table, _| {
        let (unneeded, entered) = (unneeded(table), ever_entered(table));
        assert!(unneeded.iter().all(|node| !entered.contains(node)));
        programs += 1;
        never_entered += unneeded.len();
    });
    assert_eq!(programs, 30_399);
    assert!(never_entered > 100, "{never_entered}");
    // A loop of a pause after one that never ends.
    assert_eq!(unneeded(&[2, 0, 8, 0, 2, 0, 8, 0, 9, 0]), [2]);
}
