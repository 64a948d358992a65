//! Marks by other rules, held against runs: which of them are refused, and by which of the
//! smallest programs.

use compare::support::edges::LOCK;
use compare::support::every::{deciding_in_runs, every_program};
use compare::support::reentries::{check_marks, ever_reentered, Unmarked};
use compare::support::wrong_marks::{
    before_f5, by_start_sets, second_as_its_parent, without_caught,
};

/// The programs of up to so many nodes with runs that refuse these marks, each with the
/// first instant that does.
fn refusals(nodes: usize, marks_of: fn(&[u8]) -> Vec<u8>) -> Vec<(Vec<u8>, Unmarked)> {
    let mut refusals = Vec::new();
    every_program(&deciding_in_runs(), nodes, |table, sets| {
        let marks = marks_of(table);
        // No run refuses the right ones.
        if marks != sets.marks {
            let refusal = check_marks(table, &marks).err();
            refusals.extend(refusal.map(|unmarked| (table.to_vec(), unmarked)));
        }
    });
    refusals
}

fn unmarked(before: &[usize], nodes: &[usize]) -> Unmarked {
    Unmarked {
        before: Some(before.to_vec()),
        answers: Vec::new(),
        nodes: nodes.to_vec(),
    }
}

/// The lock program of F-5, and its mirror image.
#[test]
fn without_code_1_under_a_parallel() {
    let mirrored = vec![2, 0, 4, 0, 9, 0, 2, 0, 8, 0, 10, 0, 11, 0, 8, 0];
    let expected = [
        (mirrored, unmarked(&[0, 3], &[4])),
        (LOCK.to_vec(), unmarked(&[0, 2], &[1])),
    ];
    assert_eq!(refusals(8, before_f5), expected);
}

/// A loop of a trap that is left by an exit after a pause.
#[test]
fn without_code_2_under_a_trap() {
    let table = vec![2, 0, 4, 0, 9, 0, 11, 0, 8, 0];
    let expected = [(table, unmarked(&[0], &[0, 2]))];
    assert_eq!(refusals(5, without_caught), expected);
}

/// A loop of a pause.
#[test]
fn by_k_in_place_of_a() {
    let expected = [(vec![2, 0, 8, 0], unmarked(&[0], &[0]))];
    assert_eq!(refusals(2, by_start_sets), expected);
}

/// Each rule gives more for a larger context, so that this one only adds marks, and no run
/// can refuse it.
#[test]
fn with_the_context_of_a_sequence_for_its_second() {
    let mut smallest = Vec::new();
    every_program(&deciding_in_runs(), 6, |table, sets| {
        let (right, wrong) = (&sets.marks, second_as_its_parent(table));
        let mut pairs = right.iter().zip(&wrong);
        assert!(pairs.all(|(right, wrong)| right <= wrong), "{table:?}");
        assert_eq!(check_marks(table, &wrong), Ok(()), "{table:?}");
        if *right != wrong && table.len() <= 8 {
            smallest.push((table.to_vec(), right.clone(), wrong));
        }
    });
    let ended = vec![2, 0, 1, 0, 9, 0, 8, 0];
    let paused = vec![2, 0, 2, 0, 9, 0, 8, 0];
    assert!(!ever_reentered(&ended).contains(&1));
    assert!(!ever_reentered(&paused).contains(&1));
    let expected = [
        (ended, vec![1, 0, 1, 0], vec![1, 1, 1, 0]),
        (paused, vec![0, 0, 1, 0], vec![0, 1, 1, 0]),
    ];
    assert_eq!(smallest, expected);
}
