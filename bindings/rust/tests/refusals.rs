//! Each check refuses with its number and node, and says why. Check 3 is in `buffers.rs` and, for a
//! state, with more of check 12, in `held_bits.rs`; checks of a text are in `text.rs`, checks of a
//! file are in `blocks.rs`, that of ties is in `ties.rs`, that of a node that is asked about is in
//! `question.rs`, and that of a node that is tried is in `trial.rs`.

mod common;

use std::collections::HashSet;

use bavzhrono::{Completion, Refusal, State};
use common::*;

/// Present 1: then emit 5, else pause.
const PRESENT: &[u8] = &[3, 5, 2, 0, 6, 1];
/// Suspend pause when 1.
const SUSPEND: &[u8] = &[2, 0, 7, 1];
/// Pause, then pause.
const PAUSES: &[u8] = &[2, 0, 2, 0, 9, 0];

#[test]
fn check_1_the_table_is_too_long() {
    assert_refused(&[&full_table()[..], &[8, 0]].concat(), 1, 0);
    assert_refused(&[12; 2049], 1, 0);
}

#[test]
fn check_2_the_table_is_empty_or_odd() {
    assert_refused(&[], 2, 0);
    assert_refused(&[2, 0, 8], 2, 0);
}

#[test]
fn check_4_a_kind_is_unknown() {
    assert_refused(&[0, 0], 4, 0);
    assert_refused(&[2, 0, 12, 0], 4, 1);
    assert_refused(&last_kind_unknown(), 4, 1023);
}

#[test]
fn check_5_a_field_is_not_0() {
    assert_refused(&[2, 0, 8, 1], 5, 1);
}

#[test]
fn check_6_a_child_is_missing() {
    assert_refused(&[9, 0], 6, 0);
}

#[test]
fn check_7_a_statement_is_left() {
    assert_refused(&[2, 0, 2, 0], 7, 0);
}

#[test]
fn check_8_a_node_is_too_deep() {
    assert_refused(&around([2, 0], [5, 0], 256), 8, 0);
    assert_refused(&right_sequences(256), 8, 255);
}

#[test]
fn check_9_too_many_traps() {
    assert_refused(&around([2, 0], [11, 0], 63), 9, 1);
}

#[test]
fn check_10_an_exit_without_its_trap() {
    assert_refused(&around([4, 62], [11, 0], 62), 10, 0);
}

#[test]
fn check_11_a_body_that_ends_at_once() {
    assert_refused(W2, 11, 1);
    assert_refused(&full_table_of_nothing(), 11, 1023);
}

#[test]
fn check_12_a_state_that_is_not_admitted() {
    let not_admitted = [
        (W1, vec![]),
        (W1, vec![0, 1]),
        (W1, vec![0, 4]),
        (W1, vec![0, 1023]),
        (PAUSES, vec![0, 1]),
    ];
    for (table, held) in not_admitted {
        let mut lent = Buffers::for_table(table, 0);
        lent.state = holding(&held);
        let before = lent.clone();
        assert_eq!(lent.resume(table, &[]), refused(12, 0));
        assert_eq!(lent, before);
    }
}

#[test]
fn check_13_a_present_without_an_answer() {
    let mut lent = Buffers::for_table(PRESENT, 0);
    let before = lent.clone();
    assert_eq!(lent.start(PRESENT, &[]), refused(13, 0));
    assert_eq!(lent, before);
    assert_eq!(
        lent.start(PRESENT, &[0, 1]),
        closed(Completion::Paused, 1, 2)
    );
    assert_eq!(
        lent.start(PRESENT, &[9]),
        closed(Completion::Terminated, 1, 2)
    );
}

#[test]
fn check_13_a_suspend_without_an_answer() {
    let mut lent = Buffers::for_table(SUSPEND, 0);
    assert_eq!(lent.start(SUSPEND, &[]), closed(Completion::Paused, 0, 2));
    let before = lent.clone();
    assert_eq!(lent.resume(SUSPEND, &[]), refused(13, 0));
    assert_eq!(lent, before);
    assert_eq!(lent.resume(SUSPEND, &[1]), closed(Completion::Paused, 1, 1));
    assert_eq!(lent.state, holding(&[0]));
    assert_eq!(
        lent.resume(SUSPEND, &[0]),
        closed(Completion::Terminated, 1, 2)
    );
    assert_eq!(lent.state, State::EMPTY);
}

#[test]
fn each_number_has_an_explanation_of_its_own() {
    let lines: HashSet<_> = (0..=22)
        .map(|number| Refusal { number, node: 0 }.explanation())
        .collect();
    assert_eq!(lines.len(), 23);
    assert!(lines
        .iter()
        .all(|line| !line.is_empty() && !line.contains('\n')));
}

#[test]
fn a_node_is_written_only_where_the_check_names_one() {
    let with_node = [4, 5, 6, 8, 9, 10, 11];
    for number in 1..=22 {
        let refusal = Refusal { number, node: 0 };
        let error: &dyn std::error::Error = &refusal;
        let node = if with_node.contains(&number) {
            " at node 0"
        } else {
            ""
        };
        let line = format!("refused {number}{node}: {}", refusal.explanation());
        assert_eq!(error.to_string(), line);
    }
}
