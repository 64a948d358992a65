//! The lock program of F-5 run: a branch that pauses, is dropped by its neighbour's
//! exit, and is started again in that instant.

use compare::support::edges::LOCK;
use compare::How::{Resumed, Started};
use compare::{packed, resume_with_trail, start_with_trail, Closed, Entry, How, Sets, STATE_BYTES};

/// The inner loop, the left branch of the parallel.
const INNER_LOOP: usize = 1;

/// Both pauses are held after each instant.
const HELD: [usize; 2] = [0, 2];

/// What the outer loop starts: the trap and all beneath it that is come to.
const BODY: [(usize, How, u32); 6] = [
    (6, Started, 1),
    (5, Started, 1),
    (1, Started, 1),
    (0, Started, 1),
    (4, Started, 1),
    (2, Started, 1),
];

fn trail(parts: &[&[(usize, How, u32)]]) -> Vec<Entry> {
    let entries = parts.concat().into_iter();
    entries
        .map(|(node, how, code)| Entry { node, how, code })
        .collect()
}

fn second_instant() -> (Closed, Vec<Entry>) {
    let mut state = packed(&HELD);
    let answer = resume_with_trail(LOCK, &[], &mut state, &mut [9; 256]);
    assert_eq!(state, packed(&HELD));
    answer.expect("an admitted state")
}

#[test]
fn started_both_branches_pause() {
    let mut state = [9; STATE_BYTES];
    let answer = start_with_trail(LOCK, &[], &mut state, &mut [9; 256]);
    let expected = trail(&[&[(7, Started, 1)], &BODY]);
    assert_eq!(answer, Ok((Closed::new(1, 0, 7), expected)));
    assert_eq!(state, packed(&HELD));
}

#[test]
fn resumed_the_exit_drops_the_pause_and_all_starts_again() {
    let until_the_trap_ends = [
        (7, Resumed, 1),
        (6, Resumed, 0),
        (5, Resumed, 2),
        (1, Resumed, 1),
        (0, Resumed, 0),
        (0, Started, 1),
        (4, Resumed, 2),
        (2, Resumed, 0),
        (3, Started, 2),
    ];
    let expected = trail(&[&until_the_trap_ends, &BODY]);
    assert_eq!(second_instant(), (Closed::new(1, 0, 15), expected));
}

#[test]
fn the_inner_loop_pauses_is_started_again_and_is_marked() {
    let (_, trail) = second_instant();
    let entries: Vec<(How, u32)> = trail
        .iter()
        .filter(|entry| entry.node == INNER_LOOP)
        .map(|entry| (entry.how, entry.code))
        .collect();
    assert_eq!(entries, [(Resumed, 1), (Started, 1)]);
    let sets = Sets::of(LOCK).expect("an accepted table");
    assert_eq!(sets.marks[INNER_LOOP], 1);
}
