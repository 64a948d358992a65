//! The ticks of refused loops: the lists that F-2 gives by hand, what an accepted table gets, and
//! the longest and the deepest.

mod common;

use std::fs;
use std::path::Path;
use std::thread;

use bavzhrono::{start, table_of, tick, Analysis, Completion, Fault, State, Tick};
use bavzhrono::{SIGNALS, TICK_ANSWERS};
use common::*;

/// Into answers that just suffice and into longer ones, of which only the front changes.
fn assert_ends(table: &[u8], node: usize, list: &[u8]) {
    for more in [0, 5] {
        let mut lent = vec![FILL; TICK_ANSWERS + more];
        let mut expected = lent.clone();
        expected[..list.len()].copy_from_slice(list);
        let answers = list;
        assert_eq!(tick(table, &mut lent), Ok(Tick::Ends { node, answers }));
        assert_eq!(lent, expected);
    }
    let answers = list.to_vec();
    assert_eq!(Fault::of(table), Ok(Some(Fault { node, answers })));
}

/// The loop is the whole program: its body is all before it. Started with the list, it takes all of
/// it and ends.
fn assert_program_ends(table: &[u8], list: &[u8]) {
    let nodes = table.len() / 2 - 1;
    assert_ends(table, nodes, list);
    let body = &table[..2 * nodes];
    let closed = start(body, list, &mut State::default(), &mut [0; SIGNALS]).unwrap();
    assert_eq!(
        (closed.code, closed.taken),
        (Completion::Terminated, list.len())
    );
}

/// The figures come back, and the answers stay.
fn assert_accepted(table: &[u8], nodes: usize, loop_depth: usize) {
    let mut lent = [FILL; TICK_ANSWERS];
    let figures = Analysis { nodes, loop_depth };
    assert_eq!(tick(table, &mut lent), Ok(Tick::Accepted(figures)));
    assert_eq!(lent, [FILL; TICK_ANSWERS]);
    assert_eq!(Fault::of(table), Ok(None));
}

/// A loop around the body, which is the whole program.
fn looped(body: &[u8]) -> Vec<u8> {
    [body, &[8, 0]].concat()
}

#[test]
fn table_w() {
    assert_program_ends(W2, &[]);
    assert_program_ends(W4, &[]);
    assert_program_ends(W6, &[1]);
    assert_program_ends(W8, &[0, 1]);
}

#[test]
fn accepted_tables() {
    assert_accepted(W1, 4, 1);
    assert_accepted(W3, 11, 1);
    assert_accepted(W7, 3, 0);
    assert_accepted(LOCK, 8, 2);
    assert_accepted(&full_table(), 1024, 1);
    assert_accepted(&around([2, 0], [8, 0], 255), 256, 255);
}

#[test]
fn the_shorter_list_comes_first_and_then_absent() {
    let either_branch = [1, 0, 1, 0, 6, 5];
    assert_program_ends(&looped(&either_branch), &[0]);
    // Present ends at once, absent after one more test.
    let shorter_if_present = [1, 0, 2, 0, 1, 0, 6, 1, 6, 0];
    assert_program_ends(&looped(&shorter_if_present), &[1]);
    // An exit leaves the trap before the second test.
    let exit_first = [4, 0, 1, 0, 6, 0, 1, 0, 2, 0, 6, 1, 9, 0, 11, 0];
    assert_program_ends(&looped(&exit_first), &[1]);
}

#[test]
fn both_branches_of_a_parallel_take_answers() {
    let exit_if_present = [4, 0, 2, 0, 6, 0];
    let exit_if_absent = [2, 0, 4, 0, 6, 0];
    let nothing = [1, 0, 1, 0, 6, 0];
    let in_trap = |left: &[u8], right: &[u8]| [left, right, &[10, 0, 11, 0]].concat();
    for (left, right, list) in [
        (exit_if_present, exit_if_present, [0, 1]),
        (exit_if_present, exit_if_absent, [0, 0]),
        (exit_if_absent, exit_if_present, [0, 0]),
        (exit_if_present, nothing, [1, 0]),
        (nothing, exit_if_present, [0, 1]),
    ] {
        assert_program_ends(&looped(&in_trap(&left, &right)), &list);
    }
}

#[test]
fn of_two_exits_the_outer_one_counts() {
    // The inner trap is left by the exit to the outer one, so the pause is not met.
    let body = [4, 0, 4, 1, 10, 0, 11, 0, 2, 0, 9, 0, 11, 0];
    assert_program_ends(&looped(&body), &[]);
}

#[test]
fn an_exit_out_of_the_loop_does_not_end_its_body() {
    assert_ends(&[4, 0, 1, 0, 6, 0, 8, 0, 11, 0], 3, &[0]);
}

#[test]
fn a_suspend_that_is_started_takes_no_answer() {
    assert_program_ends(&[1, 0, 7, 0, 8, 0], &[]);
}

#[test]
fn a_sound_loop_within_the_body_is_dropped() {
    assert_program_ends(&[2, 0, 8, 0, 4, 0, 10, 0, 11, 0, 8, 0], &[]);
}

#[test]
fn the_lowest_loop_is_shown() {
    assert_ends(&[1, 0, 8, 0, 8, 0], 1, &[]);
    assert_ends(&[W6, W2, &[9, 0]].concat(), 3, &[1]);
    assert_ends(&[&[2, 0], W6, &[10, 0]].concat(), 4, &[1]);
}

#[test]
fn a_fault_is_written_as_node_and_answers() {
    let line = |table| Fault::of(table).unwrap().unwrap().to_string();
    assert_eq!([W2, W6, W8].map(line), ["1", "3 1", "7 0 1"]);
}

/// The fault that the project began with: a lock request and a power warning in one tick.
#[test]
fn a_text_is_read_and_its_tick_shown() {
    let path = Path::new(env!("CARGO_MANIFEST_DIR")).join("../../examples/fault.strl");
    let table = table_of(&fs::read(path).unwrap()).unwrap();
    assert_eq!(table.len(), 2 * 15);
    assert_program_ends(&table, &[1, 1]);
}

/// So many answers of both kinds.
fn some_answers(count: usize) -> Vec<u8> {
    (0..count).map(|at| u8::from(at % 3 == 0)).collect()
}

/// A loop of 1,024 nodes and its list of 509 answers, taken in three branches, since in one they
/// would be too deep.
fn longest() -> (Vec<u8>, Vec<u8>) {
    let list = some_answers(509);
    let [left, middle, right] = [&list[..170], &list[170..340], &list[340..]].map(ending_with);
    let body = [&left[..], &middle, &[10, 0], &right, &[10, 0]].concat();
    (looped(&body), list)
}

/// A loop of depth 256 and its list of 254 answers.
fn deepest() -> (Vec<u8>, Vec<u8>) {
    let list = some_answers(254);
    (looped(&ending_with(&list)), list)
}

#[test]
fn the_longest_list() {
    let (table, list) = longest();
    assert_eq!(table.len(), 2048);
    assert_program_ends(&table, &list);
}

#[test]
fn depth_256() {
    let (table, list) = deepest();
    assert_program_ends(&table, &list);
}

#[test]
fn two_thousand_and_forty_eight_bytes_without_a_test() {
    assert_program_ends(&full_table_of_nothing(), &[]);
}

#[test]
fn level_61_under_62_traps() {
    let exit_if_absent = vec![2, 0, 4, 61, 6, 0];
    let body = [exit_if_absent, [11, 0].repeat(62)].concat();
    assert_program_ends(&looped(&body), &[0]);
}

#[test]
fn the_deepest_and_the_longest_do_not_exhaust_the_stack() {
    let call = || {
        for (table, list) in [deepest(), longest()] {
            assert_eq!(Fault::of(&table).unwrap().unwrap().answers, list);
        }
    };
    let thread = thread::Builder::new().stack_size(1 << 20).spawn(call);
    thread.expect("a thread starts").join().unwrap();
}

#[test]
fn check_3_comes_after_1_and_2_and_before_the_kinds() {
    for (table, number) in WITH_SHORT_BUFFERS {
        for length in [0, 1, 2, TICK_ANSWERS - 1] {
            let mut lent = vec![FILL; length];
            assert_eq!(tick(table, &mut lent), refused(number, 0));
            assert_eq!(lent, vec![FILL; length]);
        }
    }
}

#[test]
fn refusals_by_other_checks_than_11() {
    for (table, number, node) in [
        (vec![12; 2050], 1, 0),
        (vec![], 2, 0),
        (last_kind_unknown(), 4, 1023),
        (vec![2, 0, 8, 1], 5, 1),
        (vec![9, 0], 6, 0),
        ([W2, W2].concat(), 7, 0),
        (around([1, 0], [8, 0], 256), 8, 0),
        (looped(&around([1, 0], [11, 0], 63)), 9, 1),
        // The loop comes first, but 10 covers the whole table before 11.
        ([W2, W5, &[9, 0]].concat(), 10, 2),
    ] {
        let mut lent = [FILL; TICK_ANSWERS];
        assert_eq!(tick(&table, &mut lent), refused(number, node));
        assert_eq!(lent, [FILL; TICK_ANSWERS]);
        assert_eq!(Fault::of(&table), refused(number, node));
    }
}
