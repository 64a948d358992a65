//! Start sets by trial: the sets that the rules of document 01 give by hand, F-13's limit of 12
//! present statements, the largest and the deepest, and each node of many programs.

mod common;

use std::thread;

use bavzhrono::{raw, table_of, trial, Completion, Sets, MAX_NODES, TRIAL_ANSWERS};
use common::*;

const ENDED: u64 = 1 << 0;
const PAUSED: u64 = 1 << 1;
const EITHER: u64 = ENDED | PAUSED;
/// Of an exit to the innermost trap.
const EXITED: u64 = 1 << 2;

/// One more test than can be tried.
const TOO_MANY: usize = TRIAL_ANSWERS + 1;

/// The set and the number of tests of each node, from 0 on.
fn assert_tried(table: &[u8], expected: &[(u64, usize)]) {
    assert_eq!(expected.len(), table.len() / 2);
    for (node, &(set, presents)) in expected.iter().enumerate() {
        assert_node(table, node, set, presents);
    }
}

fn assert_node(table: &[u8], node: usize, set: u64, presents: usize) {
    assert_eq!(trial(table, node), tried(set, presents), "node {node}");
}

/// The last node, which is the program.
fn assert_program(table: &[u8], set: u64, presents: usize) {
    assert_node(table, table.len() / 2 - 1, set, presents);
}

fn assert_too_many(table: &[u8], node: usize) {
    assert_eq!(trial(table, node), refused(22, 0), "node {node}");
}

/// The set of the codes from the first to the last.
fn codes(first: u32, last: u32) -> u64 {
    (first..=last).fold(0, |set, code| set | 1 << code)
}

#[test]
fn table_w() {
    assert_tried(W1, &[(2, 0), (1, 0), (2, 0), (2, 0)]);
    assert_tried(&W2[..2], &[(1, 0)]);
    assert_tried(W3, &[8, 4, 8, 4, 8, 4, 1, 2, 2, 2, 2].map(|set| (set, 0)));
    assert_tried(&W4[..4], &[(4, 0), (1, 0)]);
    assert_tried(&W6[..6], &[(1, 0), (2, 0), (3, 1)]);
    assert_tried(W7, &[(1, 0), (2, 0), (2, 0)]);
    let halves = [(2, 0), (1, 0), (3, 1), (1, 0), (2, 0), (3, 1)];
    assert_tried(&W8[..14], &[&halves[..], &[(3, 2)]].concat());
    assert_tried(LOCK, &[2, 2, 2, 4, 2, 2, 2, 2].map(|set| (set, 0)));
}

#[test]
fn leaves() {
    for (leaf, set) in [([1, 0], ENDED), ([2, 0], PAUSED), ([3, 7], ENDED)] {
        assert_tried(&leaf, &[(set, 0)]);
    }
    // The traps around an exit are not entered.
    let exits = [4, 0, 4, 1, 9, 0, 11, 0, 11, 0];
    assert_tried(&exits, &[(4, 0), (8, 0), (4, 0), (1, 0), (1, 0)]);
}

#[test]
fn statements_of_one_child() {
    for kind in [5, 7] {
        let table = [TEST, &[kind, 5]].concat();
        assert_tried(&table, &[(1, 0), (2, 0), (3, 1), (3, 1)]);
    }
    let pause_or_exit = [(4, 0), (2, 0), (6, 1)];
    let in_loop = [4, 0, 2, 0, 6, 5, 8, 0, 11, 0];
    assert_tried(&in_loop, &[&pause_or_exit[..], &[(6, 1), (3, 1)]].concat());
    let in_traps = [4, 1, 2, 0, 6, 5, 11, 0, 11, 0];
    assert_tried(&in_traps, &[(8, 0), (2, 0), (10, 1), (6, 1), (3, 1)]);
    assert_tried(
        LOCK_REQUEST,
        &[(4, 0), (1, 0), (5, 1), (2, 0), (6, 1), (6, 1), (3, 1)],
    );
}

#[test]
fn statements_of_two_children() {
    let parts = [(1, 0), (2, 0), (3, 1)];
    for (second, set) in [([1, 0], ENDED), ([2, 0], PAUSED)] {
        // Where the test pauses the sequence does, too, and the parallel beside either.
        for (kind, own) in [(6, EITHER), (9, PAUSED | set), (10, PAUSED | set)] {
            let table = [TEST, &second, &[kind, 0]].concat();
            let presents = if kind == 6 { 2 } else { 1 };
            let rest = [(set, 0), (own, presents)];
            assert_tried(&table, &[&parts[..], &rest].concat());
        }
    }
    // The first does not end, so that the second, with its test, is not started.
    let not_reached = [&[2, 0], TEST, &[9, 0]].concat();
    assert_program(&not_reached, PAUSED, 1);
    // The larger of two codes, each pair of which some answers give.
    let left = [(4, 0), (2, 0), (6, 1)];
    let right = [(8, 0), (1, 0), (9, 1)];
    let both = [(14, 2), (7, 2), (3, 2)];
    assert_tried(EXITS, &[left, right, both].concat());
}

/// Each test has one more in it than the next inside.
#[test]
fn twelve_nested_tests() {
    for (leaf, other) in [([1, 0], [2, 0]), ([2, 0], [1, 0]), ([2, 0], [3, 7])] {
        let table = leading_to(&[1; TRIAL_ANSWERS], leaf, other);
        assert_node(&table, 0, if leaf[0] == 2 { PAUSED } else { ENDED }, 0);
        for tests in 1..=TRIAL_ANSWERS {
            assert_node(&table, 2 * tests, EITHER, tests);
        }
    }
}

/// One list of the 4,096 leads to the innermost leaf, whose code no other gives.
#[test]
fn a_code_that_one_list_gives() {
    let [mut first, mut last] = [[0; TRIAL_ANSWERS]; 2];
    (first[0], last[TRIAL_ANSWERS - 1]) = (1, 1);
    let some = [0, 1, 0, 0, 1, 1, 0, 1, 0, 1, 1, 1];
    let [all, none] = [[1; TRIAL_ANSWERS], [0; TRIAL_ANSWERS]];
    for list in [all, none, first, last, some] {
        assert_program(&leading_to(&list, [2, 0], [1, 0]), EITHER, 12);
        assert_program(&leading_to(&list, [1, 0], [2, 0]), EITHER, 12);
        let exit = leading_to(&list, [4, 0], [1, 0]);
        let in_trap = [&exit[..], &[11, 0]].concat();
        assert_node(&in_trap, 24, ENDED | EXITED, 12);
        assert_program(&in_trap, ENDED, 12);
    }
}

/// Refused by 22, but not at the nodes within that have 12.
#[test]
fn thirteen_nested_tests() {
    for answer in [0, 1] {
        let table = ending_with(&[answer; TOO_MANY]);
        assert_too_many(&table, 26);
        // The node of the next test, whose other leaf stands before it or after it.
        assert_node(&table, if answer == 0 { 25 } else { 24 }, EITHER, 12);
        assert_node(&table, if answer == 0 { 0 } else { 25 }, PAUSED, 0);
        for kind in [5, 7, 11] {
            assert_too_many(&[&table[..], &[kind, 0]].concat(), 27);
        }
    }
}

/// So many statements, each but the first joined to those before it.
fn joined(kind: u8, statements: impl IntoIterator<Item = Vec<u8>>) -> Vec<u8> {
    let join = |before: Vec<u8>, next: Vec<u8>| [before, next, vec![kind, 0]].concat();
    statements.into_iter().reduce(join).expect("a statement")
}

/// Present then exit, to a farther trap in each.
fn exits(count: u8) -> impl Iterator<Item = Vec<u8>> {
    (0..count).map(|level| vec![4, level, 1, 0, 6, level])
}

/// Each exit has a code of its own, and 0 is given by twelve absent alone. Every trap around
/// catches the lowest.
#[test]
fn twelve_tests_side_by_side() {
    for kind in [9, 10] {
        let table = [joined(kind, exits(12)), [11, 0].repeat(12)].concat();
        for tests in 2..=12 {
            assert_node(
                &table,
                4 * tests - 2,
                ENDED | codes(2, 1 + tests as u32),
                tests,
            );
        }
        for trap in 1..=12 {
            assert_node(&table, 46 + trap, ENDED | codes(2, 13 - trap as u32), 12);
        }
    }
}

#[test]
fn thirteen_tests_side_by_side() {
    for kind in [9, 10] {
        let table = [joined(kind, exits(13)), [11, 0].repeat(13)].concat();
        assert_node(&table, 46, ENDED | codes(2, 13), 12);
        assert_node(&table, 49, ENDED | 1 << 14, 1);
        for node in 50..=63 {
            assert_too_many(&table, node);
        }
    }
}

#[test]
fn the_own_test_counts() {
    let tests = |count| joined(9, vec![TEST.to_vec(); count]);
    for (then, otherwise) in [(6, 5), (5, 6), (11, 0), (0, 11), (6, 6), (12, 0), (0, 12)] {
        let branches = [then, otherwise].map(|count| match count {
            0 => vec![1, 0],
            _ => tests(count),
        });
        let program = [branches.concat(), vec![6, 0]].concat();
        if then + otherwise == 11 {
            assert_program(&program, EITHER, 12);
        } else {
            assert_too_many(&program, program.len() / 2 - 1);
        }
        if then > 0 {
            assert_node(&program, branches[0].len() / 2 - 1, EITHER, then);
        }
    }
}

#[test]
fn suspends_do_not_count() {
    assert_program(&around([2, 0], [7, 0], 13), PAUSED, 0);
    let suspended = |tests| [ending_with(&vec![1; tests]), [7, 0].repeat(20)].concat();
    assert_program(&suspended(12), EITHER, 12);
    assert_too_many(&suspended(13), 46);
    let each_suspended = vec![[TEST, &[7, 5]].concat(); 12];
    assert_program(&joined(9, each_suspended), EITHER, 12);
}

/// 511 tests, but few in a node, wherever it stands.
#[test]
fn tests_elsewhere_in_the_table_do_not_count() {
    let table = full_table_with([2, 0], [6, 0]);
    for (node, size) in sizes_of(&table).into_iter().enumerate() {
        // Of t tests within each other there are 2t + 1 nodes.
        match size / 2 {
            tests @ (0 | 1 | 3 | 7) => assert_node(&table, node, PAUSED, tests),
            _ => assert_too_many(&table, node),
        }
    }
}

#[test]
fn code_63() {
    let exit = leading_to(&[1; TRIAL_ANSWERS], [4, 61], [1, 0]);
    let table = [exit, [11, 0].repeat(62)].concat();
    assert_node(&table, 0, 1 << 63, 0);
    for tests in 1..=TRIAL_ANSWERS {
        assert_node(&table, 2 * tests, ENDED | 1 << 63, tests);
    }
    // It comes down by one at each trap, and the outermost catches it.
    for trap in 1..=61 {
        assert_node(&table, 24 + trap, ENDED | 1 << (63 - trap), 12);
    }
    assert_program(&table, ENDED, 12);
    // Twelve exits side by side, of which the last is to the outermost trap.
    let exits = joined(10, (50..=61).map(|level| vec![4, level, 1, 0, 6, 0]));
    let table = [exits, [11, 0].repeat(62)].concat();
    assert_node(&table, 46, ENDED | codes(52, 63), 12);
}

/// 12 tests of exits beside pauses, with a signal and 12 traps around them. Whatever the answers,
/// all nodes but a leaf of each test are entered.
fn twelve_tests_among_1024() -> Vec<u8> {
    let pauses = [511, 255, 127, 63, 3].map(|nodes| {
        let all = full_table_with([2, 0], [10, 0]);
        all[..2 * nodes].to_vec()
    });
    let branches = [vec![joined(10, exits(12))], pauses.to_vec()].concat();
    [joined(10, branches), vec![5, 0], [11, 0].repeat(12)].concat()
}

#[test]
fn two_thousand_and_forty_eight_bytes() {
    let table = twelve_tests_among_1024();
    assert_eq!(table.len(), 2 * MAX_NODES);
    assert_node(&table, 46, ENDED | codes(2, 13), 12);
    assert_node(&table, 1011, codes(1, 13), 12);
    assert_program(&table, EITHER, 12);
    assert_program(&full_table(), PAUSED, 0);
    let mut ends = full_table_of_nothing();
    ends[2 * MAX_NODES - 2] = 5;
    assert_program(&ends, ENDED, 0);
    assert_program(&full_table_with([2, 0], [10, 0]), PAUSED, 0);
}

#[test]
fn depth_256() {
    for kind in [5, 7, 8] {
        assert_program(&around([2, 0], [kind, 0], 255), PAUSED, 0);
    }
    assert_program(&right_sequences(255), PAUSED, 0);
    let tests = ending_with(&[1; TRIAL_ANSWERS]);
    let deep = [&tests[..], &[5, 0].repeat(243)].concat();
    assert_program(&deep, EITHER, 12);
    let chain = ending_with(&[1; 255]);
    assert_node(&chain, 24, EITHER, 12);
    for tests in [13, 14, 254, 255] {
        assert_too_many(&chain, 2 * tests);
    }
}

#[test]
fn a_text_is_read_and_tried() {
    let text = b"trap Locked in loop present LockRequest then exit Locked end; pause end end";
    let table = table_of(text).unwrap();
    assert_eq!(table, LOCK_REQUEST);
    assert_node(&table, 5, PAUSED | EXITED, 1);
    assert_program(&table, EITHER, 1);
}

/// What the function gives for any number.
fn tried_raw(table: &[u8], node: u64) -> Result<[u64; 3], u32> {
    figures_of(|answer| raw::trial(table, node, answer))
}

/// A node outside the table has no statement, so that 21 and 22 never fit the same call. Of the
/// last two tables the program is refused by 22, and a node outside by 21.
#[test]
fn check_21_a_node_outside_the_table() {
    let too_many = [ending_with(&[1; TOO_MANY]), full_table_with([2, 0], [6, 0])];
    for table in accepted().into_iter().chain(too_many) {
        let nodes = table.len() as u64 / 2;
        let outside = [nodes, nodes + 1, 2 * nodes, MAX_NODES as u64];
        for node in outside.into_iter().chain(LARGE) {
            assert_eq!(tried_raw(&table, node), Err(21));
            assert_eq!(trial(&table, node as usize), refused(21, 0));
        }
    }
}

#[test]
fn check_22_leaves_the_answer() {
    let table = ending_with(&[1; TOO_MANY]);
    assert_eq!(tried_raw(&table, 26), Err(22));
    assert_eq!(tried_raw(&table, 24), Ok([EITHER, 12, 0]));
    assert_eq!(tried_raw(&table, 0), Ok([ENDED, 0, 0]));
}

/// A refused table is refused whatever is tried, by checks that come before 21 and 22.
#[test]
fn refusals() {
    for (table, number, node) in refused_tables() {
        for tried in [0, 1, 7, 1023, 1024, usize::MAX] {
            assert_eq!(trial(&table, tried), refused(number, node));
        }
    }
    let tests = ending_with(&[1; TOO_MANY]);
    let exit = leading_to(&[1; TOO_MANY], [4, 0], [2, 0]);
    for (table, number, node) in [
        ([&tests[..], &[12, 0]].concat(), 4, 27),
        ([&tests[..], &[8, 1]].concat(), 5, 27),
        ([&tests[..], &tests].concat(), 7, 0),
        ([&tests[..], &[5, 0].repeat(243)].concat(), 8, 0),
        ([&tests[..], &[11, 0].repeat(63)].concat(), 9, 27),
        (exit, 10, 0),
        ([&tests[..], &[8, 0]].concat(), 11, 27),
    ] {
        for tried in [0, 26, 27, usize::MAX] {
            assert_eq!(trial(&table, tried), refused(number, node));
        }
    }
}

#[test]
fn check_3_comes_after_1_and_2_and_before_the_kinds_the_node_and_its_tests() {
    let tests = ending_with(&[1; TOO_MANY]);
    for (table, number) in WITH_SHORT_BUFFERS.into_iter().chain([(&tests[..], 3)]) {
        for entries in 0..3 {
            for node in [0, 3, 26, u64::MAX] {
                let mut short = vec![FILL_SET.0; entries];
                assert_eq!(raw::trial(table, node, &mut short), number);
                assert_eq!(short, vec![FILL_SET.0; entries]);
            }
        }
    }
}

/// In a thread with little more stack than the header for C tells.
#[test]
fn the_deepest_and_the_longest_do_not_exhaust_the_stack() {
    let call = || {
        for table in [
            around([2, 0], [5, 0], 255),
            around([2, 0], [8, 0], 255),
            [vec![1, 0], [1, 0, 9, 0].repeat(255)].concat(),
            [[1, 0].repeat(256), [10, 0].repeat(255)].concat(),
            around([4, 61], [11, 0], 62),
            twelve_tests_among_1024(),
            full_table(),
        ] {
            assert!(trial(&table, table.len() / 2 - 1).is_ok());
        }
    };
    let thread = thread::Builder::new().stack_size(96 << 10).spawn(call);
    thread.expect("a thread starts").join().unwrap();
}

/// By the start sets that are listed, and the tests counted here. Whether the node can be tried.
fn assert_as_listed(table: &[u8], sets: &Sets, node: usize) -> bool {
    let first = node + 1 - sizes_of(table)[node];
    let kinds = table[2 * first..=2 * node].iter().step_by(2);
    let tests = kinds.filter(|&&kind| kind == 6).count();
    if tests > TRIAL_ANSWERS {
        assert_too_many(table, node);
        return false;
    }
    assert_node(table, node, sets.start_sets[node].0, tests);
    true
}

#[test]
fn each_node_as_listed() {
    for table in accepted() {
        let sets = Sets::of(&table).unwrap();
        for node in 0..table.len() / 2 {
            assert!(assert_as_listed(&table, &sets, node));
        }
    }
}

#[test]
fn nodes_of_the_longest_and_of_the_deepest_as_listed() {
    for table in [
        full_table(),
        full_table_with([2, 0], [10, 0]),
        around([2, 0], [5, 0], 255),
        right_sequences(255),
        ending_with(&[0; 255]),
    ] {
        let sets = Sets::of(&table).unwrap();
        for node in (0..table.len() / 2).rev().step_by(23) {
            assert_as_listed(&table, &sets, node);
        }
    }
}

/// The program, by the same runner: its codes with every list are those of [`bavzhrono::start`].
#[test]
fn programs_started_with_every_list() {
    for table in accepted() {
        let code = |list: Vec<u8>| match started(&table, &list).unwrap().code {
            Completion::Terminated => ENDED,
            Completion::Paused => PAUSED,
        };
        let set = lists(TRIAL_ANSWERS).fold(0, |set, list| set | code(list));
        assert_eq!(
            trial(&table, table.len() / 2 - 1).unwrap().set.0,
            set,
            "{table:?}"
        );
    }
}

#[test]
fn drawn_programs() {
    let mut drawn = Drawn(13);
    let (mut tried, mut too_many) = (0, 0);
    for number in 0..600 {
        let nodes = if number % 10 == 0 { 300 } else { 30 };
        let table = drawn.statement(nodes, 0);
        let Ok(sets) = Sets::of(&table) else {
            continue;
        };
        let some = drawn.below(table.len() / 2);
        for node in [some, table.len() / 2 - 1] {
            if assert_as_listed(&table, &sets, node) {
                tried += 1;
            } else {
                too_many += 1;
            }
        }
    }
    assert!(tried > 500 && too_many > 20, "{tried} {too_many}");
}
