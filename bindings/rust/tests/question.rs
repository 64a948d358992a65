//! Questions about single nodes: the answers and counts that F-12 and its reading give by hand, the
//! largest and the deepest, and each node of many programs asked for each code.

mod common;

use std::thread;

use bavzhrono::{ask, raw, table_of, CodeSet, Refusal, Sets, MAX_NODES};
use common::*;

/// Whether the last node, which is the program, has the code, and the count.
fn assert_program(table: &[u8], code: u32, member: bool, count: usize) {
    assert_node(table, table.len() / 2 - 1, code, member, count);
}

fn assert_node(table: &[u8], node: usize, code: u32, member: bool, count: usize) {
    let expected = asked(member, count);
    assert_eq!(ask(table, node, code), expected, "node {node} for {code}");
}

#[test]
fn table_w() {
    assert_program(W1, 1, true, 3);
    assert_program(W1, 0, false, 1);
    assert_node(W1, 2, 0, false, 2);
    assert_program(W3, 1, true, 11);
    assert_program(W3, 0, false, 1);
    assert_node(W3, 9, 0, false, 10);
    assert_node(W3, 5, 2, true, 5);
    assert_node(W3, 5, 3, false, 5);
    assert_program(&W6[..6], 0, true, 2);
    assert_program(&W6[..6], 1, true, 3);
    assert_program(W7, 1, true, 3);
    assert_program(&W8[..14], 0, true, 6);
    assert_program(&W8[..14], 1, true, 4);
    assert_program(LOCK, 1, true, 8);
    assert_program(LOCK, 0, false, 1);
}

#[test]
fn leaves() {
    for (leaf, own) in [([1, 0], 0), ([2, 0], 1), ([3, 7], 0)] {
        for code in 0..=63 {
            assert_program(&leaf, code, code == own, 1);
        }
    }
    let exits = [&[4, 0][..], &[4, 1, 9, 0, 11, 0, 11, 0]].concat();
    for (node, own) in [(0, 2), (1, 3)] {
        for code in 0..=63 {
            assert_node(&exits, node, code, code == own, 1);
        }
    }
}

#[test]
fn a_signal_and_a_suspend_ask_the_child() {
    for kind in [5, 7] {
        for code in 0..=63 {
            assert_program(&[1, 0, kind, 0], code, code == 0, 2);
            assert_program(&[2, 0, kind, 0], code, code == 1, 2);
        }
        // Which looks no further.
        assert_program(&[2, 0, 8, 0, kind, 0], 0, false, 2);
    }
}

#[test]
fn a_loop_asked_for_0_looks_no_further() {
    let pause = [2, 0, 8, 0];
    assert_program(&pause, 0, false, 1);
    assert_program(&pause, 1, true, 2);
    assert_program(&pause, 2, false, 2);
    let exit = [4, 0, 8, 0, 11, 0];
    assert_node(&exit, 1, 0, false, 1);
    assert_node(&exit, 1, 2, true, 2);
}

#[test]
fn a_trap_asks_for_1_or_one_more() {
    let [pause, caught] = [[2, 0, 11, 0], [4, 0, 11, 0]];
    assert_program(&pause, 1, true, 2);
    assert_program(&caught, 1, false, 2);
    assert_program(&caught, 2, false, 2);
    let passed_by = [4, 2, 11, 0, 11, 0, 11, 0];
    for (node, code) in [(0, 4), (1, 3), (2, 2)] {
        assert_node(&passed_by, node, code, true, node + 1);
        assert_node(&passed_by, node, code + 1, false, node + 1);
    }
}

#[test]
fn a_trap_asked_for_63_counts_itself_only() {
    let pause = [2, 0, 11, 0];
    assert_program(&pause, 62, false, 2);
    assert_program(&pause, 63, false, 1);
    let in_two = [2, 0, 11, 0, 11, 0];
    for (code, count) in [(61, 3), (62, 2), (63, 1)] {
        assert_program(&in_two, code, false, count);
    }
    let branches = [1, 0, 11, 0, 2, 0, 11, 0, 6, 0];
    assert_program(&branches, 62, false, 5);
    assert_program(&branches, 63, false, 3);
}

#[test]
fn a_trap_asked_for_0_looks_at_every_node() {
    for (table, member) in [
        (&[1, 0, 11, 0][..], true),
        (&[2, 0, 11, 0], false),
        (&[4, 0, 11, 0], true),
        (&[4, 1, 11, 0, 11, 0], true),
        (&[2, 0, 8, 0, 11, 0], false),
        (&[1, 0, 2, 0, 6, 0, 11, 0], true),
        (&[4, 0, 1, 0, 9, 0, 11, 0], true),
        (&[2, 0, 1, 0, 9, 0, 11, 0], false),
        (EXITS, true),
        (LOCK_REQUEST, true),
    ] {
        assert_program(table, 0, member, table.len() / 2);
    }
}

#[test]
fn a_present_asks_else_only_if_then_lacks_the_code() {
    assert_program(TEST, 0, true, 2);
    assert_program(TEST, 1, true, 3);
    assert_program(TEST, 2, false, 3);
    let long_then = [1, 0, 5, 0, 5, 0, 2, 0, 6, 0];
    assert_program(&long_then, 0, true, 4);
    assert_program(&long_then, 1, true, 5);
    let long_else = [1, 0, 1, 0, 5, 0, 5, 0, 6, 0];
    assert_program(&long_else, 0, true, 2);
    assert_program(&long_else, 1, false, 5);
    // Only a part of then is looked at, and it lacks the code.
    let loop_as_then = [2, 0, 8, 0, 1, 0, 6, 0];
    assert_program(&loop_as_then, 0, true, 3);
}

#[test]
fn a_sequence_looks_at_every_node_of_the_first() {
    let then_pause = |first: &[u8]| [first, &[2, 0, 9, 0]].concat();
    // What the first would not look at, if it were asked.
    assert_program(&then_pause(&[2, 0, 1, 0, 6, 0]), 1, true, 4);
    assert_program(&then_pause(&[2, 0, 8, 0]), 0, false, 3);
    assert_program(&then_pause(&[2, 0, 1, 0, 9, 0]), 1, true, 4);
    assert_program(&then_pause(&[2, 0, 11, 0]), 63, false, 3);
}

#[test]
fn a_sequence_asks_the_second_if_the_first_has_0_and_lacks_the_code() {
    let [ends, pauses, either] = [&[1, 0][..], &[2, 0], TEST];
    let sequence = |first: &[u8], second: &[u8]| [first, second, &[9, 0]].concat();
    for (code, member, count) in [(0, false, 3), (1, true, 3), (2, false, 3)] {
        assert_program(&sequence(ends, pauses), code, member, count);
    }
    for (code, member, count) in [(0, false, 2), (1, true, 2), (2, false, 2)] {
        assert_program(&sequence(pauses, ends), code, member, count);
    }
    for (code, member, count) in [(0, true, 5), (1, true, 4), (2, false, 5)] {
        assert_program(&sequence(either, ends), code, member, count);
    }
    // The second does not have every node of it looked at.
    for (code, member, count) in [(0, true, 4), (1, true, 5), (2, false, 5)] {
        assert_program(&sequence(ends, either), code, member, count);
    }
    let loop_as_second = sequence(ends, &[2, 0, 8, 0]);
    assert_program(&loop_as_second, 0, false, 3);
    let trap_as_second = sequence(ends, &[2, 0, 11, 0]);
    assert_program(&trap_as_second, 63, false, 3);
}

#[test]
fn under_a_parallel_every_node_is_looked_at() {
    for code in 0..=63 {
        assert_program(W7, code, code == 1, 3);
        // Signals, loops, tests, sequences and traps that would look no further.
        let parts = [&[2, 0, 8, 0, 5, 0][..], TEST, &[2, 0, 11, 0], &[9, 0, 9, 0]];
        let parallel = [&parts.concat()[..], &[1, 0, 10, 0]].concat();
        assert_program(&parallel, code, code == 1, parallel.len() / 2);
    }
}

#[test]
fn the_larger_of_two_exits() {
    for (code, member) in [(0, false), (1, true), (2, true), (3, true), (4, false)] {
        assert_node(EXITS, 6, code, member, 7);
    }
    for (code, member) in [(0, true), (1, true), (2, true), (3, false)] {
        assert_node(EXITS, 7, code, member, 8);
    }
    for (code, member) in [(0, true), (1, true), (2, false), (61, false)] {
        assert_node(EXITS, 8, code, member, 9);
    }
    assert_node(EXITS, 8, 62, false, 2);
    assert_node(EXITS, 8, 63, false, 1);
}

#[test]
fn a_text_is_read_and_asked_about() {
    let text = b"trap Locked in loop present LockRequest then exit Locked end; pause end end";
    let table = table_of(text).unwrap();
    assert_eq!(table, LOCK_REQUEST);
    assert_node(&table, 2, 2, true, 2);
    assert_node(&table, 5, 2, true, 5);
    assert_node(&table, 5, 1, true, 6);
    assert_node(&table, 6, 0, true, 7);
    assert_node(&table, 6, 1, true, 7);
    assert_node(&table, 6, 2, false, 7);
}

/// What the function gives for any numbers.
fn asked_raw(table: &[u8], node: u64, code: u64) -> Result<[u64; 3], u32> {
    figures_of(|answer| raw::ask(table, node, code, answer))
}

#[test]
fn a_code_above_63_is_in_no_set_and_looks_at_no_node() {
    let codes = [64, 65, 66, 127, 128, 255, 256];
    for table in accepted() {
        let nodes = table.len() as u64 / 2;
        for code in codes.into_iter().chain(LARGE) {
            for node in [0, nodes / 2, nodes - 1] {
                assert_eq!(asked_raw(&table, node, code), Ok([0, 0, 0]));
            }
        }
        for code in [64, 65, 1 << 31, u32::MAX] {
            assert_program(&table, code, false, 0);
        }
    }
}

/// 21 comes before the rule on codes above 63.
#[test]
fn check_21_a_node_outside_the_table() {
    for table in accepted() {
        let nodes = table.len() as u64 / 2;
        let outside = [nodes, nodes + 1, 2 * nodes, MAX_NODES as u64];
        for node in outside.into_iter().chain(LARGE) {
            for code in [0, 1, 2, 63, 64].into_iter().chain(LARGE) {
                assert_eq!(asked_raw(&table, node, code), Err(21));
            }
            for code in [0, 1, 63, 64, u32::MAX] {
                assert_eq!(ask(&table, node as usize, code), refused(21, 0));
            }
        }
    }
}

/// A refused table is refused whatever is asked, by checks that come before 21.
#[test]
fn refusals() {
    for (table, number, node) in refused_tables() {
        for asked in [0, 1, 7, 1023, 1024, usize::MAX] {
            for code in [0, 1, 63, 64, u32::MAX] {
                assert_eq!(ask(&table, asked, code), refused(number, node));
            }
        }
    }
}

#[test]
fn check_3_comes_after_1_and_2_and_before_the_kinds_and_the_node() {
    for (table, number) in WITH_SHORT_BUFFERS {
        for entries in 0..3 {
            for node in [0, 3, u64::MAX] {
                let mut short = vec![FILL_SET.0; entries];
                assert_eq!(raw::ask(table, node, 1, &mut short), number);
                assert_eq!(short, vec![FILL_SET.0; entries]);
            }
        }
    }
}

#[test]
fn two_thousand_and_forty_eight_bytes() {
    // A loop around sequences. Each half has 511 nodes, of which the first pauses.
    let table = full_table();
    assert_program(&table, 1, true, 2 + 511);
    assert_program(&table, 2, false, 2 + 511);
    assert_program(&table, 0, false, 1);
    assert_node(&table, MAX_NODES - 2, 0, false, 1 + 511);
    assert_node(&table, 0, 1, true, 1);
    let mut ends = full_table_of_nothing();
    ends[2 * MAX_NODES - 2] = 5;
    assert_program(&ends, 0, true, MAX_NODES);
    assert_program(&ends, 1, false, MAX_NODES);
    // Nine tests to the first pause.
    let tests = full_table_with([2, 0], [6, 0]);
    assert_program(&tests, 1, true, 11);
    assert_program(&tests, 2, false, MAX_NODES);
    let parallels = full_table_with([2, 0], [10, 0]);
    assert_program(&parallels, 1, true, MAX_NODES);
    assert_program(&parallels, 63, false, MAX_NODES);
    assert_program(&parallels, 0, false, 1);
}

#[test]
fn depth_256() {
    for kind in [5, 7, 8] {
        let table = around([2, 0], [kind, 0], 255);
        assert_program(&table, 1, true, 256);
        assert_program(&table, 63, false, 256);
        assert_program(&table, 0, false, if kind == 8 { 1 } else { 256 });
    }
    let sequences = right_sequences(255);
    assert_program(&sequences, 1, true, 2);
    let presents = [vec![2, 0], [1, 0, 6, 0].repeat(255)].concat();
    assert_program(&presents, 1, true, 256);
    assert_program(&presents, 0, true, 257);
    assert_program(&presents, 2, false, 511);
}

#[test]
fn sixty_two_traps() {
    let pause = around([2, 0], [11, 0], 62);
    assert_program(&pause, 0, false, 63);
    assert_program(&pause, 1, true, 63);
    // Code 63 comes down by one at each trap, and the outermost catches it.
    let exit = around([4, 61], [11, 0], 62);
    for node in 0..=62 {
        let own = if node == 62 { 0 } else { 63 - node as u32 };
        for code in 0..=63 {
            // As far as the code, one more at each trap, is not above 63.
            let count = if code < 2 { 63 } else { 64 - code as usize };
            let count = count.min(node + 1);
            assert_node(&exit, node, code, code == own, count);
        }
    }
}

/// In a thread with little more stack than the header for C tells.
#[test]
fn the_deepest_and_the_longest_do_not_exhaust_the_stack() {
    let call = || {
        for table in [
            around([2, 0], [5, 0], 255),
            around([2, 0], [8, 0], 255),
            [vec![1, 0], [1, 0, 6, 0].repeat(255)].concat(),
            [vec![1, 0], [1, 0, 9, 0].repeat(255)].concat(),
            [[1, 0].repeat(256), [9, 0].repeat(255)].concat(),
            [[1, 0].repeat(256), [10, 0].repeat(255)].concat(),
            around([4, 61], [11, 0], 62),
            full_table(),
            full_table_with([2, 0], [6, 0]),
            full_table_with([2, 0], [10, 0]),
        ] {
            for code in [0, 1, 2, 63] {
                assert!(ask(&table, table.len() / 2 - 1, code).is_ok());
            }
        }
    };
    let thread = thread::Builder::new().stack_size(64 << 10).spawn(call);
    thread.expect("a thread starts").join().unwrap();
}

/// The start sets of a table, as listed, and the number of nodes of each statement.
struct Listed<'a> {
    table: &'a [u8],
    start_sets: Vec<CodeSet>,
    sizes: Vec<usize>,
}

impl Listed<'_> {
    fn of(table: &[u8]) -> Result<Listed<'_>, Refusal> {
        Ok(Listed {
            table,
            start_sets: Sets::of(table)?.start_sets,
            sizes: sizes_of(table),
        })
    }

    fn has(&self, node: usize, code: u32) -> bool {
        self.start_sets[node].contains(code)
    }

    /// All nodes of the statement.
    fn whole(&self, node: usize) -> Vec<usize> {
        (node + 1 - self.sizes[node]..=node).collect()
    }

    /// The node, and those that the child looks at when it is asked.
    fn passed_on(&self, node: usize, code: u32) -> Vec<usize> {
        [vec![node], self.looked_at(node - 1, code)].concat()
    }

    /// The nodes looked at, by the rule of F-12, where the sets say what a child has.
    fn looked_at(&self, node: usize, code: u32) -> Vec<usize> {
        if code > 63 {
            return vec![];
        }
        match (self.table[2 * node], code) {
            (8, 0) => vec![node],
            (5 | 7 | 8, _) | (11, 1) => self.passed_on(node, code),
            (11, 2..) => self.passed_on(node, code + 1),
            (6, _) => self.looked_at_by_present(node, code),
            (9, _) => self.looked_at_by_sequence(node, code),
            // A leaf, a parallel, and a trap asked for 0.
            _ => self.whole(node),
        }
    }

    fn looked_at_by_present(&self, node: usize, code: u32) -> Vec<usize> {
        let otherwise = node - 1;
        let then = otherwise - self.sizes[otherwise];
        let mut nodes = [vec![node], self.looked_at(then, code)].concat();
        if !self.has(then, code) {
            nodes.extend(self.looked_at(otherwise, code));
        }
        nodes
    }

    fn looked_at_by_sequence(&self, node: usize, code: u32) -> Vec<usize> {
        let second = node - 1;
        let first = second - self.sizes[second];
        let mut nodes = [vec![node], self.whole(first)].concat();
        if self.has(first, 0) && (code == 0 || !self.has(first, code)) {
            nodes.extend(self.looked_at(second, code));
        }
        nodes
    }

    fn assert_answered(&self, node: usize, code: u32) {
        let count = self.looked_at(node, code).len();
        assert_node(self.table, node, code, self.has(node, code), count);
        assert!(count <= self.sizes[node] && (count > 0) == (code <= 63));
    }
}

#[test]
fn each_node_asked_for_each_code() {
    for table in accepted() {
        let listed = Listed::of(&table).unwrap();
        for node in 0..table.len() / 2 {
            for code in 0..=65 {
                listed.assert_answered(node, code);
            }
        }
    }
}

#[test]
fn each_node_of_the_longest_and_of_the_deepest() {
    for table in [
        full_table(),
        full_table_with([2, 0], [6, 0]),
        full_table_with([2, 0], [10, 0]),
        around([2, 0], [5, 0], 255),
        right_sequences(255),
        [vec![2, 0], [1, 0, 6, 0].repeat(255)].concat(),
    ] {
        let listed = Listed::of(&table).unwrap();
        for node in 0..table.len() / 2 {
            for code in [0, 1, 2, 63, 64] {
                listed.assert_answered(node, code);
            }
        }
    }
}

#[test]
fn drawn_programs() {
    let mut drawn = Drawn(12);
    let (mut small, mut large) = (0, 0);
    for number in 0..3000 {
        let nodes = if number % 10 == 0 { 900 } else { 30 };
        let table = drawn.statement(nodes, 0);
        let Ok(listed) = Listed::of(&table) else {
            continue;
        };
        for _ in 0..40 {
            let node = drawn.below(table.len() / 2);
            let code = match drawn.below(8) {
                0 => drawn.below(66),
                _ => drawn.below(6),
            };
            listed.assert_answered(node, code as u32);
        }
        if nodes == 30 {
            small += 1;
        } else {
            large += 1;
        }
    }
    assert!(small > 1000 && large > 100, "{small} {large}");
}
