//! Nodes at the edges of request F-13, each with its set and its number of presents, or the
//! refusal, worked out by hand.

use super::edges::{after, around, edges as edges_of_01, number, numbers, rows, W1};
use super::nodes::{
    EMIT, LOOP, NOTHING, PARALLEL, PAUSE, PRESENT, SEQUENCE, SIGNAL, SUSPEND, TRAP,
};
use super::programs::balanced;
use super::question_edges::all_nodes;
use super::questions::HUGE;
use super::tried::{as_else, as_then, pause_by, Case};
use crate::by_trial::{gathered, ANSWERS};
use crate::checks::MOST_TRAPS;
use crate::instant::Code;
use crate::{Refusal, Tried};

pub struct TriedEdge {
    pub name: String,
    pub case: Case,
    pub outcome: Result<Tried, Refusal>,
}

/// A table, the node that is tried, its codes, and its presents.
const SMALL: &str = "
# leaves
1 0 | 0 | 0 | 0
2 0 | 0 | 1 | 0
3 0 | 0 | 0 | 0
3 255 | 0 | 0 | 0
4 0 11 0 | 0 | 2 | 0
4 1 11 0 11 0 | 0 | 3 | 0
# a present gives the codes of both branches, and is counted itself
1 0 2 0 6 0 | 2 | 0 1 | 1
1 0 2 0 6 0 | 1 | 1 | 0
1 0 2 0 6 0 | 0 | 0 | 0
2 0 1 0 6 255 | 2 | 0 1 | 1
1 0 1 0 6 0 | 2 | 0 | 1
2 0 2 0 6 0 | 2 | 1 | 1
4 0 2 0 6 0 11 0 | 2 | 1 2 | 1
1 0 2 0 6 0 4 0 6 0 11 0 | 4 | 0 1 2 | 2
4 0 1 0 2 0 6 0 6 0 11 0 | 4 | 0 1 2 | 2
# tests of one signal are answered freely, also within its statement and beside its emit
2 0 1 0 6 5 1 0 2 0 6 5 9 0 | 6 | 0 1 | 2
1 0 2 0 6 5 5 5 | 3 | 0 1 | 1
3 5 1 0 2 0 6 5 9 0 5 5 | 5 | 0 1 | 1
3 5 1 0 2 0 6 5 10 0 5 5 | 5 | 0 1 | 1
# a signal hands on its child's code
2 0 5 7 | 1 | 1 | 0
1 0 5 7 | 1 | 0 | 0
# a suspend takes no answer when it is started, and is not counted
2 0 7 0 | 1 | 1 | 0
1 0 7 0 | 1 | 0 | 0
1 0 2 0 6 0 7 0 | 3 | 0 1 | 1
2 0 7 0 1 0 6 0 | 3 | 0 1 | 1
2 0 7 0 1 0 6 0 | 1 | 1 | 0
1 0 2 0 6 0 7 0 2 0 1 0 6 0 7 0 9 0 | 8 | 0 1 | 2
# a loop, whose body is started once
2 0 8 0 | 1 | 1 | 0
2 0 8 0 8 0 | 2 | 1 | 0
4 0 8 0 11 0 | 1 | 2 | 0
4 0 8 0 11 0 | 2 | 0 | 0
2 0 4 0 6 0 8 0 11 0 | 3 | 1 2 | 1
2 0 4 0 6 0 8 0 11 0 | 4 | 0 1 | 1
2 0 1 0 6 0 2 0 9 0 8 0 | 2 | 0 1 | 1
2 0 1 0 6 0 2 0 9 0 8 0 | 5 | 1 | 1
# a sequence
1 0 1 0 9 0 | 2 | 0 | 0
1 0 2 0 9 0 | 2 | 1 | 0
2 0 1 0 9 0 | 2 | 1 | 0
1 0 2 0 6 0 1 0 9 0 | 4 | 0 1 | 1
1 0 2 0 6 0 2 0 9 0 | 4 | 1 | 1
1 0 1 0 2 0 6 0 9 0 | 4 | 0 1 | 1
4 0 1 0 6 0 2 0 9 0 11 0 | 4 | 1 2 | 1
# a test that is never come to is counted
2 0 1 0 2 0 6 0 9 0 | 4 | 1 | 1
4 0 1 0 2 0 6 0 9 0 11 0 | 4 | 2 | 1
4 0 1 0 2 0 6 0 9 0 11 0 | 5 | 0 | 1
# a parallel, whose right branch is started whatever the left did
1 0 1 0 10 0 | 2 | 0 | 0
1 0 2 0 10 0 | 2 | 1 | 0
2 0 1 0 10 0 | 2 | 1 | 0
2 0 4 0 10 0 11 0 | 2 | 2 | 0
4 0 2 0 10 0 11 0 | 2 | 2 | 0
4 1 4 0 10 0 11 0 11 0 | 2 | 3 | 0
4 0 4 1 10 0 11 0 11 0 | 2 | 3 | 0
1 0 2 0 6 0 1 0 2 0 6 0 10 0 | 6 | 0 1 | 2
1 0 4 0 6 0 2 0 10 0 11 0 | 4 | 1 2 | 1
1 0 4 0 6 0 1 0 2 0 6 0 10 0 11 0 | 6 | 0 1 2 | 2
1 0 4 0 6 0 1 0 2 0 6 0 10 0 11 0 | 7 | 0 1 | 2
4 0 1 0 4 1 6 0 10 0 11 0 11 0 | 4 | 2 3 | 1
4 0 1 0 4 1 6 0 10 0 11 0 11 0 | 5 | 0 2 | 1
# a trap
1 0 11 0 | 1 | 0 | 0
2 0 11 0 | 1 | 1 | 0
4 0 11 0 | 1 | 0 | 0
4 1 11 0 11 0 | 1 | 2 | 0
4 1 11 0 11 0 | 2 | 0 | 0
2 0 4 0 6 0 11 0 | 3 | 0 1 | 1
4 0 4 1 6 0 11 0 11 0 | 3 | 0 2 | 1
4 0 4 1 6 0 11 0 11 0 | 4 | 0 | 1
4 0 4 1 6 0 4 2 6 0 11 0 11 0 11 0 | 4 | 2 3 4 | 2
4 0 4 1 6 0 4 2 6 0 11 0 11 0 11 0 | 5 | 0 2 3 | 2
4 0 4 1 6 0 4 2 6 0 11 0 11 0 11 0 | 6 | 0 2 | 2
4 0 4 1 6 0 4 2 6 0 11 0 11 0 11 0 | 7 | 0 | 2
# W1
2 0 3 7 9 0 8 0 | 0 | 1 | 0
2 0 3 7 9 0 8 0 | 1 | 0 | 0
2 0 3 7 9 0 8 0 | 2 | 1 | 0
2 0 3 7 9 0 8 0 | 3 | 1 | 0
# W3
4 1 4 0 10 0 11 0 4 1 9 0 11 0 2 0 9 0 11 0 8 0 | 2 | 3 | 0
4 1 4 0 10 0 11 0 4 1 9 0 11 0 2 0 9 0 11 0 8 0 | 3 | 2 | 0
4 1 4 0 10 0 11 0 4 1 9 0 11 0 2 0 9 0 11 0 8 0 | 5 | 2 | 0
4 1 4 0 10 0 11 0 4 1 9 0 11 0 2 0 9 0 11 0 8 0 | 6 | 0 | 0
4 1 4 0 10 0 11 0 4 1 9 0 11 0 2 0 9 0 11 0 8 0 | 8 | 1 | 0
4 1 4 0 10 0 11 0 4 1 9 0 11 0 2 0 9 0 11 0 8 0 | 10 | 1 | 0
# the lock program
2 0 8 0 2 0 4 0 9 0 10 0 11 0 8 0 | 1 | 1 | 0
2 0 8 0 2 0 4 0 9 0 10 0 11 0 8 0 | 3 | 2 | 0
2 0 8 0 2 0 4 0 9 0 10 0 11 0 8 0 | 5 | 1 | 0
2 0 8 0 2 0 4 0 9 0 10 0 11 0 8 0 | 7 | 1 | 0
";

pub fn edges() -> Vec<TriedEdge> {
    let mut edges = quick();
    edges.extend(large());
    edges
}

/// Those of few nodes, and those that are refused.
pub fn quick() -> Vec<TriedEdge> {
    let mut edges = small();
    edges.extend(nested());
    edges.extend(one_after_the_other());
    edges.extend(side_by_side());
    edges.extend(own_and_branches());
    edges.extend(suspended());
    edges.extend(codes_of_exits());
    edges.extend(last_code());
    edges.extend(nodes_outside());
    edges.extend(order_of_checks());
    edges
}

fn small() -> Vec<TriedEdge> {
    let edges = rows(SMALL).into_iter().map(|(title, columns)| {
        let [table, node, codes, presents] = columns;
        let (node, presents) = (number(node), number(presents));
        tried(title, &numbers::<u8>(table), node, numbers(codes), presents)
    });
    edges.collect()
}

fn tried(
    name: &str,
    table: &[u8],
    node: u64,
    codes: impl IntoIterator<Item = Code>,
    presents: usize,
) -> TriedEdge {
    let set = gathered(codes);
    edge(name, table, node, Ok(Tried { set, presents }))
}

fn refused(name: &str, table: &[u8], node: u64, number: u32) -> TriedEdge {
    edge(name, table, node, Err(Refusal::whole(number)))
}

/// Up to 12 presents are tried, and more refused.
fn tried_or_22(
    name: &str,
    table: &[u8],
    node: u64,
    codes: impl IntoIterator<Item = Code>,
    presents: usize,
) -> TriedEdge {
    match presents {
        ..=ANSWERS => tried(name, table, node, codes, presents),
        _ => refused(name, table, node, 22),
    }
}

fn edge(name: &str, table: &[u8], node: u64, outcome: Result<Tried, Refusal>) -> TriedEdge {
    TriedEdge {
        name: format!("{name}: node {node}"),
        case: Case::new(table, node),
        outcome,
    }
}

fn last(table: &[u8]) -> u64 {
    table.len() as u64 / 2 - 1
}

/// So many tests, nested, and a code that the list of absent alone gives.
fn tests(count: usize) -> Vec<u8> {
    pause_by(&vec![0; count])
}

/// Code 1 is given by one list of as many answers alone.
fn nested() -> Vec<TriedEdge> {
    let mut edges = Vec::new();
    for count in [1, 2, 3, 10, 11, 12, 13, 14] {
        let by_turns: Vec<u8> = (0..count).map(|place| (place % 2) as u8).collect();
        let last_absent: Vec<u8> = [vec![1; count - 1], vec![0]].concat();
        for (name, list) in [
            ("all present", vec![1; count]),
            ("all absent", vec![0; count]),
            ("by turns", by_turns),
            ("the last absent", last_absent),
        ] {
            let table = pause_by(&list);
            edges.push(tried_or_22(name, &table, last(&table), [0, 1], count));
        }
    }
    // Each test of them by itself.
    let count = 14;
    let absent = tests(count);
    for test in 1..=count {
        let node = (count + test) as u64;
        edges.push(tried_or_22("within 14", &absent, node, [0, 1], test));
    }
    edges.push(tried("within 14", &absent, count as u64, [1], 0));
    edges.push(tried("within 14", &absent, 0, [0], 0));
    edges
}

/// Tests that end in any case, with one that can pause at this place.
fn in_sequence(count: usize, pausing: usize) -> Vec<u8> {
    let mut table = Vec::new();
    for place in 0..count {
        let statement = if place == pausing { PAUSE } else { NOTHING };
        table.extend(as_then(statement));
        if place > 0 {
            table.extend(SEQUENCE);
        }
    }
    table
}

/// Also the second of two children, before which there are presents that are not its own.
fn one_after_the_other() -> Vec<TriedEdge> {
    let mut edges = Vec::new();
    let name = "one after the other";
    for count in [2, 11, 12, 13] {
        for pausing in [0, count - 1] {
            let table = in_sequence(count, pausing);
            edges.push(tried_or_22(name, &table, last(&table), [0, 1], count));
        }
    }
    for (node, other) in [(SEQUENCE, "in sequence"), (PARALLEL, "in parallel")] {
        for (first, second) in [(12, 12), (12, 1), (1, 12), (13, 12), (12, 13)] {
            let table = [&tests(first), &tests(second), node].concat();
            let ends = [tests(first).len(), table.len() - 2].map(|bytes| bytes as u64 / 2 - 1);
            for (end, count) in ends.into_iter().zip([first, second]) {
                edges.push(tried_or_22(other, &table, end, [0, 1], count));
            }
            edges.push(refused(other, &table, last(&table), 22));
        }
        for (first, second) in [(11, 1), (1, 11), (6, 6)] {
            let table = [&tests(first), &tests(second), node].concat();
            edges.push(tried(other, &table, last(&table), [0, 1], 12));
        }
    }
    edges
}

/// Exits to one trap each, or not: any set of them is taken, and the outermost counts.
fn side_by_side() -> Vec<TriedEdge> {
    let mut edges = Vec::new();
    for count in [2, 11, 12, 13] {
        let choices: Vec<Vec<u8>> = (0..count).map(|level| as_then(&[4, level])).collect();
        let parallels = PARALLEL.repeat(choices.len() - 1);
        let table = [choices.concat(), parallels, TRAP.repeat(choices.len())].concat();
        let within_traps = (4 * choices.len() - 2) as u64;
        let codes = (2..2 + Code::from(count)).chain([0]);
        let name = "exits side by side";
        edges.push(tried_or_22(name, &table, within_traps, codes, count.into()));
        edges.push(tried_or_22(name, &table, last(&table), [0], count.into()));
    }
    edges
}

/// A test is counted with those in both of its branches.
fn own_and_branches() -> Vec<TriedEdge> {
    let of_branches = |then, otherwise| {
        let table = [&tests(then), &tests(otherwise), PRESENT].concat();
        let presents = then + otherwise + 1;
        tried_or_22("own and branches", &table, last(&table), [0, 1], presents)
    };
    let tried = [(6, 5), (5, 6), (11, 0), (0, 11)];
    let too_many = [(6, 6), (12, 0), (0, 12), (12, 12)];
    let both = tried.into_iter().chain(too_many);
    both.map(|(then, otherwise)| of_branches(then, otherwise))
        .collect()
}

/// However many suspends there are.
fn suspended() -> Vec<TriedEdge> {
    let many = around(PAUSE, SUSPEND, 255);
    let mut edges = vec![
        tried("13 suspends", &around(PAUSE, SUSPEND, 13), 13, [1], 0),
        tried("255 suspends", &many, last(&many), [1], 0),
        tried("12 of 255 suspends", &many, 12, [1], 0),
    ];
    for count in [1, 11, 12, 13] {
        let name = "suspended tests";
        let table = after(&tests(count), SUSPEND);
        edges.push(tried_or_22(name, &table, last(&table), [0, 1], count));
        // One around each test.
        let table = (0..count).fold(PAUSE.to_vec(), |table, _| after(&as_then(&table), SUSPEND));
        edges.push(tried_or_22(name, &table, last(&table), [0, 1], count));
    }
    edges
}

/// 13 exits of which 12 tests choose one, with as many traps around as there are given.
fn chosen_exits(traps: u8) -> Vec<u8> {
    let exits: Vec<u8> = (traps - 13..traps).flat_map(|level| [4, level]).collect();
    [exits, PRESENT.repeat(12), TRAP.repeat(traps.into())].concat()
}

/// The choice is node 24, and each trap takes one from the codes, or ends.
fn codes_of_exits() -> Vec<TriedEdge> {
    let mut edges = Vec::new();
    for traps in [13, 14, 40, 61, 62] {
        let table = chosen_exits(traps);
        for trap in [0, 1, 2, traps - 13, traps - 12, traps - 1, traps] {
            let left = Code::from(traps - trap);
            let codes = (2..2 + left).rev().take(13);
            let ended = (left < 13).then_some(0);
            let node = 24 + u64::from(trap);
            let name = format!("13 exits within {traps} traps");
            edges.push(tried(&name, &table, node, codes.chain(ended), 12));
        }
    }
    edges
}

/// An exit to the outermost of all traps: trap t, node t, has 63 - t, and the last one 0.
fn last_code() -> Vec<TriedEdge> {
    let mut edges = Vec::new();
    let name = "62 traps";
    let exit = around(&[4, 61], TRAP, MOST_TRAPS);
    let choice = around(&[4, 61, 2, 0, 6, 0], TRAP, MOST_TRAPS);
    let in_loop = around(&[4, 61, 8, 0], TRAP, MOST_TRAPS);
    for trap in [0, 1, 2, 31, 32, 60, 61, 62] {
        let code = if trap == 62 { 0 } else { 63 - trap };
        let node = u64::from(trap);
        edges.push(tried(name, &exit, node, [code], 0));
        edges.push(tried(name, &choice, node + 2, [code, 1], 1));
        edges.push(tried(name, &in_loop, node + 1, [code], 0));
    }
    edges
}

/// A tree of pauses that one list alone comes to, within so many tests. It has 1,023 nodes.
fn beneath(tests: usize) -> Vec<u8> {
    let pauses = balanced(PAUSE, 512 - tests, PARALLEL);
    [NOTHING.repeat(tests), pauses, PRESENT.repeat(tests)].concat()
}

/// Tests that each start comes to, one after the other, after 488 emits.
fn after_emits() -> Vec<u8> {
    let emits = balanced(EMIT, 488, SEQUENCE);
    [&emits, &in_sequence(12, 11), SEQUENCE].concat()
}

/// Of about as many nodes as are allowed, which takes a while to start so often.
pub fn large() -> Vec<TriedEdge> {
    let branches = &all_nodes();
    let ends = &after(&balanced(EMIT, 512, SEQUENCE), SIGNAL);
    // Eight tests have 31 nodes, and 16 have 63.
    let tests = &balanced(&as_else(PAUSE), 256, SEQUENCE);
    let (within_12, within_13) = (&beneath(12), &beneath(13));
    let among = &after_emits();
    // A test of two tests, and so on, eight deep.
    let tree = &balanced(PAUSE, 256, PRESENT);
    vec![
        tried("1,024 nodes", branches, 1023, [1], 0),
        tried("1,024 nodes", branches, 1022, [1], 0),
        tried("1,024 nodes", branches, 0, [1], 0),
        tried("1,024 ends", ends, 1023, [0], 0),
        tried("256 tests", tests, 0, [0], 0),
        tried("256 tests", tests, 2, [0, 1], 1),
        tried("256 tests", tests, 30, [0, 1], 8),
        refused("256 tests", tests, 62, 22),
        refused("256 tests", tests, last(tests), 22),
        tried("beneath 12 tests", within_12, 1022, [0, 1], 12),
        tried("beneath 12 tests", within_12, 1010, [1], 0),
        refused("beneath 13 tests", within_13, 1022, 22),
        tried("beneath 13 tests", within_13, 1021, [0, 1], 12),
        tried("after 488 emits", among, last(among), [0, 1], 12),
        refused("255 tests in a tree", tree, last(tree), 22),
        tried("255 tests in a tree", tree, 14, [1], 7),
        refused("255 tests in a tree", tree, 30, 22),
    ]
}

/// Check 21, also where 22 would refuse all that is within.
fn nodes_outside() -> Vec<TriedEdge> {
    let mut edges = Vec::new();
    let [within, too_many] = [tests(12), tests(13)];
    for table in [PAUSE, W1, &within, &too_many, &all_nodes()] {
        let size = table.len() as u64 / 2;
        let near = [size, size + 1, 2 * size, (1 << 32) + size - 1];
        for node in near.into_iter().chain(HUGE).filter(|&node| node >= size) {
            edges.push(refused("outside", table, node, 21));
        }
    }
    edges
}

/// The table's own checks come first, whatever is tried; for an accepted one 21 is left.
fn order_of_checks() -> Vec<TriedEdge> {
    let mut edges = Vec::new();
    for of_01 in edges_of_01() {
        let refusal = of_01.refusal.unwrap_or(Refusal::whole(21));
        let outside = [of_01.table.len() as u64 / 2, u64::MAX];
        let within = of_01.refusal.map(|_| 0);
        for node in outside.into_iter().chain(within) {
            edges.push(edge(of_01.name, &of_01.table, node, Err(refusal)));
        }
    }
    edges.extend(before_22());
    edges
}

/// Tables that are refused, with more presents than are tried.
fn before_22() -> Vec<TriedEdge> {
    let tests = tests(13);
    let next = tests.len() / 2;
    let tables: [(u32, usize, &[u8]); 10] = [
        (11, next, LOOP),
        (10, next, &[4, 0, 9, 0]),
        (9, next, &TRAP.repeat(63)),
        (8, 0, &SIGNAL.repeat(256)),
        (7, 0, PAUSE),
        (6, next, SEQUENCE),
        (5, next, &[8, 1]),
        (4, next, &[12, 0]),
        (2, 0, &[5]),
        (1, 0, &SIGNAL.repeat(1000)),
    ];
    let mut edges = Vec::new();
    for (number, at, rest) in tables {
        let (name, table) = (format!("{number} before 22"), after(&tests, rest));
        for node in [next as u64 - 1, table.len() as u64 / 2] {
            edges.push(edge(&name, &table, node, Err(Refusal::at(number, at))));
        }
    }
    edges
}
