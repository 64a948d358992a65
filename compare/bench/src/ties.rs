//! Programs and ties to narrow the start sets of.

use compare::support::nodes::{NOTHING, PAUSE, PRESENT, SEQUENCE};
use compare::support::programs::balanced;
use compare::support::ties;

use crate::programs::{filled_up, Shape, DEEP, TRAPS, WIDE};

/// Each with the byte of every signal: unknown, or tied.
pub const SHAPES: [(Shape, u8); 10] = [
    (DEEP, ties::UNKNOWN),
    (named("deep-tied", DEEP), ties::PRESENT),
    (WIDE, ties::UNKNOWN),
    (named("wide-tied", WIDE), ties::PRESENT),
    (TRAPS, ties::UNKNOWN),
    (named("traps-tied", TRAPS), ties::ABSENT),
    (TESTS, ties::UNKNOWN),
    (named("tests-tied", TESTS), ties::PRESENT),
    (NESTED_ONE, ties::PRESENT),
    (NESTED_MANY, ties::PRESENT),
];

const fn named(name: &'static str, shape: Shape) -> Shape {
    Shape { name, ..shape }
}

const TESTS: Shape = Shape {
    name: "tests",
    part: tests,
    most_nodes: 1024,
};

/// In all of its tests the signal is unknown, by many signal statements around each.
const NESTED_ONE: Shape = Shape {
    name: "nested-one",
    part: |nodes| nested(nodes, |_| PRESENT[1]),
    most_nodes: 256,
};

/// The same, but the signal statements are of other numbers, so that the tie holds.
const NESTED_MANY: Shape = Shape {
    name: "nested-many",
    part: |nodes| nested(nodes, |at| PRESENT[1] + 1 + at as u8 % 250),
    most_nodes: 256,
};

/// A balanced tree of presents, of all signals in turn.
fn tests(nodes: usize) -> Vec<u8> {
    let mut table = balanced(PAUSE, nodes / 2, PRESENT);
    let presents = table.chunks_exact_mut(2).filter(|node| *node == PRESENT);
    for (at, present) in presents.enumerate() {
        present[1] = at as u8;
    }
    filled_up(table, nodes)
}

/// Tests in sequence, and as many signal statements around all of them.
fn nested(nodes: usize, signal: fn(usize) -> u8) -> Vec<u8> {
    let test = [NOTHING, PAUSE, PRESENT].concat();
    let mut table = balanced(&test, nodes / 8, SEQUENCE);
    for at in table.len() / 2..nodes {
        table.extend([5, signal(at)]);
    }
    table
}
