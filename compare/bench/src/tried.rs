//! Nodes to try, in programs of an exact number of nodes. But for the leaf, each is the whole
//! program, which has 12 presents; where it is made of parts, the largest one has.

use compare::support::nodes::{EMIT, PARALLEL, PAUSE, PRESENT, SEQUENCE};
use compare::support::programs::balanced;

use crate::programs::{filled_up, Shape, WIDE};

/// A trial starts its node 4,096 times, so that programs of fewer nodes would show no more.
pub const SIZES: [usize; 3] = [64, 256, 1024];

pub struct Tried {
    pub name: &'static str,
    pub shape: Shape,
    /// The node that is tried, in a program of so many nodes.
    pub node: fn(usize) -> usize,
}

pub const TRIED: [Tried; 5] = [
    // One node is entered by each start, and all else is what a start takes in any case.
    Tried {
        name: "leaf",
        shape: WIDE,
        node: |_| 0,
    },
    // Each start enters one of 13 branches.
    Tried {
        name: "branches",
        shape: whole("branches", branches, 1024),
        node: |nodes| nodes - 1,
    },
    // All nodes are entered but one leaf of each test.
    Tried {
        name: "sequences",
        shape: whole(
            "sequences",
            |nodes| tests_among(EMIT, SEQUENCE, nodes),
            1024,
        ),
        node: |nodes| nodes - 1,
    },
    Tried {
        name: "parallels",
        shape: whole(
            "parallels",
            |nodes| tests_among(PAUSE, PARALLEL, nodes),
            1024,
        ),
        node: |nodes| nodes - 1,
    },
    // Signals around few tests, about as deep as can be.
    Tried {
        name: "deep",
        shape: whole(
            "deep",
            |nodes| filled_up(tests(3, EMIT, SEQUENCE), nodes),
            256,
        ),
        node: |nodes| nodes - 1,
    },
];

const fn whole(name: &'static str, part: fn(usize) -> Vec<u8>, most_nodes: usize) -> Shape {
    Shape {
        name,
        part,
        most_nodes,
    }
}

/// So many tests of two leaves each.
fn tests(count: usize, leaf: &[u8], node: &[u8]) -> Vec<u8> {
    balanced(&[leaf, leaf, PRESENT].concat(), count, node)
}

/// 12 tests before or beside a tree of leaves.
fn tests_among(leaf: &[u8], node: &[u8], nodes: usize) -> Vec<u8> {
    let tests = tests(12, leaf, node);
    let rest = nodes - tests.len() / 2 - 1;
    let leaves = balanced(leaf, rest.div_ceil(2), node);
    filled_up([&tests, &leaves, node].concat(), nodes)
}

/// 12 tests of 13 trees of parallels.
fn branches(nodes: usize) -> Vec<u8> {
    let mut branches: Vec<Vec<u8>> = Vec::new();
    for branch in 0..13 {
        let own = (nodes - 12 + branch) / 13;
        branches.push(filled_up(balanced(PAUSE, own.div_ceil(2), PARALLEL), own));
    }
    // As flat as can be: the branches two by two, and again.
    while branches.len() > 1 {
        let pairs = branches.chunks(2);
        branches = pairs
            .map(|pair| match pair {
                [one, other] => [one, other, PRESENT].concat(),
                _ => pair.concat(),
            })
            .collect();
    }
    branches.concat()
}
