//! Programs of an exact number of nodes, in several shapes.
//!
//! Started, each enters at least half of its nodes and pauses. Resumed with all
//! signals absent, each ends its pauses, starts the bodies of its loops again
//! and pauses where it paused before, so that the call can be repeated.

use compare::checks::MOST_TRAPS;
use compare::support::nodes::{EMIT, LOOP, PARALLEL, PAUSE, PRESENT, SEQUENCE, SUSPEND, TRAP};
use compare::support::programs::balanced;

#[derive(Clone, Copy)]
pub struct Shape {
    pub name: &'static str,
    /// A program of so many nodes, at least 16.
    pub part: fn(usize) -> Vec<u8>,
    /// A larger program is made of parts side by side.
    pub most_nodes: usize,
}

pub const SHAPES: [Shape; 5] = [DEEP, WIDE, TRAPS, LEFT, RIGHT];

pub const DEEP: Shape = Shape {
    name: "deep",
    part: deep,
    most_nodes: 256,
};

pub const WIDE: Shape = Shape {
    name: "wide",
    part: wide,
    most_nodes: 1024,
};

pub const TRAPS: Shape = Shape {
    name: "traps",
    part: traps,
    most_nodes: 256,
};

pub const LEFT: Shape = Shape {
    name: "left",
    part: left_sequences,
    most_nodes: 256,
};

pub const RIGHT: Shape = Shape {
    name: "right",
    part: right_sequences,
    most_nodes: 256,
};

impl Shape {
    pub fn program(&self, nodes: usize) -> Vec<u8> {
        if nodes <= self.most_nodes {
            return (self.part)(nodes);
        }
        let left = left_part(nodes);
        let right = nodes - 1 - left;
        [&self.program(left)[..], &self.program(right), PARALLEL].concat()
    }

    /// The nodes of the first part of such a program, the last of which is the part's top.
    pub fn first_part(&self, nodes: usize) -> usize {
        match nodes <= self.most_nodes {
            true => nodes,
            false => self.first_part(left_part(nodes)),
        }
    }
}

/// How many of the nodes go to the left of two parts.
fn left_part(nodes: usize) -> usize {
    (nodes - 1) / 2
}

/// Not the signal of `SUSPEND`, as the shared one is: with one name for both, the text of
/// a deep program would be cheaper to read.
const SIGNAL: &[u8] = &[5, 2];

/// Signals and suspends by turns, as deep as there are nodes.
fn deep(nodes: usize) -> Vec<u8> {
    let mut table = [PAUSE, EMIT, SEQUENCE, EMIT, SEQUENCE].concat();
    while table.len() / 2 + 1 < nodes {
        let is_even = table.len() / 2 % 2 == 0;
        table.extend(if is_even { SUSPEND } else { SIGNAL });
    }
    table.extend(LOOP);
    table
}

/// A balanced tree of parallels; at its leaves loops of an emit and a pause.
fn wide(nodes: usize) -> Vec<u8> {
    let leaf = [EMIT, PAUSE, SEQUENCE, LOOP].concat();
    filled_up(balanced(&leaf, (nodes + 1) / 5, PARALLEL), nodes)
}

/// Traps around each other, as many as there is room for or as are allowed; in each
/// a choice between an exit and the next. A pause beside them keeps the loop from
/// ending at once.
fn traps(nodes: usize) -> Vec<u8> {
    let count = trap_count(nodes);
    let mut exits = Vec::new();
    let mut choices = PAUSE.to_vec();
    for around in 1..=count {
        // The exit of the outermost trap comes first. Each goes half way out.
        exits.extend([4, (around / 2) as u8]);
        choices.extend([PRESENT, TRAP].concat());
    }
    let body = [&exits[..], &choices, PAUSE, PARALLEL, LOOP].concat();
    filled_up(body, nodes)
}

/// Each has two nodes more, its exit and its test.
pub fn trap_count(nodes: usize) -> usize {
    ((nodes - 4) / 3).min(MOST_TRAPS)
}

/// ((a; b); c); d and so on.
fn left_sequences(nodes: usize) -> Vec<u8> {
    let mut table = Vec::new();
    for (at, leaf) in leaves(nodes / 2).iter().enumerate() {
        table.extend_from_slice(leaf);
        if at > 0 {
            table.extend(SEQUENCE);
        }
    }
    table.extend(LOOP);
    filled_up(table, nodes)
}

/// a; (b; (c; d)) and so on.
fn right_sequences(nodes: usize) -> Vec<u8> {
    let leaves = leaves(nodes / 2);
    let sequences = SEQUENCE.repeat(leaves.len() - 1);
    let table = [&leaves.concat()[..], &sequences, LOOP].concat();
    filled_up(table, nodes)
}

/// Emits with a pause in the middle.
fn leaves(count: usize) -> Vec<&'static [u8]> {
    let mut leaves = vec![EMIT; count];
    leaves[count / 2] = PAUSE;
    leaves
}

/// With signals around it, up to the number of nodes.
pub fn filled_up(mut table: Vec<u8>, nodes: usize) -> Vec<u8> {
    while table.len() / 2 < nodes {
        table.extend(SIGNAL);
    }
    table
}
