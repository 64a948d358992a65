//! Tables to plan the first instant of: programs of all sorts, and such in which the
//! number of entries and the code depend on the same answers.

use super::damage::{bad_table, BAD_NUMBERS};
use super::nodes::{
    EMIT, EXIT, LOOP, NOTHING, PARALLEL, PAUSE, PRESENT, SEQUENCE, SIGNAL, SUSPEND, TRAP,
};
use super::programs::{accepted, any_shape, Room, ALL_SHAPES};
use super::random::Random;
use crate::checks::{MOST_DEPTH, MOST_TRAPS};

/// The numbers of `table` that give each kind of table and each shape its share.
pub const NUMBERS: usize = 5 * ALL_SHAPES;

/// A table for each number in turn, of at most so many nodes but for a spoilt one and for a
/// single stage.
pub fn table(random: &mut Random, number: usize, nodes: usize) -> Vec<u8> {
    match number / ALL_SHAPES % 5 {
        0 | 1 => accepted(random, any_shape(number), nodes),
        2 => choices(random, nodes),
        3 => stages(random, nodes),
        _ => {
            let number = random.below(BAD_NUMBERS);
            bad_table(random, number)
        }
    }
}

/// An accepted program of at most so many nodes: choices among leaves of all codes, each
/// with some entries more, in parallels, sequences and traps.
pub fn choices(random: &mut Random, nodes: usize) -> Vec<u8> {
    let room = Room {
        nodes,
        depth: MOST_DEPTH,
        traps: 0,
    };
    part(random, room)
}

/// The room beneath one node more.
fn below(room: Room, nodes: usize) -> Room {
    Room {
        nodes,
        depth: room.depth - 1,
        ..room
    }
}

fn part(random: &mut Random, room: Room) -> Vec<u8> {
    if room.nodes < 9 || room.depth < 9 {
        return leaf(random, room);
    }
    match random.below(20) {
        0..6 => both(random, room, PARALLEL),
        6..10 => both(random, room, SEQUENCE),
        10 | 11 => both(random, room, PRESENT),
        12..16 if room.traps < MOST_TRAPS => followed_trap(random, room),
        // What can end is followed by a pause, so that the body does not end.
        16 => {
            let inner = part(random, below(below(room, 0), room.nodes - 3));
            [&inner, PAUSE, SEQUENCE, LOOP].concat()
        }
        17 => {
            let around = *random.pick(&[SIGNAL, SUSPEND]);
            [&part(random, below(room, room.nodes - 1)), around].concat()
        }
        _ => choice(random, room, &[]),
    }
}

fn both(random: &mut Random, room: Room, node: &[u8]) -> Vec<u8> {
    let first_nodes = random.between(1, room.nodes - 2);
    let first = part(random, below(room, first_nodes));
    let second = part(random, below(room, room.nodes - 1 - first_nodes));
    [&first, &second, node].concat()
}

/// A trap, and after it some entries that exits further out pass by.
fn followed_trap(random: &mut Random, room: Room) -> Vec<u8> {
    let tail_nodes = random.between(1, 4);
    let tail = leaf(random, below(room, tail_nodes));
    let mut inner = below(below(room, 0), room.nodes - 2 - tail_nodes);
    inner.traps += 1;
    [&part(random, inner), TRAP, &tail, SEQUENCE].concat()
}

/// Tests of two or three leaves that are drawn, for which there is room, and of this one,
/// if it is one.
fn choice(random: &mut Random, room: Room, other: &[u8]) -> Vec<u8> {
    let drawn = random.between(2, 3);
    let leaf_room = Room {
        nodes: (room.nodes / 3).saturating_sub(1).clamp(1, 4),
        depth: 5,
        ..room
    };
    let mut leaves: Vec<Vec<u8>> = (0..drawn).map(|_| leaf(random, leaf_room)).collect();
    if !other.is_empty() {
        leaves.push(other.to_vec());
    }
    joined(random, leaves, PRESENT)
}

/// The statements in some order, nested to the right under nodes of two children.
fn joined(random: &mut Random, mut statements: Vec<Vec<u8>>, node: &[u8]) -> Vec<u8> {
    random.shuffle(&mut statements);
    let nodes = node.repeat(statements.len() - 1);
    [statements.concat(), nodes].concat()
}

/// An end, a pause or an exit to any trap, within some nodes more if there is room for them.
fn leaf(random: &mut Random, room: Room) -> Vec<u8> {
    let most_around = (room.nodes - 1).min(room.depth - 1).min(4);
    let leaf = match random.below(8) {
        0 | 1 => EMIT.to_vec(),
        2 => NOTHING.to_vec(),
        3 | 4 => PAUSE.to_vec(),
        _ if room.traps == 0 => PAUSE.to_vec(),
        // Mostly to a near one.
        5 | 6 => vec![4, random.below(room.traps.min(2)) as u8],
        _ => vec![4, random.below(room.traps) as u8],
    };
    [leaf, nodes_around(random, most_around)].concat()
}

/// Up to so many nodes that hand on a code.
fn nodes_around(random: &mut Random, most: usize) -> Vec<u8> {
    let nodes = (0..random.below(most + 1)).map(|_| *random.pick(&[SIGNAL, SUSPEND]));
    nodes.collect::<Vec<&[u8]>>().concat()
}

/// An accepted program of at most so many nodes, if there is room for a stage: stages one
/// after the other, in a trap with something after it. Each of them goes on with one code
/// alone, with which its branches hardly have their most entries.
pub fn stages(random: &mut Random, nodes: usize) -> Vec<u8> {
    let mut table = stage(random);
    while table.len() / 2 + STAGE_NODES + 8 <= nodes {
        let next = stage(random);
        table = [table, next, SEQUENCE.to_vec()].concat();
    }
    let around = nodes_around(random, 3);
    [&table, TRAP, NOTHING, &around, SEQUENCE].concat()
}

/// No stage has more nodes.
const STAGE_NODES: usize = 60;

/// Two or three choices in parallel. It goes on if all of them end, or if one of them exits
/// to the trap around them.
fn stage(random: &mut Random) -> Vec<u8> {
    let by_exit = random.one_in(2);
    let room = Room {
        nodes: 15,
        depth: 10,
        traps: if by_exit { 2 } else { 1 },
    };
    let goes_on = if by_exit { EXIT } else { NOTHING };
    let count = random.between(2, 3);
    let branches: Vec<Vec<u8>> = (0..count).map(|_| choice(random, room, goes_on)).collect();
    let stage = joined(random, branches, PARALLEL);
    if by_exit {
        [&stage, TRAP].concat()
    } else {
        stage
    }
}

/// Tests of exits to many of so many traps, or two such choices in parallel. Each of the
/// traps may be followed by something or have something beside it.
pub fn through_traps(random: &mut Random, traps: usize) -> Vec<u8> {
    let mut table = exits(random, traps);
    if random.one_in(2) {
        table = [table, exits(random, traps), PARALLEL.to_vec()].concat();
    }
    for outer in (0..traps).rev() {
        table.extend(TRAP);
        let room = Room {
            nodes: random.between(1, 3),
            depth: 8,
            traps: outer,
        };
        match random.below(6) {
            0..3 => table.extend([&leaf(random, room), SEQUENCE].concat()),
            3 => table.extend([&leaf(random, room), PARALLEL].concat()),
            _ => {}
        }
    }
    table
}

/// Tests one after the other, each of a leaf; mostly exits.
fn exits(random: &mut Random, traps: usize) -> Vec<u8> {
    let leaves = (0..random.between(2, 40)).map(|_| {
        let leaf = match random.below(12) {
            0 => NOTHING.to_vec(),
            1 => PAUSE.to_vec(),
            _ => vec![4, random.below(traps) as u8],
        };
        [leaf, nodes_around(random, 3)].concat()
    });
    let leaves: Vec<Vec<u8>> = leaves.collect();
    joined(random, leaves, PRESENT)
}
