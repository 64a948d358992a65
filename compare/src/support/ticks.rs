//! Tables to show the tick of: loops whose bodies may end at once, in all sorts of
//! programs.

use super::damage::{bad_table, pauses_to_nothing, BAD_NUMBERS};
use super::nodes::{
    EXIT, LOOP, NOTHING, PARALLEL, PAUSE, PRESENT, SEQUENCE, SIGNAL, SUSPEND, TRAP,
};
use super::programs::{accepted, any_shape, statement, Room, Shape, ALL_SHAPES};
use super::random::Random;
use crate::checks::{MOST_DEPTH, MOST_TRAPS};

/// The numbers of `table` that give each kind of table and each shape its share.
pub const NUMBERS: usize = 7 * ALL_SHAPES;

/// A table for each number in turn, of at most so many nodes but for a spoilt one. Most
/// of them have a loop whose body ends.
pub fn table(random: &mut Random, number: usize, nodes: usize) -> Vec<u8> {
    let shape = any_shape(number);
    match number / ALL_SHAPES % 7 {
        0 | 1 => looped(random, shape, nodes),
        2 => beside(random, shape, nodes),
        3 => {
            let mut table = beside(random, shape, nodes);
            pauses_to_nothing(random, &mut table);
            table
        }
        4 => even_trees(random),
        5 => accepted(random, shape, nodes),
        _ => {
            let number = random.below(BAD_NUMBERS);
            bad_table(random, number)
        }
    }
}

/// A loop, some of whose exits may be to traps around it.
fn looped(random: &mut Random, shape: &Shape, nodes: usize) -> Vec<u8> {
    let most = MOST_TRAPS.min(nodes.saturating_sub(2));
    let traps = (*random.pick(&[0, 0, 1, 2, 5, MOST_TRAPS])).min(most);
    let room = Room {
        nodes: nodes.saturating_sub(1 + traps).max(1),
        depth: MOST_DEPTH - 1 - traps,
        traps,
    };
    [&statement(random, shape, room), LOOP, &TRAP.repeat(traps)].concat()
}

/// Two loops side by side, or a loop and another program.
fn beside(random: &mut Random, shape: &Shape, nodes: usize) -> Vec<u8> {
    if nodes < 6 {
        return looped(random, shape, nodes);
    }
    let left_nodes = random.between(2, nodes - 3);
    let left = shallow(random, shape, left_nodes);
    let right = shallow(random, shape, nodes - 1 - left_nodes);
    let both = *random.pick(&[PRESENT, SEQUENCE, PARALLEL]);
    [&left[..], &right, both].concat()
}

/// A loop or another program, for a place that is not at the top.
fn shallow(random: &mut Random, shape: &Shape, nodes: usize) -> Vec<u8> {
    let room = Room {
        nodes: nodes - 1,
        depth: MOST_DEPTH - 2,
        traps: 0,
    };
    let mut table = statement(random, shape, room);
    if !random.one_in(3) {
        table.extend(LOOP);
    }
    table
}

/// Trees of presents side by side in traps and a loop. The lists of a tree are all of
/// one length, so that it is mostly the first difference that decides.
pub fn even_trees(random: &mut Random) -> Vec<u8> {
    let traps = random.between(1, 4);
    let within_loop = random.between(1, traps);
    let mut table = even_tree(random, traps);
    for caught in 1..=traps {
        for _ in 0..random.below(3) {
            let other = even_tree(random, traps + 1 - caught);
            let both = *random.pick(&[PARALLEL, PARALLEL, PARALLEL, SEQUENCE]);
            table = if random.one_in(2) {
                [&table[..], &other, both].concat()
            } else {
                [&other[..], &table, both].concat()
            };
        }
        table.extend(TRAP);
        if caught == within_loop {
            table.extend(LOOP);
        }
    }
    table
}

fn even_tree(random: &mut Random, traps: usize) -> Vec<u8> {
    let height = random.between(1, 3);
    let mut trees: Vec<Vec<u8>> = (0..1 << height).map(|_| leaf(random, traps)).collect();
    while trees.len() > 1 {
        let pairs = trees.chunks_exact(2);
        trees = pairs
            .map(|pair| [&pair.concat(), PRESENT].concat())
            .collect();
    }
    trees.concat()
}

/// Mostly an exit to one of the traps.
fn leaf(random: &mut Random, traps: usize) -> Vec<u8> {
    match random.below(8) {
        0 => NOTHING.to_vec(),
        1..4 => PAUSE.to_vec(),
        _ => vec![4, random.below(traps) as u8],
    }
}

/// A statement that ends with these answers alone, and pauses with any others.
pub fn ending_with(answers: &[u8]) -> Vec<u8> {
    let end = NOTHING.to_vec();
    answers
        .iter()
        .rev()
        .fold(end, |inner, answer| match answer {
            0 => [PAUSE, &inner, PRESENT].concat(),
            _ => [&inner, PAUSE, PRESENT].concat(),
        })
}

/// A loop of at most so many nodes, at least 2, whose body ends with one list alone, and
/// that list.
pub fn one_list(random: &mut Random, nodes: usize) -> (Vec<u8>, Vec<u8>) {
    let mut list = Vec::new();
    let mut table = ending(random, nodes - 1, MOST_DEPTH - 1, &mut list);
    table.extend(LOOP);
    (table, list)
}

/// A statement that ends with one list, which is put after the lists before it.
fn ending(random: &mut Random, nodes: usize, depth: usize, list: &mut Vec<u8>) -> Vec<u8> {
    if nodes < 4 || depth < 3 {
        return NOTHING.to_vec();
    }
    match random.below(12) {
        0 => {
            let around = *random.pick(&[SIGNAL, SUSPEND, TRAP]);
            [&ending(random, nodes - 1, depth - 1, list), around].concat()
        }
        // A trap that is left by an exit after the statement.
        1 => {
            let inner = ending(random, nodes - 3, depth - 2, list);
            [&inner, EXIT, SEQUENCE, TRAP].concat()
        }
        2 => {
            let both = *random.pick(&[SEQUENCE, PARALLEL]);
            let first_nodes = random.between(1, nodes - 2);
            let first = ending(random, first_nodes, depth - 1, list);
            let second = ending(random, nodes - 1 - first_nodes, depth - 1, list);
            [&first, &second, both].concat()
        }
        at => {
            let answer = at as u8 % 2;
            list.push(answer);
            let inner = ending(random, nodes - 2, depth - 1, list);
            match answer {
                0 => [PAUSE, &inner, PRESENT].concat(),
                _ => [&inner, PAUSE, PRESENT].concat(),
            }
        }
    }
}
