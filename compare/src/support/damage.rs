//! Damaged tables: accepted programs that are spoilt in many ways. Some of the
//! results are still accepted.

use super::programs::{accepted, traps_around, SHAPES};
use super::random::Random;
use crate::checks::MOST_TRAPS;
use crate::table;

/// The numbers of `bad_table` that give each way its share.
pub const BAD_NUMBERS: usize = 190;

/// A table for each check in turn, then damage of all kinds. Where a limit is
/// tried, some tables stay within it.
pub fn bad_table(random: &mut Random, number: usize) -> Vec<u8> {
    match number {
        0 => random.bytes(2049),
        1 => random.bytes(2100),
        2..=9 => {
            let length = random.between(1, 40);
            random.bytes(length)
        }
        10..=21 => {
            let table = small(random, number);
            within_traps(random, table)
        }
        22..=27 => wrapped(&small(random, number), 5, random.between(244, 257)),
        28..=45 => {
            let mut table = small(random, number);
            set_random_levels(random, &mut table);
            table
        }
        46..=63 => {
            let mut table = small(random, number);
            pauses_to_nothing(random, &mut table);
            table
        }
        _ => {
            let table = small(random, number);
            damaged(random, &table)
        }
    }
}

fn small(random: &mut Random, number: usize) -> Vec<u8> {
    let nodes = random.between(2, 60);
    accepted(random, &SHAPES[number % SHAPES.len()], nodes)
}

/// The table with so many more nodes of one child around it.
fn wrapped(table: &[u8], kind: u8, times: usize) -> Vec<u8> {
    [table, &[kind, 0].repeat(times)].concat()
}

/// The table within traps, about as many as are allowed. Some of its leaves become
/// exits from all of them.
fn within_traps(random: &mut Random, mut table: Vec<u8>) -> Vec<u8> {
    let tree = table::read(&table).expect("an accepted program");
    let own = traps_around(&tree);
    // Below 60, since a small program has at most 60 nodes.
    let most = own.iter().max().expect("at least one node");
    let further = random.between(MOST_TRAPS - 2, MOST_TRAPS + 2) - most;
    for (node, traps) in table.chunks_exact_mut(2).zip(own) {
        if node[0] <= 4 && random.one_in(4) {
            node.copy_from_slice(&[4, (traps + further - 1) as u8]);
        }
    }
    wrapped(&table, 11, further)
}

/// Spoils a table in one of many ways.
pub fn damaged(random: &mut Random, table: &[u8]) -> Vec<u8> {
    let mut bytes = table.to_vec();
    let node = random.below(bytes.len() / 2);
    match random.below(18) {
        0 => flip_bit(random, &mut bytes),
        1 => {
            for _ in 0..random.between(2, 6) {
                flip_bit(random, &mut bytes);
            }
        }
        2 => bytes.truncate(random.below(bytes.len())),
        3 => bytes.truncate(2 * node),
        4 => {
            bytes.drain(..2 * node);
        }
        5 => {
            let count = random.between(1, 9);
            bytes.extend(random.bytes(count));
        }
        6 => {
            let leaf = random.between(1, 3) as u8;
            bytes.extend([leaf, 0]);
        }
        7 => {
            let inner = *random.pick(&[6, 8, 9, 10, 11]);
            bytes.extend([inner, 0]);
        }
        8 => bytes[2 * node] = *random.pick(&[0, 12, 13, 128, 255]),
        9 => bytes[2 * node + 1] = random.between(1, 255) as u8,
        10 | 11 => set_random_levels(random, &mut bytes),
        12..=14 => pauses_to_nothing(random, &mut bytes),
        15 | 16 => bytes[2 * node] = random.between(1, 11) as u8,
        _ => {
            bytes.remove(random.below(bytes.len()));
        }
    }
    bytes
}

fn flip_bit(random: &mut Random, bytes: &mut [u8]) {
    let at = random.below(bytes.len());
    bytes[at] ^= 1 << random.below(8);
}

/// Gives some of the exits a level that their traps may not reach.
fn set_random_levels(random: &mut Random, bytes: &mut [u8]) {
    for node in bytes.chunks_exact_mut(2) {
        if node[0] == 4 && random.one_in(2) {
            node[1] = *random.pick(&[0, 1, 2, 5, 33, 60, 61, 62, 255]);
        }
    }
}

/// Lets some loop bodies end at once.
pub fn pauses_to_nothing(random: &mut Random, bytes: &mut [u8]) {
    for node in bytes.chunks_exact_mut(2) {
        if node[0] == 2 && random.one_in(2) {
            node[0] = 1;
        }
    }
}
