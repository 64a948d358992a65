//! Ties of signals, and programs for them.

use super::every::Letter;
use super::programs::{accepted, any_shape, ALL_SHAPES};
use super::random::Random;
use crate::instant::SIGNALS;

pub const UNKNOWN: u8 = 0;
pub const ABSENT: u8 = 1;
pub const PRESENT: u8 = 2;

/// Of two signals tests and signal statements; an emit and a suspend of one of them, which
/// decide nothing, and two exits, whose levels are the same numbers.
pub const LETTERS: [Letter; 14] = [
    ([1, 0], 0),
    ([2, 0], 0),
    ([3, 0], 0),
    ([4, 0], 0),
    ([4, 1], 0),
    ([5, 0], 1),
    ([5, 1], 1),
    ([6, 0], 2),
    ([6, 1], 2),
    ([7, 0], 1),
    ([8, 0], 1),
    ([9, 0], 2),
    ([10, 0], 2),
    ([11, 0], 1),
];

/// Of some letters nothing, pauses, tests, signal statements and sequences, which tell where
/// a tie holds.
pub fn deciding(letters: &[Letter]) -> Vec<Letter> {
    let mut letters = letters.to_vec();
    letters.retain(|([kind, _], _)| [1, 2, 5, 6, 9].contains(kind));
    letters
}

/// These signals tied, and all others unknown.
pub fn tied(signals: &[(u8, u8)]) -> Vec<u8> {
    let mut ties = vec![UNKNOWN; SIGNALS];
    for &(signal, tie) in signals {
        ties[usize::from(signal)] = tie;
    }
    ties
}

/// All ways to tie two signals; way 3 * a + b ties them to a and b.
pub fn every_tie(one: u8, other: u8) -> Vec<Vec<u8>> {
    let ways = (0..9).map(|way| tied(&[(one, way / 3), (other, way % 3)]));
    ways.collect()
}

/// Few signals tied, many or all, some of them all to one byte, for each number in turn.
pub fn any_ties(random: &mut Random, number: usize) -> Vec<u8> {
    let choices: &[u8] = match number % 6 {
        0 => &[0, 0, 0, 0, 0, 0, 1, 2],
        1 | 2 => &[0, 1, 2],
        3 => &[1, 2],
        4 => &[0, 1],
        _ => &[2],
    };
    (0..SIGNALS).map(|_| *random.pick(choices)).collect()
}

/// A byte that is no tie.
pub fn wrong_byte(random: &mut Random) -> u8 {
    *random.pick(&[3, 4, 5, 127, 128, 254, 255])
}

/// An accepted program of at most so many nodes, often with few signals, and ties: of all
/// shapes in turn, each with ties of all kinds.
pub fn tied_program(random: &mut Random, number: usize, nodes: usize) -> (Vec<u8>, Vec<u8>) {
    let mut table = accepted(random, any_shape(number), nodes);
    if !random.one_in(3) {
        draw_few_signals(random, &mut table);
    }
    (table, any_ties(random, number / ALL_SHAPES))
}

/// Draws the signals anew from few numbers, so that there are many tests of a number inside
/// and outside of its signal statements.
fn draw_few_signals(random: &mut Random, table: &mut [u8]) {
    let mut numbers = vec![*random.pick(&[0, 3, 127]), 255];
    numbers.truncate(random.between(1, 2));
    for node in table.chunks_exact_mut(2) {
        if [3, 5, 6, 7].contains(&node[0]) {
            node[1] = *random.pick(&numbers);
        }
    }
}

/// The table with signal statements of a number around its nodes, in all ways: up to so
/// many around each node.
pub fn every_nesting(table: &[u8], signal: u8, most: usize) -> impl Iterator<Item = Vec<u8>> + '_ {
    let counts = most + 1;
    let ways = counts.pow(table.len() as u32 / 2);
    (0..ways).map(move |mut way| {
        let mut nested = Vec::new();
        for node in table.chunks_exact(2) {
            nested.extend(node);
            nested.extend([5, signal].repeat(way % counts));
            way /= counts;
        }
        nested
    })
}
