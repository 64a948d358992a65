//! Programs of exact sizes with an admitted state, to be tried with one more bit at every
//! position.

use super::nodes::{PARALLEL, PAUSE, PRESENT, SEQUENCE, SIGNAL};
use super::programs::{accepted, balanced, SHAPES};
use super::random::Random;
use super::states;
use crate::table;

/// Around the ends of bytes and of words, and of the table.
pub const SIZES: [usize; 13] = [1, 7, 8, 9, 15, 16, 17, 63, 64, 65, 1016, 1023, 1024];

/// The programs of each size.
pub const OF_EACH_SIZE: usize = 5;

/// A table, and an admitted state of it.
pub type Resumable = (Vec<u8>, Vec<usize>);

/// For each size pauses in parallel, in sequence and under presents, and two drawn programs.
pub fn programs(random: &mut Random) -> Vec<Resumable> {
    let mut programs = Vec::new();
    for nodes in SIZES {
        let own = [PARALLEL, SEQUENCE, PRESENT].map(|node| of_pauses(nodes, node));
        let drawn = [(); 2].map(|()| drawn(random, nodes));
        for table in own.into_iter().chain(drawn) {
            let held = held_in(random, &table);
            programs.push((table, held));
        }
    }
    programs
}

/// Pauses under nodes of two children.
fn of_pauses(nodes: usize, node: &[u8]) -> Vec<u8> {
    with_pauses(Vec::new(), nodes, node)
}

/// Of any shape, with at least one pause beside it. The part that is drawn is not too deep
/// for that.
fn drawn(random: &mut Random, nodes: usize) -> Vec<u8> {
    if nodes == 1 {
        return PAUSE.to_vec();
    }
    let most = random.between(1, (nodes - 2).min(200));
    let shape = random.pick(&SHAPES);
    let table = accepted(random, shape, most);
    with_pauses(table, nodes, PARALLEL)
}

/// The statement, if there is one, beside pauses under such nodes, with a signal around it
/// where the number of nodes wants it.
fn with_pauses(mut table: Vec<u8>, nodes: usize, node: &[u8]) -> Vec<u8> {
    let is_alone = table.is_empty();
    let left = nodes - table.len() / 2;
    // Each pause comes with a node over it, but for a first one that is alone.
    let pauses = (left + usize::from(is_alone)) / 2;
    if pauses > 0 {
        table.extend(balanced(PAUSE, pauses, node));
        table.extend(if is_alone { &[] } else { PARALLEL });
    }
    if table.len() / 2 < nodes {
        table.extend(SIGNAL);
    }
    table
}

fn held_in(random: &mut Random, table: &[u8]) -> Vec<usize> {
    let tree = table::read(table).expect("an accepted program");
    states::random_admitted(random, &tree).expect("a program with a pause")
}
