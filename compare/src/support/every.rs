//! Every table of few nodes over some letters.

use crate::Sets;

/// The bytes of a node, and the number of its children.
pub type Letter = ([u8; 2], usize);

/// The statements that decide something: nothing, pause, two exits, present, loop,
/// sequence, parallel, trap.
pub const DECIDING: [Letter; 9] = [
    ([1, 0], 0),
    ([2, 0], 0),
    ([4, 0], 0),
    ([4, 1], 0),
    ([6, 0], 2),
    ([8, 0], 1),
    ([9, 0], 2),
    ([10, 0], 2),
    ([11, 0], 1),
];

/// These and a suspend, which decides something when it is resumed. In a run, an emit does
/// as nothing does, and a signal as its child.
pub fn deciding_in_runs() -> Vec<Letter> {
    [&DECIDING[..], &[([7, 0], 1)]].concat()
}

/// Visits all tables of up to so many nodes that are one statement.
pub fn every_table(letters: &[Letter], nodes: usize, mut visit: impl FnMut(&[u8])) {
    every_table_from(letters, &mut Vec::new(), 0, nodes, &mut visit);
}

/// Visits those of them that are accepted, with their sets.
pub fn every_program(letters: &[Letter], nodes: usize, mut visit: impl FnMut(&[u8], &Sets)) {
    every_table(letters, nodes, |table| {
        if let Ok(sets) = Sets::of(table) {
            visit(table, &sets);
        }
    });
}

/// All tables that begin with this one, of which so many statements are unused, and that
/// are one statement at the end, with room for so many more nodes.
fn every_table_from(
    letters: &[Letter],
    table: &mut Vec<u8>,
    unused: usize,
    room: usize,
    visit: &mut impl FnMut(&[u8]),
) {
    if unused == 1 {
        visit(table);
    }
    for &(letter, children) in letters {
        // Each node still to come can make one of two.
        if children <= unused && unused + 1 - children <= room {
            table.extend(letter);
            every_table_from(letters, table, unused + 1 - children, room - 1, visit);
            table.truncate(table.len() - 2);
        }
    }
}
