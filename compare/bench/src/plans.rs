//! Programs whose first tick is dear to find: the bodies whose ticks are, without the loop
//! that would be refused.

use compare::support::nodes::{LOOP, SIGNAL};

use crate::ticks::Shape;

/// A program of so many nodes, 16, 64, 256 or 1,024, with a signal in the loop's place.
pub fn program(shape: &Shape, nodes: usize) -> Vec<u8> {
    let mut table = (shape.program)(nodes);
    let loops = table.chunks_exact_mut(2).filter(|node| *node == LOOP);
    loops.for_each(|node| node.copy_from_slice(SIGNAL));
    table
}
