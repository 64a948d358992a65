//! Programs that start a statement again in the instant in which they drop it or it exits.

use super::nodes::{EXIT, LOOP, NOTHING, PARALLEL, PAUSE, PRESENT, SEQUENCE, SUSPEND, TRAP};

/// Puts the statement in a trap in a loop, beside a branch that leaves the trap in any later
/// instant, as the answers have it: on the left of that branch, there within a suspend too,
/// and on the right.
pub fn framed(statement: &[u8]) -> [Vec<u8>; 3] {
    let watch = [PAUSE, EXIT, NOTHING, PRESENT, SEQUENCE, LOOP].concat();
    let around = [PARALLEL, TRAP, LOOP].concat();
    [
        [statement, &watch, &around].concat(),
        [statement, SUSPEND, &watch, &around].concat(),
        [&watch, statement, &around].concat(),
    ]
}

/// Puts the statement before a pause, in two traps in a loop: with an exit to either trap it
/// is started again. One that can exit at once makes a program that is refused.
pub fn exiting(statement: &[u8]) -> Vec<u8> {
    [statement, PAUSE, SEQUENCE, TRAP, TRAP, LOOP].concat()
}
