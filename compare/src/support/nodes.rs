//! The bytes of nodes, to put tables together from. Other signals would do as well, but
//! the generated files have these.

pub const NOTHING: &[u8] = &[1, 0];
pub const PAUSE: &[u8] = &[2, 0];
pub const EMIT: &[u8] = &[3, 1];
/// To the innermost trap.
pub const EXIT: &[u8] = &[4, 0];
pub const SIGNAL: &[u8] = &[5, 4];
pub const PRESENT: &[u8] = &[6, 3];
pub const SUSPEND: &[u8] = &[7, 4];
pub const LOOP: &[u8] = &[8, 0];
pub const SEQUENCE: &[u8] = &[9, 0];
pub const PARALLEL: &[u8] = &[10, 0];
pub const TRAP: &[u8] = &[11, 0];
