//! The same calls on two implementations: every answer and every byte of every
//! buffer must agree, and so must the guard bytes around the buffers.

pub mod groups;
pub mod guarded;
pub mod tally;
pub mod trials;
