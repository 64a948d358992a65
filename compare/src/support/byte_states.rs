//! States from before F-11, which had one byte a node: 1 at each held pause and 0 elsewhere.
//! What was lent past the nodes is then lent past the 128 bytes, and as many bytes as were
//! lacking are lacking.
//!
//! A byte that is not 0 becomes a bit that is 1. One above 1 at a pause can't be told from a
//! held pause then, and check 12 loses a reason to refuse.

use crate::held::{held_nodes, packed as packed_nodes, STATE_BYTES, STATE_NODES};

/// The packed form of a state of so many nodes.
pub fn packed(nodes: usize, state: &[u8]) -> Vec<u8> {
    let (own, rest) = state.split_at(nodes.min(state.len()));
    let lacking = nodes - own.len();
    let is_held = |&node: &usize| own[node] != 0;
    // A table with more nodes is refused by 1, whatever its state.
    let held: Vec<usize> = (0..own.len().min(STATE_NODES)).filter(is_held).collect();
    let mut state = packed_nodes(&held).to_vec();
    state.truncate(STATE_BYTES.saturating_sub(lacking));
    [&state, rest].concat()
}

/// A packed state, one byte a node. There must be no bit from n on.
pub fn unpacked(nodes: usize, state: &[u8]) -> Vec<u8> {
    let mut bytes = vec![0; nodes];
    for node in held_nodes(state) {
        bytes[node] = 1;
    }
    [&bytes, &state[STATE_BYTES..]].concat()
}
