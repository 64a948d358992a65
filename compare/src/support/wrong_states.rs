//! Instants by wrong rules of the packed state. They are made of the right ones: what is lent
//! is changed before them, or what they leave.

use super::cases::{Call, Case, Outcome};
use crate::held::{held_nodes, packed, STATE_BYTES};

pub type Rule = fn(&Case) -> Outcome;

/// Node i is at bit 7 - i modulo 8 of its byte.
pub fn highest_first(case: &Case) -> Outcome {
    let mut outcome = with_state(case, turned(&case.state)).run();
    outcome.state = turned(&outcome.state);
    outcome
}

fn turned(state: &[u8]) -> Vec<u8> {
    let (own, rest) = state.split_at(STATE_BYTES.min(state.len()));
    let own: Vec<u8> = own.iter().map(|byte| byte.reverse_bits()).collect();
    [&own, rest].concat()
}

/// Bits from n on may be 1.
pub fn past_the_nodes_ignored(case: &Case) -> Outcome {
    let nodes = case.table.len() / 2;
    seen_below(case, nodes)
}

/// Bits from n on may be 1, but for those of the byte in which the last node is.
pub fn past_the_last_byte_ignored(case: &Case) -> Outcome {
    seen_below(case, 8 * bytes_of_nodes(case))
}

/// The instant from those of the held nodes that are below a bound.
fn seen_below(case: &Case, bound: usize) -> Outcome {
    if case.state.len() < STATE_BYTES {
        return case.run();
    }
    let mut held = held_nodes(&case.state);
    held.retain(|&node| node < bound);
    let state = [&packed(&held), &case.state[STATE_BYTES..]].concat();
    let outcome = with_state(case, state).run();
    match outcome.answer {
        Ok(_) => outcome,
        Err(_) => Outcome {
            state: case.state.clone(),
            ..outcome
        },
    }
}

/// Old bits stay where a pause is let go or dropped.
pub fn let_go_left(case: &Case) -> Outcome {
    let mut outcome = case.run();
    if case.call == Call::Resume {
        let bytes = outcome.state.iter_mut().zip(&case.state);
        bytes.for_each(|(byte, old)| *byte |= old);
    }
    outcome
}

/// Only the bytes in which nodes are get written.
pub fn bytes_of_nodes_written(case: &Case) -> Outcome {
    let mut outcome = case.run();
    let written = bytes_of_nodes(case).min(case.state.len());
    outcome.state[written..].copy_from_slice(&case.state[written..]);
    outcome
}

/// Check 3 wants only the bytes in which nodes are.
pub fn bytes_of_nodes_suffice(case: &Case) -> Outcome {
    let lent = case.state.len();
    if lent < bytes_of_nodes(case) || lent >= STATE_BYTES {
        return case.run();
    }
    let mut whole = case.state.clone();
    whole.resize(STATE_BYTES, 0);
    let mut outcome = with_state(case, whole).run();
    outcome.state.truncate(lent);
    outcome
}

fn with_state(case: &Case, state: Vec<u8>) -> Case {
    Case {
        state,
        ..case.clone()
    }
}

fn bytes_of_nodes(case: &Case) -> usize {
    (case.table.len() / 2).div_ceil(8)
}
