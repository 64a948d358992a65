//! States: their bytes, members, iteration and text.

mod common;

use std::collections::HashSet;

use bavzhrono::{State, MAX_NODES, STATE_BYTES};
use common::*;

/// The held nodes by the bits of the bytes, all one after the other.
fn by_bits(bytes: &[u8; STATE_BYTES]) -> Vec<usize> {
    let mut nodes = Vec::new();
    for (at, byte) in bytes.iter().enumerate() {
        for bit in 0..8 {
            if byte & 1 << bit != 0 {
                nodes.push(8 * at + bit);
            }
        }
    }
    nodes
}

/// Members, iteration from both ends, number and bytes of the state agree with its bits.
fn assert_holds_its_bits(bytes: [u8; STATE_BYTES]) {
    let state = State::from_bytes(bytes);
    let nodes = by_bits(&bytes);
    assert_eq!(state.held().collect::<Vec<_>>(), nodes);
    assert_eq!(state.into_iter().collect::<Vec<_>>(), nodes);
    let backwards: Vec<usize> = nodes.iter().copied().rev().collect();
    assert_eq!(state.held().rev().collect::<Vec<_>>(), backwards);
    assert_eq!(state.held().len(), nodes.len());
    assert_eq!(state.is_empty(), nodes.is_empty());
    let members = (0..2 * MAX_NODES).filter(|&node| state.is_held(node));
    assert_eq!(members.collect::<Vec<_>>(), nodes);
    assert_eq!(*state.as_bytes(), bytes);
    assert_eq!(<[u8; STATE_BYTES]>::from(state), bytes);
    assert_eq!(nodes.iter().copied().collect::<State>(), state);
    assert_eq!(backwards.into_iter().collect::<State>(), state);
}

#[test]
fn a_state_has_128_bytes_and_a_bit_for_each_node() {
    assert_eq!(STATE_BYTES, 128);
    assert_eq!(8 * STATE_BYTES, MAX_NODES);
    assert_eq!(size_of::<State>(), STATE_BYTES);
}

#[test]
fn nothing_is_held() {
    assert_holds_its_bits([0; STATE_BYTES]);
    assert!(State::EMPTY.is_empty());
    assert_eq!(State::default(), State::EMPTY);
    assert_eq!(State::from([0; STATE_BYTES]), State::EMPTY);
    assert_eq!([0; 0].into_iter().collect::<State>(), State::EMPTY);
    assert_eq!(State::EMPTY.to_string(), "{}");
}

#[test]
fn all_are_held() {
    let all = [0xff; STATE_BYTES];
    assert_holds_its_bits(all);
    assert!((0..MAX_NODES).eq(State::from_bytes(all).held()));
    assert_eq!((0..MAX_NODES).collect::<State>(), State::from_bytes(all));
}

#[test]
fn single_nodes_by_hand() {
    let places = [
        (0, 0, 0x01),
        (7, 0, 0x80),
        (8, 1, 0x01),
        (9, 1, 0x02),
        (15, 1, 0x80),
        (1016, 127, 0x01),
        (1023, 127, 0x80),
    ];
    for (node, at, byte) in places {
        let mut bytes = [0; STATE_BYTES];
        bytes[at] = byte;
        let state = State::from(bytes);
        assert_eq!(state, [node].into_iter().collect());
        assert!(state.held().eq([node]));
        assert!(state.is_held(node) && !state.is_empty());
    }
}

#[test]
fn each_single_node() {
    for node in 0..MAX_NODES {
        let state = holding(&[node]);
        assert_holds_its_bits(*state.as_bytes());
        assert!(state.held().eq([node]));
    }
}

#[test]
fn no_node_past_the_last_is_held() {
    let all = State::from_bytes([0xff; STATE_BYTES]);
    for node in [1024, 1025, 2048, usize::MAX] {
        assert!(!all.is_held(node));
    }
}

#[test]
#[should_panic(expected = "no program has a node 1024")]
fn a_node_past_the_last_cannot_be_held() {
    let _ = [1023, 1024].into_iter().collect::<State>();
}

#[test]
#[should_panic(expected = "no program has a node")]
fn nor_can_the_greatest_number() {
    State::default().extend([usize::MAX]);
}

#[test]
fn many_states_agree_with_their_bits() {
    let mut drawn = Drawn(11);
    for number in 0..2000 {
        // Bits that are rare, as many as not, or missing rarely.
        let bytes = [(); STATE_BYTES].map(|()| match number % 3 {
            0 if drawn.below(8) > 0 => 0,
            1 => !(1 << drawn.below(64).min(7)),
            _ => drawn.below(256) as u8,
        });
        assert_holds_its_bits(bytes);
    }
}

/// Taken from both ends in turns, the nodes meet: all come, and each once.
#[test]
fn both_ends_meet() {
    let mut drawn = Drawn(12);
    for number in 0..500 {
        let most = [4, 64, 1024][number % 3];
        let state: State = (0..drawn.below(most))
            .map(|_| drawn.below(MAX_NODES))
            .collect();
        let mut left = by_bits(state.as_bytes());
        let mut held = state.held();
        while !left.is_empty() {
            assert_eq!(held.len(), left.len());
            assert_eq!(held.size_hint(), (left.len(), Some(left.len())));
            if drawn.below(2) == 0 {
                assert_eq!(held.next(), Some(left.remove(0)));
            } else {
                assert_eq!(held.next_back(), left.pop());
            }
        }
        assert_eq!(held.len(), 0);
        assert_eq!((held.next(), held.next_back()), (None, None));
        assert_eq!((held.next(), held.next_back()), (None, None));
    }
}

#[test]
fn both_ends_meet_within_a_byte() {
    let mut held = holding(&[8, 9, 15]).held();
    assert_eq!((held.next_back(), held.next()), (Some(15), Some(8)));
    assert_eq!((held.next_back(), held.next()), (Some(9), None));
    assert_eq!(held.next_back(), None);
}

#[test]
fn an_iterator_that_is_cloned_goes_on_from_there() {
    let mut held = holding(&[3, 500, 1000]).held();
    held.next();
    let clone = held.clone();
    assert!(held.eq([500, 1000]));
    assert!(clone.rev().eq([1000, 500]));
}

#[test]
fn a_for_loop_takes_a_state_and_leaves_it() {
    let state = holding(&[1, 10, 100]);
    let mut sum = 0;
    for node in state {
        sum += node;
    }
    assert_eq!(sum, 111);
    assert_eq!(state, holding(&[1, 10, 100]));
}

#[test]
fn a_state_is_extended() {
    let mut state = holding(&[5]);
    state.extend([5, 1023, 0, 0]);
    assert_eq!(state, holding(&[0, 5, 1023]));
}

#[test]
fn bytes_are_read_into_a_state() {
    let mut state = holding(&[5]);
    state.as_mut_bytes().fill(0);
    state.as_mut_bytes()[1] = 0x02;
    assert_eq!(state, holding(&[9]));
}

#[test]
fn states_differ_in_a_bit() {
    let states: HashSet<State> = (0..MAX_NODES).map(|node| holding(&[node])).collect();
    assert_eq!(states.len(), MAX_NODES);
    assert!(!states.contains(&State::EMPTY));
    assert!(states.contains(&holding(&[1023])));
}

#[test]
fn states_as_text() {
    let state = holding(&[0, 9, 1023]);
    assert_eq!(state.to_string(), "{0, 9, 1023}");
    assert_eq!(format!("{state:?}"), "State({0, 9, 1023})");
    assert_eq!(format!("{:?}", State::EMPTY), "State({})");
}
