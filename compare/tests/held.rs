//! The bits of a held state, against the sentence of F-11 and against a list of flags.

use std::ops::Range;

use compare::held::STATE_NODES;
use compare::support::random::Random;
use compare::support::SEED;
use compare::{held_nodes, packed, Held, STATE_BYTES};

/// Node i at bit i modulo 8, lowest first, of byte i divided by 8.
fn is_held(state: &[u8], node: usize) -> bool {
    state[node / 8] / 2u8.pow(node as u32 % 8) % 2 == 1
}

fn random_state(random: &mut Random) -> [u8; STATE_BYTES] {
    let mut state = [0; STATE_BYTES];
    for byte in &mut state {
        let any = random.byte();
        *byte = *random.pick(&[0, any, 255]);
    }
    state
}

#[test]
fn the_first_and_the_last_bits() {
    let mut state = [0; STATE_BYTES];
    state[0] = 0b1000_0001;
    state[1] = 0b0000_0010;
    state[127] = 0b1100_0000;
    assert_eq!(packed(&[0, 7, 9, 1022, 1023]), state);
    assert_eq!(held_nodes(&state), [0, 7, 9, 1022, 1023]);
}

#[test]
fn each_node_has_a_bit_of_its_own() {
    for node in 0..STATE_NODES {
        let state = packed(&[node]);
        let held: Vec<usize> = (0..STATE_NODES).filter(|&at| is_held(&state, at)).collect();
        assert_eq!(held, [node]);
        assert_eq!(held_nodes(&state), [node]);
    }
}

#[test]
fn any_bytes_are_a_list_and_come_back() {
    let random = &mut Random::new(SEED);
    let mut states: Vec<_> = (0..300).map(|_| random_state(random)).collect();
    states.extend([[0; STATE_BYTES], [255; STATE_BYTES]]);
    for state in states {
        let nodes = held_nodes(&state);
        let held: Vec<usize> = (0..STATE_NODES).filter(|&at| is_held(&state, at)).collect();
        assert_eq!(nodes, held);
        assert_eq!(packed(&nodes), state);
        assert_eq!(Held::read(&state).bytes(), state);
        assert_eq!(Held::read(&state).is_empty(), nodes.is_empty());
        let longer = [&state[..], &random.bytes(9)].concat();
        assert_eq!(held_nodes(&longer), nodes);
    }
}

#[test]
fn single_nodes_are_held_and_let_go() {
    let random = &mut Random::new(SEED);
    let mut held = Held::default();
    let mut flags = [false; STATE_NODES];
    for _ in 0..20_000 {
        let node = random.below(STATE_NODES);
        flags[node] = random.one_in(2);
        match flags[node] {
            true => held.hold(node),
            false => held.let_go(node),
        }
        assert_eq!(held.has(node), flags[node]);
    }
    let nodes: Vec<usize> = held.nodes().collect();
    let flagged: Vec<usize> = (0..STATE_NODES).filter(|&node| flags[node]).collect();
    assert_eq!(nodes, flagged);
}

/// All that begin and end near the end of a word, and empty ones.
fn ranges() -> Vec<Range<usize>> {
    let near = |at: &usize| at % 64 < 3 || at % 64 > 61 || at % 64 == 30;
    let ends: Vec<usize> = (0..=STATE_NODES).filter(near).collect();
    let from = |&start: &usize| ends.iter().map(move |&end| start..end);
    let all = ends.iter().flat_map(from);
    all.filter(|range| range.start <= range.end).collect()
}

#[test]
fn runs_of_nodes() {
    let random = &mut Random::new(SEED);
    let states = [[0; STATE_BYTES], [255; STATE_BYTES], random_state(random)];
    for range in ranges() {
        let own: Vec<usize> = range.clone().collect();
        assert_eq!(Held::of(&own).holds_any(range.clone()), !own.is_empty());
        for state in &states {
            let held = Held::read(state);
            let any = own.iter().any(|&node| held.has(node));
            assert_eq!(held.holds_any(range.clone()), any, "{range:?}");
            let mut others = held;
            others.let_go_all(range.clone());
            let mut expected = held;
            own.iter().for_each(|&node| expected.let_go(node));
            assert_eq!(others, expected, "{range:?}");
        }
        // All others are held, and it is not looked at them.
        let mut around = Held::read(&[255; STATE_BYTES]);
        around.let_go_all(range.clone());
        assert!(!around.holds_any(range));
    }
}

#[test]
fn one_state_within_another() {
    let random = &mut Random::new(SEED);
    for _ in 0..2000 {
        let outer = Held::read(&random_state(random));
        let mut inner = outer;
        inner.let_go_all(random.below(500)..500 + random.below(500));
        assert!(inner.is_within(&outer));
        assert_eq!(outer.is_within(&inner), outer == inner);
        let further = random.below(STATE_NODES);
        inner.hold(further);
        assert_eq!(inner.is_within(&outer), outer.has(further));
    }
}
