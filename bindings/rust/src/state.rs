use std::fmt;
use std::iter::FusedIterator;

use crate::{MAX_NODES, STATE_BYTES};

/// The pauses that a program holds between two instants, as bits.
///
/// There are [`STATE_BYTES`] bytes, whatever the program. Node i has bit i modulo 8, the lowest
/// first, of byte i divided by 8: it is 1 if the node is a pause that is held, and else 0. The bytes
/// are the same on every machine: they can be stored and made a state again as they are.
///
/// Any bytes are a state here. Whether a program admits it, is found by [`resume`](crate::resume).
/// Which program it is of, it does not say: what is stored beside it, or who stores it, has to.
///
/// ```
/// use bavzhrono::State;
///
/// let state: State = [0, 9].into_iter().collect();
/// assert_eq!(state.as_bytes()[..3], [0x01, 0x02, 0x00]);
/// assert!(state.is_held(9) && !state.is_held(8));
/// assert_eq!(state.held().collect::<Vec<_>>(), [0, 9]);
/// assert_eq!(state.to_string(), "{0, 9}");
/// ```
#[derive(Clone, Copy, PartialEq, Eq, Hash)]
pub struct State([u8; STATE_BYTES]);

impl State {
    /// The state in which nothing is held: that of a program that has ended.
    pub const EMPTY: State = State([0; STATE_BYTES]);

    /// The state of these bytes.
    pub const fn from_bytes(bytes: [u8; STATE_BYTES]) -> State {
        State(bytes)
    }

    /// The bytes, to be stored.
    pub const fn as_bytes(&self) -> &[u8; STATE_BYTES] {
        &self.0
    }

    /// The bytes, to be read into.
    pub fn as_mut_bytes(&mut self) -> &mut [u8; STATE_BYTES] {
        &mut self.0
    }

    /// Whether the node is held. No node from 1,024 on is.
    pub fn is_held(&self, node: usize) -> bool {
        let byte = self.0.get(node / 8).copied().unwrap_or(0);
        byte >> (node % 8) & 1 == 1
    }

    /// Whether nothing is held.
    pub fn is_empty(&self) -> bool {
        *self == State::EMPTY
    }

    /// The held nodes, in ascending order.
    pub fn held(&self) -> Held {
        let left = self.0.iter().map(|byte| byte.count_ones() as usize).sum();
        Held {
            rest: *self,
            front: 0,
            back: STATE_BYTES - 1,
            left,
        }
    }
}

/// Nothing is held.
impl Default for State {
    fn default() -> State {
        State::EMPTY
    }
}

impl From<[u8; STATE_BYTES]> for State {
    fn from(bytes: [u8; STATE_BYTES]) -> State {
        State::from_bytes(bytes)
    }
}

impl From<State> for [u8; STATE_BYTES] {
    fn from(state: State) -> [u8; STATE_BYTES] {
        state.0
    }
}

/// Written as `{0, 9}`.
impl fmt::Display for State {
    fn fmt(&self, f: &mut fmt::Formatter<'_>) -> fmt::Result {
        f.debug_set().entries(self.held()).finish()
    }
}

/// Written as `State({0, 9})`: the nodes say as much as the bytes, and are fewer.
impl fmt::Debug for State {
    fn fmt(&self, f: &mut fmt::Formatter<'_>) -> fmt::Result {
        write!(f, "State({self})")
    }
}

/// The state that holds these nodes, in any order.
///
/// # Panics
///
/// On a node from 1,024 on, which no program has.
impl FromIterator<usize> for State {
    fn from_iter<I: IntoIterator<Item = usize>>(nodes: I) -> State {
        let mut state = State::EMPTY;
        state.extend(nodes);
        state
    }
}

/// Holds these nodes, too.
///
/// # Panics
///
/// On a node from 1,024 on, which no program has.
impl Extend<usize> for State {
    fn extend<I: IntoIterator<Item = usize>>(&mut self, nodes: I) {
        for node in nodes {
            assert!(node < MAX_NODES, "no program has a node {node}");
            self.0[node / 8] |= 1 << (node % 8);
        }
    }
}

impl IntoIterator for State {
    type Item = usize;
    type IntoIter = Held;

    fn into_iter(self) -> Held {
        self.held()
    }
}

/// The held nodes of a [`State`], in ascending order.
#[derive(Clone, Debug)]
pub struct Held {
    /// The bits that have not come yet, in the bytes from `front` to `back`.
    rest: State,
    front: usize,
    back: usize,
    /// Their number. While there are any, the search for a byte that is not 0 finds one.
    left: usize,
}

impl Iterator for Held {
    type Item = usize;

    fn next(&mut self) -> Option<usize> {
        self.left = self.left.checked_sub(1)?;
        while self.rest.0[self.front] == 0 {
            self.front += 1;
        }
        let byte = &mut self.rest.0[self.front];
        let lowest = byte.trailing_zeros();
        *byte &= *byte - 1;
        Some(8 * self.front + lowest as usize)
    }

    fn size_hint(&self) -> (usize, Option<usize>) {
        (self.left, Some(self.left))
    }
}

impl DoubleEndedIterator for Held {
    fn next_back(&mut self) -> Option<usize> {
        self.left = self.left.checked_sub(1)?;
        while self.rest.0[self.back] == 0 {
            self.back -= 1;
        }
        let byte = &mut self.rest.0[self.back];
        let highest = byte.ilog2();
        *byte &= !(1 << highest);
        Some(8 * self.back + highest as usize)
    }
}

impl ExactSizeIterator for Held {}

impl FusedIterator for Held {}
