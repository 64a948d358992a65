//! The held pauses of a program as bits, F-11: a set of node numbers in 128 bytes. Node i is
//! bit i modulo 8, lowest first, of byte i divided by 8.
//!
//! Eight bytes are taken as a word, the first of them lowest, so that node i is bit i modulo
//! 64 of word i divided by 64. Any 128 bytes are such a set; whether it is one to resume from
//! is for check 12 to say.

use std::iter::successors;
use std::ops::Range;

/// The bytes of a held state.
pub const STATE_BYTES: usize = 128;

/// The nodes that it has bits for.
pub const STATE_NODES: usize = 8 * STATE_BYTES;

const WORD_BYTES: usize = 8;
const WORD_BITS: usize = 64;
const WORDS: usize = STATE_BYTES / WORD_BYTES;

/// A set of nodes below `STATE_NODES`.
#[derive(Clone, Copy, Debug, Default, PartialEq, Eq, Hash)]
pub struct Held {
    words: [u64; WORDS],
}

/// The packed state that holds these nodes.
pub fn packed(nodes: &[usize]) -> [u8; STATE_BYTES] {
    Held::of(nodes).bytes()
}

/// The nodes that a packed state holds, lowest first. Of a longer buffer the first 128 bytes
/// count.
pub fn held_nodes(state: &[u8]) -> Vec<usize> {
    Held::read(state).nodes().collect()
}

impl Held {
    pub fn of(nodes: &[usize]) -> Held {
        let mut held = Held::default();
        nodes.iter().for_each(|&node| held.hold(node));
        held
    }

    /// Reads the first 128 bytes.
    pub fn read(state: &[u8]) -> Held {
        let mut words = [0; WORDS];
        let bytes = state[..STATE_BYTES].chunks_exact(WORD_BYTES);
        for (word, bytes) in words.iter_mut().zip(bytes) {
            *word = u64::from_le_bytes(bytes.try_into().expect("the bytes of a word"));
        }
        Held { words }
    }

    pub fn bytes(&self) -> [u8; STATE_BYTES] {
        let mut state = [0; STATE_BYTES];
        let bytes = state.chunks_exact_mut(WORD_BYTES);
        for (bytes, word) in bytes.zip(self.words) {
            bytes.copy_from_slice(&word.to_le_bytes());
        }
        state
    }

    /// Lowest first.
    pub fn nodes(&self) -> impl Iterator<Item = usize> + '_ {
        let words = self.words.iter().enumerate();
        words.flat_map(|(at, &word)| places(word).map(move |place| at * WORD_BITS + place))
    }

    pub fn has(&self, node: usize) -> bool {
        self.words[node / WORD_BITS] & bit(node) != 0
    }

    pub fn hold(&mut self, node: usize) {
        self.words[node / WORD_BITS] |= bit(node);
    }

    pub fn let_go(&mut self, node: usize) {
        self.words[node / WORD_BITS] &= !bit(node);
    }

    pub fn is_empty(&self) -> bool {
        self.words == [0; WORDS]
    }

    /// Whether all that is held is held by the other too.
    pub fn is_within(&self, other: &Held) -> bool {
        let mut words = self.words.iter().zip(other.words);
        words.all(|(word, other)| word & !other == 0)
    }

    /// Whether any of these nodes is held.
    pub fn holds_any(&self, nodes: Range<usize>) -> bool {
        parts(nodes).any(|(word, bits)| self.words[word] & bits != 0)
    }

    pub fn let_go_all(&mut self, nodes: Range<usize>) {
        parts(nodes).for_each(|(word, bits)| self.words[word] &= !bits);
    }
}

/// The bit of a node in its word.
fn bit(node: usize) -> u64 {
    1 << (node % WORD_BITS)
}

/// The places of the bits of a word that are 1, lowest first.
fn places(word: u64) -> impl Iterator<Item = usize> {
    let fewer = |&bits: &u64| (bits != 0).then(|| bits & (bits - 1));
    let rests = successors(Some(word), fewer).take_while(|&bits| bits != 0);
    rests.map(|bits| bits.trailing_zeros() as usize)
}

/// The words in which these nodes are, each with their bits in it.
fn parts(nodes: Range<usize>) -> impl Iterator<Item = (usize, u64)> {
    let Range { start, end } = nodes;
    (start / WORD_BITS..end.div_ceil(WORD_BITS)).map(move |word| {
        let first = word * WORD_BITS;
        let from = u64::MAX << start.saturating_sub(first);
        let beyond = (first + WORD_BITS).saturating_sub(end);
        (word, from & u64::MAX >> beyond)
    })
}
