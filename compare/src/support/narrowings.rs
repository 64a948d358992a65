//! Calls for narrowed start sets, and how the generator writes them and their outcomes.

use super::block_calls::refused_line;
use crate::{narrow, Refusal};

/// A case of the generator has no more bytes of table and ties, and no more lent sets.
pub const MOST_TABLE: usize = 2060;
pub const MOST_TIES: usize = 300;
pub const MOST_SETS: usize = 1100;

#[derive(Clone, Debug, PartialEq, Eq)]
pub struct Case {
    pub table: Vec<u8>,
    pub ties: Vec<u8>,
    /// The number of lent sets.
    pub lent: usize,
}

impl Case {
    /// With this many more sets than there are nodes.
    pub fn new(table: &[u8], ties: &[u8], more: usize) -> Case {
        Case {
            table: table.to_vec(),
            ties: ties.to_vec(),
            lent: table.len() / 2 + more,
        }
    }

    /// The case as the input file holds it.
    pub fn encode(&self) -> Vec<u8> {
        let lengths = [
            (self.table.len(), MOST_TABLE),
            (self.ties.len(), MOST_TIES),
            (self.lent, MOST_SETS),
        ];
        let lengths = lengths.map(|(length, most)| {
            assert!(length <= most, "{length} is more than {most}");
            (length as u16).to_le_bytes()
        });
        [lengths.as_flattened(), &self.table, &self.ties].concat()
    }

    /// The lent sets before the call.
    pub fn sets(&self) -> Vec<u64> {
        (0..self.lent as u64).map(|at| u64::MAX - at).collect()
    }

    /// Makes the call: the sets, where those past the nodes, or after a refusal all, must
    /// be as they were.
    pub fn run(&self) -> Result<Vec<u64>, Refusal> {
        let before = self.sets();
        let mut sets = before.clone();
        let answer = narrow(&self.table, &self.ties, &mut sets);
        let written = answer.unwrap_or(0);
        assert_eq!(sets[written..], before[written..], "{self:?}");
        sets.truncate(written);
        answer.map(|_| sets)
    }
}

/// An outcome as a line of the expected output.
pub fn line(outcome: &Result<Vec<u64>, Refusal>) -> String {
    match outcome {
        Ok(sets) => {
            let words: String = sets.iter().map(|set| format!(" {set}")).collect();
            format!("done {}{words} =\n", sets.len())
        }
        Err(refusal) => refused_line(*refusal),
    }
}
