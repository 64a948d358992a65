//! A statement started alone at its place, with one list of answers or with all of them, by
//! the rules of an instant.

use std::collections::VecDeque;

use crate::checks;
use crate::first_tick::{most_by_code, Most};
use crate::held::STATE_BYTES;
use crate::instant::{start_with_trail, Closed, SIGNALS};

/// A start with the list of answers that it takes in full.
pub type Start = (Vec<u8>, Closed);

/// The statement within as many traps as are around it in its program, so that all its
/// exits have theirs.
pub struct Alone {
    table: Vec<u8>,
    node: usize,
    traps: usize,
}

impl Alone {
    /// A node of an accepted program.
    pub fn of(table: &[u8], node: usize) -> Alone {
        let program = checks::accept(table, |_| true).expect("an accepted table");
        let (lowest, traps) = (program.tree.lowest[node], program.around.traps[node]);
        let own = &table[2 * lowest..2 * (node + 1)];
        Alone {
            table: [own, &[11, 0].repeat(traps)].concat(),
            node: node - lowest,
            traps,
        }
    }

    /// The accepted program itself.
    pub fn whole(table: &[u8]) -> Alone {
        Alone::of(table, table.len() / 2 - 1)
    }

    /// The code, answers and entries of the statement, or nothing if there are too few
    /// answers.
    pub fn start(&self, answers: &[u8]) -> Option<Closed> {
        let (state, emissions) = (&mut [0; STATE_BYTES], &mut [0; SIGNALS]);
        match start_with_trail(&self.table, answers, state, emissions) {
            Ok((closed, trail)) => {
                // The traps are entered first, and they add no other entry.
                let own = trail[self.traps];
                assert_eq!(own.node, self.node, "{:?}", self.table);
                let entries = closed.entries - self.traps;
                Some(Closed::new(own.code, closed.taken, entries))
            }
            Err(refusal) => {
                assert_eq!(refusal.number, 13, "{:?}", self.table);
                None
            }
        }
    }

    /// Its starts with all lists of 0 and 1 that are taken in full, shorter ones first.
    /// Those with more answers are the same. There is none if there would be more runs than
    /// are allowed.
    pub fn every_start(&self, most_runs: usize) -> Option<Vec<Start>> {
        let mut starts = Vec::new();
        let mut lists = VecDeque::from([Vec::new()]);
        for _ in 0..most_runs {
            let Some(list) = lists.pop_front() else {
                return Some(starts);
            };
            match self.start(&list) {
                Some(closed) => starts.push((list, closed)),
                // It needs one more answer.
                None => lists.extend([0, 1].map(|answer| [&list[..], &[answer]].concat())),
            }
        }
        lists.is_empty().then_some(starts)
    }
}

/// The greatest number of entries of these starts, for each code.
pub fn most_of_starts(starts: &[Start]) -> Most {
    most_by_code(
        starts
            .iter()
            .map(|(_, closed)| (closed.code, closed.entries)),
    )
}

/// The greatest number of entries of them all.
pub fn greatest_of_starts(starts: &[Start]) -> usize {
    let entries = starts.iter().map(|(_, closed)| closed.entries);
    entries.max().expect("some answers close a start")
}
