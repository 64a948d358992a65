//! The body of a loop, run alone with one list of answers or another.

use std::collections::VecDeque;

use super::programs::traps_around;
use crate::held::STATE_BYTES;
use crate::instant::{start_with_trail, Code, SIGNALS};
use crate::table;

/// The body within as many traps as are around its loop, so that all its exits have
/// theirs. The loops in it are sound.
pub struct Body {
    table: Vec<u8>,
    node: usize,
}

impl Body {
    /// The body of the loop that check 11 refuses.
    pub fn of(table: &[u8], node: usize) -> Body {
        let tree = table::read(table).expect("checks 4 to 7 come before 11");
        let (lowest, traps) = (tree.lowest[node], traps_around(&tree)[node]);
        Body {
            table: [&table[2 * lowest..2 * node], &[11, 0].repeat(traps)].concat(),
            node: node - 1 - lowest,
        }
    }

    /// Starts it: its code and the number of answers taken, or nothing if there are too
    /// few of them.
    pub fn run(&self, answers: &[u8]) -> Option<(Code, usize)> {
        let (state, emissions) = (&mut [0; STATE_BYTES], &mut [0; SIGNALS]);
        let started = start_with_trail(&self.table, answers, state, emissions);
        match started {
            Ok((closed, trail)) => {
                let entry = trail.iter().find(|entry| entry.node == self.node);
                Some((entry.expect("the body is started").code, closed.taken))
            }
            Err(refusal) => {
                assert_eq!(refusal.number, 13, "{:?}", self.table);
                None
            }
        }
    }

    /// Tries the lists that it can take, shorter ones first and these two ways to go on in
    /// this order, and hands back the first that ends it. With more runs than are allowed,
    /// or if no list ends it, there is none.
    pub fn first_ending(&self, order: [u8; 2], most_runs: usize) -> Option<Vec<u8>> {
        let mut lists = VecDeque::from([Vec::new()]);
        for _ in 0..most_runs {
            let list = lists.pop_front()?;
            match self.run(&list) {
                Some((0, _)) => return Some(list),
                Some(_) => {}
                // It needs one more answer.
                None => lists.extend(order.map(|answer| [&list[..], &[answer]].concat())),
            }
        }
        None
    }
}
