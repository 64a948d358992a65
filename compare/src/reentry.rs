//! What is entered again within an instant, told from the trail.

use crate::instant::{Entry, How};

/// The nodes that the trail has more than once, lowest first.
pub fn entered_twice(trail: &[Entry]) -> Vec<usize> {
    let mut nodes: Vec<usize> = trail.iter().map(|entry| entry.node).collect();
    nodes.sort_unstable();
    let mut twice: Vec<usize> = nodes
        .windows(2)
        .filter(|pair| pair[0] == pair[1])
        .map(|pair| pair[0])
        .collect();
    twice.dedup();
    twice
}

/// Whether each entry of a node after its first one is a start.
pub fn later_entries_are_starts(trail: &[Entry]) -> bool {
    // The program is entered first, and has the highest number.
    let nodes = trail.first().map_or(0, |program| program.node + 1);
    let mut met = vec![false; nodes];
    trail.iter().all(|entry| {
        let is_first = !std::mem::replace(&mut met[entry.node], true);
        is_first || entry.how == How::Started
    })
}
