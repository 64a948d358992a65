//! How the nodes of a table belong together, for what is worked out slowly and apart from
//! the fast ways.

use std::iter::successors;

pub struct Links {
    pub children: Vec<Vec<usize>>,
    /// The parent of each node; the program has none.
    pub parents: Vec<Option<usize>>,
}

impl Links {
    /// Reads a table that is known to be accepted.
    pub fn of(table: &[u8]) -> Links {
        let mut children = Vec::new();
        let mut parents = vec![None; table.len() / 2];
        let mut unused: Vec<usize> = Vec::new();
        for (node, bytes) in table.chunks_exact(2).enumerate() {
            let count = match bytes[0] {
                1..=4 => 0,
                6 | 9 | 10 => 2,
                _ => 1,
            };
            let own = unused.split_off(unused.len() - count);
            for &child in &own {
                parents[child] = Some(node);
            }
            children.push(own);
            unused.push(node);
        }
        Links { children, parents }
    }

    /// Whether a node is the statement or stands within it.
    pub fn is_within(&self, node: usize, statement: usize) -> bool {
        self.path(node).any(|around| around == statement)
    }

    /// The node, its parent, and so on up to the program.
    pub fn path(&self, node: usize) -> impl Iterator<Item = usize> + '_ {
        successors(Some(node), |&node| self.parents[node])
    }
}
