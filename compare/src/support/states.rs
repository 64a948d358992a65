//! States to resume from, as lists of the nodes that are held, lowest first.

use super::random::Random;
use crate::held::{held_nodes, Held, STATE_BYTES, STATE_NODES};
use crate::instant::admitted;
use crate::table::{Statement, Tree};

/// The nodes that are pauses.
pub fn pauses(tree: &Tree) -> Vec<usize> {
    (0..tree.size())
        .filter(|&node| tree.statements[node] == Statement::Pause)
        .collect()
}

/// Every admitted state, for programs of few pauses.
pub fn all_admitted(tree: &Tree) -> Vec<Vec<usize>> {
    let pauses = pauses(tree);
    let subset = |number: u64| {
        let places = (0..pauses.len()).filter(move |place| number >> place & 1 == 1);
        places.map(|place| pauses[place]).collect()
    };
    let states = (1..1 << pauses.len()).map(subset);
    states
        .filter(|held: &Vec<usize>| is_admitted(tree, held))
        .collect()
}

pub fn is_admitted(tree: &Tree, held: &[usize]) -> bool {
    admitted(tree, &Held::of(held))
}

/// A random admitted state, or none for a program without a pause.
pub fn random_admitted(random: &mut Random, tree: &Tree) -> Option<Vec<usize>> {
    if !has_pause(tree, tree.root()) {
        return None;
    }
    let mut held = Vec::new();
    hold(random, tree, tree.root(), &mut held);
    Some(held)
}

fn has_pause(tree: &Tree, node: usize) -> bool {
    tree.statements[tree.lowest[node]..=node].contains(&Statement::Pause)
}

/// Holds at least one pause within a statement that has one.
fn hold(random: &mut Random, tree: &Tree, node: usize, held: &mut Vec<usize>) {
    match tree.statements[node] {
        Statement::Nothing | Statement::Emit { .. } | Statement::Exit { .. } => {}
        Statement::Pause => held.push(node),
        Statement::Signal { body }
        | Statement::Suspend { body }
        | Statement::Loop { body }
        | Statement::Trap { body } => hold(random, tree, body, held),
        Statement::Present {
            then: one,
            otherwise: other,
        }
        | Statement::Sequence {
            first: one,
            second: other,
        } => {
            let one_is_free = has_pause(tree, one);
            let other_is_free = has_pause(tree, other);
            if one_is_free && (!other_is_free || random.one_in(2)) {
                hold(random, tree, one, held);
            } else {
                hold(random, tree, other, held);
            }
        }
        Statement::Parallel { left, right } => {
            let branches: Vec<usize> = [left, right]
                .into_iter()
                .filter(|&branch| has_pause(tree, branch))
                .collect();
            if branches.len() == 2 && random.one_in(3) {
                let chosen = random.below(2);
                hold(random, tree, branches[chosen], held);
            } else {
                for branch in branches {
                    hold(random, tree, branch, held);
                }
            }
        }
    }
}

/// Spoils an admitted state, or none if that doesn't succeed.
pub fn inadmissible(random: &mut Random, tree: &Tree, held: &[usize]) -> Option<Vec<usize>> {
    let bad = match random.below(6) {
        0 => Vec::new(),
        1 => with_one_more(held, random.below(tree.size())),
        2 => with_one_more(held, random.between(tree.size() - 1, STATE_NODES - 1)),
        3 => pauses(tree),
        4 => (0..*random.pick(&[tree.size(), STATE_NODES])).collect(),
        _ => held_nodes(&random.bytes(STATE_BYTES)),
    };
    (!is_admitted(tree, &bad)).then_some(bad)
}

/// The state with one more node held, if it is not held already.
pub fn with_one_more(held: &[usize], node: usize) -> Vec<usize> {
    let mut more = Held::of(held);
    more.hold(node);
    more.nodes().collect()
}
