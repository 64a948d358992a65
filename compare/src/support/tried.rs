//! Nodes to try, and how the generator writes them and their outcomes.

use super::nodes::{NOTHING, PAUSE, PRESENT};
use super::questions::{encoded, HUGE};
use super::random::Random;
use crate::by_trial::{presents_within, ANSWERS};
use crate::listing::refusal_line;
use crate::table::{Statement, Tree};
use crate::{checks, trial, Refusal, Tried};

#[derive(Clone, Debug, PartialEq, Eq, PartialOrd, Ord)]
pub struct Case {
    pub table: Vec<u8>,
    pub node: u64,
}

impl Case {
    pub fn new(table: &[u8], node: u64) -> Case {
        let table = table.to_vec();
        Case { table, node }
    }

    /// The program itself.
    pub fn whole(table: &[u8]) -> Case {
        Case::new(table, table.len() as u64 / 2 - 1)
    }

    /// The case as the input file holds it.
    pub fn encode(&self) -> Vec<u8> {
        encoded(&self.table, &[self.node])
    }

    pub fn run(&self) -> Result<Tried, Refusal> {
        trial(&self.table, self.node)
    }

    /// By K of the analysis, without a start; the presents are found from the node down.
    pub fn by_start_sets(&self) -> Result<Tried, Refusal> {
        let program = checks::accept(&self.table, |_| true)?;
        if self.node >= program.tree.size() as u64 {
            return Err(Refusal::whole(21));
        }
        let node = self.node as usize;
        let presents = presents_from(&program.tree, node);
        if presents > ANSWERS {
            return Err(Refusal::whole(22));
        }
        let set = program.start_sets[node];
        Ok(Tried { set, presents })
    }
}

/// The presents in a statement: its nodes are gone through from its own down, until each has
/// its children.
fn presents_from(tree: &Tree, node: usize) -> usize {
    let (mut missing, mut presents) = (1, 0);
    for statement in tree.statements[..=node].iter().rev() {
        if missing == 0 {
            break;
        }
        missing -= 1;
        match statement {
            Statement::Present { .. } => {
                presents += 1;
                missing += 2;
            }
            Statement::Sequence { .. } | Statement::Parallel { .. } => missing += 2,
            Statement::Signal { .. }
            | Statement::Suspend { .. }
            | Statement::Loop { .. }
            | Statement::Trap { .. } => missing += 1,
            _ => {}
        }
    }
    presents
}

/// An outcome as a line of the expected output.
pub fn line(outcome: &Result<Tried, Refusal>) -> String {
    match *outcome {
        Ok(Tried { set, presents }) => format!("tried {set} {presents}\n"),
        Err(refusal) => refusal_line(refusal),
    }
}

/// Every node of a table.
pub fn every_node(table: &[u8]) -> impl Iterator<Item = u64> {
    0..table.len() as u64 / 2
}

/// A node of an accepted table: now and then one outside, one of the last, which may have too
/// many presents, or any; mostly one with many presents of those that can be tried.
pub fn any_node(random: &mut Random, table: &[u8]) -> u64 {
    let size = table.len() / 2;
    match random.below(20) {
        0 => (size + random.below(3)) as u64,
        1 => *random.pick(&HUGE),
        2..6 => size.saturating_sub(1 + random.below(3)) as u64,
        6..10 => random.below(size) as u64,
        _ => with_many_presents(random, table) as u64,
    }
}

/// Of some nodes that are drawn, the one with the most presents that can be tried.
fn with_many_presents(random: &mut Random, table: &[u8]) -> usize {
    let program = checks::accept(table, |_| true).expect("an accepted table");
    let drawn = (0..12).map(|_| random.below(program.tree.size()));
    let presents = |&node: &usize| match presents_within(&program.tree, node) {
        presents if presents <= ANSWERS => presents,
        _ => 0,
    };
    drawn.max_by_key(presents).expect("some are drawn")
}

/// The accepted table with at most so many presents: parallels and sequences take the places
/// of the others. These give no code that the present would not, so that the table is still
/// accepted.
pub fn with_few_presents(random: &mut Random, table: &[u8], most: usize) -> Vec<u8> {
    let mut table = table.to_vec();
    let nodes = table.chunks_exact_mut(2);
    let mut presents: Vec<&mut [u8]> = nodes.filter(|node| node[0] == 6).collect();
    random.shuffle(&mut presents);
    for present in presents.into_iter().skip(most) {
        present.copy_from_slice(&[*random.pick(&[9, 10]), 0]);
    }
    table
}

/// The statement in a test whose other branch ends.
pub fn as_then(statement: &[u8]) -> Vec<u8> {
    [statement, NOTHING, PRESENT].concat()
}

pub fn as_else(statement: &[u8]) -> Vec<u8> {
    [NOTHING, statement, PRESENT].concat()
}

/// A pause within as many tests as there are answers: these come to it, and all others end.
pub fn pause_by(answers: &[u8]) -> Vec<u8> {
    let from_within = answers.iter().rev();
    from_within.fold(PAUSE.to_vec(), |inner, &answer| match answer {
        0 => as_else(&inner),
        _ => as_then(&inner),
    })
}
