//! Start sets by trial, request F-13: the statement of a node is started alone by the rules
//! of an instant, with every list of 12 answers, and the codes of these starts are gathered.
//! Nothing here looks at K; that the set found is K is for the tests to see.

use crate::instant::{start_alone, Code};
use crate::question::node_within;
use crate::table::{Statement, Tree};
use crate::{checks, Refusal};

/// The answers of each list.
pub const ANSWERS: usize = 12;

/// What is known when a node has been tried.
#[derive(Clone, Copy, Debug, PartialEq, Eq)]
pub struct Tried {
    /// The codes that the starts give.
    pub set: u64,
    /// The present statements in the node, its own included.
    pub presents: usize,
}

/// What a trial is made of.
#[derive(Clone, Copy)]
pub struct Rule {
    /// The number of presents in a node.
    pub presents: fn(&Tree, usize) -> usize,
    /// A node with more of them is not tried.
    pub most: usize,
    /// The codes that a node gives.
    pub codes: fn(&Tree, usize) -> u64,
}

/// By F-13.
pub const RULE: Rule = Rule {
    presents: presents_within,
    most: ANSWERS,
    codes: codes_of_starts,
};

/// The start set of a node of an accepted table, by starting it.
pub fn trial(table: &[u8], node: u64) -> Result<Tried, Refusal> {
    trial_by(&RULE, table, node)
}

/// The same by this rule.
pub fn trial_by(rule: &Rule, table: &[u8], node: u64) -> Result<Tried, Refusal> {
    let program = checks::accept(table, |_| true)?;
    let node = node_within(&program.tree, node)?;
    let presents = (rule.presents)(&program.tree, node);
    if presents > rule.most {
        return Err(Refusal::whole(22));
    }
    let set = (rule.codes)(&program.tree, node);
    Ok(Tried { set, presents })
}

/// A suspend is not counted: starting it takes no answer.
pub fn presents_within(tree: &Tree, node: usize) -> usize {
    let own = tree.statements[tree.lowest[node]..=node].iter();
    own.filter(|statement| matches!(statement, Statement::Present { .. }))
        .count()
}

/// A start comes to no present twice, so that the answers suffice.
fn codes_of_starts(tree: &Tree, node: usize) -> u64 {
    gathered(LISTS.iter().map(|list| {
        start_alone(tree, node, list).expect("no more answers are taken than there are presents")
    }))
}

/// All lists of answers: list i has bit k of i as its answer k. They are made once, as each
/// trial takes all of them.
pub static LISTS: [[u8; ANSWERS]; 1 << ANSWERS] = every_list();

const fn every_list() -> [[u8; ANSWERS]; 1 << ANSWERS] {
    let mut lists = [[0; ANSWERS]; 1 << ANSWERS];
    let mut number = 0;
    while number < lists.len() {
        let mut place = 0;
        while place < ANSWERS {
            lists[number][place] = (number >> place & 1) as u8;
            place += 1;
        }
        number += 1;
    }
    lists
}

/// The set of these codes.
pub fn gathered(codes: impl IntoIterator<Item = Code>) -> u64 {
    codes.into_iter().fold(0, |set, code| set | 1 << code)
}
