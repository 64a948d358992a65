//! One question, few nodes, request F-12: whether a code is in the start set of a node.
//!
//! A statement that is asked replies by itself, or passes the question on. Whatever it
//! passes on has the statement's own answer, and of two children the second is asked only
//! if the first one says no. So the open questions are a list that is gone through until
//! one reply is yes. Of a node nothing is known but by looking at it, which is noted: the
//! count is the number of nodes that were looked at, each of them once.

use crate::sets::start_set;
use crate::table::{Statement, Tree};
use crate::{checks, Refusal};

/// A set has no code above this.
pub const LAST_CODE: u64 = 63;

const ENDED: u64 = 0;
const PAUSED: u64 = 1;

/// What is known when a question has been answered.
#[derive(Clone, Copy, Debug, PartialEq, Eq)]
pub struct Known {
    /// Whether the code is in the node's start set.
    pub is_in: bool,
    /// The nodes looked at.
    pub count: usize,
}

/// Whether the code is in the start set of the node, for an accepted table.
pub fn ask(table: &[u8], node: u64, code: u64) -> Result<Known, Refusal> {
    ask_by(reply, table, node, code)
}

/// The same, where statements reply by this rule.
pub fn ask_by(rule: Rule, table: &[u8], node: u64, code: u64) -> Result<Known, Refusal> {
    let program = checks::accept(table, |_| true)?;
    let node = node_within(&program.tree, node)?;
    let mut looking = Looking::new(&program.tree);
    let is_in = looking.ask(rule, node, code);
    let count = looking.nodes().count();
    Ok(Known { is_in, count })
}

/// Check 21.
pub fn node_within(tree: &Tree, node: u64) -> Result<usize, Refusal> {
    let node = usize::try_from(node).ok();
    node.filter(|&node| node < tree.size())
        .ok_or(Refusal::whole(21))
}

/// A statement's reply to a question.
pub enum Reply {
    Yes,
    No,
    /// It asks this child for this code.
    Ask(usize, u64),
    /// It asks these children for the code, the second one only if the first says no.
    AskBoth([usize; 2]),
}

impl From<bool> for Reply {
    fn from(has_code: bool) -> Reply {
        match has_code {
            true => Reply::Yes,
            false => Reply::No,
        }
    }
}

/// How the statement of a node replies when it is asked for a code up to the last one.
pub type Rule = fn(&mut Looking, usize, u64) -> Reply;

/// The nodes of a program, and which of them have been looked at.
pub struct Looking<'a> {
    tree: &'a Tree,
    looked_at: Vec<bool>,
}

impl<'a> Looking<'a> {
    pub fn new(tree: &'a Tree) -> Looking<'a> {
        Looking {
            tree,
            looked_at: vec![false; tree.size()],
        }
    }

    pub fn tree(&self) -> &'a Tree {
        self.tree
    }

    /// Those that have been looked at.
    pub fn nodes(&self) -> impl Iterator<Item = usize> + '_ {
        (0..self.tree.size()).filter(|&node| self.looked_at[node])
    }

    pub fn look(&mut self, node: usize) -> Statement {
        self.looked_at[node] = true;
        self.tree.statements[node]
    }

    /// The answer to a question, and to all that it is passed on as.
    pub fn ask(&mut self, rule: Rule, node: usize, code: u64) -> bool {
        // The next one is the last.
        let mut open = vec![(node, code)];
        while let Some((node, code)) = open.pop() {
            if code > LAST_CODE {
                // It is in no set, and nothing is looked at for it.
                continue;
            }
            match rule(self, node, code) {
                Reply::Yes => return true,
                Reply::No => {}
                Reply::Ask(child, passed_on) => open.push((child, passed_on)),
                Reply::AskBoth([first, second]) => open.extend([(second, code), (first, code)]),
            }
        }
        false
    }

    /// The start set of a statement, all of whose nodes are looked at.
    pub fn whole(&mut self, node: usize) -> u64 {
        let lowest = self.tree.lowest[node];
        let mut sets = Vec::new();
        for own in lowest..=node {
            let statement = self.look(own);
            sets.push(start_set(statement, |child| sets[child - lowest]));
        }
        sets[node - lowest]
    }
}

/// By F-12.
pub fn reply(looking: &mut Looking, node: usize, code: u64) -> Reply {
    match looking.look(node) {
        Statement::Signal { body } | Statement::Suspend { body } => Reply::Ask(body, code),
        Statement::Loop { body } => match code {
            ENDED => Reply::No,
            _ => Reply::Ask(body, code),
        },
        Statement::Trap { body } => match code {
            ENDED => has(looking.whole(node), ENDED).into(),
            PAUSED => Reply::Ask(body, PAUSED),
            further_out => Reply::Ask(body, further_out + 1),
        },
        Statement::Present { then, otherwise } => Reply::AskBoth([then, otherwise]),
        Statement::Sequence { first, second } => sequence(looking.whole(first), second, code),
        // Of a statement without children there is no other node.
        Statement::Parallel { .. }
        | Statement::Nothing
        | Statement::Pause
        | Statement::Emit { .. }
        | Statement::Exit { .. } => has(looking.whole(node), code).into(),
    }
}

/// The first child's set is known.
fn sequence(first: u64, second: usize, code: u64) -> Reply {
    if code != ENDED && has(first, code) {
        Reply::Yes
    } else if has(first, ENDED) {
        Reply::Ask(second, code)
    } else {
        Reply::No
    }
}

pub fn has(set: u64, code: u64) -> bool {
    set >> code & 1 == 1
}
