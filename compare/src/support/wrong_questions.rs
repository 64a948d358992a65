//! Answers and counts by wrong rules, which the sentences of F-12 must tell from the right
//! ones.

use crate::checks;
use crate::question::{ask_by, has, node_within, reply, Looking, Reply, Rule, LAST_CODE};
use crate::table::Statement;
use crate::{ask, Known, Refusal};

#[derive(Clone, Copy)]
pub enum Wrong {
    /// Statements reply by another rule.
    Replies(Rule),
    /// Of the same replies comes another answer, count or refusal.
    Outcome(fn(&[u8], u64, u64) -> Result<Known, Refusal>),
}

use Wrong::{Outcome, Replies};

impl Wrong {
    pub fn ask(self, table: &[u8], node: u64, code: u64) -> Result<Known, Refusal> {
        match self {
            Replies(rule) => ask_by(rule, table, node, code),
            Outcome(ask) => ask(table, node, code),
        }
    }
}

pub const RULES: [(&str, Wrong); 21] = [
    ("every node of the statement", Outcome(whole_statement)),
    ("every node of the table", Outcome(whole_table)),
    ("the node asked not counted", Outcome(others_alone)),
    ("both branches asked", Replies(both_branches)),
    ("the else branch first", Replies(else_first)),
    ("the second though the first lacks 0", Replies(without_end)),
    ("the second though it is found", Replies(though_found)),
    ("every node of the second", Replies(whole_second)),
    ("the first asked", Replies(first_asked)),
    ("the end of the first", Replies(end_of_first)),
    ("2 passed as 2", Replies(two_as_two)),
    ("1 passed as 2", Replies(one_as_two)),
    ("0 passed as 0 and 2", Replies(zero_and_two)),
    ("2 not caught", Replies(none_caught)),
    ("63 passed on", Replies(beyond_the_last)),
    ("0 passed on by a loop", Replies(loop_asked_for_0)),
    ("the left branch above the code", Replies(left_above)),
    ("the branches of a parallel asked", Replies(branches_asked)),
    ("a code above 63 counted", Outcome(asked_in_vain)),
    ("21 after the rule on codes", Outcome(codes_first)),
    ("21 before the table's checks", Outcome(node_first)),
];

/// Every node of the statement is counted.
pub fn whole_statement(table: &[u8], node: u64, code: u64) -> Result<Known, Refusal> {
    let program = checks::accept(table, |_| true)?;
    let own = node_within(&program.tree, node)?;
    let nodes = own + 1 - program.tree.lowest[own];
    counted_with(ask(table, node, code)?, |_| nodes)
}

/// Every node of the table is counted.
pub fn whole_table(table: &[u8], node: u64, code: u64) -> Result<Known, Refusal> {
    counted_with(ask(table, node, code)?, |_| table.len() / 2)
}

/// The node that is asked is not counted.
pub fn others_alone(table: &[u8], node: u64, code: u64) -> Result<Known, Refusal> {
    counted_with(ask(table, node, code)?, |count| count - 1)
}

/// The count changed, but for codes above the last one, for which it is 0.
fn counted_with(known: Known, change: impl FnOnce(usize) -> usize) -> Result<Known, Refusal> {
    let count = match known.count {
        0 => 0,
        count => change(count),
    };
    Ok(Known { count, ..known })
}

/// A present asks both branches in any case.
pub fn both_branches(looking: &mut Looking, node: usize, code: u64) -> Reply {
    match looking.look(node) {
        Statement::Present { then, otherwise } => {
            let answers = [then, otherwise].map(|branch| looking.ask(both_branches, branch, code));
            answers.contains(&true).into()
        }
        _ => reply(looking, node, code),
    }
}

/// A present asks its else branch first.
pub fn else_first(looking: &mut Looking, node: usize, code: u64) -> Reply {
    match looking.look(node) {
        Statement::Present { then, otherwise } => Reply::AskBoth([otherwise, then]),
        _ => reply(looking, node, code),
    }
}

/// A sequence asks its second, in vain, though the first lacks 0.
pub fn without_end(looking: &mut Looking, node: usize, code: u64) -> Reply {
    if let Statement::Sequence { first, second } = looking.look(node) {
        if !has(looking.whole(first), 0) {
            looking.ask(without_end, second, code);
        }
    }
    reply(looking, node, code)
}

/// A sequence whose first has 0 asks its second, in vain, though the first has the code.
pub fn though_found(looking: &mut Looking, node: usize, code: u64) -> Reply {
    if let Statement::Sequence { first, second } = looking.look(node) {
        let of_first = looking.whole(first);
        if code != 0 && has(of_first, code) && has(of_first, 0) {
            looking.ask(though_found, second, code);
        }
    }
    reply(looking, node, code)
}

/// A sequence that asks its second looks at every node of it.
pub fn whole_second(looking: &mut Looking, node: usize, code: u64) -> Reply {
    let replied = reply(looking, node, code);
    match (looking.look(node), replied) {
        (Statement::Sequence { .. }, Reply::Ask(second, code)) => {
            has(looking.whole(second), code).into()
        }
        (_, replied) => replied,
    }
}

/// A sequence asks its first: for the code if it has that, and else for 0.
pub fn first_asked(looking: &mut Looking, node: usize, code: u64) -> Reply {
    let Statement::Sequence { first, second } = looking.look(node) else {
        return reply(looking, node, code);
    };
    // None of these nodes is counted.
    let of_first = Looking::new(looking.tree()).whole(first);
    if code != 0 && has(of_first, code) {
        Reply::Ask(first, code)
    } else if looking.ask(first_asked, first, 0) {
        Reply::Ask(second, code)
    } else {
        Reply::No
    }
}

/// A sequence ends if its first does.
pub fn end_of_first(looking: &mut Looking, node: usize, code: u64) -> Reply {
    match looking.look(node) {
        Statement::Sequence { first, .. } if has(looking.whole(first), code) => Reply::Yes,
        _ => reply(looking, node, code),
    }
}

/// A trap passes 2 as 2, and all others as it should.
pub fn two_as_two(looking: &mut Looking, node: usize, code: u64) -> Reply {
    match looking.look(node) {
        Statement::Trap { body } if code == 2 => Reply::Ask(body, 2),
        _ => reply(looking, node, code),
    }
}

/// A trap passes 1 as 2.
pub fn one_as_two(looking: &mut Looking, node: usize, code: u64) -> Reply {
    match looking.look(node) {
        Statement::Trap { body } if code == 1 => Reply::Ask(body, 2),
        _ => reply(looking, node, code),
    }
}

/// A trap asked for 0 passes it as 0, and then as 2.
pub fn zero_and_two(looking: &mut Looking, node: usize, code: u64) -> Reply {
    match looking.look(node) {
        Statement::Trap { body } if code == 0 => {
            let ends = looking.ask(zero_and_two, body, 0);
            (ends || looking.ask(zero_and_two, body, 2)).into()
        }
        _ => reply(looking, node, code),
    }
}

/// A trap asked for 0 looks for 0 alone.
pub fn none_caught(looking: &mut Looking, node: usize, code: u64) -> Reply {
    match looking.look(node) {
        Statement::Trap { body } if code == 0 => has(looking.whole(body), 0).into(),
        _ => reply(looking, node, code),
    }
}

/// A trap asked for the last code looks at its child.
pub fn beyond_the_last(looking: &mut Looking, node: usize, code: u64) -> Reply {
    match looking.look(node) {
        Statement::Trap { body } if code == LAST_CODE => {
            looking.look(body);
            Reply::No
        }
        _ => reply(looking, node, code),
    }
}

/// A loop passes 0 on.
pub fn loop_asked_for_0(looking: &mut Looking, node: usize, code: u64) -> Reply {
    match looking.look(node) {
        Statement::Loop { body } => Reply::Ask(body, code),
        _ => reply(looking, node, code),
    }
}

/// A parallel does not look at its right branch if all codes of the left are above.
pub fn left_above(looking: &mut Looking, node: usize, code: u64) -> Reply {
    if let Statement::Parallel { left, .. } = looking.look(node) {
        if u64::from(looking.whole(left).trailing_zeros()) > code {
            return Reply::No;
        }
    }
    reply(looking, node, code)
}

/// A parallel asks its branches, as a present does.
pub fn branches_asked(looking: &mut Looking, node: usize, code: u64) -> Reply {
    match looking.look(node) {
        Statement::Parallel { left, right } => Reply::AskBoth([left, right]),
        _ => reply(looking, node, code),
    }
}

/// A node that is asked for a code above the last one is counted.
pub fn asked_in_vain(table: &[u8], node: u64, code: u64) -> Result<Known, Refusal> {
    let known = ask(table, node, code)?;
    let count = known.count.max(1);
    Ok(Known { count, ..known })
}

/// The rule on codes above the last one comes before check 21.
pub fn codes_first(table: &[u8], node: u64, code: u64) -> Result<Known, Refusal> {
    let node = if code > LAST_CODE { 0 } else { node };
    ask(table, node, code)
}

/// Check 21 comes before the table's checks from 4 on.
pub fn node_first(table: &[u8], node: u64, code: u64) -> Result<Known, Refusal> {
    let is_outside = node >= table.len() as u64 / 2;
    let outcome = ask(table, node, code);
    outcome.map_err(|refusal| match refusal.number {
        4.. if is_outside => Refusal::whole(21),
        _ => refusal,
    })
}
