//! Numbers of entries by wrong rules, which starts must tell from the right ones.

use crate::checks::{self, Program};
use crate::first_tick::{greatest, most_by_code, most_of, starts, Most};
use crate::instant::{CAUGHT, ENDED, PAUSED};
use crate::table::{self, Statement, Tree};
use crate::Refusal;

/// Table, to the number or the refusal.
pub type Rule = fn(&[u8]) -> Result<usize, Refusal>;

/// Every node is entered.
pub fn all_nodes(table: &[u8]) -> Result<usize, Refusal> {
    Ok(accepted(table)?.tree.size())
}

/// The bound of the listing, which covers resumptions.
pub fn bound(table: &[u8]) -> Result<usize, Refusal> {
    let program = accepted(table)?;
    Ok(program.tree.size() * (1 + program.loop_depth()))
}

/// One number for a statement, whatever its code.
pub fn codes_merged(table: &[u8]) -> Result<usize, Refusal> {
    greatest_with(table, |_, _, mut most| {
        let entries = greatest(&most);
        most.values_mut().for_each(|of_code| *of_code = entries);
        most
    })
}

/// A parallel adds the greatest numbers of its branches, whatever their codes.
pub fn branches_merged(table: &[u8]) -> Result<usize, Refusal> {
    greatest_with(table, |statement, of, mut most| {
        if let Statement::Parallel { left, right } = statement {
            let entries = 1 + greatest(&of[left]) + greatest(&of[right]);
            most.values_mut().for_each(|of_code| *of_code = entries);
        }
        most
    })
}

/// Each branch of a parallel has any code up to the parallel's, and none need have it.
pub fn branches_up_to_the_code(table: &[u8]) -> Result<usize, Refusal> {
    greatest_with(table, |statement, of, mut most| {
        if let Statement::Parallel { left, right } = statement {
            for (&code, entries) in &mut most {
                let up_to = |branch: usize| of[branch].range(..=code).map(|(_, own)| own).max();
                let branches = up_to(left).into_iter().chain(up_to(right));
                *entries = 1 + branches.sum::<usize>();
            }
        }
        most
    })
}

/// The right branch of a parallel is not started if the left one exits.
pub fn left_exit_alone(table: &[u8]) -> Result<usize, Refusal> {
    greatest_with(table, |statement, of, most| match statement {
        Statement::Parallel { left, right } => {
            let pairs = starts(&of[left]).flat_map(|(left_code, entries)| {
                starts(&of[right]).map(move |(right_code, more)| {
                    if left_code >= CAUGHT {
                        (left_code, 1 + entries)
                    } else {
                        (left_code.max(right_code), 1 + entries + more)
                    }
                })
            });
            most_by_code(pairs)
        }
        _ => most,
    })
}

/// A sequence adds its second even if its first does not end.
pub fn second_always(table: &[u8]) -> Result<usize, Refusal> {
    greatest_with(table, |statement, of, most| match statement {
        Statement::Sequence { first, second } => {
            let pairs = starts(&of[first]).flat_map(|(first_code, entries)| {
                starts(&of[second]).map(move |(second_code, more)| {
                    let code = match first_code {
                        ENDED => second_code,
                        stopped => stopped,
                    };
                    (code, 1 + entries + more)
                })
            });
            most_by_code(pairs)
        }
        _ => most,
    })
}

/// Only the branch of a present with more entries is looked at, or then if they are equal.
pub fn fuller_branch(table: &[u8]) -> Result<usize, Refusal> {
    greatest_with(table, |statement, of, most| match statement {
        Statement::Present { then, otherwise } => {
            let has_more = greatest(&of[otherwise]) > greatest(&of[then]);
            let branch = if has_more { otherwise } else { then };
            most_by_code(starts(&of[branch]).map(|(code, entries)| (code, 1 + entries)))
        }
        _ => most,
    })
}

/// The end of a loop's body is counted as one entry more, though it does not come to it.
pub fn end_of_body(table: &[u8]) -> Result<usize, Refusal> {
    greatest_with(table, |statement, _, mut most| {
        if let Statement::Loop { .. } = statement {
            most.values_mut().for_each(|entries| *entries += 1);
        }
        most
    })
}

/// A suspend takes an answer when it is started.
pub fn suspend_tested(table: &[u8]) -> Result<usize, Refusal> {
    greatest_with(table, |statement, _, most| match statement {
        Statement::Suspend { .. } => most_by_code(starts(&most).chain([(PAUSED, 1)])),
        _ => most,
    })
}

/// A loop whose body ends has ended, and check 11 refuses nothing.
pub fn loop_that_ends(table: &[u8]) -> Result<usize, Refusal> {
    let tree = match accepted(table) {
        Ok(program) => program.tree,
        Err(Refusal { number: 11, .. }) => table::read(table)?,
        Err(refusal) => return Err(refusal),
    };
    Ok(greatest_in(&tree, |statement, of, most| match statement {
        Statement::Loop { body } => {
            most_by_code(starts(&of[body]).map(|(code, entries)| (code, 1 + entries)))
        }
        _ => most,
    }))
}

fn accepted(table: &[u8]) -> Result<Program, Refusal> {
    checks::accept(table, |_| true)
}

/// After the right rule has given the numbers of a statement, from those of its children,
/// they are changed.
type Change = fn(Statement, &[Most], Most) -> Most;

fn greatest_with(table: &[u8], change: Change) -> Result<usize, Refusal> {
    Ok(greatest_in(&accepted(table)?.tree, change))
}

fn greatest_in(tree: &Tree, change: Change) -> usize {
    let mut of_nodes: Vec<Most> = Vec::new();
    for &statement in &tree.statements {
        let most = change(statement, &of_nodes, most_of(statement, &of_nodes));
        of_nodes.push(most);
    }
    // By a wrong rule there may be a loop without a code.
    let entries = of_nodes[tree.root()].values().copied().max();
    entries.unwrap_or(0)
}
