//! First tick, to the entry, request F-10: the greatest number of entries that any answers
//! can give when a program is started; and answers that reach it.
//!
//! Each statement has, for each of its codes, the greatest number of entries among the
//! starts that give this code. These numbers are put together from those of its children:
//! whatever comes after a child depends on that child's code alone, and any start of one
//! child goes with any start of the other, since their answers are taken one after the
//! other. A single number, whatever the code, would not do: the start with the most entries
//! may pause, where one with fewer ends and lets a sequence go on.
//!
//! Of the lists that reach the number, the one that is handed out has absent at the first
//! difference. It is found by itself, from the best starts of all statements.

use std::cmp::Ordering;
use std::collections::BTreeMap;

use crate::best::{best_starts, out_of_trap, Start};
use crate::held::STATE_BYTES;
use crate::instant::{Code, CAUGHT, ENDED, PAUSED, SIGNALS};
use crate::listing::refusal_line;
use crate::table::{Statement, Tree};
use crate::tick::TICK_ANSWERS;
use crate::{checks, start, Refusal};

/// The greatest number of entries for each code that a start of a statement can give.
pub type Most = BTreeMap<Code, usize>;

/// The greatest number of entries of a start: some answers give so many, and none more.
pub fn first_tick(table: &[u8]) -> Result<usize, Refusal> {
    let program = checks::accept(table, |_| true)?;
    let of_nodes = most_of_nodes(&program.tree);
    Ok(greatest(&of_nodes[program.tree.root()]))
}

/// Writes the list that reaches the number to the front of the answers, and hands back the
/// number and the length of the list. Past it the answers stay as they were.
pub fn first_tick_answers(table: &[u8], answers: &mut [u8]) -> Result<(usize, usize), Refusal> {
    let program = checks::accept(table, |_| answers.len() >= TICK_ANSWERS)?;
    let start = fullest_start(&program.tree);
    answers[..start.answers.len()].copy_from_slice(&start.answers);
    Ok((start.entries, start.answers.len()))
}

/// The list that reaches the number, of an accepted program.
pub fn reaching_list(table: &[u8]) -> Vec<u8> {
    let program = checks::accept(table, |_| true).expect("an accepted table");
    fullest_start(&program.tree).answers
}

fn fullest_start(tree: &Tree) -> Start {
    let best = best_starts(tree, tree.root(), fuller_first);
    let fullest = best.into_values().min_by(fuller_first);
    fullest.expect("a program whose loops are sound has a code")
}

/// More entries first, and of as many the list with absent at the first difference.
fn fuller_first(one: &Start, other: &Start) -> Ordering {
    let by_entries = other.entries.cmp(&one.entries);
    by_entries.then_with(|| one.answers.cmp(&other.answers))
}

/// The number alone, or the refusal as in the listing.
pub fn first_tick_line(table: &[u8]) -> String {
    match first_tick(table) {
        Ok(entries) => format!("{entries}\n"),
        Err(refusal) => refusal_line(refusal),
    }
}

/// Whether these answers, 0 or 1 each, are a reason for the number: a start takes all of
/// them, closes, and makes so many entries. There is none for a table that is refused.
pub fn reaches(table: &[u8], answers: &[u8]) -> bool {
    let Ok(entries) = first_tick(table) else {
        return false;
    };
    let (state, emissions) = (&mut [0; STATE_BYTES], &mut [0; SIGNALS]);
    let closed = start(table, answers, state, emissions);
    answers.iter().all(|&answer| answer <= 1)
        && closed.is_ok_and(|closed| closed.taken == answers.len() && closed.entries == entries)
}

/// The numbers of all statements, children before parents.
pub fn most_of_nodes(tree: &Tree) -> Vec<Most> {
    let mut of_nodes = Vec::with_capacity(tree.size());
    for &statement in &tree.statements {
        let most = most_of(statement, &of_nodes);
        of_nodes.push(most);
    }
    of_nodes
}

/// Whatever the code.
pub fn greatest(most: &Most) -> usize {
    let entries = most.values().copied().max();
    entries.expect("a statement whose loops are sound has a code")
}

/// The numbers of a statement, from those of its children.
pub fn most_of(statement: Statement, of: &[Most]) -> Most {
    let mut most = most_beneath(statement, of);
    // The statement itself is entered once.
    most.values_mut().for_each(|entries| *entries += 1);
    most
}

/// The entries of the children, for each code of the statement.
fn most_beneath(statement: Statement, of: &[Most]) -> Most {
    match statement {
        Statement::Nothing | Statement::Emit { .. } => without_children(ENDED),
        Statement::Pause => without_children(PAUSED),
        Statement::Exit { level } => without_children(CAUGHT + Code::from(level)),
        Statement::Signal { body } | Statement::Suspend { body } => of[body].clone(),
        Statement::Present { then, otherwise } => present(&of[then], &of[otherwise]),
        Statement::Loop { body } => sound_loop(&of[body]),
        Statement::Sequence { first, second } => sequence(&of[first], &of[second]),
        Statement::Parallel { left, right } => parallel(&of[left], &of[right]),
        Statement::Trap { body } => trap(&of[body]),
    }
}

fn without_children(code: Code) -> Most {
    Most::from([(code, 0)])
}

/// One branch or the other is started.
fn present(then: &Most, otherwise: &Most) -> Most {
    most_by_code(starts(then).chain(starts(otherwise)))
}

/// There is no rule for a body that ends, and check 11 sees to it that none does.
fn sound_loop(body: &Most) -> Most {
    most_by_code(starts(body).filter(|&(code, _)| code != ENDED))
}

/// The first alone with any other code; with code 0 both, and the code is the second's.
fn sequence(first: &Most, second: &Most) -> Most {
    let alone = starts(first).filter(|&(code, _)| code != ENDED);
    let before = first.get(&ENDED).into_iter();
    let both = before
        .flat_map(|before| starts(second).map(move |(code, entries)| (code, before + entries)));
    most_by_code(alone.chain(both))
}

/// Both branches are started whatever their codes, of which the larger one counts.
fn parallel(left: &Most, right: &Most) -> Most {
    most_by_code(starts(left).flat_map(|(left_code, left_entries)| {
        starts(right).map(move |(right_code, right_entries)| {
            (left_code.max(right_code), left_entries + right_entries)
        })
    }))
}

fn trap(body: &Most) -> Most {
    most_by_code(starts(body).map(|(code, entries)| (out_of_trap(code), entries)))
}

/// Each code with its number.
pub fn starts(most: &Most) -> impl Iterator<Item = (Code, usize)> + '_ {
    most.iter().map(|(&code, &entries)| (code, entries))
}

/// Of several numbers for one code the greatest counts.
pub fn most_by_code(starts: impl Iterator<Item = (Code, usize)>) -> Most {
    let mut most = Most::new();
    for (code, entries) in starts {
        let kept = most.entry(code).or_insert(entries);
        *kept = entries.max(*kept);
    }
    most
}
