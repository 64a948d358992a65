//! The best start of a statement for each code that it can have. Which of two starts is the
//! better one, is the caller's to say.
//!
//! Each statement's best starts are put together from those of its children. So they can be
//! if the better start of a child makes the better one of the whole, whatever its neighbour
//! does. It is so for the length of the list and for the number of entries, which add up; and
//! for absent at the first difference, since no list that a child takes in full is the front
//! of another.

use std::cmp::Ordering;
use std::collections::BTreeMap;
use std::mem;

use crate::instant::{Code, CAUGHT, ENDED, PAUSED};
use crate::table::{Statement, Tree};

const ABSENT: u8 = 0;
const PRESENT: u8 = 1;

/// A start with a list of answers that it takes in full, and the entries that it makes.
#[derive(Clone, Default)]
pub struct Start {
    pub answers: Vec<u8>,
    pub entries: usize,
}

/// The better start is the lesser one.
pub type Order = fn(&Start, &Start) -> Ordering;

/// The best start for each code.
pub type Best = BTreeMap<Code, Start>;

/// From the lowest node of the statement up to itself, children before parents.
pub fn best_starts(tree: &Tree, node: usize, order: Order) -> Best {
    let mut of_nodes = vec![Best::new(); node + 1];
    for at in tree.lowest[node]..=node {
        // A child has one parent, which may have its starts.
        let mut of = |child: usize| mem::take(&mut of_nodes[child]);
        let mut best = match tree.statements[at] {
            Statement::Nothing | Statement::Emit { .. } => without_children(ENDED),
            Statement::Pause => without_children(PAUSED),
            Statement::Exit { level } => without_children(CAUGHT + Code::from(level)),
            Statement::Signal { body } | Statement::Suspend { body } => of(body),
            Statement::Present { then, otherwise } => present(of(then), of(otherwise), order),
            Statement::Loop { body } => sound_loop(of(body)),
            Statement::Sequence { first, second } => sequence(of(first), of(second), order),
            Statement::Parallel { left, right } => parallel(&of(left), &of(right), order),
            Statement::Trap { body } => trap(of(body), order),
        };
        // The statement itself is entered once.
        best.values_mut().for_each(|start| start.entries += 1);
        of_nodes[at] = best;
    }
    mem::take(&mut of_nodes[node])
}

fn without_children(code: Code) -> Best {
    Best::from([(code, Start::default())])
}

fn present(then: Best, otherwise: Best, order: Order) -> Best {
    let mut best = Best::new();
    for (answer, branch) in [(PRESENT, then), (ABSENT, otherwise)] {
        for (code, mut start) in branch {
            start.answers.insert(0, answer);
            offer(&mut best, code, start, order);
        }
    }
    best
}

/// There is no rule for a body that ends. In an accepted program none does, nor within the
/// lowest loop that check 11 refuses.
fn sound_loop(mut body: Best) -> Best {
    body.remove(&ENDED);
    body
}

/// The second takes its answers after those with which the first ends.
fn sequence(mut first: Best, second: Best, order: Order) -> Best {
    let Some(before) = first.remove(&ENDED) else {
        return first;
    };
    for (code, start) in second {
        offer(
            &mut first,
            code,
            one_after_the_other(&before, &start),
            order,
        );
    }
    first
}

/// The code is that of one branch; the other has the same one or any below it.
fn parallel(left: &Best, right: &Best, order: Order) -> Best {
    let mut best = Best::new();
    for (&code, start) in left {
        if let Some(after) = best_up_to(right, code, order) {
            offer(&mut best, code, one_after_the_other(start, after), order);
        }
    }
    for (&code, start) in right {
        if let Some(before) = best_up_to(left, code, order) {
            offer(&mut best, code, one_after_the_other(before, start), order);
        }
    }
    best
}

fn trap(body: Best, order: Order) -> Best {
    let mut best = Best::new();
    for (code, start) in body {
        offer(&mut best, out_of_trap(code), start, order);
    }
    best
}

/// The code that a trap makes of its body's.
pub fn out_of_trap(code: Code) -> Code {
    match code {
        ENDED | CAUGHT => ENDED,
        PAUSED => PAUSED,
        further_out => further_out - 1,
    }
}

fn one_after_the_other(first: &Start, second: &Start) -> Start {
    Start {
        answers: [&first.answers[..], &second.answers].concat(),
        entries: first.entries + second.entries,
    }
}

/// The best of all starts for codes up to this one.
fn best_up_to(best: &Best, code: Code, order: Order) -> Option<&Start> {
    let starts = best.range(..=code).map(|(_, start)| start);
    starts.min_by(|one, other| order(one, other))
}

/// Keeps the better one of this start and the one that the code has.
fn offer(best: &mut Best, code: Code, start: Start, order: Order) {
    match best.get(&code) {
        Some(kept) if order(kept, &start).is_le() => {}
        _ => drop(best.insert(code, start)),
    }
}
