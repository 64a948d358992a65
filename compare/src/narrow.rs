//! Signals known for certain, request F-8: the codes that a start of each statement, alone
//! at its place in the program, can give when some tests have a known answer.
//!
//! Which tests those are is settled first. A statement is a run of nodes, so that a signal
//! statement takes its tie from the tests of its number in its own run, and from no other.
//! Then each statement is asked for one code after the other, children before parents.

use std::ops::Range;

use crate::checks::{self, Program};
use crate::instant::SIGNALS;
use crate::table::{Statement, Tree};
use crate::Refusal;

const ENDED: usize = 0;
const PAUSED: usize = 1;
const CAUGHT: usize = 2;

/// Whether the signal of a test is present, where that is known.
pub type Answer = Option<bool>;

/// Writes the narrowed start set of every node to the front of the sets and hands back the
/// number of nodes. A refusal leaves the sets as they were.
pub fn narrow(table: &[u8], ties: &[u8], sets: &mut [u64]) -> Result<usize, Refusal> {
    let program = checks::accept(table, |size| ties.len() >= SIGNALS && sets.len() >= size)?;
    let ties = read_ties(&ties[..SIGNALS])?;
    let answers = known_answers(table, &program.tree, &ties);
    let narrowed = narrowed_sets(&program, &answers);
    sets[..narrowed.len()].copy_from_slice(&narrowed);
    Ok(narrowed.len())
}

/// Check 19.
pub fn read_ties(ties: &[u8]) -> Result<Vec<Answer>, Refusal> {
    let answers = ties.iter().map(|tie| match tie {
        0 => Ok(None),
        1 => Ok(Some(false)),
        2 => Ok(Some(true)),
        _ => Err(Refusal::whole(19)),
    });
    answers.collect()
}

/// The known answer of each present. Other nodes have none.
pub fn known_answers(table: &[u8], tree: &Tree, ties: &[Answer]) -> Vec<Answer> {
    let mut answers = answers_by_number(table, tree, ties);
    for (node, statement) in tree.statements.iter().enumerate() {
        if let Statement::Signal { .. } = statement {
            let body = tree.lowest[node]..node;
            untie(table, field(table, node), body, &mut answers);
        }
    }
    answers
}

/// The tests of the signal among these nodes have no known answer.
pub fn untie(table: &[u8], signal: u8, nodes: Range<usize>, answers: &mut [Answer]) {
    for node in nodes {
        // If it is no test, it has none anyway.
        if field(table, node) == signal {
            answers[node] = None;
        }
    }
}

/// As if there were no signal statements.
pub fn answers_by_number(table: &[u8], tree: &Tree, ties: &[Answer]) -> Vec<Answer> {
    let statements = tree.statements.iter().enumerate();
    let answers = statements.map(|(node, statement)| match statement {
        Statement::Present { .. } => ties[usize::from(field(table, node))],
        _ => None,
    });
    answers.collect()
}

/// The signal of a signal or present.
pub fn field(table: &[u8], node: usize) -> u8 {
    table[2 * node + 1]
}

/// The set of every node, of an accepted program whose presents have these answers.
pub fn narrowed_sets(program: &Program, answers: &[Answer]) -> Vec<u64> {
    let mut starts = Starts {
        tree: &program.tree,
        answers,
        gives: Vec::new(),
    };
    for (node, traps) in program.around.traps.iter().enumerate() {
        // A code above these would be an exit from more traps than there are.
        let codes = 0..=PAUSED + traps;
        let row = codes.map(|code| starts.can_give(node, code)).collect();
        starts.gives.push(row);
    }
    starts.gives.iter().map(|row| bits(row)).collect()
}

fn bits(row: &[bool]) -> u64 {
    let codes = row.iter().zip(0..64);
    codes.fold(0, |set, (&gives, code)| set | u64::from(gives) << code)
}

/// The statements that have been asked so far.
struct Starts<'a> {
    tree: &'a Tree,
    answers: &'a [Answer],
    /// For each of these, by code, whether a start can give it.
    gives: Vec<Vec<bool>>,
}

impl Starts<'_> {
    fn can_give(&self, node: usize, code: usize) -> bool {
        match self.tree.statements[node] {
            Statement::Nothing | Statement::Emit { .. } => code == ENDED,
            Statement::Pause => code == PAUSED,
            Statement::Exit { level } => code == CAUGHT + usize::from(level),
            Statement::Signal { body } | Statement::Suspend { body } => self.gives[body][code],
            Statement::Present { then, otherwise } => match self.answers[node] {
                Some(true) => self.gives[then][code],
                Some(false) => self.gives[otherwise][code],
                None => self.gives[then][code] || self.gives[otherwise][code],
            },
            // There is no rule for a body that ends.
            Statement::Loop { body } => code != ENDED && self.gives[body][code],
            Statement::Sequence { first, second } => {
                (code != ENDED && self.gives[first][code])
                    || (self.gives[first][ENDED] && self.gives[second][code])
            }
            Statement::Parallel { left, right } => {
                self.is_largest(left, code, right) || self.is_largest(right, code, left)
            }
            Statement::Trap { body } => match code {
                ENDED => self.gives[body][ENDED] || self.gives[body][CAUGHT],
                PAUSED => self.gives[body][PAUSED],
                further_out => self.gives[body][further_out + 1],
            },
        }
    }

    /// Whether one branch can give the code, and the other the same or one below it.
    fn is_largest(&self, one: usize, code: usize, other: usize) -> bool {
        self.gives[one][code] && self.gives[other][..=code].contains(&true)
    }
}
