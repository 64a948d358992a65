//! What the names mean: checks 15 and 16.

use std::collections::HashMap;

use super::statements::{parents, Statements, EXIT, TRAP};
use super::tokens::Token;
use crate::instant::SIGNALS;

/// A statement, and the level or signal that its name means.
pub type Meant = (usize, usize);

/// Each exit with its level. If some have no trap of their name around them, the token of
/// the first one's name.
pub fn levels(statements: &Statements, tokens: &[Token]) -> Result<Vec<Meant>, usize> {
    let parents = parents(statements);
    // Statements without children were added in the order of the text.
    let exits = (0..statements.len()).filter(|&at| statements[at].kind == EXIT);
    exits
        .map(|exit| match level(statements, tokens, &parents, exit) {
            Some(level) => Ok((exit, level)),
            None => Err(statements[exit].name.expect("added exits have their trap")),
        })
        .collect()
}

/// The traps between the exit and the nearest one of its name, added ones too.
fn level(
    statements: &Statements,
    tokens: &[Token],
    parents: &[Option<usize>],
    exit: usize,
) -> Option<usize> {
    let name = |at: usize| statements[at].name.map(|token| tokens[token].bytes);
    let around = std::iter::successors(parents[exit], |&at| parents[at]);
    let mut traps = around.filter(|&at| statements[at].kind == TRAP);
    traps.position(|trap| name(trap) == name(exit))
}

/// Each statement that names a signal with the signal's number, and the number of
/// signals; if there are too many, the token of the first name that is one too many. They
/// are numbered where their names first appear in the text, whatever the statements.
pub fn signals(statements: &Statements, tokens: &[Token]) -> Result<(Vec<Meant>, usize), usize> {
    let mut named: Vec<(usize, usize)> = (0..statements.len())
        .filter(|&at| ![EXIT, TRAP].contains(&statements[at].kind))
        .filter_map(|at| Some((statements[at].name?, at)))
        .collect();
    named.sort_unstable();
    let mut numbers: HashMap<&[u8], usize> = HashMap::new();
    let mut meant = Vec::new();
    for (token, at) in named {
        let next = numbers.len();
        let number = *numbers.entry(tokens[token].bytes).or_insert(next);
        if number == SIGNALS {
            return Err(token);
        }
        meant.push((at, number));
    }
    Ok((meant, numbers.len()))
}
