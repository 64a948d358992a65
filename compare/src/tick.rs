//! Show me the tick, request F-2: after refusal 11, answers with which the loop's body
//! ends in the instant that starts it.
//!
//! Of a statement and a code, the lists in question are those with which the rules
//! start it, take all of them, and give that code. The best of them is the shortest,
//! and among the shortest the one that has absent at the first difference.

use std::cmp::Ordering;
use std::fmt::Write;

use crate::best::{best_starts, Start};
use crate::instant::ENDED;
use crate::table::{self, Statement, Tree};
use crate::{checks, listing, Refusal};

/// The least length of the lent answers. A list has no more of them than there are
/// presents in the body; these are fewer than its leaves, and so at most 511.
pub const TICK_ANSWERS: usize = 512;

/// What is shown of a table that passes checks 1 to 10.
#[derive(Clone, Copy, Debug, PartialEq, Eq)]
pub enum Tick {
    /// Refused by 11 at this loop: so many answers let its body end at once.
    Ends { node: usize, length: usize },
    /// The number of nodes and the loop depth.
    Accepted { nodes: usize, loops: usize },
}

/// Writes the best list for a body that ends to the front of the answers, if check 11
/// refuses the table. Otherwise, and past the list, they stay as they were.
pub fn find_tick(table: &[u8], answers: &mut [u8]) -> Result<Tick, Refusal> {
    match checks::accept(table, |_| answers.len() >= TICK_ANSWERS) {
        Ok(program) => Ok(Tick::Accepted {
            nodes: program.tree.size(),
            loops: program.loop_depth(),
        }),
        Err(Refusal { number: 11, node }) => {
            let list = ending_list(&table::read(table)?, node);
            answers[..list.len()].copy_from_slice(&list);
            Ok(Tick::Ends {
                node,
                length: list.len(),
            })
        }
        Err(refusal) => Err(refusal),
    }
}

/// The node of the loop and the answers, or else the first line of the listing.
pub fn tick_line(table: &[u8]) -> String {
    let mut answers = [0; TICK_ANSWERS];
    match find_tick(table, &mut answers) {
        Ok(Tick::Ends { node, length }) => line(node, &answers[..length]),
        _ => first_line(&listing(table)).to_string(),
    }
}

fn line(node: usize, answers: &[u8]) -> String {
    let mut text = node.to_string();
    for answer in answers {
        write!(text, " {answer}").expect("writing to a string cannot fail");
    }
    text + "\n"
}

fn first_line(text: &str) -> &str {
    text.split_inclusive('\n').next().unwrap_or(text)
}

/// The best list with which the body of the lowest loop that check 11 refuses ends.
fn ending_list(tree: &Tree, node: usize) -> Vec<u8> {
    let Statement::Loop { body } = tree.statements[node] else {
        unreachable!("check 11 refuses nothing but loops");
    };
    let ending = best_starts(tree, body, shorter_first).remove(&ENDED);
    let ending = ending.expect("check 11 refuses a loop whose body can end");
    ending.answers
}

/// Shorter lists first, and of equal length those with absent at the first difference.
fn shorter_first(one: &Start, other: &Start) -> Ordering {
    let by_length = one.answers.len().cmp(&other.answers.len());
    by_length.then_with(|| one.answers.cmp(&other.answers))
}
