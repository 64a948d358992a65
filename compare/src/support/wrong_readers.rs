//! Readers of texts by wrong rules, which edges must tell from the right one.

use super::chart::is_foreign;
use crate::text::automaton::Automaton;
use crate::text::parser::parse;
use crate::text::statements::{parents, postfix, Statements, EXIT, TRAP};
use crate::text::tokens::tokens;
use crate::text::{translate, Translated};
use crate::Placed;

pub type Reader = fn(&[u8]) -> Result<Translated, Placed>;

/// Exits that leave an abort do not count the trap that it adds.
pub fn uncounted(text: &[u8]) -> Result<Translated, Placed> {
    let (mut table, signals) = translate(text)?;
    let automaton = Automaton::shared();
    let statements = parse(automaton, &tokens(automaton, text)).expect("the text was read");
    let nodes = table.chunks_exact_mut(2).zip(postfix(&statements));
    for (node, at) in nodes {
        if node[0] == EXIT && statements[at].name.is_some() {
            node[1] -= added_traps(&statements, at, node[1]);
        }
    }
    Ok((table, signals))
}

/// How many of the nearest traps around a statement were added.
fn added_traps(statements: &Statements, at: usize, nearest: u8) -> u8 {
    let parents = parents(statements);
    let around = std::iter::successors(parents[at], |&at| parents[at]);
    let traps = around.filter(|&at| statements[at].kind == TRAP);
    let added = traps
        .take(nearest.into())
        .filter(|&trap| statements[trap].name.is_none());
    added.count() as u8
}

/// A weak abort suspends its body, too.
pub fn suspending(text: &[u8]) -> Result<Translated, Placed> {
    translate(text)?;
    let mut strong = text.to_vec();
    for token in tokens(Automaton::shared(), text) {
        if token.bytes == b"weak" {
            strong[token.place..][..token.bytes.len()].fill(b' ');
        }
    }
    translate(&strong)
}

/// 20 is told if there is a foreign token anywhere after the first wrong one.
pub fn foreign_later(text: &[u8]) -> Result<Translated, Placed> {
    changed_if_14(text, |placed| {
        let rest = text.get(placed.place..).unwrap_or_default();
        let tokens = tokens(Automaton::shared(), rest);
        let has_foreign = tokens.iter().any(|token| is_foreign(token.bytes));
        Placed::at(if has_foreign { 20 } else { 14 }, placed.place)
    })
}

/// 14 is told, without a look at the token, for what is nested deeper than a text of the
/// grammar can be.
pub fn bounded(text: &[u8]) -> Result<Translated, Placed> {
    translate(text).map_err(|placed| {
        let opened = text.iter().filter(|&&byte| byte == b'[').count();
        match opened > 2730 {
            true => Placed::at(14, placed.place),
            false => placed,
        }
    })
}

/// The place of a text that stops is the end of its last token.
pub fn without_last_blanks(text: &[u8]) -> Result<Translated, Placed> {
    changed_if_14(text, |placed| match placed.place == text.len() {
        true => Placed::at(14, text.trim_ascii_end().len()),
        false => placed,
    })
}

/// The place of an exit is that of the word, not of the name.
pub fn at_the_exit(text: &[u8]) -> Result<Translated, Placed> {
    translate(text).map_err(|placed| match placed.refusal.number {
        15 => {
            let before = tokens(Automaton::shared(), &text[..placed.place]);
            Placed::at(15, before.last().map_or(0, |exit| exit.place))
        }
        _ => placed,
    })
}

fn changed_if_14(text: &[u8], change: impl Fn(Placed) -> Placed) -> Result<Translated, Placed> {
    translate(text).map_err(|placed| match placed.refusal.number {
        14 => change(placed),
        _ => placed,
    })
}
