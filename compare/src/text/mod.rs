//! Programs as text, requests F-1 and F-9: the reader that turns one into a table.

pub mod automaton;
pub mod dialect;
pub mod grammar;
pub mod names;
pub mod parser;
pub mod place;
pub mod statements;
pub mod tokens;

use crate::table::MOST_BYTES;
use crate::{checks, table, Refusal};

use automaton::Automaton;
use grammar::FOREIGN;
use names::Meant;
use place::Placed;
use statements::{postfix, Statements};
use tokens::Token;

/// The most bytes of a text.
pub const MOST_TEXT: usize = 16_384;

/// The bytes of a text's table, and the number of its signals.
pub type Translated = (Vec<u8>, usize);

/// Writes the table of the text to the front of the lent one, and hands back the
/// numbers of its nodes and of its signals. A refusal leaves all as it was.
pub fn read(text: &[u8], table: &mut [u8]) -> Result<(usize, usize), Refusal> {
    if table.len() < MOST_BYTES {
        return Err(Refusal::whole(3));
    }
    let (bytes, signals) = translate(text).map_err(|placed| placed.refusal)?;
    table[..bytes.len()].copy_from_slice(&bytes);
    Ok((bytes.len() / 2, signals))
}

/// Why the text is refused, and where; none if it is read.
pub fn read_place(text: &[u8]) -> Option<Placed> {
    translate(text).err()
}

pub fn translate(text: &[u8]) -> Result<Translated, Placed> {
    if text.len() > MOST_TEXT {
        return Err(Placed::at(14, MOST_TEXT));
    }
    let automaton = Automaton::shared();
    let tokens = tokens::tokens(automaton, text);
    let place = |token: usize| tokens[token].place;
    let statements =
        parser::parse(automaton, &tokens).map_err(|wrong| outside(text, tokens.get(wrong)))?;
    let levels = names::levels(&statements, &tokens).map_err(|exit| Placed::at(15, place(exit)))?;
    let (numbers, signals) =
        names::signals(&statements, &tokens).map_err(|name| Placed::at(16, place(name)))?;
    let bytes = bytes(&statements, levels.into_iter().chain(numbers));
    check(&bytes).map_err(Placed::of_table)?;
    Ok((bytes, signals))
}

/// The refusal of a text with the first token with which it can't go on, or with none if
/// it merely stops.
fn outside(text: &[u8], wrong: Option<&Token>) -> Placed {
    match wrong {
        Some(token) if token.symbol == FOREIGN => Placed::at(20, token.place),
        Some(token) => Placed::at(14, token.place),
        None => Placed::at(14, text.len()),
    }
}

/// The checks of the table that a text can fail.
fn check(bytes: &[u8]) -> Result<(), Refusal> {
    table::measure(bytes)?;
    let tree = table::read(bytes).expect("one statement with all its children");
    checks::check_nesting(&tree)?;
    Ok(())
}

fn bytes(statements: &Statements, meant: impl Iterator<Item = Meant>) -> Vec<u8> {
    let mut fields = vec![0; statements.len()];
    // An exit of a level above 255 is too deep for check 8: no such table is written.
    meant.for_each(|(at, field)| fields[at] = field.min(255) as u8);
    let order = postfix(statements).into_iter();
    order
        .flat_map(|at| [statements[at].kind, fields[at]])
        .collect()
}
