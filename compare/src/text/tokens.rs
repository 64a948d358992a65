//! From the bytes of a text to its tokens: words, signs, and other bytes.

use super::automaton::Automaton;
use super::grammar::{Symbol, FOREIGN, FULL_LANGUAGE, NAME, OTHER};

/// The most characters of a name.
pub const MOST_CHARACTERS: usize = 32;

#[derive(Clone, Copy, Debug, PartialEq, Eq)]
pub struct Token<'a> {
    pub symbol: Symbol,
    pub bytes: &'a [u8],
    /// The byte of the text with which it begins.
    pub place: usize,
}

/// The tokens of the text, in their order.
pub fn tokens<'a>(automaton: &Automaton, text: &'a [u8]) -> Vec<Token<'a>> {
    let mut tokens = Vec::new();
    let mut place = after_blanks(text, 0);
    while place < text.len() {
        let rest = &text[place..];
        let bytes = &rest[..length(rest)];
        let symbol = symbol(automaton, bytes);
        tokens.push(Token {
            symbol,
            bytes,
            place,
        });
        place = after_blanks(text, place + bytes.len());
    }
    tokens
}

fn after_blanks(text: &[u8], place: usize) -> usize {
    let is_blank = |byte: &u8| matches!(byte, b' ' | b'\t' | b'\n');
    let rest = text[place..].iter();
    place + rest.take_while(|byte| is_blank(byte)).count()
}

/// The length of the token at the front of a rest that has one: an unbroken run of
/// letters, digits and underscores, a double bar, or a single byte.
fn length(rest: &[u8]) -> usize {
    let run = rest.iter().take_while(|byte| is_word_byte(byte)).count();
    match rest {
        _ if run > 0 => run,
        [b'|', b'|', ..] => 2,
        _ => 1,
    }
}

fn is_word_byte(byte: &u8) -> bool {
    byte.is_ascii_alphanumeric() || *byte == b'_'
}

fn symbol(automaton: &Automaton, bytes: &[u8]) -> Symbol {
    let word = automaton.words.iter().find(|(word, _)| *word == bytes);
    match word {
        Some(&(_, symbol)) => symbol,
        None if is_foreign(bytes) => FOREIGN,
        None if bytes[0].is_ascii_alphabetic() && bytes.len() <= MOST_CHARACTERS => NAME,
        None => OTHER,
    }
}

/// Whether it is a word of the full language, or a count.
fn is_foreign(bytes: &[u8]) -> bool {
    let is_word = FULL_LANGUAGE.iter().any(|word| word.as_bytes() == bytes);
    is_word || bytes.iter().all(u8::is_ascii_digit)
}
