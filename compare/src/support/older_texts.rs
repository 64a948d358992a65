//! Texts as F-1 has them, without F-9.

use crate::text::automaton::Automaton;
use crate::text::tokens::tokens;
use crate::text::{translate, Translated};
use crate::Refusal;

/// The words that F-9 takes from the names.
const TAKEN: [&str; 8] = [
    "halt",
    "sustain",
    "await",
    "abort",
    "weak",
    "immediate",
    "every",
    "case",
];

/// What a reader made of the text before F-9: the words are names, and a count is a word
/// like any other outside the grammar.
pub fn outcome_before_f9(text: &[u8]) -> Result<Translated, Refusal> {
    let renamed = with_names_for_words(text);
    translate(&renamed).map_err(|placed| match placed.refusal.number {
        20 => Refusal::whole(14),
        _ => placed.refusal,
    })
}

/// Each of the words becomes a name of its length that the text has not.
fn with_names_for_words(text: &[u8]) -> Vec<u8> {
    let tokens = tokens(Automaton::shared(), text);
    let is_new = |name: &Vec<u8>| tokens.iter().all(|token| token.bytes != name);
    let mut renamed = text.to_vec();
    for token in &tokens {
        if TAKEN.iter().any(|word| word.as_bytes() == token.bytes) {
            let (_, front) = token.bytes.split_last().expect("no token is empty");
            let mut names = (b'0'..=b'9').map(|digit| [front, &[digit]].concat());
            let name = names.find(is_new).expect("a name that the text has not");
            renamed[token.place..][..name.len()].copy_from_slice(&name);
        }
    }
    renamed
}
