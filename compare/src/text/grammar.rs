//! The grammar of request F-1 with the forms of F-9, a production a line.

use Meaning::{Abort, Await, Halt, Kind, NoElse, NoThen, Same, Sustain, WeakAbort};

/// What a production makes of the statements on its right side.
#[derive(Clone, Copy, Debug, PartialEq, Eq)]
pub enum Meaning {
    /// Its one statement, as it is.
    Same,
    /// A statement of this kind. Those on the right side are its children.
    Kind(u8),
    /// A present whose then branch is missing.
    NoThen,
    /// A present whose else branch is missing.
    NoElse,
    // The forms of F-9, which stand for several statements each.
    Halt,
    Sustain,
    Await,
    Abort,
    WeakAbort,
}

/// Left side, right side, meaning. The first one is for a whole text. What stands
/// on no left side is a word or sign of the language, but for NAME. A repetition
/// that groups to the left is a production with its own left side in front.
pub const PRODUCTIONS: [(&str, &str, Meaning); 23] = [
    ("program", "sequence", Same),
    ("sequence", "statement", Same),
    ("sequence", "sequence ; statement", Kind(9)),
    ("bracket", "[ branches ]", Same),
    ("branches", "sequence || sequence", Kind(10)),
    ("branches", "branches || sequence", Kind(10)),
    ("statement", "nothing", Kind(1)),
    ("statement", "pause", Kind(2)),
    ("statement", "emit NAME", Kind(3)),
    ("statement", "exit NAME", Kind(4)),
    ("statement", "bracket", Same),
    ("statement", "signal NAME in sequence end", Kind(5)),
    ("statement", "trap NAME in sequence end", Kind(11)),
    ("statement", "loop sequence end", Kind(8)),
    ("statement", "present NAME then sequence end", NoElse),
    (
        "statement",
        "present NAME then sequence else sequence end",
        Kind(6),
    ),
    ("statement", "present NAME else sequence end", NoThen),
    ("statement", "suspend sequence when NAME", Kind(7)),
    ("statement", "halt", Halt),
    ("statement", "sustain NAME", Sustain),
    ("statement", "await NAME", Await),
    ("statement", "abort sequence when NAME end", Abort),
    ("statement", "weak abort sequence when NAME end", WeakAbort),
];

/// Words of the full language. They are no names, and no production has them.
pub const FULL_LANGUAGE: [&str; 3] = ["immediate", "every", "case"];

/// The number of a symbol: its place in `Grammar::symbols`.
pub type Symbol = usize;

pub const NAME: Symbol = 0;
/// Stands after the last token.
pub const FINISH: Symbol = 1;
/// A token that no production has: a byte or a word outside the language.
pub const OTHER: Symbol = 2;
/// One that no production has either, but the full language: one of its words, or a count.
pub const FOREIGN: Symbol = 3;

pub struct Rule {
    pub left: Symbol,
    /// At least one symbol.
    pub right: Vec<Symbol>,
    pub meaning: Meaning,
}

/// The productions with numbers for symbols.
pub struct Grammar {
    pub symbols: Vec<&'static str>,
    pub rules: Vec<Rule>,
}

impl Grammar {
    pub fn new() -> Grammar {
        let mut symbols = vec!["NAME", "FINISH", "OTHER", "FOREIGN"];
        let rules = PRODUCTIONS
            .iter()
            .map(|&(left, right, meaning)| Rule {
                left: number(&mut symbols, left),
                right: right
                    .split(' ')
                    .map(|symbol| number(&mut symbols, symbol))
                    .collect(),
                meaning,
            })
            .collect();
        Grammar { symbols, rules }
    }

    pub fn is_terminal(&self, symbol: Symbol) -> bool {
        self.rules.iter().all(|rule| rule.left != symbol)
    }

    /// The words and signs of the language.
    pub fn words(&self) -> Vec<(&'static [u8], Symbol)> {
        (FOREIGN + 1..self.symbols.len())
            .filter(|&symbol| self.is_terminal(symbol))
            .map(|symbol| (self.symbols[symbol].as_bytes(), symbol))
            .collect()
    }
}

impl Default for Grammar {
    fn default() -> Grammar {
        Grammar::new()
    }
}

/// The symbol's number, a new one where it is new.
fn number(symbols: &mut Vec<&'static str>, symbol: &'static str) -> Symbol {
    let known = symbols.iter().position(|&other| other == symbol);
    known.unwrap_or_else(|| {
        symbols.push(symbol);
        symbols.len() - 1
    })
}

#[cfg(test)]
mod tests {
    use super::*;

    #[test]
    fn the_words_and_signs() {
        let grammar = Grammar::new();
        let mut words: Vec<&str> = grammar
            .words()
            .iter()
            .map(|&(_, symbol)| grammar.symbols[symbol])
            .collect();
        let mut expected: Vec<&str> = "nothing pause signal in end emit present then else \
             suspend when loop trap exit halt sustain await abort weak ; || [ ]"
            .split_whitespace()
            .collect();
        words.sort_unstable();
        expected.sort_unstable();
        assert_eq!(words, expected);
    }
}
