//! With which token a text can't go on to one of the grammar: by Earley's chart, straight
//! from the productions, and with tokens of its own making. It has no states of a parser
//! and looks no token ahead.

use crate::text::grammar::{Grammar, Symbol, FULL_LANGUAGE, NAME};
use crate::text::MOST_TEXT;
use crate::Placed;

/// A rule that may be in use: how many symbols of its right side have been met, and how
/// many tokens stand before these.
#[derive(Clone, Copy, PartialEq, Eq)]
struct Item {
    rule: usize,
    met: usize,
    begin: usize,
}

/// The items after each beginning of a list of tokens that can go on.
pub struct Chart<'a> {
    grammar: &'a Grammar,
    words: Vec<(&'static [u8], Symbol)>,
    sets: Vec<Vec<Item>>,
}

impl Chart<'_> {
    /// Before the first token.
    pub fn new(grammar: &Grammar) -> Chart<'_> {
        let mut chart = Chart {
            grammar,
            words: grammar.words(),
            sets: Vec::new(),
        };
        let first = Item {
            rule: 0,
            met: 0,
            begin: 0,
        };
        chart.add_set(vec![first]);
        chart
    }

    /// Takes a word, sign or other byte, if the list can go on with it.
    pub fn take(&mut self, piece: &[u8]) -> bool {
        self.symbol(piece)
            .is_some_and(|symbol| self.take_symbol(symbol))
    }

    pub fn take_symbol(&mut self, symbol: Symbol) -> bool {
        let after = self.after_next(self.sets.len() - 1, symbol);
        let goes_on = !after.is_empty();
        if goes_on {
            self.add_set(after);
        }
        goes_on
    }

    /// The terminal that it is, if it is one.
    fn symbol(&self, piece: &[u8]) -> Option<Symbol> {
        let word = self.words.iter().find(|(word, _)| *word == piece);
        let name = is_name(piece).then_some(NAME);
        word.map(|&(_, symbol)| symbol).or(name)
    }

    /// Gives the last token back.
    pub fn give_back(&mut self) {
        self.sets.pop();
    }

    /// Whether the tokens are a text of the grammar: the first rule is for one.
    pub fn is_text(&self) -> bool {
        let mut items = self.sets.last().into_iter().flatten();
        items.any(|item| item.rule == 0 && self.next(item).is_none())
    }

    /// The symbol that comes next, if the right side is not complete.
    fn next(&self, item: &Item) -> Option<Symbol> {
        let right = &self.grammar.rules[item.rule].right;
        right.get(item.met).copied()
    }

    /// The items of a set for which the symbol comes next, with the symbol met.
    fn after_next(&self, set: usize, symbol: Symbol) -> Vec<Item> {
        let items = self.sets[set].iter();
        let waiting = items.filter(|item| self.next(item) == Some(symbol));
        waiting
            .map(|&item| Item {
                met: item.met + 1,
                ..item
            })
            .collect()
    }

    /// Adds a set, with all items that follow from those given.
    fn add_set(&mut self, items: Vec<Item>) {
        let end = self.sets.len();
        self.sets.push(items);
        let mut at = 0;
        while let Some(&item) = self.sets[end].get(at) {
            for further in self.further(item, end) {
                if !self.sets[end].contains(&further) {
                    self.sets[end].push(further);
                }
            }
            at += 1;
        }
    }

    /// The rules for the symbol that comes next; or, if the right side is complete, the
    /// items that waited for its left side. No right side is empty, so that these are of an
    /// earlier set, which is whole.
    fn further(&self, item: Item, end: usize) -> Vec<Item> {
        let rules = self.grammar.rules.iter().enumerate();
        match self.next(&item) {
            Some(next) => rules
                .filter(|(_, rule)| rule.left == next)
                .map(|(rule, _)| Item {
                    rule,
                    met: 0,
                    begin: end,
                })
                .collect(),
            None => self.after_next(item.begin, self.grammar.rules[item.rule].left),
        }
    }
}

/// The refusal of a text by 14 or 20, with its place.
pub fn outside(grammar: &Grammar, text: &[u8]) -> Option<Placed> {
    if text.len() > MOST_TEXT {
        return Some(Placed::at(14, MOST_TEXT));
    }
    let mut chart = Chart::new(grammar);
    for (place, piece) in pieces(text) {
        if !chart.take(piece) {
            return Some(Placed::at(if is_foreign(piece) { 20 } else { 14 }, place));
        }
    }
    (!chart.is_text()).then_some(Placed::at(14, text.len()))
}

/// The words, signs and other bytes of a text, each with its place. A byte goes with those
/// before it if all of them are of a word, or if it is the second bar of two.
fn pieces(text: &[u8]) -> Vec<(usize, &[u8])> {
    let mut pieces: Vec<(usize, usize)> = Vec::new();
    for at in (0..text.len()).filter(|&at| !b" \t\n".contains(&text[at])) {
        match pieces.last_mut() {
            Some((begin, end)) if *end == at && is_one(&text[*begin..=at]) => *end = at + 1,
            _ => pieces.push((at, at + 1)),
        }
    }
    let bytes = pieces.into_iter();
    bytes
        .map(|(begin, end)| (begin, &text[begin..end]))
        .collect()
}

fn is_one(bytes: &[u8]) -> bool {
    let [first, .., last] = bytes else {
        return true;
    };
    bytes == b"||" || is_of_word(*first) && is_of_word(*last)
}

fn is_of_word(byte: u8) -> bool {
    matches!(byte, b'A'..=b'Z' | b'a'..=b'z' | b'0'..=b'9' | b'_')
}

/// Whether it is a name, if it is no word of a production.
fn is_name(piece: &[u8]) -> bool {
    piece[0].is_ascii_alphabetic() && piece.len() <= 32 && !is_foreign(piece)
}

/// Whether the full language has it, and no production: one of three words, or a count.
pub fn is_foreign(piece: &[u8]) -> bool {
    let digits = piece.iter().filter(|byte| byte.is_ascii_digit()).count();
    digits == piece.len() || FULL_LANGUAGE.iter().any(|word| word.as_bytes() == piece)
}
