//! How many derivations a list of symbols has, slowly and straight from the productions.

use crate::text::grammar::{Grammar, Symbol};

/// The right sides by left side; a terminal has none.
pub struct Sides(Vec<Vec<Vec<Symbol>>>);

impl Sides {
    pub fn new(grammar: &Grammar) -> Sides {
        let of = |symbol| {
            let rules = grammar.rules.iter().filter(move |rule| rule.left == symbol);
            rules.map(|rule| rule.right.clone()).collect()
        };
        Sides((0..grammar.symbols.len()).map(of).collect())
    }

    /// How often the symbol derives the list.
    pub fn count(&self, symbol: Symbol, list: &[Symbol]) -> u64 {
        let places = list.len() + 1;
        let mut parts = Parts {
            sides: &self.0,
            list,
            counts: vec![None; self.0.len() * places * places],
        };
        parts.count(symbol, 0, list.len())
    }
}

/// How many derivations each symbol has for each part of a list of symbols.
struct Parts<'a> {
    sides: &'a [Vec<Vec<Symbol>>],
    list: &'a [Symbol],
    /// By symbol, begin and end; none where it has not been asked for.
    counts: Vec<Option<u64>>,
}

impl Parts<'_> {
    /// No right side is empty, and no symbol derives itself: what is asked for next is a
    /// smaller part, or the same part for another symbol.
    fn count(&mut self, symbol: Symbol, begin: usize, end: usize) -> u64 {
        let sides = &self.sides[symbol];
        if sides.is_empty() {
            return u64::from(end == begin + 1 && self.list[begin] == symbol);
        }
        let places = self.list.len() + 1;
        let at = (symbol * places + begin) * places + end;
        if let Some(count) = self.counts[at] {
            return count;
        }
        let count = sides.iter().map(|side| self.ways(side, begin, end)).sum();
        self.counts[at] = Some(count);
        count
    }

    /// The ways to share the part among the symbols of a right side.
    fn ways(&mut self, right: &[Symbol], begin: usize, end: usize) -> u64 {
        let [symbol, rest @ ..] = right else {
            return u64::from(begin == end);
        };
        let mut ways = 0;
        for middle in begin + 1..=end.saturating_sub(rest.len()) {
            let before = self.count(*symbol, begin, middle);
            if before > 0 {
                ways += before * self.ways(rest, middle, end);
            }
        }
        ways
    }
}
