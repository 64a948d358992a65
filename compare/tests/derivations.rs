//! The shift-reduce parser beside a chart that counts derivations, straight from the
//! productions: what it accepts has one derivation, and what it refuses has none.

use compare::support::derivations::Sides;
use compare::support::random::Random;
use compare::support::texts::{damage_tokens, printed, DIALECT, NUMBERS};
use compare::support::SEED;
use compare::text::automaton::Automaton;
use compare::text::grammar::{Symbol, FOREIGN, OTHER};
use compare::text::parser::parse;
use compare::text::tokens::{tokens, Token};

/// A parser and the right sides that it was made from.
struct Compared {
    automaton: &'static Automaton,
    sides: Sides,
}

impl Compared {
    fn new() -> Compared {
        let automaton = Automaton::shared();
        let sides = Sides::new(&automaton.grammar);
        Compared { automaton, sides }
    }

    /// Whether there is a derivation, by parser and chart alike.
    fn is_derived(&self, list: &[Symbol]) -> bool {
        let is_accepted = parse(self.automaton, &unnamed(list)).is_ok();
        let program = self.automaton.grammar.rules[0].left;
        let count = self.sides.count(program, list);
        assert_eq!(count, u64::from(is_accepted), "{list:?}");
        is_accepted
    }

    /// Compares all lists up to a length. Hands back how many have a derivation.
    fn all_lists(&self, alphabet: &[Symbol], longest: usize) -> usize {
        let mut derived = 0;
        let mut lists = vec![Vec::new()];
        while let Some(list) = lists.pop() {
            derived += usize::from(self.is_derived(&list));
            if list.len() < longest {
                let longer = |&symbol| [&list[..], &[symbol]].concat();
                lists.extend(alphabet.iter().map(longer));
            }
        }
        derived
    }
}

fn symbols(words: &str) -> Vec<Symbol> {
    let known = &Automaton::shared().grammar.symbols;
    let number = |word| known.iter().position(|&symbol| symbol == word);
    words
        .split(' ')
        .map(|word| number(word).expect("a symbol"))
        .collect()
}

#[test]
fn all_lists_of_four_tokens() {
    let grammar = &Automaton::shared().grammar;
    let all = 0..grammar.symbols.len();
    let mut alphabet: Vec<Symbol> = all.filter(|&symbol| grammar.is_terminal(symbol)).collect();
    alphabet.retain(|&symbol| grammar.symbols[symbol] != "FINISH");
    assert!(alphabet.contains(&OTHER) && alphabet.contains(&FOREIGN));
    assert_eq!(alphabet.len(), 26);
    // Nothing, pause and halt; emit, exit, sustain and await; two in a sequence; a loop or
    // a suspend.
    let (leaves, named) = (3, 4);
    let sequences = leaves * leaves + 2 * leaves * named;
    let around = 2 * leaves + named;
    let derived = Compared::new().all_lists(&alphabet, 4);
    assert_eq!(derived, leaves + named + sequences + around);
}

/// Longer ones of few words each.
#[test]
fn all_lists_of_few_words() {
    for (words, longest) in [
        ("pause ; [ || ]", 7),
        ("present NAME then pause else end", 6),
        ("suspend pause when NAME ;", 7),
        ("loop trap NAME in pause end", 6),
        ("loop [ pause || ] end", 6),
        ("abort pause when NAME end", 7),
        ("weak abort halt when NAME end", 6),
    ] {
        let derived = Compared::new().all_lists(&symbols(words), longest);
        println!("{words}, up to {longest}: {derived} texts");
        assert!(derived > 1, "{words}");
    }
}

/// Printed programs have a derivation; with a token spoilt most have none.
#[test]
fn printed_programs_and_spoilt_ones() {
    let random = &mut Random::new(SEED);
    let compared = Compared::new();
    let mut refused = 0;
    for round in 0..900 {
        let number = [DIALECT - 1, NUMBERS - 1][round % 2];
        let mut words = printed(random, number).tokens;
        if words.len() > 40 {
            continue;
        }
        assert!(compared.is_derived(&listed(&words)));
        damage_tokens(random, &mut words);
        refused += usize::from(!compared.is_derived(&listed(&words)));
    }
    assert!(refused > 100, "{refused}");
}

/// The parser takes no token with which a text can't go on: it gets through every
/// beginning of a text, and stops at the same token whatever comes after that.
#[test]
fn the_first_wrong_token() {
    let random = &mut Random::new(SEED);
    for number in 0..400 {
        let mut words = printed(random, 18 + number % (NUMBERS - 18)).tokens;
        words.truncate(60);
        let list = listed(&words);
        assert_eq!(first_wrong(&list), list.len());
        damage_tokens(random, &mut words);
        let list = listed(&words);
        let wrong = first_wrong(&list);
        (0..=list.len()).for_each(|length| {
            assert_eq!(first_wrong(&list[..length]), length.min(wrong));
        });
    }
}

/// The place of the first wrong token, or the number of tokens if there is none.
fn first_wrong(list: &[Symbol]) -> usize {
    let parsed = parse(Automaton::shared(), &unnamed(list));
    parsed.map_or_else(|place| place, |_| list.len())
}

/// Tokens for the parser, which does not look at their bytes.
fn unnamed(list: &[Symbol]) -> Vec<Token<'static>> {
    let token = |&symbol| Token {
        symbol,
        bytes: b"",
        place: 0,
    };
    list.iter().map(token).collect()
}

fn listed(words: &[Vec<u8>]) -> Vec<Symbol> {
    let text = words.join(&b' ');
    let tokens = tokens(Automaton::shared(), &text);
    tokens.iter().map(|token| token.symbol).collect()
}
