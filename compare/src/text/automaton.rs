//! The tables of a shift-reduce parser, made from the productions: SLR(1), as the
//! textbooks have it. A grammar for which this succeeds has at most one derivation
//! for a text.

use std::collections::BTreeSet;
use std::sync::OnceLock;

use super::grammar::{Grammar, Symbol, FINISH};

/// What to do in a state when a symbol comes next.
#[derive(Clone, Copy, Debug, PartialEq, Eq)]
pub enum Action {
    Refuse,
    /// Take the symbol and go on in this state.
    Shift(usize),
    /// The right side of this rule is complete.
    Reduce(usize),
}

pub struct Automaton {
    pub grammar: Grammar,
    /// The words and signs of the language.
    pub words: Vec<(&'static [u8], Symbol)>,
    /// By state and symbol. The first state is the one before the text.
    actions: Vec<Vec<Action>>,
}

/// A rule, and how many symbols of its right side have been met.
type Item = (usize, usize);
type Items = BTreeSet<Item>;
/// A bit for each symbol.
type Symbols = u64;

impl Automaton {
    /// The one that all readers share.
    pub fn shared() -> &'static Automaton {
        static SHARED: OnceLock<Automaton> = OnceLock::new();
        SHARED.get_or_init(Automaton::new)
    }

    fn new() -> Automaton {
        let grammar = Grammar::new();
        assert!(grammar.symbols.len() <= Symbols::BITS as usize);
        let (states, mut actions) = shifts(&grammar);
        let follow = follow(&grammar, &first(&grammar));
        for (items, row) in states.iter().zip(&mut actions) {
            add_reductions(&grammar, &follow, items, row);
        }
        Automaton {
            words: grammar.words(),
            grammar,
            actions,
        }
    }

    pub fn action(&self, state: usize, symbol: Symbol) -> Action {
        self.actions[state][symbol]
    }
}

/// All states, and the shifts of each.
fn shifts(grammar: &Grammar) -> (Vec<Items>, Vec<Vec<Action>>) {
    let mut states = vec![closure(grammar, Items::from([(0, 0)]))];
    let mut actions = Vec::new();
    while let Some(items) = states.get(actions.len()).cloned() {
        let row = (0..grammar.symbols.len())
            .map(|symbol| shift(grammar, &mut states, &items, symbol))
            .collect();
        actions.push(row);
    }
    (states, actions)
}

/// To the state in which the symbol has been met, a new one where it is new.
fn shift(grammar: &Grammar, states: &mut Vec<Items>, items: &Items, symbol: Symbol) -> Action {
    let met: Items = items
        .iter()
        .filter(|&&(rule, dot)| grammar.rules[rule].right.get(dot) == Some(&symbol))
        .map(|&(rule, dot)| (rule, dot + 1))
        .collect();
    if met.is_empty() {
        return Action::Refuse;
    }
    let next = closure(grammar, met);
    let known = states.iter().position(|items| *items == next);
    Action::Shift(known.unwrap_or_else(|| {
        states.push(next);
        states.len() - 1
    }))
}

/// The items, and the beginnings of all rules for a symbol that may come next.
fn closure(grammar: &Grammar, mut items: Items) -> Items {
    let mut pending: Vec<Item> = items.iter().copied().collect();
    while let Some((rule, dot)) = pending.pop() {
        let next = grammar.rules[rule].right.get(dot);
        let rules = grammar.rules.iter().enumerate();
        let begun = rules.filter(|(_, rule)| next == Some(&rule.left));
        let begun = begun.map(|(rule, _)| (rule, 0));
        pending.extend(begun.filter(|&item| items.insert(item)));
    }
    items
}

/// The symbols with which each symbol can begin, itself included.
fn first(grammar: &Grammar) -> Vec<Symbols> {
    let itself = (0..grammar.symbols.len()).map(|symbol| 1 << symbol);
    least(itself.collect(), |first| {
        for rule in &grammar.rules {
            first[rule.left] |= first[rule.right[0]];
        }
    })
}

/// The symbols that can come after each symbol. No right side is empty.
fn follow(grammar: &Grammar, first: &[Symbols]) -> Vec<Symbols> {
    let mut finish = vec![0; grammar.symbols.len()];
    finish[grammar.rules[0].left] = 1 << FINISH;
    least(finish, |follow| {
        for rule in &grammar.rules {
            let neighbours = rule.right.iter().zip(&rule.right[1..]);
            neighbours.for_each(|(&symbol, &next)| follow[symbol] |= first[next]);
            let last = rule.right[rule.right.len() - 1];
            follow[last] |= follow[rule.left];
        }
    })
}

/// Adds until nothing changes any more.
fn least(mut sets: Vec<Symbols>, add: impl Fn(&mut Vec<Symbols>)) -> Vec<Symbols> {
    loop {
        let before = sets.clone();
        add(&mut sets);
        if sets == before {
            return sets;
        }
    }
}

/// A complete right side is reduced if what comes next can follow its left side.
fn add_reductions(grammar: &Grammar, follow: &[Symbols], items: &Items, row: &mut [Action]) {
    for &(rule, dot) in items {
        let left = grammar.rules[rule].left;
        if dot < grammar.rules[rule].right.len() {
            continue;
        }
        let next = row.iter_mut().enumerate();
        next.filter(|(symbol, _)| follow[left] >> symbol & 1 == 1)
            .filter(|(symbol, _)| grammar.is_terminal(*symbol))
            .for_each(|(symbol, action)| {
                let symbol = grammar.symbols[symbol];
                assert_eq!(*action, Action::Refuse, "two ways to go on at {symbol}");
                *action = Action::Reduce(rule);
            });
    }
}
