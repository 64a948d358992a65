//! The shift-reduce parser: from tokens to statements, with a stack of its own.

use super::automaton::{Action, Automaton};
use super::dialect;
use super::grammar::{Meaning, FINISH, NAME};
use super::statements::{add, Statements, NOTHING, PRESENT};
use super::tokens::Token;

/// What has been met and is not yet part of a complete right side.
#[derive(Clone, Copy)]
struct Entry {
    /// The state after it.
    state: usize,
    part: Part,
}

#[derive(Clone, Copy)]
enum Part {
    Word,
    Name(usize),
    Statement(usize),
}

struct Parser<'a> {
    automaton: &'a Automaton,
    stack: Vec<Entry>,
    statements: Statements,
}

/// The statements. If the grammar has no derivation for the tokens, the first one with
/// which they can't go on to a text that has one, or their number if they merely stop.
///
/// No token is taken with which they can't go on: what is on the stack can always be
/// completed. A right side may be reduced though the next token can't follow it here, but
/// then that token is the one that is refused.
pub fn parse(automaton: &Automaton, tokens: &[Token]) -> Result<Statements, usize> {
    let mut parser = Parser {
        automaton,
        stack: Vec::new(),
        statements: Vec::new(),
    };
    let mut next = 0;
    loop {
        let symbol = tokens.get(next).map_or(FINISH, |token| token.symbol);
        match automaton.action(parser.state(), symbol) {
            Action::Refuse => return Err(next),
            Action::Shift(state) => {
                let is_name = symbol == NAME;
                let part = if is_name {
                    Part::Name(next)
                } else {
                    Part::Word
                };
                parser.stack.push(Entry { state, part });
                next += 1;
            }
            // The production of the whole text.
            Action::Reduce(0) => return Ok(parser.statements),
            Action::Reduce(rule) => parser.reduce(rule),
        }
    }
}

impl Parser<'_> {
    fn state(&self) -> usize {
        self.stack.last().map_or(0, |entry| entry.state)
    }

    /// Puts the left side in the place of the right one.
    fn reduce(&mut self, rule: usize) {
        let rule = &self.automaton.grammar.rules[rule];
        let right = self.stack.split_off(self.stack.len() - rule.right.len());
        let part = Part::Statement(self.statement(rule.meaning, &right));
        let Action::Shift(state) = self.automaton.action(self.state(), rule.left) else {
            unreachable!("a left side is complete only where it can come next");
        };
        self.stack.push(Entry { state, part });
    }

    fn statement(&mut self, meaning: Meaning, right: &[Entry]) -> usize {
        let name = right.iter().find_map(|entry| match entry.part {
            Part::Name(token) => Some(token),
            _ => None,
        });
        let children: Vec<usize> = right.iter().filter_map(Entry::statement).collect();
        let statements = &mut self.statements;
        match meaning {
            Meaning::Same => children[0],
            Meaning::Kind(kind) => add(statements, kind, name, children),
            Meaning::NoThen => {
                let missing = add(statements, NOTHING, None, []);
                add(statements, PRESENT, name, [missing, children[0]])
            }
            Meaning::NoElse => {
                let missing = add(statements, NOTHING, None, []);
                add(statements, PRESENT, name, [children[0], missing])
            }
            Meaning::Halt => dialect::halt(statements),
            Meaning::Sustain => dialect::sustain(statements, name),
            Meaning::Await => dialect::await_signal(statements, name),
            Meaning::Abort => dialect::abort(statements, children[0], name),
            Meaning::WeakAbort => dialect::weak_abort(statements, children[0], name),
        }
    }
}

impl Entry {
    fn statement(&self) -> Option<usize> {
        match self.part {
            Part::Statement(statement) => Some(statement),
            Part::Word | Part::Name(_) => None,
        }
    }
}
