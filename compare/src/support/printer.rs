//! A printer of programs as text, with random names, blanks and forms of present.
//!
//! A sequence as the second child of a sequence can't be written: the text groups
//! to the left. Such sequences are regrouped, `a; (b; c)` to `(a; b); c`, in the
//! text and in the table that is expected of it.

use std::collections::{BTreeSet, HashMap};

use super::random::Random;
use crate::instant::SIGNALS;
use crate::text::grammar::{Grammar, FULL_LANGUAGE};
use crate::text::{Translated, MOST_TEXT};
use crate::{checks, table, Placed, Refusal};

/// Kind and field as in a table, children before parents; and the forms of F-9, whose
/// field is their signal. Signals and levels may be more than a byte holds. A level counts
/// the traps that are written, not those that a form adds.
pub type Node = (u8, usize);

pub const HALT: u8 = 12;
pub const SUSTAIN: u8 = 13;
pub const AWAIT: u8 = 14;
pub const ABORT: u8 = 15;
pub const WEAK_ABORT: u8 = 16;

pub fn nodes_of(table: &[u8]) -> Vec<Node> {
    let nodes = table.chunks_exact(2);
    nodes.map(|node| (node[0], usize::from(node[1]))).collect()
}

fn bytes_of(nodes: &[Node]) -> Vec<u8> {
    let bytes = nodes.iter();
    bytes
        .flat_map(|&(kind, field)| [kind, field as u8])
        .collect()
}

/// The children of each node of a program, which is one statement.
fn children(nodes: &[Node]) -> Vec<Vec<usize>> {
    let mut unused: Vec<usize> = Vec::new();
    let mut children = Vec::new();
    for (node, &(kind, _)) in nodes.iter().enumerate() {
        children.push(unused.split_off(unused.len() - arity(kind)));
        unused.push(node);
    }
    assert_eq!(unused.len(), 1, "one statement");
    children
}

fn arity(kind: u8) -> usize {
    match kind {
        1..=4 | HALT | SUSTAIN | AWAIT => 0,
        6 | 9 | 10 => 2,
        _ => 1,
    }
}

/// A program as text, and what a reader must make of it.
#[derive(Clone, Default)]
pub struct Printed {
    /// The words and signs, without blanks.
    pub tokens: Vec<Vec<u8>>,
    /// In the kernel, regrouped, with signals numbered in the order of the text.
    table: Vec<Node>,
    signals: usize,
    /// The token that names the trap of the first exit without one.
    first_open: Option<usize>,
    /// The token that is the first signal's name too many.
    first_too_many: Option<usize>,
}

impl Printed {
    /// What is expected of these tokens as a text: the table's bytes and the number of
    /// signals, or the refusal and its place. By the program alone: nothing is read.
    pub fn outcome_of(&self, text: &[u8]) -> Result<Translated, Placed> {
        if text.len() > MOST_TEXT {
            return Err(Placed::at(14, MOST_TEXT));
        }
        if let Some(exit) = self.first_open {
            return Err(Placed::at(15, self.place_of(exit, text)));
        }
        if let Some(name) = self.first_too_many {
            return Err(Placed::at(16, self.place_of(name, text)));
        }
        let table = bytes_of(&self.table);
        check(&table).map_err(Placed::of_table)?;
        Ok((table, self.signals))
    }

    /// Where the token begins in a text of these tokens.
    fn place_of(&self, token: usize, text: &[u8]) -> usize {
        let mut place = 0;
        for before in &self.tokens[..token] {
            place = after_blanks(text, place) + before.len();
        }
        after_blanks(text, place)
    }
}

fn after_blanks(text: &[u8], place: usize) -> usize {
    let rest = text[place..].iter();
    place + rest.take_while(|byte| b" \t\n".contains(byte)).count()
}

/// Checks 1, 8 and 9.
fn check(table: &[u8]) -> Result<(), Refusal> {
    table::measure(table)?;
    checks::check_nesting(&table::read(table)?)?;
    Ok(())
}

/// Prints a program, which is one statement. An exit whose level is not below the
/// number of traps around it gets a name that none of them has.
pub fn print(random: &mut Random, lengths: Lengths, nodes: &[Node]) -> Printed {
    let children = children(nodes);
    let mut printer = Printer {
        nodes,
        escapes: escapes(nodes, &children),
        children,
        names: Names::new(random, lengths),
        signals: HashMap::new(),
        numbers: HashMap::new(),
        traps: Vec::new(),
        printed: Printed::default(),
    };
    printer.statement(nodes.len() - 1);
    printer.printed.signals = printer.numbers.len();
    printer.printed
}

/// The levels of the exits in each statement that leave it, counted from it.
fn escapes(nodes: &[Node], children: &[Vec<usize>]) -> Vec<BTreeSet<usize>> {
    let mut escapes: Vec<BTreeSet<usize>> = Vec::new();
    for (&(kind, field), children) in nodes.iter().zip(children) {
        let within = children.iter().flat_map(|&child| escapes[child].clone());
        escapes.push(match kind {
            4 => BTreeSet::from([field]),
            11 => within.filter_map(|level| level.checked_sub(1)).collect(),
            _ => within.collect(),
        });
    }
    escapes
}

struct Printer<'a> {
    nodes: &'a [Node],
    children: Vec<Vec<usize>>,
    escapes: Vec<BTreeSet<usize>>,
    names: Names<'a>,
    /// The name of each signal of the program.
    signals: HashMap<usize, Vec<u8>>,
    /// The number of each signal by its first place in the text.
    numbers: HashMap<usize, usize>,
    /// The names of the traps around, outermost first. One that a form adds has none.
    traps: Vec<Option<Vec<u8>>>,
    printed: Printed,
}

impl Printer<'_> {
    fn statement(&mut self, node: usize) {
        let kind = self.nodes[node].0;
        let field = match (kind, &self.children[node].clone()[..]) {
            (1, []) => self.word("nothing"),
            (2, []) => self.word("pause"),
            (3, []) => self.word_and_signal("emit", node),
            (4, []) => self.exit(node),
            (5, &[body]) => {
                let signal = self.word_and_signal("signal", node);
                self.block("in", body);
                signal
            }
            (6, &[then, otherwise]) => self.present(node, then, otherwise),
            (7, &[body]) => {
                self.word("suspend");
                self.statement(body);
                self.word_and_signal("when", node)
            }
            (8, &[body]) => self.block("loop", body),
            (9, _) => return self.sequence(node),
            (10, &[left, right]) => {
                self.word("[");
                self.branches(left, right);
                self.word("]");
                return;
            }
            (11, &[body]) => self.trap(node, body),
            _ => return self.form(node),
        };
        self.node(kind, field);
    }

    /// Its field in the table is 0.
    fn word(&mut self, word: &str) -> usize {
        self.printed.tokens.push(word.into());
        0
    }

    fn word_and_signal(&mut self, word: &str, node: usize) -> usize {
        self.word(word);
        self.signal(node)
    }

    fn node(&mut self, kind: u8, field: usize) {
        self.printed.table.push((kind, field));
    }

    fn block(&mut self, begin: &str, body: usize) -> usize {
        self.word(begin);
        self.statement(body);
        self.word("end")
    }

    /// The signal's name; its field is the number by first appearance.
    fn signal(&mut self, node: usize) -> usize {
        let signal = self.nodes[node].1;
        let next = self.numbers.len();
        let number = *self.numbers.entry(signal).or_insert(next);
        let token = self.printed.tokens.len();
        if number == SIGNALS {
            self.printed.first_too_many.get_or_insert(token);
        }
        let names = &mut self.names;
        let name = self.signals.entry(signal).or_insert_with(|| names.fresh());
        self.printed.tokens.push(name.clone());
        number
    }

    /// A branch that is nothing may be left out, but not both.
    fn present(&mut self, node: usize, then: usize, otherwise: usize) -> usize {
        let signal = self.word_and_signal("present", node);
        let mut may_be_missing =
            |branch: usize| self.nodes[branch].0 == 1 && self.names.random.one_in(2);
        let no_then = may_be_missing(then);
        let no_else = !no_then && may_be_missing(otherwise);
        self.branch(no_then, "then", then);
        self.branch(no_else, "else", otherwise);
        self.word("end");
        signal
    }

    fn branch(&mut self, is_missing: bool, begin: &str, branch: usize) {
        if is_missing {
            return self.node(1, 0);
        }
        self.word(begin);
        self.statement(branch);
    }

    /// Grouped to the left, however it was grouped.
    fn sequence(&mut self, node: usize) {
        for (at, item) in self.items(node).into_iter().enumerate() {
            if at > 0 {
                self.word(";");
            }
            self.statement(item);
            if at > 0 {
                self.node(9, 0);
            }
        }
    }

    /// What stands between the semicolons of a sequence.
    fn items(&self, sequence: usize) -> Vec<usize> {
        let mut items = Vec::new();
        let mut pending = vec![sequence];
        while let Some(node) = pending.pop() {
            match self.nodes[node].0 {
                9 => pending.extend(self.children[node].iter().rev()),
                _ => items.push(node),
            }
        }
        items
    }

    /// A parallel on the left can do without brackets of its own.
    fn branches(&mut self, left: usize, right: usize) {
        let is_parallel = self.nodes[left].0 == 10;
        match self.children[left][..] {
            [left, right] if is_parallel && self.names.random.one_in(2) => {
                self.branches(left, right)
            }
            _ => self.statement(left),
        }
        self.word("||");
        self.statement(right);
        self.node(10, 0);
    }

    /// The name may be that of a trap around it, unless an exit within means that one.
    fn trap(&mut self, node: usize, body: usize) -> usize {
        let escapes = self.escapes[node].iter();
        let meant = escapes.filter_map(|&level| Some(self.written_traps().nth(level)?.1));
        let name = self.names.other_than(&meant.cloned().collect::<Vec<_>>());
        self.word("trap");
        self.printed.tokens.push(name.clone());
        self.traps.push(Some(name));
        self.block("in", body);
        self.traps.pop();
        0
    }

    /// The names of the traps that are written, innermost first, each with the number of
    /// traps within it, added ones too.
    fn written_traps(&self) -> impl Iterator<Item = (usize, &Vec<u8>)> {
        let inward = self.traps.iter().rev().enumerate();
        inward.filter_map(|(within, trap)| Some((within, trap.as_ref()?)))
    }

    fn exit(&mut self, node: usize) -> usize {
        self.word("exit");
        let written = self.nodes[node].1;
        let meant = self.written_traps().nth(written);
        let (level, name) = match meant {
            Some((level, name)) => (level, name.clone()),
            None => {
                let token = self.printed.tokens.len();
                self.printed.first_open.get_or_insert(token);
                let all: Vec<Vec<u8>> = self.traps.iter().flatten().cloned().collect();
                (written, self.names.other_than(&all))
            }
        };
        self.printed.tokens.push(name);
        level
    }

    /// A form of F-9, and the nodes that it stands for.
    fn form(&mut self, node: usize) {
        match (self.nodes[node].0, &self.children[node].clone()[..]) {
            (HALT, []) => {
                self.word("halt");
                self.nodes(&[(2, 0), (8, 0)]);
            }
            (SUSTAIN, []) => {
                let signal = self.word_and_signal("sustain", node);
                self.nodes(&[(3, signal), (2, 0), (9, 0), (8, 0)]);
            }
            (AWAIT, []) => {
                let signal = self.word_and_signal("await", node);
                self.nodes(&waiting(signal));
                self.node(11, 0);
            }
            (ABORT, &[body]) => {
                let signal = self.abort(node, body);
                self.node(7, signal);
                self.end_abort(signal);
            }
            (WEAK_ABORT, &[body]) => {
                self.word("weak");
                let signal = self.abort(node, body);
                self.end_abort(signal);
            }
            other => panic!("no form has this kind and these children: {other:?}"),
        }
    }

    fn nodes(&mut self, nodes: &[Node]) {
        self.printed.table.extend(nodes);
    }

    /// The text of an abort, and the nodes of its body, whose exits have one more trap
    /// around them. Handed back is the number of its signal.
    fn abort(&mut self, node: usize, body: usize) -> usize {
        self.word("abort");
        self.traps.push(None);
        self.statement(body);
        self.traps.pop();
        let signal = self.word_and_signal("when", node);
        self.word("end");
        signal
    }

    /// The nodes after the body, which may be suspended.
    fn end_abort(&mut self, signal: usize) {
        self.nodes(&[(4, 0), (9, 0)]);
        self.nodes(&waiting(signal));
        self.nodes(&[(10, 0), (11, 0)]);
    }
}

/// The loop of an await or abort: pause, exit, nothing, present, sequence, loop.
fn waiting(signal: usize) -> [Node; 6] {
    [(2, 0), (4, 0), (1, 0), (6, signal), (9, 0), (8, 0)]
}

/// How long the names of a text are.
#[derive(Clone, Copy, Debug, PartialEq, Eq)]
pub enum Lengths {
    /// One character each, as long as there are such names.
    Least,
    Short,
    Any,
    Longest,
}

/// Where names come from: each is given to one signal at most, and to any number of
/// traps.
struct Names<'a> {
    random: &'a mut Random,
    lengths: Lengths,
    words: Vec<&'static [u8]>,
    given: Vec<Vec<u8>>,
}

/// Names that only just differ from words, and names that a reader may have a use of
/// its own for.
const CLOSE_NAMES: [&str; 18] = [
    "emi",
    "emits",
    "emit3",
    "Emit",
    "END",
    "in_",
    "i",
    "nothings",
    "presen",
    "present_",
    "thenelse",
    "S0",
    "NAME",
    "sequence",
    "halt_",
    "Case",
    "awai",
    "weakabort",
];

impl Names<'_> {
    fn new(random: &mut Random, lengths: Lengths) -> Names<'_> {
        let words = Grammar::new().words().into_iter().map(|(word, _)| word);
        let foreign = FULL_LANGUAGE.iter().map(|word| word.as_bytes());
        Names {
            random,
            lengths,
            words: words.chain(foreign).collect(),
            given: Vec::new(),
        }
    }

    /// A name that was not given before.
    fn fresh(&mut self) -> Vec<u8> {
        for attempt in 0.. {
            let name = match self.lengths {
                Lengths::Least => shortest(self.given.len() + attempt),
                _ => self.any(),
            };
            if !self.words.contains(&&name[..]) && !self.given.contains(&name) {
                self.given.push(name.clone());
                return name;
            }
        }
        unreachable!("there are more names than a text has room for")
    }

    /// A name that was given before, if there is one of these that is allowed.
    fn other_than(&mut self, others: &[Vec<u8>]) -> Vec<u8> {
        for _ in 0..4 {
            let at = self.random.below(self.given.len() + 1);
            match self.given.get(at) {
                Some(name) if !others.contains(name) => return name.clone(),
                _ => {}
            }
        }
        self.fresh()
    }

    fn any(&mut self) -> Vec<u8> {
        if self.random.one_in(12) {
            return self.random.pick(&CLOSE_NAMES).as_bytes().to_vec();
        }
        let length = match self.lengths {
            Lengths::Least | Lengths::Short => self.random.between(1, 3),
            Lengths::Any => self.random.between(1, 32),
            Lengths::Longest => 32,
        };
        if self.random.one_in(3) {
            return self.much_alike(length);
        }
        let letter = *self.random.pick(LETTERS);
        let further = (1..length).map(|_| *self.random.pick(CHARACTERS));
        std::iter::once(letter).chain(further).collect()
    }

    /// Such names differ only in their last characters.
    fn much_alike(&mut self, length: usize) -> Vec<u8> {
        let mut name = vec![b'a'; length.max(2)];
        let last = name.len() - 1;
        name[last - 1] = *self.random.pick(LETTERS);
        name[last] = *self.random.pick(CHARACTERS);
        name
    }
}

/// The names in the order of their lengths, up to two characters.
fn shortest(number: usize) -> Vec<u8> {
    let letter = LETTERS[number % LETTERS.len()];
    match number / LETTERS.len() {
        0 => vec![letter],
        further => vec![letter, CHARACTERS[further - 1]],
    }
}

const LETTERS: &[u8; 52] = b"ABCDEFGHIJKLMNOPQRSTUVWXYZabcdefghijklmnopqrstuvwxyz";
const CHARACTERS: &[u8; 63] = b"ABCDEFGHIJKLMNOPQRSTUVWXYZabcdefghijklmnopqrstuvwxyz0123456789_";

/// How much room is between tokens.
#[derive(Clone, Copy, Debug, PartialEq, Eq)]
pub enum Blanks {
    /// None where none is needed.
    Least,
    One,
    Few,
    Many,
}

/// The tokens with blanks between them, at least where two words would become one.
pub fn joined(random: &mut Random, blanks: Blanks, tokens: &[Vec<u8>]) -> Vec<u8> {
    let mut text = Vec::new();
    for token in tokens {
        let is_between_words = is_word(text.last()) && is_word(token.first());
        let needed = usize::from(is_between_words);
        let count = match blanks {
            Blanks::Least => needed,
            Blanks::One => usize::from(!text.is_empty()),
            Blanks::Few => needed.max(random.below(3)),
            Blanks::Many => random.between(1, 12),
        };
        text.extend((0..count).map(|_| *random.pick(b"  \t\n")));
        text.extend(token);
    }
    if blanks != Blanks::Least {
        text.extend((0..random.below(3)).map(|_| *random.pick(b" \t\n")));
    }
    text
}

fn is_word(byte: Option<&u8>) -> bool {
    byte.is_some_and(|byte| byte.is_ascii_alphanumeric() || *byte == b'_')
}
