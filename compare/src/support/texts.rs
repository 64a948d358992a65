//! Texts to try: printed programs of all sizes, and texts that are spoilt.

use super::printer::{
    joined, nodes_of, print, Blanks, Lengths, Node, Printed, ABORT, AWAIT, HALT, SUSTAIN,
    WEAK_ABORT,
};
use super::programs::{accepted, balanced, SHAPES};
use super::random::Random;
use crate::checks::MOST_TRAPS;
use crate::instant::SIGNALS;

/// The numbers of `program` that give each kind of program its share. Those from the
/// dialect's on have forms of F-9 in them.
pub const NUMBERS: usize = DIALECT + 18;
pub const DIALECT: usize = 36;

/// A program for each number in turn: of all shapes, and about as large, as deep, in as
/// many traps or with as many signals as is allowed. It need not be accepted: a loop
/// may end at once, and an exit may have no trap.
pub fn program(random: &mut Random, number: usize) -> Vec<Node> {
    if number >= DIALECT {
        return dialect(random, number - DIALECT);
    }
    // Each shape once, then those first that fill the nodes they are given.
    let turn = if number < 9 { 0 } else { 4 };
    let shape = &SHAPES[(number + turn) % SHAPES.len()];
    let sizes = match number {
        0..9 => [900, 1024],
        9..12 => [1025, 1200],
        12..18 => [61, 300],
        _ => [1, 60],
    };
    let nodes = random.between(sizes[0], sizes[1]);
    let mut program = nodes_of(&accepted(random, shape, nodes));
    match number {
        18..21 => wrap(
            &mut program,
            &[11],
            random.between(MOST_TRAPS - 12, MOST_TRAPS + 2),
        ),
        21..24 => wrap(&mut program, &[5, 7, 8, 11], random.between(225, 258)),
        24..26 => program = many_signals(random, &OF_A_SIGNAL),
        26..28 => change_levels(random, &mut program),
        28..30 => change_pauses(random, &mut program),
        _ => {}
    }
    if random.one_in(4) {
        let most = *random.pick(&[2, 30, 300]);
        change_signals(random, &mut program, most);
    }
    program
}

/// The same with forms of F-9: of all shapes, about as large or in as many traps as is
/// allowed, with about as many signals, and with exits that may have no trap.
fn dialect(random: &mut Random, number: usize) -> Vec<Node> {
    let sizes = match number {
        // A form stands for up to 12 nodes.
        0..4 => [120, 220],
        _ => [1, 24],
    };
    let nodes = random.between(sizes[0], sizes[1]);
    let shape = &SHAPES[number % SHAPES.len()];
    let kernel = nodes_of(&accepted(random, shape, nodes));
    let mut program = with_forms(random, &kernel);
    match number {
        4..6 => wrap(
            &mut program,
            &[ABORT, WEAK_ABORT, 11],
            random.between(MOST_TRAPS - 6, MOST_TRAPS + 1),
        ),
        6..8 => program = many_signals(random, &FORMS_OF_A_SIGNAL),
        8..10 => change_levels(random, &mut program),
        10..12 => change_pauses(random, &mut program),
        _ => {}
    }
    program
}

/// Puts forms in the place of some of the leaves, and around some of the statements.
fn with_forms(random: &mut Random, program: &[Node]) -> Vec<Node> {
    let mut changed = Vec::new();
    for &node in program {
        let is_leaf = matches!(node.0, 1..=3);
        let signal = random.below(4);
        changed.push(match is_leaf && random.one_in(3) {
            true => (*random.pick(&[HALT, SUSTAIN, AWAIT]), signal),
            false => node,
        });
        if random.one_in(6) {
            changed.push((*random.pick(&[ABORT, WEAK_ABORT]), random.below(4)));
        }
    }
    changed
}

/// Puts so many nodes of one child around it, of these kinds by turns.
fn wrap(program: &mut Vec<Node>, kinds: &[u8], times: usize) {
    let kinds = kinds.iter().cycle().take(times);
    program.extend(kinds.map(|&kind| (kind, 0)));
}

/// About as many signals as are allowed, each in a statement of its own, one of these.
fn many_signals(random: &mut Random, statements: &[&[u8]]) -> Vec<Node> {
    let count = random.between(SIGNALS - 2, SIGNALS + 2);
    let statement = *random.pick(statements);
    // An even tree of sequences would be regrouped to one that is too deep.
    let mut program = nodes_of(&balanced(statement, count, &[10, 0]));
    let signals = program.iter_mut().filter(|(kind, _)| names_signal(*kind));
    signals.enumerate().for_each(|(at, node)| node.1 = at);
    program
}

/// Statements of the kernel that name one signal.
const OF_A_SIGNAL: [&[u8]; 4] = [&[3, 0], &[2, 0, 5, 0], &[1, 0, 7, 0], &[2, 0, 1, 0, 6, 0]];

/// Forms of F-9 that do.
const FORMS_OF_A_SIGNAL: [&[u8]; 4] = [
    &[SUSTAIN, 0],
    &[AWAIT, 0],
    &[2, 0, ABORT, 0],
    &[2, 0, WEAK_ABORT, 0],
];

fn names_signal(kind: u8) -> bool {
    matches!(kind, 3 | 5 | 6 | 7 | SUSTAIN | AWAIT | ABORT | WEAK_ABORT)
}

/// Gives all statements any of so many signals.
fn change_signals(random: &mut Random, program: &mut [Node], most: usize) {
    let signals = program.iter_mut().filter(|(kind, _)| names_signal(*kind));
    signals.for_each(|node| node.1 = random.below(most));
}

/// Gives some of the exits a level that their traps may not reach.
fn change_levels(random: &mut Random, program: &mut [Node]) {
    let exits = program.iter_mut().filter(|(kind, _)| *kind == 4);
    for exit in exits {
        if random.one_in(3) {
            exit.1 = *random.pick(&[0, 1, 2, 5, 62, 300]);
        }
    }
}

/// Turns some of the pauses into nothing or into an exit.
fn change_pauses(random: &mut Random, program: &mut [Node]) {
    let pauses = program.iter_mut().filter(|(kind, _)| *kind == 2);
    for pause in pauses {
        *pause = *random.pick(&[(1, 0), (2, 0), (2, 0), (2, 0), (4, 0)]);
    }
}

/// Prints a program. Large ones mostly get short names, so that not all of their texts
/// are too long.
pub fn printed(random: &mut Random, number: usize) -> Printed {
    let program = program(random, number);
    let lengths = match program.len() {
        0..200 => *random.pick(&[Lengths::Short, Lengths::Any, Lengths::Longest]),
        _ if random.one_in(12) => Lengths::Longest,
        _ => *random.pick(&[Lengths::Least, Lengths::Short]),
    };
    print(random, lengths, &program)
}

/// The tokens as a text. Large ones get few blanks.
pub fn text(random: &mut Random, tokens: &[Vec<u8>]) -> Vec<u8> {
    let blanks = match tokens.len() {
        0..600 => *random.pick(&[Blanks::Least, Blanks::One, Blanks::Few, Blanks::Many]),
        _ => *random.pick(&[Blanks::Least, Blanks::One, Blanks::Few]),
    };
    joined(random, blanks, tokens)
}

/// Spoils one token, or two neighbours. The text may still be one of the grammar.
pub fn damage_tokens(random: &mut Random, tokens: &mut Vec<Vec<u8>>) {
    let at = random.below(tokens.len());
    match random.below(8) {
        0 => {
            tokens.remove(at);
        }
        1 => tokens.insert(at, tokens[at].clone()),
        6 | 7 => rename(random, tokens),
        2 if at + 1 < tokens.len() => tokens.swap(at, at + 1),
        3 => tokens[at] = another_token(random, tokens),
        4 => tokens.insert(at, another_token(random, tokens)),
        _ => misspell(random, &mut tokens[at]),
    }
}

/// Puts one name in the place of another: the text stays one of the grammar.
fn rename(random: &mut Random, tokens: &mut [Vec<u8>]) {
    let follows_word = |at: usize| is_before_name(&tokens[at - 1]);
    let names: Vec<usize> = (1..tokens.len()).filter(|&at| follows_word(at)).collect();
    if !names.is_empty() {
        let other = *random.pick(&names);
        tokens[*random.pick(&names)] = tokens[other].clone();
    }
}

fn is_before_name(token: &[u8]) -> bool {
    let words = [
        "emit", "exit", "signal", "trap", "present", "when", "sustain", "await",
    ];
    words.iter().any(|word| word.as_bytes() == token)
}

/// One of the text, one that few texts have, or one of the full language.
fn another_token(random: &mut Random, tokens: &[Vec<u8>]) -> Vec<u8> {
    const RARE: [&str; 14] = [
        "|", "]", "[", "[]", ";", ":", "else", "when", "end", "%", "3a", "await", "halt", "weak",
    ];
    const FOREIGN: [&str; 5] = ["3", "007", "immediate", "every", "case"];
    match random.below(4) {
        0 => random.pick(&RARE).as_bytes().to_vec(),
        1 => random.pick(&FOREIGN).as_bytes().to_vec(),
        _ => random.pick(tokens).clone(),
    }
}

/// One character more, less or other, or many more.
fn misspell(random: &mut Random, token: &mut Vec<u8>) {
    let at = random.below(token.len());
    match random.below(6) {
        0 => {
            token.remove(at);
        }
        1 => token.insert(at, token[at]),
        2 => token[at] ^= 0x20,
        3 => token.push(*random.pick(b"s_0 -")),
        4 => token.extend(
            b"abcdefghijklmnopqrstuvwxyz_12345"
                .iter()
                .skip(random.below(3)),
        ),
        _ => token[at] = *random.pick(b"abcSTU019_ \n;|[]"),
    }
}

/// Changes, adds or takes away some byte, or all from a place on.
pub fn damage_bytes(random: &mut Random, text: &mut Vec<u8>) {
    let at = random.below(text.len());
    match random.below(6) {
        0..3 => text[at] = random.byte(),
        3 => text.insert(at, random.byte()),
        4 => {
            text.remove(at);
        }
        _ => text.truncate(at),
    }
}
