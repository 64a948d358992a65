//! Texts of programs, and texts that are dear to read.

use compare::support::printer::{joined, print, Blanks, Lengths, Node, ABORT, WEAK_ABORT};
use compare::support::random::Random;
use compare::support::SEED;
use compare::text::MOST_TEXT;

/// The program as text, with short names and single blanks.
pub fn printed(nodes: &[Node]) -> Vec<u8> {
    let random = &mut Random::new(SEED);
    let printed = print(random, Lengths::Least, nodes);
    joined(random, Blanks::One, &printed.tokens)
}

/// A text of the dialect that stands for so many nodes, at least 16: up to eight aborts and
/// weak aborts nested in each other, such nests in a sequence, and signals around them.
pub fn aborts(nodes: usize) -> Vec<u8> {
    let mut program: Vec<Node> = Vec::new();
    let mut left = nodes;
    while left > PAUSE_AND_SEQUENCE + ABORTED {
        let is_first = program.is_empty();
        program.push((2, 0));
        left -= 1;
        for level in 0..8 {
            let (kind, size) = [(ABORT, ABORTED), (WEAK_ABORT, ABORTED - 1)][level % 2];
            if left > size {
                program.push((kind, level));
                left -= size;
            }
        }
        if !is_first {
            program.push((9, 0));
            left -= 1;
        }
    }
    program.extend(vec![(5, 0); left]);
    printed(&program)
}

/// The nodes that an abort adds to its body.
const ABORTED: usize = 11;
const PAUSE_AND_SEQUENCE: usize = 2;

/// Each by its name, about as long as a text can be. The last two are refused by their last
/// token, by 14 and by 20.
pub fn worst() -> [(&'static str, Vec<u8>); 5] {
    [
        ("signals", signals().into_bytes()),
        ("exits", exits().into_bytes()),
        ("brackets", vec![b'['; MOST_TEXT]),
        ("aborts-end", aborts_and_end().into_bytes()),
        ("brackets-case", brackets_and_case()),
    ]
}

/// Aborts in each other and aborts in a sequence, half of the text each, and an end too many.
fn aborts_and_end() -> String {
    let half = (MOST_TEXT - "halt ; end".len()) / 2;
    let (begin, end) = ("abort ", "when S end ");
    let levels = half / (begin.len() + end.len());
    let row = "weak abort halt when S end;".repeat(half / "weak abort halt when S end;".len());
    let (begin, end) = (begin.repeat(levels), end.repeat(levels));
    format!("{begin}halt {end};{row}halt end")
}

fn brackets_and_case() -> Vec<u8> {
    let case = b"case";
    [&vec![b'['; MOST_TEXT - case.len()][..], case].concat()
}

/// Emits of 256 signals whose names differ only at the end, then of the last one again
/// and again. Two branches keep the depth below 256.
fn signals() -> String {
    let emit = |at: usize| {
        let end = [at.min(255) / 63, at.min(255) % 63].map(character);
        format!("emit a{}{}{}", "b".repeat(29), end[0], end[1])
    };
    let count = MOST_TEXT / (emit(0).len() + 1) - 1;
    let emits: Vec<String> = (0..count).map(emit).collect();
    let (left, right) = emits.split_at(count / 2);
    format!("[{}||{}]", left.join(";"), right.join(";"))
}

/// One of the 63 characters of a name.
fn character(number: usize) -> char {
    let characters = ('0'..='9').chain('A'..='Z').chain('a'..='z').chain(['_']);
    characters
        .into_iter()
        .nth(number)
        .expect("a number below 63")
}

/// Half of the text nests traps, the other half exits from all of them.
fn exits() -> String {
    let traps = MOST_TEXT / 2 / "trap B in  end".len() - 1;
    let exits = vec!["exit A"; MOST_TEXT / 2 / "exit A;".len()].join(";");
    let (begin, end) = ("trap B in ".repeat(traps), " end".repeat(traps));
    format!("trap A in {begin}{exits}{end} end")
}
