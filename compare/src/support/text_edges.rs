//! Texts at the edges of request F-1 and of its agreed readings, with what a reader
//! must make of them, and the places of their refusals, as F-9 has them.

use super::dialect_edges;
use crate::checks::MOST_TRAPS;
use crate::text::{Translated, MOST_TEXT};
use crate::{Placed, Refusal};

pub struct TextEdge {
    pub name: &'static str,
    pub text: Vec<u8>,
    pub outcome: Outcome,
}

pub enum Outcome {
    /// The table's bytes and the number of signals.
    Table(Vec<u8>, usize),
    /// Only the numbers of nodes and of signals.
    Sizes(usize, usize),
    Refused(Placed),
}

impl TextEdge {
    /// Whether a reader that gives this outcome is right.
    pub fn is_met_by(&self, outcome: &Result<Translated, Placed>) -> bool {
        match (&self.outcome, outcome) {
            (Outcome::Table(table, signals), Ok((bytes, count))) => {
                table == bytes && signals == count
            }
            (Outcome::Sizes(nodes, signals), Ok((bytes, count))) => {
                2 * nodes == bytes.len() && signals == count
            }
            (Outcome::Refused(expected), Err(refusal)) => expected == refusal,
            _ => false,
        }
    }
}

/// The names of the edges that any reader should be tried with, however long they are.
pub const DEEPEST: [&str; 6] = [
    "16,384 opening brackets",
    "loops that are never closed",
    "the deepest text",
    "1,023 loops",
    "16,380 opening brackets and case",
    "2,730 aborts and case",
];

pub fn edges() -> Vec<TextEdge> {
    let mut edges = statements();
    edges.extend(branches());
    edges.extend(grouping());
    edges.extend(signals());
    edges.extend(traps());
    edges.extend(words());
    edges.extend(bytes());
    edges.extend(order());
    edges.extend(lengths());
    edges.extend(numbers());
    edges.extend(depths());
    edges.extend(never_closed());
    edges.extend(deepest());
    edges.extend(dialect_edges::edges());
    edges
}

pub(super) fn table(
    name: &'static str,
    text: impl Into<Vec<u8>>,
    table: &[u8],
    signals: usize,
) -> TextEdge {
    TextEdge {
        name,
        text: text.into(),
        outcome: Outcome::Table(table.to_vec(), signals),
    }
}

pub(super) fn sizes(
    name: &'static str,
    text: impl Into<Vec<u8>>,
    nodes: usize,
    signals: usize,
) -> TextEdge {
    TextEdge {
        name,
        text: text.into(),
        outcome: Outcome::Sizes(nodes, signals),
    }
}

/// Refused for its table.
pub(super) fn refused(
    name: &'static str,
    text: impl Into<Vec<u8>>,
    number: u32,
    node: usize,
) -> TextEdge {
    TextEdge {
        name,
        text: text.into(),
        outcome: Outcome::Refused(Placed::of_table(Refusal { number, node })),
    }
}

/// Refused where the caret stands, which is not of the text.
pub(super) fn refused_at(name: &'static str, number: u32, marked: impl Into<Vec<u8>>) -> TextEdge {
    let mut text = marked.into();
    let mut carets = (0..text.len()).filter(|&at| text[at] == b'^');
    let (Some(place), None) = (carets.next(), carets.next()) else {
        panic!("{name} has no caret, or more than one");
    };
    text.remove(place);
    TextEdge {
        name,
        text,
        outcome: Outcome::Refused(Placed::at(number, place)),
    }
}

/// Refused by 14 where the caret stands.
pub(super) fn outside(name: &'static str, marked: impl Into<Vec<u8>>) -> TextEdge {
    refused_at(name, 14, marked)
}

/// Refused by 14 for its length.
pub(super) fn too_long(name: &'static str, text: impl Into<Vec<u8>>) -> TextEdge {
    TextEdge {
        name,
        text: text.into(),
        outcome: Outcome::Refused(Placed::at(14, MOST_TEXT)),
    }
}

fn statements() -> Vec<TextEdge> {
    vec![
        table("W1", "loop pause; emit S end", &[2, 0, 3, 0, 9, 0, 8, 0], 1),
        table("check 11 waits", "loop nothing end", &[1, 0, 8, 0], 0),
        table("signal", "signal S in pause end", &[2, 0, 5, 0], 1),
        table("exit", "trap T in exit T end", &[4, 0, 11, 0], 0),
        table("suspend", "suspend pause when S", &[2, 0, 7, 0], 1),
        outside("an end after suspend", "suspend pause when S ^end"),
        table(
            "an end that an outer statement waits for",
            "loop suspend pause when S end",
            &[2, 0, 7, 0, 8, 0],
            1,
        ),
        outside("no statement", "loop ^end"),
        outside("two statements", "pause ^pause"),
    ]
}

fn branches() -> Vec<TextEdge> {
    let then_alone = &[2, 0, 1, 0, 6, 0];
    let else_alone = &[1, 0, 2, 0, 6, 0];
    vec![
        table("then alone", "present S then pause end", then_alone, 1),
        table("else alone", "present S else pause end", else_alone, 1),
        table(
            "then, and nothing",
            "present S then pause else nothing end",
            then_alone,
            1,
        ),
        table(
            "nothing, and else",
            "present S then nothing else pause end",
            else_alone,
            1,
        ),
        outside("no branch", "present S ^end"),
        outside("else before then", "present S else pause ^then pause end"),
        outside("two else branches", "present S else pause ^else pause end"),
    ]
}

fn grouping() -> Vec<TextEdge> {
    vec![
        table(
            "a sequence in a suspend",
            "suspend pause;nothing when S",
            &[2, 0, 1, 0, 9, 0, 7, 0],
            1,
        ),
        table(
            "sequences to the left",
            "pause;nothing;pause",
            &[2, 0, 1, 0, 9, 0, 2, 0, 9, 0],
            0,
        ),
        table(
            "parallels to the left",
            "[pause||nothing||pause]",
            &[2, 0, 1, 0, 10, 0, 2, 0, 10, 0],
            0,
        ),
        table(
            "a bracket on the right",
            "[pause||[nothing||pause]]",
            &[2, 0, 1, 0, 2, 0, 10, 0, 10, 0],
            0,
        ),
        table(
            "a double bar binds looser",
            "[pause;nothing||pause;pause]",
            &[2, 0, 1, 0, 9, 0, 2, 0, 2, 0, 9, 0, 10, 0],
            0,
        ),
        outside("a bracket without a double bar", "[pause^]"),
        outside("a bracket of a sequence", "[pause;pause^]"),
        outside("a double bar without a bracket", "pause^||pause"),
        outside("a semicolon at the end", "pause;^"),
        outside("a semicolon before end", "loop pause; ^end"),
        outside("an empty bracket", "[^]"),
        outside("an empty branch", "[pause||^]"),
    ]
}

fn signals() -> Vec<TextEdge> {
    vec![
        table(
            "present before what is in it",
            "present S then emit A end",
            &[3, 1, 1, 0, 6, 0],
            2,
        ),
        table(
            "suspend after what is in it",
            "suspend emit A when S",
            &[3, 0, 7, 1],
            2,
        ),
        table(
            "declared again",
            "signal A in signal B in signal A in emit B end end end",
            &[3, 1, 5, 0, 5, 1, 5, 0],
            2,
        ),
        table(
            "emitted before it is declared",
            "emit B; signal A in signal B in emit A end end",
            &[3, 0, 3, 1, 5, 0, 5, 1, 9, 0],
            2,
        ),
        table(
            "one that is never declared first",
            "emit B; signal A in emit A end",
            &[3, 0, 3, 1, 5, 1, 9, 0],
            2,
        ),
    ]
}

fn traps() -> Vec<TextEdge> {
    vec![
        table(
            "a trap and a signal of one name",
            "trap A in emit A; exit A end",
            &[3, 0, 4, 0, 9, 0, 11, 0],
            1,
        ),
        table(
            "the nearest trap",
            "trap A in trap A in exit A end end",
            &[4, 0, 11, 0, 11, 0],
            0,
        ),
        table(
            "an outer trap",
            "trap A in trap B in exit A end end",
            &[4, 1, 11, 0, 11, 0],
            0,
        ),
        table(
            "after a trap of its name",
            "trap A in trap A in pause end; exit A end",
            &[2, 0, 11, 0, 4, 0, 9, 0, 11, 0],
            0,
        ),
        refused_at("beside its trap", 15, "trap A in pause end; exit ^A"),
        refused_at("a signal's name", 15, "signal A in exit ^A end"),
    ]
}

fn words() -> Vec<TextEdge> {
    let longest = "a".repeat(32);
    vec![
        table(
            "case matters",
            "emit s; emit S; emit Emit",
            &[3, 0, 3, 1, 9, 0, 3, 2, 9, 0],
            3,
        ),
        table("every character", "emit aZ_09", &[3, 0], 1),
        table("the longest name", format!("emit {longest}"), &[3, 0], 1),
        outside("a longer name", format!("emit ^{longest}a")),
        outside("a longer word", format!("pause; ^{longest}a")),
        table(
            "words with more to them",
            "emit ends; emit emit3",
            &[3, 0, 3, 1, 9, 0],
            2,
        ),
        outside("a word for a name", "emit ^end"),
        outside("a digit first", "emit ^3a"),
        outside("an underscore first", "emit ^_a"),
        outside("one word", "^emit3"),
        outside("one word, too", "^emitA"),
    ]
}

fn bytes() -> Vec<TextEdge> {
    vec![
        outside("an empty text", "^"),
        outside("blanks alone", " \t\n^"),
        table(
            "blanks of every kind",
            "\n\tloop\tpause\n end \t",
            &[2, 0, 8, 0],
            0,
        ),
        table(
            "no blanks",
            "[pause||pause];emit A",
            &[2, 0, 2, 0, 10, 0, 3, 0, 9, 0],
            1,
        ),
        outside("a carriage return", "pause;^\r\npause"),
        outside("a form feed", "pause;^\x0cpause"),
        outside("a byte 0 at the end", "pause^\0"),
        outside("a comment", "pause ^% wait"),
        outside("a letter that is not ASCII", "emit ^\u{e9}"),
        outside("a blank that is not ASCII", "emit^\u{a0}A"),
        outside("two single bars", "[pause^| |pause]"),
        outside("a single bar", "[pause^|pause]"),
        outside("three bars", "[pause||^|pause]"),
        outside("four bars", "[pause||^||pause]"),
    ]
}

/// 14, 15 and 16 each cover the whole text, then come 1, 8 and 9.
fn order() -> Vec<TextEdge> {
    let many = many_emits(257);
    let marked = with_caret_at("S256", &many);
    let deep = nested("loop ", "pause", " end", 300);
    let traps = |count| nested("trap T in ", "pause", " end", count);
    let shallow = traps(MOST_TRAPS + 1);
    vec![
        outside("14 before 15", "exit T; ^end"),
        outside("14 before 16", format!("{many}; ^end")),
        refused_at("15 before 16", 15, format!("{many}; exit ^T")),
        refused_at("15 before 1", 15, format!("{}; exit ^T", emits(800))),
        refused_at("15 before 8", 15, format!("{deep}; exit ^T")),
        refused_at("16 before 1", 16, format!("{marked}; {}", emits(500))),
        refused_at("16 before 8", 16, format!("{marked}; {deep}")),
        refused("1 before 8", emits(800), 1, 0),
        refused("8 before 9", format!("[{shallow}||{deep}]"), 8, 64),
        refused("8 before 9, deep traps", traps(256), 8, 0),
        refused("8 before 11", nested("loop ", "nothing", " end", 256), 8, 0),
    ]
}

fn lengths() -> Vec<TextEdge> {
    let pause = |length| padded("pause", length);
    let exit = |length| padded("exit T", length);
    vec![
        table("16,383 bytes", pause(MOST_TEXT - 1), &[2, 0], 0),
        table("16,384 bytes", pause(MOST_TEXT), &[2, 0], 0),
        too_long("16,385 bytes", pause(MOST_TEXT + 1)),
        refused_at(
            "16,384 bytes and an exit",
            15,
            with_caret_at("T", &exit(MOST_TEXT)),
        ),
        too_long("16,385 bytes and an exit", exit(MOST_TEXT + 1)),
        too_long("60,000 bytes", pause(60_000)),
        outside("16,384 blanks", " ".repeat(MOST_TEXT) + "^"),
        outside(
            "16,384 closing brackets",
            format!("^{}", "]".repeat(MOST_TEXT)),
        ),
        outside("16,384 letters", format!("^{}", "a".repeat(MOST_TEXT))),
    ]
}

fn numbers() -> Vec<TextEdge> {
    let again = format!("{}; emit S255", many_emits(256));
    vec![
        sizes("256 signals", many_emits(256), 511, 256),
        sizes("256 signals, one of them again", again, 513, 256),
        refused_at("257 signals", 16, with_caret_at("S256", &many_emits(257))),
        sizes("1,023 nodes", wide(512), 1023, 0),
        sizes("1,024 nodes", format!("loop {} end", wide(512)), 1024, 0),
        refused("1,025 nodes", wide(513), 1, 0),
    ]
}

fn depths() -> Vec<TextEdge> {
    let loops = |count| nested("loop ", "pause", " end", count);
    let right = |count| nested("[pause||", "pause", "]", count);
    let exit_from = |traps: usize| {
        let inner = nested("trap T in ", "exit A", " end", traps - 1);
        format!("trap A in {inner} end")
    };
    vec![
        sizes("256 statements in a row", emits(256), 511, 1),
        refused("257 statements in a row", emits(257), 8, 0),
        sizes("depth 256", loops(255), 256, 0),
        refused("depth 257", loops(256), 8, 0),
        sizes("depth 256 on the right", right(255), 511, 0),
        refused("depth 257 on the right", right(256), 8, 255),
        refused("1,023 loops", loops(1023), 8, 0),
        refused("511 brackets", right(511), 8, 255),
        sizes("62 traps", exit_from(MOST_TRAPS), 63, 0),
        refused("63 traps", exit_from(MOST_TRAPS + 1), 9, 1),
        refused("level 255", exit_from(256), 8, 0),
        refused("level 299", exit_from(300), 8, 0),
    ]
}

/// As many levels as a text can have, each opened and none closed.
fn never_closed() -> Vec<TextEdge> {
    let levels = [
        ("16,384 opening brackets", "["),
        ("loops that are never closed", "loop "),
        ("loops around brackets, never closed", "loop["),
        ("suspends that are never closed", "suspend "),
        ("suspends around brackets, never closed", "suspend["),
        ("traps that are never closed", "trap T in "),
        ("signals that are never closed", "signal S in "),
        ("then branches that are never closed", "present S then "),
        ("else branches that are never closed", "present S else "),
        ("both branches, never closed", "present S then pause else "),
        ("second branches of a bracket, never closed", "[pause||"),
        ("sequences in brackets, never closed", "[pause;"),
    ];
    levels
        .map(|(name, begin)| outside(name, begin.repeat(MOST_TEXT / begin.len()) + "^"))
        .into()
}

/// As many levels as a text can have. They are in the grammar, but have too many nodes.
fn deepest() -> Vec<TextEdge> {
    let levels = [
        ("the deepest loops", "loop ", "pause", " end"),
        ("the deepest suspends", "suspend ", "pause", " when S"),
        ("the deepest traps", "trap T in ", "exit T", " end"),
        ("the deepest branches", "present S then ", "pause", " end"),
        ("the deepest brackets, left", "[", "pause", "||pause]"),
        ("the deepest brackets, right", "[pause||", "pause", "]"),
        ("the longest sequence", "pause;", "pause", ""),
    ];
    let deepest = |begin: &str, inner: &str, end: &str| {
        let levels = (MOST_TEXT - inner.len()) / (begin.len() + end.len());
        nested(begin, inner, end, levels)
    };
    let mut edges: Vec<TextEdge> = levels
        .map(|(name, begin, inner, end)| refused(name, deepest(begin, inner, end), 1, 0))
        .into();
    // A level takes 16 bytes, so that there are just 1,024 nodes.
    let signals = deepest("signal S in ", "pause", " end");
    edges.push(refused("the deepest signals", signals, 8, 0));
    // 2,047 levels, of 8 bytes or little more each: no other nesting takes as few.
    let loops_and_brackets = nested("loop[", "pause", "||pause]end", 1023);
    let text = format!("loop {loops_and_brackets} end");
    edges.push(refused("the deepest text", text, 1, 0));
    edges
}

pub(super) fn nested(begin: &str, inner: &str, end: &str, levels: usize) -> String {
    [&begin.repeat(levels), inner, &end.repeat(levels)].concat()
}

pub(super) fn padded(text: &str, length: usize) -> String {
    format!("{text:length$}")
}

/// A flat sequence.
fn emits(count: usize) -> String {
    vec!["emit S"; count].join(";")
}

/// The text with a caret before the first place of this.
fn with_caret_at(wanted: &str, text: &str) -> String {
    text.replacen(wanted, &format!("^{wanted}"), 1)
}

/// So many signals, of depth below 256.
pub(super) fn many_emits(signals: usize) -> String {
    let emits: Vec<String> = (0..signals).map(|at| format!("emit S{at}")).collect();
    let (left, right) = emits.split_at(signals / 2);
    format!("[{}||{}]", left.join(";"), right.join(";"))
}

/// So many pauses as flat as can be.
fn wide(pauses: usize) -> String {
    if pauses == 1 {
        return "pause".to_string();
    }
    format!("[{}||{}]", wide(pauses / 2), wide(pauses - pauses / 2))
}
