//! Table W, the edges of document 01 with those of F-7, the tables of its agreed
//! readings, and the lock program of F-5.

use std::str::FromStr;

use crate::Refusal;

pub struct Edge {
    pub name: &'static str,
    pub table: Vec<u8>,
    /// The refusal, or none for an accepted table.
    pub refusal: Option<Refusal>,
}

pub const W1: &[u8] = &[2, 0, 3, 7, 9, 0, 8, 0];
pub const W2: &[u8] = &[1, 0, 8, 0];
pub const W3: &[u8] = &[
    4, 1, 4, 0, 10, 0, 11, 0, 4, 1, 9, 0, 11, 0, 2, 0, 9, 0, 11, 0, 8, 0,
];
pub const W4: &[u8] = &[4, 0, 11, 0, 8, 0];
pub const W5: &[u8] = &[4, 0];
pub const W6: &[u8] = &[1, 0, 2, 0, 6, 5, 8, 0];
pub const W7: &[u8] = &[1, 0, 2, 0, 10, 0];
pub const W8: &[u8] = &[2, 0, 1, 0, 6, 5, 1, 0, 2, 0, 6, 5, 9, 0, 8, 0];

/// The lock program of F-5: its inner loop, node 1, only pauses. The exit beside it
/// drops it, and the outer loop starts it again in that instant.
pub const LOCK: &[u8] = &[2, 0, 8, 0, 2, 0, 4, 0, 9, 0, 10, 0, 11, 0, 8, 0];

pub fn edges() -> Vec<Edge> {
    let mut edges = table_w();
    edges.extend(lengths());
    edges.extend(nodes());
    edges.extend(depths());
    edges.extend(traps_and_levels());
    edges.extend(order_of_checks());
    edges.extend(sets_and_instants());
    edges.extend(last_code());
    edges
}

fn accepted(name: &'static str, table: impl Into<Vec<u8>>) -> Edge {
    Edge {
        name,
        table: table.into(),
        refusal: None,
    }
}

fn refused(name: &'static str, table: impl Into<Vec<u8>>, number: u32, node: usize) -> Edge {
    Edge {
        name,
        table: table.into(),
        refusal: Some(Refusal { number, node }),
    }
}

fn table_w() -> Vec<Edge> {
    vec![
        accepted("W1", W1),
        refused("W2", W2, 11, 1),
        accepted("W3", W3),
        refused("W4", W4, 11, 2),
        refused("W5", W5, 10, 0),
        refused("W6", W6, 11, 3),
        accepted("W7", W7),
        refused("W8", W8, 11, 7),
    ]
}

fn lengths() -> Vec<Edge> {
    let full = full_table();
    vec![
        accepted("2,048 bytes", full.clone()),
        refused("2,047 bytes", &full[1..], 2, 0),
        refused("2,049 bytes: 1 before 2", after(&full, &[1]), 1, 0),
        refused("2,050 bytes", after(&full, &[8, 0]), 1, 0),
        refused("2,050 bytes of unknown kinds", vec![12; 2050], 1, 0),
        refused("2,048 bytes of unknown kinds", vec![12; 2048], 4, 0),
        refused("1,024 leaves", [1, 0].repeat(1024), 7, 0),
        refused("no byte", [], 2, 0),
        refused("one byte", [2], 2, 0),
        refused("three bytes", [2, 0, 8], 2, 0),
    ]
}

fn nodes() -> Vec<Edge> {
    vec![
        refused("9 0 alone", [9, 0], 6, 0),
        refused("2 0 2 0", [2, 0, 2, 0], 7, 0),
        refused("first faulty node: 6 before 4", [9, 0, 12, 0], 6, 0),
        refused("lowest number: 5 before 6", [9, 1], 5, 0),
        refused("lowest number: 4 before 5", [12, 1], 4, 0),
        refused("kind 0", [0, 0], 4, 0),
        refused("kind 12", [12, 0], 4, 0),
        refused("kind 255", [2, 0, 255, 255], 4, 1),
        refused("field of nothing", [1, 1], 5, 0),
        refused("field of pause", [2, 255], 5, 0),
        refused("field of loop", [2, 0, 8, 1], 5, 1),
        refused("field of sequence", [2, 0, 2, 0, 9, 1], 5, 2),
        refused("field of parallel", [2, 0, 2, 0, 10, 1], 5, 2),
        refused("field of trap", [2, 0, 11, 1], 5, 1),
        refused("sequence of one", [2, 0, 9, 0], 6, 1),
        refused("present of one", [2, 0, 6, 0], 6, 1),
        refused("loop of none", [8, 0], 6, 0),
        refused("6 before 7", [2, 0, 2, 0, 9, 0, 10, 0], 6, 3),
        accepted("nothing", [1, 0]),
        accepted("pause", [2, 0]),
        accepted("emit 0", [3, 0]),
        accepted("emit 255", [3, 255]),
        accepted("signal 255", [2, 0, 5, 255]),
        accepted("suspend 255", [2, 0, 7, 255]),
        accepted("present 255", [2, 0, 1, 0, 6, 255]),
    ]
}

fn depths() -> Vec<Edge> {
    vec![
        accepted("depth 256", around(&[2, 0], &[5, 1], 255)),
        refused("depth 257", around(&[2, 0], &[5, 1], 256), 8, 0),
        refused("depth 258", around(&[2, 0], &[7, 1], 257), 8, 0),
        accepted("256 with loops", around(&[2, 0], &[8, 0], 255)),
        refused("257 with loops", around(&[2, 0], &[8, 0], 256), 8, 0),
        accepted("256 on the left", around(&[2, 0], &[2, 0, 9, 0], 255)),
        refused("257 on the left", around(&[2, 0], &[2, 0, 9, 0], 256), 8, 0),
        accepted("256 on the right", right_sequences(255)),
        // The two innermost pauses are too deep: nodes 255 and 256.
        refused("257 on the right", right_sequences(256), 8, 255),
    ]
}

fn traps_and_levels() -> Vec<Edge> {
    vec![
        // Refused before F-7.
        accepted("33 traps", around(&[2, 0], &[11, 0], 33)),
        accepted("level 32 under 33", around(&[4, 32], &[11, 0], 33)),
        accepted("62 traps", around(&[2, 0], &[11, 0], 62)),
        refused("63 traps", around(&[2, 0], &[11, 0], 63), 9, 1),
        refused("64 traps", around(&[2, 0], &[11, 0], 64), 9, 1),
        refused(
            "63 traps with signals between",
            around(&[2, 0, 5, 0], &[11, 0, 5, 0], 63),
            9,
            2,
        ),
        accepted("level 61 under 62", around(&[4, 61], &[11, 0], 62)),
        refused("level 62 under 62", around(&[4, 62], &[11, 0], 62), 10, 0),
        refused("level 255 under 62", around(&[4, 255], &[11, 0], 62), 10, 0),
        refused("9 before level 62", around(&[4, 62], &[11, 0], 63), 9, 1),
        refused("level 1 under 1", [4, 1, 11, 0], 10, 0),
        accepted("level 0 under 1", [4, 0, 11, 0]),
        refused("level 0 beside the trap", [4, 0, 11, 0, 4, 0, 9, 0], 10, 2),
    ]
}

/// Each of the checks 8 to 11 covers the whole table before the next begins.
fn order_of_checks() -> Vec<Edge> {
    let early_exit = |rest: &[u8]| after(&[4, 200], &after(rest, &[10, 0]));
    let early_loop = |rest: &[u8]| after(&[1, 0, 8, 0], &after(rest, &[10, 0]));
    vec![
        refused(
            "8 at node 1 before 10 at node 0",
            early_exit(&around(&[2, 0], &[5, 0], 255)),
            8,
            1,
        ),
        refused(
            "9 at node 2 before 10 at node 0",
            early_exit(&around(&[2, 0], &[11, 0], 63)),
            9,
            2,
        ),
        refused(
            "10 at node 2 before 11 at node 1",
            early_loop(&[4, 0]),
            10,
            2,
        ),
        refused("8 at node 0 before 9", around(&[2, 0], &[11, 0], 256), 8, 0),
        refused(
            "the lower of two loops",
            [1, 0, 8, 0, 3, 1, 8, 0, 10, 0],
            11,
            1,
        ),
        refused("the inner of two loops", [1, 0, 8, 0, 8, 0], 11, 1),
        refused(
            "a loop that ends by a trap within",
            [2, 0, 4, 0, 10, 0, 11, 0, 8, 0],
            11,
            4,
        ),
    ]
}

fn sets_and_instants() -> Vec<Edge> {
    vec![
        accepted(
            "a trap as a child of a parallel",
            [2, 0, 11, 0, 2, 0, 10, 0, 8, 0],
        ),
        accepted("contexts use K, not A", [2, 0, 2, 0, 9, 0, 8, 0]),
        accepted("an emit under its own signal", [3, 7, 5, 7]),
        accepted("a pause beside an exit", [2, 0, 4, 0, 10, 0, 11, 0]),
        accepted("a loop left by an exit", [4, 0, 8, 0, 11, 0]),
    ]
}

/// Code 63, the last one, in each of the sets.
fn last_code() -> Vec<Edge> {
    let [before_a_pause, after_a_pause, beside_a_pause, lock] = exits_through_all_traps();
    vec![
        accepted("an exit from 62 traps, in a loop", before_a_pause),
        accepted("an exit from 62 traps, after a pause", after_a_pause),
        accepted("code 63 in K, A and S", beside_a_pause),
        accepted("the lock program with 62 traps", lock),
        accepted(
            "a context of all codes up to 63",
            after(
                &around(&[2, 0, 2, 0, 4, 61, 9, 0, 10, 0], &[11, 0], 62),
                &[8, 0],
            ),
        ),
        accepted(
            "code 63 in S by the parallel alone",
            after(&around(EXIT_AND_PAUSE, &[11, 0], 61), &[8, 0, 11, 0]),
        ),
    ]
}

/// An exit to the outermost of 62 traps, beside a pause.
const EXIT_AND_PAUSE: &[u8] = &[4, 61, 2, 0, 10, 0];

/// The branches of the lock program, with such an exit.
const LOCK_BRANCHES: &[u8] = &[2, 0, 8, 0, 2, 0, 4, 61, 9, 0, 10, 0];

/// Exits through 62 traps, in a loop: when the program is started or resumed, code 63
/// goes up to the outermost trap, which catches it and drops a pause beneath. Before
/// a pause, after one, beside one; and the lock program.
pub fn exits_through_all_traps() -> [Vec<u8>; 4] {
    let exit_and_pause = around(EXIT_AND_PAUSE, &[11, 0], 62);
    let lock = around(LOCK_BRANCHES, &[11, 0], 62);
    [
        after(&exit_and_pause, &[2, 0, 9, 0, 8, 0]),
        after(&[2, 0], &after(&exit_and_pause, &[9, 0, 8, 0])),
        after(&exit_and_pause, &[2, 0, 10, 0, 8, 0]),
        after(&lock, &[8, 0]),
    ]
}

pub(super) fn after(first: &[u8], second: &[u8]) -> Vec<u8> {
    [first, second].concat()
}

/// The leaf with the given nodes after it so many times.
pub(super) fn around(leaf: &[u8], nodes: &[u8], times: usize) -> Vec<u8> {
    after(leaf, &nodes.repeat(times))
}

/// One pause more than sequences: each second but the last is a sequence.
fn right_sequences(sequences: usize) -> Vec<u8> {
    after(&[2, 0].repeat(sequences + 1), &[9, 0].repeat(sequences))
}

/// 1,024 nodes: a full binary tree of 512 leaves under a loop.
fn full_table() -> Vec<u8> {
    let mut table = vec![2, 0];
    for height in 0..9 {
        let kind = if height % 2 == 0 { 9 } else { 10 };
        table = after(&table, &after(&table, &[kind, 0]));
    }
    after(&table, &[8, 0])
}

/// The columns of each line, with the title that stands above it behind `# `.
pub(super) fn rows<const N: usize>(lines: &'static str) -> Vec<(&'static str, [&'static str; N])> {
    let mut rows = Vec::new();
    let mut title = "";
    for line in lines.lines().filter(|line| !line.is_empty()) {
        if let Some(words) = line.strip_prefix("# ") {
            title = words;
            continue;
        }
        let columns: Vec<&str> = line.split(" | ").collect();
        let columns = columns.try_into().ok();
        rows.push((
            title,
            columns.unwrap_or_else(|| panic!("{N} columns: {line}")),
        ));
    }
    rows
}

/// The numbers of a column, with blanks between them.
pub(super) fn numbers<T: FromStr>(column: &str) -> Vec<T> {
    column.split(' ').map(number).collect()
}

pub(super) fn number<T: FromStr>(digits: &str) -> T {
    let number = digits.parse().ok();
    number.unwrap_or_else(|| panic!("this should be a number: {digits}"))
}
