//! Tables at the edges of request F-2, each with the line that is printed for it, worked
//! out by hand.

use super::edges::{after, around, LOCK, W1, W2, W3, W4, W5, W6, W7, W8};
use super::programs::balanced;
use super::ticks::ending_with;
use crate::checks::MOST_TRAPS;

pub struct TickEdge {
    pub name: &'static str,
    pub table: Vec<u8>,
    pub line: String,
}

pub fn edges() -> Vec<TickEdge> {
    let mut edges = table_w();
    edges.extend(statements());
    edges.extend(sequences());
    edges.extend(parallels());
    edges.extend(ties());
    edges.extend(loops());
    edges.extend(exits());
    edges.extend(every_level());
    edges.extend(depths());
    edges.extend(sizes());
    edges.extend(longest());
    edges.extend(order_of_checks());
    edges
}

fn edge(name: &'static str, table: impl Into<Vec<u8>>, line: &str) -> TickEdge {
    TickEdge {
        name,
        table: table.into(),
        line: format!("{line}\n"),
    }
}

/// A body in a loop that is the whole program, and the answers with which it ends.
fn ends(name: &'static str, body: impl Into<Vec<u8>>, answers: &[u8]) -> TickEdge {
    let body = body.into();
    let words = answers.iter().map(|answer| format!(" {answer}"));
    let line = format!("{}{}", body.len() / 2, words.collect::<String>());
    edge(name, in_loop(&body), &line)
}

fn in_loop(body: &[u8]) -> Vec<u8> {
    after(body, &[8, 0])
}

fn in_trap(body: &[u8]) -> Vec<u8> {
    after(body, &[11, 0])
}

fn sequence(first: &[u8], second: &[u8]) -> Vec<u8> {
    [first, second, &[9, 0]].concat()
}

fn parallel(left: &[u8], right: &[u8]) -> Vec<u8> {
    [left, right, &[10, 0]].concat()
}

fn table_w() -> Vec<TickEdge> {
    vec![
        edge("W1", W1, "ok 4 1 8"),
        edge("W2", W2, "1"),
        edge("W3", W3, "ok 11 1 22"),
        edge("W4", W4, "2"),
        edge("W5", W5, "refused 10 0"),
        edge("W6", W6, "3 1"),
        edge("W7", W7, "ok 3 0 3"),
        edge("W8", W8, "7 0 1"),
        edge("the lock program", LOCK, "ok 8 2 24"),
    ]
}

fn statements() -> Vec<TickEdge> {
    vec![
        ends("emit", [3, 7], &[]),
        ends("signal", [3, 7, 5, 7], &[]),
        ends("a started suspend takes no answer", [1, 0, 7, 3], &[]),
        ends("present in suspend", [2, 0, 1, 0, 6, 3, 7, 3], &[0]),
        ends("both branches end", [1, 0, 1, 0, 6, 0], &[0]),
        ends("else ends", [2, 0, 1, 0, 6, 255], &[0]),
        ends("then ends", [1, 0, 2, 0, 6, 255], &[1]),
        ends("then is shorter", [1, 0, 2, 0, 1, 0, 6, 0, 6, 0], &[1]),
        ends("else is shorter", [2, 0, 1, 0, 6, 0, 1, 0, 6, 0], &[0]),
        ends(
            "both branches end after one more answer",
            [2, 0, 1, 0, 6, 0, 1, 0, 2, 0, 6, 0, 6, 0],
            &[0, 1],
        ),
    ]
}

/// Presents of an exit to the innermost trap and a pause.
const EXIT_OR_PAUSE: &[u8] = &[4, 0, 2, 0, 6, 0];
const PAUSE_OR_EXIT: &[u8] = &[2, 0, 4, 0, 6, 0];

fn sequences() -> Vec<TickEdge> {
    let exit_or_end = &[4, 0, 1, 0, 6, 0];
    let end_or_exit = &[1, 0, 4, 0, 6, 0];
    let end_or_pause = &[1, 0, 2, 0, 6, 0];
    vec![
        ends(
            "a list after a list",
            sequence(&ending_with(&[1, 0]), &ending_with(&[1, 1, 0])),
            &[1, 0, 1, 1, 0],
        ),
        ends(
            "an exit of the first is shorter, by present",
            in_trap(&sequence(exit_or_end, end_or_pause)),
            &[1],
        ),
        ends(
            "an exit of the first is shorter, by absent",
            in_trap(&sequence(end_or_exit, end_or_pause)),
            &[0],
        ),
        ends(
            "an exit of the second",
            in_trap(&sequence(end_or_pause, PAUSE_OR_EXIT)),
            &[1, 0],
        ),
        ends(
            "an exit of the first is as long as all",
            in_trap(&sequence(exit_or_end, &[1, 0])),
            &[0],
        ),
        edge(
            "the second is never started",
            in_loop(&sequence(&[2, 0], &[1, 0])),
            "ok 4 1 8",
        ),
    ]
}

fn parallels() -> Vec<TickEdge> {
    let far_exit_or_pause = &[4, 1, 2, 0, 6, 0];
    let near_trap = in_trap(&parallel(&[4, 0], far_exit_or_pause));
    vec![
        ends(
            "both branches end",
            parallel(&ending_with(&[1, 0]), &ending_with(&[0, 1, 1])),
            &[1, 0, 0, 1, 1],
        ),
        ends(
            "the right branch takes answers after an exit of the left",
            in_trap(&parallel(&[4, 0], PAUSE_OR_EXIT)),
            &[0],
        ),
        ends(
            "the exit to the farther trap counts",
            in_trap(&sequence(&near_trap, &[2, 0])),
            &[1],
        ),
        edge(
            "a branch that pauses",
            in_loop(&parallel(&ending_with(&[1]), &[2, 0])),
            "ok 6 1 12",
        ),
    ]
}

/// Branches of a parallel in a trap. The exit of either one ends the body, with lists of
/// one length.
fn ties() -> Vec<TickEdge> {
    let tie = |name, left, right, answers| ends(name, in_trap(&parallel(left, right)), answers);
    // The pause takes one answer, the exit two.
    let exit_by_1_1 = &[4, 0, 2, 0, 6, 0, 2, 0, 6, 0][..];
    let exit_by_0_1 = &[2, 0, 4, 0, 2, 0, 6, 0, 6, 0][..];
    vec![
        tie("exits by 1", EXIT_OR_PAUSE, EXIT_OR_PAUSE, &[0, 1]),
        tie("exits by 0", PAUSE_OR_EXIT, PAUSE_OR_EXIT, &[0, 0]),
        tie("exits by 0 and 1", PAUSE_OR_EXIT, EXIT_OR_PAUSE, &[0, 0]),
        tie("exits by 1 and 0", EXIT_OR_PAUSE, PAUSE_OR_EXIT, &[0, 0]),
        tie("exits by 1 1", exit_by_1_1, exit_by_1_1, &[0, 1, 1]),
        tie("exits by 0 1", exit_by_0_1, exit_by_0_1, &[0, 1, 1]),
        tie("exits by 0 1 and 1 1", exit_by_0_1, exit_by_1_1, &[0, 1, 0]),
        tie("exits by 1 1 and 0 1", exit_by_1_1, exit_by_0_1, &[0, 0, 1]),
        tie(
            "three exits by 1",
            EXIT_OR_PAUSE,
            &parallel(EXIT_OR_PAUSE, EXIT_OR_PAUSE),
            &[0, 0, 1],
        ),
        tie(
            "three exits by 1 1",
            &parallel(exit_by_1_1, exit_by_1_1),
            exit_by_1_1,
            &[0, 0, 1, 1],
        ),
    ]
}

fn loops() -> Vec<TickEdge> {
    vec![
        edge("the inner of two loops", in_loop(W2), "1"),
        edge("the inner of two loops, by an answer", in_loop(W6), "3 1"),
        ends(
            "a sound loop that is left by an exit",
            in_trap(&in_loop(EXIT_OR_PAUSE)),
            &[1],
        ),
        ends(
            "a sound loop beside an exit",
            in_trap(&parallel(W1, PAUSE_OR_EXIT)),
            &[0],
        ),
        edge(
            "the lower loop has the longer list",
            parallel(W8, W2),
            "7 0 1",
        ),
        edge("the lower loop has the shorter list", parallel(W2, W8), "1"),
        edge("after a sound loop", parallel(W1, W6), "7 1"),
        edge(
            "within a sound loop",
            in_loop(&sequence(W6, &[2, 0])),
            "3 1",
        ),
        edge("a loop that is never started", sequence(&[2, 0], W6), "4 1"),
        edge("a branch of a loop", in_loop(&parallel(W1, W2)), "5"),
    ]
}

fn exits() -> Vec<TickEdge> {
    vec![
        ends("an exit within the loop", in_trap(EXIT_OR_PAUSE), &[1]),
        edge(
            "an exit out of the loop does not end its body",
            [4, 0, 1, 0, 6, 0, 8, 0, 11, 0],
            "3 0",
        ),
        edge(
            "nothing but an exit out of the loop",
            in_trap(&in_loop(EXIT_OR_PAUSE)),
            "ok 5 1 10",
        ),
        edge(
            "an exit to a trap within, and one out of the loop",
            [4, 1, 4, 0, 6, 0, 11, 0, 8, 0, 11, 0],
            "4 0",
        ),
        ends(
            "a trap is left as soon as it ends",
            [4, 0, 1, 0, 6, 0, 11, 0],
            &[0],
        ),
        ends(
            "a trap is left before it ends",
            [1, 0, 2, 0, 6, 0, 4, 0, 6, 0, 11, 0],
            &[0],
        ),
        ends("level 61 under 62", around(&[4, 61], &[11, 0], 62), &[]),
        edge(
            "level 62 under 62",
            in_loop(&around(&[4, 62], &[11, 0], 62)),
            "refused 10 0",
        ),
        edge(
            "63 traps",
            in_loop(&around(&[1, 0], &[11, 0], 63)),
            "refused 9 1",
        ),
        edge(
            "62 traps around the loop",
            around(&[4, 61, 1, 0, 6, 0, 8, 0], &[11, 0], 62),
            "3 0",
        ),
    ]
}

/// Exits to each of 62 traps: that to the nearest by the first answer, that to the
/// outermost if all others are passed over.
fn every_level() -> Vec<TickEdge> {
    let levels = 0..MOST_TRAPS as u8;
    let exits: Vec<u8> = levels.flat_map(|level| [4, level]).collect();
    let choices = around(&exits, &[6, 0], MOST_TRAPS - 1);
    // The innermost traps are followed by a pause: exits to these don't end the body.
    let body = |pauses: usize| {
        let inner = around(&choices, &[11, 0, 2, 0, 9, 0], pauses);
        around(&inner, &[11, 0], MOST_TRAPS - pauses)
    };
    vec![
        ends("the exit to the first of 62 traps", body(0), &[1]),
        ends(
            "the exit to the 31st of 62 traps",
            body(30),
            &[vec![0; 30], vec![1]].concat(),
        ),
        ends(
            "exits to the last two of 62 traps, with lists of one length",
            body(60),
            &[0; 61],
        ),
        ends("the exit to the last of 62 traps", body(61), &[0; 61]),
    ]
}

fn depths() -> Vec<TickEdge> {
    vec![
        ends("depth 256 to the right", ending_with(&[0; 254]), &[0; 254]),
        ends("depth 256 to the left", ending_with(&[1; 254]), &[1; 254]),
        // The two innermost leaves are too deep.
        edge(
            "depth 257",
            in_loop(&ending_with(&[0; 255])),
            "refused 8 254",
        ),
        ends("depth 256 in signals", around(&[1, 0], &[5, 0], 254), &[]),
        ends(
            "depth 256 in sequences",
            around(&[1, 0], &[1, 0, 9, 0], 254),
            &[],
        ),
    ]
}

fn sizes() -> Vec<TickEdge> {
    let nothing = balanced(&[1, 0], 512, &[9, 0]);
    let too_many = in_loop(&after(&nothing, &[5, 0]));
    let presents = |answer: u8, both: &[u8]| balanced(&ending_with(&[answer]), 256, both);
    vec![
        ends("1,024 nodes, no answer", nothing, &[]),
        edge("1,025 nodes", too_many, "refused 1 0"),
        ends("256 times absent", presents(0, &[9, 0]), &[0; 256]),
        ends("256 times present", presents(1, &[10, 0]), &[1; 256]),
        ends(
            "1,024 nodes, a tree of presents",
            balanced(&[1, 0], 512, &[6, 0]),
            &[0; 9],
        ),
    ]
}

/// With 1,024 nodes a list has at most 509 answers. For one more there would be room
/// for a single node that joins two chains of presents, and these would be too deep.
fn longest() -> Vec<TickEdge> {
    let mixed: Vec<u8> = (0..509).map(|at| u8::from(at * at % 7 < 3)).collect();
    let chains = |answers: &[u8], length: usize| {
        let (first, rest) = answers.split_at(length);
        let (second, third) = rest.split_at(length);
        [first, second, third].map(ending_with)
    };
    let [first, second, third] = chains(&[0; 509], 170);
    let absent = parallel(&parallel(&first, &second), &third);
    let [first, second, third] = chains(&[1; 509], 252);
    let present = sequence(&sequence(&first, &second), &third);
    let [first, second, third] = chains(&mixed, 252);
    let deepest = parallel(&third, &sequence(&first, &second));
    let [first, second, _] = chains(&mixed, 253);
    let two_chains = parallel(&first, &second);
    vec![
        ends("509 times absent", absent, &[0; 509]),
        ends("509 times present", present, &[1; 509]),
        ends(
            "509 answers",
            deepest,
            &[&mixed[504..], &mixed[..504]].concat(),
        ),
        ends("506 answers of two chains", two_chains, &mixed[..506]),
    ]
}

/// After a loop that ends: the other checks come first.
fn order_of_checks() -> Vec<TickEdge> {
    vec![
        edge("no byte", [], "refused 2 0"),
        edge("an odd length", after(W6, &[9]), "refused 2 0"),
        edge("an unknown kind", after(W6, &[12, 0]), "refused 4 4"),
        edge("a field", after(W6, &[8, 1]), "refused 5 4"),
        edge("a missing child", after(W6, &[9, 0]), "refused 6 4"),
        edge("two statements", after(W6, &[2, 0]), "refused 7 0"),
        edge(
            "a depth of 257",
            sequence(W6, &around(&[2, 0], &[5, 0], 255)),
            "refused 8 4",
        ),
        edge(
            "a 63rd trap",
            sequence(W6, &around(&[2, 0], &[11, 0], 63)),
            "refused 9 5",
        ),
        edge("a level", sequence(W6, &[4, 0]), "refused 10 4"),
    ]
}
