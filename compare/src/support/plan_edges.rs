//! Tables at the edges of request F-10, each with the line that is printed for it, worked
//! out by hand.

use super::edges::{after, around, LOCK, W1, W2, W3, W4, W5, W6, W7, W8};
use super::nodes::{EXIT, LOOP, NOTHING, PAUSE, SIGNAL, SUSPEND, TRAP};
use super::programs::balanced;
use super::ticks::ending_with;
use crate::checks::MOST_TRAPS;

pub struct PlanEdge {
    pub name: String,
    pub table: Vec<u8>,
    pub line: String,
}

pub fn edges() -> Vec<PlanEdge> {
    let mut edges = table_w();
    edges.extend(statements());
    edges.extend(presents());
    edges.extend(sequences());
    edges.extend(parallels());
    edges.extend(suspended_exits());
    edges.extend(parallels_that_go_on());
    edges.extend(loops());
    edges.extend(exits());
    edges.extend(every_level());
    edges.extend(depths());
    edges.extend(sizes());
    edges.extend(every_number_of_digits());
    edges.extend(order_of_checks());
    edges
}

/// An accepted program, and the entries that it makes at most.
fn entries(name: &str, table: impl Into<Vec<u8>>, most: usize) -> PlanEdge {
    edge(name, table, &most.to_string())
}

fn edge(name: &str, table: impl Into<Vec<u8>>, line: &str) -> PlanEdge {
    PlanEdge {
        name: name.to_string(),
        table: table.into(),
        line: format!("{line}\n"),
    }
}

fn present(then: &[u8], otherwise: &[u8]) -> Vec<u8> {
    [then, otherwise, &[6, 0]].concat()
}

fn sequence(first: &[u8], second: &[u8]) -> Vec<u8> {
    [first, second, &[9, 0]].concat()
}

fn parallel(left: &[u8], right: &[u8]) -> Vec<u8> {
    [left, right, &[10, 0]].concat()
}

fn in_trap(body: &[u8]) -> Vec<u8> {
    after(body, TRAP)
}

fn in_loop(body: &[u8]) -> Vec<u8> {
    after(body, LOOP)
}

/// The statement within so many signals: as many entries more, with the same code.
fn behind(signals: usize, statement: &[u8]) -> Vec<u8> {
    around(statement, SIGNAL, signals)
}

/// Pauses with three entries, and ends with two.
fn pause_or_end() -> Vec<u8> {
    present(&behind(1, PAUSE), NOTHING)
}

fn table_w() -> Vec<PlanEdge> {
    vec![
        // The emit is not entered, as W9 has it.
        entries("W1", W1, 3),
        edge("W2", W2, "refused 11 1"),
        // All but the second exit to the outer trap.
        entries("W3", W3, 10),
        edge("W4", W4, "refused 11 2"),
        edge("W5", W5, "refused 10 0"),
        edge("W6", W6, "refused 11 3"),
        entries("the body of W6", &W6[..6], 2),
        entries("W7", W7, 3),
        edge("W8", W8, "refused 11 7"),
        // Both tests end; with the first pause the second test is not come to.
        entries("the body of W8", &W8[..14], 5),
        // All but the exit after the pause.
        entries("the lock program", LOCK, 7),
    ]
}

fn statements() -> Vec<PlanEdge> {
    vec![
        entries("nothing", NOTHING, 1),
        entries("pause", PAUSE, 1),
        entries("emit", [3, 255], 1),
        entries("signal", [3, 7, 5, 7], 2),
        entries("suspend of nothing", after(NOTHING, SUSPEND), 2),
        entries("suspend of pause", after(PAUSE, SUSPEND), 2),
        entries("loop", in_loop(PAUSE), 2),
        entries("trap", in_trap(NOTHING), 2),
        entries("exit", in_trap(EXIT), 2),
    ]
}

/// One branch is entered.
fn presents() -> Vec<PlanEdge> {
    let three = sequence(NOTHING, NOTHING);
    vec![
        entries("equal branches", present(NOTHING, PAUSE), 2),
        entries("then has more", present(&three, PAUSE), 4),
        entries("else has more", present(NOTHING, &behind(2, PAUSE)), 4),
        entries("branches are not added", present(&three, &three), 4),
        entries(
            "a test in a test",
            present(&present(NOTHING, &three), &behind(3, NOTHING)),
            5,
        ),
        entries("in a suspend", after(&pause_or_end(), SUSPEND), 4),
    ]
}

fn sequences() -> Vec<PlanEdge> {
    let exit_or_end = present(&behind(2, EXIT), NOTHING);
    vec![
        entries("both are entered", sequence(NOTHING, NOTHING), 3),
        entries("a pause stops it", sequence(PAUSE, NOTHING), 2),
        entries("an exit stops it", in_trap(&sequence(EXIT, NOTHING)), 3),
        entries(
            "equal branches, one of which goes on",
            sequence(&present(PAUSE, NOTHING), NOTHING),
            4,
        ),
        // Pausing: the sequence and three. Ending: the sequence, two and the second.
        entries(
            "the first has its most with a pause",
            sequence(&pause_or_end(), NOTHING),
            4,
        ),
        entries(
            "the second makes up for it",
            sequence(&pause_or_end(), &behind(2, NOTHING)),
            6,
        ),
        entries(
            "the second does not make up for it",
            sequence(&present(&behind(3, PAUSE), NOTHING), &behind(1, NOTHING)),
            6,
        ),
        // All end but the last.
        entries(
            "three in a row",
            sequence(&sequence(&pause_or_end(), &pause_or_end()), &pause_or_end()),
            9,
        ),
        entries(
            "three in a row, grouped to the right",
            sequence(&pause_or_end(), &sequence(&pause_or_end(), &pause_or_end())),
            9,
        ),
        // Exiting: trap, sequence, present and three. Ending: one less.
        entries(
            "the first has its most with an exit",
            in_trap(&sequence(&exit_or_end, NOTHING)),
            6,
        ),
        entries(
            "the exit goes on after the trap, the pause does not",
            sequence(&in_trap(&sequence(&exit_or_end, PAUSE)), NOTHING),
            8,
        ),
        entries(
            "the end goes on to a pause with more entries",
            sequence(
                &in_trap(&sequence(&exit_or_end, &behind(4, PAUSE))),
                NOTHING,
            ),
            10,
        ),
    ]
}

/// Both branches are entered, whatever the left one does.
fn parallels() -> Vec<PlanEdge> {
    vec![
        entries("two ends", parallel(NOTHING, NOTHING), 3),
        entries("two pauses", parallel(PAUSE, PAUSE), 3),
        entries("an exit on the left", in_trap(&parallel(EXIT, NOTHING)), 4),
        entries("an exit on the right", in_trap(&parallel(PAUSE, EXIT)), 4),
        entries("two exits", in_trap(&parallel(EXIT, EXIT)), 4),
        entries(
            "each branch has its most",
            parallel(&pause_or_end(), &pause_or_end()),
            7,
        ),
        entries(
            "each branch has its most, with other codes",
            parallel(&pause_or_end(), &present(PAUSE, &behind(3, NOTHING))),
            9,
        ),
        entries(
            "the exit to the farther trap counts",
            in_trap(&sequence(
                &in_trap(&parallel(&[4, 1], EXIT)),
                &behind(5, NOTHING),
            )),
            6,
        ),
    ]
}

/// Were it tested when it is started, the nearer exit could count, and there would be two
/// entries more.
fn suspended_exits() -> Vec<PlanEdge> {
    let far_exit = after(&[4, 1], SUSPEND);
    let go_on = |branches: &[u8]| in_trap(&sequence(&in_trap(branches), &behind(1, NOTHING)));
    vec![
        entries(
            "a suspended exit on the left",
            go_on(&parallel(&far_exit, EXIT)),
            7,
        ),
        entries(
            "a suspended exit on the right",
            go_on(&parallel(EXIT, &far_exit)),
            7,
        ),
    ]
}

/// Only one code of the parallel goes on, and its branches have their most with others.
fn parallels_that_go_on() -> Vec<PlanEdge> {
    let both = parallel(&pause_or_end(), &pause_or_end());
    let pause_or_exit = present(&behind(1, PAUSE), EXIT);
    let end_or_exit = present(&behind(1, NOTHING), EXIT);
    let far_exit_or_pause = present(&[4, 1], &behind(1, PAUSE));
    vec![
        // Pausing: sequence, parallel, three and one. Ending: two and one, and the second.
        entries(
            "one branch has its most with a pause, which does not go on",
            sequence(&parallel(&pause_or_end(), NOTHING), NOTHING),
            6,
        ),
        entries(
            "the same on the right",
            sequence(&parallel(NOTHING, &pause_or_end()), NOTHING),
            6,
        ),
        // Pausing: eight. Ending: six, and the second.
        entries("both pause", sequence(&both, NOTHING), 8),
        entries(
            "as many if both end",
            sequence(&both, &behind(1, NOTHING)),
            8,
        ),
        entries("more if both end", sequence(&both, &behind(2, NOTHING)), 9),
        // With the exit: sequence, trap, parallel, two and one, and the second. Without it:
        // sequence, trap, parallel, three and one.
        entries(
            "the exit goes on, the pause with more does not",
            sequence(&in_trap(&parallel(&pause_or_exit, PAUSE)), NOTHING),
            7,
        ),
        entries(
            "an exit on the left lets the right branch pause with its most",
            sequence(&in_trap(&parallel(EXIT, &pause_or_end())), NOTHING),
            8,
        ),
        // An exit of one branch suffices: three entries of the other, two of its own.
        entries(
            "one exits, the other pauses with its most",
            sequence(
                &in_trap(&parallel(&pause_or_exit, &pause_or_exit)),
                &behind(1, NOTHING),
            ),
            10,
        ),
        // No exit is needed where all branches end.
        entries(
            "both end",
            sequence(&in_trap(&parallel(&end_or_exit, &end_or_exit)), NOTHING),
            10,
        ),
        // The pause lets the nearer exit count, which goes on.
        entries(
            "a pause with more beside the nearer exit",
            in_trap(&sequence(
                &in_trap(&parallel(&far_exit_or_pause, EXIT)),
                NOTHING,
            )),
            9,
        ),
        // With the farther exit: two traps, sequence, parallel, four and one. With the
        // nearer: two and one, and the second.
        entries(
            "the farther exit with more does not go on",
            in_trap(&sequence(
                &in_trap(&parallel(&present(&behind(2, &[4, 1]), PAUSE), EXIT)),
                NOTHING,
            )),
            9,
        ),
        entries(
            "the farther exit with more goes on further out",
            sequence(
                &in_trap(&sequence(
                    &in_trap(&parallel(&present(&behind(2, &[4, 1]), PAUSE), EXIT)),
                    PAUSE,
                )),
                &behind(1, NOTHING),
            ),
            12,
        ),
    ]
}

/// The body is started once.
fn loops() -> Vec<PlanEdge> {
    let exit_or_pause = present(EXIT, &behind(1, PAUSE));
    vec![
        entries("a loop in a loop", in_loop(&in_loop(PAUSE)), 3),
        entries(
            "a body with a choice",
            in_loop(&present(PAUSE, &behind(1, PAUSE))),
            4,
        ),
        entries(
            "a body that ends later",
            in_loop(&sequence(PAUSE, &behind(4, NOTHING))),
            3,
        ),
        entries(
            "a body that goes on before it pauses",
            in_loop(&sequence(&pause_or_end(), &behind(4, PAUSE))),
            9,
        ),
        entries("a loop left by an exit", in_trap(&in_loop(EXIT)), 3),
        entries(
            "a loop left by an exit, and what follows",
            sequence(&in_trap(&in_loop(EXIT)), NOTHING),
            5,
        ),
        // Left: sequence, trap, loop, present, exit and the second. Paused: as many.
        entries(
            "a loop that is left or pauses",
            sequence(&in_trap(&in_loop(&exit_or_pause)), NOTHING),
            6,
        ),
        entries(
            "a loop that is left for more",
            sequence(&in_trap(&in_loop(&exit_or_pause)), &behind(1, NOTHING)),
            7,
        ),
        entries("two loops", parallel(W1, &in_loop(PAUSE)), 6),
    ]
}

fn exits() -> Vec<PlanEdge> {
    vec![
        entries("62 traps", around(PAUSE, TRAP, 62), 63),
        entries("level 61 under 62", around(&[4, 61], TRAP, 62), 63),
        edge(
            "level 62 under 62",
            around(&[4, 62], TRAP, 62),
            "refused 10 0",
        ),
        edge("63 traps", around(NOTHING, TRAP, 63), "refused 9 1"),
        // The sequences between are stopped; the one outside all traps is not.
        entries(
            "an exit past all that would follow",
            sequence(
                &in_trap(&around(&[4, 61], &[11, 0, 1, 0, 9, 0], 61)),
                NOTHING,
            ),
            1 + 62 + 61 + 1 + 1,
        ),
        entries(
            "an exit to the nearest, and all that follows",
            around(EXIT, &[11, 0, 1, 0, 9, 0], 62),
            1 + 3 * 62,
        ),
    ]
}

/// Exits to each of 62 traps: that to the nearest behind one test, that to the next behind
/// two; those to the last two behind 61.
fn every_level() -> Vec<PlanEdge> {
    let levels = 0..MOST_TRAPS as u8;
    let exits: Vec<u8> = levels.clone().flat_map(|level| [4, level]).collect();
    let nearest_first = around(&exits, &[6, 0], MOST_TRAPS - 1);
    let exits: Vec<u8> = levels.rev().flat_map(|level| [4, level]).collect();
    let farthest_first = around(&exits, &[6, 0], MOST_TRAPS - 1);
    // After each trap, which an exit to a farther one passes by.
    let followed = |choice: &[u8], by: &[u8]| {
        let around_each = [TRAP, by, &[9, 0]].concat();
        around(choice, &around_each, MOST_TRAPS)
    };
    vec![
        entries(
            "exits to 62 traps",
            around(&nearest_first, TRAP, MOST_TRAPS),
            61 + 1 + 62,
        ),
        // Each trap nearer takes one test less and one entry more; only the last two are
        // behind as many tests.
        entries(
            "exits to 62 traps, each followed by one entry",
            followed(&nearest_first, NOTHING),
            1 + 1 + 2 * 62 + 62,
        ),
        entries(
            "exits to 62 traps, each followed by two entries",
            followed(&nearest_first, &behind(1, NOTHING)),
            1 + 1 + 2 * 62 + 2 * 62,
        ),
        entries(
            "exits to 62 traps, each followed by a pause",
            followed(&nearest_first, PAUSE),
            61 + 1 + 2 * 62 + 1,
        ),
        // That to the nearest is behind 61 tests, as is that to the next, which skips one.
        entries(
            "exits to 62 traps, the nearest last, each followed by one entry",
            followed(&farthest_first, NOTHING),
            61 + 1 + 2 * 62 + 62,
        ),
        entries(
            "exits to 62 traps, the nearest last, each followed by a pause",
            followed(&farthest_first, PAUSE),
            61 + 1 + 2 * 62 + 1,
        ),
    ]
}

fn depths() -> Vec<PlanEdge> {
    vec![
        entries("depth 256 in signals", behind(255, NOTHING), 256),
        edge("depth 257 in signals", behind(256, NOTHING), "refused 8 0"),
        entries("depth 256 in suspends", around(PAUSE, SUSPEND, 255), 256),
        entries("depth 256 in loops", around(PAUSE, LOOP, 255), 256),
        entries("depth 256 in tests", ending_with(&[0; 255]), 256),
        entries(
            "depth 256 in tests to the left",
            ending_with(&[1; 255]),
            256,
        ),
        // The two innermost leaves are too deep.
        edge(
            "depth 257 in tests",
            ending_with(&[0; 256]),
            "refused 8 255",
        ),
        entries(
            "depth 256 in sequences",
            around(NOTHING, &[1, 0, 9, 0], 255),
            511,
        ),
        entries(
            "depth 256 in sequences that pause",
            around(PAUSE, &[1, 0, 9, 0], 255),
            256,
        ),
        entries(
            "depth 256 in sequences to the right",
            [[1, 0].repeat(256), [9, 0].repeat(255)].concat(),
            511,
        ),
        entries(
            "depth 256 in sequences to the right that pause",
            [[2, 0].repeat(256), [9, 0].repeat(255)].concat(),
            2,
        ),
        entries(
            "depth 256 in parallels",
            around(PAUSE, &[2, 0, 10, 0], 255),
            511,
        ),
    ]
}

fn sizes() -> Vec<PlanEdge> {
    let full = balanced(NOTHING, 512, &[9, 0]);
    // 204 times four nodes, and 203 that join them.
    let sequences = balanced(&pause_or_end(), 204, &[9, 0]);
    let parallels = balanced(&pause_or_end(), 204, &[10, 0]);
    vec![
        entries("1,023 nodes", full.clone(), 1023),
        entries("1,024 nodes", behind(1, &full), 1024),
        edge("1,025 nodes", behind(2, &full), "refused 1 0"),
        edge("1,024 nodes in a loop", in_loop(&full), "refused 11 1023"),
        entries(
            "512 pauses in parallel",
            balanced(PAUSE, 512, &[10, 0]),
            1023,
        ),
        // As deep as there are sequences on the way to the first of them.
        entries("512 pauses in sequence", balanced(PAUSE, 512, &[9, 0]), 10),
        entries("a tree of 511 tests", balanced(PAUSE, 512, &[6, 0]), 10),
        // All end but the last.
        entries(
            "204 choices in sequence",
            sequences.clone(),
            203 + 2 * 204 + 1,
        ),
        entries(
            "204 choices in sequence, and one entry more",
            sequence(&sequences, NOTHING),
            1 + 203 + 2 * 204 + 1,
        ),
        entries("204 choices in parallel", parallels.clone(), 203 + 3 * 204),
        entries(
            "204 choices in parallel, and one entry more",
            sequence(&parallels, NOTHING),
            1 + 203 + 3 * 204,
        ),
        // Depth by depth, the leaf first: a sequence enters one child, a parallel both.
        entries(
            "sequences and parallels by turns",
            (0..9).fold(PAUSE.to_vec(), |half, height| {
                if height % 2 == 0 {
                    sequence(&half, &half)
                } else {
                    parallel(&half, &half)
                }
            }),
            62,
        ),
    ]
}

/// Programs that enter all their nodes, of numbers with one to four digits.
fn every_number_of_digits() -> Vec<PlanEdge> {
    let numbers = [
        8, 9, 10, 11, 19, 20, 99, 100, 101, 109, 110, 199, 200, 500, 909, 999, 1000, 1001, 1010,
        1019, 1020, 1022,
    ];
    let edge = |number: usize| {
        let joined = balanced(NOTHING, number.div_ceil(2), &[9, 0]);
        // An even number is one more than the odd number of these.
        let table = behind((number + 1) % 2, &joined);
        entries(&format!("all of {number} nodes"), table, number)
    };
    numbers.map(edge).into()
}

/// After a program that has a number: each of the checks. After a loop that ends: 11 is the
/// last of them.
fn order_of_checks() -> Vec<PlanEdge> {
    let mut edges = vec![
        edge("no byte", [], "refused 2 0"),
        edge("one byte", [2], "refused 2 0"),
        edge(
            "2,049 bytes",
            [1, 0].repeat(1025)[1..].to_vec(),
            "refused 1 0",
        ),
        edge("2,050 bytes", [1, 0].repeat(1025), "refused 1 0"),
    ];
    for (name, program) in [("W1", W1), ("W6", W6)] {
        for (fault, table, line) in [
            ("an odd length", after(program, &[9]), "refused 2 0"),
            ("an unknown kind", after(program, &[12, 0]), "refused 4 4"),
            ("a field", after(program, &[8, 1]), "refused 5 4"),
            ("a missing child", after(program, &[9, 0]), "refused 6 4"),
            ("two statements", after(program, PAUSE), "refused 7 0"),
            (
                "a depth of 257",
                sequence(program, &behind(255, PAUSE)),
                "refused 8 4",
            ),
            (
                "a 63rd trap",
                sequence(program, &around(PAUSE, TRAP, 63)),
                "refused 9 5",
            ),
            ("a level", sequence(program, EXIT), "refused 10 4"),
        ] {
            edges.push(edge(&format!("{fault} after {name}"), table, line));
        }
    }
    edges.extend([
        edge(
            "a loop that ends after W1",
            sequence(W1, W2),
            "refused 11 5",
        ),
        edge("the lower of two loops", parallel(W8, W2), "refused 11 7"),
        edge("the inner of two loops", in_loop(W2), "refused 11 1"),
        edge(
            "a loop that is not come to",
            sequence(PAUSE, W2),
            "refused 11 2",
        ),
    ]);
    edges
}
