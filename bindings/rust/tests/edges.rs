//! The accepted edges of documents 01 and 02, with the sets that their rules give by hand.

mod common;

use bavzhrono::MAX_NODES;
use bavzhrono::{ask, first_tick, listing, trial, Analysis, CodeSet, Completion, Mark, Sets};
use common::*;

const ENDED: CodeSet = CodeSet(1 << 0);
const PAUSED: CodeSet = CodeSet(1 << 1);
const EITHER: CodeSet = CodeSet(1 << 0 | 1 << 1);

#[test]
fn two_thousand_and_forty_eight_bytes() {
    let mut expected = Sets {
        analysis: Analysis {
            nodes: MAX_NODES,
            loop_depth: 1,
        },
        start_sets: vec![PAUSED; MAX_NODES],
        any_sets: vec![EITHER; MAX_NODES],
        contexts: vec![CodeSet::EMPTY; MAX_NODES],
        marks: vec![Mark(0); MAX_NODES],
    };
    let (program, body) = (MAX_NODES - 1, MAX_NODES - 2);
    expected.any_sets[program] = PAUSED;
    // Only the body is started again at once: each sequence in it begins with a pause.
    expected.contexts[body] = ENDED;
    expected.marks[body] = Mark(1);
    assert_eq!(Sets::of(&full_table()), Ok(expected));
}

#[test]
fn the_longest_table_is_listed_and_run() {
    let table = full_table();
    assert!(listing(&table).starts_with("ok 1024 1 2048\n"));
    let mut lent = Buffers::for_table(&table, 0);
    // Loop, nine sequences down to the first pause, and that pause.
    assert_eq!(lent.start(&table, &[]), closed(Completion::Paused, 0, 11));
    assert_eq!(first_tick(&table), Ok(11));
    assert_eq!(lent.state, holding(&[0]));
    // Loop, sequence, and the 511 nodes of its first child.
    assert_eq!(ask(&table, MAX_NODES - 1, 1), asked(true, 513));
    assert_eq!(trial(&table, MAX_NODES - 1), tried(PAUSED.0, 0));
}

#[test]
fn depth_256() {
    let table = around([2, 0], [5, 0], 255);
    let sets = Sets::of(&table).unwrap();
    assert_eq!(sets.start_sets, [PAUSED; 256]);
    assert_eq!(sets.any_sets, [EITHER; 256]);

    let mut lent = Buffers::for_table(&table, 0);
    assert_eq!(lent.start(&table, &[]), closed(Completion::Paused, 0, 256));
    assert_eq!(first_tick(&table), Ok(256));
    assert_eq!(ask(&table, 255, 1), asked(true, 256));
    assert_eq!(trial(&table, 255), tried(PAUSED.0, 0));
    assert_eq!(
        lent.resume(&table, &[]),
        closed(Completion::Terminated, 0, 256)
    );
}

#[test]
fn loop_depth_255() {
    let table = around([2, 0], [8, 0], 255);
    let figures = Sets::of(&table).unwrap().analysis;
    assert_eq!((figures.nodes, figures.loop_depth), (256, 255));
    assert_eq!(figures.bound(), 256 * 256);
}

#[test]
fn sixty_two_traps() {
    let table = around([2, 0], [11, 0], 62);
    assert_eq!(Sets::of(&table).unwrap().start_sets, [PAUSED; 63]);
    assert_eq!(ask(&table, 62, 1), asked(true, 63));
    assert_eq!(trial(&table, 62), tried(PAUSED.0, 0));
}

#[test]
fn level_61_under_62_traps() {
    // Code 63 comes down by one at each trap, and the outermost catches it.
    let codes = (2..=63).rev().chain([0]).map(|code| CodeSet(1 << code));
    let expected: Vec<CodeSet> = codes.collect();
    let table = around([4, 61], [11, 0], 62);
    let sets = Sets::of(&table).unwrap();
    assert_eq!(sets.start_sets, expected);
    assert_eq!(sets.any_sets, expected);
    assert_eq!(ask(&table, 0, 63), asked(true, 1));
    assert_eq!(ask(&table, 61, 2), asked(true, 62));
    assert_eq!(ask(&table, 62, 0), asked(true, 63));
    for (node, set) in expected.iter().enumerate() {
        assert_eq!(trial(&table, node), tried(set.0, 0));
    }
}

/// The set of the codes from 0 to the given one.
fn up_to(code: u32) -> CodeSet {
    CodeSet(u64::MAX >> (63 - code))
}

/// A loop around two branches: 62 traps around an exit to the outermost beside a pause, and a pause.
fn exit_beside_a_pause() -> Vec<u8> {
    let exit = vec![4, 61, 2, 0, 10, 0];
    [exit, [11, 0].repeat(62), vec![2, 0, 10, 0, 8, 0]].concat()
}

#[test]
fn code_63_in_all_sets() {
    let sets = Sets::of(&exit_beside_a_pause()).unwrap();
    let exit = CodeSet(1 << 63);
    // The exit, the pause beside it, and their parallel, with 62 traps around.
    assert_eq!(sets.start_sets[..3], [exit, PAUSED, exit]);
    assert_eq!(sets.any_sets[..3], [exit, EITHER, exit]);
    assert_eq!(sets.contexts[..3], [up_to(63); 3]);
    // The traps, from the innermost out: as many are around each as are still to come.
    for (node, around) in (3..65).zip((0..62).rev()) {
        let code = if around == 0 { 0 } else { 1 + around };
        assert_eq!(sets.start_sets[node], CodeSet(1 << code));
        assert_eq!(sets.any_sets[node], CodeSet(1 << code));
        assert_eq!(sets.contexts[node], up_to(1 + around));
    }
    // The other pause, the outer parallel and the loop.
    assert_eq!(sets.start_sets[65..], [PAUSED; 3]);
    assert_eq!(sets.any_sets[65..], [EITHER, EITHER, PAUSED]);
    assert_eq!(sets.contexts[65..], [up_to(1), ENDED, CodeSet::EMPTY]);
    assert_eq!(sets.marks[..67], [Mark(1); 67]);
    for (node, set) in sets.start_sets.iter().enumerate() {
        assert_eq!(trial(&exit_beside_a_pause(), node), tried(set.0, 0));
    }
    assert_eq!(sets.marks[67], Mark(0));
}

/// Starts the program and resumes it, with so many entries. Both instants pause with the same
/// pauses held. It has no test, so that its first tick is the one that there is.
fn assert_pauses_twice(table: &[u8], held: &[usize], entries: [usize; 2]) {
    let mut lent = Buffers::for_table(table, 0);
    let [started, resumed] = entries.map(|entries| closed(Completion::Paused, 0, entries));
    assert_eq!(first_tick(table), Ok(entries[0]));
    assert_eq!(lent.start(table, &[]), started);
    assert_eq!(lent.state, holding(held));
    assert_eq!(lent.resume(table, &[]), resumed);
    assert_eq!(lent.state, holding(held));
}

#[test]
fn a_started_exit_leaves_62_traps() {
    // Every node once; the outermost trap drops the pause beside the exit. Then the loop, the
    // parallel and the pause, and once more all but the loop.
    assert_pauses_twice(&exit_beside_a_pause(), &[65], [68, 3 + 67]);
}

#[test]
fn an_exit_after_a_pause_leaves_62_traps() {
    // The lock program of F-5 with 62 traps for one: its two pauses are held.
    let lock = vec![2, 0, 8, 0, 2, 0, 4, 61, 9, 0, 10, 0];
    let table = [lock, [11, 0].repeat(62), vec![8, 0]].concat();
    // All but the exit. Then all, pause 0 twice, and the loop's body once more without the exit.
    assert_pauses_twice(&table, &[0, 2], [68, 70 + 67]);
}
