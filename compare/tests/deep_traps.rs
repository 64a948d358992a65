//! F-7: up to 62 traps around each other, and code 63 in sets and instants.

use compare::support::damage::{bad_table, BAD_NUMBERS};
use compare::support::edges::{edges, exits_through_all_traps};
use compare::support::programs::{accepted, traps_around, SHAPES};
use compare::support::random::Random;
use compare::support::SEED;
use compare::table;
use compare::{packed, resume_with_trail, start_with_trail, Closed, Entry, How, Sets, STATE_BYTES};

const CODE_63: u64 = 0x8000_0000_0000_0000;
const ALL_CODES: u64 = 0xffff_ffff_ffff_ffff;
/// Codes 0 to 62.
const ALL_BUT_63: u64 = 0x7fff_ffff_ffff_ffff;
/// What a loop around 62 traps, or 61, brings in; code 1 is from parallels alone.
const ALL_BUT_1: u64 = 0xffff_ffff_ffff_fffd;
const ALL_BUT_1_AND_63: u64 = 0x7fff_ffff_ffff_fffd;

fn edge(name: &str) -> Vec<u8> {
    let edge = edges().into_iter().find(|edge| edge.name == name);
    edge.expect("an edge of this name").table
}

/// K, A, S and mark of a node.
fn sets(table: &[u8], node: usize) -> (u64, u64, u64, u8) {
    let sets = Sets::of(table).expect("an accepted table");
    (
        sets.start_sets[node],
        sets.any_sets[node],
        sets.contexts[node],
        sets.marks[node],
    )
}

#[test]
fn code_63_in_all_three_sets() {
    let table = edge("code 63 in K, A and S");
    // The exit, the pause, their parallel, and the innermost trap.
    assert_eq!(sets(&table, 0), (CODE_63, CODE_63, ALL_CODES, 1));
    assert_eq!(sets(&table, 1), (2, 3, ALL_CODES, 1));
    assert_eq!(sets(&table, 2), (CODE_63, CODE_63, ALL_CODES, 1));
    assert_eq!(sets(&table, 3), (1 << 62, 1 << 62, ALL_BUT_63, 1));
    // The trap before the outermost, the outermost, a pause, parallel and loop.
    assert_eq!(sets(&table, 63), (4, 4, 7, 1));
    assert_eq!(sets(&table, 64), (1, 1, 3, 1));
    assert_eq!(sets(&table, 65), (2, 3, 3, 1));
    assert_eq!(sets(&table, 66), (2, 3, 1, 1));
    assert_eq!(sets(&table, 67), (2, 2, 0, 0));
}

#[test]
fn code_63_in_a_context_by_the_traps_alone() {
    let table = edge("a context of all codes up to 63");
    // The first branch, the exit, the second branch, their parallel, a trap.
    assert_eq!(sets(&table, 0), (2, 3, ALL_CODES, 1));
    assert_eq!(sets(&table, 2), (CODE_63, CODE_63, 0, 0));
    assert_eq!(sets(&table, 3), (2, 2 | CODE_63, ALL_CODES, 1));
    assert_eq!(sets(&table, 4), (2, 2 | CODE_63, ALL_BUT_1, 1));
    assert_eq!(sets(&table, 5), (2, 2 | 1 << 62, ALL_BUT_1_AND_63, 1));
}

#[test]
fn code_63_in_a_context_by_the_parallel_alone() {
    let table = edge("code 63 in S by the parallel alone");
    // The exit, the pause, their parallel, and the body of the loop.
    assert_eq!(sets(&table, 0), (CODE_63, CODE_63, ALL_CODES, 1));
    assert_eq!(sets(&table, 1), (2, 3, ALL_CODES, 1));
    assert_eq!(sets(&table, 2), (CODE_63, CODE_63, ALL_BUT_1_AND_63, 0));
    assert_eq!(sets(&table, 63), (4, 4, 1, 0));
}

fn started(node: usize, code: u32) -> Entry {
    let how = How::Started;
    Entry { node, how, code }
}

fn resumed(node: usize, code: u32) -> Entry {
    let how = How::Resumed;
    Entry { node, how, code }
}

/// The 62 traps, entered from the outermost on. Code 63 leaves the innermost as 62;
/// the last but one hands 2 to the outermost, which catches it.
fn traps(outermost: usize, entry: fn(usize, u32) -> Entry) -> Vec<Entry> {
    let mut traps = vec![entry(outermost, 0)];
    traps.extend((2..=62).map(|code| entry(outermost + 1 - code as usize, code)));
    traps
}

/// The 62 traps, started around what pauses.
fn pausing_traps(outermost: usize) -> Vec<Entry> {
    let nodes = (outermost - 61..=outermost).rev();
    nodes.map(|node| started(node, 1)).collect()
}

/// Starts the program and resumes it. Both instants leave the same pauses held.
fn check_instants(table: &[u8], held: &[usize], first: Vec<Entry>, second: Vec<Entry>) {
    let mut state = [9; STATE_BYTES];
    let answer = start_with_trail(table, &[], &mut state, &mut [9; 256]);
    assert_eq!(answer, Ok((Closed::new(1, 0, first.len()), first)));
    assert_eq!(state, packed(held));
    let answer = resume_with_trail(table, &[], &mut state, &mut [9; 256]);
    assert_eq!(answer, Ok((Closed::new(1, 0, second.len()), second)));
    assert_eq!(state, packed(held));
}

#[test]
fn a_start_carries_code_63_before_or_beside_a_pause() {
    let [before_a_pause, _, beside_a_pause, _] = exits_through_all_traps();
    let mut body = vec![started(66, 1)];
    body.extend(traps(64, started));
    // Pause 1 is dropped, pause 65 is held.
    body.extend([started(2, 63), started(0, 63)]);
    body.extend([started(1, 1), started(65, 1)]);
    let first = [&[started(67, 1)], &body[..]].concat();
    let ended = [resumed(67, 1), resumed(66, 0), resumed(65, 0)];
    let second = [&ended, &body[..]].concat();
    for table in [before_a_pause, beside_a_pause] {
        check_instants(&table, &[65], first.clone(), second.clone());
    }
}

#[test]
fn a_resumption_starts_what_carries_code_63() {
    let [_, after_a_pause, _, _] = exits_through_all_traps();
    let body = [started(66, 1), started(0, 1)];
    let first = [&[started(67, 1)], &body[..]].concat();
    let mut second = vec![resumed(67, 1), resumed(66, 0), resumed(0, 0)];
    second.extend(traps(65, started));
    // Pause 2 is dropped.
    second.extend([started(3, 63), started(1, 63), started(2, 1)]);
    second.extend(body);
    check_instants(&after_a_pause, &[0], first, second);
}

#[test]
fn resumed_traps_carry_code_63_and_drop_a_pause_that_starts_again() {
    let [_, _, _, lock] = exits_through_all_traps();
    let mut body = pausing_traps(67);
    body.extend([5, 1, 0, 4, 2].map(|node| started(node, 1)));
    let first = [&[started(68, 1)], &body[..]].concat();
    let mut second = vec![resumed(68, 1)];
    second.extend(traps(67, resumed));
    second.extend([resumed(5, 63), resumed(1, 1), resumed(0, 0), started(0, 1)]);
    second.extend([resumed(4, 63), resumed(2, 0), started(3, 63)]);
    second.extend(body);
    check_instants(&lock, &[0, 2], first, second);
}

/// The greatest number of traps around each other, in a table that is one statement.
fn most_traps(table: &[u8]) -> Option<usize> {
    let tree = table::read(table).ok()?;
    traps_around(&tree).into_iter().max()
}

/// How many of some tables reach what F-7 changes.
#[derive(Debug, Default)]
struct Reached {
    more_than_32: usize,
    all_62: usize,
    more_than_62: usize,
    /// Accepted tables with code 63 in K of some node.
    code_63: usize,
}

impl Reached {
    fn count(&mut self, table: &[u8]) {
        let Some(traps) = most_traps(table) else {
            return;
        };
        self.more_than_32 += usize::from(traps > 32);
        self.all_62 += usize::from(traps == 62);
        self.more_than_62 += usize::from(traps > 62);
        if let Ok(sets) = Sets::of(table) {
            let has_code_63 = |set: &u64| set & CODE_63 != 0;
            self.code_63 += usize::from(sets.start_sets.iter().any(has_code_63));
        }
    }
}

#[test]
fn random_programs_reach_62_traps() {
    let random = &mut Random::new(SEED);
    let mut reached = Reached::default();
    for number in 0..900 {
        let nodes = *random.pick(&[40, 250, 1024]);
        reached.count(&accepted(random, &SHAPES[number % SHAPES.len()], nodes));
    }
    println!("{reached:?}");
    assert!(reached.more_than_32 > 50, "{reached:?}");
    assert!(reached.all_62 > 10, "{reached:?}");
    assert!(reached.code_63 > 5, "{reached:?}");
}

#[test]
fn damaged_tables_reach_63_traps() {
    let random = &mut Random::new(SEED);
    let mut reached = Reached::default();
    for number in 0..10 * BAD_NUMBERS {
        reached.count(&bad_table(random, number % BAD_NUMBERS));
    }
    println!("{reached:?}");
    assert!(reached.more_than_62 > 25, "{reached:?}");
    assert!(reached.all_62 > 10, "{reached:?}");
    assert!(reached.code_63 > 5, "{reached:?}");
}
