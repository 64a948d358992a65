//! F-6: in a run from the fresh start, what is entered again in an instant is marked. It is
//! told twice what that is, from the trail and moment by moment. With each instant go the
//! facts that the request rests on.

use std::convert::Infallible;

use compare::account::{account, Account};
use compare::checks::{MOST_DEPTH, MOST_TRAPS};
use compare::reentry::{entered_twice, later_entries_are_starts};
use compare::support::edges::{edges, exits_through_all_traps};
use compare::support::every::{deciding_in_runs, every_program, every_table};
use compare::support::families;
use compare::support::frames::{exiting, framed};
use compare::support::programs::{accepted, any_shape, statement, Room, ALL_SHAPES};
use compare::support::programs::{ladder, ladder_answers, LADDER_HELD};
use compare::support::random::Random;
use compare::support::reentries::check_marks_of;
use compare::support::runs::{every_instant, every_instant_from, run, Instant};
use compare::support::states::{all_admitted, is_admitted};
use compare::support::vectors::{directory, read_runs};
use compare::support::SEED;
use compare::table::{self, Tree};
use compare::{How, Sets};

struct Tried<'a> {
    table: &'a [u8],
    tree: Tree,
    sets: Sets,
}

impl Tried<'_> {
    /// There is none for a table that is refused.
    fn of(table: &[u8]) -> Option<Tried<'_>> {
        let sets = Sets::of(table).ok()?;
        let tree = table::read(table).expect("an accepted table");
        Some(Tried { table, tree, sets })
    }

    fn check(&self, instant: &Instant) -> Account {
        let (table, trail) = (self.table, &instant.trail);
        let account = account(&self.tree, instant.before.as_deref(), &instant.answers)
            .expect("enough answers");
        assert_eq!(account.code, instant.closed.code, "{table:?}");
        assert_eq!(account.taken, instant.closed.taken, "{table:?}");
        assert_eq!(account.held, instant.after, "{table:?}");
        assert_eq!(account.reentered, entered_twice(trail), "{table:?}");
        self.check_marks(&account);
        self.check_codes(instant);
        assert!(later_entries_are_starts(trail), "{table:?}");
        // A start enters nothing twice.
        assert!(instant.before.is_some() || account.reentered.is_empty());
        let is_admitted = is_admitted(&self.tree, &instant.after);
        assert_eq!(is_admitted, account.code == 1, "{table:?}");
        account
    }

    fn check_marks(&self, account: &Account) {
        for &node in account.reentered.iter().chain(&account.dropped_unentered) {
            assert_eq!(self.sets.marks[node], 1, "{:?} node {node}", self.table);
        }
    }

    /// A started code is in K, a resumed one in A.
    fn check_codes(&self, instant: &Instant) {
        for entry in &instant.trail {
            let codes = match entry.how {
                How::Started => self.sets.start_sets[entry.node],
                How::Resumed => self.sets.any_sets[entry.node],
            };
            assert_eq!(codes >> entry.code & 1, 1, "{:?} {entry:?}", self.table);
        }
    }
}

/// How much was tried.
#[derive(Debug, Default)]
struct Counts {
    tables: usize,
    programs: usize,
    instants: usize,
    /// Instants in which something is entered twice; and those in which some of it had
    /// paused and was dropped.
    twice: usize,
    dropped: usize,
    /// Instants in which something is dropped and started that was not entered before.
    dropped_unentered: usize,
}

impl Counts {
    fn count(&mut self, instant: &Instant, account: &Account) {
        let has_paused = |&node: &usize| {
            let codes = instant.trail.iter().filter(|entry| entry.node == node);
            codes.rev().skip(1).any(|entry| entry.code == 1)
        };
        self.instants += 1;
        self.twice += usize::from(!account.reentered.is_empty());
        self.dropped += usize::from(account.reentered.iter().any(has_paused));
        self.dropped_unentered += usize::from(!account.dropped_unentered.is_empty());
    }

    /// All runs of a table, if it is accepted.
    fn try_runs(&mut self, table: &[u8]) {
        self.tables += 1;
        let Some(tried) = Tried::of(table) else {
            return;
        };
        self.programs += 1;
        let Ok(()) = every_instant(table, |instant| -> Result<(), Infallible> {
            self.count(instant, &tried.check(instant));
            Ok(())
        });
    }

    /// One run with random answers.
    fn try_run(&mut self, random: &mut Random, table: &[u8]) {
        let tried = Tried::of(table).expect("an accepted table");
        self.tables += 1;
        self.programs += 1;
        for case in families::run(random, table) {
            let instant = Instant::of(table, case.before().as_deref(), &case.answers);
            let instant = instant.expect("as many answers as it takes");
            self.count(&instant, &tried.check(&instant));
        }
    }
}

/// A program that ends has no further step.
#[test]
fn vectors() {
    let vectors = read_runs(&directory().join("reentry_open.jsonl"));
    assert_eq!(vectors.len(), 600);
    let mut counts = Counts::default();
    for (line, vector) in vectors.iter().enumerate() {
        let tried = Tried::of(&vector.table).expect("an accepted table");
        assert_eq!(tried.sets.marks, vector.marks, "line {}", line + 1);
        let instants = run(&vector.table, &vector.steps).expect("enough answers");
        let twice: Vec<Vec<usize>> = instants
            .iter()
            .map(|instant| entered_twice(&instant.trail))
            .collect();
        assert_eq!(twice, vector.twice, "line {}", line + 1);
        for instant in &instants {
            assert_eq!(instant.closed.taken, instant.answers.len());
            counts.count(instant, &tried.check(instant));
        }
    }
    println!("{counts:?}");
    assert_eq!(counts.instants, 2728);
}

#[test]
fn all_runs_of_all_small_programs() {
    let mut counts = Counts::default();
    every_table(&deciding_in_runs(), 8, |table| counts.try_runs(table));
    println!("{counts:?}");
    assert_eq!(counts.tables, 2_355_328);
    assert_eq!(counts.programs, 403_190);
    assert!(counts.twice > 100_000, "{counts:?}");
    // The lock program, its mirror image, and both with a suspend in the place of the loop.
    assert_eq!(counts.dropped, 4);
    assert_eq!(counts.dropped_unentered, 2);
}

/// In frames, since small programs have no room to drop much.
#[test]
fn all_runs_of_all_small_statements_in_frames() {
    let mut counts = Counts::default();
    every_table(&deciding_in_runs(), 6, |statement| {
        let programs = framed(statement);
        programs.iter().for_each(|table| counts.try_runs(table));
        counts.try_runs(&exiting(statement));
    });
    println!("{counts:?}");
    assert_eq!(counts.tables, 143_680);
    assert!(counts.dropped > 30_000, "{counts:?}");
    assert!(counts.dropped_unentered > 20_000, "{counts:?}");
}

#[test]
fn random_runs() {
    let random = &mut Random::new(SEED);
    let mut counts = Counts::default();
    for number in 0..100 * ALL_SHAPES {
        let most = *random.pick(&[12, 40, 200, 1024]);
        let nodes = random.between(1, most);
        let table = accepted(random, any_shape(number), nodes);
        counts.try_run(random, &table);
    }
    println!("{counts:?}");
    assert!(counts.twice > 1000, "{counts:?}");
}

/// In one frame, and in two.
#[test]
fn random_runs_of_statements_that_are_dropped() {
    let random = &mut Random::new(SEED);
    let mut counts = Counts::default();
    for number in 0..50 * ALL_SHAPES {
        let nodes = random.between(1, 60);
        let statement = accepted(random, any_shape(number), nodes);
        let once = framed(&statement);
        let twice = framed(&once[number % 3]);
        for table in once.iter().chain(&twice) {
            counts.try_run(random, table);
        }
    }
    println!("{counts:?}");
    assert!(counts.dropped > 5000, "{counts:?}");
    assert!(counts.dropped_unentered > 2000, "{counts:?}");
}

#[test]
fn random_runs_of_statements_that_exit() {
    let random = &mut Random::new(SEED);
    let mut counts = Counts::default();
    for number in 0..200 * ALL_SHAPES {
        let room = Room {
            nodes: random.between(1, 60),
            depth: MOST_DEPTH - 4,
            traps: 2,
        };
        let table = exiting(&statement(random, any_shape(number), room));
        if Sets::of(&table).is_ok() {
            counts.try_run(random, &table);
        }
    }
    println!("{counts:?}");
    assert!(counts.twice > 1000, "{counts:?}");
}

#[test]
fn edges_and_many_traps() {
    let random = &mut Random::new(SEED);
    let mut counts = Counts::default();
    let accepted = edges().into_iter().filter(|edge| edge.refusal.is_none());
    accepted.for_each(|edge| counts.try_run(random, &edge.table));
    let deep = exits_through_all_traps();
    deep.iter().for_each(|table| counts.try_runs(table));
    for steps in 1..=MOST_TRAPS {
        let table = ladder(steps);
        let tried = Tried::of(&table).expect("an accepted table");
        // After two pauses the ladder can be climbed.
        let answers = [vec![1], vec![1], ladder_answers(steps)];
        let instants = run(&table, &answers).expect("enough answers");
        assert_eq!(instants[2].before, Some(LADDER_HELD.to_vec()));
        for instant in &instants {
            counts.count(instant, &tried.check(instant));
        }
    }
    println!("{counts:?}");
    assert!(counts.twice > 2 * MOST_TRAPS, "{counts:?}");
}

/// The lock program with a suspended pause in the place of its inner loop.
#[test]
fn a_suspended_pause_that_is_dropped() {
    let table = [2, 0, 7, 0, 2, 0, 4, 0, 9, 0, 10, 0, 11, 0, 8, 0];
    let held = [0, 2];
    let tried = Tried::of(&table).expect("an accepted table");
    let check = |answer| {
        let instant = Instant::of(&table, Some(&held), &[answer]).expect("an admitted state");
        assert_eq!(instant.after, held);
        tried.check(&instant)
    };
    let resumed = check(0);
    assert_eq!(resumed.reentered, [0, 1, 2, 4, 5, 6]);
    assert_eq!(resumed.dropped_unentered, []);
    let suspended = check(1);
    assert_eq!(suspended.reentered, [1, 2, 4, 5, 6]);
    assert_eq!(suspended.dropped_unentered, [0]);
}

/// Of states that are merely admitted it doesn't hold: a branch may be held alone though the
/// other never ends, or a pause that no run leaves held. These are the smallest programs.
#[test]
fn admitted_states_that_are_not_reached() {
    let mut found = Vec::new();
    every_program(&deciding_in_runs(), 5, |table, sets| {
        let tree = table::read(table).expect("an accepted table");
        found.extend(all_admitted(&tree).iter().filter_map(|held| {
            let unmarked = every_instant_from(table, Some(held), |instant| {
                check_marks_of(&tree, &sets.marks, &instant)
            });
            Some((table.to_vec(), held.clone(), unmarked.err()?.nodes))
        }));
    });
    let expected: [(&[u8], usize, usize); 6] = [
        (&[2, 0, 2, 0, 8, 0, 10, 0, 8, 0], 0, 3),
        (&[2, 0, 4, 0, 10, 0, 8, 0, 11, 0], 0, 2),
        (&[2, 0, 8, 0, 2, 0, 9, 0, 8, 0], 2, 3),
        (&[2, 0, 8, 0, 2, 0, 10, 0, 8, 0], 2, 3),
        (&[4, 0, 2, 0, 9, 0, 8, 0, 11, 0], 1, 2),
        (&[4, 0, 2, 0, 10, 0, 8, 0, 11, 0], 1, 2),
    ];
    let expected = expected.map(|(table, held, node)| (table.to_vec(), vec![held], vec![node]));
    assert_eq!(found, expected);
}
