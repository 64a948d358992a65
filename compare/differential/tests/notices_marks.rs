//! Wrong marks that runs must notice by themselves, without a comparison of marks.

use compare::support::calls::{Calls, COMPARE};
use compare::support::cases::Call;
use compare::support::edges::LOCK;
use compare::support::random::Random;
use compare::support::wrong_marks::{
    before_f5, by_start_sets, second_as_its_parent, without_caught,
};
use compare::support::{runs, SEED};
use compare::{packed, Sets};
use differential::groups::runs::{dropped, Program};
use differential::tally::Tally;
use differential::trials::Instant;

/// A wrong way to mark an accepted table.
trait Marking {
    fn marks(table: &[u8]) -> Vec<u8>;
}

fn marked_by<M: Marking>() -> Calls {
    Calls {
        analyse: |table, start_sets, any_sets, contexts, marks, answer| {
            let returned = (COMPARE.analyse)(table, start_sets, any_sets, contexts, marks, answer);
            if returned == 0 {
                marks[..table.len() / 2].copy_from_slice(&M::marks(table));
            }
            returned
        },
        ..COMPARE
    }
}

/// What the group of statements that are dropped reports.
fn report<M: Marking>() -> String {
    let mut tally = Tally::new(marked_by::<M>());
    let noticed = dropped(&mut tally, &mut Random::new(SEED));
    noticed.expect_err("wrong marks").to_string()
}

const BY_A_RUN: &str = "difference in a run: without a mark";

#[test]
fn the_right_marks() {
    assert!(dropped(&mut Tally::new(COMPARE), &mut Random::new(SEED)).is_ok());
}

#[test]
fn by_the_rule_before_f5() {
    struct Wrong;
    impl Marking for Wrong {
        fn marks(table: &[u8]) -> Vec<u8> {
            before_f5(table)
        }
    }
    assert!(report::<Wrong>().starts_with(BY_A_RUN));
}

#[test]
fn without_code_2_under_a_trap() {
    struct Wrong;
    impl Marking for Wrong {
        fn marks(table: &[u8]) -> Vec<u8> {
            without_caught(table)
        }
    }
    assert!(report::<Wrong>().starts_with(BY_A_RUN));
}

#[test]
fn by_k_in_place_of_a() {
    struct Wrong;
    impl Marking for Wrong {
        fn marks(table: &[u8]) -> Vec<u8> {
            by_start_sets(table)
        }
    }
    assert!(report::<Wrong>().starts_with(BY_A_RUN));
}

/// One mark of one program: the inner loop, which the lock program needs it for.
#[test]
fn a_single_mark_that_is_lacking() {
    struct Wrong;
    impl Marking for Wrong {
        fn marks(table: &[u8]) -> Vec<u8> {
            let mut marks = Sets::of(table).expect("an accepted table").marks;
            marks[1] = 0;
            marks
        }
    }
    let instant = runs::Instant::of(LOCK, Some(&HELD), &[]).expect("an admitted state");
    assert!(compared(COMPARE, &instant).is_ok());
    let report = compared(marked_by::<Wrong>(), &instant).expect_err("a mark is lacking");
    assert!(report.starts_with(BY_A_RUN), "{report}");
    assert!(report.contains("nodes: [1]"), "{report}");
}

/// Runs can't tell that these are too many. The comparison that follows them does.
#[test]
fn marks_that_are_not_needed() {
    struct Wrong;
    impl Marking for Wrong {
        fn marks(table: &[u8]) -> Vec<u8> {
            second_as_its_parent(table)
        }
    }
    assert!(report::<Wrong>().starts_with("difference in analyse"));
}

/// The lock program after its start.
const HELD: [usize; 2] = [0, 2];

/// The resumption of the lock program on both sides, held against this account of it.
fn compared(calls: Calls, instant: &runs::Instant) -> Result<(), String> {
    let mut tally = Tally::new(calls);
    let program = Program::of(&tally, LOCK);
    let trial = Instant::new(Call::Resume, LOCK, &[], &packed(&HELD));
    let outcome = program.compare(&mut tally, &trial, instant);
    outcome.map_err(|difference| difference.to_string())
}

#[test]
fn a_trail_or_a_state_that_is_another() {
    let right = runs::Instant::of(LOCK, Some(&HELD), &[]).expect("an admitted state");
    let mut shorter = right.clone();
    shorter.trail.pop();
    assert!(compared(COMPARE, &shorter).is_err());
    let mut dropped = right;
    dropped.after.remove(0);
    assert!(compared(COMPARE, &dropped).is_err());
}
