//! Wrong narrowers that a comparison must notice. They are made of the right one: by other
//! rules, with the table or the ties changed before it, or with what it returns or writes.

use compare::instant::SIGNALS;
use compare::support::calls::{Calls, Narrow, COMPARE};
use compare::support::edges::{W1, W2, W6, W8};
use compare::support::random::Random;
use compare::support::ties::{tied, ABSENT, PRESENT, UNKNOWN};
use compare::support::wrong_ties::{self as wrong, Rule};
use compare::support::SEED;
use compare::Sets;
use differential::groups::narrowings;
use differential::tally::Tally;
use differential::trials::{Narrowing, Trial};

/// On one trial, and by the group of the edges.
fn assert_noticed(narrow: Narrow, trial: &Narrowing) {
    let wrong = Calls { narrow, ..COMPARE };
    assert!(Tally::new(COMPARE).compare(trial).is_ok());
    assert!(Tally::new(wrong).compare(trial).is_err());
    assert!(narrowings::edges(&mut Tally::new(wrong), &mut Random::new(SEED)).is_err());
}

#[test]
fn the_right_narrower() {
    assert!(narrowings::edges(&mut Tally::new(COMPARE), &mut Random::new(SEED)).is_ok());
}

/// Ends if 5 is present, and pauses if not.
const TEST: &[u8] = &[1, 0, 2, 0, 6, 5];

fn with_5_tied(table: &[u8], tie: u8) -> Narrowing {
    Narrowing::new(table, &tied(&[(5, tie)]))
}

fn within(table: &[u8], node: [u8; 2]) -> Vec<u8> {
    [table, &node].concat()
}

/// Narrows by a wrong rule. What is lent is judged by the right call.
fn by_rule(rule: Rule, lent: (&[u8], &[u8]), sets: &mut [u64], answer: &mut [u64]) -> u32 {
    let (table, ties) = lent;
    let returned = (COMPARE.narrow)(table, ties, &mut sets.to_vec(), &mut answer.to_vec());
    if [1, 2, 3].contains(&returned) {
        return returned;
    }
    match rule(table, &ties[..SIGNALS]) {
        Ok(narrowed) => {
            sets[..narrowed.len()].copy_from_slice(&narrowed);
            answer[..3].copy_from_slice(&[narrowed.len() as u64, 0, 0]);
            0
        }
        Err(refusal) => refusal.number + 256 * refusal.node as u32,
    }
}

#[test]
fn ties_that_reach_into_bodies() {
    assert_noticed(
        |table, ties, sets, answer| by_rule(wrong::into_bodies, (table, ties), sets, answer),
        &with_5_tied(&within(TEST, [5, 5]), PRESENT),
    );
}

/// A test whose else branch is a signal statement of its number.
const AFTER_A_SIGNAL: &[u8] = &[1, 0, 2, 0, 5, 5, 6, 5];

#[test]
fn a_signal_statement_that_unties_what_follows() {
    assert_noticed(
        |table, ties, sets, answer| {
            by_rule(wrong::untied_from_there_on, (table, ties), sets, answer)
        },
        &with_5_tied(AFTER_A_SIGNAL, ABSENT),
    );
}

#[test]
fn an_inner_signal_statement_that_ties_again() {
    assert_noticed(
        |table, ties, sets, answer| {
            by_rule(wrong::tied_by_the_inner_end, (table, ties), sets, answer)
        },
        &with_5_tied(&within(AFTER_A_SIGNAL, [5, 5]), PRESENT),
    );
}

#[test]
fn absent_and_present_exchanged() {
    assert_noticed(
        |table, ties, sets, answer| by_rule(wrong::exchanged, (table, ties), sets, answer),
        &with_5_tied(TEST, PRESENT),
    );
}

#[test]
fn a_branch_that_is_cut_off_has_no_code() {
    assert_noticed(
        |table, ties, sets, answer| {
            by_rule(wrong::empty_where_cut_off, (table, ties), sets, answer)
        },
        &with_5_tied(TEST, ABSENT),
    );
}

#[test]
fn acceptance_by_the_narrowed_sets() {
    assert_noticed(
        |table, ties, sets, answer| {
            by_rule(wrong::accepted_by_narrowed, (table, ties), sets, answer)
        },
        &with_5_tied(W6, ABSENT),
    );
}

/// The ties with other bytes, by signal and byte.
fn with_each(ties: &[u8], other: impl Fn(usize, u8) -> u8) -> Vec<u8> {
    let ties = ties.iter().enumerate();
    ties.map(|(signal, &tie)| other(signal, tie)).collect()
}

/// K for all, whatever is tied.
#[test]
fn ties_that_tie_nothing() {
    assert_noticed(
        |table, ties, sets, answer| {
            let untied = with_each(ties, |_, tie| if tie <= PRESENT { UNKNOWN } else { tie });
            (COMPARE.narrow)(table, &untied, sets, answer)
        },
        &with_5_tied(TEST, PRESENT),
    );
}

#[test]
fn a_suspend_that_unties_its_body() {
    fn suspends_to_signals(table: &[u8]) -> Vec<u8> {
        let mut table = table.to_vec();
        let kinds = table.iter_mut().step_by(2);
        kinds.filter(|kind| **kind == 7).for_each(|kind| *kind = 5);
        table
    }
    assert_noticed(
        |table, ties, sets, answer| {
            (COMPARE.narrow)(&suspends_to_signals(table), ties, sets, answer)
        },
        &with_5_tied(&within(TEST, [7, 5]), ABSENT),
    );
}

#[test]
fn an_emit_that_ties_or_unties() {
    /// The ties, but this one for each signal that is emitted.
    fn with_emitted(table: &[u8], ties: &[u8], tie: u8) -> Vec<u8> {
        let mut ties = ties.to_vec();
        for node in table.chunks_exact(2).filter(|node| node[0] == 3) {
            if let Some(emitted) = ties.get_mut(usize::from(node[1])) {
                *emitted = tie;
            }
        }
        ties
    }
    let trial = with_5_tied(&[&[3, 5], TEST, &[9, 0]].concat(), ABSENT);
    assert_noticed(
        |table, ties, sets, answer| {
            (COMPARE.narrow)(table, &with_emitted(table, ties, PRESENT), sets, answer)
        },
        &trial,
    );
    assert_noticed(
        |table, ties, sets, answer| {
            (COMPARE.narrow)(table, &with_emitted(table, ties, UNKNOWN), sets, answer)
        },
        &trial,
    );
}

/// Of the first test's signal, if that is unknown.
#[test]
fn tests_of_an_unknown_signal_that_agree() {
    fn narrow(table: &[u8], ties: &[u8], sets: &mut [u64], answer: &mut [u64]) -> u32 {
        let tests = table.chunks_exact(2).filter(|node| node[0] == 6);
        let signal = tests.map(|test| usize::from(test[1])).next();
        let unknown = signal.filter(|&signal| ties.get(signal) == Some(&UNKNOWN));
        let returned = (COMPARE.narrow)(table, ties, sets, answer);
        if let (Some(signal), 0) = (unknown, returned) {
            let of = |tie| {
                let (mut ties, mut sets) = (ties.to_vec(), sets.to_vec());
                ties[signal] = tie;
                (COMPARE.narrow)(table, &ties, &mut sets, &mut [0; 3]);
                sets
            };
            let both = of(ABSENT).into_iter().zip(of(PRESENT));
            for (set, (absent, present)) in sets.iter_mut().zip(both) {
                *set = absent | present;
            }
        }
        returned
    }
    assert_noticed(narrow, &with_5_tied(&W8[..14], UNKNOWN));
}

/// The first of the ties that are looked at and no tie.
fn first_wrong(ties: &[u8]) -> Option<usize> {
    let mut looked_at = ties.iter().take(SIGNALS);
    looked_at.position(|&tie| tie > PRESENT)
}

#[test]
fn wrong_bytes_refused_before_other_checks() {
    /// By 19 in the place of this number.
    fn before(number: u32, lent: (&[u8], &[u8]), sets: &mut [u64], answer: &mut [u64]) -> u32 {
        let (table, ties) = lent;
        match (COMPARE.narrow)(table, ties, sets, answer) {
            refused if refused % 256 == number && first_wrong(ties).is_some() => 19,
            returned => returned,
        }
    }
    let wrong = tied(&[(7, 3)]);
    assert_noticed(
        |table, ties, sets, answer| before(11, (table, ties), sets, answer),
        &Narrowing::new(W2, &wrong),
    );
    assert_noticed(
        |table, ties, sets, answer| before(4, (table, ties), sets, answer),
        &Narrowing::new(&[12, 0], &wrong),
    );
    assert_noticed(
        |table, ties, sets, answer| before(3, (table, ties), sets, answer),
        &Narrowing::with_sets(W1, &wrong, 3),
    );
}

#[test]
fn a_node_for_a_wrong_byte() {
    fn narrow(table: &[u8], ties: &[u8], sets: &mut [u64], answer: &mut [u64]) -> u32 {
        let place = first_wrong(ties).unwrap_or(0);
        match (COMPARE.narrow)(table, ties, sets, answer) {
            19 => 19 + 256 * place as u32,
            returned => returned,
        }
    }
    assert_noticed(narrow, &with_5_tied(TEST, 3));
}

#[test]
fn bytes_past_the_ties_looked_at() {
    fn narrow(table: &[u8], ties: &[u8], sets: &mut [u64], answer: &mut [u64]) -> u32 {
        let returned = (COMPARE.narrow)(table, ties, &mut sets.to_vec(), &mut answer.to_vec());
        if returned == 0 && ties.iter().any(|&tie| tie > PRESENT) {
            return 19;
        }
        (COMPARE.narrow)(table, ties, sets, answer)
    }
    let ties = [&tied(&[])[..], &[3]].concat();
    assert_noticed(narrow, &Narrowing::new(TEST, &ties));
}

#[test]
fn wrong_bytes_taken_for_ties() {
    assert_noticed(
        |table, ties, sets, answer| {
            let as_present = with_each(ties, |_, tie| tie.min(PRESENT));
            (COMPARE.narrow)(table, &as_present, sets, answer)
        },
        &with_5_tied(TEST, 3),
    );
}

#[test]
fn only_signals_that_are_tested_looked_at() {
    assert_noticed(
        |table, ties, sets, answer| {
            let tested = |signal| table.chunks_exact(2).any(|node| node == [6, signal as u8]);
            let others_unknown =
                with_each(ties, |signal, tie| if tested(signal) { tie } else { 0 });
            (COMPARE.narrow)(table, &others_unknown, sets, answer)
        },
        &Narrowing::new(TEST, &tied(&[(255, 3)])),
    );
}

#[test]
fn ties_that_are_too_few_taken_as_unknown() {
    assert_noticed(
        |table, ties, sets, answer| {
            let filled_up = [ties, &[UNKNOWN; SIGNALS]].concat();
            (COMPARE.narrow)(table, &filled_up, sets, answer)
        },
        &Narrowing::new(TEST, &tied(&[])[..255]),
    );
}

#[test]
fn sets_past_the_nodes() {
    assert_noticed(
        |table, ties, sets, answer| {
            let returned = (COMPARE.narrow)(table, ties, sets, answer);
            if returned == 0 {
                sets[table.len() / 2..].fill(0);
            }
            returned
        },
        &Narrowing::with_sets(TEST, &tied(&[]), 4),
    );
}

#[test]
fn sets_written_before_a_refusal() {
    /// On a refusal by this number: K, or a 0 where there is no K.
    fn with_k(number: u32, lent: (&[u8], &[u8]), sets: &mut [u64], answer: &mut [u64]) -> u32 {
        let (table, ties) = lent;
        let returned = (COMPARE.narrow)(table, ties, sets, answer);
        if returned % 256 == number {
            let start_sets = Sets::of(table).map(|of_table| of_table.start_sets);
            let known = start_sets.unwrap_or(vec![0]);
            sets[..known.len()].copy_from_slice(&known);
        }
        returned
    }
    assert_noticed(
        |table, ties, sets, answer| with_k(11, (table, ties), sets, answer),
        &with_5_tied(W6, ABSENT),
    );
    assert_noticed(
        |table, ties, sets, answer| with_k(19, (table, ties), sets, answer),
        &with_5_tied(TEST, 3),
    );
}

#[test]
fn as_many_sets_as_there_is_room_for() {
    fn narrow(table: &[u8], ties: &[u8], sets: &mut [u64], answer: &mut [u64]) -> u32 {
        let mut longer = [&sets[..], &[0; 1024]].concat();
        let returned = (COMPARE.narrow)(table, ties, &mut longer, answer);
        sets.copy_from_slice(&longer[..sets.len()]);
        returned
    }
    assert_noticed(narrow, &Narrowing::with_sets(TEST, &tied(&[]), 2));
}

#[test]
fn what_is_too_short_refused_after_all_other_checks() {
    fn narrow(table: &[u8], ties: &[u8], sets: &mut [u64], answer: &mut [u64]) -> u32 {
        let longer = [ties, &[UNKNOWN; SIGNALS]].concat();
        match (COMPARE.narrow)(table, &longer, &mut [0; 1024], &mut [0; 3]) {
            0 => (COMPARE.narrow)(table, ties, sets, answer),
            refused => refused,
        }
    }
    let ties = tied(&[]);
    assert_noticed(narrow, &Narrowing::new(&[12, 0], &ties[..255]));
    assert_noticed(narrow, &Narrowing::with_sets(W2, &ties, 1));
    assert_noticed(narrow, &Narrowing::new(W2, &ties).with_answer(2));
}

#[test]
fn what_is_too_short_refused_before_1_and_2() {
    fn narrow(table: &[u8], ties: &[u8], sets: &mut [u64], answer: &mut [u64]) -> u32 {
        if ties.len() < SIGNALS || sets.len() < table.len() / 2 {
            return 3;
        }
        (COMPARE.narrow)(table, ties, sets, answer)
    }
    assert_noticed(narrow, &Narrowing::new(&[], &[]));
    assert_noticed(narrow, &Narrowing::with_sets(&[2; 2050], &tied(&[]), 1024));
}

#[test]
fn the_loop_depth_among_the_figures() {
    assert_noticed(
        |table, ties, sets, answer| {
            let returned = (COMPARE.narrow)(table, ties, sets, answer);
            if returned == 0 {
                answer[1] = table.chunks_exact(2).filter(|node| node[0] == 8).count() as u64;
            }
            returned
        },
        &with_5_tied(W1, PRESENT),
    );
}
