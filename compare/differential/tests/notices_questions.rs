//! Wrong answers to questions that a comparison must notice: by other rules, with the node or
//! the code changed before it, or with what is returned.

use std::cell::Cell;

use compare::question::{has, LAST_CODE};
use compare::support::calls::{Ask, Calls, COMPARE};
use compare::support::edges::{LOCK, W1, W7};
use compare::support::nodes::{PARALLEL, PAUSE, SIGNAL};
use compare::support::programs::balanced;
use compare::support::random::Random;
use compare::support::wrong_questions::{Wrong, RULES};
use compare::support::SEED;
use compare::Sets;
use differential::groups::questions;
use differential::tally::Tally;
use differential::trials::{Asking, Trial};

/// On one trial, and by the group of the edges.
fn assert_noticed(ask: Ask, trial: &Asking) {
    let wrong = Calls { ask, ..COMPARE };
    assert!(Tally::new(COMPARE).compare(trial).is_ok());
    assert!(Tally::new(wrong).compare(trial).is_err());
    assert!(questions::edges(&mut Tally::new(wrong), &mut Random::new(SEED)).is_err());
}

#[test]
fn the_right_answers() {
    assert!(questions::edges(&mut Tally::new(COMPARE), &mut Random::new(SEED)).is_ok());
}

thread_local! {
    /// The wrong rule by which this thread answers.
    static RULE: Cell<Wrong> = const { Cell::new(RULES[0].1) };
}

/// What is lent is judged by the right call.
fn by_the_rule(table: &[u8], node: u64, code: u64, answer: &mut [u64]) -> u32 {
    let returned = (COMPARE.ask)(table, node, code, &mut answer.to_vec());
    if [1, 2, 3].contains(&returned) {
        return returned;
    }
    match RULE.get().ask(table, node, code) {
        Ok(known) => {
            answer[..3].copy_from_slice(&[known.is_in.into(), known.count as u64, 0]);
            0
        }
        Err(refusal) => refusal.number + 256 * refusal.node as u32,
    }
}

/// One of the smallest questions that tell each rule, in the order of the rules.
const SMALLEST: [(&[u8], u64, u64); RULES.len()] = [
    (&[2, 0, 8, 0], 1, 0),
    (&[2, 0, 8, 0], 0, 0),
    (PAUSE, 0, 1),
    (&[1, 0, 1, 0, 6, 0], 2, 0),
    (&[1, 0, 2, 0, 6, 0], 2, 0),
    (&[2, 0, 1, 0, 9, 0], 2, 0),
    (&[1, 0, 2, 0, 6, 0, 1, 0, 9, 0], 4, 1),
    (&[1, 0, 2, 0, 8, 0, 9, 0], 3, 0),
    (&[2, 0, 8, 0, 1, 0, 9, 0], 3, 0),
    (&[1, 0, 2, 0, 9, 0], 2, 0),
    (&[4, 0, 11, 0], 1, 2),
    (&[2, 0, 11, 0], 1, 1),
    (&[2, 0, 1, 0, 9, 0, 11, 0], 3, 0),
    (&[4, 0, 11, 0], 1, 0),
    (&[2, 0, 11, 0], 1, 63),
    (&[2, 0, 8, 0], 1, 0),
    (&[2, 0, 1, 0, 10, 0], 2, 0),
    (&[1, 0, 2, 0, 10, 0], 2, 0),
    (PAUSE, 0, 64),
    (PAUSE, 1, 64),
    (&[4, 0], 1, 0),
];

#[test]
fn each_wrong_rule() {
    for ((name, rule), (table, node, code)) in RULES.into_iter().zip(SMALLEST) {
        println!("{name}");
        RULE.set(rule);
        assert_noticed(by_the_rule, &Asking::new(table, node, code));
    }
}

/// Without the edges, too.
#[test]
fn each_wrong_rule_by_tables_and_questions_that_are_drawn() {
    for (name, rule) in RULES {
        // One of them is of tables that are refused.
        let group = match name {
            "21 before the table's checks" => questions::damaged,
            _ => questions::larger,
        };
        RULE.set(rule);
        let wrong = Calls {
            ask: by_the_rule,
            ..COMPARE
        };
        let outcome = group(&mut Tally::new(wrong), &mut Random::new(SEED));
        assert!(outcome.is_err(), "{name}");
    }
}

/// The count is right, but a pause that is resumed can end.
#[test]
fn the_set_of_any_instant() {
    fn ask(table: &[u8], node: u64, code: u64, answer: &mut [u64]) -> u32 {
        let returned = (COMPARE.ask)(table, node, code, answer);
        if returned == 0 && code <= LAST_CODE {
            let sets = Sets::of(table).expect("an accepted table");
            answer[0] = has(sets.any_sets[node as usize], code).into();
        }
        returned
    }
    assert_noticed(ask, &Asking::new(PAUSE, 0, 0));
}

/// Of the codes of both branches, where only the larger one counts.
#[test]
fn a_parallel_of_the_union() {
    fn ask(table: &[u8], node: u64, code: u64, answer: &mut [u64]) -> u32 {
        // As a present of the same branches has it.
        let mut tests = table.to_vec();
        let kinds = tests.iter_mut().step_by(2);
        kinds.filter(|kind| **kind == 10).for_each(|kind| *kind = 6);
        let returned = (COMPARE.ask)(table, node, code, answer);
        let by_tests = &mut [0; 3];
        if returned == 0 && (COMPARE.ask)(&tests, node, code, by_tests) == 0 {
            answer[0] = by_tests[0];
        }
        returned
    }
    assert_noticed(ask, &Asking::new(W7, 2, 0));
    assert_noticed(ask, &Asking::new(&[4, 1, 4, 0, 10, 0, 11, 0, 11, 0], 2, 2));
}

#[test]
fn codes_that_lose_their_higher_bits() {
    assert_noticed(
        |table, node, code, answer| (COMPARE.ask)(table, node, code % 64, answer),
        &Asking::new(PAUSE, 0, 65),
    );
    assert_noticed(
        |table, node, code, answer| (COMPARE.ask)(table, node, code % (1 << 8), answer),
        &Asking::new(PAUSE, 0, (1 << 8) + 1),
    );
    assert_noticed(
        |table, node, code, answer| (COMPARE.ask)(table, node, code % (1 << 32), answer),
        &Asking::new(PAUSE, 0, 1 << 32),
    );
}

#[test]
fn nodes_that_lose_their_higher_bits() {
    assert_noticed(
        |table, node, code, answer| (COMPARE.ask)(table, node % (1 << 10), code, answer),
        &Asking::new(PAUSE, 1 << 10, 1),
    );
    assert_noticed(
        |table, node, code, answer| (COMPARE.ask)(table, node % (1 << 16), code, answer),
        &Asking::new(PAUSE, 1 << 16, 1),
    );
    assert_noticed(
        |table, node, code, answer| (COMPARE.ask)(table, node % (1 << 32), code, answer),
        &Asking::new(PAUSE, 1 << 32, 1),
    );
}

#[test]
fn a_node_past_the_last_that_is_taken_for_it() {
    assert_noticed(
        |table, node, code, answer| {
            let last = (table.len() as u64 / 2).saturating_sub(1);
            (COMPARE.ask)(table, node.min(last), code, answer)
        },
        &Asking::new(W1, 4, 1),
    );
}

/// By the number of bytes, not of nodes.
#[test]
fn nodes_outside_the_table_but_not_its_bytes() {
    assert_noticed(
        |table, node, code, answer| match (COMPARE.ask)(table, node, code, answer) {
            21 if node < table.len() as u64 => (COMPARE.ask)(table, 0, code, answer),
            returned => returned,
        },
        &Asking::new(W1, 4, 1),
    );
}

#[test]
fn the_node_asked_for_in_the_refusal() {
    assert_noticed(
        |table, node, code, answer| match (COMPARE.ask)(table, node, code, answer) {
            21 => 21 + 256 * (node % 1024) as u32,
            returned => returned,
        },
        &Asking::new(W1, 4, 1),
    );
}

/// Changes the figures of an answer.
fn told_then(
    table: &[u8],
    (node, code): (u64, u64),
    answer: &mut [u64],
    change: impl FnOnce(&mut [u64]),
) -> u32 {
    let returned = (COMPARE.ask)(table, node, code, answer);
    if returned == 0 {
        change(answer);
    }
    returned
}

#[test]
fn counts_of_eight_and_of_ten_bits() {
    let all = [&balanced(PAUSE, 512, PARALLEL), SIGNAL].concat();
    assert_noticed(
        |table, node, code, answer| {
            told_then(table, (node, code), answer, |answer| answer[1] %= 1 << 8)
        },
        &Asking::new(&all, 1021, 1),
    );
    assert_noticed(
        |table, node, code, answer| {
            told_then(table, (node, code), answer, |answer| answer[1] %= 1 << 10)
        },
        &Asking::new(&all, 1023, 1),
    );
}

#[test]
fn answer_and_count_exchanged() {
    assert_noticed(
        |table, node, code, answer| {
            told_then(table, (node, code), answer, |answer| answer.swap(0, 1))
        },
        &Asking::new(PAUSE, 0, 0),
    );
}

#[test]
fn yes_and_no_exchanged() {
    assert_noticed(
        |table, node, code, answer| told_then(table, (node, code), answer, |answer| answer[0] ^= 1),
        &Asking::new(PAUSE, 0, 0),
    );
}

/// A bit of the set in its place, and not as 1.
#[test]
fn the_code_s_bit_for_yes() {
    assert_noticed(
        |table, node, code, answer| {
            told_then(table, (node, code), answer, |answer| {
                answer[0] <<= code.min(LAST_CODE);
            })
        },
        &Asking::new(PAUSE, 0, 1),
    );
}

#[test]
fn the_node_among_the_figures() {
    assert_noticed(
        |table, node, code, answer| {
            told_then(table, (node, code), answer, |answer| answer[2] = node)
        },
        &Asking::new(LOCK, 7, 1),
    );
}

#[test]
fn a_short_answer_refused_after_all_other_checks() {
    assert_noticed(
        |table, node, code, answer| match (COMPARE.ask)(table, node, code, &mut [0; 3]) {
            0 => (COMPARE.ask)(table, node, code, answer),
            refused => refused,
        },
        &Asking::new(W1, 4, 1).with_answer(2),
    );
}

#[test]
fn a_short_answer_that_has_room_for_what_is_told() {
    fn ask(table: &[u8], node: u64, code: u64, answer: &mut [u64]) -> u32 {
        let mut longer = [&answer[..], &[0]].concat();
        let returned = (COMPARE.ask)(table, node, code, &mut longer);
        answer.copy_from_slice(&longer[..answer.len()]);
        returned
    }
    assert_noticed(ask, &Asking::new(W1, 3, 1).with_answer(2));
}
