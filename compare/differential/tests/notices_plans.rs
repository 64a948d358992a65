//! Wrong numbers of entries, and wrong lists of answers for the right ones, that a comparison
//! must notice: by other rules, or with what is returned changed.

use compare::support::calls::{Calls, FirstTick, FirstTickAnswers, COMPARE};
use compare::support::edges::{W1, W2, W8};
use compare::support::nodes::{SEQUENCE, SIGNAL};
use compare::support::programs::balanced;
use compare::support::random::Random;
use compare::support::starts::Alone;
use compare::support::wrong_plans::{self as wrong, Rule};
use compare::support::SEED;
use differential::groups::plans;
use differential::tally::Tally;
use differential::trials::{Finding, Planning, Trial};

fn assert_noticed(first_tick: FirstTick, trial: &Planning) {
    let wrong = Calls {
        first_tick,
        ..COMPARE
    };
    assert_wrong(wrong, trial);
}

fn assert_list_noticed(first_tick_answers: FirstTickAnswers, trial: &Finding) {
    let wrong = Calls {
        first_tick_answers,
        ..COMPARE
    };
    assert_wrong(wrong, trial);
}

/// On one trial, and by the group of the edges.
fn assert_wrong(wrong: Calls, trial: &impl Trial) {
    assert!(Tally::new(COMPARE).compare(trial).is_ok());
    assert!(Tally::new(wrong).compare(trial).is_err());
    assert!(plans::edges(&mut Tally::new(wrong), &mut Random::new(SEED)).is_err());
}

#[test]
fn the_right_numbers() {
    assert!(plans::edges(&mut Tally::new(COMPARE), &mut Random::new(SEED)).is_ok());
}

/// The number of a wrong rule. What is lent is judged by the right call.
fn by_rule(rule: Rule, table: &[u8], answer: &mut [u64]) -> u32 {
    let returned = (COMPARE.first_tick)(table, &mut answer.to_vec());
    if [1, 2, 3].contains(&returned) {
        return returned;
    }
    match rule(table) {
        Ok(entries) => {
            answer[..3].copy_from_slice(&[entries as u64, 0, 0]);
            0
        }
        Err(refusal) => refusal.number + 256 * refusal.node as u32,
    }
}

#[test]
fn every_node() {
    assert_noticed(
        |table, answer| by_rule(wrong::all_nodes, table, answer),
        &Planning::new(&[1, 0, 1, 0, 6, 0]),
    );
}

#[test]
fn the_bound_of_the_listing() {
    assert_noticed(
        |table, answer| by_rule(wrong::bound, table, answer),
        &Planning::new(&[2, 0, 8, 0]),
    );
}

#[test]
fn one_number_whatever_the_code() {
    assert_noticed(
        |table, answer| by_rule(wrong::codes_merged, table, answer),
        &Planning::new(&[2, 0, 7, 0, 1, 0, 6, 0, 1, 0, 9, 0]),
    );
}

#[test]
fn a_parallel_of_the_greatest_whatever_their_codes() {
    assert_noticed(
        |table, answer| by_rule(wrong::branches_merged, table, answer),
        &Planning::new(&[2, 0, 7, 0, 1, 0, 6, 0, 1, 0, 10, 0, 1, 0, 9, 0]),
    );
}

#[test]
fn a_parallel_whose_code_no_branch_need_have() {
    assert_noticed(
        |table, answer| by_rule(wrong::branches_up_to_the_code, table, answer),
        &Planning::new(&[2, 0, 11, 0, 4, 0, 6, 0, 2, 0, 10, 0, 11, 0, 2, 0, 9, 0]),
    );
}

#[test]
fn a_parallel_that_ends_at_the_exit_on_its_left() {
    assert_noticed(
        |table, answer| by_rule(wrong::left_exit_alone, table, answer),
        &Planning::new(&[4, 0, 1, 0, 10, 0, 11, 0]),
    );
}

#[test]
fn a_sequence_that_adds_its_second_though_the_first_pauses() {
    assert_noticed(
        |table, answer| by_rule(wrong::second_always, table, answer),
        &Planning::new(&[2, 0, 1, 0, 9, 0]),
    );
}

#[test]
fn the_branch_with_more_entries_alone() {
    assert_noticed(
        |table, answer| by_rule(wrong::fuller_branch, table, answer),
        &Planning::new(&[2, 0, 1, 0, 6, 0, 1, 0, 9, 0]),
    );
}

#[test]
fn a_loop_that_counts_the_end_of_its_body() {
    assert_noticed(
        |table, answer| by_rule(wrong::end_of_body, table, answer),
        &Planning::new(&[2, 0, 8, 0]),
    );
}

#[test]
fn a_loop_that_ends_with_its_body() {
    assert_noticed(
        |table, answer| by_rule(wrong::loop_that_ends, table, answer),
        &Planning::new(W2),
    );
}

#[test]
fn a_suspend_that_is_tested_when_it_is_started() {
    assert_noticed(
        |table, answer| by_rule(wrong::suspend_tested, table, answer),
        &Planning::new(&[4, 1, 7, 0, 4, 0, 10, 0, 11, 0, 4, 0, 7, 0, 9, 0, 11, 0]),
    );
}

/// Changes the figures of a table that is accepted.
fn told_then(table: &[u8], answer: &mut [u64], change: impl FnOnce(&mut [u64])) -> u32 {
    let returned = (COMPARE.first_tick)(table, answer);
    if returned == 0 {
        change(answer);
    }
    returned
}

#[test]
fn numbers_of_one_byte() {
    let table = [&balanced(&[1, 0], 128, SEQUENCE), SIGNAL].concat();
    assert_noticed(
        |table, answer| told_then(table, answer, |answer| answer[0] %= 256),
        &Planning::new(&table),
    );
}

#[test]
fn numbers_of_ten_bits() {
    let table = [&balanced(&[1, 0], 512, SEQUENCE), SIGNAL].concat();
    assert_noticed(
        |table, answer| told_then(table, answer, |answer| answer[0] %= 1024),
        &Planning::new(&table),
    );
}

#[test]
fn the_code_among_the_figures() {
    assert_noticed(
        |table, answer| told_then(table, answer, |answer| answer[1] = 1),
        &Planning::new(W1),
    );
}

#[test]
fn a_refusal_for_a_number() {
    assert_noticed(
        |table, answer| match (COMPARE.first_tick)(table, &mut answer.to_vec()) {
            11.. => 0,
            _ => (COMPARE.first_tick)(table, answer),
        },
        &Planning::new(W8),
    );
}

#[test]
fn a_short_answer_refused_after_all_other_checks() {
    assert_noticed(
        |table, answer| match (COMPARE.first_tick)(table, &mut [0; 3]) {
            0 => (COMPARE.first_tick)(table, answer),
            refused => refused,
        },
        &Planning::new(W2).with_answer(2),
    );
}

/// Hands out the list, and changes the lent answers and the figures.
fn handed_then(
    table: &[u8],
    answers: &mut [u8],
    answer: &mut [u64],
    change: impl FnOnce(&mut [u8], &mut [u64]),
) -> u32 {
    let returned = (COMPARE.first_tick_answers)(table, answers, answer);
    if returned == 0 {
        change(answers, answer);
    }
    returned
}

/// Puts another list in the place of the right one: of all that are taken in full, with their
/// entries, the first by some rank. A large program has too many.
fn another_list<R: Ord>(
    table: &[u8],
    answers: &mut [u8],
    answer: &mut [u64],
    rank: impl Fn(&[u8], usize) -> R,
) -> u32 {
    let before = answers.to_vec();
    handed_then(table, answers, answer, |answers, answer| {
        let Some(starts) = Alone::whole(table).every_start(100) else {
            return;
        };
        let first = starts
            .iter()
            .min_by_key(|(list, closed)| rank(list, closed.entries));
        let (list, _) = first.expect("some answers close a start");
        answers.copy_from_slice(&before);
        answers[..list.len()].copy_from_slice(list);
        answer[1] = list.len() as u64;
    })
}

/// Ends or pauses with as many entries.
const EITHER: &[u8] = &[1, 0, 2, 0, 6, 0];
/// Present: two entries. Absent: a test, and one entry more.
const LONGER_IF_ABSENT: &[u8] = &[1, 0, 5, 0, 1, 0, 1, 0, 6, 0, 6, 0];
/// Ends with more entries if present.
const MORE_IF_PRESENT: &[u8] = &[1, 0, 5, 0, 2, 0, 6, 0];

#[test]
fn present_where_absent_reaches_the_number_too() {
    fn call(table: &[u8], answers: &mut [u8], answer: &mut [u64]) -> u32 {
        another_list(table, answers, answer, |list, entries| {
            let present_first: Vec<u8> = list.iter().map(|answer| 1 - answer).collect();
            (usize::MAX - entries, present_first)
        })
    }
    assert_list_noticed(call, &Finding::new(EITHER).of_most_entries());
}

#[test]
fn a_shorter_list_before_absent() {
    fn call(table: &[u8], answers: &mut [u8], answer: &mut [u64]) -> u32 {
        another_list(table, answers, answer, |list, entries| {
            (usize::MAX - entries, list.len(), list.to_vec())
        })
    }
    assert_list_noticed(call, &Finding::new(LONGER_IF_ABSENT).of_most_entries());
}

#[test]
fn a_list_that_does_not_reach_the_number() {
    fn call(table: &[u8], answers: &mut [u8], answer: &mut [u64]) -> u32 {
        another_list(table, answers, answer, |list, _| list.to_vec())
    }
    assert_list_noticed(call, &Finding::new(MORE_IF_PRESENT).of_most_entries());
}

#[test]
fn the_entries_of_another_list() {
    fn call(table: &[u8], answers: &mut [u8], answer: &mut [u64]) -> u32 {
        handed_then(table, answers, answer, |_, answer| {
            if let Some(starts) = Alone::whole(table).every_start(100) {
                let fewest = starts.iter().map(|(_, closed)| closed.entries).min();
                answer[0] = fewest.expect("some answers close a start") as u64;
            }
        })
    }
    assert_list_noticed(call, &Finding::new(MORE_IF_PRESENT).of_most_entries());
}

#[test]
fn an_answer_that_is_left_over() {
    fn call(table: &[u8], answers: &mut [u8], answer: &mut [u64]) -> u32 {
        handed_then(table, answers, answer, |answers, answer| {
            answers[answer[1] as usize] = 0;
            answer[1] += 1;
        })
    }
    assert_list_noticed(call, &Finding::new(EITHER).of_most_entries());
    assert_list_noticed(call, &Finding::new(W1).of_most_entries());
}

#[test]
fn a_byte_written_past_the_list() {
    fn call(table: &[u8], answers: &mut [u8], answer: &mut [u64]) -> u32 {
        handed_then(table, answers, answer, |answers, answer| {
            answers[answer[1] as usize] = 0;
        })
    }
    assert_list_noticed(call, &Finding::new(EITHER).of_most_entries());
    assert_list_noticed(call, &Finding::with_answers(W1, 600).of_most_entries());
}

#[test]
fn another_byte_for_present() {
    fn call(table: &[u8], answers: &mut [u8], answer: &mut [u64]) -> u32 {
        handed_then(table, answers, answer, |answers, answer| {
            let list = &mut answers[..answer[1] as usize];
            list.iter_mut().for_each(|byte| *byte *= 255);
        })
    }
    assert_list_noticed(call, &Finding::new(MORE_IF_PRESENT).of_most_entries());
}

#[test]
fn a_length_that_is_not_told() {
    fn call(table: &[u8], answers: &mut [u8], answer: &mut [u64]) -> u32 {
        handed_then(table, answers, answer, |_, answer| answer[1] = 0)
    }
    assert_list_noticed(call, &Finding::new(EITHER).of_most_entries());
}

#[test]
fn answers_written_on_a_refusal() {
    fn call(table: &[u8], answers: &mut [u8], answer: &mut [u64]) -> u32 {
        let returned = (COMPARE.first_tick_answers)(table, answers, answer);
        if returned != 0 && !answers.is_empty() {
            answers[0] = 0;
        }
        returned
    }
    assert_list_noticed(call, &Finding::new(W8).of_most_entries());
    assert_list_noticed(call, &Finding::with_answers(W1, 511).of_most_entries());
    assert_list_noticed(call, &Finding::new(W1).of_most_entries().with_answer(2));
}

#[test]
fn lent_answers_that_are_long_enough_for_the_list_alone() {
    fn call(table: &[u8], answers: &mut [u8], answer: &mut [u64]) -> u32 {
        let mut longer = [&answers[..], &[0; 512]].concat();
        let returned = (COMPARE.first_tick_answers)(table, &mut longer, answer);
        answers.copy_from_slice(&longer[..answers.len()]);
        returned
    }
    assert_list_noticed(call, &Finding::with_answers(EITHER, 511).of_most_entries());
    assert_list_noticed(call, &Finding::with_answers(W1, 0).of_most_entries());
}

#[test]
fn short_answers_refused_after_all_other_checks() {
    fn call(table: &[u8], answers: &mut [u8], answer: &mut [u64]) -> u32 {
        match (COMPARE.first_tick_answers)(table, &mut [0; 512], &mut answer.to_vec()) {
            0 => (COMPARE.first_tick_answers)(table, answers, answer),
            refused => refused,
        }
    }
    assert_list_noticed(call, &Finding::with_answers(W8, 511).of_most_entries());
}

#[test]
fn short_answers_refused_before_1_and_2() {
    fn call(table: &[u8], answers: &mut [u8], answer: &mut [u64]) -> u32 {
        if answers.len() < 512 {
            return 3;
        }
        (COMPARE.first_tick_answers)(table, answers, answer)
    }
    assert_list_noticed(
        call,
        &Finding::with_answers(&[2; 2050], 511).of_most_entries(),
    );
    assert_list_noticed(call, &Finding::with_answers(&[], 0).of_most_entries());
}
