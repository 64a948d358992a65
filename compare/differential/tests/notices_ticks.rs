//! Wrong finders of ticks that a comparison must notice. They are made of the right one,
//! or find the list by running the body.

use compare::support::bodies::Body;
use compare::support::calls::{Calls, Tick, COMPARE};
use compare::support::edges::{W1, W6, W8};
use compare::support::random::Random;
use compare::support::SEED;
use differential::groups::ticks;
use differential::tally::Tally;
use differential::trials::Finding;

/// On one trial, and by the group of the edges.
fn assert_noticed(tick: Tick, trial: &Finding) {
    let wrong = Calls { tick, ..COMPARE };
    assert!(Tally::new(COMPARE).compare(trial).is_ok());
    assert!(Tally::new(wrong).compare(trial).is_err());
    let edges = |calls| ticks::edges(&mut Tally::new(calls), &mut Random::new(SEED));
    assert!(edges(COMPARE).is_ok());
    assert!(edges(wrong).is_err());
}

/// Finds the tick, and changes the list that was written and the figures.
fn found_then(
    table: &[u8],
    answers: &mut [u8],
    answer: &mut [u64],
    change: impl FnOnce(&mut [u8], &mut [u64]),
) -> u32 {
    let returned = (COMPARE.tick)(table, answers, answer);
    if returned == 0 && answer[0] == 1 {
        change(answers, answer);
    }
    returned
}

/// Puts another list that ends the body in the place of the right one, if there is one.
fn another_list(
    table: &[u8],
    answers: &mut [u8],
    answer: &mut [u64],
    find: impl FnOnce(&Body) -> Option<Vec<u8>>,
) -> u32 {
    let before = answers.to_vec();
    found_then(table, answers, answer, |answers, answer| {
        if let Some(list) = find(&Body::of(table, answer[1] as usize)) {
            answers.copy_from_slice(&before);
            answers[..list.len()].copy_from_slice(&list);
            answer[2] = list.len() as u64;
        }
    })
}

/// Runs that a wrong finder may make.
const MOST_RUNS: usize = 1000;

#[test]
fn present_before_absent() {
    fn tick(table: &[u8], answers: &mut [u8], answer: &mut [u64]) -> u32 {
        another_list(table, answers, answer, |body| {
            body.first_ending([1, 0], MOST_RUNS)
        })
    }
    assert_noticed(tick, &Finding::new(&[1, 0, 1, 0, 6, 0, 8, 0]));
}

/// The first list of all, in which absent stands at the first difference.
#[test]
fn absent_before_shorter() {
    fn first_of_all(body: &Body, list: &mut Vec<u8>) -> bool {
        let Some((code, _)) = body.run(list) else {
            return [0, 1].into_iter().any(|answer| {
                list.push(answer);
                let is_found = first_of_all(body, list);
                if !is_found {
                    list.pop();
                }
                is_found
            });
        };
        code == 0
    }
    fn tick(table: &[u8], answers: &mut [u8], answer: &mut [u64]) -> u32 {
        another_list(table, answers, answer, |body| {
            let mut list = Vec::new();
            // A large body has too many lists.
            (table.len() < 40 && first_of_all(body, &mut list)).then_some(list)
        })
    }
    let then_is_shorter = [1, 0, 2, 0, 1, 0, 6, 0, 6, 0, 8, 0];
    assert_noticed(tick, &Finding::new(&then_is_shorter));
}

#[test]
fn an_answer_that_is_not_taken() {
    fn tick(table: &[u8], answers: &mut [u8], answer: &mut [u64]) -> u32 {
        found_then(table, answers, answer, |answers, answer| {
            answers[answer[2] as usize] = 0;
            answer[2] += 1;
        })
    }
    assert_noticed(tick, &Finding::new(W6));
}

#[test]
fn another_byte_for_present() {
    fn tick(table: &[u8], answers: &mut [u8], answer: &mut [u64]) -> u32 {
        found_then(table, answers, answer, |answers, answer| {
            let list = &mut answers[..answer[2] as usize];
            list.iter_mut().for_each(|byte| *byte *= 255);
        })
    }
    assert_noticed(tick, &Finding::new(W6));
}

#[test]
fn answers_past_the_list() {
    fn tick(table: &[u8], answers: &mut [u8], answer: &mut [u64]) -> u32 {
        found_then(table, answers, answer, |answers, answer| {
            answers[answer[2] as usize..].fill(0);
        })
    }
    assert_noticed(tick, &Finding::new(W8));
    assert_noticed(tick, &Finding::with_answers(W8, 600));
}

#[test]
fn the_body_for_the_loop() {
    fn tick(table: &[u8], answers: &mut [u8], answer: &mut [u64]) -> u32 {
        found_then(table, answers, answer, |_, answer| answer[1] -= 1)
    }
    assert_noticed(tick, &Finding::new(W8));
}

#[test]
fn refusal_11_as_it_is() {
    fn tick(table: &[u8], answers: &mut [u8], answer: &mut [u64]) -> u32 {
        let (mut lent, mut figures) = (answers.to_vec(), answer.to_vec());
        let returned = (COMPARE.tick)(table, &mut lent, &mut figures);
        if returned == 0 && figures[0] == 1 {
            return 11 + 256 * figures[1] as u32;
        }
        answer.copy_from_slice(&figures);
        returned
    }
    assert_noticed(tick, &Finding::new(W8));
}

#[test]
fn answers_written_for_an_accepted_table() {
    fn tick(table: &[u8], answers: &mut [u8], answer: &mut [u64]) -> u32 {
        let returned = (COMPARE.tick)(table, answers, answer);
        if returned == 0 && answer[0] == 0 {
            answers[0] = 0;
        }
        returned
    }
    assert_noticed(tick, &Finding::new(W1));
}

#[test]
fn answers_written_on_a_refusal() {
    fn tick(table: &[u8], answers: &mut [u8], answer: &mut [u64]) -> u32 {
        let returned = (COMPARE.tick)(table, answers, answer);
        if returned != 0 && !answers.is_empty() {
            answers[0] = 0;
        }
        returned
    }
    assert_noticed(tick, &Finding::new(&[4, 0]));
    assert_noticed(tick, &Finding::with_answers(W8, 511));
}

#[test]
fn lent_answers_that_are_long_enough_for_the_list_alone() {
    fn tick(table: &[u8], answers: &mut [u8], answer: &mut [u64]) -> u32 {
        let mut longer = [&answers[..], &[0; 512]].concat();
        let returned = (COMPARE.tick)(table, &mut longer, answer);
        answers.copy_from_slice(&longer[..answers.len()]);
        returned
    }
    assert_noticed(tick, &Finding::with_answers(W8, 511));
    assert_noticed(tick, &Finding::with_answers(W1, 0));
}

#[test]
fn short_answers_refused_after_all_other_checks() {
    fn tick(table: &[u8], answers: &mut [u8], answer: &mut [u64]) -> u32 {
        let returned = (COMPARE.tick)(table, &mut [0; 512], &mut answer.to_vec());
        if returned != 0 {
            return returned;
        }
        (COMPARE.tick)(table, answers, answer)
    }
    assert_noticed(tick, &Finding::with_answers(&[12, 0], 511));
}

#[test]
fn short_answers_refused_before_1_and_2() {
    fn tick(table: &[u8], answers: &mut [u8], answer: &mut [u64]) -> u32 {
        if answers.len() < 512 {
            return 3;
        }
        (COMPARE.tick)(table, answers, answer)
    }
    assert_noticed(tick, &Finding::with_answers(&[2; 2050], 511));
    assert_noticed(tick, &Finding::with_answers(&[], 0));
}
