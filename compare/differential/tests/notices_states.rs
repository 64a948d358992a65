//! Wrong rules of the packed state that a comparison must notice.

use compare::instant::SIGNALS;
use compare::support::calls::{Calls, Instant as InstantCall, COMPARE, FIGURES};
use compare::support::cases::{Call, Case};
use compare::support::edges::LOCK;
use compare::support::random::Random;
use compare::support::wrong_states::{
    bytes_of_nodes_suffice, bytes_of_nodes_written, highest_first, let_go_left,
    past_the_last_byte_ignored, past_the_nodes_ignored, Rule,
};
use compare::support::SEED;
use compare::{packed, Refusal, STATE_BYTES};
use differential::groups::{instants, lengths};
use differential::tally::{Difference, Tally};
use differential::trials::Instant;

type Lent<'a> = (
    &'a [u8],
    &'a [u8],
    &'a mut [u8],
    &'a mut [u8],
    &'a mut [u64],
);

/// Makes the call by a rule. An answer that is too short is for the right call to judge.
fn by_rule(rule: Rule, call: Call, right: InstantCall, lent: Lent) -> u32 {
    let (table, answers, state, emissions, answer) = lent;
    if answer.len() < FIGURES {
        return right(table, answers, state, emissions, answer);
    }
    let case = Case {
        call,
        table: table.to_vec(),
        answers: answers.to_vec(),
        state: state.to_vec(),
        emissions_length: emissions.len(),
        emissions_first: 0,
    };
    let outcome = rule(&case);
    state.copy_from_slice(&outcome.state);
    match outcome.answer {
        Ok(closed) => {
            emissions[..SIGNALS].copy_from_slice(&outcome.emissions[..SIGNALS]);
            let figures = [closed.code as usize, closed.taken, closed.entries];
            answer[..FIGURES].copy_from_slice(&figures.map(|figure| figure as u64));
            0
        }
        Err(Refusal { number, node }) => number + 256 * node as u32,
    }
}

/// A wrong rule in the place of both calls.
macro_rules! calls_by {
    ($rule:expr) => {
        Calls {
            start: |table, answers, state, emissions, answer| {
                let lent = (table, answers, state, emissions, answer);
                by_rule($rule, Call::Start, COMPARE.start, lent)
            },
            resume: |table, answers, state, emissions, answer| {
                let lent = (table, answers, state, emissions, answer);
                by_rule($rule, Call::Resume, COMPARE.resume, lent)
            },
            ..COMPARE
        }
    };
}

type Group = fn(&mut Tally, &mut Random) -> Result<(), Difference>;

fn run(group: Group, calls: Calls) -> Result<(), Difference> {
    group(&mut Tally::new(calls), &mut Random::new(SEED))
}

/// On one trial, and by a group.
fn assert_noticed(wrong: Calls, trial: &Instant, group: Group) {
    assert!(Tally::new(COMPARE).compare(trial).is_ok());
    assert!(Tally::new(wrong).compare(trial).is_err());
    assert!(run(group, wrong).is_err());
}

const PAUSE: [u8; 2] = [2, 0];

fn resumed(held: &[usize]) -> Instant {
    Instant::new(Call::Resume, &PAUSE, &[], &packed(held))
}

fn started(state: &[u8]) -> Instant {
    Instant::new(Call::Start, &PAUSE, &[], state)
}

/// Made of the right calls in the same way, with no other rule.
#[test]
fn the_right_rule() {
    for right in [COMPARE, calls_by!(Case::run)] {
        assert!(run(instants::stray_bits, right).is_ok());
        assert!(run(lengths::states, right).is_ok());
    }
}

#[test]
fn the_highest_bit_first() {
    let wrong = calls_by!(highest_first);
    assert_noticed(wrong, &resumed(&[0]), instants::stray_bits);
    assert_noticed(wrong, &started(&[0; STATE_BYTES]), lengths::states);
}

#[test]
fn bits_from_n_on_are_ignored() {
    let wrong = calls_by!(past_the_nodes_ignored);
    assert_noticed(wrong, &resumed(&[0, 1]), instants::stray_bits);
    assert_noticed(wrong, &resumed(&[0, 1023]), instants::stray_bits);
}

#[test]
fn bytes_without_a_node_are_ignored() {
    let wrong = calls_by!(past_the_last_byte_ignored);
    assert_noticed(wrong, &resumed(&[0, 8]), instants::stray_bits);
}

#[test]
fn old_bits_stay_where_a_pause_is_let_go() {
    let wrong = calls_by!(let_go_left);
    assert_noticed(wrong, &resumed(&[0]), instants::stray_bits);
    assert_noticed(wrong, &resumed(&[0]), lengths::states);
    // What is held again doesn't tell.
    let lock = Instant::new(Call::Resume, LOCK, &[], &packed(&[0, 2]));
    assert!(Tally::new(wrong).compare(&lock).is_ok());
}

#[test]
fn bytes_without_a_node_are_not_written() {
    let wrong = calls_by!(bytes_of_nodes_written);
    assert_noticed(wrong, &started(&[255; STATE_BYTES]), instants::stray_bits);
}

#[test]
fn check_3_by_the_nodes() {
    let wrong = calls_by!(bytes_of_nodes_suffice);
    assert_noticed(wrong, &started(&[0; STATE_BYTES - 1]), lengths::states);
}
