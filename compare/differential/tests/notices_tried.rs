//! Wrong start sets by trial that a comparison must notice: in other ways, with the node changed
//! before it, or with what is returned.

use std::cell::Cell;

use compare::by_trial::{self, gathered, Rule, LISTS};
use compare::instant::start_alone;
use compare::support::calls::{ByTrial, Calls, COMPARE, FIGURES};
use compare::support::edges::W1;
use compare::support::nodes::{LOOP, PAUSE, PRESENT, TRAP};
use compare::support::random::Random;
use compare::support::tried::pause_by;
use compare::support::wrong_tried::{Wrong, RULES};
use compare::support::SEED;
use compare::table::{self, Tree};
use differential::groups::tried;
use differential::tally::Tally;
use differential::trials::{Trial, Trying};

fn assert_noticed(trial: ByTrial, of: &Trying) {
    let wrong = Calls { trial, ..COMPARE };
    assert!(Tally::new(COMPARE).compare(of).is_ok());
    assert!(Tally::new(wrong).compare(of).is_err());
}

/// By the group of the edges, too.
fn assert_noticed_at_the_edges(trial: ByTrial, of: &Trying) {
    assert_noticed(trial, of);
    let wrong = Calls { trial, ..COMPARE };
    assert!(tried::edges(&mut Tally::new(wrong), &mut Random::new(SEED)).is_err());
}

/// The program itself.
fn whole(table: &[u8]) -> Trying {
    Trying::new(table, table.len() as u64 / 2 - 1)
}

/// Nested, so that a start can take all of the answers.
fn tests(count: usize) -> Vec<u8> {
    pause_by(&vec![0; count])
}

#[test]
fn the_right_sets() {
    assert!(tried::edges(&mut Tally::new(COMPARE), &mut Random::new(SEED)).is_ok());
}

thread_local! {
    /// The wrong way in which this thread tries.
    static RULE: Cell<Wrong> = const { Cell::new(RULES[0].1) };
}

/// What is lent is judged by the right call.
fn by_the_rule(table: &[u8], node: u64, answer: &mut [u64]) -> u32 {
    if table::measure(table).is_err() || answer.len() < FIGURES {
        return (COMPARE.trial)(table, node, answer);
    }
    match RULE.get().trial(table, node) {
        Ok(tried) => {
            answer[..FIGURES].copy_from_slice(&[tried.set, tried.presents as u64, 0]);
            0
        }
        Err(refusal) => refusal.number + 256 * refusal.node as u32,
    }
}

/// One of the smallest cases that tell each rule, in the order of the rules.
fn smallest() -> [Trying; RULES.len()] {
    let pauses = [PAUSE.repeat(13), PRESENT.repeat(12)].concat();
    let unequal = &[1, 0, 2, 0, 6, 0, 1, 0, 6, 0];
    let test = &[1, 0, 2, 0, 6, 0];
    [
        whole(&tests(12)),
        whole(&pauses),
        whole(&tests(12)),
        whole(&pause_by(&[1; 12])),
        whole(test),
        whole(unequal),
        whole(unequal),
        Trying::new(&[4, 0, 11, 0], 0),
        whole(PAUSE),
        whole(&[1, 0, 2, 0, 10, 0]),
        whole(&[1, 0, 7, 0]),
        Trying::new(test, 0),
        whole(test),
        whole(&[1, 0, 7, 0]),
        whole(&[2, 0, 1, 0, 2, 0, 6, 0, 9, 0]),
        whole(unequal),
        whole(&tests(12)),
        whole(&tests(13)),
        Trying::new(&tests(13), 27),
        whole(&[&tests(13), LOOP].concat()),
        Trying::new(&[4, 0], 1),
        whole(&tests(13)),
    ]
}

#[test]
fn each_wrong_rule() {
    for ((name, rule), case) in RULES.into_iter().zip(smallest()) {
        println!("{name}");
        RULE.set(rule);
        assert_noticed_at_the_edges(by_the_rule, &case);
    }
}

/// Without the edges, too, but for what takes a certain list of answers or a table that is
/// refused.
#[test]
fn wrong_rules_by_programs_and_nodes_that_are_drawn() {
    let of_others = [
        "lists of 11 answers",
        "lists of 11 answers, and a starved run ends",
        "without the list of absent alone",
        "without the list of present alone",
        "22 before 11",
        "21 before the table's checks",
    ];
    let drawn = RULES
        .into_iter()
        .filter(|(name, _)| !of_others.contains(name));
    for (name, rule) in drawn {
        RULE.set(rule);
        let wrong = Calls {
            trial: by_the_rule,
            ..COMPARE
        };
        let outcome = tried::larger(&mut Tally::new(wrong), &mut Random::new(SEED));
        assert!(outcome.is_err(), "{name}");
    }
}

thread_local! {
    /// The list that this thread leaves out.
    static LEFT_OUT: Cell<usize> = const { Cell::new(0) };
}

fn without_it(tree: &Tree, node: usize) -> u64 {
    let (before, from) = LISTS.split_at(LEFT_OUT.get());
    let lists = before.iter().chain(&from[1..]);
    gathered(lists.map(|list| start_alone(tree, node, list).expect("enough answers")))
}

/// Whichever it is, the program in which it alone gives a code shows it.
#[test]
fn any_one_list_left_out() {
    RULE.set(Wrong::Parts(Rule {
        codes: without_it,
        ..by_trial::RULE
    }));
    for (number, list) in LISTS.iter().enumerate().step_by(195) {
        LEFT_OUT.set(number);
        assert_noticed(by_the_rule, &whole(&pause_by(list)));
    }
}

#[test]
fn nodes_that_lose_their_higher_bits() {
    assert_noticed_at_the_edges(
        |table, node, answer| (COMPARE.trial)(table, node % (1 << 10), answer),
        &Trying::new(PAUSE, 1 << 10),
    );
    assert_noticed_at_the_edges(
        |table, node, answer| (COMPARE.trial)(table, node % (1 << 16), answer),
        &Trying::new(PAUSE, 1 << 16),
    );
    assert_noticed_at_the_edges(
        |table, node, answer| (COMPARE.trial)(table, node % (1 << 32), answer),
        &Trying::new(PAUSE, 1 << 32),
    );
}

#[test]
fn the_node_after() {
    assert_noticed_at_the_edges(
        |table, node, answer| (COMPARE.trial)(table, node.wrapping_add(1), answer),
        &Trying::new(W1, 0),
    );
}

#[test]
fn a_node_past_the_last_that_is_taken_for_it() {
    assert_noticed_at_the_edges(
        |table, node, answer| {
            let last = (table.len() as u64 / 2).saturating_sub(1);
            (COMPARE.trial)(table, node.min(last), answer)
        },
        &Trying::new(W1, 4),
    );
}

/// By the number of bytes, not of nodes.
#[test]
fn nodes_outside_the_table_but_not_its_bytes() {
    assert_noticed_at_the_edges(
        |table, node, answer| match (COMPARE.trial)(table, node, answer) {
            21 if node < table.len() as u64 => (COMPARE.trial)(table, 0, answer),
            returned => returned,
        },
        &Trying::new(W1, 4),
    );
}

#[test]
fn the_node_tried_in_the_refusal() {
    assert_noticed_at_the_edges(
        |table, node, answer| match (COMPARE.trial)(table, node, answer) {
            21 => 21 + 256 * (node % 1024) as u32,
            returned => returned,
        },
        &Trying::new(W1, 4),
    );
}

/// Changes the figures of an answer.
fn told_then(table: &[u8], node: u64, answer: &mut [u64], change: impl FnOnce(&mut [u64])) -> u32 {
    let returned = (COMPARE.trial)(table, node, answer);
    if returned == 0 {
        change(answer);
    }
    returned
}

/// Code 63, and an exit from 31 of 32 traps.
#[test]
fn sets_of_fewer_bits() {
    let exits = |level, traps: usize| [&[4, level], &TRAP.repeat(traps)[..]].concat();
    assert_noticed_at_the_edges(
        |table, node, answer| told_then(table, node, answer, |answer| answer[0] &= u64::MAX >> 1),
        &Trying::new(&exits(61, 62), 0),
    );
    assert_noticed_at_the_edges(
        |table, node, answer| told_then(table, node, answer, |answer| answer[0] %= 1 << 32),
        &Trying::new(&exits(30, 31), 0),
    );
}

/// Bit 0 for code 1.
#[test]
fn sets_without_a_bit_for_code_0() {
    assert_noticed_at_the_edges(
        |table, node, answer| told_then(table, node, answer, |answer| answer[0] >>= 1),
        &whole(PAUSE),
    );
}

#[test]
fn the_lowest_and_the_highest_code_alone() {
    assert_noticed_at_the_edges(
        |table, node, answer| {
            told_then(table, node, answer, |answer| {
                answer[0] &= answer[0].wrapping_neg();
            })
        },
        &whole(&[1, 0, 2, 0, 6, 0]),
    );
    assert_noticed_at_the_edges(
        |table, node, answer| {
            told_then(table, node, answer, |answer| {
                answer[0] = 1 << answer[0].ilog2();
            })
        },
        &whole(&[1, 0, 2, 0, 6, 0]),
    );
}

#[test]
fn set_and_presents_exchanged() {
    assert_noticed_at_the_edges(
        |table, node, answer| told_then(table, node, answer, |answer| answer.swap(0, 1)),
        &whole(PAUSE),
    );
}

#[test]
fn the_node_among_the_figures() {
    assert_noticed_at_the_edges(
        |table, node, answer| told_then(table, node, answer, |answer| answer[2] = node),
        &whole(W1),
    );
}

#[test]
fn a_short_answer_refused_after_all_other_checks() {
    assert_noticed_at_the_edges(
        |table, node, answer| match (COMPARE.trial)(table, node, &mut [0; FIGURES]) {
            0 => (COMPARE.trial)(table, node, answer),
            refused => refused,
        },
        &whole(&tests(13)).with_answer(2),
    );
}

#[test]
fn a_short_answer_that_has_room_for_what_is_told() {
    fn trial(table: &[u8], node: u64, answer: &mut [u64]) -> u32 {
        let mut longer = [&answer[..], &[0]].concat();
        let returned = (COMPARE.trial)(table, node, &mut longer);
        answer.copy_from_slice(&longer[..answer.len()]);
        returned
    }
    assert_noticed_at_the_edges(trial, &whole(W1).with_answer(2));
}
