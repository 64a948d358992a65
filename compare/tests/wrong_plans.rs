//! Numbers of entries by other rules, held against starts with all lists of answers: by
//! which of the smallest tables each of them is refused.

use std::collections::BTreeSet;

use compare::support::edges::W2;
use compare::support::every::{deciding_in_runs, every_program, every_table, Letter};
use compare::support::nodes::{EXIT, NOTHING, PARALLEL, PAUSE, SEQUENCE, TRAP};
use compare::support::plans::{stages, table as any_table, through_traps, NUMBERS};
use compare::support::random::Random;
use compare::support::starts::{greatest_of_starts, Alone};
use compare::support::vectors::{directory, read_lines};
use compare::support::wrong_plans::{
    all_nodes, bound, branches_merged, branches_up_to_the_code, codes_merged, end_of_body,
    fuller_branch, left_exit_alone, loop_that_ends, second_always, suspend_tested, Rule,
};
use compare::support::{plan_edges, SEED};
use compare::{first_tick, Refusal, Sets};

const RULES: [(&str, Rule); 11] = [
    ("every node", all_nodes),
    ("the bound of the listing", bound),
    ("codes merged", codes_merged),
    ("the branches' codes merged", branches_merged),
    ("branches up to the code", branches_up_to_the_code),
    ("an exit on the left alone", left_exit_alone),
    ("the second in any case", second_always),
    ("the fuller branch", fuller_branch),
    ("the end of a body", end_of_body),
    ("a suspend that is tested", suspend_tested),
    ("a loop that ends", loop_that_ends),
];

/// What the rule must give: refusals by K, and numbers by starts.
fn right(table: &[u8]) -> Result<usize, Refusal> {
    Sets::of(table)?;
    let starts = Alone::whole(table).every_start(1000);
    Ok(greatest_of_starts(&starts.expect("few lists")))
}

type Tables = BTreeSet<Vec<u8>>;

/// The smallest tables, of up to so many nodes, for which the rule gives something else.
fn smallest(letters: &[Letter], most_nodes: usize, rule: Rule) -> Tables {
    let mut refused = Tables::new();
    every_table(letters, most_nodes, |table| {
        if rule(table) != right(table) {
            refused.insert(table.to_vec());
        }
    });
    let least = refused.iter().map(Vec::len).min();
    refused.retain(|table| Some(table.len()) == least);
    refused
}

fn tables<const N: usize>(tables: [&[u8]; N]) -> Tables {
    tables.map(<[u8]>::to_vec).into()
}

/// The two statements under a node, in both orders.
fn both_orders(one: &[u8], other: &[u8], node: &[u8]) -> [Vec<u8>; 2] {
    [[one, other, node].concat(), [other, one, node].concat()]
}

/// These letters alone, of those that are looked at.
fn letters(kept: &[[u8; 2]]) -> Vec<Letter> {
    let mut letters = deciding_in_runs();
    letters.retain(|(letter, _)| kept.contains(letter));
    assert_eq!(letters.len(), kept.len());
    letters
}

const TEST: &[u8] = &[6, 0];
const SUSPEND: &[u8] = &[7, 0];

#[test]
fn no_start_refuses_the_right_rule() {
    assert_eq!(smallest(&deciding_in_runs(), 6, first_tick), Tables::new());
}

/// A test has one branch, and a sequence may stop.
#[test]
fn every_node_is_entered() {
    let expected = tables([
        &[1, 0, 1, 0, 6, 0],
        &[1, 0, 2, 0, 6, 0],
        &[2, 0, 1, 0, 6, 0],
        &[2, 0, 2, 0, 6, 0],
        &[2, 0, 1, 0, 9, 0],
        &[2, 0, 2, 0, 9, 0],
    ]);
    assert_eq!(smallest(&deciding_in_runs(), 3, all_nodes), expected);
}

#[test]
fn the_bound_of_the_listing() {
    let expected = tables([&[2, 0, 8, 0]]);
    assert_eq!(smallest(&deciding_in_runs(), 3, bound), expected);
}

/// Tests of a suspended pause, with three entries, and an end, with two.
fn pauses_or_ends() -> [Vec<u8>; 2] {
    both_orders(&[PAUSE, SUSPEND].concat(), NOTHING, TEST)
}

/// What the test pauses with is no part of a start that goes on.
#[test]
fn one_number_whatever_the_code() {
    let kept = letters(&[[1, 0], [2, 0], [6, 0], [7, 0], [9, 0], [10, 0]]);
    let mut expected = Tables::new();
    for test in pauses_or_ends() {
        expected.extend([NOTHING, PAUSE].map(|second| [&test, second, SEQUENCE].concat()));
    }
    assert_eq!(smallest(&kept, 7, codes_merged), expected);
    // With all letters, a loop or a trap may stand in the place of the suspend.
    let all = smallest(&deciding_in_runs(), 6, codes_merged);
    assert_eq!(all.len(), 3 * expected.len());
    assert!(all.is_superset(&expected));
}

/// The same, where the test stands beside another statement: the branches must both end for
/// the parallel to go on.
#[test]
fn a_parallel_of_the_greatest_whatever_their_codes() {
    let kept = letters(&[[1, 0], [2, 0], [6, 0], [7, 0], [9, 0], [10, 0]]);
    let mut expected = Tables::new();
    for test in pauses_or_ends() {
        for branches in both_orders(&test, NOTHING, PARALLEL) {
            expected.extend([NOTHING, PAUSE].map(|second| [&branches, second, SEQUENCE].concat()));
        }
    }
    assert_eq!(smallest(&kept, 8, branches_merged), expected);
}

/// Three entries or an exit with two, beside a pause: without the exit, the trap is not
/// left.
#[test]
fn a_parallel_whose_code_no_branch_need_have() {
    let kept = letters(&[[2, 0], [4, 0], [6, 0], [9, 0], [10, 0], [11, 0]]);
    let mut expected = Tables::new();
    // With three entries it pauses or ends.
    for other in [[PAUSE, TRAP], [EXIT, TRAP]] {
        for test in both_orders(&other.concat(), EXIT, TEST) {
            for branches in both_orders(&test, PAUSE, PARALLEL) {
                expected.insert([&branches, TRAP, PAUSE, SEQUENCE].concat());
            }
        }
    }
    assert_eq!(smallest(&kept, 9, branches_up_to_the_code), expected);
}

#[test]
fn a_parallel_that_ends_at_the_exit_on_its_left() {
    let expected = tables([
        &[4, 0, 1, 0, 10, 0, 11, 0],
        &[4, 0, 2, 0, 10, 0, 11, 0],
        &[4, 0, 4, 0, 10, 0, 11, 0],
    ]);
    assert_eq!(smallest(&deciding_in_runs(), 5, left_exit_alone), expected);
}

#[test]
fn a_sequence_that_adds_its_second_though_the_first_pauses() {
    let expected = tables([&[2, 0, 1, 0, 9, 0], &[2, 0, 2, 0, 9, 0]]);
    assert_eq!(smallest(&deciding_in_runs(), 4, second_always), expected);
}

/// The pause is looked at alone, though only the end goes on.
#[test]
fn the_branch_with_more_entries_alone() {
    let expected = tables([
        &[2, 0, 1, 0, 6, 0, 1, 0, 9, 0],
        &[2, 0, 1, 0, 6, 0, 2, 0, 9, 0],
    ]);
    assert_eq!(smallest(&deciding_in_runs(), 6, fuller_branch), expected);
}

#[test]
fn a_loop_that_counts_the_end_of_its_body() {
    let expected = tables([&[2, 0, 8, 0]]);
    assert_eq!(smallest(&deciding_in_runs(), 3, end_of_body), expected);
}

/// W2 has no number. In a table that is accepted no body ends, so that it makes no
/// difference what a loop does then.
#[test]
fn a_loop_that_ends_with_its_body() {
    let expected = tables([W2]);
    assert_eq!(smallest(&deciding_in_runs(), 3, loop_that_ends), expected);
    every_program(&deciding_in_runs(), 6, |table, _| {
        assert_eq!(loop_that_ends(table), first_tick(table), "{table:?}");
    });
}

/// The exit to the outer trap, if it is suspended, lets the exit to the inner one count,
/// after which there are two entries more.
#[test]
fn a_suspend_that_is_tested_when_it_is_started() {
    let kept = letters(&[[4, 0], [4, 1], [7, 0], [9, 0], [10, 0], [11, 0]]);
    let tails: [&[u8]; 3] = [&[4, 0, 7, 0], &[4, 0, 11, 0], &[4, 1, 11, 0]];
    let mut expected = Tables::new();
    for branches in both_orders(&[4, 1, 7, 0], EXIT, PARALLEL) {
        expected.extend(tails.map(|tail| [&branches, TRAP, tail, SEQUENCE, TRAP].concat()));
    }
    assert_eq!(smallest(&kept, 9, suspend_tested), expected);
}

/// The tables that the generator draws, the edges and the vectors.
#[test]
fn drawn_tables_edges_and_vectors_refuse_each_rule() {
    let random = &mut Random::new(SEED);
    let drawn = (0..4 * NUMBERS).map(|number| {
        let nodes = random.between(2, 100);
        any_table(random, number, nodes)
    });
    let drawn: Vec<Vec<u8>> = drawn.collect();
    let staged = (0..100).map(|_| stages(random, 100)).collect();
    let traps = (0..100).map(|_| through_traps(random, 62)).collect();
    let edges = plan_edges::edges().into_iter().map(|edge| edge.table);
    let vectors = read_lines(&directory().join("worst_open.jsonl"));
    let vectors = vectors.into_iter().map(|vector| vector.table);
    let sources: [Vec<Vec<u8>>; 5] = [drawn, staged, traps, edges.collect(), vectors.collect()];
    let sources = sources.map(|tables| -> Vec<_> {
        let with_numbers = tables.into_iter().map(|table| (first_tick(&table), table));
        with_numbers.collect()
    });
    for (name, rule) in RULES {
        let refused = sources.each_ref().map(|tables| {
            let differing = tables.iter().filter(|(right, table)| rule(table) != *right);
            differing.count()
        });
        println!("{name}: {refused:?}");
        let [drawn, staged, traps, edges, _] = refused;
        let is_told = drawn + staged + traps > 0 && edges > 0;
        assert!(is_told, "{name}: {refused:?}");
    }
}
