//! Start sets by trial in other ways, held against K of the analysis: by which of the smallest
//! tables each of them is refused, and by how many of the vectors.

use compare::by_trial::{Rule, ANSWERS, RULE};
use compare::support::every::{deciding_in_runs, every_table};
use compare::support::nodes::{LOOP, PAUSE, PRESENT};
use compare::support::tried::{every_node, pause_by, Case};
use compare::support::tried_edges::edges;
use compare::support::vectors::{directory, read_tried};
use compare::support::wrong_tried as wrong;
use compare::support::wrong_tried::Wrong::{self, Parts};
use compare::support::wrong_tried::RULES;

/// The nodes of the smallest tables, of up to so many nodes, for which the rule gives something
/// else. Also the node after the last is tried.
fn smallest(most_nodes: usize, rule: Wrong) -> Vec<Case> {
    let mut refused: Vec<Case> = Vec::new();
    every_table(&deciding_in_runs(), most_nodes, |table| {
        for node in every_node(table).chain([table.len() as u64 / 2]) {
            let case = Case::new(table, node);
            if is_told(rule, &case) {
                refused.push(case);
            }
        }
    });
    let least = refused.iter().map(|case| case.table.len()).min();
    refused.retain(|case| Some(case.table.len()) == least);
    refused.sort();
    refused
}

fn is_told(rule: Wrong, case: &Case) -> bool {
    rule.trial(&case.table, case.node) != case.by_start_sets()
}

fn last_nodes<const N: usize>(tables: [&[u8]; N]) -> Vec<Case> {
    tables.map(Case::whole).into()
}

/// It takes 12 or 13 presents to tell the rule. Such a table has at least 25 or 27 nodes, the
/// presents and one leaf more than these; no table of few nodes tells it, and one that has just
/// so many does.
fn assert_told_by_presents(rule: Wrong, presents: usize, case: &Case) {
    assert_eq!(smallest(4, rule), []);
    assert_eq!(case.table.len() / 2, 2 * presents + 1);
    assert!(is_told(rule, case), "{case:?}");
}

/// The list that is wanted by the table, and another one for any other.
fn assert_told_by_list(rule: Wrong, list: [u8; ANSWERS], other: [u8; ANSWERS]) {
    assert_told_by_presents(rule, ANSWERS, &Case::whole(&pause_by(&list)));
    assert!(!is_told(rule, &Case::whole(&pause_by(&other))));
}

const TESTS: [&[u8]; 4] = [
    &[1, 0, 1, 0, 6, 0],
    &[1, 0, 2, 0, 6, 0],
    &[2, 0, 1, 0, 6, 0],
    &[2, 0, 2, 0, 6, 0],
];

/// Two tests, of which two answers that differ alone give the code of a leaf.
const UNEQUAL: [&[u8]; 4] = [
    &[1, 0, 2, 0, 1, 0, 6, 0, 6, 0],
    &[1, 0, 2, 0, 6, 0, 1, 0, 6, 0],
    &[2, 0, 1, 0, 2, 0, 6, 0, 6, 0],
    &[2, 0, 1, 0, 6, 0, 2, 0, 6, 0],
];

#[test]
fn k_refuses_no_right_trial() {
    assert_eq!(smallest(4, Parts(RULE)), []);
}

/// A code is lost if it takes the last answer.
#[test]
fn lists_of_11_answers() {
    let tests = pause_by(&[0; ANSWERS]);
    assert_told_by_presents(wrong::ELEVEN_ANSWERS, ANSWERS, &Case::whole(&tests));
    // With fewer presents, or if the others have the code too, none is.
    let fewer = Case::whole(&pause_by(&[0; 11]));
    assert!(!is_told(wrong::ELEVEN_ANSWERS, &fewer));
    let pauses = [PAUSE.repeat(13), PRESENT.repeat(12)].concat();
    assert!(!is_told(wrong::ELEVEN_ANSWERS, &Case::whole(&pauses)));
}

/// As it is with 11, so it is with none, one and two: the smallest tables have one present
/// more than there are answers, one in the other, and no other node of two children.
#[test]
fn lists_of_fewer_answers() {
    let rule = |codes| Parts(Rule { codes, ..RULE });
    let none = smallest(3, rule(wrong::starved_passed_over::<0>));
    assert_eq!(none, last_nodes(TESTS));
    // All but those with three equal leaves.
    let one = smallest(5, rule(wrong::starved_passed_over::<1>));
    assert_eq!(one.len(), 12);
    assert!(one.iter().all(|case| tests_in(case) == 2), "{one:?}");
    let two = smallest(7, rule(wrong::starved_passed_over::<2>));
    assert!(two.iter().all(|case| case.node == 6), "{two:?}");
    assert!(two.iter().all(|case| tests_in(case) == 3), "{two:?}");
}

fn tests_in(case: &Case) -> usize {
    let kinds = case.table.iter().step_by(2);
    kinds.filter(|&&kind| kind == 6).count()
}

/// Where no start ends.
#[test]
fn lists_of_11_answers_and_a_starved_run_that_ends() {
    let pauses = [PAUSE.repeat(13), PRESENT.repeat(12)].concat();
    assert_told_by_presents(wrong::STARVED_ENDS, ANSWERS, &Case::whole(&pauses));
}

#[test]
fn the_first_list_left_out() {
    assert_told_by_list(wrong::WITHOUT_THE_FIRST, [0; ANSWERS], [1; ANSWERS]);
}

#[test]
fn the_last_list_left_out() {
    assert_told_by_list(wrong::WITHOUT_THE_LAST, [1; ANSWERS], [0; ANSWERS]);
}

#[test]
fn the_list_of_absent_alone() {
    assert_eq!(
        smallest(4, wrong::ALL_ABSENT),
        last_nodes([TESTS[1], TESTS[2]])
    );
}

#[test]
fn lists_of_one_answer_alone() {
    assert_eq!(smallest(5, wrong::ALL_ALIKE), last_nodes(UNEQUAL));
}

/// The tests are of one signal.
#[test]
fn one_answer_for_each_signal() {
    assert_eq!(smallest(5, wrong::BY_SIGNAL), last_nodes(UNEQUAL));
}

/// An exit that its trap catches.
#[test]
fn the_program_started_in_the_place_of_the_node() {
    let expected = [Case::new(&[4, 0, 11, 0], 0)];
    assert_eq!(smallest(3, wrong::THE_PROGRAM), expected);
}

#[test]
fn the_set_of_any_instant() {
    assert_eq!(smallest(2, wrong::ANY_INSTANT), last_nodes([PAUSE]));
}

#[test]
fn the_union_of_a_parallel() {
    let expected = last_nodes([&[1, 0, 2, 0, 10, 0], &[2, 0, 1, 0, 10, 0]]);
    assert_eq!(smallest(3, wrong::UNION), expected);
}

#[test]
fn a_suspend_tested_when_it_is_started() {
    let expected = last_nodes([&[1, 0, 7, 0]]);
    assert_eq!(smallest(3, wrong::SUSPENDS_TESTED), expected);
}

/// Of a branch.
#[test]
fn presents_of_the_table_counted() {
    let branches = TESTS.map(|test| [0, 1].map(|node| Case::new(test, node)));
    assert_eq!(smallest(3, wrong::OF_TABLE), branches.concat());
}

#[test]
fn the_own_present_not_counted() {
    assert_eq!(smallest(3, wrong::WITHOUT_OWN), last_nodes(TESTS));
}

#[test]
fn suspends_counted() {
    let expected = last_nodes([&[1, 0, 7, 0], &[2, 0, 7, 0]]);
    assert_eq!(smallest(3, wrong::WITH_SUSPENDS), expected);
}

/// A test that is never come to.
#[test]
fn answers_taken_counted() {
    let expected = TESTS.map(|test| Case::whole(&[PAUSE, test, &[9, 0]].concat()));
    assert_eq!(smallest(5, wrong::AS_MANY_AS_TAKEN), expected);
}

/// Any two tests, one in the other, as they are of one signal.
#[test]
fn signals_counted() {
    let refused = smallest(5, wrong::SIGNALS_COUNTED);
    assert_eq!(refused.len(), 16);
    assert!(refused.iter().all(|case| tests_in(case) == 2));
}

#[test]
fn twelve_presents_refused() {
    let tests = Case::whole(&pause_by(&[0; ANSWERS]));
    assert_told_by_presents(wrong::ELEVEN_AT_MOST, ANSWERS, &tests);
}

#[test]
fn thirteen_presents_tried() {
    let tests = Case::whole(&pause_by(&[0; ANSWERS + 1]));
    assert_told_by_presents(wrong::THIRTEEN_AT_MOST, ANSWERS + 1, &tests);
}

#[test]
fn check_22_before_21() {
    let outside = Case::new(&pause_by(&[0; ANSWERS + 1]), 27);
    assert_told_by_presents(wrong::BEFORE_21, ANSWERS + 1, &outside);
}

/// The loop is one node more.
#[test]
fn check_22_before_11() {
    assert_eq!(smallest(5, wrong::BEFORE_11), []);
    let table = [&pause_by(&[0; ANSWERS + 1]), LOOP].concat();
    assert!(is_told(wrong::BEFORE_11, &Case::whole(&table)));
}

/// An exit without its trap is refused 10.
#[test]
fn check_21_before_those_of_the_table() {
    let expected = [[4, 0], [4, 1]].map(|exit| Case::new(&exit, 1));
    assert_eq!(smallest(1, wrong::NODE_FIRST), expected);
}

#[test]
fn check_22_at_the_node() {
    let tests = Case::whole(&pause_by(&[0; ANSWERS + 1]));
    assert_told_by_presents(wrong::AT_THE_NODE, ANSWERS + 1, &tests);
}

/// How many of the vectors tell each rule from the right one, by the set or the refusal.
const BY_VECTORS: [usize; RULES.len()] = [
    1, 0, 0, 0, 252, 114, 70, 190, 110, 97, 14, 114, 12, 107, 44, 49, 88, 31, 8, 0, 5, 49,
];

#[test]
fn vectors_and_edges_refuse_each_rule() {
    let vectors = read_tried(&directory().join("trial_open.jsonl"));
    let edges = edges();
    for ((name, rule), by_vectors) in RULES.into_iter().zip(BY_VECTORS) {
        let outcome = |case: &Case| rule.trial(&case.table, case.node);
        let of_vectors = vectors.iter().filter(|vector| {
            let set = outcome(&vector.case).map(|tried| tried.set);
            set != vector.outcome
        });
        let of_edges = edges
            .iter()
            .filter(|edge| outcome(&edge.case) != edge.outcome);
        let (of_vectors, of_edges) = (of_vectors.count(), of_edges.count());
        println!("{name}: {of_vectors} vectors, {of_edges} edges");
        assert_eq!(of_vectors, by_vectors, "{name}");
        assert!(of_edges > 0, "{name}");
    }
}
