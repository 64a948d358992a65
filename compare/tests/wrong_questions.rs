//! Questions by other rules, held against the sentences of F-12 and K of the analysis: by
//! which of the smallest tables each of them is refused, and by how many of the vectors.

use compare::question::reply;
use compare::support::every::{deciding_in_runs, every_table};
use compare::support::nodes::{EXIT, NOTHING, PARALLEL, PAUSE, SEQUENCE, TRAP};
use compare::support::programs::{accepted, any_shape, ALL_SHAPES};
use compare::support::question_edges::edges;
use compare::support::questions::{any_question, Case};
use compare::support::random::Random;
use compare::support::vectors::{directory, read_questions};
use compare::support::wrong_questions as wrong;
use compare::support::wrong_questions::Wrong::{self, Outcome, Replies};
use compare::support::wrong_questions::RULES;
use compare::support::SEED;
use compare::{Known, Refusal};

/// The codes that are tried: the first ones, the last, and above.
const CODES: [u64; 8] = [0, 1, 2, 3, 62, 63, 64, 65];

/// Those of them that a set can have.
const OF_SETS: [u64; 6] = [0, 1, 2, 3, 62, 63];

/// Table, node and code.
type Question = (Vec<u8>, u64, u64);

/// The questions on the smallest tables, of up to so many nodes, for which the rule gives
/// something else. Nodes are asked and the one after the last.
fn smallest(most_nodes: usize, rule: Wrong) -> Vec<Question> {
    let mut refused: Vec<Question> = Vec::new();
    every_table(&deciding_in_runs(), most_nodes, |table| {
        for node in 0..=table.len() as u64 / 2 {
            for code in CODES {
                let right = Case::new(table, node, code).by_sentences();
                if rule.ask(table, node, code) != right {
                    refused.push((table.to_vec(), node, code));
                }
            }
        }
    });
    let least = refused.iter().map(|(table, ..)| table.len()).min();
    refused.retain(|(table, ..)| Some(table.len()) == least);
    refused.sort();
    refused
}

/// The last nodes of these tables, asked for these codes.
fn last_nodes<const N: usize>(tables: [&[u8]; N], codes: &[u64]) -> Vec<Question> {
    let last = |table: &[u8]| table.len() as u64 / 2 - 1;
    nodes_of(tables, last, codes)
}

/// The nodes after the last of these tables.
fn nodes_outside<const N: usize>(tables: [&[u8]; N], codes: &[u64]) -> Vec<Question> {
    nodes_of(tables, |table| table.len() as u64 / 2, codes)
}

fn nodes_of<const N: usize>(
    tables: [&[u8]; N],
    node: impl Fn(&[u8]) -> u64,
    codes: &[u64],
) -> Vec<Question> {
    let question = |table: &[u8], code| (table.to_vec(), node(table), code);
    let of_table = |table| codes.iter().map(move |&code| (table, code));
    let pairs = tables.into_iter().flat_map(of_table);
    let mut questions: Vec<Question> = pairs.map(|(table, code)| question(table, code)).collect();
    questions.sort();
    questions
}

const TESTS: [&[u8]; 4] = [
    &[1, 0, 1, 0, 6, 0],
    &[1, 0, 2, 0, 6, 0],
    &[2, 0, 1, 0, 6, 0],
    &[2, 0, 2, 0, 6, 0],
];

const PAUSE_FIRST: [&[u8]; 2] = [&[2, 0, 1, 0, 9, 0], &[2, 0, 2, 0, 9, 0]];

#[test]
fn no_sentence_refuses_the_right_rule() {
    assert_eq!(smallest(5, Replies(reply)), []);
}

#[test]
fn every_node_of_the_statement_counted() {
    let mut expected = last_nodes([&[1, 0, 11, 0], &[2, 0, 11, 0], &[4, 0, 11, 0]], &[63]);
    expected.extend(last_nodes([&[2, 0, 8, 0]], &[0]));
    expected.sort();
    assert_eq!(smallest(3, Outcome(wrong::whole_statement)), expected);
}

/// A leaf with any node around it, and those of before.
#[test]
fn every_node_of_the_table_counted() {
    let refused = smallest(3, Outcome(wrong::whole_table));
    let of_leaves = refused.iter().filter(|(_, node, _)| *node == 0);
    assert_eq!(of_leaves.count(), 6 * OF_SETS.len());
    let others: Vec<Question> = refused
        .into_iter()
        .filter(|(_, node, _)| *node != 0)
        .collect();
    assert_eq!(others, smallest(3, Outcome(wrong::whole_statement)));
}

#[test]
fn the_node_asked_not_counted() {
    let expected = last_nodes([NOTHING, PAUSE], &OF_SETS);
    assert_eq!(smallest(2, Outcome(wrong::others_alone)), expected);
}

#[test]
fn a_present_that_asks_both_branches() {
    let mut expected = last_nodes([TESTS[0], TESTS[1]], &[0]);
    expected.extend(last_nodes([TESTS[2], TESTS[3]], &[1]));
    assert_eq!(smallest(4, Replies(wrong::both_branches)), expected);
}

#[test]
fn a_present_that_asks_its_else_branch_first() {
    let expected = last_nodes([TESTS[1], TESTS[2]], &[0, 1]);
    assert_eq!(smallest(4, Replies(wrong::else_first)), expected);
}

#[test]
fn a_sequence_that_asks_its_second_though_the_first_lacks_0() {
    let expected = last_nodes(PAUSE_FIRST, &OF_SETS);
    assert_eq!(smallest(4, Replies(wrong::without_end)), expected);
}

/// The first ends or pauses, and is asked for the pause.
#[test]
fn a_sequence_that_asks_its_second_though_the_first_has_the_code() {
    let seconds = [NOTHING, PAUSE];
    let tables = [TESTS[1], TESTS[2]].map(|test| {
        let table = seconds.map(|second| [test, second, SEQUENCE].concat());
        table.map(|table| (table, 4, 1))
    });
    assert_eq!(smallest(5, Replies(wrong::though_found)), tables.concat());
}

#[test]
fn a_sequence_that_looks_at_every_node_of_its_second() {
    let in_traps = [NOTHING, PAUSE, EXIT].map(|leaf| [NOTHING, leaf, TRAP, SEQUENCE].concat());
    let mut expected = last_nodes(in_traps.each_ref().map(|table| &table[..]), &[63]);
    expected.extend(last_nodes([&[1, 0, 2, 0, 8, 0, 9, 0]], &[0]));
    expected.sort();
    assert_eq!(smallest(4, Replies(wrong::whole_second)), expected);
}

/// A loop that is asked for 0 looks no further; for 1 it does.
#[test]
fn a_sequence_that_asks_its_first() {
    let tables: [&[u8]; 2] = [&[2, 0, 8, 0, 1, 0, 9, 0], &[2, 0, 8, 0, 2, 0, 9, 0]];
    let expected = last_nodes(tables, &[0, 2, 3, 62, 63]);
    assert_eq!(smallest(4, Replies(wrong::first_asked)), expected);
}

/// The answer is another one, or the second is left out.
#[test]
fn a_sequence_that_ends_with_its_first() {
    let expected = last_nodes([&[1, 0, 1, 0, 9, 0], &[1, 0, 2, 0, 9, 0]], &[0]);
    assert_eq!(smallest(4, Replies(wrong::end_of_first)), expected);
}

#[test]
fn a_trap_that_passes_2_as_2() {
    let expected = last_nodes([&[4, 0, 11, 0]], &[2]);
    assert_eq!(smallest(3, Replies(wrong::two_as_two)), expected);
}

#[test]
fn a_trap_that_passes_1_as_2() {
    let expected = last_nodes([&[2, 0, 11, 0], &[4, 0, 11, 0]], &[1]);
    assert_eq!(smallest(3, Replies(wrong::one_as_two)), expected);
}

/// A test that ends by its then branch, and a sequence that doesn't come to its second.
#[test]
fn a_trap_that_passes_0_as_0_and_2() {
    let leaves = [NOTHING, PAUSE, EXIT];
    let tests = leaves.map(|leaf| [NOTHING, leaf, &[6, 0], TRAP].concat());
    let sequences = [PAUSE, EXIT].map(|first| {
        let sequences = leaves.map(|second| [first, second, SEQUENCE, TRAP].concat());
        sequences.map(|table| (table, 3, 0))
    });
    let expected = [&tests.map(|table| (table, 3, 0))[..], &sequences.concat()].concat();
    assert_eq!(smallest(4, Replies(wrong::zero_and_two)), expected);
}

#[test]
fn a_trap_that_does_not_catch() {
    let expected = last_nodes([&[4, 0, 11, 0]], &[0]);
    assert_eq!(smallest(3, Replies(wrong::none_caught)), expected);
}

#[test]
fn a_trap_asked_for_63_that_looks_further() {
    let expected = last_nodes([&[1, 0, 11, 0], &[2, 0, 11, 0], &[4, 0, 11, 0]], &[63]);
    assert_eq!(smallest(3, Replies(wrong::beyond_the_last)), expected);
}

/// In an accepted table its body lacks 0, so that only the count tells.
#[test]
fn a_loop_that_passes_0_on() {
    let expected = last_nodes([&[2, 0, 8, 0]], &[0]);
    assert_eq!(smallest(3, Replies(wrong::loop_asked_for_0)), expected);
}

#[test]
fn a_parallel_that_stops_after_its_left_branch() {
    let tables = [NOTHING, PAUSE].map(|right| [PAUSE, right, PARALLEL].concat());
    let expected = tables.map(|table| (table, 2, 0));
    assert_eq!(smallest(4, Replies(wrong::left_above)), expected);
}

/// It looks at the left branch alone where that has the code, and ends if either does.
#[test]
fn a_parallel_that_asks_its_branches() {
    let either = |left: &[u8], right: &[u8]| [left, right, PARALLEL].concat();
    let expected = [
        (either(NOTHING, NOTHING), 2, 0),
        (either(NOTHING, PAUSE), 2, 0),
        (either(PAUSE, NOTHING), 2, 0),
        (either(PAUSE, NOTHING), 2, 1),
        (either(PAUSE, PAUSE), 2, 1),
    ];
    assert_eq!(smallest(4, Replies(wrong::branches_asked)), expected);
}

#[test]
fn a_node_counted_that_is_asked_for_a_code_above_63() {
    let expected = last_nodes([NOTHING, PAUSE], &[64, 65]);
    assert_eq!(smallest(2, Outcome(wrong::asked_in_vain)), expected);
}

#[test]
fn check_21_after_the_rule_on_codes() {
    let expected = nodes_outside([NOTHING, PAUSE], &[64, 65]);
    assert_eq!(smallest(2, Outcome(wrong::codes_first)), expected);
}

/// An exit without its trap is refused 10.
#[test]
fn check_21_before_those_of_the_table() {
    let expected = nodes_outside([&[4, 0], &[4, 1]], &CODES);
    assert_eq!(smallest(1, Outcome(wrong::node_first)), expected);
}

/// How many of the vectors tell each rule from the right one.
const BY_VECTORS: [usize; 21] = [
    144, 388, 527, 22, 29, 92, 3, 5, 35, 8, 11, 28, 26, 18, 13, 20, 28, 106, 31, 6, 2,
];

/// A question with its outcome.
type Answered = (Case, Result<Known, Refusal>);

fn drawn() -> Vec<Answered> {
    let random = &mut Random::new(SEED);
    let drawn = (0..100 * ALL_SHAPES).map(|number| {
        let nodes = random.between(2, 60);
        let table = accepted(random, any_shape(number), nodes);
        let (node, code) = any_question(random, &table);
        let case = Case::new(&table, node, code);
        let outcome = case.run();
        (case, outcome)
    });
    drawn.collect()
}

#[test]
fn vectors_edges_and_drawn_questions_refuse_each_rule() {
    let vectors = read_questions(&directory().join("query_open.jsonl")).into_iter();
    let vectors: Vec<Answered> = vectors
        .map(|vector| (vector.case, vector.outcome))
        .collect();
    let edges = edges().into_iter().map(|edge| (edge.case, edge.outcome));
    let sources = [vectors, edges.collect(), drawn()];
    for ((name, rule), by_vectors) in RULES.into_iter().zip(BY_VECTORS) {
        let refused = sources.each_ref().map(|cases| {
            let differs = |(case, outcome): &&Answered| {
                rule.ask(&case.table, case.node, case.code) != *outcome
            };
            cases.iter().filter(differs).count()
        });
        println!("{name}: {refused:?}");
        let [of_vectors, of_edges, of_drawn] = refused;
        assert_eq!(of_vectors, by_vectors, "{name}");
        // What is drawn here is accepted.
        let is_on_refusals = name == "21 before the table's checks";
        assert!(of_edges > 0 && (of_drawn > 0 || is_on_refusals), "{name}");
    }
}
