//! Narrowed sets by other rules, held against starts with all lists of answers: by which of
//! the smallest tables each of them is refused.

use compare::support::every::{every_table, Letter};
use compare::support::tied_starts::Tied;
use compare::support::ties::{tied, ABSENT, PRESENT};
use compare::support::wrong_ties::{
    accepted_by_narrowed, empty_where_cut_off, exchanged, into_bodies, tied_by_the_inner_end,
    untied_from_there_on, Rule,
};
use compare::{narrow, Refusal, Sets};

/// Nothing, pause, signal, present, loop, sequence.
const LETTERS: [Letter; 6] = [
    ([1, 0], 0),
    ([2, 0], 0),
    ([5, 0], 1),
    ([6, 0], 2),
    ([8, 0], 1),
    ([9, 0], 2),
];

/// A table, and what its signal is tied to.
type Refused = (Vec<u8>, u8);

/// What the rule must give: refusals by K, and sets by starts.
fn right(table: &[u8], ties: &[u8]) -> Result<Vec<u64>, Refusal> {
    Sets::of(table)?;
    Ok(Tied::new(table, ties).sets())
}

/// The smallest tables, of up to so many nodes, for which the rule gives something else.
fn smallest(most_nodes: usize, rule: Rule) -> Vec<Refused> {
    let mut refused: Vec<Refused> = Vec::new();
    every_table(&LETTERS, most_nodes, |table| {
        for tie in [ABSENT, PRESENT] {
            let ties = tied(&[(0, tie)]);
            if rule(table, &ties) != right(table, &ties) {
                refused.push((table.to_vec(), tie));
            }
        }
    });
    let least = refused.iter().map(|(table, _)| table.len()).min();
    refused.retain(|(table, _)| Some(table.len()) == least);
    refused
}

/// Each of the tables with both ties.
fn with_both(tables: &[impl AsRef<[u8]>]) -> Vec<Refused> {
    let tables = tables.iter().map(|table| table.as_ref().to_vec());
    let both = |table: Vec<u8>| [(table.clone(), ABSENT), (table, PRESENT)];
    tables.flat_map(both).collect()
}

const TESTS: [&[u8]; 2] = [&[1, 0, 2, 0, 6, 0], &[2, 0, 1, 0, 6, 0]];

/// A signal statement in a branch of a test: the test stands after it, and around it.
const AFTER_A_SIGNAL: [&[u8]; 4] = [
    &[1, 0, 2, 0, 5, 0, 6, 0],
    &[1, 0, 5, 0, 2, 0, 6, 0],
    &[2, 0, 1, 0, 5, 0, 6, 0],
    &[2, 0, 5, 0, 1, 0, 6, 0],
];

/// The tables with one more node around them.
fn then(tables: &[&[u8]], node: [u8; 2]) -> Vec<Vec<u8>> {
    let longer = |table: &&[u8]| [table, &node[..]].concat();
    tables.iter().map(longer).collect()
}

#[test]
fn no_start_refuses_the_right_rule() {
    let rule: Rule = |table, ties| {
        let mut sets = vec![0; table.len() / 2];
        narrow(table, ties, &mut sets).map(|_| sets)
    };
    assert_eq!(smallest(6, rule), []);
}

#[test]
fn ties_that_reach_into_bodies() {
    let in_bodies = then(&TESTS, [5, 0]);
    assert_eq!(smallest(4, into_bodies), with_both(&in_bodies));
}

#[test]
fn a_signal_statement_that_unties_what_follows() {
    assert_eq!(
        smallest(4, untied_from_there_on),
        with_both(&AFTER_A_SIGNAL)
    );
}

#[test]
fn an_inner_signal_statement_that_ties_again() {
    let within = then(&AFTER_A_SIGNAL, [5, 0]);
    assert_eq!(smallest(5, tied_by_the_inner_end), with_both(&within));
}

#[test]
fn absent_and_present_exchanged() {
    assert_eq!(smallest(3, exchanged), with_both(&TESTS));
}

/// Whatever the branches are.
#[test]
fn a_branch_that_is_cut_off_has_no_code() {
    let tests = [&[1, 0, 1, 0, 6, 0], TESTS[0], TESTS[1], &[2, 0, 2, 0, 6, 0]];
    assert_eq!(smallest(3, empty_where_cut_off), with_both(&tests));
}

/// W6 with its tie, and its mirror image.
#[test]
fn acceptance_by_the_narrowed_sets() {
    let loops = then(&TESTS, [8, 0]);
    let expected = [(loops[0].clone(), ABSENT), (loops[1].clone(), PRESENT)];
    assert_eq!(smallest(4, accepted_by_narrowed), expected);
}
