//! Instants by other rules of the packed state, held against the sentences of F-11: by which
//! of the smallest programs each of them is refused, and by how many vectors.

use compare::account::account;
use compare::instant::Code;
use compare::support::answers::every_list;
use compare::support::cases::{Call, Case, Outcome};
use compare::support::every::{deciding_in_runs, every_program};
use compare::support::links::Links;
use compare::support::random::Random;
use compare::support::vectors::{directory, read_instants, InstantVector};
use compare::support::wrong_states::{
    bytes_of_nodes_suffice, bytes_of_nodes_written, highest_first, let_go_left,
    past_the_last_byte_ignored, past_the_nodes_ignored, Rule,
};
use compare::support::SEED;
use compare::{packed, table, Refusal};

/// The code and the answers taken, or the refusal; and the state afterwards.
type Told = (Result<(Code, usize), Refusal>, Vec<u8>);

fn told(outcome: Outcome) -> Told {
    let answer = outcome.answer.map(|closed| (closed.code, closed.taken));
    (answer, outcome.state)
}

/// What must be told of an accepted program, bit by bit.
fn right(case: &Case) -> Told {
    let refused = |number| (Err(Refusal::whole(number)), case.state.clone());
    if case.state.len() < 128 {
        return refused(3);
    }
    let is_held = |node: &usize| case.state[node / 8] >> (node % 8) & 1 == 1;
    let held: Vec<usize> = (0..1024).filter(is_held).collect();
    if case.call == Call::Resume && !is_admitted(&case.table, &held) {
        return refused(12);
    }
    let tree = table::read(&case.table).expect("an accepted table");
    let before = (case.call == Call::Resume).then_some(&held[..]);
    let Some(account) = account(&tree, before, &case.answers) else {
        return refused(13);
    };
    let mut state = case.state.clone();
    state[..128].fill(0);
    for node in account.held {
        state[node / 8] += 1 << (node % 8);
    }
    (Ok((account.code, account.taken)), state)
}

fn is_admitted(table: &[u8], held: &[usize]) -> bool {
    let is_pause = |&node: &usize| table.get(2 * node) == Some(&2);
    if held.is_empty() || !held.iter().all(is_pause) {
        return false;
    }
    let links = Links::of(table);
    let holds = |node: usize| held.iter().any(|&pause| links.is_within(pause, node));
    let on_both_sides = |node: &usize| {
        let children = &links.children[*node];
        [6, 9].contains(&table[2 * node]) && children.iter().all(|&child| holds(child))
    };
    !(0..table.len() / 2).any(|node| on_both_sides(&node))
}

/// The call, the bits that it is lent as 1, and the length of the buffer.
type Lent = (Call, Vec<usize>, usize);

/// Starts over old bits, and resumptions from all sets of the nodes, the one after them, and
/// the first and last bits of other bytes; all in buffers of these lengths.
fn every_lent(nodes: usize) -> Vec<Lent> {
    let mut bits: Vec<usize> = (0..=nodes).collect();
    bits.extend([8, 1023]);
    let mut all = Vec::new();
    for length in [128, 127, 130] {
        all.push((Call::Start, (0..1024).collect(), length));
        for set in 0..1usize << bits.len() {
            let is_in = |place: &usize| set >> place & 1 == 1;
            let held = (0..bits.len()).filter(is_in).map(|place| bits[place]);
            all.push((Call::Resume, held.collect(), length));
        }
    }
    all
}

fn case_of(table: &[u8], (call, held, length): &Lent) -> Case {
    let mut state = packed(held).to_vec();
    state.resize(*length, 0xa5);
    Case::new(&mut Random::new(SEED), *call, table, &state)
}

/// Whether the rule gives something else with some answers.
fn is_refused(rule: Rule, case: &Case) -> bool {
    let refused = every_list(|answers| {
        let case = case.clone().answered(answers);
        let expected = right(&case);
        let is_starved = expected.0 == Err(Refusal::whole(13));
        match told(rule(&case)) == expected {
            true => Ok(is_starved),
            false => Err(()),
        }
    });
    refused.is_err()
}

/// The smallest programs, of up to so many nodes, for which the rule gives something else,
/// each with the first that it is lent then.
fn smallest(most_nodes: usize, rule: Rule) -> Vec<(Vec<u8>, Lent)> {
    let mut refused: Vec<(Vec<u8>, Lent)> = Vec::new();
    every_program(&deciding_in_runs(), most_nodes, |table, _| {
        let mut every = every_lent(table.len() / 2).into_iter();
        let first = every.find(|lent| is_refused(rule, &case_of(table, lent)));
        refused.extend(first.map(|lent| (table.to_vec(), lent)));
    });
    let least = refused.iter().map(|(table, _)| table.len()).min();
    refused.retain(|(table, _)| Some(table.len()) == least);
    refused
}

const PAUSE: [u8; 2] = [2, 0];

fn resumed(held: &[usize]) -> [(Vec<u8>, Lent); 1] {
    [(PAUSE.to_vec(), (Call::Resume, held.to_vec(), 128))]
}

/// Starts of each program of one node, over a state of ones.
fn started(length: usize) -> [(Vec<u8>, Lent); 2] {
    let lent = (Call::Start, (0..1024).collect(), length);
    [(vec![1, 0], lent.clone()), (PAUSE.to_vec(), lent)]
}

#[test]
fn no_sentence_refuses_the_right_rule() {
    assert_eq!(smallest(4, Case::run), []);
}

#[test]
fn the_highest_bit_first() {
    assert_eq!(smallest(2, highest_first), started(128)[1..]);
}

#[test]
fn bits_from_n_on_are_ignored() {
    assert_eq!(smallest(2, past_the_nodes_ignored), resumed(&[0, 1]));
}

#[test]
fn bytes_without_a_node_are_ignored() {
    assert_eq!(smallest(2, past_the_last_byte_ignored), resumed(&[0, 8]));
}

#[test]
fn old_bits_stay_where_a_pause_is_let_go() {
    assert_eq!(smallest(2, let_go_left), resumed(&[0]));
}

#[test]
fn bytes_without_a_node_are_not_written() {
    assert_eq!(smallest(2, bytes_of_nodes_written), started(128));
}

#[test]
fn check_3_by_the_nodes() {
    assert_eq!(smallest(2, bytes_of_nodes_suffice), started(127));
}

/// How many of the vectors of F-11 have another outcome than the rule.
fn refusing_vectors(rule: Rule) -> usize {
    let vectors = read_instants(&directory().join("packed_open.jsonl"));
    vectors
        .iter()
        .filter(|vector| !agrees(vector, rule))
        .count()
}

/// Whether the rule gives the answer, the state and the emissions that the vector has.
fn agrees(vector: &InstantVector, rule: Rule) -> bool {
    let random = &mut Random::new(SEED);
    let case = Case::new(random, vector.call, &vector.table, &vector.state);
    let outcome = rule(&case.answered(&vector.answers));
    match (&vector.outcome, outcome.answer) {
        (Ok(expected), Ok(closed)) => {
            let emits = |signal: &u8| outcome.emissions[usize::from(*signal)] == 1;
            closed == expected.closed
                && outcome.state == expected.after
                && (0..=255).filter(emits).eq(expected.emits.iter().copied())
        }
        (Err(expected), Err(refusal)) => refusal == *expected && outcome.state == vector.state,
        _ => false,
    }
}

#[test]
fn the_vectors_agree_with_the_right_rule() {
    assert_eq!(refusing_vectors(Case::run), 0);
}

#[test]
fn the_vectors_refuse_each_of_them() {
    let rules: [Rule; 6] = [
        highest_first,
        past_the_nodes_ignored,
        past_the_last_byte_ignored,
        let_go_left,
        bytes_of_nodes_written,
        bytes_of_nodes_suffice,
    ];
    let refusing = rules.map(refusing_vectors);
    assert_eq!(refusing, [429, 20, 14, 143, 187, 17]);
}
