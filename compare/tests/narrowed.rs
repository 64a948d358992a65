//! Narrowed start sets, found a second time by starting each node alone at its place with
//! all lists of answers; and what F-8 says of them.

use std::convert::Infallible;
use std::thread;

use compare::checks::{self, Program};
use compare::held::STATE_BYTES;
use compare::instant::SIGNALS;
use compare::narrow::Answer;
use compare::support::answers::every_list;
use compare::support::every::{every_program, every_table, Letter};
use compare::support::programs::ALL_SHAPES;
use compare::support::random::Random;
use compare::support::tied_starts::Tied;
use compare::support::ties::{
    deciding, every_tie, tied_program, ABSENT, LETTERS, PRESENT, UNKNOWN,
};
use compare::support::wrong_ties::accepted_by_narrowed;
use compare::support::SEED;
use compare::table::{Statement, Tree};
use compare::{narrow, start_with_trail, Entry, Refusal, Sets};

/// Two signals are tested, and one of them has signal statements. An emit does as nothing
/// does.
fn letters() -> Vec<Letter> {
    let mut letters = LETTERS.to_vec();
    letters.retain(|(node, _)| ![[3, 0], [5, 1]].contains(node));
    letters
}

/// A program with more tests than this is not started with all lists.
const MOST_TESTS: usize = 9;

fn narrowed(table: &[u8], ties: &[u8]) -> Result<Vec<u64>, Refusal> {
    let mut sets = vec![0; table.len() / 2];
    let nodes = narrow(table, ties, &mut sets)?;
    assert_eq!(nodes, sets.len());
    Ok(sets)
}

/// How much was compared.
#[derive(Debug, Default)]
struct Counts {
    tables: usize,
    accepted: usize,
    /// Ways of tying that take a code from some set.
    narrower: usize,
    /// Ways of tying with which no body of a loop ends, though K refuses the table.
    refused_by_k_alone: usize,
}

impl Counts {
    /// Of all tables of up to so many nodes, with all ways to tie the two signals.
    fn of(letters: &[Letter], nodes: usize) -> Counts {
        let mut counts = Counts::default();
        let ways = every_tie(0, 1);
        every_table(letters, nodes, |table| counts.compare(table, &ways));
        println!("{counts:?}");
        counts
    }

    fn compare(&mut self, table: &[u8], ways: &[Vec<u8>]) {
        self.tables += 1;
        match Sets::of(table) {
            Ok(sets) => self.compare_accepted(table, &sets.start_sets, ways),
            Err(refusal) => {
                for ties in ways {
                    assert_eq!(narrowed(table, ties), Err(refusal), "{table:?} {ties:?}");
                    let by_narrowed = accepted_by_narrowed(table, ties);
                    self.refused_by_k_alone += usize::from(by_narrowed.is_ok());
                }
            }
        }
    }

    fn compare_accepted(&mut self, table: &[u8], start_sets: &[u64], ways: &[Vec<u8>]) {
        self.accepted += 1;
        let of_ways: Vec<Vec<u64>> = ways
            .iter()
            .map(|ties| self.compare_by_starts(table, start_sets, ties))
            .collect();
        assert_eq!(of_ways[0], start_sets, "{table:?}");
        for (way, sets) in of_ways.iter().enumerate() {
            // How far on in the ways the same are that tie one signal more.
            for (tie, more) in [(way / 3, 3), (way % 3, 1)] {
                if tie == 0 {
                    assert_no_code_more(sets, &of_ways[way + more]);
                    assert_no_code_more(sets, &of_ways[way + 2 * more]);
                }
            }
        }
    }

    fn compare_by_starts(&mut self, table: &[u8], start_sets: &[u64], ties: &[u8]) -> Vec<u64> {
        let sets = narrowed(table, ties).expect("acceptance is by K");
        assert_eq!(sets, Tied::new(table, ties).sets(), "{table:?} {ties:?}");
        assert!(!sets.contains(&0), "{table:?} {ties:?}");
        self.narrower += usize::from(sets != start_sets);
        sets
    }
}

fn assert_no_code_more(before: &[u64], after: &[u64]) {
    let mut pairs = before.iter().zip(after);
    let is_part = pairs.all(|(before, after)| after & !before == 0);
    assert!(is_part, "{before:?} {after:?}");
}

#[test]
fn all_small_tables() {
    let counts = Counts::of(&letters(), 6);
    assert_eq!((counts.tables, counts.accepted), (96_404, 22_517));
    assert!(counts.narrower > 30_000, "{counts:?}");
    assert_eq!(counts.refused_by_k_alone, 2_592);
}

/// Of the letters that tell where a tie holds: tests within, before and after signal
/// statements.
#[test]
fn all_small_tables_of_tests_and_signal_statements() {
    let counts = Counts::of(&deciding(&letters()), 8);
    assert_eq!((counts.tables, counts.accepted), (26_032, 26_032));
    assert!(counts.narrower > 50_000, "{counts:?}");
}

/// Whatever is tied to whatever, and then one signal more.
#[test]
fn random_programs() {
    let random = &mut Random::new(SEED);
    let mut counts = Counts::default();
    for number in 0..60 * ALL_SHAPES {
        let nodes = random.between(2, 40);
        let (table, mut ties) = tied_program(random, number, nodes);
        let tests = table.chunks_exact(2).filter(|node| node[0] == 6).count();
        if tests > MOST_TESTS {
            continue;
        }
        counts.tables += 1;
        counts.accepted += 1;
        let start_sets = Sets::of(&table).expect("an accepted table").start_sets;
        let sets = counts.compare_by_starts(&table, &start_sets, &ties);
        assert_eq!(narrowed(&table, &[0; SIGNALS]), Ok(start_sets));
        tie_one_more(random, &mut ties);
        assert_no_code_more(&sets, &narrowed(&table, &ties).expect("an accepted table"));
    }
    println!("{counts:?}");
    assert_eq!(counts.tables, 812);
    assert!(counts.narrower > 150, "{counts:?}");
}

fn tie_one_more(random: &mut Random, ties: &mut [u8]) {
    let mut unknown: Vec<&mut u8> = ties.iter_mut().filter(|tie| **tie == UNKNOWN).collect();
    if !unknown.is_empty() {
        let at = random.below(unknown.len());
        *unknown[at] = *random.pick(&[ABSENT, PRESENT]);
    }
}

/// Too large for all lists: the set is K of what is left of the program when each tied
/// test is replaced by the branch that it takes.
#[test]
fn large_programs() {
    let random = &mut Random::new(SEED);
    let (mut compared, mut narrower) = (0, 0);
    for number in 0..8 * ALL_SHAPES {
        let nodes = random.between(2, 1024);
        let (table, ties) = tied_program(random, number, nodes);
        let program = checks::accept(&table, |_| true).expect("an accepted table");
        let answers = Tied::new(&table, &ties).known_answers();
        let sets = narrowed(&table, &ties).expect("an accepted table");
        let root = program.tree.root();
        let some = (0..20).map(|_| random.below(root + 1));
        for node in some.chain([root]) {
            let expected = start_set_of_the_rest(&table, &program, &answers, node);
            assert_eq!(sets[node], expected, "{table:?} {ties:?} {node}");
            compared += 1;
            narrower += usize::from(expected != program.start_sets[node]);
        }
    }
    println!("nodes {compared}, narrower {narrower}");
    assert_eq!(compared, 2_352);
    assert!(narrower > 100, "{narrower}");
}

/// What is left is put within as many traps as are around the node.
fn start_set_of_the_rest(table: &[u8], program: &Program, answers: &[Answer], node: usize) -> u64 {
    let tree = &program.tree;
    let run = tree.lowest[node]..=node;
    let mut is_left = vec![true; node + 1];
    for test in run.clone() {
        let statement = tree.statements[test];
        if let (Statement::Present { then, otherwise }, Some(is_present)) =
            (statement, answers[test])
        {
            let cut_off = if is_present { otherwise } else { then };
            is_left[tree.lowest[cut_off]..=cut_off].fill(false);
            is_left[test] = false;
        }
    }
    let left = run.filter(|&at| is_left[at]);
    let mut rest: Vec<u8> = left
        .flat_map(|at| [table[2 * at], table[2 * at + 1]])
        .collect();
    let own = rest.len() / 2 - 1;
    rest.extend([11, 0].repeat(program.around.traps[node]));
    Sets::of(&rest).expect("an accepted table").start_sets[own]
}

/// Starts the program with all lists of answers by the instants of document 01, which know
/// no ties. Where the tied tests happen to get their answers, a start under ties must take
/// all other answers, no more, and give the same code. Handed back are these codes.
fn codes_where_tied(table: &[u8], ties: &[u8]) -> u64 {
    let program = checks::accept(table, |_| true).expect("an accepted table");
    let (root, under_ties) = (program.tree.root(), Tied::new(table, ties));
    let known = under_ties.known_answers();
    let mut codes = 0;
    let Ok(()) = every_list(|list| -> Result<bool, Infallible> {
        let (state, emissions) = (&mut [0; STATE_BYTES], &mut [0; SIGNALS]);
        let Ok((closed, trail)) = start_with_trail(table, list, state, emissions) else {
            return Ok(true);
        };
        if let Some(others) = others_where_tied(&program.tree, &known, &trail, list) {
            let expected = Some((closed.code as usize, others.len()));
            let started = under_ties.start(root, &others);
            assert_eq!(started, expected, "{table:?} {ties:?} {list:?}");
            codes |= 1 << closed.code;
        }
        Ok(false)
    });
    codes
}

/// The answers of the tests that are not tied, if the others got their known answers.
fn others_where_tied(
    tree: &Tree,
    known: &[Answer],
    trail: &[Entry],
    list: &[u8],
) -> Option<Vec<u8>> {
    let is_test = |entry: &&Entry| matches!(tree.statements[entry.node], Statement::Present { .. });
    let mut others = Vec::new();
    for (test, &answer) in trail.iter().filter(is_test).zip(list) {
        match known[test.node] {
            None => others.push(answer),
            Some(is_present) if is_present == (answer != 0) => {}
            Some(_) => return None,
        }
    }
    Some(others)
}

#[test]
fn starts_under_ties_are_starts_with_the_tied_answers() {
    let mut programs = 0;
    let ways = every_tie(0, 1);
    every_program(&letters(), 5, |table, _| {
        for ties in &ways {
            let sets = narrowed(table, ties).expect("an accepted table");
            let codes = codes_where_tied(table, ties);
            assert_eq!(sets.last(), Some(&codes), "{table:?} {ties:?}");
        }
        programs += 1;
    });
    println!("programs {programs}");
    assert!(programs > 2_000, "{programs}");
}

/// However deep a table is nested, a small stack suffices for it.
#[test]
fn a_thread_with_a_small_stack() {
    let deep = [&[1, 0, 2, 0, 6, 0][..], &[5, 0].repeat(254)].concat();
    let run = move || narrowed(&deep, &[PRESENT; SIGNALS]);
    let builder = thread::Builder::new().stack_size(64 * 1024);
    let sets = builder.spawn(run).expect("a thread").join();
    assert_eq!(sets.expect("no overflow").expect("accepted")[256], 3);
}
