//! The questions of F-12: the answers held against K of the analysis, and the nodes looked at
//! found a second time, each by itself and by the sentences of the request.

use std::collections::BTreeSet;

use compare::checks::{self, Program};
use compare::question::{has, reply, Looking};
use compare::support::damage::{bad_table, BAD_NUMBERS};
use compare::support::edges::edges as edges_of_01;
use compare::support::every::{deciding_in_runs, every_program, Letter};
use compare::support::plans::through_traps;
use compare::support::programs::{accepted, any_shape, longest_listing, ALL_SHAPES};
use compare::support::question_edges::edges;
use compare::support::questions::{any_question, is_looked_at, Case, CODES, HUGE};
use compare::support::random::Random;
use compare::support::starts::Alone;
use compare::support::vectors::{directory, read_questions};
use compare::support::SEED;
use compare::{ask, Known, Refusal, Sets};

fn program(table: &[u8]) -> Program {
    checks::accept(table, |_| true).expect("an accepted table")
}

/// The answer, and the nodes looked at.
fn asked(program: &Program, node: usize, code: u64) -> (bool, Vec<usize>) {
    let mut looking = Looking::new(&program.tree);
    let is_in = looking.ask(reply, node, code);
    (is_in, looking.nodes().collect())
}

/// How much was compared.
#[derive(Debug, Default)]
struct Counts {
    programs: usize,
    questions: usize,
    /// Where the code is in the set.
    found: usize,
    /// Where fewer nodes are looked at than the statement has.
    fewer: usize,
}

impl Counts {
    /// Every node with these codes.
    fn compare(&mut self, table: &[u8], codes: impl Iterator<Item = u64> + Clone) {
        let program = program(table);
        self.programs += 1;
        for node in 0..program.tree.size() {
            for code in codes.clone() {
                self.compare_one(&program, node, code);
            }
        }
    }

    fn compare_one(&mut self, program: &Program, node: usize, code: u64) {
        let (is_in, nodes) = asked(program, node, code);
        let question = || format!("{:?} {node} {code}", program.tree.statements);
        let set = program.start_sets[node];
        assert_eq!(is_in, code < 64 && has(set, code), "{}", question());
        let within = program.tree.lowest[node]..=node;
        let expected = within.clone();
        let expected = expected.filter(|&own| is_looked_at(program, node, code, own));
        assert!(expected.eq(nodes.iter().copied()), "{}", question());
        assert_eq!(nodes.contains(&node), code < 64, "{}", question());
        self.questions += 1;
        self.found += usize::from(is_in);
        self.fewer += usize::from(nodes.len() < within.count());
    }
}

#[test]
fn edges_have_their_answers() {
    let edges = edges();
    assert_eq!(edges.len(), 1191);
    for edge in edges {
        assert_eq!(edge.case.run(), edge.outcome, "{}", edge.name);
        assert_eq!(edge.case.by_sentences(), edge.outcome, "{}", edge.name);
    }
}

#[test]
fn every_node_and_code_of_small_programs() {
    let mut counts = Counts::default();
    every_program(&deciding_in_runs(), 6, |table, _| {
        counts.compare(table, CODES)
    });
    println!("{counts:?}");
    assert_eq!(counts.programs, 8_260);
}

/// With so few nodes the codes between them are alike.
const FIRST_AND_LAST: [u64; 8] = [0, 1, 2, 3, 4, 62, 63, 64];

#[test]
fn first_and_last_codes_of_programs_of_up_to_7_nodes() {
    let mut counts = Counts::default();
    every_program(&deciding_in_runs(), 7, |table, _| {
        counts.compare(table, FIRST_AND_LAST.into_iter());
    });
    println!("{counts:?}");
    assert_eq!(counts.programs, 56_654);
}

#[test]
fn programs_of_all_shapes() {
    let random = &mut Random::new(SEED);
    let mut counts = Counts::default();
    for number in 0..10 * ALL_SHAPES {
        let nodes = random.between(2, 60);
        counts.compare(&accepted(random, any_shape(number), nodes), CODES);
    }
    for traps in [1, 2, 3, 20, 40, 60, 61, 62, 62, 62] {
        counts.compare(&through_traps(random, traps), CODES);
    }
    println!("{counts:?}");
    assert!(counts.found > 10_000, "{counts:?}");
}

/// Of 700 to 1,024 nodes. The last of them is asked for every code, others at random.
#[test]
fn large_programs() {
    let random = &mut Random::new(SEED);
    let mut counts = Counts::default();
    let drawn = (0..4 * ALL_SHAPES).map(|number| {
        let nodes = random.between(700, 1024);
        accepted(random, any_shape(number), nodes)
    });
    let tables: Vec<Vec<u8>> = drawn.chain([longest_listing()]).collect();
    for table in tables {
        let program = program(&table);
        counts.programs += 1;
        for code in CODES {
            counts.compare_one(&program, program.tree.root(), code);
        }
        for _ in 0..300 {
            let (node, code) = (random.below(program.tree.size()), random.below(6));
            counts.compare_one(&program, node, code as u64);
        }
    }
    println!("{counts:?}");
    assert!(counts.found > 3_000, "{counts:?}");
}

#[test]
fn programs_of_the_vectors() {
    let vectors = read_questions(&directory().join("query_open.jsonl"));
    let tables: BTreeSet<Vec<u8>> = vectors
        .into_iter()
        .map(|vector| vector.case.table)
        .collect();
    let mut counts = Counts::default();
    for table in tables.iter().filter(|table| Sets::of(table).is_ok()) {
        counts.compare(table, FIRST_AND_LAST.into_iter());
    }
    println!("{counts:?}");
    assert!(counts.programs > 300, "{counts:?}");
}

/// The codes in the sets are those that starts with all lists of answers give.
#[test]
fn answers_by_starts() {
    every_program(&deciding_in_runs(), 5, |table, _| {
        for node in 0..table.len() / 2 {
            let starts = Alone::of(table, node).every_start(1000);
            let starts = starts.expect("few lists").into_iter();
            let codes: BTreeSet<u64> = starts.map(|(_, closed)| closed.code.into()).collect();
            let answers = CODES.filter(|&code| is_in(table, node, code));
            assert!(answers.eq(codes), "{table:?} {node}");
        }
    });
}

fn is_in(table: &[u8], node: usize, code: u64) -> bool {
    let known = ask(table, node as u64, code).expect("a node of an accepted table");
    known.is_in
}

/// Letters of all kinds, with other signals than those of the shared ones.
fn letters() -> Vec<Letter> {
    let others = [([3, 1], 0), ([5, 1], 1), ([6, 1], 2), ([7, 1], 1)];
    [deciding_in_runs(), others.to_vec()].concat()
}

/// All that can stand in the place of a node: with as many children.
fn of_same_arity(letters: &[Letter], kind: u8) -> Vec<[u8; 2]> {
    let arity = letters.iter().find(|(letter, _)| letter[0] == kind);
    let (_, children) = *arity.expect("a letter of each kind");
    let same = letters.iter().filter(|&&(_, own)| own == children);
    same.map(|&(letter, _)| letter).collect()
}

/// The table with another node in the place of one, if it is accepted.
fn changed(table: &[u8], node: usize, letter: [u8; 2]) -> Option<(Vec<u8>, Program)> {
    let mut other = table.to_vec();
    other[2 * node..2 * node + 2].copy_from_slice(&letter);
    let program = checks::accept(&other, |_| true).ok()?;
    Some((other, program))
}

/// With any other letter in the place of a node that is not looked at, the answer and the
/// nodes looked at are the same. Hands back how often that was tried.
fn try_others(table: &[u8], letters: &[Letter], node: usize, code: u64) -> usize {
    let program = program(table);
    let before = asked(&program, node, code);
    let mut tried = 0;
    for own in (0..program.tree.size()).filter(|own| !before.1.contains(own)) {
        for letter in of_same_arity(letters, table[2 * own]) {
            if let Some((other, program)) = changed(table, own, letter) {
                let after = asked(&program, node, code);
                assert_eq!(before, after, "{table:?} {other:?}: {node} {code}");
                tried += usize::from(other != table);
            }
        }
    }
    tried
}

#[test]
fn a_node_that_is_not_looked_at_makes_no_difference() {
    let letters = letters();
    let mut tried = 0;
    every_program(&letters, 4, |table, _| {
        for node in 0..table.len() / 2 {
            for code in FIRST_AND_LAST {
                tried += try_others(table, &letters, node, code);
            }
        }
    });
    println!("other nodes {tried}");
    assert!(tried > 150_000, "{tried}");
}

/// The same for larger programs, where all that is not looked at is drawn anew, one node
/// after the other.
#[test]
fn all_that_is_not_looked_at_makes_no_difference() {
    let random = &mut Random::new(SEED);
    let letters = letters();
    let mut drawn = 0;
    for number in 0..40 * ALL_SHAPES {
        let nodes = random.between(2, 60);
        let mut table = accepted(random, any_shape(number), nodes);
        let (node, code) = (random.below(table.len() / 2), random.below(4) as u64);
        let before = asked(&program(&table), node, code);
        for own in (0..table.len() / 2).filter(|own| !before.1.contains(own)) {
            let letter = *random.pick(&of_same_arity(&letters, table[2 * own]));
            if let Some((other, _)) = changed(&table, own, letter) {
                table = other;
                drawn += 1;
            }
        }
        assert_eq!(asked(&program(&table), node, code), before, "{table:?}");
    }
    println!("nodes drawn anew {drawn}");
    assert!(drawn > 5_000, "{drawn}");
}

/// Whatever is asked, the table's checks come first; then 21, and then the codes above 63.
#[test]
fn refusals_of_tables() {
    let random = &mut Random::new(SEED);
    let bad = (0..2 * BAD_NUMBERS).map(|number| bad_table(random, number % BAD_NUMBERS));
    let bad: Vec<Vec<u8>> = bad.collect();
    let edges = edges_of_01().into_iter().map(|edge| edge.table);
    let mut met = [0; 22];
    for table in bad.into_iter().chain(edges) {
        let size = table.len() as u64 / 2;
        let of_table = Sets::of(&table).err();
        for node in [0, size.saturating_sub(1), size, size + 1]
            .into_iter()
            .chain(HUGE)
        {
            for code in [0, 1, 63, 64, u64::MAX] {
                let outcome = ask(&table, node, code);
                let outside = (node >= size).then_some(Refusal::whole(21));
                assert_eq!(outcome.err(), of_table.or(outside), "{table:?} {node}");
                if let Ok(known) = outcome {
                    assert_eq!(known.count == 0, code > 63, "{table:?} {node}");
                }
                met[outcome.map_or_else(|refusal| refusal.number as usize, |_| 0)] += 1;
            }
        }
    }
    println!("refused by number, and 0 for answers: {met:?}");
    for number in [0, 1, 2, 4, 5, 6, 7, 8, 9, 10, 11, 21] {
        assert!(met[number] > 0, "{number}: {met:?}");
    }
}

/// No number loses its higher bits.
#[test]
fn huge_nodes_and_codes() {
    let random = &mut Random::new(SEED);
    for number in 0..ALL_SHAPES {
        let table = accepted(random, any_shape(number), 40);
        let size = table.len() as u64 / 2;
        for low in 0..70 {
            for high in [8, 16, 31, 32, 33, 48, 63].map(|bit| 1 << bit) {
                let none = Known {
                    is_in: false,
                    count: 0,
                };
                assert_eq!(ask(&table, low % size, high + low), Ok(none));
                let outside = Err(Refusal::whole(21));
                assert_eq!(ask(&table, high + low, low), outside);
            }
        }
    }
}

/// What the tests and the generator draw has answers and refusals of all sorts.
#[test]
fn questions_that_are_drawn() {
    let random = &mut Random::new(SEED);
    let (mut found, mut lacking, mut none, mut outside) = (0, 0, 0, 0);
    for number in 0..100 * ALL_SHAPES {
        let nodes = random.between(2, 60);
        let table = accepted(random, any_shape(number), nodes);
        let (node, code) = any_question(random, &table);
        let case = Case::new(&table, node, code);
        let outcome = case.run();
        assert_eq!(outcome, case.by_sentences(), "{case:?}");
        match outcome {
            Ok(Known { count: 0, .. }) => none += 1,
            Ok(known) if known.is_in => found += 1,
            Ok(_) => lacking += 1,
            Err(_) => outside += 1,
        }
    }
    let counts = [found, lacking, none, outside];
    println!("{counts:?}");
    assert!(counts.iter().all(|&count| count > 80), "{counts:?}");
}
