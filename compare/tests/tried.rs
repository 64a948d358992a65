//! Start sets by trial, F-13: the sets that the starts give held against K of the analysis,
//! and the starts against those that the program within its traps has.

use std::collections::BTreeSet;

use compare::by_trial::{gathered, presents_within, ANSWERS, LISTS};
use compare::checks::{self, Program};
use compare::instant::start_alone;
use compare::support::damage::{bad_table, BAD_NUMBERS};
use compare::support::edges::edges as edges_of_01;
use compare::support::every::{deciding_in_runs, every_program};
use compare::support::plans::through_traps;
use compare::support::programs::{accepted, any_shape, ALL_SHAPES};
use compare::support::questions::HUGE;
use compare::support::random::Random;
use compare::support::starts::Alone;
use compare::support::tried::{any_node, every_node, pause_by, with_few_presents, Case};
use compare::support::tried_edges::edges;
use compare::support::SEED;
use compare::{trial, Refusal, Sets, Tried};

fn program(table: &[u8]) -> Program {
    checks::accept(table, |_| true).expect("an accepted table")
}

/// How much was compared.
#[derive(Debug, Default)]
struct Counts {
    programs: usize,
    /// Nodes that were tried.
    tried: usize,
    /// Those of them with 12 presents.
    with_12: usize,
    /// Nodes with too many.
    refused: usize,
    /// Of all sets together.
    codes: u32,
}

impl Counts {
    fn compare(&mut self, table: &[u8], nodes: impl Iterator<Item = u64>) {
        self.programs += 1;
        nodes.for_each(|node| self.compare_one(&Case::new(table, node)));
    }

    fn compare_one(&mut self, case: &Case) {
        let outcome = case.run();
        assert_eq!(outcome, case.by_start_sets(), "{case:?}");
        match outcome {
            Ok(Tried { set, presents }) => {
                self.tried += 1;
                self.with_12 += usize::from(presents == ANSWERS);
                self.codes += set.count_ones();
            }
            Err(refusal) => {
                assert_eq!(refusal, Refusal::whole(22), "{case:?}");
                self.refused += 1;
            }
        }
    }
}

#[test]
fn edges_have_their_sets() {
    let edges = edges();
    assert_eq!(edges.len(), 594);
    for edge in edges {
        assert_eq!(edge.case.run(), edge.outcome, "{}", edge.name);
        assert_eq!(edge.case.by_start_sets(), edge.outcome, "{}", edge.name);
    }
}

/// The codes are also those of the starts with all lists that are taken in full, none of which
/// has more answers than there are presents.
#[test]
fn every_node_of_small_programs() {
    let mut counts = Counts::default();
    let mut lists = 0;
    every_program(&deciding_in_runs(), 5, |table, _| {
        counts.compare(table, every_node(table));
        for node in 0..table.len() / 2 {
            let starts = Alone::of(table, node).every_start(1000);
            let starts = starts.expect("few lists");
            let codes = starts.iter().map(|(_, closed)| closed.code);
            let case = Case::new(table, node as u64);
            let tried = case.by_start_sets().expect("few presents");
            assert_eq!(tried.set, gathered(codes), "{case:?}");
            let longest = starts.iter().map(|(list, _)| list.len()).max();
            assert!(longest <= Some(tried.presents), "{case:?}");
            lists += starts.len();
        }
    });
    println!("{counts:?}, lists {lists}");
    assert_eq!(counts.programs, 1_269);
}

#[test]
fn all_programs_of_up_to_6_nodes() {
    let mut counts = Counts::default();
    every_program(&deciding_in_runs(), 6, |table, _| {
        counts.compare(table, [table.len() as u64 / 2 - 1].into_iter());
    });
    println!("{counts:?}");
    assert_eq!(counts.programs, 8_260);
}

#[test]
fn every_node_of_programs_of_all_shapes() {
    let random = &mut Random::new(SEED);
    let mut counts = Counts::default();
    for number in 0..5 * ALL_SHAPES {
        let nodes = random.between(2, 60);
        let table = accepted(random, any_shape(number), nodes);
        counts.compare(&table, every_node(&table));
    }
    for traps in [1, 2, 3, 40, 62] {
        let table = through_traps(random, traps);
        counts.compare(&table, every_node(&table));
    }
    println!("{counts:?}");
    assert!(counts.with_12 > 5 && counts.refused > 200, "{counts:?}");
}

/// All of them, where they have few presents, and some of their nodes as they are.
#[test]
fn large_programs() {
    let random = &mut Random::new(SEED);
    let mut counts = Counts::default();
    for number in 0..ALL_SHAPES {
        let nodes = random.between(700, 1024);
        let table = accepted(random, any_shape(number), nodes);
        let drawn: Vec<u64> = (0..10).map(|_| any_node(random, &table)).collect();
        let size = table.len() as u64 / 2;
        counts.compare(&table, drawn.into_iter().filter(|&node| node < size));
        let presents = random.between(9, ANSWERS);
        counts.compare_one(&Case::whole(&with_few_presents(random, &table, presents)));
    }
    println!("{counts:?}");
    assert!(counts.with_12 > 10 && counts.refused > 10, "{counts:?}");
}

/// With each list by itself, the code is that of the statement within its traps, started as a
/// program is; and it takes no more answers than there are presents.
#[test]
fn each_start_by_itself() {
    let random = &mut Random::new(SEED);
    let mut starts = 0;
    for number in 0..ALL_SHAPES {
        let nodes = random.between(10, 40);
        let table = accepted(random, any_shape(number), nodes);
        let table = with_few_presents(random, &table, ANSWERS);
        let node = random.below(table.len() / 2);
        let tree = program(&table).tree;
        let (alone, presents) = (Alone::of(&table, node), presents_within(&tree, node));
        for list in &LISTS {
            let closed = alone.start(list).expect("enough answers");
            assert_eq!(start_alone(&tree, node, list), Ok(closed.code), "{table:?}");
            assert!(closed.taken <= presents, "{table:?} {node}");
            starts += 1;
        }
    }
    println!("starts {starts}");
}

/// Lists of 13 answers, and of as many as there are presents, give the same codes.
#[test]
fn longer_and_shorter_lists() {
    let random = &mut Random::new(SEED);
    for number in 0..2 * ALL_SHAPES {
        let nodes = random.between(10, 60);
        let table = accepted(random, any_shape(number), nodes);
        let table = with_few_presents(random, &table, ANSWERS);
        let node = random.below(table.len() / 2);
        let Tried { set, presents } = trial(&table, node as u64).expect("few presents");
        let tree = program(&table).tree;
        let code = |list: &[u8]| start_alone(&tree, node, list).expect("enough answers");
        let longer = LISTS.iter().flat_map(|list| {
            let more = |answer| code(&[&list[..], &[answer]].concat());
            [0, 1].map(more)
        });
        assert_eq!(gathered(longer), set, "{table:?} {node}");
        let shorter = LISTS.iter().map(|list| code(&list[..presents]));
        assert_eq!(gathered(shorter), set, "{table:?} {node}");
    }
}

#[test]
fn all_lists_are_there() {
    let lists: BTreeSet<[u8; ANSWERS]> = LISTS.into();
    assert_eq!(lists.len(), 4_096);
    assert!(lists.iter().flatten().all(|&answer| answer <= 1));
}

/// For each list there is a program in which it alone gives code 1.
#[test]
fn each_list_is_tried() {
    for list in &LISTS {
        let case = Case::whole(&pause_by(list));
        let tried = Tried {
            set: 0b11,
            presents: ANSWERS,
        };
        assert_eq!(case.run(), Ok(tried), "{list:?}");
    }
    for list in LISTS.iter().step_by(151) {
        let starts = Alone::whole(&pause_by(list)).every_start(100);
        let starts = starts.expect("few lists").into_iter();
        let pausing: Vec<Vec<u8>> = starts
            .filter(|(_, closed)| closed.code == 1)
            .map(|(taken, _)| taken)
            .collect();
        assert_eq!(pausing, [list]);
    }
}

/// The table's checks come first, then 21, and then 22.
#[test]
fn refusals_of_tables() {
    let random = &mut Random::new(SEED);
    let bad = (0..2 * BAD_NUMBERS).map(|number| bad_table(random, number % BAD_NUMBERS));
    let bad: Vec<Vec<u8>> = bad.collect();
    let of_01 = edges_of_01().into_iter().map(|edge| edge.table);
    let edges = edges().into_iter().map(|edge| edge.case.table);
    let tables: BTreeSet<Vec<u8>> = bad.into_iter().chain(of_01).chain(edges).collect();
    let mut met = [0; 23];
    for table in tables {
        let size = table.len() as u64 / 2;
        let of_table = Sets::of(&table).err();
        let near = [0, size.saturating_sub(1), size, size + 1];
        for node in near.into_iter().chain(HUGE) {
            let case = Case::new(&table, node);
            let outcome = case.run();
            assert_eq!(outcome, case.by_start_sets(), "{case:?}");
            let outside = (node >= size).then_some(Refusal::whole(21));
            if let Some(refusal) = of_table.or(outside) {
                assert_eq!(outcome, Err(refusal), "{case:?}");
            }
            met[outcome.map_or_else(|refusal| refusal.number as usize, |_| 0)] += 1;
        }
    }
    println!("refused by number, and 0 for sets: {met:?}");
    for number in [0, 1, 2, 4, 5, 6, 7, 8, 9, 10, 11, 21, 22] {
        assert!(met[number] > 0, "{number}: {met:?}");
    }
}

/// No node loses its higher bits.
#[test]
fn huge_nodes() {
    let random = &mut Random::new(SEED);
    for number in 0..ALL_SHAPES {
        let table = accepted(random, any_shape(number), 40);
        for low in 0..40 {
            for high in [8, 16, 31, 32, 33, 48, 63].map(|bit| 1 << bit) {
                assert_eq!(trial(&table, high + low), Err(Refusal::whole(21)));
            }
        }
    }
}

/// What the tests and the generator draw has sets and refusals of all sorts.
#[test]
fn nodes_that_are_drawn() {
    let random = &mut Random::new(SEED);
    let (mut without, mut few, mut many, mut too_many, mut outside) = (0, 0, 0, 0, 0);
    for number in 0..40 * ALL_SHAPES {
        let nodes = random.between(2, 150);
        let table = accepted(random, any_shape(number), nodes);
        let case = Case::new(&table, any_node(random, &table));
        let outcome = case.run();
        assert_eq!(outcome, case.by_start_sets(), "{case:?}");
        match outcome {
            Ok(Tried { presents: 0, .. }) => without += 1,
            Ok(tried) if tried.presents < 8 => few += 1,
            Ok(_) => many += 1,
            Err(Refusal { number: 22, .. }) => too_many += 1,
            Err(_) => outside += 1,
        }
    }
    let counts = [without, few, many, too_many, outside];
    println!("{counts:?}");
    assert!(counts.iter().all(|&count| count > 20), "{counts:?}");
}
