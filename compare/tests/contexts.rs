//! Contexts and marks by the sentences of document 01, with F-5's in place of
//! its own for a parallel: each node goes up to the program by itself, and sets
//! are made code by code. Slow, and so for small tables only: all of them, and
//! again where exits have the last codes.

use std::collections::BTreeSet;

use compare::support::every::{every_table, DECIDING};
use compare::support::links::Links;
use compare::Sets;

const MOST_NODES: usize = 7;

/// What is put around smaller tables as well: the shape of F-5; and, in a branch,
/// a trap with a pause after it, so that code 1 brings in code 0.
const AROUND: [&[u8]; 2] = [
    &[2, 0, 4, 0, 9, 0, 10, 0, 11, 0, 8, 0],
    &[5, 0, 11, 0, 7, 0, 2, 0, 9, 0, 2, 0, 10, 0, 8, 0],
];

const MOST_NODES_WITHIN: usize = 5;

/// What is put around tables within 60 to 62 traps: a pause beside them, in a loop;
/// a loop; and a loop within one more trap.
const AROUND_TRAPS: [&[u8]; 3] = [&[2, 0, 10, 0, 8, 0], &[8, 0], &[8, 0, 11, 0]];

const MOST_NODES_WITHIN_TRAPS: usize = 4;

/// The exits in these tables go so many traps further out.
const FURTHER_OUT: u8 = 60;

type Codes = BTreeSet<usize>;

struct Program<'a> {
    table: &'a [u8],
    links: Links,
}

impl Program<'_> {
    /// Reads a table that is known to be accepted.
    fn new(table: &[u8]) -> Program<'_> {
        let links = Links::of(table);
        Program { table, links }
    }

    fn kind(&self, node: usize) -> u8 {
        self.table[2 * node]
    }

    fn traps_around(&self, node: usize) -> usize {
        match self.links.parents[node] {
            None => 0,
            Some(parent) => usize::from(self.kind(parent) == 11) + self.traps_around(parent),
        }
    }

    /// K, where a pause has code 1.
    fn start_set(&self, node: usize) -> Codes {
        self.codes(node, &[1])
    }

    /// A, where a pause has codes 0 and 1.
    fn any_set(&self, node: usize) -> Codes {
        self.codes(node, &[0, 1])
    }

    fn codes(&self, node: usize, pause: &[usize]) -> Codes {
        let children: Vec<Codes> = self.links.children[node]
            .iter()
            .map(|&child| self.codes(child, pause))
            .collect();
        match (self.kind(node), &children[..]) {
            (1 | 3, []) => Codes::from([0]),
            (2, []) => pause.iter().copied().collect(),
            (4, []) => Codes::from([2 + usize::from(self.table[2 * node + 1])]),
            (5 | 7, [body]) => body.clone(),
            (6, [then, otherwise]) => then | otherwise,
            (8, [body]) => without_0(body),
            (9, [first, second]) if first.contains(&0) => &without_0(first) | second,
            (9, [first, _]) => without_0(first),
            (10, [left, right]) => larger_ones(left, right),
            (11, [body]) => body.iter().map(|&code| out_of_trap(code)).collect(),
            other => panic!("no such statement: {other:?}"),
        }
    }

    /// S. The program has none; `outer` is P, the parent's.
    fn context(&self, node: usize) -> Codes {
        let Some(parent) = self.links.parents[node] else {
            return Codes::new();
        };
        let outer = self.context(parent);
        match (self.kind(parent), &self.links.children[parent][..]) {
            (5..=7, _) => outer,
            (8, _) => &outer | &Codes::from([0]),
            (9, &[first, second]) if node == first => {
                let meets = !self.start_set(second).is_disjoint(&outer);
                &without_0(&outer) | &Codes::from_iter(meets.then_some(0))
            }
            (9, &[first, _]) if self.start_set(first).contains(&0) => outer,
            (9, _) => Codes::new(),
            (10, _) if outer.is_empty() => Codes::new(),
            (10, _) => [0, 1]
                .into_iter()
                .chain(2..=1 + self.traps_around(node))
                .collect(),
            (11, _) => outer.iter().flat_map(|&code| into_trap(code)).collect(),
            other => panic!("no such parent: {other:?}"),
        }
    }
}

fn without_0(codes: &Codes) -> Codes {
    codes.iter().copied().filter(|&code| code != 0).collect()
}

fn larger_ones(left: &Codes, right: &Codes) -> Codes {
    let larger = |&one| right.iter().map(move |&other| other.max(one));
    left.iter().flat_map(larger).collect()
}

fn out_of_trap(code: usize) -> usize {
    match code {
        0 | 2 => 0,
        1 => 1,
        further_out => further_out - 1,
    }
}

/// The codes within a trap that leave it as this one.
fn into_trap(code: usize) -> Vec<usize> {
    match code {
        0 => vec![0, 2],
        1 => vec![1],
        further_out => vec![further_out + 1],
    }
}

/// How much was compared.
#[derive(Debug, Default)]
struct Counts {
    tables: usize,
    nodes: usize,
    marks: usize,
    /// Marked nodes whose A and S share code 1 alone: without F-5 they have none.
    by_code_1: usize,
    /// Nodes that have code 63, which is F-7's, in K and S.
    with_code_63: usize,
}

impl Counts {
    /// Compares the first nodes of a table, if it is accepted.
    fn compare(&mut self, table: &[u8], nodes: usize) {
        let Ok(sets) = Sets::of(table) else {
            return;
        };
        self.tables += 1;
        let program = Program::new(table);
        for node in 0..nodes {
            let (any_set, context) = (program.any_set(node), program.context(node));
            let common: Codes = &any_set & &context;
            let mark = u8::from(!common.is_empty());
            let start_set = program.start_set(node);
            assert_eq!(bits(&start_set), sets.start_sets[node], "{table:?}");
            assert_eq!(bits(&any_set), sets.any_sets[node], "{table:?}");
            assert_eq!(bits(&context), sets.contexts[node], "{table:?}");
            assert_eq!(mark, sets.marks[node], "{table:?}");
            self.nodes += 1;
            self.marks += usize::from(mark);
            self.by_code_1 += usize::from(common == Codes::from([1]));
            self.with_code_63 += usize::from(start_set.contains(&63) && context.contains(&63));
        }
    }
}

fn bits(codes: &Codes) -> u64 {
    codes.iter().map(|code| 1 << code).sum()
}

#[test]
fn contexts_and_marks_of_all_small_tables() {
    let mut counts = Counts::default();
    every_table(&DECIDING, MOST_NODES, |table| {
        let nodes = table.len() / 2;
        counts.compare(table, nodes);
        if nodes <= MOST_NODES_WITHIN {
            for around in AROUND {
                counts.compare(&[table, around].concat(), nodes + around.len() / 2);
            }
        }
    });
    println!("{counts:?}");
    assert!(counts.tables > 20_000, "{counts:?}");
    assert!(counts.by_code_1 > 1_000, "{counts:?}");
}

#[test]
fn contexts_and_marks_of_all_small_tables_within_62_traps() {
    let mut counts = Counts::default();
    every_table(&DECIDING, MOST_NODES_WITHIN_TRAPS, |table| {
        let table = exits_further_out(table);
        for traps in 60..=62 {
            for around in AROUND_TRAPS {
                let within = [&table[..], &[11, 0].repeat(traps), around].concat();
                // Of what is around these nodes S is the same in all the tables; K and A
                // of the traps are in tests/deep_traps.rs and in the vector files.
                counts.compare(&within, table.len() / 2);
            }
        }
    });
    println!("{counts:?}");
    assert!(counts.tables > 900, "{counts:?}");
    assert!(counts.with_code_63 > 300, "{counts:?}");
}

fn exits_further_out(table: &[u8]) -> Vec<u8> {
    let mut table = table.to_vec();
    for node in table.chunks_exact_mut(2) {
        if node[0] == 4 {
            node[1] += FURTHER_OUT;
        }
    }
    table
}
