//! The analysis in two passes beside compare's: what is returned, every entry of every buffer and
//! the margins around them must agree, also where a table is refused.

use compare::checks::MOST_TRAPS;
use compare::support::damage::{bad_table, damaged, BAD_NUMBERS};
use compare::support::edges::{edges, LOCK};
use compare::support::programs::{accepted, balanced, ladder, longest_listing, SHAPES};
use compare::support::random::Random;
use compare::support::SEED;
use differential::tally::Tally;
use differential::trials::{Analysis, Trial};
use two_pass::TWO_PASS;

/// All kinds; levels 0, 1 and one whose code no set has room for; an unknown kind below and above
/// the known ones; a field that is not 0.
const LETTERS: [[u8; 2]; 16] = [
    [1, 0],
    [2, 0],
    [3, 255],
    [4, 0],
    [4, 1],
    [4, 255],
    [5, 3],
    [6, 3],
    [7, 3],
    [8, 0],
    [9, 0],
    [10, 0],
    [11, 0],
    [0, 0],
    [12, 0],
    [9, 1],
];

const MOST_NODES: usize = 4;

/// Around a small table these make its contexts other than empty.
const AROUND: [&[u8]; 2] = [&[2, 0, 9, 0, 8, 0], &[11, 0, 2, 0, 10, 0, 8, 0]];

/// Compares one call, and hands back what both sides return.
fn agreed(trial: &impl Trial) -> u32 {
    match Tally::new(TWO_PASS).compare(trial) {
        Ok(returned) => returned,
        Err(difference) => panic!("two-pass is \"ours\" here: {difference}"),
    }
}

/// With buffers of exactly the lengths needed, and with longer ones.
fn agreed_on(table: &[u8]) -> u32 {
    let returned = agreed(&Analysis::new(table));
    let longer = Analysis::with_lengths(table, [table.len() / 2 + 5; 4]);
    assert_eq!(agreed(&longer.with_answer(8)), returned);
    returned
}

#[test]
fn table_w_and_the_edges() {
    for edge in edges() {
        let expected = match edge.refusal {
            Some(refusal) => refusal.number + 256 * refusal.node as u32,
            None => 0,
        };
        assert_eq!(agreed_on(&edge.table), expected, "{}", edge.name);
    }
    assert_eq!(agreed_on(LOCK), 0);
}

#[test]
fn every_table_of_few_nodes() {
    let mut tables = 0;
    every_table_from(&mut Vec::new(), &mut |table| {
        tables += 1;
        agreed(&Analysis::new(table));
        for around in AROUND {
            agreed(&Analysis::new(&[table, around].concat()));
        }
    });
    assert_eq!(tables, 1 + 16 + 16 * 16 + 16 * 16 * 16 + 16 * 16 * 16 * 16);
}

/// The table itself, and all that begin with it.
fn every_table_from(table: &mut Vec<u8>, visit: &mut impl FnMut(&[u8])) {
    visit(table);
    if table.len() == 2 * MOST_NODES {
        return;
    }
    for letter in LETTERS {
        table.extend(letter);
        every_table_from(table, visit);
        table.truncate(table.len() - 2);
    }
}

#[test]
fn accepted_programs() {
    let random = &mut Random::new(SEED);
    for number in 0..900 {
        let most = *random.pick(&[40, 250, 1024]);
        let nodes = random.between(1, most);
        let table = accepted(random, &SHAPES[number % SHAPES.len()], nodes);
        assert_eq!(agreed_on(&table), 0);
    }
    for steps in 1..=MOST_TRAPS {
        assert_eq!(agreed_on(&ladder(steps)), 0);
    }
    assert_eq!(agreed_on(&longest_listing()), 0);
}

/// Whatever stands last, there are tables for each of the checks but 3.
#[test]
fn damaged_tables_by_every_number() {
    let random = &mut Random::new(SEED);
    let mut met = [0; 12];
    for number in 0..5000 {
        let table = bad_table(random, number % BAD_NUMBERS);
        met[agreed_on(&table) as usize % 256] += 1;
    }
    for number in 0..900 {
        let table = accepted(random, &SHAPES[number % SHAPES.len()], 1024);
        let table = damaged(random, &table);
        met[agreed_on(&table) as usize % 256] += 1;
    }
    met[3] = 1;
    assert!(met.iter().all(|&count| count > 0), "{met:?}");
}

/// More than a set, the depth or a stack is made for: what is counted until the refusal.
#[test]
fn tables_far_past_the_limits() {
    let leaves = [[2, 0], [4, 0], [4, 31], [4, 61], [4, 62], [4, 255]];
    for leaf in leaves {
        for node in [[5, 0], [8, 0], [11, 0]] {
            for times in [30, 61, 62, 63, 255, 1020] {
                let chain = [&leaf[..], &node.repeat(times)].concat();
                agreed_on(&chain);
                agreed_on(&[&chain[..], &[2, 0, 10, 0, 8, 0]].concat());
            }
        }
        for node in [[6, 0], [9, 0], [10, 0]] {
            let below = [&leaf.repeat(512)[..], &node.repeat(511)].concat();
            agreed_on(&below);
            agreed_on(&[&below[..], &[8, 0]].concat());
            agreed_on(&balanced(&leaf, 512, &node));
            agreed_on(&[&leaf[..], &[leaf, node].concat().repeat(511)].concat());
        }
        agreed_on(&leaf.repeat(1024));
    }
}

/// Each check covers the whole table before the next begins: faults of several kinds, in any order.
#[test]
fn several_faults_at_once() {
    let faults: [Vec<u8>; 4] = [
        [&[2, 0][..], &[7, 0].repeat(256)].concat(),
        [&[2, 0][..], &[11, 0].repeat(MOST_TRAPS + 1)].concat(),
        vec![4, 40],
        vec![1, 0, 8, 0],
    ];
    for subset in 1..1 << faults.len() {
        for turned in 0..faults.len() {
            let mut table = vec![2, 0];
            for at in 0..faults.len() {
                let fault = (at + turned) % faults.len();
                if subset >> fault & 1 == 1 {
                    table = [&table[..], &faults[fault], &[10, 0]].concat();
                }
            }
            let first = 8 + (subset as u32).trailing_zeros();
            assert_eq!(agreed_on(&table) % 256, first);
        }
    }
}

#[test]
fn lengths_of_buffers() {
    let random = &mut Random::new(SEED);
    let mut tables: Vec<Vec<u8>> = edges().into_iter().map(|edge| edge.table).collect();
    for number in 0..90 {
        let table = accepted(random, &SHAPES[number % SHAPES.len()], 30);
        tables.push(damaged(random, &table));
        tables.push(table);
    }
    for table in tables {
        one_length_changed(&table);
    }
}

fn one_length_changed(table: &[u8]) {
    let size = table.len() / 2;
    for other in [0, size.saturating_sub(1), size + 1] {
        for buffer in 0..4 {
            let mut lengths = [size; 4];
            lengths[buffer] = other;
            agreed(&Analysis::with_lengths(table, lengths));
        }
    }
    for answer_length in 0..6 {
        agreed(&Analysis::new(table).with_answer(answer_length));
    }
}
