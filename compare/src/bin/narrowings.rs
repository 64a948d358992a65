//! Writes tables with ties, and the narrowed start sets that are expected of them.
//!
//! Usage: `narrowings [--tied-vectors FILE].. INPUT EXPECTED`
//!
//! INPUT holds the cases one after the other. All numbers are 2 bytes, little-endian. A
//! case is
//!
//! | Bytes | Content |
//! |---|---|
//! | 2 | length T of the table, at most 2,060 |
//! | 2 | length B of the ties, at most 300 |
//! | 2 | number S of the lent sets, at most 1,100 |
//! | T | the table |
//! | B | the ties |
//!
//! Before each call word i of the lent sets is 2^64 - 1 - i.
//!
//! EXPECTED has one line a case: the number of nodes and their sets as decimal numbers, or
//! the refusal, and `=` as the words past the nodes, or after a refusal all of them, are as
//! they were.
//!
//! ```text
//! done NODES SET SET .. =
//! refused NUMBER NODE =
//! ```
//!
//! First come the cases of the vectors, with the outcomes of that file. Then come the
//! edges, whose lines are known beforehand too: those of F-8 by hand, and those of document
//! 01, with ties, by their refusals and by starts with all lists of answers, as the nested
//! signal statements after them. The others are random programs, damaged tables, buffers of
//! all lengths and wrong bytes.

use std::path::Path;
use std::process::ExitCode;

use compare::instant::SIGNALS;
use compare::support::damage::{bad_table, BAD_NUMBERS};
use compare::support::files::{self, Files};
use compare::support::narrowings::{line, Case, MOST_SETS, MOST_TABLE, MOST_TIES};
use compare::support::programs::ALL_SHAPES;
use compare::support::random::Random;
use compare::support::tied_starts::Tied;
use compare::support::ties::{
    any_ties, every_nesting, tied, tied_program, wrong_byte, ABSENT, PRESENT,
};
use compare::support::vectors::read_ties;
use compare::support::{edges, hex, narrow_edges, SEED};
use compare::Refusal;

/// How many of each size: of few nodes, of some, and about as many as are allowed.
const SIZES: [(usize, [usize; 2]); 3] = [
    (48 * ALL_SHAPES, [2, 30]),
    (14 * ALL_SHAPES, [31, 150]),
    (3 * ALL_SHAPES, [700, 1024]),
];
const LENGTHS: usize = 10 * ALL_SHAPES;
const WRONG_BYTES: usize = 15 * ALL_SHAPES;

/// Two tests of signal 9, one after the other.
const TESTS: &[u8] = &[1, 0, 2, 0, 6, 9, 2, 0, 1, 0, 6, 9, 9, 0];

fn main() -> ExitCode {
    files::generate(
        "narrowings",
        "cases",
        "--tied-vectors",
        add_vectors,
        |files| {
            let random = &mut Random::new(SEED);
            add_edges(files, random)?;
            add_nested(files)?;
            add_random(files, random);
            add_damaged(files, random);
            add_lengths(files, random);
            add_wrong_bytes(files, random);
            Ok(())
        },
    )
}

type Outcome = Result<Vec<u64>, Refusal>;

fn add(files: &mut Files, case: &Case) {
    files.add_encoded(&case.encode(), &line(&case.run()));
}

/// Adds a case whose outcome is known.
fn add_known(files: &mut Files, name: &str, case: &Case, outcome: &Outcome) -> Result<(), String> {
    let ours = case.run();
    if ours != *outcome {
        return Err(format!(
            "{name} disagrees\ntable {}\nties {}\nexpected: {}ours:     {}",
            hex::encode(&case.table),
            hex::encode(&case.ties),
            line(outcome),
            line(&ours)
        ));
    }
    files.add_encoded(&case.encode(), &line(outcome));
    Ok(())
}

/// The cases of the file, and some of them again with a set too few.
fn add_vectors(files: &mut Files, path: &Path) -> Result<(), String> {
    let vectors = read_ties(path);
    let mut shortened = 0;
    for (at, vector) in vectors.iter().enumerate() {
        let name = format!("vector line {}", at + 1);
        let case = Case::new(&vector.table, &vector.ties, at % 4);
        add_known(files, &name, &case, &vector.outcome)?;
        if at % 12 == 0 && !vector.table.is_empty() {
            let outcome = match vector.outcome {
                Err(refusal) if refusal.number < 3 => Err(refusal),
                _ => Err(Refusal::whole(3)),
            };
            let lent = vector.table.len().div_ceil(2) - 1;
            add_known(files, &name, &Case { lent, ..case }, &outcome)?;
            shortened += 1;
        }
    }
    println!(
        "vectors {}, all agree; with too few sets {shortened}",
        vectors.len()
    );
    Ok(())
}

/// The edges of F-8, then those of document 01.
fn add_edges(files: &mut Files, random: &mut Random) -> Result<(), String> {
    let before = files.count();
    for edge in narrow_edges::edges() {
        let name = format!("edge {}", edge.name);
        add_known(files, &name, &edge.case, &edge.outcome)?;
    }
    for (number, edge) in edges::edges().into_iter().enumerate() {
        let ties = any_ties(random, number);
        let outcome = match edge.refusal {
            Some(refusal) => Err(refusal),
            None => Ok(Tied::new(&edge.table, &ties).sets()),
        };
        let case = Case::new(&edge.table, &ties, number % 3);
        add_known(files, &format!("edge {}", edge.name), &case, &outcome)?;
    }
    println!("edges {}", files.count() - before);
    Ok(())
}

/// Tests with signal statements of their number around any of the nodes.
fn add_nested(files: &mut Files) -> Result<(), String> {
    let before = files.count();
    for table in every_nesting(TESTS, 9, 1) {
        for tie in [ABSENT, PRESENT] {
            let ties = tied(&[(9, tie)]);
            let outcome = Ok(Tied::new(&table, &ties).sets());
            add_known(files, "nested", &Case::new(&table, &ties, 0), &outcome)?;
        }
    }
    println!("nested signal statements {}", files.count() - before);
    Ok(())
}

fn add_random(files: &mut Files, random: &mut Random) {
    for (count, [least, most]) in SIZES {
        for number in 0..count {
            let nodes = random.between(least, most);
            let (table, ties) = tied_program(random, number, nodes);
            add(files, &Case::new(&table, &ties, random.below(3)));
        }
        println!("programs of {least} to {most} nodes {count}");
    }
}

/// Some of them with a wrong byte, which only tables that are accepted are refused for.
fn add_damaged(files: &mut Files, random: &mut Random) {
    for number in 0..BAD_NUMBERS {
        let mut table = bad_table(random, number);
        table.truncate(MOST_TABLE);
        let mut ties = any_ties(random, number);
        if random.one_in(3) {
            ties[random.below(SIGNALS)] = wrong_byte(random);
        }
        add(files, &Case::new(&table, &ties, random.below(3)));
    }
    println!("damaged tables {BAD_NUMBERS}");
}

/// Ties and sets that are too short, suffice exactly, and are longer.
fn add_lengths(files: &mut Files, random: &mut Random) {
    for number in 0..LENGTHS {
        let nodes = random.between(2, 40);
        let (table, mut ties) = tied_program(random, number, nodes);
        ties.resize(*random.pick(&[0, 1, 128, 255, 256, 256, 256, 257, 300]), 1);
        let nodes = table.len() / 2;
        let lent = *random.pick(&[0, nodes - 1, nodes, nodes, nodes + 1, MOST_SETS]);
        add(files, &Case { table, ties, lent });
    }
    println!("lengths of buffers {LENGTHS}");
}

/// At the ends of the ties and anywhere in them. Past them, where none is looked at, all
/// are wrong.
fn add_wrong_bytes(files: &mut Files, random: &mut Random) {
    for number in 0..WRONG_BYTES {
        let nodes = random.between(2, 40);
        let (table, mut ties) = tied_program(random, number, nodes);
        let place = match number % 6 {
            0 => Some(0),
            1 => Some(SIGNALS - 1),
            2 | 3 => Some(random.below(SIGNALS)),
            _ => None,
        };
        if let Some(place) = place {
            ties[place] = wrong_byte(random);
        }
        let length = *random.pick(&[SIGNALS, SIGNALS + 1, MOST_TIES]);
        ties.resize_with(length, || wrong_byte(random));
        add(files, &Case::new(&table, &ties, random.below(3)));
    }
    println!("wrong bytes {WRONG_BYTES}");
}
