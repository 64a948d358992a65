//! Writes nodes of tables to try, and the start sets that are expected of them.
//!
//! Usage: `trials [--trial-vectors FILE].. INPUT EXPECTED`
//!
//! INPUT holds the cases one after the other. All numbers are little-endian. A case is
//!
//! | Bytes | Content |
//! |---|---|
//! | 2 | length T of the table, at most 2,060 |
//! | 8 | the node |
//! | T | the table |
//!
//! EXPECTED has one line a case: the set of the codes that the starts of the node give, as a
//! decimal number with bit k for code k, and the number of presents in the node; or the
//! refusal.
//!
//! ```text
//! tried SET PRESENTS
//! refused NUMBER NODE
//! ```
//!
//! First come the cases of the vectors, with the sets and refusals of that file. Then come the
//! edges, whose lines are known beforehand too, and every node of all small programs; for some
//! lists of answers the program in which this one alone gives a code; random programs, some of
//! which have just as many presents as can be tried, so that all of a large one is started; and
//! damaged tables. All sets are compared with K of the analysis, which takes no part in the
//! trial.

use std::path::Path;
use std::process::ExitCode;

use compare::by_trial::LISTS;
use compare::support::damage::{bad_table, BAD_NUMBERS};
use compare::support::every::{deciding_in_runs, every_program};
use compare::support::files::{self, Files};
use compare::support::plans::through_traps;
use compare::support::programs::{accepted, any_shape, ALL_SHAPES};
use compare::support::questions::MOST_TABLE;
use compare::support::random::Random;
use compare::support::tried::{any_node, every_node, line, pause_by, with_few_presents, Case};
use compare::support::vectors::read_tried;
use compare::support::{hex, tried_edges, SEED};
use compare::{Refusal, Tried};

/// Of all programs of up to so many nodes every node is tried.
const SMALL_NODES: usize = 4;

/// How many of each size: of few nodes, of some, and about as many as are allowed.
const SIZES: [(usize, [usize; 2]); 3] = [
    (24 * ALL_SHAPES, [2, 30]),
    (9 * ALL_SHAPES, [31, 150]),
    (2 * ALL_SHAPES, [700, 1024]),
];

/// The same of programs with few presents. A start of a large one takes long.
const FEW_PRESENTS: [(usize, [usize; 2]); 2] =
    [(9 * ALL_SHAPES, [31, 150]), (2 * ALL_SHAPES, [700, 1024])];

type Outcome = Result<Tried, Refusal>;

fn main() -> ExitCode {
    files::generate("trials", "cases", "--trial-vectors", add_vectors, |files| {
        let random = &mut Random::new(SEED);
        add_edges(files)?;
        add_small(files)?;
        add_lists(files)?;
        add_random(files, random)?;
        add_few_presents(files, random)?;
        add_traps(files, random)?;
        add_damaged(files, random)
    })
}

/// Adds a case with this outcome, if this implementation gives it, too, and by K as well.
fn add_known(files: &mut Files, name: &str, case: &Case, outcome: &Outcome) -> Result<(), String> {
    let (ours, by_start_sets) = (case.run(), case.by_start_sets());
    if ours != *outcome || by_start_sets != *outcome {
        return Err(format!(
            "{name} disagrees\ntable {}\nnode {}\n\
             expected: {}ours:     {}by K:     {}",
            hex::encode(&case.table),
            case.node,
            line(outcome),
            line(&ours),
            line(&by_start_sets)
        ));
    }
    files.add_encoded(&case.encode(), &line(outcome));
    Ok(())
}

/// Adds a case with the outcome that this implementation gives.
fn add(files: &mut Files, name: &str, case: &Case) -> Result<(), String> {
    add_known(files, name, case, &case.run())
}

/// The vectors have no number of presents.
fn add_vectors(files: &mut Files, path: &Path) -> Result<(), String> {
    let vectors = read_tried(path);
    for (at, vector) in vectors.iter().enumerate() {
        let name = format!("vector line {}", at + 1);
        let counted = vector.case.run().map_or(0, |tried| tried.presents);
        let outcome = vector.outcome.map(|set| Tried {
            set,
            presents: counted,
        });
        add_known(files, &name, &vector.case, &outcome)?;
    }
    println!("vectors {}, all agree", vectors.len());
    Ok(())
}

fn add_edges(files: &mut Files) -> Result<(), String> {
    let edges = tried_edges::edges();
    for edge in &edges {
        add_known(files, &edge.name, &edge.case, &edge.outcome)?;
    }
    println!("edges {}", edges.len());
    Ok(())
}

fn add_small(files: &mut Files) -> Result<(), String> {
    let before = files.count();
    let mut tables: Vec<Vec<u8>> = Vec::new();
    every_program(&deciding_in_runs(), SMALL_NODES, |table, _| {
        tables.push(table.to_vec());
    });
    for table in tables {
        for node in every_node(&table) {
            add(files, "a small program", &Case::new(&table, node))?;
        }
    }
    println!("nodes of small programs {}", files.count() - before);
    Ok(())
}

/// One of so many lists.
const LISTS_APART: usize = 65;

fn add_lists(files: &mut Files) -> Result<(), String> {
    let before = files.count();
    for list in LISTS.iter().step_by(LISTS_APART) {
        add(files, "one list alone", &Case::whole(&pause_by(list)))?;
    }
    println!("lists that alone give a code {}", files.count() - before);
    Ok(())
}

fn add_random(files: &mut Files, random: &mut Random) -> Result<(), String> {
    for (count, [least, most]) in SIZES {
        for number in 0..count {
            let nodes = random.between(least, most);
            let table = accepted(random, any_shape(number), nodes);
            let node = any_node(random, &table);
            add(files, "a random program", &Case::new(&table, node))?;
        }
        println!("programs of {least} to {most} nodes {count}");
    }
    Ok(())
}

/// The programs themselves, with 9 to 13 presents where there were more.
fn add_few_presents(files: &mut Files, random: &mut Random) -> Result<(), String> {
    for (count, [least, most]) in FEW_PRESENTS {
        for number in 0..count {
            let nodes = random.between(least, most);
            let table = accepted(random, any_shape(number), nodes);
            let presents = random.between(9, 13);
            let table = with_few_presents(random, &table, presents);
            add(files, "a program of few presents", &Case::whole(&table))?;
        }
        println!("programs of {least} to {most} nodes and few presents {count}");
    }
    Ok(())
}

fn add_traps(files: &mut Files, random: &mut Random) -> Result<(), String> {
    let traps = (2..=62).step_by(2);
    let count = traps.clone().count();
    for traps in traps {
        let table = through_traps(random, traps);
        let table = with_few_presents(random, &table, 12);
        add(
            files,
            "exits through traps",
            &Case::new(&table, any_node(random, &table)),
        )?;
    }
    println!("exits through up to 62 traps {count}");
    Ok(())
}

fn add_damaged(files: &mut Files, random: &mut Random) -> Result<(), String> {
    for number in 0..BAD_NUMBERS {
        let mut table = bad_table(random, number);
        table.truncate(MOST_TABLE);
        let node = random.below(table.len() / 2 + 2) as u64;
        add(files, "a damaged table", &Case::new(&table, node))?;
    }
    println!("damaged tables {BAD_NUMBERS}");
    Ok(())
}
