//! Writes questions for nodes of tables, and the answers that are expected of them.
//!
//! Usage: `questions [--question-vectors FILE].. INPUT EXPECTED`
//!
//! INPUT holds the cases one after the other. All numbers are little-endian. A case is
//!
//! | Bytes | Content |
//! |---|---|
//! | 2 | length T of the table, at most 2,060 |
//! | 8 | the node |
//! | 8 | the code |
//! | T | the table |
//!
//! EXPECTED has one line a case: 1 if the code is in the node's start set, else 0, and the
//! number of nodes looked at; or the refusal.
//!
//! ```text
//! known ANSWER COUNT
//! refused NUMBER NODE
//! ```
//!
//! First come the cases of the vectors, with the outcomes of that file. Then come the edges,
//! whose lines are known beforehand too, and of some small programs every node with every
//! code from 0 to 64. The others are random programs and damaged tables. All answers are
//! compared with K of the analysis, and all counts with the nodes that the sentences of F-12
//! give, one by one.

use std::path::Path;
use std::process::ExitCode;

use compare::support::damage::{bad_table, BAD_NUMBERS};
use compare::support::edges::{W1, W7};
use compare::support::files::{self, Files};
use compare::support::programs::{accepted, any_shape, ALL_SHAPES};
use compare::support::questions::{any_question, every_question, line, Case, MOST_TABLE};
use compare::support::random::Random;
use compare::support::vectors::read_questions;
use compare::support::{hex, question_edges, SEED};
use compare::{Known, Refusal};

/// Programs of which everything is asked.
const EVERYTHING: [&[u8]; 10] = [
    W1,
    W7,
    &[1, 0, 7, 0],
    // An exit by three traps.
    &[4, 2, 11, 0, 11, 0, 11, 0],
    // A trap as then branch.
    &[2, 0, 11, 0, 1, 0, 6, 0],
    // Loops as both branches.
    &[2, 0, 8, 0, 2, 0, 8, 0, 6, 0, 5, 3],
    // A test beside a pause, in a trap.
    &[1, 0, 4, 0, 6, 0, 2, 0, 10, 0, 11, 0],
    // A loop that pauses or exits, in a trap, with an emit after it.
    &[2, 0, 4, 0, 6, 1, 8, 0, 11, 0, 3, 9, 9, 0],
    // A sequence as first and as second.
    &[1, 0, 2, 0, 9, 0, 1, 0, 2, 0, 9, 0, 9, 0],
    // A choice of an end and a pause before a choice of an exit and a pause, in two traps.
    &[1, 0, 2, 0, 6, 5, 4, 1, 2, 0, 6, 5, 9, 0, 11, 0, 11, 0],
];

/// How many of each size: of few nodes, of some, and about as many as are allowed.
const SIZES: [(usize, [usize; 2]); 3] = [
    (24 * ALL_SHAPES, [2, 30]),
    (6 * ALL_SHAPES, [31, 150]),
    (2 * ALL_SHAPES, [700, 1024]),
];

type Outcome = Result<Known, Refusal>;

fn main() -> ExitCode {
    files::generate(
        "questions",
        "cases",
        "--question-vectors",
        add_vectors,
        |files| {
            let random = &mut Random::new(SEED);
            add_edges(files)?;
            add_everything(files)?;
            add_random(files, random)?;
            add_damaged(files, random)
        },
    )
}

/// Adds a case with this outcome, if this implementation gives it, too, in both ways.
fn add_known(files: &mut Files, name: &str, case: &Case, outcome: &Outcome) -> Result<(), String> {
    let (ours, by_sentences) = (case.run(), case.by_sentences());
    if ours != *outcome || by_sentences != *outcome {
        return Err(format!(
            "{name} disagrees\ntable {}\nnode {}, code {}\n\
             expected: {}ours:     {}by nodes: {}",
            hex::encode(&case.table),
            case.node,
            case.code,
            line(outcome),
            line(&ours),
            line(&by_sentences)
        ));
    }
    files.add_encoded(&case.encode(), &line(outcome));
    Ok(())
}

/// Adds a case with the outcome that this implementation gives.
fn add(files: &mut Files, name: &str, case: &Case) -> Result<(), String> {
    add_known(files, name, case, &case.run())
}

fn add_vectors(files: &mut Files, path: &Path) -> Result<(), String> {
    let vectors = read_questions(path);
    for (at, vector) in vectors.iter().enumerate() {
        let name = format!("vector line {}", at + 1);
        add_known(files, &name, &vector.case, &vector.outcome)?;
    }
    println!("vectors {}, all agree", vectors.len());
    Ok(())
}

fn add_edges(files: &mut Files) -> Result<(), String> {
    let edges = question_edges::edges();
    for edge in &edges {
        add_known(files, &edge.name, &edge.case, &edge.outcome)?;
    }
    println!("edges {}", edges.len());
    Ok(())
}

fn add_everything(files: &mut Files) -> Result<(), String> {
    let before = files.count();
    for table in EVERYTHING {
        for (node, code) in every_question(table) {
            add(files, "a small program", &Case::new(table, node, code))?;
        }
    }
    println!(
        "nodes and codes of small programs {}",
        files.count() - before
    );
    Ok(())
}

fn add_random(files: &mut Files, random: &mut Random) -> Result<(), String> {
    for (count, [least, most]) in SIZES {
        for number in 0..count {
            let nodes = random.between(least, most);
            let table = accepted(random, any_shape(number), nodes);
            let (node, code) = any_question(random, &table);
            add(files, "a random program", &Case::new(&table, node, code))?;
        }
        println!("programs of {least} to {most} nodes {count}");
    }
    Ok(())
}

fn add_damaged(files: &mut Files, random: &mut Random) -> Result<(), String> {
    for number in 0..BAD_NUMBERS {
        let mut table = bad_table(random, number);
        table.truncate(MOST_TABLE);
        let (node, code) = any_question(random, &table);
        add(files, "a damaged table", &Case::new(&table, node, code))?;
    }
    println!("damaged tables {BAD_NUMBERS}");
    Ok(())
}
