//! Writes tables, and the lines that the program `first_tick` is expected to print for them.
//!
//! Usage: `plans [--plan-vectors FILE].. INPUT EXPECTED`
//!
//! INPUT holds the tables one after the other, each as its length in bytes (2 bytes,
//! little-endian) followed by that many bytes. EXPECTED has one line a table: the greatest
//! number of entries of a start, or the refusal.
//!
//! ```text
//! ENTRIES
//! refused NUMBER NODE
//! ```
//!
//! First come the tables of the vectors, with the lines of that file. Then come the edges
//! and random tables. Lines that are known beforehand are compared with those of this
//! implementation. The other programs are started with all lists of answers, if there are
//! few enough; and if not, with one that must reach the number.

use std::path::Path;
use std::process::ExitCode;

use compare::first_tick::reaching_list;
use compare::support::files::{self, Files};
use compare::support::plans::{choices, stages, table, through_traps, NUMBERS};
use compare::support::random::Random;
use compare::support::starts::{greatest_of_starts, Alone};
use compare::support::vectors::read_lines;
use compare::support::{edges, hex, plan_edges, SEED};
use compare::{first_tick_line, reaches, Sets};

/// How many of each size: of few nodes, of some, and about as many as are allowed.
const SIZES: [(usize, [usize; 2]); 3] = [
    (8 * NUMBERS, [2, 30]),
    (4 * NUMBERS, [31, 100]),
    (NUMBERS, [700, 1024]),
];
const CHOICES: usize = 300;
const STAGES: usize = 120;
const TRAPS: usize = 100;

/// A table with more lists of answers than these is not started with all of them.
const MOST_RUNS: usize = 2000;

fn main() -> ExitCode {
    files::generate("plans", "tables", "--plan-vectors", add_vectors, |files| {
        add_edges(files)?;
        add_random(files)
    })
}

/// Adds a table whose line is known.
fn add_known(files: &mut Files, name: &str, table: &[u8], line: &str) -> Result<(), String> {
    files.add_known_line(name, table, line, &first_tick_line(table))
}

/// Adds a table. Its number is found a second time by starts, if there are few enough.
fn add(files: &mut Files, table: &[u8]) -> Result<(), String> {
    let line = first_tick_line(table);
    if Sets::of(table).is_ok() {
        match Alone::whole(table).every_start(MOST_RUNS) {
            Some(starts) => {
                let by_starts = format!("{}\n", greatest_of_starts(&starts));
                return files.add_known_line("drawn table", table, &by_starts, &line);
            }
            None if !reaches(table, &reaching_list(table)) => {
                let table = hex::encode(table);
                return Err(format!(
                    "no answers reach the number\ntable {table}\n{line}"
                ));
            }
            None => {}
        }
    }
    files.add(table, &line);
    Ok(())
}

fn add_vectors(files: &mut Files, file: &Path) -> Result<(), String> {
    let vectors = read_lines(file);
    for (at, vector) in vectors.iter().enumerate() {
        let name = format!("vector line {}", at + 1);
        add_known(files, &name, &vector.table, &vector.line)?;
    }
    println!("vectors {}, all agree", vectors.len());
    Ok(())
}

/// The edges of F-10, then those of document 01.
fn add_edges(files: &mut Files) -> Result<(), String> {
    let before = files.count();
    for edge in plan_edges::edges() {
        let name = format!("edge {}", edge.name);
        add_known(files, &name, &edge.table, &edge.line)?;
    }
    for edge in edges::edges() {
        add(files, &edge.table)?;
    }
    println!("edges {}", files.count() - before);
    Ok(())
}

fn add_random(files: &mut Files) -> Result<(), String> {
    let random = &mut Random::new(SEED);
    for (count, [least, most]) in SIZES {
        for number in 0..count {
            let nodes = random.between(least, most);
            add(files, &table(random, number, nodes))?;
        }
        println!("tables of {least} to {most} nodes {count}");
    }
    for _ in 0..CHOICES {
        let nodes = random.between(6, 60);
        add(files, &choices(random, nodes))?;
    }
    println!("choices {CHOICES}");
    for _ in 0..STAGES {
        let nodes = random.between(40, 140);
        add(files, &stages(random, nodes))?;
    }
    println!("stages {STAGES}");
    for _ in 0..TRAPS {
        let traps = *random.pick(&[2, 5, 20, 61, 62]);
        add(files, &through_traps(random, traps))?;
    }
    println!("exits through traps {TRAPS}");
    Ok(())
}
