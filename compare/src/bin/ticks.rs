//! Writes tables, and the lines that the program `tick` is expected to print for them.
//!
//! Usage: `ticks [--tick-vectors FILE].. INPUT EXPECTED`
//!
//! INPUT holds the tables one after the other, each as its length in bytes (2 bytes,
//! little-endian) followed by that many bytes. EXPECTED has one line a table: the node
//! of the refused loop and the answers with which its body ends, or else the first line
//! of the listing.
//!
//! ```text
//! NODE ANSWER ANSWER ..
//! ok NODES LOOPS BOUND
//! refused NUMBER NODE
//! ```
//!
//! First come the tables of the vectors, with the lines of that file. Then come the
//! edges and random tables; lines that are known beforehand are compared with those of
//! this implementation.

use std::path::Path;
use std::process::ExitCode;

use compare::support::files::{self, Files};
use compare::support::random::Random;
use compare::support::ticks::{even_trees, one_list, table, NUMBERS};
use compare::support::vectors::read_lines;
use compare::support::{edges, tick_edges, SEED};
use compare::tick_line;

/// How many of each size: of few nodes, of some, and about as many as are allowed.
const SIZES: [(usize, [usize; 2]); 3] = [
    (8 * NUMBERS, [2, 30]),
    (4 * NUMBERS, [31, 100]),
    (NUMBERS, [700, 1024]),
];
const EVEN_TREES: usize = 300;
const ONE_LIST: usize = 80;

fn main() -> ExitCode {
    files::generate("ticks", "tables", "--tick-vectors", add_vectors, |files| {
        add_edges(files)?;
        add_random(files)
    })
}

/// Adds a table whose line is known.
fn add_known(files: &mut Files, name: &str, table: &[u8], line: &str) -> Result<(), String> {
    files.add_known_line(name, table, line, &tick_line(table))
}

fn add_vectors(files: &mut Files, file: &Path) -> Result<(), String> {
    let vectors = read_lines(file);
    for (at, vector) in vectors.iter().enumerate() {
        let name = format!("vector line {}", at + 1);
        add_known(files, &name, &vector.table, &vector.line)?;
    }
    println!("vectors {}, all agree", vectors.len());
    Ok(())
}

/// The edges of F-2, then those of document 01.
fn add_edges(files: &mut Files) -> Result<(), String> {
    let before = files.count();
    for edge in tick_edges::edges() {
        let name = format!("edge {}", edge.name);
        add_known(files, &name, &edge.table, &edge.line)?;
    }
    for edge in edges::edges() {
        files.add(&edge.table, &tick_line(&edge.table));
    }
    println!("edges {}", files.count() - before);
    Ok(())
}

fn add_random(files: &mut Files) -> Result<(), String> {
    let random = &mut Random::new(SEED);
    for (count, [least, most]) in SIZES {
        for number in 0..count {
            let nodes = random.between(least, most);
            let table = table(random, number, nodes);
            files.add(&table, &tick_line(&table));
        }
        println!("tables of {least} to {most} nodes {count}");
    }
    for _ in 0..EVEN_TREES {
        let table = even_trees(random);
        files.add(&table, &tick_line(&table));
    }
    println!("trees of presents {EVEN_TREES}");
    for _ in 0..ONE_LIST {
        let most = *random.pick(&[20, 60, 200, 1024]);
        let nodes = random.between(2, most);
        let (table, list) = one_list(random, nodes);
        add_known(files, "one list", &table, &line(&table, &list))?;
    }
    println!("bodies that end with one list {ONE_LIST}");
    Ok(())
}

/// The line of a loop that is the whole table.
fn line(table: &[u8], list: &[u8]) -> String {
    let answers: String = list.iter().map(|answer| format!(" {answer}")).collect();
    format!("{}{answers}\n", table.len() / 2 - 1)
}
