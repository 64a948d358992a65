//! Writes tables, and the listings that are expected of them.
//!
//! Usage: `tables [--listing-vectors FILE].. [--tables-of FILE].. [--marks-of FILE]..
//! INPUT EXPECTED`
//!
//! INPUT holds the tables one after the other, each as its length in bytes
//! (2 bytes, little-endian) followed by that many bytes. EXPECTED holds the
//! listings or refusal lines of the tables in the same order, exactly as the
//! listing program prints them. First come the tables of the listing vectors, with
//! the texts of that file. Then, with texts of this implementation, come the
//! further tables of older vector files (whose texts, by an older rule, are not
//! looked at), those of runs (whose marks must be those of that file), the edges, and
//! random tables.

use std::collections::HashSet;
use std::path::Path;
use std::process::ExitCode;

use compare::checks::MOST_TRAPS;
use compare::support::damage::{bad_table, BAD_NUMBERS};
use compare::support::edges::edges;
use compare::support::files::{self, Files};
use compare::support::programs::{accepted, ladder, SHAPES};
use compare::support::random::Random;
use compare::support::vectors::{read_listings, read_runs, ListingVector, RunVector};
use compare::support::{arguments, hex, SEED};
use compare::{listing, Sets};

const ACCEPTED: usize = 250;
const LADDERS: [usize; 4] = [1, 2, 8, MOST_TRAPS];

fn main() -> ExitCode {
    files::exit_code("tables", write_files())
}

fn write_files() -> Result<(), String> {
    let arguments = arguments::read(["--listing-vectors", "--tables-of", "--marks-of"])?;
    let [vectors, tables_of, marks_of] = &arguments.options;
    println!("seed {SEED:#x}");
    let mut files = Files::default();
    let mut written = HashSet::new();
    for file in vectors {
        add_vectors(&mut files, file, &mut written)?;
    }
    for file in tables_of {
        add_tables_of(&mut files, file, &mut written);
    }
    for file in marks_of {
        add_marks_of(&mut files, file, &mut written)?;
    }
    add_edges(&mut files)?;
    add_random(&mut files);
    files.write("tables", &arguments)
}

fn add_vectors(
    files: &mut Files,
    file: &Path,
    written: &mut HashSet<Vec<u8>>,
) -> Result<(), String> {
    let vectors = read_listings(file);
    for (line, vector) in vectors.iter().enumerate() {
        let ours = listing(&vector.table);
        if ours != vector.listing {
            return Err(format!(
                "vector line {} disagrees\ntable {}\nvector:\n{}ours:\n{ours}",
                line + 1,
                hex::encode(&vector.table),
                vector.listing
            ));
        }
        files.add(&vector.table, &vector.listing);
    }
    println!("vectors {}, all agree", vectors.len());
    written.extend(vectors.into_iter().map(|vector| vector.table));
    Ok(())
}

fn add_tables_of(files: &mut Files, file: &Path, written: &mut HashSet<Vec<u8>>) {
    let mut further = 0;
    for ListingVector { table, .. } in read_listings(file) {
        further += add_further(files, table, written);
    }
    println!("further tables {further}");
}

fn add_marks_of(
    files: &mut Files,
    file: &Path,
    written: &mut HashSet<Vec<u8>>,
) -> Result<(), String> {
    let mut further = 0;
    for (line, RunVector { table, marks, .. }) in read_runs(file).into_iter().enumerate() {
        let ours = Sets::of(&table).map(|sets| sets.marks);
        if ours.as_ref() != Ok(&marks) {
            return Err(format!(
                "marks line {} disagree\ntable {}\nvector: {marks:?}\nours:   {ours:?}",
                line + 1,
                hex::encode(&table)
            ));
        }
        further += add_further(files, table, written);
    }
    println!("tables of runs {further}, all marks agree");
    Ok(())
}

/// Adds a table, unless it is there already, and hands back how many were added.
fn add_further(files: &mut Files, table: Vec<u8>, written: &mut HashSet<Vec<u8>>) -> usize {
    if written.contains(&table) {
        return 0;
    }
    files.add(&table, &listing(&table));
    written.insert(table);
    1
}

fn add_edges(files: &mut Files) -> Result<(), String> {
    let edges = edges();
    for edge in &edges {
        let text = listing(&edge.table);
        let as_expected = match edge.refusal {
            Some(refusal) => text == format!("refused {} {}\n", refusal.number, refusal.node),
            None => text.starts_with("ok "),
        };
        if !as_expected {
            return Err(format!("edge {} gives\n{text}", edge.name));
        }
        files.add(&edge.table, &text);
    }
    println!("edges {}", edges.len());
    Ok(())
}

fn add_random(files: &mut Files) {
    let random = &mut Random::new(SEED);
    for number in 0..ACCEPTED {
        let shape = &SHAPES[number % SHAPES.len()];
        let nodes = size(random, number / SHAPES.len());
        let table = accepted(random, shape, nodes);
        files.add(&table, &listing(&table));
    }
    println!("accepted programs {ACCEPTED}");
    for steps in LADDERS {
        let table = ladder(steps);
        files.add(&table, &listing(&table));
    }
    println!("ladders {}", LADDERS.len());
    for number in 0..BAD_NUMBERS {
        let table = bad_table(random, number);
        files.add(&table, &listing(&table));
    }
    println!("damaged tables {BAD_NUMBERS}");
}

/// One big table of each shape, then mostly small ones.
fn size(random: &mut Random, round: usize) -> usize {
    match round {
        0 => random.between(800, 1024),
        1..=2 => random.between(101, 250),
        3..=9 => random.between(31, 100),
        _ => random.between(1, 30),
    }
}
