//! Writes texts, and what is expected of a reader that is lent them.
//!
//! Usage: `texts [--text-vectors FILE].. INPUT EXPECTED`
//!
//! INPUT holds the texts one after the other, each as its length in bytes (2 bytes,
//! little-endian) followed by that many bytes. EXPECTED has one line a text: the
//! numbers of nodes and of signals and each byte of the table in decimal, or the
//! refusal and its place.
//!
//! ```text
//! ok NODES SIGNALS BYTE BYTE ..
//! refused NUMBER NODE PLACE
//! ```
//!
//! First come the texts of the vectors, but for most of the long ones. Each file must
//! agree in full, or with a reader from before F-9; the places, which it has not, are
//! those of this implementation. Then, with the outcomes of this implementation, come the
//! edges and random texts.

use std::collections::HashMap;
use std::path::Path;
use std::process::ExitCode;

use compare::support::files::{self, Files};
use compare::support::older_texts::outcome_before_f9;
use compare::support::printer::Printed;
use compare::support::random::Random;
use compare::support::text_edges::{self, edges};
use compare::support::texts::{damage_bytes, damage_tokens, printed, text, NUMBERS};
use compare::support::vectors::{read_texts, TextVector};
use compare::support::{hex, SEED};
use compare::text::{translate, Translated};
use compare::{Placed, Refusal};

/// Longer vectors are left out, but for the first few of each outcome in a file.
const LONGEST_VECTOR: usize = 3000;
const LONG_VECTORS: usize = 5;
/// Longer edges are left out, but for the deepest, so that the files stay small.
const LONGEST_EDGE: usize = 2500;
/// Longer random texts are left out, but for a few.
const LONGEST_RANDOM: usize = 400;
const LONG_RANDOM: usize = 6;
const RANDOM: usize = 540;

fn main() -> ExitCode {
    files::generate("texts", "texts", "--text-vectors", add_vectors, |files| {
        add_edges(files)?;
        add_random(files)
    })
}

type Outcome = Result<Translated, Placed>;

fn line(outcome: &Outcome) -> String {
    match outcome {
        Ok((table, signals)) => {
            let bytes: String = table.iter().map(|byte| format!(" {byte}")).collect();
            format!("ok {} {signals}{bytes}\n", table.len() / 2)
        }
        Err(Placed { refusal, place }) => {
            format!("refused {} {} {place}\n", refusal.number, refusal.node)
        }
    }
}

fn add_vectors(files: &mut Files, file: &Path) -> Result<(), String> {
    let vectors = read_texts(file);
    let before = files.count();
    let by = agreement(&vectors)?;
    let mut long: HashMap<u32, usize> = HashMap::new();
    for vector in &vectors {
        let outcome = translate(&vector.text);
        let number = outcome
            .as_ref()
            .map_or_else(|placed| placed.refusal.number, |_| 0);
        let is_long = vector.text.len() > LONGEST_VECTOR;
        let so_long = long.entry(number).or_default();
        *so_long += usize::from(is_long);
        if !is_long || *so_long <= LONG_VECTORS {
            files.add(&vector.text, &line(&outcome));
        }
    }
    let taken = files.count() - before;
    println!("vectors {}, all agree {by}, {taken} taken", vectors.len());
    Ok(())
}

/// By which request all vectors of a file agree.
fn agreement(vectors: &[TextVector]) -> Result<&'static str, String> {
    let by_f9 = |text: &[u8]| translate(text).map_err(|placed| placed.refusal);
    let Err(difference) = check_vectors(vectors, by_f9) else {
        return Ok("by F-9");
    };
    match check_vectors(vectors, outcome_before_f9) {
        Ok(()) => Ok("by F-1 alone"),
        Err(before) => Err(format!("by F-9, {difference}\nby F-1 alone, {before}")),
    }
}

fn check_vectors(
    vectors: &[TextVector],
    read: impl Fn(&[u8]) -> Result<Translated, Refusal>,
) -> Result<(), String> {
    for (at, vector) in vectors.iter().enumerate() {
        let ours = read(&vector.text);
        if ours != vector.outcome {
            return Err(format!(
                "vector line {} disagrees\ntext {}\nvector: {:?}\nours:   {ours:?}",
                at + 1,
                hex::encode(&vector.text),
                vector.outcome
            ));
        }
    }
    Ok(())
}

fn add_edges(files: &mut Files) -> Result<(), String> {
    let before = files.count();
    for edge in edges() {
        let outcome = translate(&edge.text);
        if !edge.is_met_by(&outcome) {
            return Err(format!("edge {} gives\n{}", edge.name, line(&outcome)));
        }
        if edge.text.len() <= LONGEST_EDGE || text_edges::DEEPEST.contains(&edge.name) {
            files.add(&edge.text, &line(&outcome));
        }
    }
    println!("edges {}", files.count() - before);
    Ok(())
}

/// Printed programs by turns as they are, with a token spoilt, and with a byte spoilt.
fn add_random(files: &mut Files) -> Result<(), String> {
    let random = &mut Random::new(SEED);
    let before = files.count();
    let mut long = 0;
    for number in 0.. {
        if files.count() - before == RANDOM {
            break;
        }
        // Another one of the three for a kind of program in each round.
        let way = (number + number / NUMBERS) % 3;
        let mut printed = printed(random, number % NUMBERS);
        if way == 1 {
            damage_tokens(random, &mut printed.tokens);
        }
        let mut text = text(random, &printed.tokens);
        if way == 2 {
            damage_bytes(random, &mut text);
        }
        let outcome = translate(&text);
        if way == 0 {
            check_printed(&printed, &text, &outcome)?;
        }
        long += usize::from(text.len() > LONGEST_RANDOM);
        if text.len() <= LONGEST_RANDOM || long <= LONG_RANDOM {
            files.add(&text, &line(&outcome));
        }
    }
    println!("random texts {RANDOM}");
    Ok(())
}

fn check_printed(printed: &Printed, text: &[u8], outcome: &Outcome) -> Result<(), String> {
    let expected = printed.outcome_of(text);
    if *outcome == expected {
        return Ok(());
    }
    Err(format!(
        "a printed program disagrees\ntext {}\nprinted: {}ours:    {}",
        hex::encode(text),
        line(&expected),
        line(outcome)
    ))
}
