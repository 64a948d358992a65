//! Writes files of blocks with calls on them, and the outcomes that are expected.
//!
//! Usage: `partitions [--block-vectors FILE].. INPUT EXPECTED`
//!
//! INPUT holds the files one after the other. All numbers of 2 bytes are little-endian.
//! A file is
//!
//! | Bytes | Content |
//! |---|---|
//! | 2 | length F of the file |
//! | 2 | number C of calls |
//! | F | the file |
//! | 8 C | the calls |
//!
//! and a call is
//!
//! | Bytes | Content |
//! |---|---|
//! | 1 | the call: 0 fetch, 1 part |
//! | 2 | program |
//! | 2 | edition; 0 for fetch |
//! | 1 | part; 0 for fetch |
//! | 2 | length of the lent table, at most 4,096; 0 for part |
//!
//! Before each fetch byte i of the lent table is (program % 256 + i) % 256.
//!
//! EXPECTED has one line a call: of a fetch the length of the table, the edition, the
//! number of parts and the table in hexadecimal, or the refusal, and `=` as the bytes past
//! the table, or after a refusal all of them, are as they were; of a part the place where
//! it begins in the file, its length and content, with `-` for an empty one.
//!
//! ```text
//! done LENGTH EDITION PARTS HEX =
//! refused NUMBER NODE =
//! part FROM LENGTH HEX
//! part 0 0 -
//! ```
//!
//! First come the calls of the vectors, with the outcomes of that file; the editions and
//! places, which it does not have, are by this implementation. Then come the edges, whose
//! lines are known beforehand too, damaged blocks and random files.

use std::path::Path;
use std::process::ExitCode;

use compare::blocks::{BLOCK, CONTENT};
use compare::support::block_calls::{
    calls_on, done_line, encode, part_line, refused_line, Call, LENT,
};
use compare::support::block_edges::{edges, LONGEST};
use compare::support::block_files::{other_bytes, to_damage};
use compare::support::blocks::{sealed, with_byte, Bytes, CONTENT_AT, PROGRAM};
use compare::support::calls::place;
use compare::support::files::{self, Files};
use compare::support::partitions::{partition, WAY_NUMBERS};
use compare::support::random::Random;
use compare::support::vectors::{read_blocks, BlockOutcome, BlockVector};
use compare::support::{hex, SEED};
use compare::table::MOST_BYTES;
use compare::{fetch, part};

/// Longer edges are left out, but for two, so that the files stay small.
const LONGEST_EDGE: usize = 10 * BLOCK;
/// Random files, their blocks, and the parts that are taken of each.
const RANDOM: usize = 20 * WAY_NUMBERS;
const MOST_BLOCKS: usize = 5;
const MOST_PARTS: usize = 3;

fn main() -> ExitCode {
    files::generate(
        "partitions",
        "files",
        "--block-vectors",
        add_vectors,
        |files| {
            add_edges(files)?;
            let random = &mut Random::new(SEED);
            add_damaged(files, random);
            add_random(files, random);
            Ok(())
        },
    )
}

fn add(files: &mut Files, file: &[u8], calls: &[Call]) {
    let lines: String = calls.iter().map(|call| call.line(file)).collect();
    files.add_encoded(&encode(file, calls), &lines);
}

/// Calls on the file whose lines are known, if those of this implementation agree.
fn agreed(name: &str, file: &[u8], known: Vec<(Call, String)>) -> Result<Vec<Call>, String> {
    let agreed = known.into_iter().map(|(call, line)| {
        let ours = call.line(file);
        if ours == line {
            return Ok(call);
        }
        let file = hex::encode(file);
        Err(format!(
            "{name} disagrees in {call:?}\nfile {file}\nexpected: {line}ours:     {ours}"
        ))
    });
    agreed.collect()
}

/// Vectors that follow each other with the same file have it once. Some files are fetched
/// from again with a short table.
fn add_vectors(files: &mut Files, path: &Path) -> Result<(), String> {
    let vectors = read_blocks(path);
    let mut line = 0;
    for group in vectors.chunk_by(|one, next| one.file == next.file) {
        let lines = line + 1..=line + group.len();
        let (file, program) = (&group[0].file, group[0].program);
        let known = group.iter().map(known_of).collect();
        let mut calls = agreed(&format!("a vector of lines {lines:?}"), file, known)?;
        if line % 12 == 0 {
            let length = 2047;
            calls.push(Call::Fetch { program, length });
        }
        add(files, file, &calls);
        line += group.len();
    }
    println!("vectors {line}, all agree; files {}", files.count());
    Ok(())
}

/// The call of the vector, and the line of what it says.
fn known_of(vector: &BlockVector) -> (Call, String) {
    let (file, program) = (&vector.file[..], vector.program);
    match &vector.outcome {
        BlockOutcome::Table(outcome) => {
            let length = MOST_BYTES as u16;
            let line = match outcome {
                Ok(table) => {
                    let ours = fetch(file, program, &mut [0; MOST_BYTES]);
                    let edition = ours.map_or(0, |fetched| fetched.edition);
                    done_line(table, edition, table.len().div_ceil(CONTENT))
                }
                Err(refusal) => refused_line(*refusal),
            };
            (Call::Fetch { program, length }, line)
        }
        BlockOutcome::Part {
            edition,
            part: number,
            content,
        } => {
            let from = place(file, part(file, program, *edition, *number));
            let call = Call::Part {
                program,
                edition: *edition,
                part: *number,
            };
            (call, part_line(from, content))
        }
    }
}

/// Each also with a lent table of another length.
fn add_edges(files: &mut Files) -> Result<(), String> {
    let before = files.count();
    for edge in edges() {
        if edge.file.len() > LONGEST_EDGE && !LONGEST.contains(&&edge.name[..]) {
            continue;
        }
        let mut calls = agreed(&format!("edge {}", edge.name), &edge.file, edge.calls)?;
        let program = PROGRAM;
        let length = LENT[files.count() % LENT.len()];
        calls.push(Call::Fetch { program, length });
        add(files, &edge.file, &calls);
    }
    println!("edges {}", files.count() - before);
    Ok(())
}

/// A block with each of its bytes changed once, or in the numbers several times; some of
/// them with new check bytes too.
fn add_damaged(files: &mut Files, random: &mut Random) {
    let before = files.count();
    let [_, _, block, _] = to_damage();
    for at in 0..BLOCK {
        let others: Vec<u8> = other_bytes(block[at]).collect();
        let count = if at < CONTENT_AT { others.len() } else { 1 };
        for turn in 0..count {
            let byte = others[(at + turn) % others.len()];
            let changed = with_byte(block, at, byte);
            add_block(files, random, &changed);
            if at < CONTENT_AT || at % 8 == 0 {
                add_block(files, random, &sealed(changed));
            }
        }
    }
    println!("blocks with a byte changed {}", files.count() - before);
}

fn add_block(files: &mut Files, random: &mut Random, block: &Bytes) {
    let calls = calls_on(random, block, 1);
    add(files, block, &calls);
}

fn add_random(files: &mut Files, random: &mut Random) {
    for number in 0..RANDOM {
        let most_blocks = random.between(1, MOST_BLOCKS);
        let file = partition(random, number, most_blocks);
        let calls = calls_on(random, &file, MOST_PARTS);
        add(files, &file, &calls);
    }
    println!("random files {RANDOM}");
}
