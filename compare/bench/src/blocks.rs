//! Files of blocks, and parts of them.

use compare::blocks::CONTENT;
use compare::support::blocks::{stored, Bytes, Head, CHECKS_AT, PROGRAM};
use compare::support::random::Random;
use compare::support::SEED;
use compare::table::MOST_BYTES;

/// Each by its name, and from each a table can be fetched. The last three are dear for a
/// reader that looks through the blocks for each part.
pub fn files() -> [(&'static str, Vec<Bytes>); 8] {
    [
        ("one", one(1)),
        ("one", one(4)),
        ("one", one(16)),
        ("one", one(64)),
        ("wanted", wanted()),
        ("copies-first", copies()),
        ("copies-last", copies().into_iter().rev().collect()),
        ("editions", editions()),
    ]
}

/// A file of 64 blocks with the edition and the part to take from it, each by its name:
/// those of the last and the first block, and of none; and those of all, of which only the
/// first is good.
pub fn parts() -> [(&'static str, Vec<Bytes>, (u16, u8)); 4] {
    let editions = 0..64;
    let blocks: Vec<Bytes> = editions
        .flat_map(|edition| of_edition(edition, 1))
        .collect();
    let mut bad = vec![blocks[0]; 64];
    bad[1..].iter_mut().for_each(|block| block[CHECKS_AT] = 255);
    [
        ("last", blocks.clone(), (63, 0)),
        ("first", blocks.clone(), (0, 0)),
        ("none", blocks, (63, 1)),
        ("bad", bad, (0, 0)),
    ]
}

/// So many bytes of any kind, as an edition of the wanted program.
fn of_edition(edition: u16, length: usize) -> Vec<Bytes> {
    of_program(PROGRAM, edition, length)
}

fn of_program(program: u16, edition: u16, length: usize) -> Vec<Bytes> {
    let table = Random::new(SEED).bytes(length);
    stored(program, edition, &table)
}

/// One edition, as long as there is room for or as is allowed, among blocks of other
/// programs.
fn one(count: usize) -> Vec<Bytes> {
    let mut blocks = of_edition(1, MOST_BYTES.min(CONTENT * count));
    let others = (PROGRAM + 1..).flat_map(|program| of_program(program, 1, 1200));
    blocks.extend(others.take(count - blocks.len()));
    Random::new(SEED).shuffle(&mut blocks);
    blocks
}

/// Twelve editions of the wanted program, all of them whole, and four other blocks.
fn wanted() -> Vec<Bytes> {
    let editions = (0..12).flat_map(|edition| of_edition(edition, MOST_BYTES));
    let mut blocks: Vec<Bytes> = editions.chain(of_program(1, 1, MOST_BYTES)).collect();
    blocks.truncate(64);
    Random::new(SEED).shuffle(&mut blocks);
    blocks
}

/// Part 0 of an edition of 32 parts 32 times, then the others but for the last one, and a
/// lower edition that is whole.
fn copies() -> Vec<Bytes> {
    let mut parts = of_edition(2, CONTENT * 32);
    parts.pop();
    let copies = vec![parts.remove(0); 32];
    [copies, parts, of_edition(1, 1000)].concat()
}

/// Twenty editions, each of which lacks its last part, from the lowest to the highest, then
/// one that is whole and lower than all.
fn editions() -> Vec<Bytes> {
    let lacking = (1..=20).flat_map(|edition| {
        let parts = of_edition(edition, CONTENT * 4).into_iter();
        parts.filter(|part| Head::of(part).part != 3)
    });
    lacking.chain(of_edition(0, CONTENT * 4)).collect()
}
