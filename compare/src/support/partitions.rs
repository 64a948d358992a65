//! Random files of blocks: stored editions that are spoilt in many ways.

use super::block_files::{content, other_bytes};
use super::blocks::{
    sealed, stored, used, with_byte, with_checks, with_used, Bytes, Head, CHECKS_AT, CONTENT_AT,
    EDITION_AT, PARTS_AT, PART_AT, PROGRAM_AT,
};
use super::random::Random;
use crate::blocks::{BLOCK, CONTENT};
use crate::table::MOST_BYTES;

/// Numbers that have the same bytes, and others; some are each other's with the bytes
/// exchanged, or with 255 for 0.
const NUMBERS: [u16; 10] = [0, 1, 2, 255, 256, 258, 513, 65280, 65534, 65535];

/// Lengths of tables about those at which parts are full, and about the longest.
const LENGTHS: [usize; 14] = [
    1, 2, 40, 501, 502, 503, 1004, 1005, 1506, 2047, 2048, 2049, 2510, 2511,
];

/// Any table, of any length up to the most or at an edge.
fn any_table(random: &mut Random) -> Vec<u8> {
    let length = match random.below(3) {
        0 => *random.pick(&LENGTHS),
        1 => random.between(1, 60),
        _ => random.between(1, MOST_BYTES),
    };
    content(random, length)
}

/// Makes something else of the blocks, of which there is at least one.
type Way = fn(&mut Random, &mut Vec<Bytes>);

const WAYS: [Way; 19] = [
    |_, _| (),
    lose,
    store_again,
    store_before,
    store_badly,
    name_other_parts,
    name_other_parts_again,
    move_to_other_part,
    move_to_other_edition,
    move_to_other_program,
    shorten,
    change_used,
    fill,
    damage,
    damage_and_seal,
    flip,
    check_by_255,
    add_noise,
    |random, blocks| random.shuffle(blocks),
];

/// The numbers of `partition` that give each way its share.
pub const WAY_NUMBERS: usize = WAYS.len();

/// A file for each number in turn, of few more blocks than are wanted at most. Besides
/// the way of the number, up to three others spoil it.
pub fn partition(random: &mut Random, number: usize, most_blocks: usize) -> Vec<u8> {
    let mut blocks = editions(random, most_blocks);
    WAYS[number % WAY_NUMBERS](random, &mut blocks);
    for _ in 0..random.below(4) {
        if !blocks.is_empty() {
            random.pick(&WAYS)(random, &mut blocks);
        }
    }
    if random.one_in(2) {
        random.shuffle(&mut blocks);
    }
    let mut file = blocks.concat();
    if random.one_in(40) {
        let length = random.below(file.len() + 1);
        file.truncate(length);
    }
    file
}

/// Editions of one to three programs, one at least.
fn editions(random: &mut Random, most_blocks: usize) -> Vec<Bytes> {
    let programs: Vec<u16> = (0..random.between(1, 3)).map(|_| number(random)).collect();
    let wanted = random.between(1, most_blocks);
    let mut blocks = Vec::new();
    while blocks.len() < wanted {
        let program = *random.pick(&programs);
        let edition = number(random);
        let table = any_table(random);
        let parts = stored(program, edition, &table);
        if blocks.is_empty() || blocks.len() + parts.len() <= most_blocks {
            blocks.extend(parts);
        }
    }
    blocks
}

fn number(random: &mut Random) -> u16 {
    if random.one_in(8) {
        return random.number() as u16;
    }
    *random.pick(&NUMBERS)
}

fn any_place(random: &mut Random, blocks: &[Bytes]) -> usize {
    random.below(blocks.len())
}

fn lose(random: &mut Random, blocks: &mut Vec<Bytes>) {
    blocks.remove(any_place(random, blocks));
}

/// A block for the same part, of the same length if that matters.
fn another(random: &mut Random, block: &Bytes) -> Bytes {
    let length = match usize::from(used(block)) {
        CONTENT => CONTENT,
        _ => random.between(1, CONTENT),
    };
    Head::of(block).block(&content(random, length))
}

fn store_again(random: &mut Random, blocks: &mut Vec<Bytes>) {
    let at = any_place(random, blocks);
    let block = another(random, &blocks[at]);
    blocks.insert(random.between(at + 1, blocks.len()), block);
}

fn store_before(random: &mut Random, blocks: &mut Vec<Bytes>) {
    let at = any_place(random, blocks);
    let block = another(random, &blocks[at]);
    blocks.insert(random.between(0, at), block);
}

/// Once more, and bad.
fn store_badly(random: &mut Random, blocks: &mut Vec<Bytes>) {
    let at = any_place(random, blocks);
    let block = another(random, &blocks[at]);
    let place = random.between(CONTENT_AT, BLOCK - 1);
    let block = with_byte(block, place, block[place] ^ 1);
    blocks.insert(random.between(at + 1, blocks.len()), block);
}

fn name_other_parts(random: &mut Random, blocks: &mut Vec<Bytes>) {
    let at = any_place(random, blocks);
    blocks[at] = with_other_parts(random, blocks[at]);
}

fn name_other_parts_again(random: &mut Random, blocks: &mut Vec<Bytes>) {
    let at = any_place(random, blocks);
    let block = with_other_parts(random, blocks[at]);
    blocks.insert(random.between(at + 1, blocks.len()), block);
}

fn with_other_parts(random: &mut Random, block: Bytes) -> Bytes {
    let named = block[PARTS_AT];
    let parts = *random.pick(&[0, 1, named.wrapping_sub(1), named.wrapping_add(1), 255]);
    sealed(with_byte(block, PARTS_AT, parts))
}

/// To the number of parts, past it, or to any other.
fn move_to_other_part(random: &mut Random, blocks: &mut Vec<Bytes>) {
    let at = any_place(random, blocks);
    let parts = blocks[at][PARTS_AT];
    let part = *random.pick(&[0, 1, parts, parts.wrapping_add(1), 255]);
    blocks[at] = sealed(with_byte(blocks[at], PART_AT, part));
}

fn move_to_other_edition(random: &mut Random, blocks: &mut Vec<Bytes>) {
    move_elsewhere(random, blocks, EDITION_AT);
}

fn move_to_other_program(random: &mut Random, blocks: &mut Vec<Bytes>) {
    move_elsewhere(random, blocks, PROGRAM_AT);
}

/// A byte of the number at this place is that of another block, or its complement.
fn move_elsewhere(random: &mut Random, blocks: &mut [Bytes], place: usize) {
    let [at, other] = [(); 2].map(|_| any_place(random, blocks));
    let place = place + random.below(2);
    let byte = *random.pick(&[blocks[other][place], !blocks[at][place]]);
    blocks[at] = sealed(with_byte(blocks[at], place, byte));
}

/// A block that uses less, with zeros after it.
fn shorten(random: &mut Random, blocks: &mut Vec<Bytes>) {
    let at = any_place(random, blocks);
    let length = *random.pick(&[1, 500, 501]);
    blocks[at] = Head::of(&blocks[at]).block(&content(random, length));
}

/// Another used length, whatever stands after it.
fn change_used(random: &mut Random, blocks: &mut Vec<Bytes>) {
    let at = any_place(random, blocks);
    let named = used(&blocks[at]);
    let used = *random.pick(&[
        0,
        1,
        501,
        502,
        503,
        65535,
        named.wrapping_sub(1),
        named.wrapping_add(1),
        named.swap_bytes(),
    ]);
    blocks[at] = with_used(blocks[at], used);
}

/// A byte that is not zero somewhere past the used content, if there is room.
fn fill(random: &mut Random, blocks: &mut Vec<Bytes>) {
    let at = any_place(random, blocks);
    let end = CONTENT_AT + usize::from(used(&blocks[at]));
    if end < CHECKS_AT {
        let between = random.between(end, CHECKS_AT - 1);
        let place = *random.pick(&[end, between, CHECKS_AT - 1]);
        let byte = random.between(1, 255) as u8;
        blocks[at] = sealed(with_byte(blocks[at], place, byte));
    }
}

fn damage(random: &mut Random, blocks: &mut Vec<Bytes>) {
    let at = any_place(random, blocks);
    blocks[at] = damaged(random, blocks[at]);
}

fn damage_and_seal(random: &mut Random, blocks: &mut Vec<Bytes>) {
    let at = any_place(random, blocks);
    blocks[at] = sealed(damaged(random, blocks[at]));
}

/// Another byte, in the numbers as often as elsewhere.
fn damaged(random: &mut Random, block: Bytes) -> Bytes {
    let end = *random.pick(&[CONTENT_AT, BLOCK]);
    let place = random.below(end);
    let values: Vec<u8> = other_bytes(block[place]).collect();
    with_byte(block, place, *random.pick(&values))
}

/// 255 for 0 or 0 for 255, which the sums can't tell, anywhere before the check bytes.
fn flip(random: &mut Random, blocks: &mut Vec<Bytes>) {
    let at = any_place(random, blocks);
    let flippable: Vec<usize> = (0..CHECKS_AT)
        .filter(|&place| [0, 255].contains(&blocks[at][place]))
        .collect();
    if !flippable.is_empty() {
        let place = *random.pick(&flippable);
        blocks[at][place] = !blocks[at][place];
    }
}

/// A check byte of 255, for 0 where the content allows it.
fn check_by_255(random: &mut Random, blocks: &mut Vec<Bytes>) {
    let at = any_place(random, blocks);
    let mut block = blocks[at];
    if used(&block) >= 2 {
        block = with_checks(block, [0, 0]);
    }
    let place = CHECKS_AT + random.below(2);
    blocks[at] = *random.pick(&[block, with_byte(block, place, 255)]);
}

/// A block of any bytes, sealed or not, or of one byte alone.
fn add_noise(random: &mut Random, blocks: &mut Vec<Bytes>) {
    let noise: Bytes = random
        .bytes(BLOCK)
        .try_into()
        .expect("as many as asked for");
    let one = [*random.pick(&[0, 1, 255]); BLOCK];
    let block = *random.pick(&[noise, sealed(noise), one, sealed(one)]);
    blocks.insert(random.between(0, blocks.len()), block);
}
