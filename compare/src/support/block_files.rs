//! Files of blocks to try, but for the random ones: all files of few blocks, blocks to
//! change bytes of, an edition among other blocks.

use std::collections::BTreeSet;

use super::blocks::{
    sealed, stored, with_byte, with_checks, Bytes, Head, CHECKS_AT, CONTENT_AT, PROGRAM, PROGRAM_AT,
};
use super::random::Random;
use super::SEED;
use crate::blocks::{BLOCK, CONTENT};

/// Any bytes, or such as the sums can't tell from others.
pub fn content(random: &mut Random, length: usize) -> Vec<u8> {
    match random.below(4) {
        0 => vec![*random.pick(&[0, 1, 255]); length],
        1 => (0..length).map(|_| *random.pick(&[0, 255])).collect(),
        _ => random.bytes(length),
    }
}

/// Other bytes to put in place of one: its complement, so that 0 and 255 are exchanged,
/// and some that are near it or far.
pub fn other_bytes(byte: u8) -> impl Iterator<Item = u8> {
    let others = [!byte, byte ^ 1, byte ^ 128, byte.wrapping_sub(1), 0, 1, 255];
    let others: BTreeSet<u8> = others.into();
    others.into_iter().filter(move |&other| other != byte)
}

/// Good blocks that are whole editions, to change bytes of. Some of their numbers, of
/// their content and of their check bytes are 0 or 255.
pub fn to_damage() -> [Bytes; 4] {
    let random = &mut Random::new(SEED);
    [
        (0, 65535, 1),
        (258, 256, 255),
        (255, 65280, 256),
        (65535, 0, CONTENT),
    ]
    .map(|(program, edition, length)| {
        let mut content = random.bytes(length);
        content.iter_mut().step_by(3).for_each(|byte| *byte = 0);
        content.iter_mut().step_by(5).for_each(|byte| *byte = 255);
        let block = stored(program, edition, &content)[0];
        match length {
            255 => with_checks(block, [0, 0]),
            _ => block,
        }
    })
}

/// A file of an edition, which is not the first or one of the last two, and of blocks that
/// make no difference to it, in any order: other programs and editions, and bad blocks.
pub fn among_others(random: &mut Random, edition: Vec<Bytes>) -> Vec<u8> {
    let short_table = |random: &mut Random| {
        let length = random.between(1, 1100);
        content(random, length)
    };
    let head = Head::of(&edition[0]);
    let (program, number) = (head.program, head.edition);
    let lower = stored(program, number - 1, &short_table(random));
    let of_another = stored(!program, number + 1, &short_table(random));
    let longer = [short_table(random), vec![1; CONTENT]].concat();
    let mut lacking = stored(program, number + 2, &longer);
    lacking.pop();
    let higher = stored(program, number + 1, &short_table(random));
    let bad = edition.iter().chain(&higher).map(|&block| {
        let place = random.between(CONTENT_AT, BLOCK - 1);
        with_byte(block, place, block[place] ^ 1)
    });
    let bad = bad.collect();
    let mut blocks = [edition, lower, of_another, lacking, bad].concat();
    random.shuffle(&mut blocks);
    blocks.concat()
}

/// What the blocks of the file say of themselves, good or not, each once. Of a file that
/// ends within a block, the rest is left out.
pub fn heads(file: &[u8]) -> BTreeSet<Head> {
    file.as_chunks().0.iter().map(Head::of).collect()
}

/// Every file of up to so many of these blocks.
pub fn every_file(letters: &[Bytes], most: u32) -> impl Iterator<Item = Vec<u8>> + '_ {
    let base = letters.len();
    (0..=most).flat_map(move |count| {
        (0..base.pow(count)).map(move |number| {
            let digits = (0..count).map(|digit| number / base.pow(digit) % base);
            digits.flat_map(|digit| letters[digit]).collect()
        })
    })
}

/// Blocks of which a few tell most of what files can be: parts of editions 1 and 2, of
/// one to three parts, full and not, with other contents and other numbers of parts; bad
/// ones; one of another program.
pub fn letters() -> Vec<Bytes> {
    let block = |edition: u16, [part, parts]: [u8; 2], byte: u8, used: usize| {
        Head::new(PROGRAM, edition, part, parts).block(&vec![byte; used])
    };
    let first = block(1, [0, 1], b'a', 1);
    let higher = block(2, [0, 1], b'k', 4);
    vec![
        first,
        block(1, [0, 1], b'b', 2),
        block(1, [0, 2], b'c', 502),
        block(1, [0, 2], b'd', 501),
        block(1, [0, 3], b'e', 502),
        block(1, [0, 0], b'f', 3),
        block(1, [1, 2], b'g', 5),
        block(1, [1, 2], b'h', 502),
        block(1, [1, 3], b'i', 502),
        block(1, [2, 3], b'j', 6),
        higher,
        block(2, [0, 2], b'l', 502),
        block(2, [1, 2], b'm', 7),
        with_byte(first, CONTENT_AT, b'b'),
        sealed(with_byte(higher, CHECKS_AT - 1, 1)),
        sealed(with_byte(higher, PROGRAM_AT, 8)),
    ]
}
