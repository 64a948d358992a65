//! Writes blocks of the service partition: good ones, and with any faults.

use crate::blocks::{BLOCK, CONTENT};

pub type Bytes = [u8; BLOCK];

/// The program whose blocks are made by hand. Its bytes are not the same.
pub const PROGRAM: u16 = 258;

/// Where the numbers, the content and the check bytes stand in a block.
pub const PROGRAM_AT: usize = 0;
pub const EDITION_AT: usize = 2;
pub const PART_AT: usize = 4;
pub const PARTS_AT: usize = 5;
pub const USED_AT: usize = 6;
pub const CONTENT_AT: usize = 8;
pub const CHECKS_AT: usize = CONTENT_AT + CONTENT;

/// What a block says of itself before its used length.
#[derive(Clone, Copy, Debug, PartialEq, Eq, PartialOrd, Ord)]
pub struct Head {
    pub program: u16,
    pub edition: u16,
    pub part: u8,
    pub parts: u8,
}

impl Head {
    pub fn new(program: u16, edition: u16, part: u8, parts: u8) -> Head {
        Head {
            program,
            edition,
            part,
            parts,
        }
    }

    /// What the block says, good or not.
    pub fn of(block: &Bytes) -> Head {
        let [program, edition] = [PROGRAM_AT, EDITION_AT].map(|at| pair_of(block, at));
        Head::new(program, edition, block[PART_AT], block[PARTS_AT])
    }

    /// A block with this content, good if there is any.
    pub fn block(self, content: &[u8]) -> Bytes {
        let mut block = [0; BLOCK];
        set_pair(&mut block, PROGRAM_AT, self.program);
        set_pair(&mut block, EDITION_AT, self.edition);
        block[PART_AT] = self.part;
        block[PARTS_AT] = self.parts;
        set_pair(&mut block, USED_AT, content.len() as u16);
        block[CONTENT_AT..][..content.len()].copy_from_slice(content);
        sealed(block)
    }
}

/// The blocks of an edition, in order of the parts.
pub fn stored(program: u16, edition: u16, table: &[u8]) -> Vec<Bytes> {
    let contents = table.chunks(CONTENT);
    let parts = u8::try_from(contents.len()).expect("no more than 255 parts");
    let blocks = contents
        .zip(0..parts)
        .map(|(content, part)| Head::new(program, edition, part, parts).block(content));
    blocks.collect()
}

/// The used length that the block names.
pub fn used(block: &Bytes) -> u16 {
    pair_of(block, USED_AT)
}

/// With the check bytes that the others ask for.
pub fn sealed(mut block: Bytes) -> Bytes {
    let checks = check_bytes(&block);
    block[CHECKS_AT..].copy_from_slice(&checks);
    block
}

/// With another byte, and all others as they were.
pub fn with_byte(mut block: Bytes, at: usize, byte: u8) -> Bytes {
    block[at] = byte;
    block
}

/// A sealed block with another used length.
pub fn with_used(mut block: Bytes, used: u16) -> Bytes {
    set_pair(&mut block, USED_AT, used);
    sealed(block)
}

/// A sealed block in which the first two bytes of the content, of which at least so many
/// are used, are such that the check bytes are these.
pub fn with_checks(mut block: Bytes, checks: [u8; 2]) -> Bytes {
    block[CONTENT_AT..][..2].fill(0);
    // What is lacking in each sum. In the second the two bytes count 502 and 501 times.
    let [first, second] = [0, 1].map(|at| {
        let present = i32::from(check_bytes(&block)[at]);
        i32::from(checks[at]) - present
    });
    let byte = second - 501 * first;
    block[CONTENT_AT] = byte.rem_euclid(255) as u8;
    block[CONTENT_AT + 1] = (first - byte).rem_euclid(255) as u8;
    sealed(block)
}

/// Both sums in step, each kept below 255.
fn check_bytes(block: &Bytes) -> [u8; 2] {
    let mut sums = [0_u16; 2];
    for &byte in &block[..CHECKS_AT] {
        sums[0] = (sums[0] + u16::from(byte)) % 255;
        sums[1] = (sums[1] + sums[0]) % 255;
    }
    sums.map(|sum| sum as u8)
}

fn pair_of(block: &Bytes, at: usize) -> u16 {
    u16::from_le_bytes([block[at], block[at + 1]])
}

fn set_pair(block: &mut Bytes, at: usize, number: u16) {
    block[at..][..2].copy_from_slice(&number.to_le_bytes());
}
