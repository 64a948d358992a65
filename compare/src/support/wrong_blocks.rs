//! Files as wrong readers of blocks see them: what such a reader gives of a file, the right
//! one gives of the other. Each block stays in its place.

use super::blocks::{
    sealed, used, with_byte, Bytes, Head, CHECKS_AT, CONTENT_AT, EDITION_AT, PARTS_AT,
};
use crate::blocks::CONTENT;
use crate::part;

/// A block with what the right reader makes of it.
#[derive(Clone, Copy)]
struct Block {
    bytes: Bytes,
    head: Head,
    is_good: bool,
}

impl Block {
    fn of(bytes: &Bytes) -> Block {
        let head = Head::of(bytes);
        let content = part(bytes, head.program, head.edition, head.part);
        Block {
            bytes: *bytes,
            head,
            is_good: !content.is_empty(),
        }
    }

    /// Whether the used length and the filler are right.
    fn is_filled(&self) -> bool {
        Block::of(&sealed(self.bytes)).is_good
    }

    fn is_part(&self, part: usize) -> bool {
        usize::from(self.head.part) == part
    }

    fn is_of_edition(&self, other: &Block) -> bool {
        (self.head.program, self.head.edition) == (other.head.program, other.head.edition)
    }

    fn is_for_part_of(&self, other: &Block) -> bool {
        self.is_of_edition(other) && self.head.part == other.head.part
    }

    fn bad(&self) -> Bytes {
        with_byte(self.bytes, CHECKS_AT, 255)
    }

    /// Good if it was.
    fn with(&self, at: usize, byte: u8) -> Bytes {
        let changed = with_byte(self.bytes, at, byte);
        if self.is_good {
            sealed(changed)
        } else {
            changed
        }
    }
}

/// Another block for each, of which the place among all is given.
fn changed(file: &[u8], change: impl Fn(&[Block], usize) -> Bytes) -> Vec<u8> {
    let (blocks, rest) = file.as_chunks();
    let blocks: Vec<Block> = blocks.iter().map(Block::of).collect();
    let changed: Vec<Bytes> = (0..blocks.len()).map(|at| change(&blocks, at)).collect();
    [changed.as_flattened(), rest].concat()
}

/// Good is what this says, whatever it is by the rules.
fn judged(file: &[u8], is_good: impl Fn(&Block) -> bool) -> Vec<u8> {
    changed(file, |blocks, at| match is_good(&blocks[at]) {
        true => sealed(blocks[at].bytes),
        false => blocks[at].bad(),
    })
}

/// All blocks for which this holds become bad.
fn without(file: &[u8], is_lost: impl Fn(&[Block], usize) -> bool) -> Vec<u8> {
    changed(file, |blocks, at| match is_lost(blocks, at) {
        true => blocks[at].bad(),
        false => blocks[at].bytes,
    })
}

/// Of two good blocks for one part the earlier counts.
pub fn earlier_counts(file: &[u8]) -> Vec<u8> {
    without(file, |blocks, at| {
        let mut before = blocks[..at].iter();
        before.any(|block| block.is_good && block.is_for_part_of(&blocks[at]))
    })
}

/// A bad block hides the ones before it for its part.
pub fn bad_ones_hide(file: &[u8]) -> Vec<u8> {
    without(file, |blocks, at| {
        let mut after = blocks[at + 1..].iter();
        after.any(|block| block.is_for_part_of(&blocks[at]))
    })
}

/// Both sums are modulo 256.
pub fn modulo_256(file: &[u8]) -> Vec<u8> {
    judged(file, |block| {
        let (mut first, mut second) = (0_u8, 0_u8);
        for &byte in &block.bytes[..CHECKS_AT] {
            first = first.wrapping_add(byte);
            second = second.wrapping_add(first);
        }
        block.is_filled() && block.bytes[CHECKS_AT..] == [first, second]
    })
}

/// A stored 255 is as good as 0.
pub fn stored_255_is_0(file: &[u8]) -> Vec<u8> {
    judged(file, |block| {
        let stored = [0, 1].map(|at| block.bytes[CHECKS_AT + at] % 255);
        block.is_filled() && sealed(block.bytes)[CHECKS_AT..] == stored
    })
}

/// Of the two check bytes only number 0 or 1 is looked at.
pub fn one_check_byte(file: &[u8], number: usize) -> Vec<u8> {
    let at = CHECKS_AT + number;
    judged(file, |block| {
        block.is_filled() && sealed(block.bytes)[at] == block.bytes[at]
    })
}

/// What stands after the used content is not looked at.
pub fn any_filler(file: &[u8]) -> Vec<u8> {
    changed(file, |blocks, at| {
        let mut bytes = blocks[at].bytes;
        let end = CONTENT_AT + usize::from(used(&bytes));
        if sealed(bytes) != bytes || end > CHECKS_AT {
            return bytes;
        }
        bytes[end..].fill(0);
        sealed(bytes)
    })
}

/// An edition is whole even if its last part is missing.
pub fn last_may_be_missing(file: &[u8]) -> Vec<u8> {
    changed(file, |blocks, at| {
        let parts = blocks[at].head.parts;
        let has_last = blocks.iter().any(|block| {
            block.is_good
                && block.is_of_edition(&blocks[at])
                && block.is_part(usize::from(parts).wrapping_sub(1))
        });
        match parts > 1 && !has_last {
            true => blocks[at].with(PARTS_AT, parts - 1),
            false => blocks[at].bytes,
        }
    })
}

/// Only part 0 is asked how many parts there are.
pub fn part_0_decides(file: &[u8]) -> Vec<u8> {
    changed(file, |blocks, at| {
        let mut good = blocks.iter().rev().filter(|block| block.is_good);
        match good.find(|block| block.is_of_edition(&blocks[at]) && block.is_part(0)) {
            Some(first) => blocks[at].with(PARTS_AT, first.head.parts),
            None => blocks[at].bytes,
        }
    })
}

/// The last part has to be full too.
pub fn last_is_full(file: &[u8]) -> Vec<u8> {
    without(file, |blocks, at| {
        let block = &blocks[at];
        let is_last = block.is_part(usize::from(block.head.parts).wrapping_sub(1));
        is_last && usize::from(used(&block.bytes)) < CONTENT
    })
}

/// A part number of the number of parts or above spoils its edition.
pub fn past_the_last_spoils(file: &[u8]) -> Vec<u8> {
    without(file, |blocks, at| {
        blocks.iter().any(|block| {
            let is_past = block.head.part >= block.head.parts;
            block.is_good && block.is_of_edition(&blocks[at]) && is_past
        })
    })
}

/// There are no editions but those for which this holds.
pub fn only_editions(file: &[u8], is_kept: impl Fn(u16) -> bool) -> Vec<u8> {
    without(file, |blocks, at| !is_kept(blocks[at].head.edition))
}

/// The bytes of each edition are in the other order.
pub fn editions_highest_first(file: &[u8]) -> Vec<u8> {
    changed(file, |blocks, at| {
        let mut bytes = blocks[at].bytes;
        bytes.swap(EDITION_AT, EDITION_AT + 1);
        match blocks[at].is_good {
            true => sealed(bytes),
            false => bytes,
        }
    })
}
