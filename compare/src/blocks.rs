//! Blocks on the service partition, request F-4: a program's table, and single parts.
//!
//! Good blocks go to a map by program, edition and part, where a later one takes the place
//! of an earlier one. The parts of an edition are then neighbours. Blocks that can't
//! matter to a call are left out of its map, so that their sums are not needed.

use std::collections::BTreeMap;

use crate::table::MOST_BYTES;
use crate::Refusal;

/// The bytes of a block, and how many of them can be content.
pub const BLOCK: usize = 512;
pub const CONTENT: usize = 502;
pub const MOST_BLOCKS: usize = 64;

/// The numbers before the content; the check bytes are sums of these and the content.
const HEAD: usize = 8;
const SUMMED: usize = HEAD + CONTENT;
const MODULUS: u64 = 255;

/// What is handed back beside the table.
#[derive(Clone, Copy, Debug, PartialEq, Eq)]
pub struct Fetched {
    pub length: usize,
    pub edition: u16,
    pub parts: usize,
}

/// Writes the program's table, of its highest whole edition, to the front of the lent
/// one. Past it, and after a refusal, the lent table stays as it was.
pub fn fetch(file: &[u8], program: u16, table: &mut [u8]) -> Result<Fetched, Refusal> {
    if table.len() < MOST_BYTES {
        return Err(Refusal::whole(3));
    }
    let good = good_blocks(file, |key| key.program == program)?;
    let (edition, parts) = highest_whole(&good).ok_or(Refusal::whole(18))?;
    let joined = parts.concat();
    if joined.len() > MOST_BYTES {
        return Err(Refusal::whole(1));
    }
    table[..joined.len()].copy_from_slice(&joined);
    Ok(Fetched {
        length: joined.len(),
        edition,
        parts: parts.len(),
    })
}

/// The used content of a good block, as it stands in the file. Without such a block it is
/// the empty part at the front.
pub fn part(file: &[u8], program: u16, edition: u16, part: u8) -> &[u8] {
    let wanted = Key {
        program,
        edition,
        part,
    };
    let good = good_blocks(file, |key| key == wanted).unwrap_or_default();
    good.get(&wanted).map_or(&file[..0], |block| block.content)
}

#[derive(Clone, Copy, PartialEq, Eq, PartialOrd, Ord)]
struct Key {
    program: u16,
    edition: u16,
    part: u8,
}

struct Block<'a> {
    /// The number of parts that it names.
    parts: u8,
    content: &'a [u8],
}

type Good<'a> = BTreeMap<Key, Block<'a>>;

fn good_blocks(file: &[u8], is_wanted: impl Fn(Key) -> bool) -> Result<Good<'_>, Refusal> {
    let (blocks, rest) = file.as_chunks();
    if !rest.is_empty() || blocks.len() > MOST_BLOCKS {
        return Err(Refusal::whole(17));
    }
    let keyed = blocks.iter().map(|block| (key(block), block));
    let wanted = keyed.filter(|(key, _)| is_wanted(*key));
    let good = wanted.filter_map(|(key, block)| Some((key, good_block(block)?)));
    // Of equal keys the last one is kept.
    Ok(good.collect())
}

fn key(block: &[u8; BLOCK]) -> Key {
    Key {
        program: number(block, 0),
        edition: number(block, 2),
        part: block[4],
    }
}

fn good_block(bytes: &[u8; BLOCK]) -> Option<Block<'_>> {
    let (summed, stored) = bytes.split_at(SUMMED);
    let used = number(bytes, 6).into();
    let (content, filler) = summed[HEAD..].split_at_checked(used)?;
    let is_good = !content.is_empty()
        && filler.iter().all(|&byte| byte == 0)
        && stored == check_bytes(summed);
    let parts = bytes[5];
    is_good.then_some(Block { parts, content })
}

/// Of two bytes, lowest first.
fn number(block: &[u8; BLOCK], at: usize) -> u16 {
    u16::from_le_bytes([block[at], block[at + 1]])
}

/// A byte is in the running value at its own place and in all that follow, so that the
/// sum of them has it as often as there are places from there on. Neither sum comes near
/// the end of its range, and one remainder at the end does for each.
fn check_bytes(summed: &[u8]) -> [u8; 2] {
    let weighted = summed.iter().rev().zip(1..);
    let sums = weighted.fold([0; 2], |[first, second], (&byte, weight)| {
        [first + u64::from(byte), second + weight * u64::from(byte)]
    });
    sums.map(|sum| (sum % MODULUS) as u8)
}

/// The number of the highest whole edition, and the contents of its parts. All blocks are
/// of one program.
fn highest_whole<'a>(good: &Good<'a>) -> Option<(u16, Vec<&'a [u8]>)> {
    let mut first_parts = good.iter().rev().filter(|(key, _)| key.part == 0);
    first_parts.find_map(|(&key, first)| Some((key.edition, whole(good, key, first.parts)?)))
}

/// The contents of the parts from this part 0 on, as many as it names, if with them the
/// edition is whole.
fn whole<'a>(good: &Good<'a>, first: Key, parts: u8) -> Option<Vec<&'a [u8]>> {
    let end = Key {
        part: parts,
        ..first
    };
    let blocks: Vec<&Block> = good.range(first..end).map(|(_, block)| block).collect();
    let (_, before_last) = blocks.split_last()?;
    // No two of them are the same part: if there are so many, none is missing.
    let is_whole = blocks.len() == usize::from(parts)
        && blocks.iter().all(|block| block.parts == parts)
        && before_last
            .iter()
            .all(|block| block.content.len() == CONTENT);
    is_whole.then(|| blocks.iter().map(|block| block.content).collect())
}
