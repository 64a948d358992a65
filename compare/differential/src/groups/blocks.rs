//! Files of blocks: tables that are fetched, and parts that are taken.

use std::collections::BTreeSet;

use compare::blocks::{BLOCK, MOST_BLOCKS};
use compare::support::block_calls::Call;
use compare::support::block_edges::edges as edge_files;
use compare::support::block_files::{
    among_others, content, every_file, heads, letters, other_bytes, to_damage,
};
use compare::support::blocks::{sealed, stored, with_byte, Bytes, Head, PROGRAM};
use compare::support::partitions::{partition, WAY_NUMBERS};
use compare::support::random::Random;

use crate::tally::{Difference, Tally};
use crate::trials::{Fetching, Taking, Trial};

/// The lengths of the lent table; 2,048 are needed.
const LENT: [usize; 7] = [0, 1, 2047, 2048, 2049, 2304, 4096];

pub const ALL: &str = "69,905 files: all of up to 4 blocks over 16 letters";
const ALL_BLOCKS: u32 = 4;

/// Tables of every length up to this one are stored. Beyond 2,048 they are refused.
const LONGEST: usize = 2600;

pub fn edges(tally: &mut Tally, _random: &mut Random) -> Result<(), Difference> {
    for edge in edge_files() {
        for (call, _) in edge.calls {
            one_call(tally, &edge.file, call)?;
        }
        every_call(tally, &edge.file)?;
        every_length(tally, &edge.file)?;
    }
    Ok(())
}

fn one_call(tally: &mut Tally, file: &[u8], call: Call) -> Result<u32, Difference> {
    match call {
        Call::Fetch { program, length } => {
            tally.compare(&Fetching::with_table(file, program, length.into()))
        }
        Call::Part {
            program,
            edition,
            part,
        } => tally.compare(&Taking::new(file, (program, edition), part)),
    }
}

pub fn all(tally: &mut Tally, _random: &mut Random) -> Result<(), Difference> {
    for file in every_file(&letters(), ALL_BLOCKS) {
        tally.compare(&Fetching::new(&file, PROGRAM))?;
        for (edition, part) in [(1, 0), (1, 1), (2, 0)] {
            tally.compare(&Taking::new(&file, (PROGRAM, edition), part))?;
        }
    }
    Ok(())
}

pub fn every_table(tally: &mut Tally, random: &mut Random) -> Result<(), Difference> {
    for length in 1..=LONGEST {
        let edition = random.between(1, 65533) as u16;
        let table = content(random, length);
        let file = among_others(random, stored(PROGRAM, edition, &table));
        tally.compare(&Fetching::new(&file, PROGRAM))?;
        tally.compare(&Fetching::with_table(&file, PROGRAM, LONGEST))?;
        for part in 0..6 {
            tally.compare(&Taking::new(&file, (PROGRAM, edition), part))?;
        }
    }
    Ok(())
}

/// Alone each byte with every value; after a good block for the same part with several
/// values, with and without new check bytes.
pub fn damaged(tally: &mut Tally, _random: &mut Random) -> Result<(), Difference> {
    for block in to_damage() {
        let head = Head::of(&block);
        let good = head.block(b"good");
        for at in 0..BLOCK {
            for byte in 0..=255 {
                let changed = with_byte(block, at, byte);
                tally.compare(&Fetching::new(&changed, head.program))?;
            }
            for byte in other_bytes(block[at]) {
                let changed = with_byte(block, at, byte);
                every_call(tally, &[good, changed].concat())?;
                every_call(tally, &[good, sealed(changed)].concat())?;
            }
        }
    }
    Ok(())
}

/// Files of every length up to five blocks, and around the most blocks.
pub fn cut(tally: &mut Tally, random: &mut Random) -> Result<(), Difference> {
    let mut blocks = stored(PROGRAM, 1, &content(random, 1200));
    let others = letters().into_iter().cycle();
    blocks.extend(others.take(MOST_BLOCKS + 2));
    let file = blocks.concat();
    let around = |count: usize| BLOCK * count - 3..=BLOCK * count + 3;
    let around_most = (MOST_BLOCKS - 1..=MOST_BLOCKS + 2).flat_map(around);
    for length in (0..=5 * BLOCK).chain(around_most) {
        let file = &file[..length];
        tally.compare(&Fetching::new(file, PROGRAM))?;
        tally.compare(&Fetching::with_table(file, PROGRAM, 2047))?;
        for part in [0, 2] {
            tally.compare(&Taking::new(file, (PROGRAM, 1), part))?;
        }
    }
    Ok(())
}

/// All orders of up to five blocks, of which some are for the same part.
pub fn orders(tally: &mut Tally, random: &mut Random) -> Result<(), Difference> {
    for number in 0..10 * WAY_NUMBERS {
        let file = partition(random, number, 8);
        let mut blocks: Vec<Bytes> = file.as_chunks().0.to_vec();
        blocks.truncate(5);
        let program = blocks
            .first()
            .map_or(PROGRAM, |first| Head::of(first).program);
        every_order(&mut blocks, &mut Vec::new(), &mut |file| {
            tally.compare(&Fetching::new(file, program)).map(|_| ())
        })?;
    }
    Ok(())
}

/// Visits the files that begin with these blocks and go on with the others in any order.
fn every_order(
    others: &mut Vec<Bytes>,
    order: &mut Vec<Bytes>,
    visit: &mut impl FnMut(&[u8]) -> Result<(), Difference>,
) -> Result<(), Difference> {
    if others.is_empty() {
        return visit(&order.concat());
    }
    for at in 0..others.len() {
        order.push(others.remove(at));
        every_order(others, order, visit)?;
        others.insert(at, order.pop().expect("the one just put there"));
    }
    Ok(())
}

/// Small ones many times, and some about as large as is allowed.
pub fn drawn(tally: &mut Tally, random: &mut Random) -> Result<(), Difference> {
    for number in 0..600 * WAY_NUMBERS {
        let most_blocks = *random.pick(&[1, 2, 4, 6, 6, 12]);
        every_call(tally, &partition(random, number, most_blocks))?;
    }
    for number in 0..4 * WAY_NUMBERS {
        every_call(tally, &partition(random, number, 70))?;
    }
    Ok(())
}

/// Lent tables and answers that are too short, exact and longer.
pub fn lengths(tally: &mut Tally, random: &mut Random) -> Result<(), Difference> {
    for number in 0..40 * WAY_NUMBERS {
        every_length(tally, &partition(random, number, 4))?;
    }
    Ok(())
}

/// Fetches each program that the file names, and takes each part and the next.
fn every_call(tally: &mut Tally, file: &[u8]) -> Result<(), Difference> {
    let heads = heads(file);
    let programs: BTreeSet<u16> = heads.iter().map(|head| head.program).collect();
    for program in programs {
        tally.compare(&Fetching::new(file, program))?;
    }
    for head in heads {
        for part in [head.part, head.part.wrapping_add(1)] {
            tally.compare(&Taking::new(file, (head.program, head.edition), part))?;
        }
    }
    Ok(())
}

fn every_length(tally: &mut Tally, file: &[u8]) -> Result<(), Difference> {
    let first = heads(file).into_iter().next();
    let head = first.unwrap_or_else(|| Head::of(&letters()[0]));
    for table_length in LENT {
        tally.compare(&Fetching::with_table(file, head.program, table_length))?;
    }
    for answer_length in 0..=8 {
        for table_length in [2047, 2048] {
            let trial = Fetching::with_table(file, head.program, table_length);
            tally.compare(&trial.with_answer(answer_length))?;
        }
        let trial = Taking::new(file, (head.program, head.edition), head.part);
        tally.compare(&trial.with_answer(answer_length))?;
    }
    Ok(())
}

#[cfg(test)]
mod tests {
    use super::*;

    #[test]
    fn the_names_give_the_numbers_of_files() {
        assert_eq!(every_file(&letters(), ALL_BLOCKS).count(), 69_905);
    }

    #[test]
    fn orders_are_all_different() {
        let mut blocks = letters()[..4].to_vec();
        let mut files = BTreeSet::new();
        let visited = every_order(&mut blocks, &mut Vec::new(), &mut |file| {
            files.insert(file.to_vec());
            Ok(())
        });
        visited.expect("nothing is compared");
        assert_eq!(files.len(), 24);
    }
}
