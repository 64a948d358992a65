//! Questions whether a code is in the start set of a node.

use compare::support::damage::{bad_table, damaged as spoilt, BAD_NUMBERS};
use compare::support::every::{deciding_in_runs, every_table, Letter};
use compare::support::plans::through_traps;
use compare::support::programs::{accepted, any_shape, balanced, longest_listing, ALL_SHAPES};
use compare::support::question_edges::edges as question_edges;
use compare::support::questions::{any_question, CODES, HUGE};
use compare::support::random::Random;

use super::first_difference;
use crate::tally::{Difference, Tally};
use crate::trials::{Asking, Trial};

pub const ALL: &str =
    "17,706 tables, every node asked for every code: all of up to 5 nodes over 13 letters";
const ALL_NODES: usize = 5;

pub const LONGER: &str =
    "2,355,328 tables, the last nodes asked for 0 to 2: all of up to 8 nodes over 10 letters";
const LONGER_NODES: usize = 8;

/// Emits, signals and an exit to the third trap beside those that decide in runs.
pub(super) fn letters() -> Vec<Letter> {
    let others = [([3, 255], 0), ([4, 2], 0), ([5, 255], 1)];
    [deciding_in_runs(), others.to_vec()].concat()
}

pub fn edges(tally: &mut Tally, _random: &mut Random) -> Result<(), Difference> {
    for edge in question_edges() {
        let trial = Asking::of(&edge.case);
        for answer_length in 0..=8 {
            tally.compare(&trial.clone().with_answer(answer_length))?;
        }
    }
    Ok(())
}

/// Also the node after the last.
fn every_node(
    tally: &mut Tally,
    table: &[u8],
    codes: impl Iterator<Item = u64> + Clone,
) -> Result<(), Difference> {
    for node in 0..=table.len() as u64 / 2 {
        for code in codes.clone() {
            tally.compare(&Asking::new(table, node, code))?;
        }
    }
    Ok(())
}

pub fn all(tally: &mut Tally, _random: &mut Random) -> Result<(), Difference> {
    first_difference(every_small, |table| every_node(tally, table, CODES))
}

fn every_small(visit: &mut dyn FnMut(&[u8])) {
    every_table(&letters(), ALL_NODES, visit);
}

pub fn longer(tally: &mut Tally, _random: &mut Random) -> Result<(), Difference> {
    first_difference(every_longer, |table| {
        let last = table.len() as u64 / 2 - 1;
        for code in 0..3 {
            tally.compare(&Asking::new(table, last, code))?;
        }
        Ok(())
    })
}

fn every_longer(visit: &mut dyn FnMut(&[u8])) {
    every_table(&deciding_in_runs(), LONGER_NODES, visit);
}

pub fn small(tally: &mut Tally, random: &mut Random) -> Result<(), Difference> {
    for number in 0..36 * ALL_SHAPES {
        let nodes = random.between(2, 60);
        every_node(tally, &accepted(random, any_shape(number), nodes), CODES)?;
    }
    Ok(())
}

pub fn traps(tally: &mut Tally, random: &mut Random) -> Result<(), Difference> {
    for traps in (2..=62).step_by(3).chain([60, 61, 62, 62]) {
        every_node(tally, &through_traps(random, traps), CODES)?;
    }
    Ok(())
}

/// Small ones many times; of some large ones every node.
pub fn larger(tally: &mut Tally, random: &mut Random) -> Result<(), Difference> {
    for number in 0..2000 * ALL_SHAPES {
        let most = if random.one_in(5) { 1024 } else { 150 };
        let nodes = random.between(2, most);
        let table = accepted(random, any_shape(number), nodes);
        for _ in 0..5 {
            let (node, code) = any_question(random, &table);
            tally.compare(&Asking::new(&table, node, code))?;
        }
    }
    let number = random.below(ALL_SHAPES);
    let of_a_shape = accepted(random, any_shape(number), 1024);
    let tests = balanced(&[1, 0, 2, 0, 6, 0], 256, &[9, 0]);
    for table in [of_a_shape, tests, longest_listing()] {
        every_node(tally, &table, [0, 1, 2, 62, 63].into_iter())?;
    }
    Ok(())
}

/// With answers of all lengths.
pub fn damaged(tally: &mut Tally, random: &mut Random) -> Result<(), Difference> {
    for number in 0..100 * BAD_NUMBERS {
        let table = bad_table(random, number % BAD_NUMBERS);
        for answer_length in [0, 2, 3, 4, 8] {
            let (node, code) = any_question(random, &table);
            let trial = Asking::new(&table, node, code);
            tally.compare(&trial.clone().with_answer(answer_length))?;
            tally.compare(&trial)?;
        }
    }
    for number in 0..30 * ALL_SHAPES {
        let table = accepted(random, any_shape(number), 1024);
        let table = spoilt(random, &table);
        let (node, code) = any_question(random, &table);
        tally.compare(&Asking::new(&table, node, code))?;
    }
    Ok(())
}

/// Nodes and codes with bits above those that a table needs, and without them.
pub fn huge(tally: &mut Tally, random: &mut Random) -> Result<(), Difference> {
    for number in 0..4 * ALL_SHAPES {
        let nodes = *random.pick(&[2, 20, 100]);
        let table = accepted(random, any_shape(number), nodes);
        let size = table.len() / 2;
        for high in HUGE.into_iter().chain((6..64).map(|bit| 1 << bit)) {
            let (node, code) = (random.below(size) as u64, random.below(64) as u64);
            for (node, code) in [
                (high, code),
                (high.wrapping_add(node), code),
                (node, high),
                (node, high.wrapping_add(code)),
                (high.wrapping_add(node), high.wrapping_add(code)),
            ] {
                tally.compare(&Asking::new(&table, node, code))?;
            }
        }
    }
    Ok(())
}

#[cfg(test)]
mod tests {
    use super::*;

    #[test]
    fn the_names_give_the_numbers_of_tables() {
        let (mut small, mut longer) = (0, 0);
        every_small(&mut |_| small += 1);
        every_longer(&mut |_| longer += 1);
        assert_eq!(letters().len(), 13);
        assert_eq!((small, longer), (17_706, 2_355_328));
    }
}
