//! Start sets by trial.

use compare::by_trial::{ANSWERS, LISTS};
use compare::support::damage::{bad_table, damaged as spoilt, BAD_NUMBERS};
use compare::support::every::{deciding_in_runs, every_table};
use compare::support::plans::through_traps;
use compare::support::programs::{accepted, any_shape, ALL_SHAPES};
use compare::support::questions::HUGE;
use compare::support::random::Random;
use compare::support::tried::{any_node, pause_by, with_few_presents, Case};
use compare::support::tried_edges::{large, quick};

use super::first_difference;
use super::questions::letters;
use crate::tally::{Difference, Tally};
use crate::trials::{Trial, Trying};

pub const ALL: &str = "17,706 tables, every node tried: all of up to 5 nodes over 13 letters";
const ALL_NODES: usize = 5;

pub const LONGER: &str =
    "287,236 tables, the last nodes tried: all of up to 7 nodes over 10 letters";
const LONGER_NODES: usize = 7;

pub const EACH_LIST: &str =
    "4,096 programs of 12 tests, in each of which one list of answers alone gives a code";

pub fn edges(tally: &mut Tally, _random: &mut Random) -> Result<(), Difference> {
    for edge in quick() {
        let trial = Trying::of(&edge.case);
        for answer_length in [0, 1, 2, 3, 4, 8] {
            tally.compare(&trial.clone().with_answer(answer_length))?;
        }
    }
    Ok(())
}

/// Also the node after the last.
fn every_node(tally: &mut Tally, table: &[u8]) -> Result<(), Difference> {
    for node in 0..=table.len() as u64 / 2 {
        tally.compare(&Trying::new(table, node))?;
    }
    Ok(())
}

/// The program itself.
fn whole(tally: &mut Tally, table: &[u8]) -> Result<(), Difference> {
    tally.compare(&Trying::of(&Case::whole(table)))?;
    Ok(())
}

pub fn all(tally: &mut Tally, _random: &mut Random) -> Result<(), Difference> {
    first_difference(every_small, |table| every_node(tally, table))
}

fn every_small(visit: &mut dyn FnMut(&[u8])) {
    every_table(&letters(), ALL_NODES, visit);
}

pub fn longer(tally: &mut Tally, _random: &mut Random) -> Result<(), Difference> {
    first_difference(every_longer, |table| whole(tally, table))
}

fn every_longer(visit: &mut dyn FnMut(&[u8])) {
    every_table(&deciding_in_runs(), LONGER_NODES, visit);
}

pub fn each_list(tally: &mut Tally, _random: &mut Random) -> Result<(), Difference> {
    for list in &LISTS {
        whole(tally, &pause_by(list))?;
    }
    Ok(())
}

pub fn small(tally: &mut Tally, random: &mut Random) -> Result<(), Difference> {
    for number in 0..36 * ALL_SHAPES {
        let nodes = random.between(2, 60);
        every_node(tally, &accepted(random, any_shape(number), nodes))?;
    }
    Ok(())
}

pub fn traps(tally: &mut Tally, random: &mut Random) -> Result<(), Difference> {
    for traps in (2..=62).step_by(5).chain([61, 62]) {
        let table = through_traps(random, traps);
        every_node(tally, &with_few_presents(random, &table, ANSWERS))?;
    }
    Ok(())
}

/// Of all sizes; and the large edges.
pub fn few_presents(tally: &mut Tally, random: &mut Random) -> Result<(), Difference> {
    for number in 0..100 * ALL_SHAPES {
        let most = if random.one_in(10) { 1024 } else { 100 };
        let nodes = random.between(2, most);
        let table = accepted(random, any_shape(number), nodes);
        let presents = random.between(9, ANSWERS + 1);
        whole(tally, &with_few_presents(random, &table, presents))?;
    }
    for edge in large() {
        tally.compare(&Trying::of(&edge.case))?;
    }
    Ok(())
}

/// Small ones many times.
pub fn larger(tally: &mut Tally, random: &mut Random) -> Result<(), Difference> {
    for number in 0..200 * ALL_SHAPES {
        let most = if random.one_in(5) { 1024 } else { 150 };
        let nodes = random.between(2, most);
        let table = accepted(random, any_shape(number), nodes);
        for _ in 0..3 {
            tally.compare(&Trying::new(&table, any_node(random, &table)))?;
        }
    }
    Ok(())
}

/// With answers of all lengths, and nodes within and outside.
pub fn damaged(tally: &mut Tally, random: &mut Random) -> Result<(), Difference> {
    for number in 0..20 * BAD_NUMBERS {
        let table = bad_table(random, number % BAD_NUMBERS);
        for answer_length in [0, 2, 3, 4, 8] {
            let node = random.below(table.len() / 2 + 2) as u64;
            let trial = Trying::new(&table, node);
            tally.compare(&trial.with_answer(answer_length))?;
        }
    }
    for number in 0..10 * ALL_SHAPES {
        let table = accepted(random, any_shape(number), 1024);
        let table = spoilt(random, &table);
        let node = random.below(table.len() / 2 + 2) as u64;
        tally.compare(&Trying::new(&table, node))?;
    }
    Ok(())
}

/// Nodes with bits above those that a table needs, and without them.
pub fn huge(tally: &mut Tally, random: &mut Random) -> Result<(), Difference> {
    for number in 0..4 * ALL_SHAPES {
        let nodes = *random.pick(&[2, 20, 100]);
        let table = accepted(random, any_shape(number), nodes);
        let size = table.len() / 2;
        for high in HUGE.into_iter().chain((6..64).map(|bit| 1 << bit)) {
            let node = random.below(size) as u64;
            for node in [high, high.wrapping_add(node)] {
                tally.compare(&Trying::new(&table, node))?;
            }
        }
    }
    Ok(())
}

#[cfg(test)]
mod tests {
    use super::*;

    #[test]
    fn the_names_give_the_numbers_of_tables() {
        let (mut small, mut longer) = (0, 0);
        every_small(&mut |_| small += 1);
        every_longer(&mut |_| longer += 1);
        assert_eq!(letters().len(), 13);
        assert_eq!((small, longer, LISTS.len()), (17_706, 287_236, 4_096));
    }
}
