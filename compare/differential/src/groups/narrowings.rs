//! Start sets with signals known for certain.

use compare::instant::SIGNALS;
use compare::support::damage::{bad_table, BAD_NUMBERS};
use compare::support::edges::{edges as edges_of_01, W6};
use compare::support::every::{every_table, Letter};
use compare::support::narrow_edges::edges as narrow_edges;
use compare::support::programs::ALL_SHAPES;
use compare::support::random::Random;
use compare::support::ties::{
    any_ties, deciding, every_nesting, every_tie, tied, tied_program, wrong_byte, ABSENT, LETTERS,
    PRESENT, UNKNOWN,
};

use super::first_difference;
use crate::tally::{Difference, Tally};
use crate::trials::{Narrowing, Trial};

pub const ALL: &str =
    "265,130 tables, two signals tied in nine ways: all of up to 6 nodes over 14 letters";
const ALL_NODES: usize = 6;

pub const LONGER: &str =
    "95,730 tables, two signals tied in nine ways: all of up to 8 nodes over 7 letters";
const LONGER_NODES: usize = 8;

/// Tests of signal 0, each with the most signal statements of this number that are put
/// around each of its nodes.
const TO_NEST: [(&[u8], usize); 6] = [
    // A test in a branch of a test.
    (&[1, 0, 2, 0, 6, 0, 2, 0, 6, 0], 3),
    // Two tests in sequence, and side by side.
    (&[1, 0, 2, 0, 6, 0, 2, 0, 1, 0, 6, 0, 9, 0], 3),
    (&[1, 0, 2, 0, 6, 0, 2, 0, 1, 0, 6, 0, 10, 0], 3),
    // After an emit of the signal, in a suspend by it.
    (&[3, 0, 1, 0, 2, 0, 6, 0, 9, 0, 7, 0], 3),
    // An exit from a loop.
    (&[2, 0, 4, 0, 6, 0, 8, 0, 11, 0], 3),
    // Three tests.
    (
        &[
            1, 0, 2, 0, 6, 0, 1, 0, 2, 0, 6, 0, 9, 0, 1, 0, 2, 0, 6, 0, 9, 0,
        ],
        1,
    ),
];

pub const NESTED: &str =
    "40,960 tables: signal statements of one number around tests, in all places";

/// The lengths of the lent ties; 256 are needed.
const TIES: [usize; 8] = [0, 1, 128, 255, 256, 257, 300, 512];

/// The edges of F-8, and those of document 01 with all bytes alike, in the end wrong ones.
pub fn edges(tally: &mut Tally, _random: &mut Random) -> Result<(), Difference> {
    for edge in narrow_edges() {
        let trial = Narrowing::of(&edge.case);
        for answer_length in 0..=8 {
            tally.compare(&trial.clone().with_answer(answer_length))?;
        }
    }
    for edge in edges_of_01() {
        for tie in UNKNOWN..=PRESENT + 1 {
            tally.compare(&Narrowing::new(&edge.table, &[tie; SIGNALS]))?;
        }
        every_length(tally, &edge.table, &[PRESENT; SIGNALS])?;
    }
    Ok(())
}

pub fn all(tally: &mut Tally, _random: &mut Random) -> Result<(), Difference> {
    all_ways(tally, &LETTERS, ALL_NODES)
}

pub fn longer(tally: &mut Tally, _random: &mut Random) -> Result<(), Difference> {
    all_ways(tally, &deciding(&LETTERS), LONGER_NODES)
}

/// All tables of up to so many nodes, with all ways to tie the two signals.
fn all_ways(tally: &mut Tally, letters: &[Letter], nodes: usize) -> Result<(), Difference> {
    let ways = every_tie(0, 1);
    let every = |visit: &mut dyn FnMut(&[u8])| every_table(letters, nodes, visit);
    first_difference(every, |table| {
        for ties in &ways {
            tally.compare(&Narrowing::new(table, ties))?;
        }
        Ok(())
    })
}

pub fn nested(tally: &mut Tally, _random: &mut Random) -> Result<(), Difference> {
    let ways = [UNKNOWN, ABSENT, PRESENT].map(|tie| tied(&[(0, tie)]));
    for table in every_nested() {
        for ties in &ways {
            tally.compare(&Narrowing::new(&table, ties))?;
        }
    }
    Ok(())
}

fn every_nested() -> impl Iterator<Item = Vec<u8>> {
    let to_nest = TO_NEST.into_iter();
    to_nest.flat_map(|(table, most)| every_nesting(table, 0, most))
}

/// Small ones many times, and some large ones.
pub fn drawn(tally: &mut Tally, random: &mut Random) -> Result<(), Difference> {
    for number in 0..6000 * ALL_SHAPES {
        let most = if random.one_in(20) { 1024 } else { 60 };
        let nodes = random.between(2, most);
        let (table, ties) = tied_program(random, number, nodes);
        tally.compare(&Narrowing::new(&table, &ties))?;
    }
    Ok(())
}

/// Some with a wrong byte too, which comes after all that is wrong with the table.
pub fn damaged(tally: &mut Tally, random: &mut Random) -> Result<(), Difference> {
    for number in 0..300 * BAD_NUMBERS {
        let table = bad_table(random, number % BAD_NUMBERS);
        let mut ties = any_ties(random, number);
        if random.one_in(3) {
            ties[random.below(SIGNALS)] = wrong_byte(random);
        }
        tally.compare(&Narrowing::new(&table, &ties))?;
    }
    Ok(())
}

/// Also at the places past those that are looked at, and for a table that is refused.
pub fn every_byte(tally: &mut Tally, _random: &mut Random) -> Result<(), Difference> {
    // A test of each of two signals, within a signal statement of a third.
    let accepted = &[1, 0, 2, 0, 6, 5, 4, 0, 6, 255, 11, 0, 5, 7];
    for table in [&accepted[..], W6] {
        for place in 0..300 {
            let mut ties = [PRESENT; 300];
            for byte in 0..=255 {
                ties[place] = byte;
                tally.compare(&Narrowing::new(table, &ties))?;
            }
        }
    }
    Ok(())
}

/// Of accepted programs and damaged tables, with good ties and a wrong one.
pub fn lengths(tally: &mut Tally, random: &mut Random) -> Result<(), Difference> {
    for number in 0..60 * ALL_SHAPES {
        let nodes = *random.pick(&[2, 4, 12, 60]);
        let (mut table, mut ties) = tied_program(random, number, nodes);
        if random.one_in(3) {
            table = bad_table(random, number % BAD_NUMBERS);
        }
        if random.one_in(4) {
            ties[random.below(SIGNALS)] = wrong_byte(random);
        }
        every_length(tally, &table, &ties)?;
    }
    Ok(())
}

/// With ties, sets and answers that are too short, exact and longer, in all ways. The ties
/// that are too many are wrong ones.
fn every_length(tally: &mut Tally, table: &[u8], ties: &[u8]) -> Result<(), Difference> {
    let size = table.len() / 2;
    for ties_length in TIES {
        let mut ties = ties.to_vec();
        ties.resize(ties_length, 3);
        for sets in [0, size.saturating_sub(1), size, size + 1, size + 9] {
            let trial = Narrowing::with_sets(table, &ties, sets);
            for answer_length in [0, 2, 3, 4, 8] {
                tally.compare(&trial.clone().with_answer(answer_length))?;
            }
        }
    }
    Ok(())
}

#[cfg(test)]
mod tests {
    use super::*;

    #[test]
    fn the_names_give_the_numbers_of_tables() {
        let count = |letters: &[Letter], nodes| {
            let mut tables = 0;
            every_table(letters, nodes, |_| tables += 1);
            tables
        };
        assert_eq!(count(&LETTERS, ALL_NODES), 265_130);
        let deciding = deciding(&LETTERS);
        assert_eq!((LETTERS.len(), deciding.len()), (14, 7));
        assert_eq!(count(&deciding, LONGER_NODES), 95_730);
        assert_eq!(every_nested().count(), 40_960);
    }
}
