//! The greatest number of entries of a start, and answers that reach it.

use compare::support::edges::edges as edges_of_01;
use compare::support::every::{deciding_in_runs, every_table};
use compare::support::plan_edges::edges as plan_edges;
use compare::support::plans::{choices, stages, table, through_traps, NUMBERS};
use compare::support::random::Random;

use super::first_difference;
use crate::tally::{Difference, Tally};
use crate::trials::{Finding, Planning, Trial};

pub const ALL: &str = "2,355,328 tables: first ticks of all of up to 8 nodes over 10 letters";
const ALL_NODES: usize = 8;

/// The lengths of the lent answers; 512 are needed.
const LENT: [usize; 7] = [0, 1, 511, 512, 513, 600, 2048];

/// With as many entries either way, present has the shorter list: absent comes first.
const LONGER_IF_ABSENT: &[u8] = &[1, 0, 5, 0, 1, 0, 1, 0, 6, 0, 6, 0];

/// The edges of F-10 and those of document 01, with answers of 0 to 8 entries, and with lent
/// answers of all lengths.
pub fn edges(tally: &mut Tally, _random: &mut Random) -> Result<(), Difference> {
    let of_10 = plan_edges().into_iter().map(|edge| edge.table);
    let of_01 = edges_of_01().into_iter().map(|edge| edge.table);
    let of_lists = [LONGER_IF_ABSENT.to_vec()];
    for table in of_10.chain(of_01).chain(of_lists) {
        for answer_length in 0..=8 {
            tally.compare(&Planning::new(&table).with_answer(answer_length))?;
        }
        for length in LENT {
            let trial = Finding::with_answers(&table, length).of_most_entries();
            hand_out(tally, &trial)?;
            hand_out(tally, &trial.with_answer(length % 5))?;
        }
    }
    Ok(())
}

/// The number, and the answers that reach it.
pub fn both_calls(tally: &mut Tally, table: &[u8]) -> Result<(), Difference> {
    tally.compare(&Planning::new(table))?;
    hand_out(tally, &Finding::new(table).of_most_entries())
}

/// A list on which both sides agree is run, too: it must reach the number.
fn hand_out(tally: &mut Tally, trial: &Finding) -> Result<(), Difference> {
    let (returned, mut after) = tally.compare_and_keep(trial)?;
    if returned != 0 || after.reaches() {
        return Ok(());
    }
    Err(Difference::new(format!(
        "a list of answers that does not reach the number\n{:?}\n",
        after.buffers()
    )))
}

pub fn all(tally: &mut Tally, _random: &mut Random) -> Result<(), Difference> {
    first_difference(every_whole, |table| both_calls(tally, table))
}

fn every_whole(visit: &mut dyn FnMut(&[u8])) {
    every_table(&deciding_in_runs(), ALL_NODES, visit);
}

/// Small ones many times, and some large ones.
pub fn drawn(tally: &mut Tally, random: &mut Random) -> Result<(), Difference> {
    for number in 0..600 * NUMBERS {
        let most = if random.one_in(20) { 1024 } else { 60 };
        let nodes = random.between(2, most);
        both_calls(tally, &table(random, number, nodes))?;
    }
    Ok(())
}

/// Programs in which a code with fewer entries than others goes on.
pub fn codes(tally: &mut Tally, random: &mut Random) -> Result<(), Difference> {
    for _ in 0..8000 {
        let most = if random.one_in(20) { 1024 } else { 150 };
        let nodes = random.between(6, most);
        let traps = random.between(1, 62);
        both_calls(tally, &choices(random, nodes))?;
        both_calls(tally, &stages(random, nodes))?;
        both_calls(tally, &through_traps(random, traps))?;
    }
    Ok(())
}

#[cfg(test)]
mod tests {
    use super::*;

    #[test]
    fn the_name_gives_the_number_of_tables() {
        let mut tables = 0;
        every_whole(&mut |_| tables += 1);
        assert_eq!(tables, 2_355_328);
    }
}
