//! Refusals: what is returned says all, and nothing that is lent changes. Each
//! call is made with answers too short, exact and longer.

use compare::instant::SIGNALS;
use compare::support::cases::Call;
use compare::support::damage::{bad_table, BAD_NUMBERS};
use compare::support::edges::edges as edge_tables;
use compare::support::families;
use compare::support::programs::{accepted, balanced, SHAPES};
use compare::support::random::Random;
use compare::support::ties::ABSENT;
use compare::{checks, listing, Refusal, STATE_BYTES};

use crate::tally::{Difference, Tally};
use crate::trials::{
    Analysis, Asking, Finding, Instant, Narrowing, Planning, Rendering, Trial, Trying,
};

/// The entries of an answer.
const ANSWERS: [usize; 6] = [0, 1, 2, 3, 4, 8];

const SMALL: usize = 30;

pub fn edges(tally: &mut Tally, _random: &mut Random) -> Result<(), Difference> {
    for edge in edge_tables() {
        every_call(tally, &edge.table)?;
    }
    Ok(())
}

pub fn damaged(tally: &mut Tally, random: &mut Random) -> Result<(), Difference> {
    for number in 0..10 * BAD_NUMBERS {
        let table = bad_table(random, number % BAD_NUMBERS);
        every_call(tally, &table)?;
    }
    let states = families::inadmissible(random, 900, SMALL);
    let starved = families::answer_counts(random, 180, SMALL);
    for case in states.iter().chain(&starved) {
        every_answer(tally, &Instant::of(case))?;
    }
    Ok(())
}

/// The start sets are known when check 11 refuses: the lent ones must not show
/// it.
pub fn check_11(tally: &mut Tally, random: &mut Random) -> Result<(), Difference> {
    for table in refused_by_11(random) {
        every_call(tally, &table)?;
    }
    Ok(())
}

/// Tables that pass checks 1 to 10, but not 11.
fn refused_by_11(random: &mut Random) -> Vec<Vec<u8>> {
    let mut tables: Vec<Vec<u8>> = edge_tables().into_iter().map(|edge| edge.table).collect();
    // Refused at the last of 1,024 nodes, and at node 1 of 1,022.
    tables.push([&balanced(&[1, 0], 512, &[9, 0])[..], &[8, 0]].concat());
    tables.push(balanced(&[1, 0, 8, 0], 341, &[10, 0]));
    for number in 0..300 {
        let nodes = *random.pick(&[4, 12, 60, 1023]);
        let program = accepted(random, &SHAPES[number % SHAPES.len()], nodes);
        tables.push([&program[..], &[8, 0]].concat());
    }
    tables.retain(|table| is_refused_by_11(table));
    tables
}

fn is_refused_by_11(table: &[u8]) -> bool {
    let checked = checks::accept(table, |_| true);
    matches!(checked, Err(Refusal { number: 11, .. }))
}

/// With buffers of exactly the lengths needed and, for the sets, longer ones.
fn every_call(tally: &mut Tally, table: &[u8]) -> Result<(), Difference> {
    let size = table.len() / 2;
    every_answer(tally, &Analysis::new(table))?;
    every_answer(tally, &Analysis::with_lengths(table, [size + 5; 4]))?;
    for call in [Call::Start, Call::Resume] {
        every_answer(tally, &Instant::new(call, table, &[], &[9; STATE_BYTES]))?;
    }
    every_answer(tally, &Finding::new(table))?;
    every_answer(tally, &Finding::with_answers(table, 511))?;
    every_answer(
        tally,
        &Narrowing::with_sets(table, &[ABSENT; SIGNALS], size + 5),
    )?;
    every_answer(tally, &Planning::new(table))?;
    // The first node for an end, and the one after the last for a code above all.
    every_answer(tally, &Asking::new(table, 0, 0))?;
    every_answer(tally, &Asking::new(table, size as u64, 64))?;
    every_answer(tally, &Trying::new(table, 0))?;
    every_answer(tally, &Trying::new(table, size as u64))?;
    every_answer(tally, &Finding::new(table).of_most_entries())?;
    every_answer(tally, &Finding::with_answers(table, 511).of_most_entries())?;
    let text_length = listing(table).len();
    every_answer(tally, &Rendering::new(table, text_length))?;
    every_answer(tally, &Rendering::new(table, text_length - 1))
}

fn every_answer(tally: &mut Tally, trial: &impl Trial) -> Result<(), Difference> {
    for length in ANSWERS {
        tally.compare(&trial.clone().with_answer(length))?;
    }
    Ok(())
}

#[cfg(test)]
mod tests {
    use super::*;
    use compare::support::SEED;

    #[test]
    fn there_are_tables_of_all_sizes_for_check_11() {
        let tables = refused_by_11(&mut Random::new(SEED));
        let of_size = |least, most| {
            let sizes = tables.iter().map(|table| table.len() / 2);
            sizes.filter(|size| (least..=most).contains(size)).count()
        };
        let counts = [of_size(2, 9), of_size(10, 99), of_size(100, 1024)];
        assert!(counts.iter().all(|&count| count > 20), "{counts:?}");
        assert!(of_size(1024, 1024) > 0);
    }
}
