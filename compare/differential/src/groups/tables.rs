//! Analyses, listings, ticks and first ticks.

use compare::checks::MOST_TRAPS;
use compare::listing;
use compare::support::damage::{bad_table, damaged as spoilt, BAD_NUMBERS};
use compare::support::edges::edges as edge_tables;
use compare::support::families;
use compare::support::programs::{accepted, ladder, longest_listing, SHAPES};
use compare::support::random::Random;

use super::{compare_all, plans};
use crate::tally::{Difference, Tally};
use crate::trials::{Analysis, Finding, Rendering};

pub fn edges(tally: &mut Tally, random: &mut Random) -> Result<(), Difference> {
    for edge in edge_tables() {
        all_but_instants(tally, &edge.table)?;
    }
    for steps in 1..=MOST_TRAPS {
        all_but_instants(tally, &ladder(steps))?;
    }
    all_but_instants(tally, &longest_listing())?;
    compare_all(tally, &families::edges(random, usize::MAX))
}

pub fn accepted_programs(tally: &mut Tally, random: &mut Random) -> Result<(), Difference> {
    for number in 0..9000 {
        let most = *random.pick(&[40, 250, 1024]);
        let nodes = random.between(1, most);
        let table = accepted(random, &SHAPES[number % SHAPES.len()], nodes);
        all_but_instants(tally, &table)?;
    }
    Ok(())
}

/// Small ones many times, and some large ones.
pub fn damaged(tally: &mut Tally, random: &mut Random) -> Result<(), Difference> {
    for number in 0..60_000 {
        let table = bad_table(random, number % BAD_NUMBERS);
        all_but_instants(tally, &table)?;
    }
    for number in 0..2000 {
        let table = accepted(random, &SHAPES[number % SHAPES.len()], 1024);
        all_but_instants(tally, &spoilt(random, &table))?;
    }
    Ok(())
}

/// With buffers of exactly the lengths needed.
fn all_but_instants(tally: &mut Tally, table: &[u8]) -> Result<(), Difference> {
    tally.compare(&Analysis::new(table))?;
    tally.compare(&Rendering::new(table, listing(table).len()))?;
    tally.compare(&Finding::new(table))?;
    plans::both_calls(tally, table)
}
