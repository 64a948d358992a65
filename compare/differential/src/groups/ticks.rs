//! The ticks of refused loops.

use compare::support::random::Random;
use compare::support::tick_edges::edges as tick_edges;
use compare::support::ticks::{even_trees, one_list, table, NUMBERS};

use crate::tally::{Difference, Tally};
use crate::trials::{Finding, Trial};

/// The lengths of the lent answers; 512 are needed.
const LENT: [usize; 7] = [0, 1, 511, 512, 513, 600, 2048];

pub fn edges(tally: &mut Tally, _random: &mut Random) -> Result<(), Difference> {
    for edge in tick_edges() {
        for length in LENT {
            let trial = Finding::with_answers(&edge.table, length);
            tally.compare(&trial)?;
            tally.compare(&trial.with_answer(length % 5))?;
        }
    }
    Ok(())
}

/// Small ones many times, and some large ones.
pub fn tables(tally: &mut Tally, random: &mut Random) -> Result<(), Difference> {
    for number in 0..400 * NUMBERS {
        let most = if random.one_in(20) { 1024 } else { 60 };
        let nodes = random.between(2, most);
        tally.compare(&Finding::new(&table(random, number, nodes)))?;
    }
    Ok(())
}

pub fn trees(tally: &mut Tally, random: &mut Random) -> Result<(), Difference> {
    for _ in 0..20_000 {
        tally.compare(&Finding::new(&even_trees(random)))?;
    }
    Ok(())
}

/// Bodies that end with one list alone.
pub fn long_lists(tally: &mut Tally, random: &mut Random) -> Result<(), Difference> {
    for _ in 0..3000 {
        let most = *random.pick(&[60, 300, 1024]);
        let nodes = random.between(2, most);
        let (table, _) = one_list(random, nodes);
        tally.compare(&Finding::new(&table))?;
    }
    Ok(())
}
