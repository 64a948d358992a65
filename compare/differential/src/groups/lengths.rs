//! Buffers too short, exact, and longer than needed.

use compare::listing;
use compare::support::cases::Call;
use compare::support::damage::damaged;
use compare::support::families;
use compare::support::programs::{accepted, SHAPES};
use compare::support::random::Random;
use compare::support::stray;
use compare::{packed, STATE_BYTES};

use crate::tally::{Difference, Tally};
use crate::trials::{Analysis, Finding, Instant, Rendering, Trial};

/// In a text of this length any listing fits.
const ANY_LISTING: usize = 67_584;

const TABLES: usize = 5000;

pub fn run(tally: &mut Tally, random: &mut Random) -> Result<(), Difference> {
    for number in 0..TABLES {
        let nodes = *random.pick(&[1, 4, 12, 60]);
        let mut table = accepted(random, &SHAPES[number % SHAPES.len()], nodes);
        if random.one_in(3) {
            table = damaged(random, &table);
        }
        analyses(tally, random, &table)?;
        renderings(tally, &table)?;
        findings(tally, &table)?;
    }
    for (at, case) in families::lengths(random, 1800).iter().enumerate() {
        let trial = Instant::of(case);
        tally.compare(&trial)?;
        tally.compare(&trial.with_answer(at % 8))?;
    }
    Ok(())
}

/// However few or many nodes there are, check 3 wants 128 bytes, and past them none changes.
pub fn states(tally: &mut Tally, random: &mut Random) -> Result<(), Difference> {
    for (table, held) in stray::programs(random) {
        let spoilt = damaged(random, &table);
        let answers = random.bytes(40);
        let old = [&packed(&held)[..], &random.bytes(200 - STATE_BYTES)].concat();
        for table in [&table, &spoilt] {
            for length in [0, 1, 64, 126, 127, 128, 129, 130, 136, 200] {
                let state = &old[..length];
                tally.compare(&Instant::new(Call::Start, table, &answers, state))?;
                tally.compare(&Instant::new(Call::Resume, table, &answers, state))?;
            }
        }
    }
    Ok(())
}

/// One buffer of another length than needed, or all of them.
fn analyses(tally: &mut Tally, random: &mut Random, table: &[u8]) -> Result<(), Difference> {
    let size = table.len() / 2;
    let others = [0, size.saturating_sub(1), size, size + 1, size + 9];
    for buffer in 0..4 {
        for other in others {
            let mut lengths = [size; 4];
            lengths[buffer] = other;
            tally.compare(&Analysis::with_lengths(table, lengths))?;
        }
    }
    for answer_length in 0..6 {
        let lengths = std::array::from_fn(|_| *random.pick(&others));
        tally.compare(&Analysis::with_lengths(table, lengths).with_answer(answer_length))?;
    }
    Ok(())
}

fn renderings(tally: &mut Tally, table: &[u8]) -> Result<(), Difference> {
    let exact = listing(table).len();
    for text_length in [0, 1, exact - 1, exact, exact + 1, exact + 9, ANY_LISTING] {
        tally.compare(&Rendering::new(table, text_length))?;
    }
    for answer_length in 0..6 {
        for text_length in [exact - 1, exact + 1] {
            tally.compare(&Rendering::new(table, text_length).with_answer(answer_length))?;
        }
    }
    Ok(())
}

fn findings(tally: &mut Tally, table: &[u8]) -> Result<(), Difference> {
    for answers_length in [0, 511, 512, 513, 1024] {
        tally.compare(&Finding::with_answers(table, answers_length))?;
        tally.compare(&Finding::with_answers(table, answers_length).of_most_entries())?;
    }
    for answer_length in 0..6 {
        for answers_length in [511, 512] {
            let trial = Finding::with_answers(table, answers_length);
            tally.compare(&trial.with_answer(answer_length))?;
            let trial = Finding::with_answers(table, answers_length).of_most_entries();
            tally.compare(&trial.with_answer(answer_length))?;
        }
    }
    Ok(())
}
