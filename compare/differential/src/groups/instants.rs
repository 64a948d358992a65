//! Starts and resumptions.

use compare::support::cases::Call;
use compare::support::families;
use compare::support::random::Random;
use compare::support::stray;
use compare::{packed, STATE_BYTES};

use super::compare_all;
use crate::tally::{Difference, Tally};
use crate::trials::Instant;

const SMALL: usize = 30;
const LARGE: usize = 1024;

pub fn damaged(tally: &mut Tally, random: &mut Random) -> Result<(), Difference> {
    compare_all(tally, &families::damaged(random, 80_000))
}

pub fn small(tally: &mut Tally, random: &mut Random) -> Result<(), Difference> {
    for _ in 0..160 {
        compare_all(tally, &families::small(random, 90))?;
    }
    Ok(())
}

pub fn larger(tally: &mut Tally, random: &mut Random) -> Result<(), Difference> {
    for _ in 0..80 {
        compare_all(tally, &families::larger(random, 36))?;
        compare_all(tally, &families::runs(random, 90, SMALL))?;
        compare_all(tally, &families::runs(random, 9, LARGE))?;
    }
    Ok(())
}

pub fn ladders(tally: &mut Tally, random: &mut Random) -> Result<(), Difference> {
    for _ in 0..200 {
        compare_all(tally, &families::ladders(random))?;
    }
    Ok(())
}

pub fn last_code(tally: &mut Tally, random: &mut Random) -> Result<(), Difference> {
    for _ in 0..100 {
        compare_all(tally, &families::last_code(random))?;
    }
    Ok(())
}

pub fn inadmissible(tally: &mut Tally, random: &mut Random) -> Result<(), Difference> {
    compare_all(tally, &families::inadmissible(random, 40_000, SMALL))?;
    compare_all(tally, &families::inadmissible(random, 1800, LARGE))
}

/// Each of the 1,024 bits of an admitted state changed, and a start over such bits.
pub fn stray_bits(tally: &mut Tally, random: &mut Random) -> Result<(), Difference> {
    for (table, held) in stray::programs(random) {
        let answers = random.bytes(40);
        for at in 0..8 * STATE_BYTES {
            let mut state = packed(&held);
            state[at / 8] ^= 1 << (at % 8);
            tally.compare(&Instant::new(Call::Resume, &table, &answers, &state))?;
            if at % 64 == 0 {
                tally.compare(&Instant::new(Call::Start, &table, &answers, &state))?;
            }
        }
    }
    Ok(())
}

pub fn answer_counts(tally: &mut Tally, random: &mut Random) -> Result<(), Difference> {
    compare_all(tally, &families::answer_counts(random, 6000, SMALL))?;
    compare_all(tally, &families::answer_counts(random, 540, LARGE))
}
