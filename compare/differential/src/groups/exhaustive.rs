//! Every table of few nodes over a small alphabet; for an accepted one every
//! state of bits of its nodes, and every list of answers that it can take.

use compare::support::answers::every_list;
use compare::support::cases::Call;
use compare::support::every::{every_table, Letter};
use compare::support::random::Random;
use compare::support::ties::{tied, ABSENT};
use compare::STATE_BYTES;

use super::{first_difference, plans};
use crate::tally::{Difference, Tally};
use crate::trials::{Analysis, Asking, Finding, Instant, Narrowing, Rendering, Trying};

/// All kinds; an emit of the first and of the last signal; exits to the first three
/// traps.
const STATEMENTS: [Letter; 14] = [
    ([1, 0], 0),
    ([2, 0], 0),
    ([3, 0], 0),
    ([3, 255], 0),
    ([4, 0], 0),
    ([4, 1], 0),
    ([4, 2], 0),
    ([5, 3], 1),
    ([6, 3], 2),
    ([7, 3], 1),
    ([8, 0], 1),
    ([9, 0], 2),
    ([10, 0], 2),
    ([11, 0], 1),
];

/// An unknown kind, and a field that is not 0.
const FAULTS: [[u8; 2]; 2] = [[12, 0], [9, 1]];

pub const ALL: &str = "1,118,481 tables: all of up to 5 nodes over 16 letters";
const MOST_NODES: usize = 5;

pub const WHOLE: &str = "224,728 tables: all of 6 nodes over 14 letters that are one statement";
const WHOLE_NODES: usize = 6;

/// Long enough for the listing of so few nodes.
const TEXT: usize = 160;

/// The answers that are lent for a tick: none, one too few, as many as are needed, and
/// more.
const LENT: [usize; 4] = [0, 511, 512, 520];

pub fn all(tally: &mut Tally, _random: &mut Random) -> Result<(), Difference> {
    all_from(&mut Vec::new(), &mut |table| every_call(tally, table))
}

pub fn whole(tally: &mut Tally, _random: &mut Random) -> Result<(), Difference> {
    first_difference(every_whole, |table| every_call(tally, table))
}

type Visit<'a> = &'a mut dyn FnMut(&[u8]) -> Result<(), Difference>;

/// The table itself, and all that begin with it.
fn all_from(table: &mut Vec<u8>, visit: Visit) -> Result<(), Difference> {
    visit(table)?;
    if table.len() == 2 * MOST_NODES {
        return Ok(());
    }
    let statements = STATEMENTS.iter().map(|(letter, _)| letter);
    for letter in statements.chain(&FAULTS) {
        table.extend(letter);
        all_from(table, visit)?;
        table.truncate(table.len() - 2);
    }
    Ok(())
}

/// Of this size alone: smaller ones are among those of `all`.
fn every_whole(visit: &mut dyn FnMut(&[u8])) {
    every_table(&STATEMENTS, WHOLE_NODES, |table| {
        if table.len() == 2 * WHOLE_NODES {
            visit(table);
        }
    });
}

fn every_call(tally: &mut Tally, table: &[u8]) -> Result<(), Difference> {
    let size = table.len() / 2;
    let is_accepted = tally.compare(&Analysis::new(table))? == 0;
    tally.compare(&Rendering::new(table, TEXT))?;
    for length in LENT {
        tally.compare(&Finding::with_answers(table, length))?;
    }
    tally.compare(&Narrowing::new(table, &tied(&[(3, ABSENT)])))?;
    plans::both_calls(tally, table)?;
    tally.compare(&Asking::new(table, size.saturating_sub(1) as u64, 1))?;
    // Outside, where nothing is started.
    tally.compare(&Trying::new(table, size as u64))?;
    every_answer_list(tally, Call::Start, table, &[9; STATE_BYTES])?;
    // A refused table is refused from any state.
    let states = if is_accepted { 1 << size } else { 1 };
    for subset in 0..states {
        // So few nodes are bits of the first byte.
        let mut state = [0; STATE_BYTES];
        state[0] = subset;
        every_answer_list(tally, Call::Resume, table, &state)?;
    }
    Ok(())
}

fn every_answer_list(
    tally: &mut Tally,
    call: Call,
    table: &[u8],
    state: &[u8],
) -> Result<(), Difference> {
    every_list(|answers| {
        let returned = tally.compare(&Instant::new(call, table, answers, state))?;
        Ok(returned == 13)
    })
}

#[cfg(test)]
mod tests {
    use super::*;

    #[test]
    fn the_names_give_the_numbers_of_tables() {
        let mut tables = 0;
        let mut count = |_: &[u8]| {
            tables += 1;
            Ok(())
        };
        all_from(&mut Vec::new(), &mut count).expect("nothing is compared");
        assert_eq!(tables, 1_118_481);

        let mut tables = 0;
        every_whole(&mut |table| {
            tables += 1;
            assert!(compare::table::read(table).is_ok());
        });
        assert_eq!(tables, 224_728);
    }
}
