//! Runs from fresh starts, through all instants. Our marks are held against the nodes that
//! the trail of compare has twice, and our states and entries against that trail.

use compare::support::cases::Call;
use compare::support::every::{deciding_in_runs, every_table};
use compare::support::families;
use compare::support::frames::framed;
use compare::support::programs::{accepted, any_shape, ALL_SHAPES};
use compare::support::random::Random;
use compare::support::reentries::check_marks_of;
use compare::support::runs::{self, every_instant};
use compare::table::{self, Tree};
use compare::{packed, Sets, STATE_BYTES};

use super::first_difference;
use crate::tally::{Difference, Tally};
use crate::trials::{Analysis, Instant};

pub const SMALL: &str = "56,654 programs, all runs and marks: all of up to 7 nodes over 10 letters";
const SMALL_NODES: usize = 7;

pub const DROPPED: &str =
    "4,119 programs, all runs and marks: statements of up to 5 nodes that are dropped";
const DROPPED_NODES: usize = 5;

pub fn small(tally: &mut Tally, _random: &mut Random) -> Result<(), Difference> {
    all_runs(tally, every_small)
}

pub fn dropped(tally: &mut Tally, _random: &mut Random) -> Result<(), Difference> {
    all_runs(tally, every_dropped)
}

/// Of all shapes, some of them put where they are dropped.
pub fn drawn(tally: &mut Tally, random: &mut Random) -> Result<(), Difference> {
    for number in 0..100 * ALL_SHAPES {
        let most = *random.pick(&[12, 40, 200, 1024]);
        let nodes = random.between(1, most);
        let table = accepted(random, any_shape(number), nodes);
        one_run(tally, random, &table)?;
        let nodes = random.between(1, 60);
        let statement = accepted(random, any_shape(number), nodes);
        for table in framed(&statement) {
            one_run(tally, random, &table)?;
        }
    }
    Ok(())
}

/// The analyses come last, so that they don't hide what the runs tell of our marks.
fn all_runs(tally: &mut Tally, every: fn(Visit)) -> Result<(), Difference> {
    every_program(every, |table| every_run(tally, table))?;
    every_program(every, |table| compare_analysis(tally, table))
}

type Visit<'a> = &'a mut dyn FnMut(&[u8]);

fn every_small(visit: Visit) {
    every_table(&deciding_in_runs(), SMALL_NODES, visit);
}

fn every_dropped(visit: Visit) {
    every_table(&deciding_in_runs(), DROPPED_NODES, |statement| {
        framed(statement).iter().for_each(|table| visit(table));
    });
}

/// The tables that are accepted.
fn every_program(
    every: fn(Visit),
    mut compare: impl FnMut(&[u8]) -> Result<(), Difference>,
) -> Result<(), Difference> {
    first_difference(every, |table| match Sets::of(table) {
        Ok(_) => compare(table),
        Err(_) => Ok(()),
    })
}

fn every_run(tally: &mut Tally, table: &[u8]) -> Result<(), Difference> {
    let program = Program::of(tally, table);
    every_instant(table, |instant| {
        let trial = match &instant.before {
            None => Instant::new(Call::Start, table, &instant.answers, &[9; STATE_BYTES]),
            Some(held) => Instant::new(Call::Resume, table, &instant.answers, &packed(held)),
        };
        program.compare(tally, &trial, instant)
    })
}

fn one_run(tally: &mut Tally, random: &mut Random, table: &[u8]) -> Result<(), Difference> {
    let program = Program::of(tally, table);
    for case in families::run(random, table) {
        let instant = runs::Instant::of(table, case.before().as_deref(), &case.answers);
        let instant = instant.expect("an instant that closes");
        program.compare(tally, &Instant::of(&case), &instant)?;
    }
    compare_analysis(tally, table)
}

fn compare_analysis(tally: &mut Tally, table: &[u8]) -> Result<(), Difference> {
    tally.compare(&Analysis::new(table))?;
    Ok(())
}

/// An accepted program with the marks that our side gives it.
pub struct Program<'a> {
    table: &'a [u8],
    tree: Tree,
    marks: Vec<u8>,
}

impl Program<'_> {
    pub fn of<'a>(tally: &Tally, table: &'a [u8]) -> Program<'a> {
        let (_, mut analysis) = tally.ours(&Analysis::new(table));
        Program {
            table,
            tree: table::read(table).expect("an accepted table"),
            marks: analysis.marks.lent().to_vec(),
        }
    }

    /// Compares an instant, and what our side gives with the trail of it.
    pub fn compare(
        &self,
        tally: &mut Tally,
        trial: &Instant,
        instant: &runs::Instant,
    ) -> Result<(), Difference> {
        let (_, mut ours) = tally.compare_and_keep(trial)?;
        let entries = ours.answer.lent()[2];
        if ours.state.lent() != packed(&instant.after) || entries != instant.trail.len() as u64 {
            return Err(self.difference(format!("state or entries of {instant:?}")));
        }
        check_marks_of(&self.tree, &self.marks, instant)
            .map_err(|unmarked| self.difference(format!("without a mark: {unmarked:?}")))
    }

    fn difference(&self, what: String) -> Difference {
        let (table, marks) = (self.table, &self.marks);
        Difference::new(format!(
            "difference in a run: {what}\n  table: {table:?}\n  our marks: {marks:?}\n"
        ))
    }
}

#[cfg(test)]
mod tests {
    use super::*;

    fn count(every: fn(Visit)) -> usize {
        let mut programs = 0;
        let counted = every_program(every, |_| {
            programs += 1;
            Ok(())
        });
        counted.expect("nothing is compared");
        programs
    }

    #[test]
    fn the_names_give_the_numbers_of_programs() {
        assert_eq!(count(every_small), 56_654);
        assert_eq!(count(every_dropped), 4_119);
    }
}
