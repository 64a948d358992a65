//! Runs of accepted programs from their fresh start.

use std::collections::{HashSet, VecDeque};

use super::answers::every_list;
use crate::held::{held_nodes, packed, STATE_BYTES};
use crate::instant::SIGNALS;
use crate::{resume_with_trail, start_with_trail, Closed, Entry, Refusal};

/// An instant that has closed.
#[derive(Clone, Debug)]
pub struct Instant {
    /// The pauses held before, lowest first, or none for a start.
    pub before: Option<Vec<usize>>,
    pub answers: Vec<u8>,
    pub closed: Closed,
    pub trail: Vec<Entry>,
    /// The pauses held afterwards, lowest first.
    pub after: Vec<usize>,
}

impl Instant {
    /// Resumes the program from the pauses held before or, without them, starts it.
    pub fn of(table: &[u8], before: Option<&[usize]>, answers: &[u8]) -> Result<Instant, Refusal> {
        let (call, mut state): (Call, [u8; STATE_BYTES]) = match before {
            None => (start_with_trail, [0xff; STATE_BYTES]),
            Some(held) => (resume_with_trail, packed(held)),
        };
        let (closed, trail) = call(table, answers, &mut state, &mut [0; SIGNALS])?;
        Ok(Instant {
            before: before.map(<[usize]>::to_vec),
            answers: answers.to_vec(),
            closed,
            trail,
            after: held_nodes(&state),
        })
    }
}

type Call = fn(&[u8], &[u8], &mut [u8], &mut [u8]) -> Result<(Closed, Vec<Entry>), Refusal>;

/// The run with these answers for its instants.
pub fn run(table: &[u8], steps: &[Vec<u8>]) -> Result<Vec<Instant>, Refusal> {
    let mut instants: Vec<Instant> = Vec::new();
    for answers in steps {
        let before = instants.last().map(|last| &last.after[..]);
        let instant = Instant::of(table, before, answers)?;
        instants.push(instant);
    }
    Ok(instants)
}

/// Visits every instant of every run: the start and the resumptions from all states that
/// are reached, with all lists of answers. The visitor's first error ends it. Only small
/// programs have few enough of both.
pub fn every_instant<E>(
    table: &[u8],
    mut visit: impl FnMut(&Instant) -> Result<(), E>,
) -> Result<(), E> {
    let mut reached = HashSet::new();
    let mut due = VecDeque::from([None]);
    while let Some(before) = due.pop_front() {
        every_instant_from(table, before.as_deref(), |instant| {
            visit(&instant)?;
            if instant.closed.code == 1 && reached.insert(instant.after.clone()) {
                due.push_back(Some(instant.after));
            }
            Ok(())
        })?;
    }
    Ok(())
}

/// Visits the instants from one state, or the starts, with all lists of answers.
pub fn every_instant_from<E>(
    table: &[u8],
    before: Option<&[usize]>,
    mut visit: impl FnMut(Instant) -> Result<(), E>,
) -> Result<(), E> {
    every_list(|answers| match Instant::of(table, before, answers) {
        Ok(instant) => visit(instant).map(|()| false),
        Err(refusal) => {
            assert_eq!(refusal.number, 13, "{table:?} from {before:?}");
            Ok(true)
        }
    })
}
