//! Statement tables of pure Esterel, read from documents 01 and 02 alone: all of
//! document 01, as F-5, F-7 and F-11 of document 02 amend it, the programs as text of F-1 in
//! the dialect of F-9, the ticks of F-2, the blocks of F-4, the narrowed sets of F-8, the
//! greatest number of entries of a start of F-10, the questions of F-12, and the start sets by
//! trial of F-13.
//!
//! The specification is in `table`, `checks`, `sets`, `analysis`, `listing`, `held`,
//! `instant`, `text`, `tick`, `blocks`, `narrow`, `first_tick`, `question` and `by_trial`, with
//! `best` for the lists of `tick` and `first_tick`. What F-6 says of runs is for tests to try:
//! `reentry` and `account` tell what is entered again in an instant.
//! `support` serves the tests and the generators.

pub mod account;
pub mod analysis;
pub mod best;
pub mod blocks;
pub mod by_trial;
pub mod checks;
pub mod first_tick;
pub mod held;
pub mod instant;
pub mod listing;
pub mod narrow;
pub mod question;
pub mod reentry;
pub mod sets;
pub mod support;
pub mod table;
pub mod text;
pub mod tick;

pub use analysis::{analyse, Sets};
pub use blocks::{fetch, part, Fetched};
pub use by_trial::{trial, Tried};
pub use first_tick::{first_tick, first_tick_answers, first_tick_line, reaches};
pub use held::{held_nodes, packed, Held, STATE_BYTES};
pub use instant::{resume, resume_with_trail, start, start_with_trail, Closed, Entry, How};
pub use listing::listing;
pub use narrow::narrow;
pub use question::{ask, Known};
pub use text::place::Placed;
pub use text::{read, read_place};
pub use tick::{find_tick, tick_line, Tick};

/// The number of a failed check and the lowest node that it fits.
#[derive(Clone, Copy, Debug, PartialEq, Eq)]
pub struct Refusal {
    pub number: u32,
    pub node: usize,
}

impl Refusal {
    pub fn at(number: u32, node: usize) -> Refusal {
        Refusal { number, node }
    }

    /// For the checks that name no node and hand back node 0.
    pub fn whole(number: u32) -> Refusal {
        Refusal { number, node: 0 }
    }
}
