//! The groups of calls that are tried.

use compare::support::cases::Case;
use compare::support::random::Random;

use crate::tally::{Difference, Tally};
use crate::trials::Instant;

pub mod blocks;
mod exhaustive;
pub mod instants;
pub mod lengths;
pub mod narrowings;
pub mod plans;
pub mod questions;
pub mod refusals;
pub mod runs;
mod tables;
pub mod texts;
pub mod ticks;
mod token_lists;
pub mod tried;

pub struct Group {
    pub name: &'static str,
    pub run: fn(&mut Tally, &mut Random) -> Result<(), Difference>,
    /// Whether other random numbers give other calls.
    pub random: bool,
}

pub const GROUPS: [Group; 76] = [
    Group {
        name: "Table W and the edges",
        run: tables::edges,
        random: false,
    },
    Group {
        name: exhaustive::ALL,
        run: exhaustive::all,
        random: false,
    },
    Group {
        name: exhaustive::WHOLE,
        run: exhaustive::whole,
        random: false,
    },
    Group {
        name: "analysis, listing, tick and first tick of accepted programs up to 1,024 nodes",
        run: tables::accepted_programs,
        random: true,
    },
    Group {
        name: "analysis, listing, tick and first tick of damaged tables",
        run: tables::damaged,
        random: true,
    },
    Group {
        name: "instants of damaged tables",
        run: instants::damaged,
        random: true,
    },
    Group {
        name: "all admitted states of small programs",
        run: instants::small,
        random: true,
    },
    Group {
        name: "instants of programs up to 1,024 nodes",
        run: instants::larger,
        random: true,
    },
    Group {
        name: runs::SMALL,
        run: runs::small,
        random: false,
    },
    Group {
        name: runs::DROPPED,
        run: runs::dropped,
        random: false,
    },
    Group {
        name: "runs and marks of programs up to 1,024 nodes",
        run: runs::drawn,
        random: true,
    },
    Group {
        name: "instants with the most entries",
        run: instants::ladders,
        random: true,
    },
    Group {
        name: "code 63 up to the outermost of 62 traps",
        run: instants::last_code,
        random: true,
    },
    Group {
        name: "states that are not admitted",
        run: instants::inadmissible,
        random: true,
    },
    Group {
        name: "stray bits at every position",
        run: instants::stray_bits,
        random: true,
    },
    Group {
        name: "starved, exact and overlong answers",
        run: instants::answer_counts,
        random: true,
    },
    Group {
        name: "lengths of buffers",
        run: lengths::run,
        random: true,
    },
    Group {
        name: "states of 0 to 200 bytes",
        run: lengths::states,
        random: true,
    },
    Group {
        name: "answers of 0 to 8 entries: Table W and the edges",
        run: refusals::edges,
        random: false,
    },
    Group {
        name: "answers of 0 to 8 entries: damaged tables, refused instants",
        run: refusals::damaged,
        random: true,
    },
    Group {
        name: "refused by check 11, when the start sets are known",
        run: refusals::check_11,
        random: true,
    },
    Group {
        name: "ticks at the edges, with answers of all lengths",
        run: ticks::edges,
        random: false,
    },
    Group {
        name: "ticks of tables up to 1,024 nodes",
        run: ticks::tables,
        random: true,
    },
    Group {
        name: "ticks of trees whose lists are of one length",
        run: ticks::trees,
        random: true,
    },
    Group {
        name: "ticks of long lists",
        run: ticks::long_lists,
        random: true,
    },
    Group {
        name: "first ticks at the edges, with answers of all lengths",
        run: plans::edges,
        random: false,
    },
    Group {
        name: plans::ALL,
        run: plans::all,
        random: false,
    },
    Group {
        name: "first ticks of tables up to 1,024 nodes",
        run: plans::drawn,
        random: true,
    },
    Group {
        name: "first ticks of programs whose codes have numbers of their own",
        run: plans::codes,
        random: true,
    },
    Group {
        name: "texts at the edges, in a thread with 8 MiB of stack",
        run: texts::edges,
        random: false,
    },
    Group {
        name: token_lists::ALL,
        run: token_lists::all,
        random: false,
    },
    Group {
        name: token_lists::IN_DIALECT,
        run: token_lists::in_dialect,
        random: false,
    },
    Group {
        name: token_lists::RIGHT,
        run: token_lists::right,
        random: false,
    },
    Group {
        name: token_lists::LONGER,
        run: token_lists::longer,
        random: false,
    },
    Group {
        name: "texts of tokens that are drawn, right up to the last and beyond",
        run: token_lists::drawn,
        random: true,
    },
    Group {
        name: "printed programs, around all limits",
        run: texts::printed_programs,
        random: true,
    },
    Group {
        name: "printed programs with a token spoilt",
        run: texts::spoilt_tokens,
        random: true,
    },
    Group {
        name: "printed programs with a byte spoilt, or cut off",
        run: texts::spoilt_bytes,
        random: true,
    },
    Group {
        name: "printed programs of the dialect, around all limits",
        run: texts::printed_in_dialect,
        random: true,
    },
    Group {
        name: "printed programs of the dialect with a token spoilt",
        run: texts::spoilt_tokens_in_dialect,
        random: true,
    },
    Group {
        name: "printed programs of the dialect with a byte spoilt, or cut off",
        run: texts::spoilt_bytes_in_dialect,
        random: true,
    },
    Group {
        name: "texts with tables and answers of all lengths",
        run: texts::lengths,
        random: true,
    },
    Group {
        name: "blocks at the edges, with tables and answers of all lengths",
        run: blocks::edges,
        random: false,
    },
    Group {
        name: blocks::ALL,
        run: blocks::all,
        random: false,
    },
    Group {
        name: "tables of every length, stored among other blocks",
        run: blocks::every_table,
        random: true,
    },
    Group {
        name: "blocks with every byte changed",
        run: blocks::damaged,
        random: false,
    },
    Group {
        name: "files of blocks of every length up to five, and around 64",
        run: blocks::cut,
        random: true,
    },
    Group {
        name: "files of up to five blocks in every order",
        run: blocks::orders,
        random: true,
    },
    Group {
        name: "files of up to 64 blocks and more",
        run: blocks::drawn,
        random: true,
    },
    Group {
        name: "files of blocks with tables and answers of all lengths",
        run: blocks::lengths,
        random: true,
    },
    Group {
        name: "narrowed sets at the edges, with ties, sets and answers of all lengths",
        run: narrowings::edges,
        random: false,
    },
    Group {
        name: narrowings::ALL,
        run: narrowings::all,
        random: false,
    },
    Group {
        name: narrowings::LONGER,
        run: narrowings::longer,
        random: false,
    },
    Group {
        name: narrowings::NESTED,
        run: narrowings::nested,
        random: false,
    },
    Group {
        name: "narrowed sets of programs up to 1,024 nodes",
        run: narrowings::drawn,
        random: true,
    },
    Group {
        name: "narrowed sets of damaged tables",
        run: narrowings::damaged,
        random: true,
    },
    Group {
        name: "ties with every byte at every place",
        run: narrowings::every_byte,
        random: false,
    },
    Group {
        name: "ties, narrowed sets and answers of all lengths",
        run: narrowings::lengths,
        random: true,
    },
    Group {
        name: "questions at the edges, with answers of 0 to 8 entries",
        run: questions::edges,
        random: false,
    },
    Group {
        name: questions::ALL,
        run: questions::all,
        random: false,
    },
    Group {
        name: questions::LONGER,
        run: questions::longer,
        random: false,
    },
    Group {
        name: "questions for every code of all nodes of programs up to 60 nodes",
        run: questions::small,
        random: true,
    },
    Group {
        name: "questions for every code of all nodes under up to 62 traps",
        run: questions::traps,
        random: true,
    },
    Group {
        name: "questions of programs up to 1,024 nodes",
        run: questions::larger,
        random: true,
    },
    Group {
        name: "questions of damaged tables",
        run: questions::damaged,
        random: true,
    },
    Group {
        name: "questions of huge numbers",
        run: questions::huge,
        random: true,
    },
    Group {
        name: "start sets by trial at the edges, with answers of 0 to 8 entries",
        run: tried::edges,
        random: false,
    },
    Group {
        name: tried::ALL,
        run: tried::all,
        random: false,
    },
    Group {
        name: tried::LONGER,
        run: tried::longer,
        random: false,
    },
    Group {
        name: tried::EACH_LIST,
        run: tried::each_list,
        random: false,
    },
    Group {
        name: "start sets by trial of all nodes of programs up to 60 nodes",
        run: tried::small,
        random: true,
    },
    Group {
        name: "start sets by trial under up to 62 traps",
        run: tried::traps,
        random: true,
    },
    Group {
        name: "start sets by trial of programs up to 1,024 nodes with few presents",
        run: tried::few_presents,
        random: true,
    },
    Group {
        name: "start sets by trial of nodes of programs up to 1,024 nodes",
        run: tried::larger,
        random: true,
    },
    Group {
        name: "start sets by trial of damaged tables",
        run: tried::damaged,
        random: true,
    },
    Group {
        name: "start sets by trial of huge nodes",
        run: tried::huge,
        random: true,
    },
];

/// Compares each table that is visited. The first difference is the one that counts.
fn first_difference(
    every: impl FnOnce(&mut dyn FnMut(&[u8])),
    mut compare: impl FnMut(&[u8]) -> Result<(), Difference>,
) -> Result<(), Difference> {
    let mut outcome = Ok(());
    every(&mut |table| {
        if outcome.is_ok() {
            outcome = compare(table);
        }
    });
    outcome
}

fn compare_all(tally: &mut Tally, cases: &[Case]) -> Result<(), Difference> {
    for case in cases {
        tally.compare(&Instant::of(case))?;
    }
    Ok(())
}
