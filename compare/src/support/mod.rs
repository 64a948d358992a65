//! What the tests, the generators and the comparisons share: hexadecimal,
//! random numbers, vector files, tables, instants, starts, runs, files of blocks,
//! ties, questions and nodes to try, and how the generators write them.

pub mod answers;
pub mod arguments;
pub mod block_calls;
pub mod block_edges;
pub mod block_files;
pub mod blocks;
pub mod bodies;
pub mod byte_states;
pub mod calls;
pub mod cases;
pub mod chart;
pub mod damage;
pub mod derivations;
pub mod dialect_edges;
pub mod edges;
pub mod every;
pub mod families;
pub mod files;
pub mod frames;
pub mod hex;
pub mod links;
pub mod narrow_edges;
pub mod narrowings;
pub mod nodes;
pub mod numbers;
pub mod older_texts;
pub mod partitions;
pub mod plan_edges;
pub mod plans;
pub mod printer;
pub mod programs;
pub mod question_edges;
pub mod questions;
pub mod random;
pub mod reentries;
pub mod runs;
pub mod starts;
pub mod states;
pub mod stray;
pub mod text_edges;
pub mod texts;
pub mod tick_edges;
pub mod ticks;
pub mod tied_starts;
pub mod ties;
pub mod tried;
pub mod tried_edges;
pub mod vectors;
pub mod wrong_blocks;
pub mod wrong_marks;
pub mod wrong_plans;
pub mod wrong_questions;
pub mod wrong_readers;
pub mod wrong_states;
pub mod wrong_ties;
pub mod wrong_tried;

/// The seed of every generated table and instant.
pub const SEED: u64 = 0x0104_2004;
