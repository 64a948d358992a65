//! The text of the listing program.

use std::fmt::Write;

use crate::{Refusal, Sets};

/// The listing of a table, or its refusal line.
pub fn listing(table: &[u8]) -> String {
    match accepted_listing(table) {
        Ok(text) => text,
        Err(refusal) => refusal_line(refusal),
    }
}

pub fn refusal_line(refusal: Refusal) -> String {
    format!("refused {} {}\n", refusal.number, refusal.node)
}

fn accepted_listing(table: &[u8]) -> Result<String, Refusal> {
    let sets = Sets::of(table)?;
    let (size, loop_depth) = (table.len() / 2, sets.loop_depth);
    let mut text = format!("ok {} {} {}\n", size, loop_depth, size * (1 + loop_depth));
    for (node, bytes) in table.chunks_exact(2).enumerate() {
        writeln!(
            text,
            "{} {} {} {:x} {:x} {:x} {}",
            node,
            bytes[0],
            bytes[1],
            sets.start_sets[node],
            sets.any_sets[node],
            sets.contexts[node],
            sets.marks[node]
        )
        .expect("writing to a string cannot fail");
    }
    Ok(text)
}
