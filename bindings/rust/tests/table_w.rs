//! Table W of document 01 and the lock program of F-5, by value, and the examples as compare/
//! lists them.

mod common;

use std::fmt::Write;
use std::fs;
use std::path::Path;

use bavzhrono::{listing, Analysis, CodeSet, Completion, Mark, Sets};
use common::*;

#[test]
fn w1_has_the_sets_that_the_document_lists() {
    let sets = Sets::of(W1).unwrap();
    assert_eq!(sets.start_sets, [2, 1, 2, 2].map(CodeSet));
    assert_eq!(sets.any_sets, [3, 1, 3, 2].map(CodeSet));
    assert_eq!(sets.contexts, [1, 0, 1, 0].map(CodeSet));
    assert_eq!(sets.marks, [1, 0, 1, 0].map(Mark));
    let figures = Analysis {
        nodes: 4,
        loop_depth: 1,
    };
    assert_eq!(sets.analysis, figures);
    assert_eq!(sets.analysis.bound(), 8);
}

#[test]
fn w1_is_listed_as_the_document_prints_it() {
    assert_eq!(listing(W1), W1_LISTING);
}

#[test]
fn w2_is_refused() {
    assert_refused(W2, 11, 1);
}

#[test]
fn w3_pauses_when_started() {
    let sets = Sets::of(W3).unwrap();
    assert_eq!(sets.start_sets.last(), Some(&CodeSet(1 << 1)));
}

#[test]
fn w4_is_refused() {
    assert_refused(W4, 11, 2);
}

#[test]
fn w5_is_refused() {
    assert_refused(W5, 10, 0);
}

#[test]
fn w6_is_refused() {
    assert_refused(W6, 11, 3);
}

#[test]
fn w7_pauses_when_started() {
    let sets = Sets::of(W7).unwrap();
    assert_eq!(sets.start_sets.last(), Some(&CodeSet(1 << 1)));
}

#[test]
fn w8_is_refused() {
    assert_refused(W8, 11, 7);
}

#[test]
fn w9_started_and_resumed() {
    let mut lent = Buffers::for_table(W1, 0);
    let mut emissions = [0; 256];
    assert_eq!(lent.start(W1, &[]), closed(Completion::Paused, 0, 3));
    assert_eq!(lent.state, holding(&[0]));
    assert_eq!(lent.emissions, emissions);

    assert_eq!(lent.resume(W1, &[]), closed(Completion::Paused, 0, 6));
    assert_eq!(lent.state, holding(&[0]));
    emissions[7] = 1;
    assert_eq!(lent.emissions, emissions);
}

/// Node 1 only pauses, is dropped by its neighbour's exit, and is started again: it has a mark.
#[test]
fn the_lock_program_is_marked() {
    let sets = Sets::of(LOCK).unwrap();
    assert_eq!(sets.any_sets, [3, 2, 3, 4, 6, 6, 3, 2].map(CodeSet));
    assert_eq!(sets.contexts, [7, 7, 7, 0, 7, 5, 1, 0].map(CodeSet));
    assert_eq!(sets.marks, [1, 1, 1, 0, 1, 1, 1, 0].map(Mark));

    let mut lent = Buffers::for_table(LOCK, 0);
    assert_eq!(lent.start(LOCK, &[]), closed(Completion::Paused, 0, 7));
    assert_eq!(lent.resume(LOCK, &[]), closed(Completion::Paused, 0, 15));
    assert_eq!(lent.state, holding(&[0, 2]));
}

#[test]
fn examples_are_listed_as_compare_lists_them() {
    for (table, expected) in examples() {
        assert_eq!(listing(&table), expected);
    }
}

#[test]
fn examples_have_the_sets_that_compare_lists() {
    for (table, expected) in examples() {
        assert_eq!(listing_of_sets(&table), expected);
    }
}

/// The tables in the folder of examples, each with its listing.
fn examples() -> Vec<(Vec<u8>, String)> {
    let folder = Path::new(env!("CARGO_MANIFEST_DIR")).join("../../examples");
    let paths = fs::read_dir(folder)
        .unwrap()
        .map(|entry| entry.unwrap().path());
    let tables = paths.filter(|path| path.extension().is_some_and(|end| end == "table"));
    let examples: Vec<_> = tables
        .map(|path| {
            let listing = fs::read_to_string(path.with_extension("listing")).unwrap();
            (fs::read(path).unwrap(), listing)
        })
        .collect();
    assert!(!examples.is_empty());
    examples
}

/// The listing, written here from what `Sets` has.
fn listing_of_sets(table: &[u8]) -> String {
    let sets = match Sets::of(table) {
        Ok(sets) => sets,
        Err(refusal) => return format!("refused {} {}\n", refusal.number, refusal.node),
    };
    let figures = sets.analysis;
    let (n, d) = (figures.nodes, figures.loop_depth);
    let mut text = format!("ok {n} {d} {}\n", figures.bound());
    for (node, bytes) in table.chunks_exact(2).enumerate() {
        let (kind, field) = (bytes[0], bytes[1]);
        let (k, a) = (sets.start_sets[node].0, sets.any_sets[node].0);
        let (s, mark) = (sets.contexts[node].0, sets.marks[node]);
        writeln!(text, "{node} {kind} {field} {k:x} {a:x} {s:x} {mark}").unwrap();
    }
    text
}
