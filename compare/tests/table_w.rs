//! Table W of document 01.

use compare::support::edges::*;
use compare::{listing, packed, resume, start, Closed, Refusal, Sets, STATE_BYTES};

#[test]
fn w1_is_listed_as_the_document_prints_it() {
    let text = "ok 4 1 8\n0 2 0 2 3 1 1\n1 3 7 1 1 0 0\n2 9 0 2 3 1 1\n3 8 0 2 2 0 0\n";
    assert_eq!(listing(W1), text);
}

#[test]
fn refused_ones() {
    assert_eq!(listing(W2), "refused 11 1\n");
    assert_eq!(listing(W4), "refused 11 2\n");
    assert_eq!(listing(W5), "refused 10 0\n");
    assert_eq!(listing(W6), "refused 11 3\n");
    assert_eq!(listing(W8), "refused 11 7\n");
}

#[test]
fn w3_and_w7_pause_when_started() {
    assert_eq!(last_start_set(W3), Ok(1 << 1));
    assert_eq!(last_start_set(W7), Ok(1 << 1));
}

fn last_start_set(table: &[u8]) -> Result<u64, Refusal> {
    Ok(Sets::of(table)?.start_sets[table.len() / 2 - 1])
}

#[test]
fn w9_started_and_resumed() {
    let mut state = [9; STATE_BYTES];
    let mut emissions = [9; 256];
    let closed = start(W1, &[], &mut state, &mut emissions).unwrap();
    assert_eq!(closed, Closed::new(1, 0, 3));
    assert_eq!(state, packed(&[0]));
    assert_eq!(emissions, [0; 256]);

    let closed = resume(W1, &[], &mut state, &mut emissions).unwrap();
    assert_eq!(closed, Closed::new(1, 0, 6));
    assert_eq!(state, packed(&[0]));
    let mut seven = [0; 256];
    seven[7] = 1;
    assert_eq!(emissions, seven);
}
