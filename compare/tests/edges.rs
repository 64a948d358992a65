//! The edges of document 01, with those of F-7, gone through value by value, and
//! instants at them.

use compare::support::edges::{edges, W3, W7};
use compare::support::states;
use compare::{listing, packed, resume, start, table, Closed, Held, Sets, STATE_BYTES};

/// All answers are absent; there are enough for any table.
const ABSENT: [u8; 4096] = [0; 4096];

fn around(leaf: &[u8], nodes: &[u8], times: usize) -> Vec<u8> {
    [leaf, &nodes.repeat(times)].concat()
}

fn start_sets(table: &[u8]) -> Vec<u64> {
    Sets::of(table).expect("an accepted table").start_sets
}

fn first_line(table: &[u8]) -> String {
    listing(table).lines().next().unwrap_or("").to_string()
}

#[test]
fn every_kind_byte_is_known_or_refused_by_4() {
    for kind in 0..=255 {
        let text = listing(&[2, 0, 2, 0, kind, 0, 9, 0]);
        let is_known = (1..=11).contains(&kind);
        assert_eq!(text == "refused 4 2\n", !is_known, "{kind}");
    }
}

#[test]
fn every_field_is_free_or_refused_by_5() {
    // Two pauses before the node are enough children for any kind.
    for kind in 1..=11 {
        for field in 1..=255 {
            let text = listing(&[2, 0, 2, 0, kind, field]);
            let is_free = [3, 4, 5, 6, 7].contains(&kind);
            assert_eq!(text == "refused 5 2\n", !is_free, "{kind} {field}");
        }
    }
}

#[test]
fn a_level_is_below_the_number_of_traps() {
    for traps in 0..=62 {
        for level in 0..=255 {
            let text = listing(&around(&[4, level], &[11, 0], traps));
            let is_caught = usize::from(level) < traps;
            assert_eq!(
                text == "refused 10 0\n",
                !is_caught,
                "{level} under {traps}"
            );
        }
    }
}

#[test]
fn more_than_62_traps_are_refused_by_9_at_the_innermost() {
    for traps in 0..=70 {
        let text = listing(&around(&[2, 0], &[11, 0], traps));
        assert_eq!(text == "refused 9 1\n", traps > 62, "{traps}");
    }
}

#[test]
fn an_exit_loses_a_level_at_each_trap() {
    let table = around(&[4, 61], &[11, 0], 62);
    let start_sets = start_sets(&table);
    for (node, set) in start_sets.iter().enumerate().take(62) {
        assert_eq!(*set, 1 << (63 - node), "{node}");
    }
    assert_eq!(start_sets[62], 1);

    let mut state = [9; STATE_BYTES];
    let answer = start(&table, &[], &mut state, &mut [9; 256]);
    assert_eq!(answer, Ok(Closed::new(0, 0, 63)));
    assert_eq!(state, [0; STATE_BYTES]);
}

#[test]
fn first_lines_at_the_limits() {
    let loops = around(&[2, 0], &[8, 0], 255);
    assert_eq!(first_line(&loops), "ok 256 255 65536");
    let full = edges()
        .into_iter()
        .find(|edge| edge.name == "2,048 bytes")
        .expect("the largest table");
    assert_eq!(first_line(&full.table), "ok 1024 1 2048");
    assert_eq!(first_line(&[1, 0]), "ok 1 0 1");
}

#[test]
fn instants_at_depth_256() {
    let suspends = around(&[2, 0], &[7, 1], 255);
    let held = packed(&[0]);
    let mut state = [9; STATE_BYTES];
    let answer = start(&suspends, &[], &mut state, &mut [0; 256]);
    assert_eq!(answer, Ok(Closed::new(1, 0, 256)));
    assert_eq!(state, held);

    let answer = resume(&suspends, &[0, 0, 1], &mut state, &mut [0; 256]);
    assert_eq!(answer, Ok(Closed::new(1, 3, 3)));
    assert_eq!(state, held);
    let answer = resume(&suspends, &ABSENT, &mut state, &mut [0; 256]);
    assert_eq!(answer, Ok(Closed::new(0, 255, 256)));
    assert_eq!(state, [0; STATE_BYTES]);

    // The innermost of 255 loops starts its body again, the others pause.
    let loops = around(&[2, 0], &[8, 0], 255);
    let mut state = held;
    let answer = resume(&loops, &[], &mut state, &mut [0; 256]);
    assert_eq!(answer, Ok(Closed::new(1, 0, 257)));
    assert_eq!(state, held);
}

#[test]
fn every_accepted_edge_runs_from_all_it_holds() {
    for edge in edges().iter().filter(|edge| edge.refusal.is_none()) {
        let tree = table::read(&edge.table).expect("an accepted table");
        let mut state = [9; STATE_BYTES];
        let closed = start(&edge.table, &ABSENT, &mut state, &mut [0; 256]);
        let closed = closed.unwrap_or_else(|refusal| panic!("{}: {refusal:?}", edge.name));
        let holds = !Held::read(&state).is_empty();
        assert_eq!(holds, closed.code == 1, "{}", edge.name);
        assert!(closed.entries <= tree.size(), "{}", edge.name);
        if states::pauses(&tree).len() > 12 {
            continue;
        }
        for held in states::all_admitted(&tree) {
            let answer = resume(&edge.table, &ABSENT, &mut packed(&held), &mut [0; 256]);
            assert!(answer.is_ok(), "{}", edge.name);
        }
    }
}

#[test]
fn an_answer_list_has_no_limit_of_length() {
    let present = [3, 1, 3, 2, 6, 0];
    let mut answers = vec![0; 1_000_000];
    answers[0] = 255;
    let mut emissions = [0; 256];
    let answer = start(&present, &answers, &mut [0; STATE_BYTES], &mut emissions);
    assert_eq!(answer, Ok(Closed::new(0, 1, 2)));
    assert_eq!(emissions[..3], [0, 1, 0]);
}

#[test]
fn the_sets_and_instants_of_w3() {
    // Worked out by hand: exits 1 and 0 in parallel give the larger code 3.
    let sets = [8, 4, 8, 4, 8, 4, 1, 2, 2, 2, 2];
    assert_eq!(start_sets(W3), sets);

    let held = packed(&[7]);
    let mut state = [9; STATE_BYTES];
    let answer = start(W3, &[], &mut state, &mut [0; 256]);
    // Node 4 alone is not entered.
    assert_eq!(answer, Ok(Closed::new(1, 0, 10)));
    assert_eq!(state, held);
    let answer = resume(W3, &[], &mut state, &mut [0; 256]);
    // The loop, trap, sequence and pause; then all but the loop and node 4.
    assert_eq!(answer, Ok(Closed::new(1, 0, 4 + 9)));
    assert_eq!(state, held);
}

#[test]
fn the_instants_of_w7() {
    let mut state = [9; STATE_BYTES];
    let answer = start(W7, &[], &mut state, &mut [0; 256]);
    assert_eq!(answer, Ok(Closed::new(1, 0, 3)));
    assert_eq!(state, packed(&[1]));
    let answer = resume(W7, &[], &mut state, &mut [0; 256]);
    assert_eq!(answer, Ok(Closed::new(0, 0, 2)));
    assert_eq!(state, [0; STATE_BYTES]);
}
