//! The edges of document 01 and the readings on tables, checks and sets, with
//! the contexts of F-5.

use compare::sets;
use compare::support::edges::{edges, LOCK, W1};
use compare::{analyse, listing, resume, start, Refusal, Sets, STATE_BYTES};

#[test]
fn every_call_judges_the_edge_tables_alike() {
    for edge in edges() {
        let text = match edge.refusal {
            Some(refusal) => format!("refused {} {}\n", refusal.number, refusal.node),
            None => "ok ".to_string(),
        };
        assert!(listing(&edge.table).starts_with(&text), "{}", edge.name);

        let Some(refusal) = edge.refusal else {
            continue;
        };
        for call in [start, resume] {
            let mut state = [7; STATE_BYTES];
            let mut emissions = vec![7; 256];
            let answer = call(&edge.table, &[], &mut state, &mut emissions);
            assert_eq!(answer, Err(refusal), "{}", edge.name);
            assert_eq!(state, [7; STATE_BYTES], "{}", edge.name);
            assert_eq!(emissions, vec![7; 256], "{}", edge.name);
        }
    }
}

#[test]
fn short_buffers_are_refused_by_3() {
    for short in 0..4 {
        let mut lengths = [4; 4];
        lengths[short] = 3;
        assert_eq!(analyse_with(W1, lengths), Err(Refusal::whole(3)));
    }
    assert_eq!(analyse_with(W1, [4; 4]), Ok((4, 1)));
    assert_eq!(analyse_with(W1, [9; 4]), Ok((4, 1)));
    // Before any kind is read, but after the length of the table.
    assert_eq!(analyse_with(&[12, 0], [0; 4]), Err(Refusal::whole(3)));
    assert_eq!(analyse_with(&[], [0; 4]), Err(Refusal::whole(2)));
    assert_eq!(analyse_with(&[2; 2049], [0; 4]), Err(Refusal::whole(1)));
}

/// Analyses into buffers of the given lengths, and checks that only the first
/// n entries of an accepted table change.
fn analyse_with(table: &[u8], lengths: [usize; 4]) -> Result<(usize, usize), Refusal> {
    let guard = 0xa5;
    let mut start_sets = vec![guard; lengths[0]];
    let mut any_sets = vec![guard; lengths[1]];
    let mut contexts = vec![guard; lengths[2]];
    let mut marks = vec![guard as u8; lengths[3]];
    let answer = analyse(
        table,
        &mut start_sets,
        &mut any_sets,
        &mut contexts,
        &mut marks,
    );
    let changed = match answer {
        Ok((size, _)) => size,
        Err(_) => 0,
    };
    for set in [&start_sets, &any_sets, &contexts] {
        for (at, &entry) in set.iter().enumerate() {
            assert_eq!(entry != guard, at < changed);
        }
    }
    for (at, &mark) in marks.iter().enumerate() {
        assert_eq!(mark != guard as u8, at < changed);
    }
    answer
}

#[test]
fn contexts_of_the_readings() {
    // Codes 0 and 1 only: a trap is not around itself.
    assert_eq!(contexts(&[2, 0, 11, 0, 2, 0, 10, 0, 8, 0])[1], 3);
    assert_eq!(contexts(&[2, 0, 2, 0, 9, 0, 8, 0])[..2], [0, 0]);
}

#[test]
fn the_listing_of_a_paused_branch_that_is_dropped() {
    // Worked out by hand. Nodes 1 and 4 are the branches, under one trap.
    let text = "ok 8 2 24
0 2 0 2 3 7 1
1 8 0 2 2 7 1
2 2 0 2 3 7 1
3 4 0 4 4 0 0
4 9 0 2 6 7 1
5 10 0 2 6 5 1
6 11 0 2 3 1 1
7 8 0 2 2 0 0
";
    assert_eq!(listing(LOCK), text);
}

#[test]
fn a_branch_under_an_empty_context_has_no_code() {
    let table = [2, 0, 4, 0, 10, 0, 11, 0];
    assert_eq!(contexts(&table), [0; 4]);
}

fn contexts(table: &[u8]) -> Vec<u64> {
    Sets::of(table).expect("an accepted table").contexts
}

/// The sets are made of these codes: the first ones, the last ones, and some of all.
const CODES: [[u32; 6]; 3] = [
    [0, 1, 2, 3, 4, 5],
    [58, 59, 60, 61, 62, 63],
    [0, 1, 2, 3, 33, 63],
];

/// All sets of some codes, each with its codes one by one.
fn all_sets(of: [u32; 6]) -> Vec<(u64, Vec<u32>)> {
    let mut sets = Vec::new();
    for subset in 0..1 << of.len() {
        let chosen = (0..of.len()).filter(|at| subset >> at & 1 == 1);
        let codes: Vec<u32> = chosen.map(|at| of[at]).collect();
        sets.push((set_of(codes.iter().copied()), codes));
    }
    sets
}

fn set_of(codes: impl Iterator<Item = u32>) -> u64 {
    codes.fold(0, |set, code| set | 1 << code)
}

#[test]
fn parallel_of_sets_is_every_larger_one() {
    for sets in CODES.map(all_sets) {
        for (left, left_codes) in &sets {
            for (right, right_codes) in &sets {
                let larger = |&one| right_codes.iter().map(move |&other| other.max(one));
                let expected = set_of(left_codes.iter().flat_map(larger));
                assert_eq!(sets::parallel(*left, *right), expected);
            }
        }
    }
}

#[test]
fn trap_of_sets_goes_code_by_code() {
    for (body, codes) in CODES.into_iter().flat_map(all_sets) {
        let caught = codes.into_iter().map(|code| match code {
            0 | 2 => 0,
            1 => 1,
            further_out => further_out - 1,
        });
        assert_eq!(sets::trap(body), set_of(caught));
    }
}

#[test]
fn sets_of_accepted_tables() {
    for edge in edges().iter().filter(|edge| edge.refusal.is_none()) {
        let sets = Sets::of(&edge.table).expect("an accepted table");
        for (start_set, any_set) in sets.start_sets.iter().zip(&sets.any_sets) {
            assert_ne!(*start_set, 0, "{}", edge.name);
            assert_eq!(start_set & !any_set, 0, "{}", edge.name);
        }
    }
}
