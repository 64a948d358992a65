//! The readings on instants, and the misreadings that document 01 names.

use compare::support::edges::W1;
use compare::{
    held_nodes, packed, resume, resume_with_trail, start, start_with_trail, Closed, Entry, How,
    Refusal, STATE_BYTES,
};

/// What closes, the pauses held afterwards, the signals emitted.
type Instant = (Closed, Vec<usize>, Vec<usize>);

/// A start with exact buffers.
fn started(table: &[u8], answers: &[u8]) -> Result<Instant, Refusal> {
    let mut state = [255; STATE_BYTES];
    let mut emissions = [255; 256];
    let closed = start(table, answers, &mut state, &mut emissions)?;
    Ok((closed, held_nodes(&state), emitted(&emissions)))
}

fn resumed(table: &[u8], answers: &[u8], held: &[usize]) -> Result<Instant, Refusal> {
    let mut state = packed(held);
    let mut emissions = [255; 256];
    let closed = resume(table, answers, &mut state, &mut emissions)?;
    Ok((closed, held_nodes(&state), emitted(&emissions)))
}

fn emitted(emissions: &[u8]) -> Vec<usize> {
    assert!(emissions.iter().all(|&byte| byte <= 1));
    (0..256).filter(|&signal| emissions[signal] == 1).collect()
}

#[test]
fn an_emit_under_its_own_signal_counts() {
    let answer = started(&[3, 7, 5, 7], &[]);
    assert_eq!(answer, Ok((Closed::new(0, 0, 2), vec![], vec![7])));
}

#[test]
fn a_branch_without_a_held_pause_counts_as_ended() {
    let table = [2, 0, 4, 0, 10, 0, 11, 0];
    let mut state = packed(&[0]);
    let answer = resume_with_trail(&table, &[], &mut state, &mut [0; 256]);
    let entry = |node, code| Entry {
        node,
        how: How::Resumed,
        code,
    };
    let trail = vec![entry(3, 0), entry(2, 0), entry(0, 0)];
    assert_eq!(answer, Ok((Closed::new(0, 0, 3), trail)));
    assert_eq!(state, [0; STATE_BYTES]);
}

#[test]
fn the_trail_of_w9() {
    use How::{Resumed, Started};
    let trail = |entries: &[(usize, How, u32)]| -> Vec<Entry> {
        entries
            .iter()
            .map(|&(node, how, code)| Entry { node, how, code })
            .collect()
    };
    let mut state = [0; STATE_BYTES];
    let (_, first) = start_with_trail(W1, &[], &mut state, &mut [0; 256]).unwrap();
    let expected = trail(&[(3, Started, 1), (2, Started, 1), (0, Started, 1)]);
    assert_eq!(first, expected);

    let (_, second) = resume_with_trail(W1, &[], &mut state, &mut [0; 256]).unwrap();
    let expected = trail(&[
        (3, Resumed, 1),
        (2, Resumed, 0),
        (0, Resumed, 0),
        (1, Started, 0),
        (2, Started, 1),
        (0, Started, 1),
    ]);
    assert_eq!(second, expected);
}

#[test]
fn the_right_branch_runs_after_an_exit_of_the_left() {
    let table = [4, 0, 3, 5, 10, 0, 11, 0];
    let answer = started(&table, &[]);
    assert_eq!(answer, Ok((Closed::new(0, 0, 4), vec![], vec![5])));
}

#[test]
fn a_trap_that_catches_drops_what_is_held_beneath() {
    let table = [2, 0, 4, 0, 10, 0, 11, 0];
    let answer = started(&table, &[]);
    assert_eq!(answer, Ok((Closed::new(0, 0, 4), vec![], vec![])));
    // The exit leaves the inner trap too; beside the outer one a pause stays.
    let table = [2, 0, 4, 1, 10, 0, 11, 0, 11, 0, 2, 0, 10, 0];
    let answer = started(&table, &[]);
    assert_eq!(answer, Ok((Closed::new(1, 0, 7), vec![5], vec![])));
}

#[test]
fn a_suspend_is_tested_only_when_resumed() {
    let table = [2, 0, 3, 9, 9, 0, 7, 3];
    let held = vec![0];
    assert_eq!(
        started(&table, &[]),
        Ok((Closed::new(1, 0, 3), held.clone(), vec![]))
    );
    assert_eq!(
        resumed(&table, &[200], &held),
        Ok((Closed::new(1, 1, 1), held.clone(), vec![]))
    );
    assert_eq!(
        resumed(&table, &[0, 1], &held),
        Ok((Closed::new(0, 1, 4), vec![], vec![9]))
    );
}

#[test]
fn a_present_takes_an_answer_only_when_started() {
    let table = [2, 0, 3, 1, 9, 0, 2, 0, 3, 2, 9, 0, 6, 4];
    let (_, held, _) = started(&table, &[0]).unwrap();
    assert_eq!(held, [3]);
    assert_eq!(
        resumed(&table, &[], &held),
        Ok((Closed::new(0, 0, 4), vec![], vec![2]))
    );
    let (_, held, _) = started(&table, &[2]).unwrap();
    assert_eq!(held, [0]);
}

#[test]
fn a_state_that_is_not_admitted_is_refused_by_12() {
    let sequence = [2, 0, 2, 0, 9, 0];
    let present = [2, 0, 2, 0, 6, 0];
    let parallel = [2, 0, 2, 0, 10, 0];
    for table in [sequence, present, parallel] {
        for held in [&[][..], &[2], &[0, 2], &[0, 3], &[1, 8], &[0, 1023]] {
            assert_eq!(resumed(&table, &[], held), Err(Refusal::whole(12)));
        }
        let both = resumed(&table, &[], &[0, 1]);
        assert_eq!(both.is_ok(), table == parallel);
    }
}

#[test]
fn starved_instants_change_no_buffer() {
    // An emit and a pause before the second answer is missing.
    let table = [3, 5, 2, 0, 2, 0, 6, 1, 10, 0, 2, 0, 2, 0, 6, 2, 10, 0];
    let mut state = [9; STATE_BYTES + 2];
    let mut emissions = [9; 300];
    for few in [&[][..], &[1]] {
        let answer = start(&table, few, &mut state, &mut emissions);
        assert_eq!(answer, Err(Refusal::whole(13)));
        assert_eq!(state, [9; STATE_BYTES + 2]);
        assert_eq!(emissions, [9; 300]);
    }
    let answer = start(&table, &[1, 0, 1], &mut state, &mut emissions);
    assert_eq!(answer, Ok(Closed::new(1, 2, 7)));
    assert_eq!(state[..STATE_BYTES], packed(&[1, 6]));
    assert_eq!(state[STATE_BYTES..], [9, 9]);
    assert_eq!(emissions[256..], [9; 44]);
    assert_eq!(emitted(&emissions[..256]), [5]);
}

#[test]
fn lent_buffers_are_measured_before_the_table_is_read() {
    let state = &mut packed(&[0]);
    for call in [start, resume] {
        let short_state = call(&[12, 0], &[], &mut state[1..], &mut [0; 256]);
        assert_eq!(short_state, Err(Refusal::whole(3)));
        let short_emissions = call(&[12, 0], &[], state, &mut [0; 255]);
        assert_eq!(short_emissions, Err(Refusal::whole(3)));
        let kind = call(&[12, 0], &[], state, &mut [0; 256]);
        assert_eq!(kind, Err(Refusal::at(4, 0)));
    }
}

#[test]
fn bytes_past_the_state_are_not_looked_at() {
    let mut state = [&packed(&[0])[..], &[77, 1]].concat();
    let mut emissions = [3; 257];
    let answer = resume(&[2, 0], &[], &mut state, &mut emissions);
    assert_eq!(answer, Ok(Closed::new(0, 0, 1)));
    assert_eq!(state, [&packed(&[])[..], &[77, 1]].concat());
    assert_eq!(emissions[256], 3);
}
