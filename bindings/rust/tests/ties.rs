//! Start sets that tied signals narrow: the sets that F-8 and its reading give by hand, what it says
//! of all programs, the largest and the deepest, and what is refused.

mod common;

use std::thread;

use bavzhrono::Tie::{Absent, Present, Unknown};
use bavzhrono::{narrow, narrowed_sets, table_of, CodeSet, Sets, Tie, MAX_NODES, SIGNALS};
use common::*;

/// The byte of each signal, as F-8 has it.
fn bytes(ties: &[(u8, Tie)]) -> Vec<u8> {
    let mut bytes = vec![0; SIGNALS];
    for &(signal, tie) in ties {
        bytes[usize::from(signal)] = match tie {
            Unknown => 0,
            Absent => 1,
            Present => 2,
        };
    }
    bytes
}

/// With ties and sets that just suffice, and with more, of which only the front is looked at and
/// changes.
fn assert_narrowed(table: &[u8], ties: &[(u8, Tie)], sets: &[u64]) {
    let sets: Vec<CodeSet> = sets.iter().copied().map(CodeSet).collect();
    for more in [0, 5] {
        let ties = [bytes(ties), vec![FILL; more]].concat();
        let mut lent = vec![FILL_SET; sets.len() + more];
        assert_eq!(narrow(table, &ties, &mut lent), Ok(sets.len()));
        assert_eq!(lent[..sets.len()], sets);
        assert_eq!(lent[sets.len()..], vec![FILL_SET; more]);
    }
    assert_eq!(narrowed_sets(table, ties), Ok(sets));
}

/// The sets with signal 5 unknown, absent and present.
fn assert_by_tie(table: &[u8], unknown: &[u64], absent: &[u64], present: &[u64]) {
    assert_narrowed(table, &[(5, Unknown)], unknown);
    assert_narrowed(table, &[(5, Absent)], absent);
    assert_narrowed(table, &[(5, Present)], present);
}

/// The sets whatever the tie of signal 5.
fn assert_untied(table: &[u8], sets: &[u64]) {
    assert_by_tie(table, sets, sets, sets);
}

fn in_signal(signal: u8, body: &[u8]) -> Vec<u8> {
    [body, &[5, signal]].concat()
}

fn sequence(first: &[u8], second: &[u8]) -> Vec<u8> {
    [first, second, &[9, 0]].concat()
}

#[test]
fn a_test_of_a_tied_signal() {
    for signal in [0, 1, 5, 127, 128, 255] {
        let table = [1, 0, 2, 0, 6, signal];
        assert_narrowed(&table, &[], &[1, 2, 3]);
        assert_narrowed(&table, &[(signal, Absent)], &[1, 2, 2]);
        assert_narrowed(&table, &[(signal, Present)], &[1, 2, 1]);
        assert_narrowed(&table, &[(signal ^ 1, Present)], &[1, 2, 3]);
    }
}

#[test]
fn in_the_body_of_a_signal_statement_its_number_is_unknown() {
    assert_untied(&in_signal(5, TEST), &[1, 2, 3, 3]);
    let other = in_signal(4, TEST);
    assert_by_tie(&other, &[1, 2, 3, 3], &[1, 2, 2, 2], &[1, 2, 1, 1]);
    assert_narrowed(&other, &[(4, Absent), (5, Present)], &[1, 2, 1, 1]);
}

#[test]
fn before_and_after_a_signal_statement_the_tie_holds() {
    let own = in_signal(5, TEST);
    assert_by_tie(
        &sequence(&own, TEST),
        &[1, 2, 3, 3, 1, 2, 3, 3],
        &[1, 2, 3, 3, 1, 2, 2, 2],
        &[1, 2, 3, 3, 1, 2, 1, 3],
    );
    assert_by_tie(
        &sequence(TEST, &own),
        &[1, 2, 3, 1, 2, 3, 3, 3],
        &[1, 2, 2, 1, 2, 3, 3, 2],
        &[1, 2, 1, 1, 2, 3, 3, 3],
    );
    assert_by_tie(
        &sequence(&sequence(&own, TEST), &own),
        &[1, 2, 3, 3, 1, 2, 3, 3, 1, 2, 3, 3, 3],
        &[1, 2, 3, 3, 1, 2, 2, 2, 1, 2, 3, 3, 2],
        &[1, 2, 3, 3, 1, 2, 1, 3, 1, 2, 3, 3, 3],
    );
}

#[test]
fn beside_a_signal_statement_the_tie_holds() {
    let right = [&[1, 0, 5, 5], TEST, &[10, 0]].concat();
    let (unknown, absent, present) = ([1, 1, 1, 2, 3, 3], [1, 1, 1, 2, 2, 2], [1, 1, 1, 2, 1, 1]);
    assert_by_tie(&right, &unknown, &absent, &present);
    let left = [TEST, &[1, 0, 5, 5, 10, 0]].concat();
    let (unknown, absent, present) = ([1, 2, 3, 1, 1, 3], [1, 2, 2, 1, 1, 2], [1, 2, 1, 1, 1, 1]);
    assert_by_tie(&left, &unknown, &absent, &present);
}

/// The outer test is tied, the inner one is not.
#[test]
fn a_signal_statement_in_a_branch() {
    let table = [&in_signal(5, TEST)[..], &[1, 0, 6, 5]].concat();
    let (unknown, absent, present) = ([1, 2, 3, 3, 1, 3], [1, 2, 3, 3, 1, 1], [1, 2, 3, 3, 1, 3]);
    assert_by_tie(&table, &unknown, &absent, &present);
}

#[test]
fn nested_signal_statements() {
    assert_untied(&in_signal(5, &in_signal(5, TEST)), &[1, 2, 3, 3, 3]);
    assert_untied(&in_signal(5, &in_signal(4, TEST)), &[1, 2, 3, 3, 3]);
    assert_untied(&in_signal(4, &in_signal(5, TEST)), &[1, 2, 3, 3, 3]);
    // The inner of two of one number has ended, or has not begun; the outer one is around all.
    let own = in_signal(5, TEST);
    let after_inner = in_signal(5, &sequence(&own, TEST));
    assert_untied(&after_inner, &[1, 2, 3, 3, 1, 2, 3, 3, 3]);
    let before_inner = in_signal(5, &sequence(TEST, &own));
    assert_untied(&before_inner, &[1, 2, 3, 1, 2, 3, 3, 3, 3]);
    let in_another = in_signal(4, &sequence(&own, TEST));
    assert_narrowed(&in_another, &[(5, Present)], &[1, 2, 3, 3, 1, 2, 1, 3, 3]);
}

#[test]
fn a_branch_that_is_cut_off_keeps_its_own_set() {
    // Present 5 then pause, else a test of 6.
    let table = [2, 0, 1, 0, 2, 0, 6, 6, 6, 5];
    assert_by_tie(&table, &[2, 1, 2, 3, 3], &[2, 1, 2, 3, 3], &[2, 1, 2, 3, 2]);
    assert_narrowed(&table, &[(5, Present), (6, Present)], &[2, 1, 2, 1, 2]);
    assert_narrowed(&table, &[(5, Absent), (6, Present)], &[2, 1, 2, 1, 1]);
    // The test of the same signal in the branch that is not taken is tied, too.
    let same = [TEST, &[2, 0, 6, 5]].concat();
    assert_by_tie(&same, &[1, 2, 3, 2, 3], &[1, 2, 2, 2, 2], &[1, 2, 1, 2, 1]);
    // So is one that is never come to.
    let stopped = sequence(&[2, 0], TEST);
    assert_by_tie(
        &stopped,
        &[2, 1, 2, 3, 2],
        &[2, 1, 2, 2, 2],
        &[2, 1, 2, 1, 2],
    );
}

#[test]
fn two_tests_of_one_signal_agree_only_if_it_is_tied() {
    assert_by_tie(
        &W8[..14],
        &[2, 1, 3, 1, 2, 3, 3],
        &[2, 1, 1, 1, 2, 2, 2],
        &[2, 1, 2, 1, 2, 1, 2],
    );
}

#[test]
fn emits_and_suspends_are_as_without_ties() {
    let emitted = sequence(&[3, 5], TEST);
    assert_by_tie(
        &emitted,
        &[1, 1, 2, 3, 3],
        &[1, 1, 2, 2, 2],
        &[1, 1, 2, 1, 1],
    );
    assert_untied(&[1, 0, 7, 5], &[1, 1]);
    assert_untied(&[2, 0, 7, 5], &[2, 2]);
    let suspended = [TEST, &[7, 5]].concat();
    assert_by_tie(&suspended, &[1, 2, 3, 3], &[1, 2, 2, 2], &[1, 2, 1, 1]);
}

#[test]
fn a_level_is_no_signal() {
    assert_narrowed(&[4, 1, 11, 0, 11, 0], &[(1, Present)], &[8, 4, 1]);
}

#[test]
fn the_greater_exit_of_two_branches() {
    for (one, other, [left, right, both, inner, outer]) in [
        (Unknown, Unknown, [6, 9, 14, 7, 3]),
        (Unknown, Absent, [6, 1, 6, 3, 3]),
        (Unknown, Present, [6, 8, 8, 4, 1]),
        (Absent, Unknown, [2, 9, 10, 6, 3]),
        (Absent, Absent, [2, 1, 2, 2, 2]),
        (Absent, Present, [2, 8, 8, 4, 1]),
        (Present, Unknown, [4, 9, 12, 5, 1]),
        (Present, Absent, [4, 1, 4, 1, 1]),
        (Present, Present, [4, 8, 8, 4, 1]),
    ] {
        let sets = [4, 2, left, 8, 1, right, both, inner, outer];
        assert_narrowed(EXITS, &[(1, one), (2, other)], &sets);
    }
}

#[test]
fn a_text_is_read_and_its_loop_narrowed() {
    let text = b"trap Locked in loop present LockRequest then exit Locked end; pause end end";
    assert_eq!(table_of(text).unwrap(), LOCK_REQUEST);
    assert_narrowed(LOCK_REQUEST, &[], &[4, 1, 5, 2, 6, 6, 3]);
    assert_narrowed(LOCK_REQUEST, &[(0, Absent)], &[4, 1, 1, 2, 2, 2, 2]);
    assert_narrowed(LOCK_REQUEST, &[(0, Present)], &[4, 1, 4, 2, 4, 4, 1]);
}

#[test]
fn the_last_tie_of_a_signal_counts() {
    for (ties, set) in [
        ([(5, Absent), (5, Present)], 1),
        ([(5, Present), (5, Absent)], 2),
        ([(5, Present), (5, Unknown)], 3),
    ] {
        assert_narrowed(TEST, &ties, &[1, 2, set]);
    }
    assert_eq!(Tie::default(), Unknown);
}

/// Accepted tables, with tests of the signals 0, 1, 2 and 5 alone.
fn accepted() -> Vec<Vec<u8>> {
    let twice = sequence(&in_signal(5, TEST), TEST);
    vec![
        W1.to_vec(),
        W3.to_vec(),
        W7.to_vec(),
        W8[..14].to_vec(),
        LOCK.to_vec(),
        LOCK_REQUEST.to_vec(),
        EXITS.to_vec(),
        twice,
        full_table(),
        full_table_with([2, 0], [6, 5]),
        around([4, 61], [11, 0], 62),
        code_63(),
    ]
}

#[test]
fn with_none_tied_the_sets_are_k() {
    for table in accepted() {
        let start_sets = Sets::of(&table).unwrap().start_sets;
        assert_eq!(narrowed_sets(&table, &[]), Ok(start_sets.clone()));
        // Ties of other signals make no difference.
        let others: Vec<_> = (6..=255).map(|signal| (signal, Absent)).collect();
        assert_eq!(narrowed_sets(&table, &others), Ok(start_sets));
    }
}

/// All ways to tie some signals.
fn every_way(signals: &[u8]) -> Vec<Vec<(u8, Tie)>> {
    let mut ways = vec![vec![]];
    for &signal in signals {
        let tied = |way: &Vec<(u8, Tie)>| {
            [Unknown, Absent, Present].map(|tie| [&way[..], &[(signal, tie)]].concat())
        };
        ways = ways.iter().flat_map(tied).collect();
    }
    ways
}

#[test]
fn tying_one_more_never_adds_a_code() {
    let signals = [0, 1, 2, 5];
    for table in accepted() {
        for way in every_way(&signals) {
            let sets = narrowed_sets(&table, &way).unwrap();
            for &(signal, _) in way.iter().filter(|(_, tie)| *tie == Unknown) {
                for tie in [Absent, Present] {
                    let more = [&way[..], &[(signal, tie)]].concat();
                    let narrower = narrowed_sets(&table, &more).unwrap();
                    let mut pairs = sets.iter().zip(narrower);
                    assert!(pairs.all(|(before, after)| after.0 & !before.0 == 0));
                }
            }
        }
    }
}

/// A test of signal 0 between an exit from 62 traps and a pause.
fn code_63() -> Vec<u8> {
    [vec![4, 61, 2, 0, 6, 0], [11, 0].repeat(62)].concat()
}

#[test]
fn level_61_under_62_traps() {
    // Code 63 comes down by one at each trap, and the outermost catches it.
    let exits: Vec<u64> = (2..=63).rev().chain([0]).map(|code| 1 << code).collect();
    let both: Vec<u64> = exits.iter().map(|exit| exit | 2).collect();
    for (tie, sets) in [(Present, exits), (Absent, vec![2; 63]), (Unknown, both)] {
        let sets = [&[1 << 63, 2], &sets[..]].concat();
        assert_narrowed(&code_63(), &[(0, tie)], &sets);
    }
}

/// Down to depth 256: a test of 5 within 254 nodes.
fn deep(node: [u8; 2]) -> Vec<u8> {
    [TEST, &node.repeat(254)].concat()
}

/// The sets of a deep table.
fn deep_sets(set: u64) -> Vec<u64> {
    [vec![1, 2], vec![set; 255]].concat()
}

#[test]
fn depth_256() {
    assert_untied(&deep([5, 5]), &deep_sets(3));
    for others in [[5, 4], [7, 5]] {
        let [unknown, absent, present] = [3, 2, 1].map(deep_sets);
        assert_by_tie(&deep(others), &unknown, &absent, &present);
    }
    let mut outermost_own = deep([5, 4]);
    outermost_own[2 * 256 + 1] = 5;
    assert_untied(&outermost_own, &deep_sets(3));
}

/// Tests of these signals in sequence, with their sets: all end, but for one of the given set.
fn tests_of(signals: &[u8], other: u8, set: u64) -> (Vec<u8>, Vec<u64>) {
    let own = if signals.contains(&other) { set } else { 1 };
    if let &[signal] = signals {
        return (vec![1, 0, 2, 0, 6, signal], vec![1, 2, own]);
    }
    let (left, right) = signals.split_at(signals.len() / 2);
    let (first, first_sets) = tests_of(left, other, set);
    let (second, second_sets) = tests_of(right, other, set);
    let sets = [&first_sets[..], &second_sets, &[own]].concat();
    (sequence(&first, &second), sets)
}

/// Tests of all signals, all tied present but one, with a suspend or a signal statement of its
/// number around them.
#[test]
fn two_thousand_and_forty_eight_bytes() {
    let signals: Vec<u8> = (0..=255).collect();
    for (other, tie, kind, set) in [
        (0, Absent, 7, 2),
        (100, Unknown, 7, 3),
        (255, Absent, 7, 2),
        (255, Present, 7, 1),
        (0, Absent, 5, 3),
        (255, Present, 5, 3),
    ] {
        let (mut table, mut sets) = tests_of(&signals, other, set);
        table.extend([kind, other]);
        sets.push(set);
        assert_eq!(sets.len(), MAX_NODES);
        let mut ties: Vec<_> = signals.iter().map(|&signal| (signal, Present)).collect();
        ties.push((other, tie));
        assert_narrowed(&table, &ties, &sets);
    }
}

#[test]
fn the_deepest_and_the_longest_do_not_exhaust_the_stack() {
    let call = || {
        for table in [deep([5, 5]), full_table_with([2, 0], [6, 5])] {
            assert!(narrowed_sets(&table, &[(5, Present)]).is_ok());
        }
    };
    let thread = thread::Builder::new().stack_size(1 << 17).spawn(call);
    thread.expect("a thread starts").join().unwrap();
}

/// Refused, with the sets as they were.
fn assert_not_narrowed(table: &[u8], ties: &[u8], lent: usize, number: u32, node: usize) {
    let mut sets = vec![FILL_SET; lent];
    assert_eq!(narrow(table, ties, &mut sets), refused(number, node));
    assert_eq!(sets, vec![FILL_SET; lent]);
}

#[test]
fn check_11_is_by_k() {
    // With 5 absent no body ends, and in the last table the loop is cut off.
    let in_branch = [1, 0, 8, 0, 2, 0, 6, 5];
    for (table, node) in [(W6, 3), (W8, 7), (&in_branch, 1)] {
        for tie in [Unknown, Absent, Present] {
            assert_not_narrowed(table, &bytes(&[(5, tie)]), MAX_NODES, 11, node);
            assert_eq!(narrowed_sets(table, &[(5, tie)]), refused(11, node));
        }
    }
}

#[test]
fn check_19_a_wrong_byte() {
    for place in 0..SIGNALS {
        for byte in [3, 4, 127, 128, 254, 255] {
            let mut ties = vec![0; SIGNALS];
            ties[place] = byte;
            assert_not_narrowed(TEST, &ties, 3, 19, 0);
            // Whether or not a test of the signal could tell.
            assert_not_narrowed(&in_signal(5, TEST), &ties, 4, 19, 0);
        }
    }
    assert_not_narrowed(W1, &[FILL; SIGNALS], 4, 19, 0);
}

#[test]
fn check_19_does_not_look_past_the_signals() {
    for byte in [1, 2, 3, 255] {
        let ties = [bytes(&[(5, Absent)]), vec![byte; 44]].concat();
        let mut sets = [FILL_SET; 3];
        assert_eq!(narrow(TEST, &ties, &mut sets), Ok(3));
        assert_eq!(sets, [1, 2, 2].map(CodeSet));
    }
}

#[test]
fn check_3_comes_after_1_and_2_and_before_the_kinds() {
    for (table, number) in WITH_SHORT_BUFFERS {
        let nodes = table.len() / 2;
        for byte in [0, FILL] {
            for length in [0, 1, 5, SIGNALS - 1] {
                assert_not_narrowed(table, &vec![byte; length], nodes, number, 0);
            }
            let short = nodes.saturating_sub(1);
            assert_not_narrowed(table, &[byte; SIGNALS], short, number, 0);
            assert_not_narrowed(table, &[byte; SIGNALS], 0, number, 0);
        }
    }
}

#[test]
fn a_refused_table_has_no_narrowed_sets() {
    for (table, number, node) in [
        (vec![12; 2050], 1, 0),
        (vec![], 2, 0),
        (last_kind_unknown(), 4, 1023),
        ([W1, W1].concat(), 7, 0),
        (deep([5, 5]).into_iter().chain([5, 5]).collect(), 8, 0),
        (around([2, 0], [11, 0], 63), 9, 1),
        (W5.to_vec(), 10, 0),
        (full_table_of_nothing(), 11, 1023),
    ] {
        assert_eq!(
            narrowed_sets(&table, &[(5, Present)]),
            refused(number, node)
        );
    }
}
