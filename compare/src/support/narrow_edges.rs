//! Tables and ties at the edges of request F-8, each with the sets or the refusal, worked
//! out by hand.

use super::edges::{after, around, W2, W5, W6, W8};
use super::narrowings::Case;
use super::ties::{tied, ABSENT, PRESENT, UNKNOWN};
use crate::checks::MOST_TRAPS;
use crate::instant::SIGNALS;
use crate::Refusal;

pub struct NarrowEdge {
    pub name: String,
    pub case: Case,
    pub outcome: Result<Vec<u64>, Refusal>,
}

pub fn edges() -> Vec<NarrowEdge> {
    let mut edges = single_tests();
    edges.extend(bodies());
    edges.extend(beside_bodies());
    edges.extend(nested_bodies());
    edges.extend(cut_off());
    edges.extend(two_tests());
    edges.extend(other_statements());
    edges.extend(parallels());
    edges.extend(last_code());
    edges.extend(depths());
    edges.extend(every_signal());
    edges.extend(acceptance());
    edges.extend(order_of_checks());
    edges.extend(wrong_bytes());
    edges.extend(lent());
    edges
}

/// Ends if 5 is present, and pauses if not.
const TEST: &[u8] = &[1, 0, 2, 0, 6, 5];

fn done(name: &str, table: &[u8], signals: &[(u8, u8)], sets: &[u64]) -> NarrowEdge {
    NarrowEdge {
        name: format!("{name}, tied {signals:?}"),
        case: Case::new(table, &tied(signals), sets.len() % 3),
        outcome: Ok(sets.to_vec()),
    }
}

fn refused(name: &str, case: Case, number: u32, node: usize) -> NarrowEdge {
    NarrowEdge {
        name: name.to_string(),
        case,
        outcome: Err(Refusal::at(number, node)),
    }
}

fn sequence(first: &[u8], second: &[u8]) -> Vec<u8> {
    [first, second, &[9, 0]].concat()
}

fn in_signal(signal: u8, body: &[u8]) -> Vec<u8> {
    after(body, &[5, signal])
}

fn single_tests() -> Vec<NarrowEdge> {
    let mut edges = Vec::new();
    for signal in [0, 5, 127, 128, 255] {
        let table = [1, 0, 2, 0, 6, signal];
        let neighbour = signal ^ 1;
        edges.extend([
            done("a test", &table, &[], &[1, 2, 3]),
            done("a test", &table, &[(signal, PRESENT)], &[1, 2, 1]),
            done("a test", &table, &[(signal, ABSENT)], &[1, 2, 2]),
            done("a test", &table, &[(neighbour, PRESENT)], &[1, 2, 3]),
            done("a test", &table, &[(neighbour, ABSENT)], &[1, 2, 3]),
        ]);
    }
    edges
}

/// The first is the one of the agreed reading.
fn bodies() -> Vec<NarrowEdge> {
    let own = in_signal(5, TEST);
    let other = in_signal(4, TEST);
    vec![
        done("its body", &own, &[(5, PRESENT)], &[1, 2, 3, 3]),
        done("its body", &own, &[(5, ABSENT)], &[1, 2, 3, 3]),
        done("another's body", &other, &[(5, PRESENT)], &[1, 2, 1, 1]),
        done("another's body", &other, &[(5, ABSENT)], &[1, 2, 2, 2]),
        done("another's body", &other, &[(4, PRESENT)], &[1, 2, 3, 3]),
    ]
}

/// Before, after and beside a signal statement the tie holds.
fn beside_bodies() -> Vec<NarrowEdge> {
    let own = in_signal(5, TEST);
    let test_last = sequence(&own, TEST);
    let test_first = sequence(TEST, &own);
    let on_the_right = [&[1, 0, 5, 5], TEST, &[10, 0]].concat();
    let on_the_left = [TEST, &[1, 0, 5, 5, 10, 0]].concat();
    let (present, absent) = (&[(5, PRESENT)], &[(5, ABSENT)]);
    vec![
        done("after", &test_last, present, &[1, 2, 3, 3, 1, 2, 1, 3]),
        done("after", &test_last, absent, &[1, 2, 3, 3, 1, 2, 2, 2]),
        done("before", &test_first, present, &[1, 2, 1, 1, 2, 3, 3, 3]),
        done("before", &test_first, absent, &[1, 2, 2, 1, 2, 3, 3, 2]),
        done("right", &on_the_right, present, &[1, 1, 1, 2, 1, 1]),
        done("right", &on_the_right, absent, &[1, 1, 1, 2, 2, 2]),
        done("left", &on_the_left, present, &[1, 2, 1, 1, 1, 1]),
        done("left", &on_the_left, absent, &[1, 2, 2, 1, 1, 2]),
    ]
}

fn nested_bodies() -> Vec<NarrowEdge> {
    let twice = in_signal(5, &in_signal(5, TEST));
    let own_outside = in_signal(5, &in_signal(4, TEST));
    let own_inside = in_signal(4, &in_signal(5, TEST));
    let others = in_signal(6, &in_signal(4, TEST));
    // The inner statement has ended before the second test, the outer one has not.
    let after_inner = in_signal(5, &sequence(&in_signal(5, TEST), TEST));
    let before_inner = in_signal(5, &sequence(TEST, &in_signal(5, TEST)));
    let mut edges = Vec::new();
    for tie in [PRESENT, ABSENT] {
        let tied = &[(5, tie)];
        edges.extend([
            done("twice its own", &twice, tied, &[1, 2, 3, 3, 3]),
            done("its own outside", &own_outside, tied, &[1, 2, 3, 3, 3]),
            done("its own inside", &own_inside, tied, &[1, 2, 3, 3, 3]),
            done("inner", &after_inner, tied, &[1, 2, 3, 3, 1, 2, 3, 3, 3]),
            done("inner", &before_inner, tied, &[1, 2, 3, 1, 2, 3, 3, 3, 3]),
        ]);
    }
    edges.push(done("others", &others, &[(5, PRESENT)], &[1, 2, 1, 1, 1]));
    edges.push(done("others", &others, &[(5, ABSENT)], &[1, 2, 2, 2, 2]));
    edges
}

/// A branch that is not taken has the set of its own start.
fn cut_off() -> Vec<NarrowEdge> {
    // A pause, or else an end if 6 is present and a pause if not.
    let table = &[2, 0, 1, 0, 2, 0, 6, 6, 6, 5];
    // The second child of this sequence is never come to.
    let stopped = &[&[2, 0], TEST, &[9, 0]].concat();
    let (yes, no) = (PRESENT, ABSENT);
    vec![
        done("cut off", table, &[], &[2, 1, 2, 3, 3]),
        done("cut off", table, &[(5, yes)], &[2, 1, 2, 3, 2]),
        done("cut off", table, &[(5, no)], &[2, 1, 2, 3, 3]),
        done("cut off", table, &[(5, yes), (6, yes)], &[2, 1, 2, 1, 2]),
        done("cut off", table, &[(5, yes), (6, no)], &[2, 1, 2, 2, 2]),
        done("cut off", table, &[(5, no), (6, yes)], &[2, 1, 2, 1, 1]),
        done("cut off", table, &[(5, no), (6, no)], &[2, 1, 2, 2, 2]),
        done("not come to", stopped, &[(5, yes)], &[2, 1, 2, 1, 2]),
        done("not come to", stopped, &[], &[2, 1, 2, 3, 2]),
    ]
}

/// Of an unknown signal they answer freely, even against each other; tied, they agree.
fn two_tests() -> Vec<NarrowEdge> {
    let table = &W8[..14];
    vec![
        done("two tests", table, &[], &[2, 1, 3, 1, 2, 3, 3]),
        done("two tests", table, &[(5, PRESENT)], &[2, 1, 2, 1, 2, 1, 2]),
        done("two tests", table, &[(5, ABSENT)], &[2, 1, 1, 1, 2, 2, 2]),
    ]
}

fn other_statements() -> Vec<NarrowEdge> {
    let emit_first = [&[3, 5], TEST, &[9, 0]].concat();
    let suspended = after(TEST, &[7, 5]);
    let exit_after = [TEST, &[4, 0, 9, 0, 11, 0]].concat();
    let looped = &[2, 0, 4, 0, 6, 5, 8, 0, 11, 0];
    let (present, absent) = (&[(5, PRESENT)], &[(5, ABSENT)]);
    vec![
        // The tie holds whatever is emitted.
        done("emit", &emit_first, absent, &[1, 1, 2, 2, 2]),
        done("emit", &emit_first, present, &[1, 1, 2, 1, 1]),
        // A started suspend tests nothing, and unties nothing.
        done("suspend", &[1, 0, 7, 5], present, &[1, 1]),
        done("suspend", &[1, 0, 7, 5], absent, &[1, 1]),
        done("suspend", &suspended, present, &[1, 2, 1, 1]),
        done("suspend", &suspended, absent, &[1, 2, 2, 2]),
        // The level of an exit is no signal.
        done("exit", &[4, 1, 11, 0, 11, 0], &[(1, PRESENT)], &[8, 4, 1]),
        done("exit after", &exit_after, &[], &[1, 2, 3, 4, 6, 3]),
        done("exit after", &exit_after, present, &[1, 2, 1, 4, 4, 1]),
        done("exit after", &exit_after, absent, &[1, 2, 2, 4, 2, 2]),
        done("loop", looped, &[], &[2, 4, 6, 6, 3]),
        done("loop", looped, present, &[2, 4, 2, 2, 2]),
        done("loop", looped, absent, &[2, 4, 4, 4, 1]),
    ]
}

/// An exit or a pause by signal 1, beside a further exit or nothing by signal 2.
fn parallels() -> Vec<NarrowEdge> {
    let table = &[4, 0, 2, 0, 6, 1, 4, 1, 1, 0, 6, 2, 10, 0, 11, 0, 11, 0];
    let mut edges = Vec::new();
    for (one, other, [left, right, both, inner, outer]) in [
        (UNKNOWN, UNKNOWN, [6, 9, 14, 7, 3]),
        (UNKNOWN, ABSENT, [6, 1, 6, 3, 3]),
        (UNKNOWN, PRESENT, [6, 8, 8, 4, 1]),
        (ABSENT, UNKNOWN, [2, 9, 10, 6, 3]),
        (ABSENT, ABSENT, [2, 1, 2, 2, 2]),
        (ABSENT, PRESENT, [2, 8, 8, 4, 1]),
        (PRESENT, UNKNOWN, [4, 9, 12, 5, 1]),
        (PRESENT, ABSENT, [4, 1, 4, 1, 1]),
        (PRESENT, PRESENT, [4, 8, 8, 4, 1]),
    ] {
        let sets = [4, 2, left, 8, 1, right, both, inner, outer];
        edges.push(done("parallel", table, &[(1, one), (2, other)], &sets));
    }
    edges
}

/// A choice between an exit from 62 traps and a pause.
fn last_code() -> Vec<NarrowEdge> {
    let table = around(&[4, 61, 2, 0, 6, 9], &[11, 0], MOST_TRAPS);
    // From the choice up to the outermost trap.
    let exits: Vec<u64> = (2..=63).rev().map(|code| 1 << code).chain([1]).collect();
    let pauses = vec![2; exits.len()];
    let both: Vec<u64> = exits.iter().map(|exit| exit | 2).collect();
    let ways = [(PRESENT, exits), (ABSENT, pauses), (UNKNOWN, both)];
    let edge = |(tie, sets): (u8, Vec<u64>)| {
        let sets = [&[1 << 63, 2], &sets[..]].concat();
        done("code 63", &table, &[(9, tie)], &sets)
    };
    ways.map(edge).into()
}

/// Signal statements around a test, as deep as is allowed.
fn depths() -> Vec<NarrowEdge> {
    let own = around(TEST, &[5, 5], 254);
    let others = around(TEST, &[5, 4], 254);
    let outermost_own = in_signal(5, &around(TEST, &[5, 4], 253));
    let too_deep = around(TEST, &[5, 5], 255);
    let sets = |set: u64| [&[1, 2][..], &[set; 255]].concat();
    vec![
        done("depth 256", &own, &[(5, PRESENT)], &sets(3)),
        done("others", &others, &[(5, PRESENT)], &sets(1)),
        done("others", &others, &[(5, ABSENT)], &sets(2)),
        done("outermost", &outermost_own, &[(5, ABSENT)], &sets(3)),
        refused(
            "depth 257",
            Case::new(&too_deep, &tied(&[(5, PRESENT)]), 0),
            8,
            0,
        ),
    ]
}

/// Tests of all signals in sequence, all tied present but one.
fn every_signal() -> Vec<NarrowEdge> {
    let signals: Vec<u8> = (0..=255).collect();
    let ways = [(0, ABSENT, 2), (255, UNKNOWN, 3), (100, PRESENT, 1)];
    let edge = |(other, tie, set): (u8, u8, u64)| {
        let (table, sets) = tests_of(&signals, other, set);
        let mut ties = vec![PRESENT; SIGNALS];
        ties[usize::from(other)] = tie;
        NarrowEdge {
            name: format!("a test of every signal, {other} tied {tie}"),
            case: Case::new(&table, &ties, 1),
            outcome: Ok(sets),
        }
    };
    ways.map(edge).into()
}

/// With the sets, where the test of one signal has this set and all others end.
fn tests_of(signals: &[u8], other: u8, set: u64) -> (Vec<u8>, Vec<u64>) {
    let own = if signals.contains(&other) { set } else { 1 };
    if let &[signal] = signals {
        return (vec![1, 0, 2, 0, 6, signal], vec![1, 2, own]);
    }
    let (left, right) = signals.split_at(signals.len() / 2);
    let (first, first_sets) = tests_of(left, other, set);
    let (second, second_sets) = tests_of(right, other, set);
    let table = sequence(&first, &second);
    (table, [&first_sets[..], &second_sets, &[own]].concat())
}

/// K decides, also where the narrowed sets have no loop whose body ends.
fn acceptance() -> Vec<NarrowEdge> {
    let tested = |table: &[u8], tie: u8| Case::new(table, &tied(&[(5, tie)]), 0);
    vec![
        refused("W6 tied absent", tested(W6, ABSENT), 11, 3),
        refused("W6 tied present", tested(W6, PRESENT), 11, 3),
        refused("W6", tested(W6, UNKNOWN), 11, 3),
        refused("W8 tied absent", tested(W8, ABSENT), 11, 7),
        refused("W8 tied present", tested(W8, PRESENT), 11, 7),
        refused(
            "a refused loop in a branch that is cut off",
            tested(&[1, 0, 8, 0, 2, 0, 6, 5], ABSENT),
            11,
            1,
        ),
        refused(
            "the lower of two loops, whose body is tied to pause",
            tested(&[W6, W2, &[10, 0]].concat(), ABSENT),
            11,
            3,
        ),
    ]
}

/// With a wrong byte, each of the checks before 19; and 3 before those from 4 on.
fn order_of_checks() -> Vec<NarrowEdge> {
    let traps = around(&[2, 0], &[11, 0], MOST_TRAPS + 1);
    let deep = around(&[2, 0], &[5, 5], 256);
    let tables: [(&[u8], u32, usize); 12] = [
        (&[12; 2050], 1, 0),
        (&[12; 2049], 1, 0),
        (&[], 2, 0),
        (&[12, 0, 12], 2, 0),
        (&[2, 0, 12, 0], 4, 1),
        (&[9, 1], 5, 0),
        (&[9, 0], 6, 0),
        (&[2, 0, 2, 0], 7, 0),
        (&deep, 8, 0),
        (&traps, 9, 1),
        (W5, 10, 0),
        (W2, 11, 1),
    ];
    let wrong = tied(&[(7, 3)]);
    let mut edges = Vec::new();
    for (table, number, node) in tables {
        let case = Case::new(table, &wrong, 0);
        let short_ties = Case::new(table, &wrong[..255], 0);
        let lent = case.lent.saturating_sub(1);
        let short_sets = Case {
            lent,
            ..case.clone()
        };
        edges.push(refused("before 19", case, number, node));
        edges.push(refused("short ties", short_ties, number.min(3), 0));
        edges.push(refused("short sets", short_sets, number.min(3), 0));
    }
    edges
}

fn wrong_bytes() -> Vec<NarrowEdge> {
    let mut edges = Vec::new();
    for byte in [3, 4, 127, 128, 254, 255] {
        for signal in [0, 5, 128, 255] {
            let case = Case::new(TEST, &tied(&[(signal, byte)]), 2);
            edges.push(refused(&format!("{signal} tied {byte}"), case, 19, 0));
        }
        // The number is unknown in the body, yet it has a wrong byte.
        let case = Case::new(&in_signal(5, TEST), &tied(&[(5, byte)]), 0);
        edges.push(refused("a wrong byte for a body", case, 19, 0));
        for more in [1, 2, 44] {
            let ties = [&tied(&[(5, ABSENT)])[..], &vec![byte; more]].concat();
            edges.push(NarrowEdge {
                name: format!("{more} wrong bytes after the ties"),
                case: Case::new(TEST, &ties, 0),
                outcome: Ok(vec![1, 2, 2]),
            });
        }
    }
    edges
}

/// Too few ties or sets, exactly enough, and more.
fn lent() -> Vec<NarrowEdge> {
    let ties = tied(&[(5, PRESENT)]);
    let mut edges = Vec::new();
    for lent in [0, 1, 2, 3, 4, 1024, 1100] {
        let table = TEST.to_vec();
        let case = Case {
            table,
            ties: ties.clone(),
            lent,
        };
        edges.push(match lent {
            0..=2 => refused("too few sets", case, 3, 0),
            _ => NarrowEdge {
                name: format!("{lent} sets"),
                case,
                outcome: Ok(vec![1, 2, 1]),
            },
        });
    }
    for count in [0, 1, 6, 128, 254, 255] {
        let case = Case::new(TEST, &ties[..count], 0);
        edges.push(refused("too few ties", case, 3, 0));
    }
    edges
}
