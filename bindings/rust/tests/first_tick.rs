//! First ticks, to the entry: the numbers and lists that F-10 gives by hand, the longest and the
//! deepest, and many programs that are started with all answers or with some.

mod common;

use std::thread;

use bavzhrono::{first_tick, first_tick_answers, table_of, FirstTick, Plan};
use bavzhrono::{MAX_NODES, TICK_ANSWERS};
use common::*;

/// Into answers that just suffice and into longer ones, of which only the front changes.
fn assert_first(table: &[u8], entries: usize, list: &[u8]) {
    assert_eq!(first_tick(table), Ok(entries));
    for more in [0, 5] {
        let mut lent = vec![FILL; TICK_ANSWERS + more];
        let mut expected = lent.clone();
        expected[..list.len()].copy_from_slice(list);
        let answers = list;
        let first = first_tick_answers(table, &mut lent);
        assert_eq!(first, Ok(FirstTick { entries, answers }));
        assert_eq!(lent, expected);
    }
    let answers = list.to_vec();
    assert_eq!(Plan::of(table), Ok(Plan { entries, answers }));
    assert_reaches(table);
}

/// The list is taken in full and reaches the number, whatever the answers after it. With one fewer it
/// does not suffice.
fn assert_reaches(table: &[u8]) {
    let mut lent = [FILL; TICK_ANSWERS];
    let first = first_tick_answers(table, &mut lent).unwrap();
    let (entries, list) = (first.entries, first.answers.to_vec());
    assert!((1..=table.len() / 2).contains(&entries));
    assert!(list.len() < TICK_ANSWERS && list.iter().all(|&answer| answer <= 1));
    for after in [&[][..], &[0; 8], &[1; 8]] {
        let closed = started(table, &[&list, after].concat()).unwrap();
        assert_eq!((closed.taken, closed.entries), (list.len(), entries));
    }
    assert_eq!(
        started(table, &lent).map(|closed| closed.taken),
        Ok(list.len())
    );
    if let Some((_, fewer)) = list.split_last() {
        assert_eq!(started(table, fewer), refused(13, 0));
    }
}

#[test]
fn table_w() {
    assert_first(W1, 3, &[]);
    assert_first(W3, 10, &[]);
    assert_first(&W6[..6], 2, &[0]);
    assert_first(W7, 3, &[]);
    assert_first(&W8[..14], 5, &[0, 0]);
    assert_first(LOCK, 7, &[]);
}

#[test]
fn leaves_and_what_takes_no_answer() {
    assert_first(&[1, 0], 1, &[]);
    assert_first(&[2, 0], 1, &[]);
    assert_first(&[1, 0, 7, 0], 2, &[]);
    assert_first(&[2, 0, 1, 0, 9, 0, 8, 0], 3, &[]);
}

#[test]
fn the_branch_with_more_entries() {
    assert_first(&[1, 0, 1, 0, 9, 0, 2, 0, 6, 0], 4, &[1]);
    assert_first(&[1, 0, 2, 0, 5, 0, 5, 0, 6, 0], 4, &[0]);
}

#[test]
fn absent_at_the_first_difference() {
    let [nothing, in_signal, test] = [&[1, 0][..], &[1, 0, 5, 0], &[1, 0, 1, 0, 6, 1]];
    let present = |then: &[u8], otherwise: &[u8]| [then, otherwise, &[6, 0]].concat();
    assert_first(&present(nothing, nothing), 2, &[0]);
    // Also where that list is the longer one.
    assert_first(&present(test, in_signal), 3, &[0]);
    assert_first(&present(in_signal, test), 3, &[0, 0]);
}

#[test]
fn what_goes_on_may_have_fewer_entries_before() {
    // Pauses within so many signals if present, ends if absent.
    let pause_or_end = |signals| [&[2, 0], &[5, 0].repeat(signals)[..], &[1, 0, 6, 0]].concat();
    let then_nothing = |first: Vec<u8>| [&first[..], &[1, 0, 9, 0]].concat();
    assert_first(&then_nothing(pause_or_end(0)), 4, &[0]);
    assert_first(&then_nothing(pause_or_end(1)), 4, &[0]);
    assert_first(&then_nothing(pause_or_end(2)), 5, &[1]);
}

#[test]
fn an_exit_goes_on_after_its_trap() {
    let exit_or_end = [4, 0, 1, 0, 6, 0, 1, 0, 9, 0, 11, 0];
    assert_first(&exit_or_end, 5, &[0]);
    let later_exit_or_pause = [4, 0, 5, 0, 5, 0, 1, 0, 6, 0, 2, 0, 9, 0, 11, 0, 1, 0, 9, 0];
    assert_first(&later_exit_or_pause, 8, &[1]);
}

#[test]
fn branches_of_a_parallel() {
    let pause_or_end = [2, 0, 5, 0, 1, 0, 6, 0];
    let both = [&pause_or_end[..], &pause_or_end, &[10, 0]].concat();
    assert_first(&both, 7, &[1, 1]);
    // One must exit, so that the sequence goes on. The other pauses, with more entries.
    let pause_or_exit = [2, 0, 5, 0, 4, 0, 6, 0];
    let goes_on = [10, 0, 11, 0, 1, 0, 5, 0, 9, 0];
    let one_exits = [&pause_or_exit[..], &pause_or_exit, &goes_on].concat();
    assert_first(&one_exits, 10, &[0, 1]);
}

#[test]
fn a_text_is_read_and_planned() {
    let text = b"trap Locked in loop present LockRequest then exit Locked end; pause end end";
    // Trap, loop, sequence, test, nothing and pause; with the request the exit is the last.
    assert_first(&table_of(text).unwrap(), 6, &[0]);
}

/// So many answers of both kinds, of which the last is 0, since the last of nested tests enters a
/// leaf either way.
fn some_answers(count: usize) -> Vec<u8> {
    (1..=count)
        .map(|left| u8::from(left % 3 == 0))
        .rev()
        .collect()
}

/// A program of 1,024 nodes, its entries, and its list of 509 answers, taken in three branches, since
/// in one they would be too deep.
fn longest() -> (Vec<u8>, usize, Vec<u8>) {
    let lists = [170, 170, 169].map(some_answers);
    let [left, middle, right] = [0, 1, 2].map(|at| ending_with(&lists[at]));
    let table = [&left[..], &middle, &[10, 0], &right, &[10, 0, 5, 0]].concat();
    (table, 171 + 171 + 170 + 3, lists.concat())
}

/// A program of depth 256, its entries, and its list of 254 answers.
fn deepest() -> (Vec<u8>, usize, Vec<u8>) {
    let list = some_answers(254);
    ([&ending_with(&list)[..], &[5, 0]].concat(), 256, list)
}

#[test]
fn the_longest_list() {
    let (table, entries, list) = longest();
    assert_eq!((table.len(), list.len()), (2 * MAX_NODES, 509));
    assert_first(&table, entries, &list);
}

#[test]
fn depth_256() {
    let (table, entries, list) = deepest();
    assert_first(&table, entries, &list);
    assert_first(&around([2, 0], [5, 0], 255), 256, &[]);
}

#[test]
fn two_thousand_and_forty_eight_bytes() {
    assert_first(&full_table(), 11, &[]);
    let mut all_entered = full_table_of_nothing();
    all_entered[2 * MAX_NODES - 2] = 5;
    assert_first(&all_entered, MAX_NODES, &[]);
    assert_first(&full_table_with([2, 0], [6, 0]), 11, &[0; 9]);
}

#[test]
fn level_61_under_62_traps() {
    let pause_or_exit = vec![2, 0, 5, 0, 4, 61, 6, 0];
    let in_traps = [pause_or_exit, [11, 0].repeat(62)].concat();
    assert_first(&in_traps, 65, &[1]);
    let and_more = [&in_traps[..], &[1, 0, 5, 0, 9, 0]].concat();
    assert_first(&and_more, 67, &[0]);
}

/// In threads with little more stack than the header for C tells.
#[test]
fn the_deepest_and_the_longest_do_not_exhaust_the_stack() {
    let number = || {
        for (table, entries, _) in [deepest(), longest()] {
            assert_eq!(first_tick(&table), Ok(entries));
        }
    };
    let list = || {
        for (table, _, list) in [deepest(), longest()] {
            assert_eq!(Plan::of(&table).unwrap().answers, list);
        }
    };
    let calls: [(fn(), usize); 2] = [(number, 64 << 10), (list, 560 << 10)];
    for (call, stack) in calls {
        let thread = thread::Builder::new().stack_size(stack).spawn(call);
        thread.expect("a thread starts").join().unwrap();
    }
}

/// The greatest number of entries, and the first list in which absent comes first, by starts with all
/// answers to the tests; nothing if there are too many of these.
fn by_trial(table: &[u8]) -> Option<(usize, Vec<u8>)> {
    let tests = table.chunks(2).filter(|node| node[0] == 6).count();
    let mut best: Option<(usize, Vec<u8>)> = None;
    if tests > 10 {
        return None;
    }
    for answers in lists(tests) {
        let closed = started(table, &answers).unwrap();
        if best
            .as_ref()
            .is_none_or(|(entries, _)| *entries < closed.entries)
        {
            best = Some((closed.entries, answers[..closed.taken].to_vec()));
        }
    }
    best
}

#[test]
fn drawn_programs() {
    let mut drawn = Drawn(10);
    let (mut tried, mut larger) = (0, 0);
    for number in 0..3000 {
        let nodes = if number % 10 == 0 { 900 } else { 30 };
        let table = drawn.statement(nodes, 0);
        let Ok(entries) = first_tick(&table) else {
            continue;
        };
        assert_reaches(&table);
        if let Some((entries, list)) = by_trial(&table) {
            assert_first(&table, entries, &list);
            tried += 1;
            continue;
        }
        for _ in 0..20 {
            let answers: Vec<u8> = (0..MAX_NODES).map(|_| drawn.below(2) as u8).collect();
            assert!(started(&table, &answers).unwrap().entries <= entries);
        }
        larger += 1;
    }
    assert!(tried > 1000 && larger > 100, "{tried} {larger}");
}

#[test]
fn check_3_comes_after_1_and_2_and_before_the_kinds() {
    for (table, number) in WITH_SHORT_BUFFERS {
        for length in [0, 1, 2, TICK_ANSWERS - 1] {
            let mut lent = vec![FILL; length];
            assert_eq!(first_tick_answers(table, &mut lent), refused(number, 0));
            assert_eq!(lent, vec![FILL; length]);
        }
    }
}

#[test]
fn refusals() {
    for (table, number, node) in refused_tables() {
        let mut lent = [FILL; TICK_ANSWERS];
        assert_eq!(first_tick(&table), refused(number, node));
        assert_eq!(first_tick_answers(&table, &mut lent), refused(number, node));
        assert_eq!(lent, [FILL; TICK_ANSWERS]);
        assert_eq!(Plan::of(&table), refused(number, node));
    }
}
