//! The functions as they are: what is returned, and every entry of every buffer, the answer's too.

mod common;

use bavzhrono::{raw, BLOCK, MAX_BLOCKS, MAX_NODES, MAX_SOURCE, MAX_TEXT, SIGNALS};
use bavzhrono::{STATE_BYTES, TICK_ANSWERS, TRIAL_ANSWERS};
use common::*;

const FILL_NUMBER: u64 = FILL_SET.0;

/// One buffer for each that a function can write to, and the ties.
#[derive(Clone, Debug, PartialEq)]
struct Lent {
    start_sets: Vec<u64>,
    any_sets: Vec<u64>,
    contexts: Vec<u64>,
    marks: Vec<u8>,
    state: Vec<u8>,
    emissions: Vec<u8>,
    text: Vec<u8>,
    table: Vec<u8>,
    answers: Vec<u8>,
    ties: Vec<u8>,
    answer: Vec<u64>,
}

impl Lent {
    /// Filled buffers that suffice for any table, with an answer of so many entries.
    fn with_answer(entries: usize) -> Lent {
        Lent {
            start_sets: vec![FILL_NUMBER; MAX_NODES],
            any_sets: vec![FILL_NUMBER; MAX_NODES],
            contexts: vec![FILL_NUMBER; MAX_NODES],
            marks: vec![FILL; MAX_NODES],
            state: vec![FILL; STATE_BYTES],
            emissions: vec![FILL; SIGNALS],
            text: vec![FILL; MAX_TEXT],
            table: vec![FILL; 2 * MAX_NODES],
            answers: vec![FILL; TICK_ANSWERS],
            ties: vec![0; SIGNALS],
            answer: vec![FILL_NUMBER; entries],
        }
    }

    fn analyse(&mut self, table: &[u8]) -> u32 {
        raw::analyse(
            table,
            &mut self.start_sets,
            &mut self.any_sets,
            &mut self.contexts,
            &mut self.marks,
            &mut self.answer,
        )
    }

    fn start(&mut self, table: &[u8]) -> u32 {
        let (state, emissions) = (&mut self.state, &mut self.emissions);
        raw::start(table, &[], state, emissions, &mut self.answer)
    }

    fn resume(&mut self, table: &[u8]) -> u32 {
        let (state, emissions) = (&mut self.state, &mut self.emissions);
        raw::resume(table, &[], state, emissions, &mut self.answer)
    }

    fn render(&mut self, table: &[u8]) -> u32 {
        raw::render(table, &mut self.text, &mut self.answer)
    }

    fn read(&mut self, text: &[u8]) -> u32 {
        raw::read(text, &mut self.table, &mut self.answer)
    }

    fn read_place(&mut self, text: &[u8]) -> u32 {
        raw::read_place(text, &mut self.answer)
    }

    fn tick(&mut self, table: &[u8]) -> u32 {
        raw::tick(table, &mut self.answers, &mut self.answer)
    }

    /// The table of program 1.
    fn fetch(&mut self, file: &[u8]) -> u32 {
        raw::fetch(file, 1, &mut self.table, &mut self.answer)
    }

    /// Part 0 of program 1's edition 7.
    fn part(&mut self, file: &[u8]) -> u32 {
        raw::part(file, 1, 7, 0, &mut self.answer)
    }

    /// Into the start sets.
    fn narrow(&mut self, table: &[u8]) -> u32 {
        raw::narrow(table, &self.ties, &mut self.start_sets, &mut self.answer)
    }

    fn first_tick(&mut self, table: &[u8]) -> u32 {
        raw::first_tick(table, &mut self.answer)
    }

    fn first_tick_answers(&mut self, table: &[u8]) -> u32 {
        raw::first_tick_answers(table, &mut self.answers, &mut self.answer)
    }

    /// The first node, for code 1.
    fn ask(&mut self, table: &[u8]) -> u32 {
        raw::ask(table, 0, 1, &mut self.answer)
    }

    /// A node that no table has, for a code that no set has.
    fn ask_outside(&mut self, table: &[u8]) -> u32 {
        raw::ask(table, u64::MAX, u64::MAX, &mut self.answer)
    }

    /// The last node, which is the program.
    fn trial(&mut self, table: &[u8]) -> u32 {
        let program = (table.len() as u64 / 2).saturating_sub(1);
        raw::trial(table, program, &mut self.answer)
    }

    /// A node that no table has.
    fn trial_outside(&mut self, table: &[u8]) -> u32 {
        raw::trial(table, u64::MAX, &mut self.answer)
    }
}

/// It takes a table, a text if it reads one, or a file.
type Function = fn(&mut Lent, &[u8]) -> u32;

/// The functions that make the table's checks.
const CHECKING: [Function; 11] = [
    Lent::analyse,
    Lent::start,
    Lent::resume,
    Lent::tick,
    Lent::narrow,
    Lent::first_tick,
    Lent::first_tick_answers,
    Lent::ask,
    Lent::ask_outside,
    Lent::trial,
    Lent::trial_outside,
];

/// Of these, the ones that return 11.
const RETURNING_11: [Function; 10] = [
    Lent::analyse,
    Lent::start,
    Lent::resume,
    Lent::narrow,
    Lent::first_tick,
    Lent::first_tick_answers,
    Lent::ask,
    Lent::ask_outside,
    Lent::trial,
    Lent::trial_outside,
];

/// Of these, the ones that need other buffers than the answer.
const WITH_BUFFERS: [Function; 6] = [
    Lent::analyse,
    Lent::start,
    Lent::resume,
    Lent::tick,
    Lent::narrow,
    Lent::first_tick_answers,
];

fn assert_unchanged(before: Lent, function: Function, given: &[u8], expected: u32) {
    let mut lent = before.clone();
    assert_eq!(function(&mut lent, given), expected);
    assert!(
        lent == before,
        "{expected} is returned, and a buffer has changed"
    );
}

/// A table for each number that refuses one, with the node.
fn refused_tables() -> Vec<(Vec<u8>, u32, u32)> {
    vec![
        (vec![12; 2050], 1, 0),
        (vec![], 2, 0),
        (vec![2, 0, 8], 2, 0),
        (vec![2, 0, 12, 0], 4, 1),
        (last_kind_unknown(), 4, 1023),
        (vec![2, 0, 8, 1], 5, 1),
        (vec![2, 0, 9, 0], 6, 1),
        (vec![2, 0, 2, 0], 7, 0),
        (right_sequences(256), 8, 255),
        (around([2, 0], [11, 0], 63), 9, 1),
        (vec![2, 0, 4, 0, 9, 0], 10, 1),
        (W8.to_vec(), 11, 7),
        (full_table_of_nothing(), 11, 1023),
    ]
}

/// A text for each number that refuses one, with the node and the place.
fn refused_texts() -> Vec<(String, u32, u32, usize)> {
    let signals = emits(257);
    let last_signal = signals.find("S256").unwrap();
    vec![
        (String::new(), 14, 0, 0),
        ("[pause]".to_string(), 14, 0, 6),
        ("loop pause \n".to_string(), 14, 0, 12),
        (padded("pause", MAX_SOURCE + 1), 14, 0, MAX_SOURCE),
        ("emit case".to_string(), 20, 0, 5),
        (padded("await 3 S", MAX_SOURCE), 20, 0, 6),
        ("exit T".to_string(), 15, 0, 5),
        (signals, 16, 0, last_signal),
        (flat(513), 1, 0, 0),
        (flat(257), 8, 0, 0),
        (nested("[pause||", "pause", "]", 256), 8, 255, 0),
        (nested("trap T in ", "exit T", " end", 63), 9, 1, 0),
    ]
}

/// A file for each number that refuses one, or its table.
fn refused_files() -> Vec<(Vec<u8>, u32)> {
    let full = |part| block(1, 7, part, 5, &[2; 502]);
    let too_long = [0, 1, 2, 3, 4].map(full).concat();
    vec![
        (vec![0; BLOCK - 1], 17),
        (vec![0; (MAX_BLOCKS + 1) * BLOCK], 17),
        (vec![], 18),
        (too_long[BLOCK..].to_vec(), 18),
        (too_long, 1),
    ]
}

#[test]
fn a_refusal_is_number_and_node_and_leaves_the_answer() {
    for (table, number, node) in refused_tables() {
        let functions = if number == 11 {
            &RETURNING_11[..]
        } else {
            &CHECKING
        };
        for entries in [3, 4, 8] {
            for &function in functions {
                let lent = Lent::with_answer(entries);
                assert_unchanged(lent, function, &table, number + 256 * node);
            }
        }
    }
}

#[test]
fn a_refused_text_is_number_and_node_and_leaves_table_and_answer() {
    for (text, number, node, _) in refused_texts() {
        for entries in [3, 4, 8] {
            let lent = Lent::with_answer(entries);
            assert_unchanged(lent, Lent::read, text.as_bytes(), number + 256 * node);
        }
    }
}

#[test]
fn a_refused_file_is_a_number_and_leaves_table_and_answer() {
    for (file, number) in refused_files() {
        for entries in [3, 4, 8] {
            assert_unchanged(Lent::with_answer(entries), Lent::fetch, &file, number);
        }
    }
}

#[test]
fn refusals_3_12_13_19_21_and_22_name_no_node_and_leave_the_answer() {
    let mut short = Lent::with_answer(3);
    (short.marks, short.text) = (vec![FILL; 3], vec![FILL; 3]);
    short.state.truncate(STATE_BYTES - 1);
    short.answers.truncate(TICK_ANSWERS - 1);
    short.ties.truncate(SIGNALS - 1);
    for function in WITH_BUFFERS {
        assert_unchanged(short.clone(), function, W1, 3);
    }
    assert_unchanged(short.clone(), Lent::render, W1, 3);
    assert_unchanged(short.clone(), Lent::render, W2, 3);
    assert_unchanged(short.clone(), Lent::tick, W2, 3);
    assert_unchanged(short, Lent::first_tick_answers, W2, 3);

    let present = [3, 5, 2, 0, 6, 1];
    assert_unchanged(Lent::with_answer(3), Lent::resume, &present, 12);
    assert_unchanged(Lent::with_answer(3), Lent::start, &present, 13);

    for signal in [0, 1, 255] {
        let mut wrong = Lent::with_answer(3);
        wrong.ties[signal] = 3;
        assert_unchanged(wrong, Lent::narrow, &present, 19);
    }

    let tests = ending_with(&[1; TRIAL_ANSWERS + 1]);
    for entries in [3, 4, 8] {
        let lent = Lent::with_answer(entries);
        assert_unchanged(lent.clone(), Lent::ask_outside, &present, 21);
        assert_unchanged(lent.clone(), Lent::trial_outside, &present, 21);
        assert_unchanged(lent.clone(), Lent::trial_outside, &tests, 21);
        assert_unchanged(lent, Lent::trial, &tests, 22);
    }
}

#[test]
fn a_short_answer_is_refused_by_3_after_1_and_2() {
    let mut tables = refused_tables();
    tables.push((W1.to_vec(), 0, 0));
    tables.push((ending_with(&[1; TRIAL_ANSWERS + 1]), 0, 0));
    for (table, number, _) in tables {
        let expected = if matches!(number, 1 | 2) { number } else { 3 };
        for entries in 0..3 {
            for function in CHECKING {
                assert_unchanged(Lent::with_answer(entries), function, &table, expected);
            }
            assert_unchanged(Lent::with_answer(entries), Lent::render, &table, 3);
        }
    }
}

#[test]
fn a_short_table_or_answer_is_refused_by_3_ahead_of_what_the_text_is_refused_by() {
    let mut texts = refused_texts();
    texts.push(("pause".to_string(), 0, 0, 0));
    for (text, ..) in texts {
        for entries in 0..3 {
            for function in [Lent::read, Lent::read_place] {
                assert_unchanged(Lent::with_answer(entries), function, text.as_bytes(), 3);
            }
        }
        for bytes in [0, 1, 2, 2 * MAX_NODES - 1] {
            let mut lent = Lent::with_answer(3);
            lent.table.truncate(bytes);
            assert_unchanged(lent, Lent::read, text.as_bytes(), 3);
        }
    }
}

#[test]
fn a_short_table_or_answer_is_refused_by_3_ahead_of_what_the_file_is_refused_by() {
    let mut files = refused_files();
    files.push((block(1, 7, 0, 1, W1), 0));
    for (file, _) in files {
        for entries in 0..3 {
            assert_unchanged(Lent::with_answer(entries), Lent::fetch, &file, 3);
            assert_unchanged(Lent::with_answer(entries), Lent::part, &file, 3);
        }
        for bytes in [0, 1, 2, 2 * MAX_NODES - 1] {
            let mut lent = Lent::with_answer(3);
            lent.table.truncate(bytes);
            assert_unchanged(lent, Lent::fetch, &file, 3);
        }
    }
}

#[test]
fn the_place_of_a_refused_text_is_not_refused() {
    for (text, number, node, place) in refused_texts() {
        let figures = [number.into(), node.into(), place as u64];
        for entries in [3, 4, 8] {
            let mut lent = Lent::with_answer(entries);
            assert_figures(&mut lent, Lent::read_place, text.as_bytes(), figures);
        }
    }
}

#[test]
fn a_part_of_a_refused_file_is_not_refused() {
    for (file, number) in refused_files() {
        // Of the last file just the table is refused, for its length.
        let figures = if number == 1 { [8, 502, 0] } else { [0; 3] };
        assert_figures(&mut Lent::with_answer(3), Lent::part, &file, figures);
    }
}

#[test]
fn three_entries_of_the_answer_are_written_and_no_more() {
    let file = [vec![0; BLOCK], block(1, 7, 0, 1, W1)].concat();
    for entries in [3, 4, 8] {
        let mut lent = Lent::with_answer(entries);
        assert_figures(&mut lent, Lent::analyse, W1, [4, 1, 0]);
        assert_figures(&mut lent, Lent::start, W1, [1, 0, 3]);
        assert_figures(&mut lent, Lent::resume, W1, [1, 0, 6]);
        assert_figures(&mut lent, Lent::render, W1, [W1_LISTING.len() as u64, 0, 0]);
        assert_figures(&mut lent, Lent::render, W2, [13, 0, 0]);
        assert_figures(&mut lent, Lent::read, b"suspend emit A when S", [2, 2, 0]);
        assert_figures(&mut lent, Lent::read, b"[pause||nothing]", [3, 0, 0]);
        assert_figures(&mut lent, Lent::read_place, b"emit case", [20, 0, 5]);
        assert_figures(&mut lent, Lent::read_place, b"[pause||nothing]", [0, 0, 0]);
        assert_figures(&mut lent, Lent::tick, W1, [0, 4, 1]);
        assert_figures(&mut lent, Lent::tick, W2, [1, 1, 0]);
        assert_figures(&mut lent, Lent::tick, W8, [1, 7, 2]);
        assert_figures(&mut lent, Lent::fetch, &file, [8, 7, 1]);
        assert_figures(&mut lent, Lent::part, &file, [BLOCK as u64 + 8, 8, 0]);
        assert_figures(&mut lent, Lent::part, &[], [0, 0, 0]);
        assert_figures(&mut lent, Lent::narrow, W1, [4, 0, 0]);
        assert_figures(&mut lent, Lent::narrow, &full_table(), [1024, 0, 0]);
        assert_figures(&mut lent, Lent::first_tick, W1, [3, 0, 0]);
        assert_figures(&mut lent, Lent::first_tick, &full_table(), [11, 0, 0]);
        assert_figures(&mut lent, Lent::first_tick_answers, W1, [3, 0, 0]);
        assert_figures(&mut lent, Lent::first_tick_answers, &W8[..14], [5, 2, 0]);
        assert_figures(&mut lent, Lent::ask, W1, [1, 1, 0]);
        assert_figures(&mut lent, Lent::ask, W7, [0, 1, 0]);
        assert_figures(&mut lent, Lent::trial, W1, [2, 0, 0]);
        assert_figures(&mut lent, Lent::trial, &W8[..14], [3, 2, 0]);
    }
}

fn assert_figures(lent: &mut Lent, function: Function, given: &[u8], figures: [u64; 3]) {
    lent.answer.fill(FILL_NUMBER);
    let mut expected = lent.answer.clone();
    expected[..3].copy_from_slice(&figures);
    assert_eq!(function(lent, given), 0);
    assert_eq!(lent.answer, expected);
}
