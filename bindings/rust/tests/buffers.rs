//! Lent buffers: what is too short is refused and unchanged, and so is what lies past the need. For
//! states, whose length the compiler sees to, that is in `held_bits.rs`.

mod common;

use bavzhrono::{Analysis, CodeSet, Completion, Mark, SIGNALS};
use common::*;

const MORE: usize = 5;

#[test]
fn a_short_start_set_buffer() {
    assert_too_short_to_analyse(|lent| lent.start_sets.truncate(3));
}

#[test]
fn a_short_any_instant_set_buffer() {
    assert_too_short_to_analyse(|lent| lent.any_sets.truncate(3));
}

#[test]
fn a_short_context_buffer() {
    assert_too_short_to_analyse(|lent| lent.contexts.truncate(3));
}

#[test]
fn a_short_mark_buffer() {
    assert_too_short_to_analyse(|lent| lent.marks.truncate(3));
}

fn assert_too_short_to_analyse(shorten: impl Fn(&mut Buffers)) {
    let mut lent = Buffers::for_table(W1, 0);
    shorten(&mut lent);
    let before = lent.clone();
    assert_eq!(lent.analyse(W1), refused(3, 0));
    assert_eq!(lent, before);
}

#[test]
fn short_emissions() {
    let mut lent = Buffers::for_table(W1, 0);
    lent.state = holding(&[0]);
    lent.emissions.truncate(SIGNALS - 1);
    let before = lent.clone();
    assert_eq!(lent.start(W1, &[]), refused(3, 0));
    assert_eq!(lent.resume(W1, &[]), refused(3, 0));
    assert_eq!(lent, before);
}

#[test]
fn a_short_text() {
    for (table, text) in [(W1, W1_LISTING), (W2, "refused 11 1\n")] {
        let mut lent = Buffers::for_table(table, 0);
        lent.text.truncate(text.len() - 1);
        let before = lent.clone();
        assert_eq!(lent.render(table), refused(3, 0));
        assert_eq!(lent, before);
    }
}

#[test]
fn empty_buffers_come_after_the_length_and_before_the_kinds() {
    let mut none = Buffers::for_table(&[], 0);
    none.emissions.clear();
    assert_eq!(none.analyse(&[]), refused(2, 0));
    assert_eq!(none.analyse(&[12, 0]), refused(3, 0));
    assert_eq!(none.start(&[12, 0], &[]), refused(3, 0));
    assert_eq!(none.resume(&[12, 0], &[]), refused(3, 0));
}

#[test]
fn analyse_leaves_what_lies_past_the_nodes() {
    let mut lent = Buffers::for_table(W1, MORE);
    let mut expected = lent.clone();
    let figures = Analysis {
        nodes: 4,
        loop_depth: 1,
    };
    assert_eq!(lent.analyse(W1), Ok(figures));
    expected.start_sets[..4].copy_from_slice(&[2, 1, 2, 2].map(CodeSet));
    expected.any_sets[..4].copy_from_slice(&[3, 1, 3, 2].map(CodeSet));
    expected.contexts[..4].copy_from_slice(&[1, 0, 1, 0].map(CodeSet));
    expected.marks[..4].copy_from_slice(&[1, 0, 1, 0].map(Mark));
    assert_eq!(lent, expected);
}

#[test]
fn instants_leave_what_lies_past_the_need() {
    let mut lent = Buffers::for_table(W1, MORE);
    let mut expected = lent.clone();
    expected.state = holding(&[0]);
    expected.emissions[..SIGNALS].fill(0);
    assert_eq!(lent.start(W1, &[]), closed(Completion::Paused, 0, 3));
    assert_eq!(lent, expected);
    expected.emissions[7] = 1;
    assert_eq!(lent.resume(W1, &[]), closed(Completion::Paused, 0, 6));
    assert_eq!(lent, expected);
}

#[test]
fn render_leaves_what_lies_past_the_text() {
    let mut lent = Buffers::for_table(W1, MORE);
    let mut expected = lent.clone();
    let length = W1_LISTING.len();
    expected.text[..length].copy_from_slice(W1_LISTING.as_bytes());
    assert_eq!(lent.render(W1), Ok(length));
    assert_eq!(lent, expected);
}

#[test]
fn a_text_that_just_fits() {
    let mut lent = Buffers::for_table(W1, 0);
    lent.text.truncate(W1_LISTING.len());
    assert_eq!(lent.render(W1), Ok(W1_LISTING.len()));
    assert_eq!(lent.text, W1_LISTING.as_bytes());
}
