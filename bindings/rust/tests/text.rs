//! Programs as text: the tables that the grammar of F-1 gives by hand, each refusal with the place of
//! its fault, and the deepest texts, those of F-9 among them.

mod common;

use std::thread;

use bavzhrono::{listing, read, table_of, Sets, MAX_SOURCE};
use common::*;

#[test]
fn leaves_and_statements_of_one_child() {
    assert_read("nothing", &[1, 0], 0);
    assert_read("pause", &[2, 0], 0);
    assert_read("emit S", &[3, 0], 1);
    assert_read("signal S in pause end", &[2, 0, 5, 0], 1);
    assert_read("trap T in exit T end", &[4, 0, 11, 0], 0);
    assert_read("loop pause; emit S end", &[2, 0, 3, 0, 9, 0, 8, 0], 1);
}

#[test]
fn a_suspend_is_closed_by_its_signal() {
    let sequence = [2, 0, 1, 0, 9, 0, 7, 0];
    assert_read("suspend pause;nothing when S", &sequence, 1);
    assert_read("loop suspend pause when S end", &[2, 0, 7, 0, 8, 0], 1);
    assert_refused_at("suspend pause when S ^end", 14);
    assert_refused_at("suspend pause^", 14);
}

#[test]
fn sequences_and_parallels_group_to_the_left() {
    let sequences = [2, 0, 1, 0, 9, 0, 3, 0, 9, 0];
    assert_read("pause;nothing;emit A", &sequences, 1);
    let parallels = [2, 0, 1, 0, 10, 0, 3, 0, 10, 0];
    assert_read("[pause||nothing||emit A]", &parallels, 1);
    let to_the_right = [2, 0, 1, 0, 3, 0, 10, 0, 10, 0];
    assert_read("[pause||[nothing||emit A]]", &to_the_right, 1);
}

#[test]
fn the_double_bar_binds_looser_than_the_semicolon() {
    let table = [2, 0, 1, 0, 9, 0, 2, 0, 3, 0, 9, 0, 10, 0];
    assert_read("[pause;nothing||pause;emit A]", &table, 1);
}

#[test]
fn a_missing_branch_is_nothing() {
    assert_read("present S then pause end", &[2, 0, 1, 0, 6, 0], 1);
    assert_read("present S else pause end", &[1, 0, 2, 0, 6, 0], 1);
    let both = "present S then emit A else emit B end";
    assert_read(both, &[3, 1, 3, 2, 6, 0], 3);
    assert_refused_at("present S ^end", 14);
    assert_refused_at("present S else pause ^then pause end", 14);
}

#[test]
fn signals_are_numbered_where_they_first_appear() {
    assert_read("present S then emit A end", &[3, 1, 1, 0, 6, 0], 2);
    assert_read("suspend emit A when S", &[3, 0, 7, 1], 2);
    let again = "signal A in signal B in signal A in emit B end end end";
    assert_read(again, &[3, 1, 5, 0, 5, 1, 5, 0], 2);
}

#[test]
fn an_exit_means_the_nearest_trap_of_its_name() {
    let nearest = "trap T in trap T in exit T end end";
    assert_read(nearest, &[4, 0, 11, 0, 11, 0], 0);
    let further_out = "trap T in trap U in exit T end end";
    assert_read(further_out, &[4, 1, 11, 0, 11, 0], 0);
    let beside = "trap T in trap T in pause end; exit T end";
    assert_read(beside, &[2, 0, 11, 0, 4, 0, 9, 0, 11, 0], 0);
}

#[test]
fn a_trap_and_a_signal_may_have_the_same_name() {
    let text = "trap A in emit A; exit A end";
    assert_read(text, &[3, 0, 4, 0, 9, 0, 11, 0], 1);
}

#[test]
fn words_and_what_separates_them() {
    assert_read("\n\tloop\tpause\n end \t", &[2, 0, 8, 0], 0);
    assert_read("loop[pause||pause]end", &[2, 0, 2, 0, 10, 0, 8, 0], 0);
    assert_read("emit pauses;emit emit3", &[3, 0, 3, 1, 9, 0], 2);
    let by_case = [3, 0, 3, 1, 9, 0, 3, 2, 9, 0];
    assert_read("emit s;emit S;emit Exit", &by_case, 3);
    assert_read(&format!("emit {}", "a".repeat(32)), &[3, 0], 1);
}

#[test]
fn the_worked_tables_as_text() {
    let w3 =
        "loop trap A in trap B in trap C in [exit B || exit C] end;\nexit A end; pause end end";
    let lock = "loop trap T in [loop pause end || pause; exit T] end end";
    assert_read(w3, W3, 0);
    assert_read("[nothing || pause]", W7, 0);
    assert_read(lock, LOCK, 0);
}

#[test]
fn check_11_is_left_to_the_checker() {
    for (text, table, line) in [
        ("loop nothing end", W2, "refused 11 1\n"),
        ("loop trap T in exit T end end", W4, "refused 11 2\n"),
    ] {
        assert_read(text, table, 0);
        assert_eq!(listing(&table_of(text.as_bytes()).unwrap()), line);
    }
}

#[test]
fn a_text_is_read_and_analysed() {
    let table = table_of(b"loop pause; emit S end").unwrap();
    let sets = Sets::of(&table).unwrap();
    assert_eq!((sets.analysis.nodes, sets.analysis.loop_depth), (4, 1));
    assert_eq!(sets.start_sets[3].to_string(), "{1}");
}

#[test]
fn depth_256() {
    let sequence = [vec![2, 0], [2, 0, 9, 0].repeat(255)].concat();
    assert_read(&flat(256), &sequence, 0);
    let loops = nested("loop ", "pause", " end", 255);
    assert_read(&loops, &around([2, 0], [8, 0], 255), 0);
}

#[test]
fn sixty_two_traps() {
    let text = nested("trap T in ", "exit T", " end", 62);
    assert_read(&text, &around([4, 0], [11, 0], 62), 0);
}

#[test]
fn two_hundred_and_fifty_six_signals() {
    // Two branches of 128 emits each, grouped to the left.
    let mut table = Vec::new();
    for signal in 0..=255 {
        table.extend([3, signal]);
        if signal % 128 != 0 {
            table.extend([9, 0]);
        }
    }
    table.extend([10, 0]);
    assert_read(&emits(256), &table, 256);
}

#[test]
fn a_thousand_and_twenty_four_nodes() {
    let mut text = "pause".to_string();
    for _ in 0..9 {
        text = format!("[{text}||{text}]");
    }
    let table = full_table_with([2, 0], [10, 0]);
    assert_eq!(table.len(), TABLE_NEED);
    assert_read(&format!("loop {text} end"), &table, 0);
}

#[test]
fn check_3_comes_first() {
    let refused_later =
        ["", "case", "exit T", &emits(257), &flat(513), &flat(257)].map(String::from);
    for text in ["pause".to_string()].iter().chain(&refused_later) {
        for length in [0, 1, 2, TABLE_NEED - 1] {
            let mut lent = vec![FILL; length];
            assert_eq!(read(text.as_bytes(), &mut lent), refused(3, 0));
            assert_eq!(lent, vec![FILL; length]);
        }
    }
}

#[test]
fn check_14_outside_the_grammar() {
    let texts = [
        "^",
        " \t\n^",
        "[pause^]",
        "[^]",
        "[pause||^]",
        "pause^||pause",
        "[pause||pause^",
        "pause^]",
        "pause;^",
        "^;pause",
        "pause ^pause",
        "loop ^end",
        "loop pause^",
        "loop pause; ^end",
        "emit^",
        "^Pause",
    ];
    for text in texts {
        assert_refused_at(text, 14);
    }
}

#[test]
fn check_14_no_name() {
    for text in ["emit ^end", "emit ^3a", "emit ^_a", "^emit3", "emit ^[]"] {
        assert_refused_at(text, 14);
    }
    assert_refused_at(format!("emit ^{}", "a".repeat(33)), 14);
}

#[test]
fn check_14_a_byte_or_a_bar_that_no_text_has() {
    let bars = ["[pause^|pause]", "[pause^| |pause]", "[pause||^|pause]"];
    let bytes = [
        "pause;^\r\npause",
        "pause ^% wait",
        "emit ^\u{e9}",
        "pause^\0",
        "pause^.",
    ];
    for text in bars.iter().chain(&bytes) {
        assert_refused_at(text, 14);
    }
    assert_not_read(b"pause\xff", 14, 0, 5);
}

#[test]
fn check_14_the_length() {
    assert_read(&padded("pause", MAX_SOURCE), &[2, 0], 0);
    assert_not_read(padded("pause", MAX_SOURCE + 1), 14, 0, MAX_SOURCE);
    assert_not_read(padded("exit T", MAX_SOURCE), 15, 0, 5);
    assert_not_read(padded("exit T", MAX_SOURCE + 1), 14, 0, MAX_SOURCE);
}

#[test]
fn check_15_an_exit_without_its_trap() {
    assert_refused_at("exit ^T", 15);
    assert_refused_at("trap T in pause end; exit ^T", 15);
    assert_refused_at("trap T in exit ^t end", 15);
    assert_refused_at("signal T in exit ^T end", 15);
}

#[test]
fn check_16_a_257th_signal_name() {
    assert_refused_at(too_many_emits(), 16);
}

#[test]
fn check_1_a_table_that_would_be_too_long() {
    assert_not_read(flat(513), 1, 0, 0);
    assert_not_read(flat(512), 8, 0, 0);
}

#[test]
fn check_8_a_node_that_would_be_too_deep() {
    assert_not_read(flat(257), 8, 0, 0);
    assert_not_read(nested("loop ", "pause", " end", 256), 8, 0, 0);
    // The pauses come first. The last but one and the last of 257 are in the innermost bracket.
    assert_not_read(nested("[pause||", "pause", "]", 256), 8, 255, 0);
}

#[test]
fn check_9_too_many_traps() {
    let traps = nested("trap T in ", "exit T", " end", 63);
    assert_not_read(&traps, 9, 1, 0);
    assert_not_read(format!("pause;{traps}"), 9, 2, 0);
}

#[test]
fn checks_are_made_in_the_order_14_15_16_1_8_9() {
    let signals = emits(257);
    assert_refused_at("exit T; ^end", 14);
    assert_refused_at(format!("{signals};^"), 14);
    assert_refused_at(format!("{signals}; exit ^T"), 15);
    assert_refused_at(format!("{}; {}", too_many_emits(), flat(500)), 16);
    assert_not_read(flat(513), 1, 0, 0);
    assert_not_read(nested("trap T in ", "exit T", " end", 256), 8, 0, 0);
}

/// Emits of 257 signals, with a caret before the name of the last.
fn too_many_emits() -> String {
    emits(257).replace("S256", "^S256")
}

/// In a thread with little more stack than the header for C tells.
fn assert_not_read_in_a_thread(text: String, number: u32, place: usize) {
    assert!(text.len() <= MAX_SOURCE);
    let call = move || assert_not_read(text, number, 0, place);
    let thread = thread::Builder::new().stack_size(1650 << 10).spawn(call);
    let outcome = thread.expect("a thread starts").join();
    outcome.expect("the text is refused at its place");
}

/// The words as often as a text can have them, and its end.
fn open_levels(words: &str, end: &str) -> String {
    words.repeat((MAX_SOURCE - end.len()) / words.len()) + end
}

#[test]
fn levels_that_are_never_closed_do_not_exhaust_the_stack() {
    let levels = [
        "[",
        "[pause||",
        "[nothing||",
        "[pause;",
        "loop ",
        "loop pause;",
        "loop[",
        "suspend ",
        "suspend[",
        "trap T in ",
        "signal S in ",
        "present S then ",
        "present S else ",
        "present S then pause else ",
        "[halt||",
        "abort ",
        "abort[",
        "weak abort ",
        "abort await S;",
    ];
    // All of them can go on, whatever the limit of the length: only the end is at fault.
    let ends = [("", 14), ("|", 14), ("case", 20), ("1984", 20)];
    for words in levels {
        for (end, number) in ends {
            let text = open_levels(words, end);
            let place = text.len() - end.len();
            assert_not_read_in_a_thread(text, number, place);
        }
    }
}

/// As many levels in second branches as go with 2,731 levels: the dearest that were found.
#[test]
fn the_dearest_text_does_not_exhaust_the_stack() {
    let branches = "[halt||".repeat(2_275);
    let brackets = "[".repeat(MAX_SOURCE - branches.len());
    assert_not_read_in_a_thread(branches + &brackets, 14, MAX_SOURCE);
}

#[test]
fn the_deepest_texts_of_the_grammar_do_not_exhaust_the_stack() {
    let levels = [
        ("loop ", "nothing", " end"),
        ("[", "halt", "||halt]"),
        ("[halt||", "halt", "]"),
        ("suspend ", "pause", " when S"),
        ("trap T in ", "exit T", " end"),
        ("present S then ", "pause", " end"),
        ("present S else ", "pause", " end"),
        ("abort ", "halt", " when S end"),
        ("weak abort ", "halt", " when S end"),
        ("pause;", "pause", ""),
        // 2,184 levels, the most that were found in a text of the grammar.
        ("loop[", "halt", "||halt]end"),
    ];
    for (begin, inner, end) in levels {
        let levels = (MAX_SOURCE - inner.len()) / (begin.len() + end.len());
        // As many levels as there can be have too many nodes.
        assert_not_read_in_a_thread(nested(begin, inner, end, levels), 1, 0);
    }
    // A level of 16 bytes: just 1,024 nodes.
    let signals = nested("signal S in ", "pause", " end", 1023);
    assert_not_read_in_a_thread(signals, 8, 0);
}
