//! The everyday dialect: the tables that the expansions of F-9 give by hand, what they do when they
//! run, the words that are names no longer, and check 20.

mod common;

use bavzhrono::{table_of, CodeSet, Completion, Sets, MAX_SOURCE};
use common::*;

/// The table of `await` for signal 0.
const AWAIT: [u8; 14] = [2, 0, 4, 0, 1, 0, 6, 0, 9, 0, 8, 0, 11, 0];

/// The table of `weak abort` with this body, when the signal is present.
fn weakly_aborted(body: &[u8], signal: u8) -> Vec<u8> {
    let wait = [2, 0, 4, 0, 1, 0, 6, signal, 9, 0, 8, 0];
    [body, &[4, 0, 9, 0], &wait, &[10, 0, 11, 0]].concat()
}

/// The table of `abort` with this body, when the signal is present.
fn aborted(body: &[u8], signal: u8) -> Vec<u8> {
    weakly_aborted(&[body, &[7, signal]].concat(), signal)
}

fn joined(first: &[u8], second: &[u8]) -> Vec<u8> {
    [first, second].concat()
}

#[test]
fn each_form_byte_by_byte() {
    assert_read("halt", &[2, 0, 8, 0], 0);
    assert_read("sustain S", &[3, 0, 2, 0, 9, 0, 8, 0], 1);
    assert_read("await S", &AWAIT, 1);
    let abort = [
        2, 0, 7, 0, 4, 0, 9, 0, 2, 0, 4, 0, 1, 0, 6, 0, 9, 0, 8, 0, 10, 0, 11, 0,
    ];
    assert_read("abort pause when S end", &abort, 1);
    let weak_abort = [
        2, 0, 4, 0, 9, 0, 2, 0, 4, 0, 1, 0, 6, 0, 9, 0, 8, 0, 10, 0, 11, 0,
    ];
    assert_read("weak abort pause when S end", &weak_abort, 1);
}

#[test]
fn an_abort_around_a_sequence() {
    let body = [2, 0, 1, 0, 9, 0];
    let strong = "abort pause;nothing when S end";
    assert_read(strong, &aborted(&body, 0), 1);
    let weak = "weak\n\tabort pause;nothing when S end";
    assert_read(weak, &weakly_aborted(&body, 0), 1);
    let brackets = "weak abort[halt||halt]when S end;halt";
    let halts = weakly_aborted(&[2, 0, 8, 0, 2, 0, 8, 0, 10, 0], 0);
    assert_read(brackets, &joined(&halts, &[2, 0, 8, 0, 9, 0]), 1);
}

#[test]
fn forms_within_each_other() {
    let pause = [2, 0];
    let twice = "abort abort pause when A end when B end";
    assert_read(twice, &aborted(&aborted(&pause, 0), 1), 2);
    let weak_within = "abort weak abort pause when A end when B end";
    assert_read(weak_within, &aborted(&weakly_aborted(&pause, 0), 1), 2);
    let weak_around = "weak abort abort pause when A end when B end";
    assert_read(weak_around, &weakly_aborted(&aborted(&pause, 0), 1), 2);
    let awaited = "weak abort await S when S end";
    assert_read(awaited, &weakly_aborted(&AWAIT, 0), 1);
}

#[test]
fn forms_within_the_kernel_and_around_it() {
    let suspended = "abort suspend pause when A when B end";
    assert_read(suspended, &aborted(&[2, 0, 7, 0], 1), 2);
    let suspend = "suspend abort pause when A end when B";
    assert_read(suspend, &joined(&aborted(&[2, 0], 0), &[7, 1]), 2);
    let repeated = "loop abort halt when S end end";
    let halt = aborted(&[2, 0, 8, 0], 0);
    assert_read(repeated, &joined(&halt, &[8, 0]), 1);
    let branch = "present S then halt else sustain S end";
    let branches = [2, 0, 8, 0, 3, 0, 2, 0, 9, 0, 8, 0, 6, 0];
    assert_read(branch, &branches, 1);
}

#[test]
fn the_expansion_written_out_has_the_same_table() {
    let wait = "loop pause; present S then exit T end end";
    let pairs = [
        ("halt; emit S", "loop pause end; emit S".to_string()),
        ("sustain S", "loop emit S; pause end".to_string()),
        ("await S", format!("trap T in {wait} end")),
        (
            "abort emit S; pause when S end",
            format!("trap T in [suspend emit S; pause when S; exit T || {wait}] end"),
        ),
        (
            "weak abort emit S; pause when S end",
            format!("trap T in [emit S; pause; exit T || {wait}] end"),
        ),
    ];
    for (form, kernel) in pairs {
        let table = table_of(kernel.as_bytes()).unwrap();
        assert_read(form, &table, 1);
    }
}

#[test]
fn an_exit_that_leaves_a_form_counts_its_trap() {
    let out = "trap T in abort exit T when S end end";
    assert_read(out, &joined(&aborted(&[4, 1], 0), &[11, 0]), 1);
    let weakly_out = "trap T in weak abort exit T when S end end";
    let table = joined(&weakly_aborted(&[4, 1], 0), &[11, 0]);
    assert_read(weakly_out, &table, 1);
    let of_two = "trap T in abort weak abort exit T when A end when B end end";
    let inner = weakly_aborted(&[4, 2], 0);
    assert_read(of_two, &joined(&aborted(&inner, 1), &[11, 0]), 2);
    let past_traps = "trap T in trap U in abort trap V in exit T end when S end end end";
    let table = joined(&aborted(&[4, 3, 11, 0], 0), &[11, 0, 11, 0]);
    assert_read(past_traps, &table, 1);
}

#[test]
fn an_exit_that_stays_within_a_form_does_not_count_its_trap() {
    let within = "abort trap T in exit T end when S end";
    assert_read(within, &aborted(&[4, 0, 11, 0], 0), 1);
    let nearest = "trap T in abort trap T in exit T end when S end end";
    let table = joined(&aborted(&[4, 0, 11, 0], 0), &[11, 0]);
    assert_read(nearest, &table, 1);
    let of_one = "abort trap T in abort exit T when A end end when B end";
    let inner = joined(&aborted(&[4, 1], 0), &[11, 0]);
    assert_read(of_one, &aborted(&inner, 1), 2);
}

#[test]
fn an_exit_beside_a_form_does_not_count_its_trap() {
    let text = "trap T in [abort pause when S end || exit T]; await S; exit T end";
    let branches = joined(&aborted(&[2, 0], 0), &[4, 0, 10, 0]);
    let rest = [&AWAIT[..], &[9, 0, 4, 0, 9, 0, 11, 0]].concat();
    assert_read(text, &joined(&branches, &rest), 1);
}

#[test]
fn no_exit_means_the_added_trap() {
    assert_refused_at("abort exit ^T when S end", 15);
    assert_refused_at("weak abort exit ^S when S end", 15);
    let before = "trap T in exit T; abort exit ^U when S end; exit V end";
    assert_refused_at(before, 15);
}

#[test]
fn signals_of_the_forms_are_numbered_where_they_first_appear() {
    let after_its_body = "abort emit A when S end; emit S";
    let table = joined(&aborted(&[3, 0], 1), &[3, 1, 9, 0]);
    assert_read(after_its_body, &table, 2);
    let in_its_body = "abort emit A; sustain S when S end";
    let body = [3, 0, 3, 1, 2, 0, 9, 0, 8, 0, 9, 0];
    assert_read(in_its_body, &aborted(&body, 1), 2);
    let sustained = "sustain B; await A; emit B; emit A";
    let table = [
        3, 0, 2, 0, 9, 0, 8, 0, // sustain B
        2, 0, 4, 0, 1, 0, 6, 1, 9, 0, 8, 0, 11, 0, 9, 0, // await A
        3, 0, 9, 0, 3, 1, 9, 0,
    ];
    assert_read(sustained, &table, 2);
    let trap_of_its_name = "trap S in await S end";
    assert_read(trap_of_its_name, &joined(&AWAIT, &[11, 0]), 1);
}

/// What a start of the program can give.
fn start_set(text: &str) -> CodeSet {
    let sets = Sets::of(&table_of(text.as_bytes()).unwrap()).unwrap();
    *sets.start_sets.last().unwrap()
}

#[test]
fn the_start_set_of_an_abort_is_that_of_its_body() {
    let bodies = [
        "nothing",
        "halt",
        "await A",
        "[nothing || pause]",
        "present A then pause end",
        "trap T in [exit T || pause] end",
        "exit U",
        "present A then exit U else pause end",
        "present A then exit V else present B then exit U end end",
    ];
    for body in bodies {
        let around = |p: &str| format!("trap V in trap U in {p} end; pause end");
        let expected = start_set(&around(body));
        for abort in ["abort", "weak abort"] {
            let form = format!("{abort} {body} when S end");
            assert_eq!(start_set(&around(&form)), expected, "{form}");
        }
    }
}

/// Starts the text's program, which pauses, and resumes it with the answers. Signal 0 is emitted in
/// the first instant; the second emits it or not.
fn assert_resumes(text: &str, answers: &[u8], code: Completion, entries: usize, emits: bool) {
    let table = table_of(text.as_bytes()).unwrap();
    let mut lent = Buffers::for_table(&table, 0);
    let started = lent.start(&table, &[]).unwrap();
    assert_eq!((started.code, lent.emissions[0]), (Completion::Paused, 1));
    let resumed = lent.resume(&table, answers);
    assert_eq!(resumed, closed(code, answers.len(), entries), "{text}");
    assert_eq!(lent.emissions[0], u8::from(emits), "{text}");
}

#[test]
fn an_abort_keeps_its_body_from_the_instant_and_a_weak_abort_does_not() {
    use Completion::{Paused, Terminated};
    // The suspend takes the first answer. Where it is present, the loop of sustain is not entered.
    let strong = "abort sustain A when S end";
    assert_resumes(strong, &[1, 1], Terminated, 9, false);
    assert_resumes(strong, &[0, 0], Paused, 17, true);
    let weak = "weak abort sustain A when S end";
    assert_resumes(weak, &[1], Terminated, 14, true);
    assert_resumes(weak, &[0], Paused, 16, true);
}

#[test]
fn an_await_ends_in_a_later_instant() {
    let awaited = "emit A; await S";
    // Sequence, trap, loop, sequence, pause, present, and an exit; or a nothing, and the loop's
    // body once more as far as its pause.
    assert_resumes(awaited, &[1], Completion::Terminated, 7, false);
    assert_resumes(awaited, &[0], Completion::Paused, 9, false);
}

/// Words that could be names before them.
const DIALECT: [&str; 5] = ["halt", "sustain", "await", "abort", "weak"];
const FULL_LANGUAGE: [&str; 3] = ["immediate", "every", "case"];
const KERNEL: [&str; 14] = [
    "nothing", "pause", "signal", "in", "end", "emit", "present", "then", "else", "suspend",
    "when", "loop", "trap", "exit",
];

/// Refused by the number wherever a name must stand.
fn assert_no_name(word: &str, number: u32) {
    let places = [
        ("emit ", ""),
        ("trap T in exit ", " end"),
        ("signal ", " in pause end"),
        ("trap ", " in pause end"),
        ("present ", " then pause end"),
        ("suspend pause when ", ""),
        ("sustain ", ""),
        ("await ", ""),
        ("abort pause when ", " end"),
        ("weak abort pause when ", " end"),
    ];
    for (before, after) in places {
        assert_refused_at(format!("{before}^{word}{after}"), number);
    }
}

#[test]
fn the_words_of_the_language_are_no_names() {
    for word in KERNEL.iter().chain(&DIALECT) {
        assert_no_name(word, 14);
    }
    for word in FULL_LANGUAGE {
        assert_no_name(word, 20);
    }
}

#[test]
fn names_that_are_close_to_words() {
    let words = DIALECT.iter().chain(&FULL_LANGUAGE);
    let names = words.flat_map(|word| {
        let capital = word[..1].to_uppercase() + &word[1..];
        let (longer, shorter) = (format!("{word}3"), &word[1..]);
        [capital, longer, format!("{word}_"), shorter.to_string()]
    });
    for name in names {
        assert_read(&format!("emit {name}"), &[3, 0], 1);
    }
}

#[test]
fn check_14_forms_outside_the_grammar() {
    let texts = [
        "weak^",
        "weak ^pause",
        "weak ^weak abort pause when S end",
        "weak ^suspend pause when S",
        "abort pause when S^",
        "abort pause when S^;pause",
        "abort pause ^end",
        "abort ^when S end",
        "abort pause when ^end",
        "abort pause when S end ^end",
        "abort suspend pause when S ^end",
        "[abort pause^||pause when S end]",
        "halt ^S",
        "sustain^",
        "await^;pause",
        "await S ^end",
    ];
    for text in texts {
        assert_refused_at(text, 14);
    }
}

#[test]
fn check_20_words_of_the_full_language() {
    let texts = [
        "^case",
        "^every S do pause end",
        "^immediate",
        "pause ^case",
        "emit A ^case",
        "pause; ^every S",
        "[pause || ^every",
        "[^case",
        "await ^immediate S",
        "abort pause when ^immediate S end",
        "abort pause when ^case S do pause end",
        "suspend pause when ^immediate S",
        "weak ^case",
        "loop pause\n\t^every",
        "pause;\t^case\r",
    ];
    for text in texts {
        assert_refused_at(text, 20);
    }
}

#[test]
fn check_20_a_count() {
    for text in [
        "^0",
        "emit ^3",
        "emit ^3.5",
        "emit ^3;case",
        "await ^3 S",
        "abort pause when ^2 S end",
        "pause ^3",
        "pause; ^007",
    ] {
        assert_refused_at(text, 20);
    }
    assert_refused_at(format!("emit ^{}", "9".repeat(40)), 20);
    assert_refused_at(format!("^{}", "7".repeat(MAX_SOURCE)), 20);
}

#[test]
fn check_14_a_word_that_is_no_count() {
    for text in [
        "await ^3a",
        "await ^3_",
        "await ^_3",
        "await ^-3",
        "emit ^.5",
    ] {
        assert_refused_at(text, 14);
    }
}

#[test]
fn the_first_word_or_sign_at_fault_decides_between_14_and_20() {
    for text in [
        "[pause ^| every",
        "^end case",
        "emit A ^B 3",
        "emit ^halt case",
        "pause^\r case",
        "emit^\u{e9}case",
        "pause; ^] 3",
    ] {
        assert_refused_at(text, 14);
    }
    assert_refused_at("pause; ^case end ]", 20);
    assert_refused_at("emit ^3 \u{e9}", 20);
    let long_word = "a".repeat(33);
    assert_refused_at(format!("emit ^{long_word} case"), 14);
}

#[test]
fn check_20_is_in_the_place_of_14() {
    let signals = emits(257);
    assert_refused_at("exit T; ^case", 20);
    assert_refused_at(format!("{signals}; ^3"), 20);
    assert_refused_at(format!("{}; ^every", flat(513)), 20);
    assert_not_read(padded("case", MAX_SOURCE), 20, 0, 0);
    assert_not_read(padded("case", MAX_SOURCE + 1), 14, 0, MAX_SOURCE);
}

#[test]
fn sixty_two_traps_that_forms_add() {
    let aborts = |count| nested("abort ", "pause", " when S end", count);
    let table = (0..62).fold(vec![2, 0], |body, _| aborted(&body, 0));
    assert_read(&aborts(62), &table, 1);
    // The innermost abort has twelve nodes, its trap the last.
    assert_not_read(aborts(63), 9, 11, 0);
    let weak_aborts = nested("weak abort ", "pause", " when S end", 63);
    assert_not_read(weak_aborts, 9, 10, 0);

    let await_in = |traps| nested("trap T in ", "await S", " end", traps);
    assert_read(&await_in(61), &joined(&AWAIT, &[11, 0].repeat(61)), 1);
    assert_not_read(await_in(62), 9, 6, 0);
}

#[test]
fn depth_256_of_forms() {
    // Four levels for each abort but the last, in which the loop that waits has its exit at the
    // sixth: 61 * 4 + 6 = 250.
    let aborts = nested("abort ", "pause", " when S end", 62);
    let table = (0..62).fold(vec![2, 0], |body, _| aborted(&body, 0));
    let in_loops = |loops| nested("loop ", &aborts, " end", loops);
    assert_read(&in_loops(6), &joined(&table, &[8, 0].repeat(6)), 1);
    assert_not_read(in_loops(7), 8, 5, 0);
    assert_not_read(in_loops(8), 8, 0, 0);
}

#[test]
fn a_thousand_and_twenty_four_nodes_of_awaits() {
    let awaits = |count| vec!["await S"; count].join(";");
    let rest = joined(&AWAIT, &[9, 0]).repeat(127);
    let table = [&AWAIT[..], &rest, &[8, 0]].concat();
    assert_eq!(table.len(), TABLE_NEED);
    assert_read(&format!("loop {} end", awaits(128)), &table, 1);
    assert_not_read(awaits(129), 1, 0, 0);
}
