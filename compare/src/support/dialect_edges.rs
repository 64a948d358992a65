//! Texts at the edges of request F-9 and of its agreed readings, with what a reader must
//! make of them.

use super::text_edges::{
    many_emits, nested, outside, padded, refused, refused_at, sizes, table, too_long, TextEdge,
};
use crate::checks::MOST_TRAPS;
use crate::text::MOST_TEXT;

pub(super) fn edges() -> Vec<TextEdge> {
    let mut edges = forms();
    edges.extend(within_each_other());
    edges.extend(exits());
    edges.extend(signals());
    edges.extend(unfinished());
    edges.extend(names_no_longer());
    edges.extend(foreign());
    edges.extend(counts());
    edges.extend(other_tokens_first());
    edges.extend(order());
    edges.extend(limits());
    edges.extend(never_closed());
    edges
}

/// Refused by 20 where the caret stands.
fn in_full(name: &'static str, marked: impl Into<Vec<u8>>) -> TextEdge {
    refused_at(name, 20, marked)
}

/// The loop that waits for the signal.
fn waiting(signal: u8) -> [u8; 12] {
    [2, 0, 4, 0, 1, 0, 6, signal, 9, 0, 8, 0]
}

fn weakly_aborted(body: &[u8], signal: u8) -> Vec<u8> {
    [body, &[4, 0, 9, 0], &waiting(signal), &[10, 0, 11, 0]].concat()
}

fn aborted(body: &[u8], signal: u8) -> Vec<u8> {
    weakly_aborted(&[body, &[7, signal]].concat(), signal)
}

fn forms() -> Vec<TextEdge> {
    vec![
        table("halt", "halt", &[2, 0, 8, 0], 0),
        table("sustain", "sustain S", &[3, 0, 2, 0, 9, 0, 8, 0], 1),
        table(
            "await",
            "await S",
            &[2, 0, 4, 0, 1, 0, 6, 0, 9, 0, 8, 0, 11, 0],
            1,
        ),
        table(
            "abort",
            "abort pause when S end",
            &[
                2, 0, 7, 0, 4, 0, 9, 0, 2, 0, 4, 0, 1, 0, 6, 0, 9, 0, 8, 0, 10, 0, 11, 0,
            ],
            1,
        ),
        table(
            "weak abort",
            "weak abort pause when S end",
            &[
                2, 0, 4, 0, 9, 0, 2, 0, 4, 0, 1, 0, 6, 0, 9, 0, 8, 0, 10, 0, 11, 0,
            ],
            1,
        ),
        table(
            "a sequence in an abort",
            "abort pause;nothing when S end",
            &aborted(&[2, 0, 1, 0, 9, 0], 0),
            1,
        ),
        table(
            "a sequence in a weak abort",
            "weak abort pause;nothing when S end",
            &weakly_aborted(&[2, 0, 1, 0, 9, 0], 0),
            1,
        ),
        table(
            "no blanks around brackets",
            "weak abort[halt||halt]when S end;halt",
            &[
                &weakly_aborted(&[2, 0, 8, 0, 2, 0, 8, 0, 10, 0], 0)[..],
                &[2, 0, 8, 0, 9, 0],
            ]
            .concat(),
            1,
        ),
    ]
}

fn within_each_other() -> Vec<TextEdge> {
    let pause = &[2, 0];
    vec![
        table(
            "an abort in an abort",
            "abort abort pause when A end when B end",
            &aborted(&aborted(pause, 0), 1),
            2,
        ),
        table(
            "a weak abort in an abort",
            "abort weak abort pause when A end when B end",
            &aborted(&weakly_aborted(pause, 0), 1),
            2,
        ),
        table(
            "an abort in a weak abort",
            "weak abort abort pause when A end when B end",
            &weakly_aborted(&aborted(pause, 0), 1),
            2,
        ),
        table(
            "a suspend in an abort",
            "abort suspend pause when A when B end",
            &aborted(&[2, 0, 7, 0], 1),
            2,
        ),
        table(
            "an abort in a suspend",
            "suspend abort pause when A end when B",
            &[&aborted(pause, 0)[..], &[7, 1]].concat(),
            2,
        ),
        table(
            "an abort in a loop",
            "loop abort halt when A end end",
            &[&aborted(&[2, 0, 8, 0], 0)[..], &[8, 0]].concat(),
            1,
        ),
        table(
            "an abort in a branch",
            "present A else weak abort sustain B when B end end",
            &[
                &[1, 0],
                &weakly_aborted(&[3, 1, 2, 0, 9, 0, 8, 0], 1)[..],
                &[6, 0],
            ]
            .concat(),
            2,
        ),
    ]
}

fn exits() -> Vec<TextEdge> {
    vec![
        table(
            "an exit that leaves an abort",
            "trap T in abort exit T when S end end",
            &[&aborted(&[4, 1], 0)[..], &[11, 0]].concat(),
            1,
        ),
        table(
            "an exit that leaves a weak abort",
            "trap T in weak abort exit T when S end end",
            &[&weakly_aborted(&[4, 1], 0)[..], &[11, 0]].concat(),
            1,
        ),
        table(
            "an exit within an abort",
            "abort trap T in exit T end when S end",
            &aborted(&[4, 0, 11, 0], 0),
            1,
        ),
        table(
            "an exit that leaves an abort and traps",
            "trap T in trap U in abort trap V in exit T end when S end end end",
            &[&aborted(&[4, 3, 11, 0], 0)[..], &[11, 0, 11, 0]].concat(),
            1,
        ),
        table(
            "an exit that leaves two aborts",
            "trap T in abort weak abort exit T when A end when B end end",
            &[&aborted(&weakly_aborted(&[4, 2], 0), 1)[..], &[11, 0]].concat(),
            2,
        ),
        table(
            "an exit that leaves one of two aborts",
            "abort trap T in abort exit T when A end end when B end",
            &aborted(&[&aborted(&[4, 1], 0)[..], &[11, 0]].concat(), 1),
            2,
        ),
        table(
            "the nearest trap, within an abort",
            "trap T in abort trap T in exit T end when S end end",
            &[&aborted(&[4, 0, 11, 0], 0)[..], &[11, 0]].concat(),
            1,
        ),
        table(
            "exits beside an abort and an await",
            "trap T in [abort pause when S end||exit T];await S;exit T end",
            &[
                &aborted(&[2, 0], 0)[..],
                &[4, 0, 10, 0],
                &waiting(0),
                &[11, 0, 9, 0, 4, 0, 9, 0, 11, 0],
            ]
            .concat(),
            1,
        ),
        refused_at(
            "an exit from an abort without its trap",
            15,
            "abort exit ^T when S end",
        ),
        refused_at(
            "an exit of the signal that aborts",
            15,
            "weak abort exit ^S when S end",
        ),
    ]
}

fn signals() -> Vec<TextEdge> {
    vec![
        table(
            "an abort's signal after those in it",
            "abort emit A when S end;emit S",
            &[&aborted(&[3, 0], 1)[..], &[3, 1, 9, 0]].concat(),
            2,
        ),
        table(
            "an abort's signal that is in it",
            "abort emit A;sustain S when S end",
            &aborted(&[3, 0, 3, 1, 2, 0, 9, 0, 8, 0, 9, 0], 1),
            2,
        ),
        table(
            "sustain and await number signals",
            "sustain B;await A;emit B;emit A",
            &[
                &[3, 0, 2, 0, 9, 0, 8, 0],
                &[2, 0, 4, 0, 1, 0, 6, 1, 9, 0, 8, 0, 11, 0, 9, 0][..],
                &[3, 0, 9, 0, 3, 1, 9, 0],
            ]
            .concat(),
            2,
        ),
        table(
            "a trap with the name of what is awaited",
            "trap S in await S end",
            &[&waiting(0)[..], &[11, 0, 11, 0]].concat(),
            1,
        ),
    ]
}

fn unfinished() -> Vec<TextEdge> {
    vec![
        outside("weak alone", "weak^"),
        outside("weak before a pause", "weak ^pause"),
        outside("weak twice", "weak ^weak abort pause when S end"),
        outside("a weak suspend", "weak ^suspend pause when S"),
        outside("an abort without its end", "abort pause when S^"),
        outside(
            "an abort that goes on for its end",
            "abort pause when S^;pause",
        ),
        outside("an abort without when", "abort pause ^end"),
        outside("an abort of nothing", "abort ^when S end"),
        outside("an abort without its signal", "abort pause when ^end"),
        outside("an abort with two ends", "abort pause when S end ^end"),
        outside(
            "an abort whose when goes to a suspend",
            "abort suspend pause when S ^end",
        ),
        outside("halt with a signal", "halt ^S"),
        outside("sustain alone", "sustain^"),
        outside("await before a semicolon", "await^;pause"),
        outside("blanks after a text that stops", "pause; \n^"),
        outside("a line feed after a weak", "halt;\nweak\n^"),
    ]
}

/// The five words, and names that are close to them or to the others.
fn names_no_longer() -> Vec<TextEdge> {
    vec![
        outside("emit halt", "emit ^halt"),
        outside("exit sustain", "trap T in exit ^sustain end"),
        outside("trap await", "trap ^await in pause end"),
        outside("signal abort", "signal ^abort in pause end"),
        outside("present weak", "present ^weak then pause end"),
        outside("suspend when halt", "suspend pause when ^halt"),
        outside("sustain sustain", "sustain ^sustain"),
        outside("await await", "await ^await"),
        outside("abort when abort", "abort pause when ^abort end"),
        table(
            "names that are close to words",
            "emit halts;emit Await;emit weak_;emit abort3;emit cases;emit Every;emit immediat",
            &[
                3, 0, 3, 1, 9, 0, 3, 2, 9, 0, 3, 3, 9, 0, 3, 4, 9, 0, 3, 5, 9, 0, 3, 6, 9, 0,
            ],
            7,
        ),
    ]
}

/// What the full language has and the grammar has not, wherever it comes first.
fn foreign() -> Vec<TextEdge> {
    vec![
        in_full("case", "^case"),
        in_full("every", "^every S do pause end"),
        in_full("immediate", "^immediate"),
        in_full("emit case", "emit ^case"),
        in_full("emit every", "emit ^every"),
        in_full("emit immediate", "emit ^immediate"),
        in_full("trap case", "trap ^case in pause end"),
        in_full("exit every", "trap T in exit ^every end"),
        in_full("case after a statement", "pause ^case"),
        in_full("case after a name", "emit A ^case"),
        in_full("every after a semicolon", "pause; ^every S"),
        in_full("every after a double bar", "[pause || ^every"),
        in_full("case in a bracket", "[^case"),
        in_full("an immediate await", "await ^immediate S"),
        in_full("an immediate abort", "abort pause when ^immediate S end"),
        in_full("an immediate suspend", "suspend pause when ^immediate S"),
        in_full(
            "an abort with cases",
            "abort pause when ^case S do pause end",
        ),
        in_full("a case after weak", "weak ^case"),
        in_full("two that are foreign", "pause; ^3 case"),
        in_full("case before a byte that no text has", "pause;\t^case\r"),
    ]
}

fn counts() -> Vec<TextEdge> {
    vec![
        in_full("emit 3", "emit ^3"),
        in_full("a fraction", "emit ^3.5"),
        in_full("a count of an await", "await ^3 S"),
        in_full("a count of an abort", "abort pause when ^2 S end"),
        in_full("a count after a statement", "pause ^3"),
        in_full("a count alone", "^0"),
        in_full("a count with zeros in front", "pause; ^007"),
        in_full("a count of 40 digits", format!("emit ^{}", "9".repeat(40))),
        in_full("16,384 digits", format!("^{}", "7".repeat(MOST_TEXT))),
        in_full("a count before a semicolon", "emit ^3;case"),
        outside("a count with a letter", "await ^3a"),
        outside("a count with an underscore", "await ^3_"),
        outside("a count with an underscore in front", "await ^_3"),
        outside("a count below zero", "await ^-3"),
    ]
}

/// A token that is not foreign comes first.
fn other_tokens_first() -> Vec<TextEdge> {
    vec![
        outside("a single bar before every", "[pause ^| every"),
        outside("end before case", "^end case"),
        outside("a name before a count", "emit A ^B 3"),
        outside("a word before case", "emit ^halt case"),
        outside("a byte that no text has before case", "pause^\r case"),
        outside("a letter that is not ASCII before case", "emit^\u{e9}case"),
        outside("a point before a count", "emit ^.5"),
        outside(
            "a word that is too long before case",
            format!("emit ^{} case", "a".repeat(33)),
        ),
    ]
}

fn order() -> Vec<TextEdge> {
    let many = many_emits(256);
    let case = |length| padded("case", length);
    vec![
        in_full("20 before 15", "exit T; ^case"),
        in_full("20 before 16", format!("{}; ^3", many_emits(257))),
        in_full(
            "20 in a text of 16,384 bytes",
            format!("^{}", case(MOST_TEXT)),
        ),
        too_long("case and 16,385 bytes", case(MOST_TEXT + 1)),
        refused_at("the first of two exits", 15, "exit ^B; exit A"),
        refused_at(
            "the first exit that has no trap",
            15,
            "trap T in exit T; abort exit ^A when S end; exit B end",
        ),
        refused_at(
            "a name that a trap has elsewhere",
            15,
            "trap T in pause end;\nexit ^T; trap T in exit T end",
        ),
        refused_at("16 by a sustain", 16, format!("{many}; sustain ^X")),
        refused_at("16 by an await", 16, format!("await S0;{many};await ^X")),
        refused_at(
            "16 by an abort, after what is in it",
            16,
            format!("abort {many} when ^X end; emit Y"),
        ),
        refused_at(
            "16 by a name that comes again",
            16,
            format!("{many}; emit S0; emit ^X; emit X; emit Y; emit X"),
        ),
    ]
}

fn limits() -> Vec<TextEdge> {
    let aborts = |count| nested("abort ", "pause", " when S end", count);
    let weak_aborts = |count| nested("weak abort ", "pause", " when S end", count);
    let await_in = |traps| nested("trap T in ", "await S", " end", traps);
    let awaits = |count| vec!["await S"; count].join(";");
    // In 62 aborts the exit of the innermost loop that waits is at depth 250.
    let deep = |loops| nested("loop ", &aborts(MOST_TRAPS), " end", loops);
    vec![
        sizes("62 aborts", aborts(MOST_TRAPS), 62 * 11 + 1, 1),
        refused("63 aborts", aborts(MOST_TRAPS + 1), 9, 11),
        sizes("62 weak aborts", weak_aborts(MOST_TRAPS), 62 * 10 + 1, 1),
        refused("63 weak aborts", weak_aborts(MOST_TRAPS + 1), 9, 10),
        sizes("an await in 61 traps", await_in(MOST_TRAPS - 1), 61 + 7, 1),
        refused("an await in 62 traps", await_in(MOST_TRAPS), 9, 6),
        sizes("aborts at depth 256", deep(6), 62 * 11 + 1 + 6, 1),
        refused("aborts at depth 257", deep(7), 8, 5),
        refused("aborts at depth 258", deep(8), 8, 0),
        sizes("128 awaits", awaits(128), 1023, 1),
        sizes(
            "128 awaits in a loop",
            format!("loop {} end", awaits(128)),
            1024,
            1,
        ),
        refused("129 awaits", awaits(129), 1, 0),
        refused(
            "an exit from 300 aborts",
            format!(
                "trap T in {} end",
                nested("abort ", "exit T", " when S end", 300)
            ),
            1,
            0,
        ),
    ]
}

/// As many levels as a text can have, each opened and none closed: the length does not
/// matter for whether a text can go on.
fn never_closed() -> Vec<TextEdge> {
    let levels = |begin: &str| begin.repeat((MOST_TEXT - "case".len()) / begin.len());
    vec![
        outside("aborts that are never closed", levels("abort ") + "^"),
        outside("weak aborts, never closed", levels("weak abort[") + "^"),
        in_full("16,380 opening brackets and case", levels("[") + "^case"),
        in_full("16,380 opening brackets and a count", levels("[") + "^1984"),
        in_full("3,276 loops and case", levels("loop ") + "^case"),
        in_full("2,730 aborts and case", levels("abort ") + "^case"),
        in_full(
            "suspends around brackets and case",
            levels("suspend[") + "^case",
        ),
        in_full("second branches and case", levels("[halt||") + "^case"),
        outside(
            "opening brackets, a bar and case",
            "[".repeat(MOST_TEXT - 5) + "^|case",
        ),
        too_long(
            "16,381 opening brackets and case",
            "[".repeat(MOST_TEXT - 3) + "case",
        ),
    ]
}
