//! Where a refused text is at fault. The places of single refusals by 14 and 20 are in `text.rs` and
//! `dialect.rs`, with the texts.

mod common;

use bavzhrono::{read, read_place, Placed, Refusal, MAX_SOURCE};
use common::*;

/// Every statement and form, over several lines.
const PROGRAM: &str = "\
loop
\ttrap Relock in
\t\t[
\t\t\tabort sustain Serving when LockRequest end;
\t\t\tweak abort
\t\t\t\tawait Tick;
\t\t\t\tpresent PowerWarning then exit Relock else emit Good_2 end
\t\t\twhen PowerWarning end
\t\t||
\t\t\tsignal Inner in
\t\t\t\tsuspend emit Inner; halt when Busy
\t\t\tend;
\t\t\tpresent Busy else nothing end
\t\t]
\tend;
\tpause
end
";

#[test]
fn a_text_that_stops_is_at_fault_behind_its_last_byte() {
    let texts = [
        "^",
        "\n^",
        "pause; \n^",
        "pause;\n\n\t ^",
        "halt;\nweak\n^",
        "loop\n  pause\n^",
        "abort pause when S ^",
        "[pause\n||\n^",
        "present S^",
        "signal S in\t^",
    ];
    for text in texts {
        assert_refused_at(text, 14);
    }
    // Blanks up to the last byte that a text can have, and one more.
    assert_not_read(padded("loop pause", MAX_SOURCE), 14, 0, MAX_SOURCE);
    assert_not_read(padded("loop pause", MAX_SOURCE + 1), 14, 0, MAX_SOURCE);
}

#[test]
fn a_text_that_is_too_long_is_at_fault_behind_the_last_byte_that_it_may_have() {
    for text in ["pause", "case", "^", "exit T", "emit"] {
        for length in [MAX_SOURCE + 1, 2 * MAX_SOURCE, 65_535] {
            assert_not_read(padded(text, length), 14, 0, MAX_SOURCE);
        }
    }
    let brackets = "[".repeat(MAX_SOURCE - 3) + "case";
    assert_not_read(brackets, 14, 0, MAX_SOURCE);
}

#[test]
fn the_first_exit_without_its_trap() {
    let texts = [
        "exit ^B; exit A",
        "trap T in exit T; exit ^U; exit V end",
        "trap T in pause end;\nexit ^T; trap T in exit T end",
        "[trap T in exit T end || exit \n\t^T]",
        "present exits then exit ^exits else exit T end",
        "trap A in exit A end; trap B in abort exit ^A when S end end",
    ];
    for text in texts {
        assert_refused_at(text, 15);
    }
}

#[test]
fn the_257th_signal_name_where_it_first_appears() {
    let ends = [
        "emit ^X",
        "emit S0; emit S255; emit\n^X; emit X; emit Y; emit X",
        "signal ^X in emit X end",
        "present ^X then emit Y end",
        "present S7 then emit ^Y else emit X end",
        "suspend pause when ^X",
        "suspend emit ^Y when X",
        "sustain ^X",
        "await ^X",
        "abort halt when ^X end",
        "abort emit ^Y when X end",
        "weak abort sustain S1 when ^X end; emit Y",
        "trap X in emit ^X; exit X end",
    ];
    let signals = emits(256);
    for end in ends {
        assert_refused_at(format!("{signals}; {end}"), 16);
    }
    assert_refused_at(format!("abort {signals} when ^X end; emit Y"), 16);
    assert_refused_at(format!("await X; {}", signals.replace("S255", "^S255")), 16);
}

/// What becomes of a text when more follows that no text can have: all is at fault where the first
/// fault is, and a text without any, or one that stops, where the rest begins.
fn with_more(text: &[u8], placed: Option<Placed>) -> Placed {
    match placed {
        Some(placed) if is_outside(placed) && placed.place < text.len() => placed,
        _ => Placed {
            refusal: Refusal {
                number: 20,
                node: 0,
            },
            place: text.len() + 1,
        },
    }
}

/// Whether it is refused for the grammar.
fn is_outside(placed: Placed) -> bool {
    matches!(placed.refusal.number, 14 | 20)
}

/// Both calls refuse the text alike, or none does. What stands before a place outside the grammar
/// can go on there, and what follows the place makes no difference.
fn assert_agrees(text: &[u8]) {
    let shown = String::from_utf8_lossy(text);
    let placed = read_place(text);
    let refusal = read(text, &mut [0; TABLE_NEED]).err();
    assert_eq!(placed.map(|placed| placed.refusal), refusal, "{shown}");

    let more = [text, b" case"].concat();
    assert_eq!(read_place(&more), Some(with_more(text, placed)), "{shown}");

    if let Some(placed) = placed.filter(|&placed| is_outside(placed)) {
        let before = &text[..placed.place];
        let stops = read_place(before).filter(|&placed| is_outside(placed));
        assert_eq!(
            stops.map_or(before.len(), |at| at.place),
            before.len(),
            "{shown}"
        );
    }
}

#[test]
fn the_program_has_no_fault() {
    assert_eq!(read_place(PROGRAM.as_bytes()), None);
    assert_agrees(PROGRAM.as_bytes());
}

#[test]
fn every_part_from_the_front_of_a_program_stops_or_has_a_word_or_sign_cut_off() {
    for length in 0..PROGRAM.trim_end().len() {
        let front = &PROGRAM[..length];
        assert_agrees(front.as_bytes());
        let may_be_cut = |sign: char| sign.is_ascii_alphanumeric() || "_|".contains(sign);
        let cut = front.trim_end_matches(may_be_cut).len();
        let placed = read_place(front.as_bytes()).expect("the loop has no end");
        assert_eq!(placed.refusal.number, 14, "{front}");
        assert!([cut, length].contains(&placed.place), "{front}");
    }
}

#[test]
fn every_change_of_one_byte() {
    let program = PROGRAM.as_bytes();
    for place in 0..program.len() {
        let (before, after) = (&program[..place], &program[place + 1..]);
        assert_agrees(&[before, after].concat());
        for byte in *b" ;|[]de3_\r\0\xff" {
            assert_agrees(&[before, &[byte], after].concat());
            assert_agrees(&[before, &[byte], &program[place..]].concat());
        }
    }
}

#[test]
fn every_word_in_the_place_of_another() {
    let words: Vec<&str> = PROGRAM.split_whitespace().collect();
    let others = [
        "case", "3", "A", "end", "when S", "halt", "weak", "abort", "exit T", "||", ";",
    ];
    for place in 0..words.len() {
        for other in others {
            let mut changed = words.clone();
            changed[place] = other;
            assert_agrees(changed.join(" ").as_bytes());
        }
    }
}
