//! The reader of programs as text.

use std::thread;

use compare::support::calls::COMPARE;
use compare::support::random::Random;
use compare::support::text_edges::edges;
use compare::support::texts::{damage_bytes, damage_tokens, printed, text, NUMBERS};
use compare::support::SEED;
use compare::text::place::line_and_column;
use compare::text::translate;
use compare::{read, read_place, Placed, Refusal};

/// What stands in every lent entry before a call.
const FILL: u8 = 200;

fn number(text: &[u8]) -> u32 {
    translate(text).map_or_else(|placed| placed.refusal.number, |_| 0)
}

#[test]
fn edges_have_their_tables_and_refusals() {
    for edge in edges() {
        let answer = translate(&edge.text);
        assert!(edge.is_met_by(&answer), "{}: {answer:?}", edge.name);
    }
}

/// The program says what the table is, whatever the names, blanks and forms.
#[test]
fn printed_programs_are_read_back() {
    let random = &mut Random::new(SEED);
    let mut met = [0; 21];
    for program in 0..60 * NUMBERS {
        let printed = printed(random, program % NUMBERS);
        let text = text(random, &printed.tokens);
        let is_expected = translate(&text) == printed.outcome_of(&text);
        assert!(is_expected, "{}", String::from_utf8_lossy(&text));
        met[number(&text) as usize] += 1;
    }
    println!("refused by number, and 0 for read: {met:?}");
    for number in [0, 1, 8, 9, 14, 15, 16] {
        assert!(met[number] >= 10, "{number}: {met:?}");
    }
}

#[test]
fn spoilt_texts_are_mostly_refused() {
    let random = &mut Random::new(SEED);
    let mut met = [0; 21];
    for at in 0..60 * NUMBERS {
        let in_token = (at / NUMBERS).is_multiple_of(2);
        let mut tokens = printed(random, at % NUMBERS).tokens;
        if in_token {
            damage_tokens(random, &mut tokens);
        }
        let mut text = text(random, &tokens);
        if !in_token && !text.is_empty() {
            damage_bytes(random, &mut text);
        }
        met[number(&text) as usize] += 1;
    }
    println!("refused by number, and 0 for read: {met:?}");
    assert!(met[14] > met[0] && met[0] > 100, "{met:?}");
    assert!(met[15] > 20 && met[20] > 20, "{met:?}");
}

/// In a text that is cut off, changed or lengthened nothing is out of reach.
#[test]
fn every_cut_and_every_byte() {
    let text = b"trap T in[present S then exit T end||suspend emit A when S];\
        loop weak abort await A when S end end end";
    assert_eq!(number(text), 0);
    for cut in 0..text.len() {
        assert_eq!(number(&text[..cut]), 14, "{cut}");
    }
    for at in 0..=text.len() {
        for byte in 0..=255 {
            let mut longer = text.to_vec();
            longer.insert(at, byte);
            number(&longer);
        }
    }
    for byte in (0..=255).filter(|byte| !b" \t\n".contains(byte)) {
        let refused = Err(match byte {
            b'0'..=b'9' => Placed::at(20, text.len() + 1),
            // A statement would have to follow.
            b';' => Placed::at(14, text.len() + 2),
            _ => Placed::at(14, text.len() + 1),
        });
        assert_eq!(translate(&[&text[..], &[b' ', byte]].concat()), refused);
    }
}

#[test]
fn blanks_may_be_anywhere_but_within_a_token() {
    let tokens = ["[", "emit", "A", ";", "pause", "||", "exit", "T", "]"];
    let whole = |at: usize, blank: &str| {
        let (before, after) = tokens.split_at(at);
        format!("trap T in{}{blank}{}end", before.join(" "), after.join(" "))
    };
    for blank in [" ", "\t", "\n", "\n\t "] {
        for at in 0..=tokens.len() {
            assert_eq!(number(whole(at, blank).as_bytes()), 0, "{at}");
        }
    }
    assert_eq!(number(b"pa use"), 14);
    assert_eq!(number(b"[pause| |pause]"), 14);
}

#[test]
fn a_short_table_is_refused_by_3_ahead_of_all() {
    for length in [0, 1, 2, 2046, 2047] {
        for text in [&b"pause"[..], b"", b"exit T", &[b'['; 20_000]] {
            let mut table = vec![FILL; length];
            assert_eq!(read(text, &mut table), Err(Refusal::whole(3)));
            assert_eq!(table, vec![FILL; length]);
        }
    }
}

/// The bytes past the table keep their value, and after a refusal all do.
#[test]
fn the_front_of_the_lent_table_is_written() {
    for length in [2048, 2049, 5000] {
        for edge in edges() {
            let mut table = vec![FILL; length];
            let written = read(&edge.text, &mut table).map_or(0, |(nodes, _)| 2 * nodes);
            let bytes = translate(&edge.text).map_or(Vec::new(), |(bytes, _)| bytes);
            assert_eq!(table[..written], bytes, "{}", edge.name);
            assert!(table[written..].iter().all(|&byte| byte == FILL));
        }
    }
}

#[test]
fn the_call_in_the_archives_form() {
    let text = b"loop pause; emit S; emit T end";
    let mut table = [FILL; 2048];
    let mut answer = [9; 4];
    assert_eq!((COMPARE.read)(text, &mut table, &mut answer), 0);
    assert_eq!(answer, [6, 2, 0, 9]);
    assert_eq!(table[..13], [2, 0, 3, 0, 9, 0, 3, 1, 9, 0, 8, 0, FILL]);

    let mut table = [FILL; 2048];
    for length in 0..3 {
        let mut answer = vec![9; length];
        assert_eq!((COMPARE.read)(text, &mut table, &mut answer), 3);
        assert_eq!((COMPARE.read)(b"exit", &mut table, &mut answer), 3);
        assert_eq!(answer, vec![9; length]);
    }
    let right = [&"[pause||".repeat(256)[..], "pause", &"]".repeat(256)].concat();
    let mut answer = [9; 3];
    let returned = (COMPARE.read)(right.as_bytes(), &mut table, &mut answer);
    assert_eq!(returned, 8 + 256 * 255);
    assert_eq!((answer, table), ([9; 3], [FILL; 2048]));
}

#[test]
fn the_place_in_the_archives_form() {
    let mut answer = [9; 4];
    for (text, figures) in [
        (&b"halt"[..], [0, 0, 0]),
        (b"halt;\nexit T", [15, 0, 11]),
        (b"halt; 3", [20, 0, 6]),
        (b"halt;\n", [14, 0, 6]),
    ] {
        assert_eq!((COMPARE.read_place)(text, &mut answer), 0);
        assert_eq!(answer[..3], figures);
    }
    let right = [&"[pause||".repeat(256)[..], "pause", &"]".repeat(256)].concat();
    assert_eq!((COMPARE.read_place)(right.as_bytes(), &mut answer), 0);
    assert_eq!(answer, [8, 255, 0, 9]);
    for length in 0..3 {
        let mut answer = vec![9; length];
        assert_eq!((COMPARE.read_place)(b"exit T", &mut answer), 3);
        assert_eq!(answer, vec![9; length]);
    }
}

/// A refusal of the table has no place in the text, and a text that is read has none.
#[test]
fn places_are_those_of_the_reading() {
    for edge in edges() {
        let refusal = read(&edge.text, &mut [0; 2048]).err();
        let placed = read_place(&edge.text);
        assert_eq!(placed.map(|placed| placed.refusal), refusal);
        if let Some(placed) = placed {
            assert!(placed.is_in_text() || placed.place == 0, "{}", edge.name);
        }
    }
}

#[test]
fn lines_and_columns_count_from_1() {
    let text = b"pause;\n\n emit \xc3\xa9\tA\n";
    let expected = [
        (0, (1, 1)),
        (5, (1, 6)),
        (6, (1, 7)),
        (7, (2, 1)),
        (8, (3, 1)),
        (9, (3, 2)),
        (14, (3, 7)),
        (16, (3, 9)),
        (17, (3, 10)),
        (18, (3, 11)),
        (19, (4, 1)),
    ];
    assert_eq!(text.len(), 19);
    for (place, line_column) in expected {
        assert_eq!(line_and_column(text, place), line_column, "{place}");
    }
    assert_eq!(line_and_column(b"", 0), (1, 1));
}

/// However deep a text is nested, a small stack suffices for it.
#[test]
fn a_thread_with_a_small_stack() {
    let reader = thread::Builder::new().stack_size(64 * 1024);
    let run = || edges().iter().map(|edge| number(&edge.text)).sum::<u32>();
    let handle = reader.spawn(run).expect("a thread");
    assert!(handle.join().expect("no overflow") > 0);
}
