//! Programs as text: the edges, printed programs, and texts that are spoilt.

use std::thread;

use compare::support::random::Random;
use compare::support::text_edges::edges as edge_texts;
use compare::support::texts::{damage_bytes, damage_tokens, printed, text, DIALECT, NUMBERS};
use compare::table::MOST_BYTES;
use compare::text::MOST_TEXT;

use crate::tally::{Difference, Tally};
use crate::trials::{Placing, Reading, Trial};

/// Among them is every statement and every form of the kernel.
const SMALL: [&str; 3] = [
    "trap T in [present S then exit T else emit A end||suspend nothing;pause when S] end",
    "signal A in loop present A else pause end;emit A end end",
    "[trap A in trap B in exit A end end||trap A in exit A end||pause]",
];

/// Among them is every form of F-9.
const SMALL_IN_DIALECT: [&str; 3] = [
    "trap T in weak abort abort exit T;sustain A when S end when S end end",
    "[await B||abort trap A in halt;exit A end when C end]",
    "abort suspend emit A when B;await A when B end",
];

/// Programs that are spoilt, and the texts that are made of each.
const SPOILT: usize = 2500;
const WAYS: usize = 8;

/// The proved reader's rules call each other. So much stack has to do for any text.
const STACK: usize = 8 << 20;

pub fn edges(tally: &mut Tally, _random: &mut Random) -> Result<(), Difference> {
    thread::scope(|scope| {
        let reader = thread::Builder::new().stack_size(STACK);
        let reader = reader.spawn_scoped(scope, || every_edge(tally));
        reader.expect("a thread").join().expect("no panic")
    })
}

fn every_edge(tally: &mut Tally) -> Result<(), Difference> {
    for edge in edge_texts() {
        compare_text(tally, &edge.text)?;
    }
    Ok(())
}

/// The reading of a text, and the place of its refusal.
pub fn compare_text(tally: &mut Tally, text: &[u8]) -> Result<(), Difference> {
    tally.compare(&Reading::new(text))?;
    tally.compare(&Placing::new(text))?;
    Ok(())
}

/// The numbers of programs: those of the kernel, and those of the dialect. In the large
/// ones, the first, a single fault is much the same wherever it is.
struct Numbers {
    first: usize,
    smaller: usize,
    end: usize,
}

const KERNEL: Numbers = Numbers {
    first: 0,
    smaller: 12,
    end: DIALECT,
};

const IN_DIALECT: Numbers = Numbers {
    first: DIALECT,
    smaller: DIALECT + 4,
    end: NUMBERS,
};

pub fn printed_programs(tally: &mut Tally, random: &mut Random) -> Result<(), Difference> {
    printed_of(tally, random, &KERNEL)
}

pub fn printed_in_dialect(tally: &mut Tally, random: &mut Random) -> Result<(), Difference> {
    printed_of(tally, random, &IN_DIALECT)
}

fn printed_of(tally: &mut Tally, random: &mut Random, numbers: &Numbers) -> Result<(), Difference> {
    for _ in 0..80 {
        for number in numbers.first..numbers.end {
            let printed = printed(random, number);
            let text = text(random, &printed.tokens);
            compare_text(tally, &text)?;
        }
    }
    Ok(())
}

pub fn spoilt_tokens(tally: &mut Tally, random: &mut Random) -> Result<(), Difference> {
    spoilt(tally, random, &KERNEL, with_spoilt_token)
}

pub fn spoilt_tokens_in_dialect(tally: &mut Tally, random: &mut Random) -> Result<(), Difference> {
    spoilt(tally, random, &IN_DIALECT, with_spoilt_token)
}

pub fn spoilt_bytes(tally: &mut Tally, random: &mut Random) -> Result<(), Difference> {
    every_byte_and_cut_of(tally, &SMALL)?;
    spoilt(tally, random, &KERNEL, with_spoilt_byte)
}

pub fn spoilt_bytes_in_dialect(tally: &mut Tally, random: &mut Random) -> Result<(), Difference> {
    every_byte_and_cut_of(tally, &SMALL_IN_DIALECT)?;
    spoilt(tally, random, &IN_DIALECT, with_spoilt_byte)
}

/// A token dropped, doubled, exchanged with its neighbour, misspelt, or another one.
fn with_spoilt_token(random: &mut Random, tokens: &[Vec<u8>]) -> Vec<u8> {
    let mut tokens = tokens.to_vec();
    damage_tokens(random, &mut tokens);
    text(random, &tokens)
}

fn with_spoilt_byte(random: &mut Random, tokens: &[Vec<u8>]) -> Vec<u8> {
    let mut text = text(random, tokens);
    damage_bytes(random, &mut text);
    text
}

/// Spoils each of many programs in several ways.
fn spoilt(
    tally: &mut Tally,
    random: &mut Random,
    numbers: &Numbers,
    spoil: fn(&mut Random, &[Vec<u8>]) -> Vec<u8>,
) -> Result<(), Difference> {
    for round in 0..SPOILT {
        let lowest = match round % 20 {
            0 => numbers.first,
            _ => numbers.smaller,
        };
        let number = random.between(lowest, numbers.end - 1);
        let tokens = printed(random, number).tokens;
        (0..WAYS).try_for_each(|_| compare_text(tally, &spoil(random, &tokens)))?;
    }
    Ok(())
}

fn every_byte_and_cut_of(tally: &mut Tally, texts: &[&str]) -> Result<(), Difference> {
    let mut texts = texts.iter();
    texts.try_for_each(|text| every_byte_and_cut(tally, text.as_bytes()))
}

/// Each byte changed to any value, each value put before it, and all cut off from it on.
fn every_byte_and_cut(tally: &mut Tally, text: &[u8]) -> Result<(), Difference> {
    for at in 0..text.len() {
        let (before, after) = text.split_at(at);
        compare_text(tally, before)?;
        for value in 0..=255 {
            let changed = [before, &[value], &after[1..]].concat();
            compare_text(tally, &changed)?;
            let longer = [before, &[value], after].concat();
            compare_text(tally, &longer)?;
        }
    }
    Ok(())
}

/// Lent tables and answers that are too short, exact and longer; texts about as long as
/// is allowed.
pub fn lengths(tally: &mut Tally, random: &mut Random) -> Result<(), Difference> {
    for edge in edge_texts() {
        every_length(tally, &edge.text)?;
    }
    for number in 0..4 * NUMBERS {
        let tokens = printed(random, number % NUMBERS).tokens;
        let mut text = text(random, &tokens);
        every_length(tally, &text)?;
        // With blanks at the end, up to and beyond the most bytes.
        for length in [MOST_TEXT - 1, MOST_TEXT, MOST_TEXT + 1, 3 * MOST_TEXT] {
            text.resize(length.max(text.len()), b' ');
            compare_text(tally, &text)?;
        }
    }
    Ok(())
}

fn every_length(tally: &mut Tally, text: &[u8]) -> Result<(), Difference> {
    for table_length in [0, 1, MOST_BYTES - 1, MOST_BYTES + 1, 2 * MOST_BYTES] {
        tally.compare(&Reading::with_table(text, table_length))?;
    }
    for answer_length in 0..=8 {
        tally.compare(&Placing::new(text).with_answer(answer_length))?;
        tally.compare(&Reading::new(text).with_answer(answer_length))?;
        let short = Reading::with_table(text, MOST_BYTES - 1);
        tally.compare(&short.with_answer(answer_length))?;
    }
    Ok(())
}
