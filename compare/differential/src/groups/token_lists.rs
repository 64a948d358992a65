//! Every list of few tokens, and longer ones of which only the last token can be wrong.

use compare::support::random::Random;
use compare::text::automaton::Automaton;
use compare::text::parser::parse;
use compare::text::tokens::tokens;

use super::texts::compare_text;
use crate::tally::{Difference, Tally};

/// All words and signs of the kernel, two names, a word that is too long, a single bar, and
/// a byte that no text has.
const KERNEL: &str = "nothing pause signal in end emit present then else suspend when loop trap \
     exit ; || [ ] A B a23456789_123456789_123456789_123 | \r";

/// The words of F-9, a count, and a word that is neither a count nor a name.
const DIALECT: &str = "halt sustain await abort weak immediate every case 3 3a";

pub const ALL: &str = "6,728,904 texts: all of up to 5 tokens over 23 letters";
const ALL_TOKENS: usize = 5;

pub const IN_DIALECT: &str = "1,222,981 texts: all of up to 4 tokens over 33 letters";
const DIALECT_TOKENS: usize = 4;

pub const RIGHT: &str =
    "2,751,409 texts: all of up to 7 tokens over 33 letters, right up to the last";
const RIGHT_TOKENS: usize = 7;

/// The letters of each, and the most tokens.
const FEW: [(&str, usize); 7] = [
    ("[ || ] ; pause", 14),
    ("loop present A then else end nothing ;", 12),
    ("trap A B in exit end ; emit", 13),
    ("signal present emit suspend when A B in then else end", 11),
    ("weak abort halt when A end ; 3", 13),
    ("trap A in exit abort when end case", 14),
    ("suspend await sustain abort when A B end ;", 11),
];
pub const LONGER: &str =
    "886,994 texts: all of up to 11 to 14 tokens over 5 to 11 letters, right up to the last";

/// Tokens of a text that is drawn, and such texts.
const DRAWN_TOKENS: usize = 60;
const DRAWN: usize = 3000;

fn letters(words: &str) -> Vec<&str> {
    words.split(' ').collect()
}

/// Of the kernel and of the dialect.
fn all_letters() -> Vec<&'static str> {
    [letters(KERNEL), letters(DIALECT)].concat()
}

pub fn all(tally: &mut Tally, _random: &mut Random) -> Result<(), Difference> {
    every(tally, &letters(KERNEL), ALL_TOKENS)
}

pub fn in_dialect(tally: &mut Tally, _random: &mut Random) -> Result<(), Difference> {
    every(tally, &all_letters(), DIALECT_TOKENS)
}

fn every(tally: &mut Tally, letters: &[&str], most: usize) -> Result<(), Difference> {
    let mut visit = |text: &[u8]| compare_text(tally, text).map(|_| true);
    lists(letters, most, &mut visit)
}

pub fn right(tally: &mut Tally, _random: &mut Random) -> Result<(), Difference> {
    every_right(tally, &all_letters(), RIGHT_TOKENS)
}

pub fn longer(tally: &mut Tally, _random: &mut Random) -> Result<(), Difference> {
    let mut few = FEW.iter();
    few.try_for_each(|(words, most)| every_right(tally, &letters(words), *most))
}

fn every_right(tally: &mut Tally, letters: &[&str], most: usize) -> Result<(), Difference> {
    let mut visit = |text: &[u8]| {
        compare_text(tally, text)?;
        Ok(can_go_on(text))
    };
    lists(letters, most, &mut visit)
}

/// Texts that grow by any token with which they can go on. Those with which they can't are
/// tried as well, with one more token after them.
pub fn drawn(tally: &mut Tally, random: &mut Random) -> Result<(), Difference> {
    let letters = all_letters();
    for _ in 0..DRAWN {
        let mut text = Vec::new();
        for _ in 0..DRAWN_TOKENS {
            let longer = with_letter(&text, random.pick(&letters));
            if can_go_on(&longer) {
                text = longer;
            } else {
                let further = with_letter(&longer, random.pick(&letters));
                compare_text(tally, &further)?;
            }
        }
        compare_text(tally, &text)?;
    }
    Ok(())
}

fn with_letter(text: &[u8], letter: &&str) -> Vec<u8> {
    [text, letter.as_bytes(), b" "].concat()
}

/// Tells of a text whether longer ones that begin with it are to be visited.
type Visit<'a> = &'a mut dyn FnMut(&[u8]) -> Result<bool, Difference>;

/// Visits the lists of up to so many tokens, with blanks between them.
fn lists(letters: &[&str], most: usize, visit: Visit) -> Result<(), Difference> {
    let mut pending = vec![(0, Vec::new())];
    while let Some((count, text)) = pending.pop() {
        if visit(&text)? && count < most {
            let longer = |letter| (count + 1, with_letter(&text, letter));
            pending.extend(letters.iter().map(longer));
        }
    }
    Ok(())
}

/// Whether the text is one of the grammar up to where it stops.
fn can_go_on(text: &[u8]) -> bool {
    let automaton = Automaton::shared();
    let tokens = tokens(automaton, text);
    match parse(automaton, &tokens) {
        Ok(_) => true,
        Err(place) => place == tokens.len(),
    }
}

#[cfg(test)]
mod tests {
    use compare::support::chart::Chart;
    use compare::text::grammar::Grammar;

    use super::*;

    /// The texts of up to so many more tokens that are right up to the last.
    fn count(chart: &mut Chart, letters: &[&str], more: usize) -> usize {
        let mut texts = 1;
        for letter in letters.iter().filter(|_| more > 0) {
            if chart.take(letter.as_bytes()) {
                texts += count(chart, letters, more - 1);
                chart.give_back();
            } else {
                texts += 1;
            }
        }
        texts
    }

    #[test]
    fn the_names_give_the_numbers_of_texts() {
        assert!(letters(KERNEL).iter().any(|letter| letter.len() == 33));
        let all = |letters: &[&str], most: usize| -> usize {
            let counts = (0..=most as u32).map(|tokens| letters.len().pow(tokens));
            counts.sum()
        };
        assert_eq!(all(&letters(KERNEL), ALL_TOKENS), 6_728_904);
        assert_eq!(all(&all_letters(), DIALECT_TOKENS), 1_222_981);
        let grammar = Grammar::new();
        let right = |letters: &[&str], most| count(&mut Chart::new(&grammar), letters, most);
        assert_eq!(right(&all_letters(), RIGHT_TOKENS), 2_751_409);
        let longer = FEW.map(|(words, most)| right(&letters(words), most));
        assert_eq!(longer.iter().sum::<usize>(), 886_994);
    }
}
