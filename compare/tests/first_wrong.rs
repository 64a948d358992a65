//! The first token with which a text can't go on: the reader beside Earley's chart, and the
//! chart beside the texts that the productions derive.

use std::collections::BTreeSet;

use compare::support::chart::{is_foreign, outside, Chart};
use compare::support::derivations::Sides;
use compare::support::random::Random;
use compare::support::text_edges::edges;
use compare::support::texts::{damage_bytes, damage_tokens, printed, text, NUMBERS};
use compare::support::vectors::{directory, read_texts};
use compare::support::SEED;
use compare::text::grammar::{Grammar, Symbol, FINISH};
use compare::{read_place, Placed};

/// All words and signs, a name, two tokens that no text has, and four that the full
/// language has.
const LETTERS: &str = "nothing pause halt signal in end emit sustain await present then else \
     suspend abort weak when loop trap exit ; || [ ] A | 3a 3 immediate every case";

/// One of each sort.
const SORTS: &str = "pause signal in end emit present then else suspend abort weak when loop ; || \
     [ ] A | case";

/// The refusal by 14 or 20.
fn found(text: &[u8]) -> Option<Placed> {
    read_place(text).filter(|placed| [14, 20].contains(&placed.refusal.number))
}

/// A text that grows and shrinks by a token at a time.
struct Walk<'a> {
    letters: Vec<&'a str>,
    chart: Chart<'a>,
    text: Vec<u8>,
    /// With the first token that the chart has not taken.
    wrong: Option<Placed>,
    visited: usize,
    derived: usize,
}

impl Walk<'_> {
    fn new<'a>(grammar: &'a Grammar, letters: &'a str) -> Walk<'a> {
        Walk {
            letters: letters.split(' ').collect(),
            chart: Chart::new(grammar),
            text: Vec::new(),
            wrong: None,
            visited: 0,
            derived: 0,
        }
    }

    /// Visits all texts of up to so many more tokens, beyond a wrong one or only up to it.
    fn visit(&mut self, more: usize, beyond_wrong: bool) {
        self.check();
        if more == 0 || self.wrong.is_some() && !beyond_wrong {
            return;
        }
        let (length, wrong) = (self.text.len(), self.wrong);
        for at in 0..self.letters.len() {
            let token = self.letters[at].as_bytes();
            let is_taken = wrong.is_none() && self.chart.take(token);
            if wrong.is_none() && !is_taken {
                let number = if is_foreign(token) { 20 } else { 14 };
                self.wrong = Some(Placed::at(number, length));
            }
            self.text.extend(token);
            self.text.push(b' ');
            self.visit(more - 1, beyond_wrong);
            self.text.truncate(length);
            self.wrong = wrong;
            if is_taken {
                self.chart.give_back();
            }
        }
    }

    fn check(&mut self) {
        let is_text = self.wrong.is_none() && self.chart.is_text();
        let stops = (!is_text).then_some(Placed::at(14, self.text.len()));
        let expected = self.wrong.or(stops);
        assert_eq!(found(&self.text), expected, "{:?}", self.text);
        self.visited += 1;
        self.derived += usize::from(is_text);
    }
}

/// Visits all texts of up to so many tokens over the letters, and counts them.
fn visited(letters: &str, most: usize, beyond_wrong: bool) -> usize {
    let grammar = Grammar::new();
    let mut walk = Walk::new(&grammar, letters);
    walk.visit(most, beyond_wrong);
    println!("{} texts, {} of the grammar", walk.visited, walk.derived);
    walk.visited
}

#[test]
fn all_texts_of_four_tokens() {
    assert_eq!(visited(LETTERS, 4, true), 837_931);
}

#[test]
fn all_texts_of_five_tokens_of_each_sort() {
    assert_eq!(visited(SORTS, 5, true), 3_368_421);
}

#[test]
fn all_texts_of_seven_tokens_that_are_right_up_to_the_last() {
    assert_eq!(visited(LETTERS, 7, false), 1_987_831);
}

/// For lists of this length and shorter, the productions are asked for all completions.
const BEGINNING: usize = 4;
/// In the longest of the shortest completions a weak abort stands in three brackets.
const COMPLETED: usize = 18;

/// For each symbol and each length, how the lists begin that it derives.
struct Beginnings<'a> {
    grammar: &'a Grammar,
    known: Vec<Vec<Option<BTreeSet<Vec<Symbol>>>>>,
}

impl Beginnings<'_> {
    fn new(grammar: &Grammar) -> Beginnings<'_> {
        Beginnings {
            grammar,
            known: vec![vec![None; COMPLETED + 1]; grammar.symbols.len()],
        }
    }

    fn of(&mut self, symbol: Symbol, length: usize) -> BTreeSet<Vec<Symbol>> {
        if self.grammar.is_terminal(symbol) {
            return (length == 1).then(|| vec![symbol]).into_iter().collect();
        }
        if let Some(known) = &self.known[symbol][length] {
            return known.clone();
        }
        let mut all = BTreeSet::new();
        let grammar = self.grammar;
        for rule in grammar.rules.iter().filter(|rule| rule.left == symbol) {
            all.extend(self.of_all(&rule.right, length));
        }
        self.known[symbol][length] = Some(all.clone());
        all
    }

    /// Of the symbols one after the other, whatever the length of each.
    fn of_all(&mut self, symbols: &[Symbol], length: usize) -> BTreeSet<Vec<Symbol>> {
        let [first, rest @ ..] = symbols else {
            return (length == 0).then(Vec::new).into_iter().collect();
        };
        let mut all = BTreeSet::new();
        for part in 1..=length.saturating_sub(rest.len()) {
            let begins = self.of(*first, part);
            if begins.is_empty() {
                continue;
            }
            for end in self.of_all(rest, length - part) {
                let whole = begins.iter().map(|begin| [&begin[..], &end].concat());
                all.extend(whole.map(|mut list| {
                    list.truncate(BEGINNING);
                    list
                }));
            }
        }
        all
    }
}

/// The terminals of the grammar, and those that no production has.
fn terminals(grammar: &Grammar) -> Vec<Symbol> {
    let all = 0..grammar.symbols.len();
    all.filter(|&symbol| grammar.is_terminal(symbol) && symbol != FINISH)
        .collect()
}

/// Visits all lists of up to so many symbols, of which only the last may be one that the
/// chart does not take.
fn every_list(
    chart: &mut Chart,
    alphabet: &[Symbol],
    list: &mut Vec<Symbol>,
    visit: &mut impl FnMut(&[Symbol], bool),
) {
    visit(list, true);
    if list.len() == BEGINNING {
        return;
    }
    for &symbol in alphabet {
        list.push(symbol);
        if chart.take_symbol(symbol) {
            every_list(chart, alphabet, list, visit);
            chart.give_back();
        } else {
            visit(list, false);
        }
        list.pop();
    }
}

fn every_list_of(grammar: &Grammar, mut visit: impl FnMut(&[Symbol], bool)) {
    let mut chart = Chart::new(grammar);
    every_list(&mut chart, &terminals(grammar), &mut Vec::new(), &mut visit);
}

/// Adds a list and all its beginnings.
fn add_cuts(begins: &mut BTreeSet<Vec<Symbol>>, list: &[Symbol]) {
    begins.extend((0..=list.len()).map(|cut| list[..cut].to_vec()));
}

/// What the chart takes is how some text begins, and nothing else is.
#[test]
fn what_can_go_on_is_how_a_text_begins() {
    let grammar = Grammar::new();
    let program = grammar.rules[0].left;
    let mut beginnings = Beginnings::new(&grammar);
    let mut begins: BTreeSet<Vec<Symbol>> = BTreeSet::new();
    for length in 1..=COMPLETED {
        let lists = beginnings.of(program, length);
        lists.iter().for_each(|list| add_cuts(&mut begins, list));
    }
    every_list_of(&grammar, |list, can_go_on| {
        assert_eq!(can_go_on, begins.contains(list), "{list:?}");
    });
    println!("{} beginnings of up to {BEGINNING} tokens", begins.len());
}

/// With these, the first that fits, any list can be completed: all that is open is closed.
const CLOSING: &str = "] end when pause NAME then in || abort ;";

/// What the chart takes has a completion with a derivation.
#[test]
fn what_can_go_on_is_completed() {
    let grammar = Grammar::new();
    let sides = Sides::new(&grammar);
    let closing = symbols(&grammar, CLOSING);
    let mut longest = 0;
    every_list_of(&grammar, |list, can_go_on| {
        if can_go_on {
            let whole = completed(&grammar, &closing, list);
            assert_eq!(sides.count(grammar.rules[0].left, &whole), 1, "{whole:?}");
            longest = longest.max(whole.len());
        }
    });
    assert_eq!(longest, COMPLETED);
}

fn completed(grammar: &Grammar, closing: &[Symbol], list: &[Symbol]) -> Vec<Symbol> {
    let mut chart = Chart::new(grammar);
    let mut whole = list.to_vec();
    assert!(list.iter().all(|&symbol| chart.take_symbol(symbol)));
    while !chart.is_text() {
        let next = closing.iter().find(|&&symbol| chart.take_symbol(symbol));
        whole.push(*next.expect("a token that closes"));
    }
    whole
}

/// The words, the most tokens of a text, and those of a beginning that such a text
/// suffices to complete.
const FEW: [(&str, usize, usize); 5] = [
    ("[ || ] pause", 7, 1),
    ("loop pause ; end", 7, 3),
    ("present NAME then else pause end", 6, 2),
    ("abort halt when NAME end", 6, 1),
    ("weak abort halt when NAME end", 6, 1),
];

fn symbols(grammar: &Grammar, words: &str) -> Vec<Symbol> {
    let number = |word| grammar.symbols.iter().position(|&symbol| symbol == word);
    let words = words.split(' ');
    words.map(|word| number(word).expect("a symbol")).collect()
}

/// Every list of few words: those that some other one completes.
#[test]
fn what_can_go_on_is_completed_by_some_list() {
    let grammar = Grammar::new();
    let sides = Sides::new(&grammar);
    for (words, most, begin) in FEW {
        let alphabet = symbols(&grammar, words);
        let lists = all_lists(&alphabet, most);
        let mut begins = BTreeSet::new();
        let program = grammar.rules[0].left;
        let texts = lists.iter().filter(|list| sides.count(program, list) > 0);
        texts.for_each(|list| add_cuts(&mut begins, list));
        for list in &lists {
            let mut chart = Chart::new(&grammar);
            let can_go_on = list.iter().all(|&symbol| chart.take_symbol(symbol));
            if begins.contains(list) || list.len() <= begin {
                assert_eq!(can_go_on, begins.contains(list), "{list:?}");
            }
        }
    }
}

/// All lists of up to so many symbols, shorter ones first.
fn all_lists(alphabet: &[Symbol], most: usize) -> Vec<Vec<Symbol>> {
    let mut lists = vec![Vec::new()];
    let mut at = 0;
    while lists[at].len() < most {
        let with = |&symbol: &Symbol| [&lists[at][..], &[symbol]].concat();
        let longer: Vec<Vec<Symbol>> = alphabet.iter().map(with).collect();
        lists.extend(longer);
        at += 1;
    }
    lists
}

#[test]
fn edges_and_vectors_by_the_chart() {
    let grammar = Grammar::new();
    for edge in edges() {
        let expected = outside(&grammar, &edge.text);
        assert_eq!(found(&edge.text), expected, "{}", edge.name);
    }
    for file in ["text_open.jsonl", "dialect_open.jsonl"] {
        for (line, vector) in read_texts(&directory().join(file)).iter().enumerate() {
            let expected = outside(&grammar, &vector.text);
            assert_eq!(found(&vector.text), expected, "{file} line {}", line + 1);
        }
    }
}

/// The large ones, the first of the numbers, are left out.
#[test]
fn spoilt_texts_by_the_chart() {
    let grammar = Grammar::new();
    let random = &mut Random::new(SEED);
    let mut by_20 = 0;
    for round in 0..2100 {
        let number = 12 + round % (NUMBERS - 12);
        let in_token = !(round / (NUMBERS - 12)).is_multiple_of(3);
        let mut tokens = printed(random, number).tokens;
        if in_token {
            damage_tokens(random, &mut tokens);
        }
        let mut text = text(random, &tokens);
        if !in_token {
            damage_bytes(random, &mut text);
        }
        let expected = outside(&grammar, &text);
        assert_eq!(found(&text), expected, "{}", String::from_utf8_lossy(&text));
        by_20 += usize::from(expected.is_some_and(|placed| placed.refusal.number == 20));
    }
    println!("{by_20} refused by 20");
    assert!(by_20 > 50, "{by_20}");
}

/// Each byte changed to any value, each value put before it, and all cut off from it on.
#[test]
fn every_byte_and_cut_by_the_chart() {
    let grammar = Grammar::new();
    for whole in [
        "trap T in weak abort exit T when A end end",
        "[abort await B when A end||halt];sustain C",
        "present A else suspend emit B when A end",
    ] {
        let whole = whole.as_bytes();
        let check = |text: &[u8]| assert_eq!(found(text), outside(&grammar, text), "{text:?}");
        for at in 0..whole.len() {
            let (before, after) = whole.split_at(at);
            check(before);
            for value in 0..=255 {
                check(&[before, &[value], &after[1..]].concat());
                check(&[before, &[value], after].concat());
            }
        }
    }
}
