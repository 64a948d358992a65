//! Wrong readers of programs as text that a comparison must notice. They are made of the
//! right one: the text is changed before it, or the table after it.

use compare::support::calls::{Calls, Read, COMPARE};
use compare::support::random::Random;
use compare::support::SEED;
use compare::table::{self, Statement, Tree};
use compare::text::automaton::Automaton;
use compare::text::tokens::{tokens, Token};
use differential::groups::texts;
use differential::tally::Tally;
use differential::trials::Reading;

/// On one text, and by the group of the edges.
fn assert_noticed(read: Read, text: &str) {
    let wrong = Calls { read, ..COMPARE };
    let trial = Reading::new(text.as_bytes());
    assert!(Tally::new(COMPARE).compare(&trial).is_ok());
    assert!(Tally::new(wrong).compare(&trial).is_err());
    let edges = |calls| texts::edges(&mut Tally::new(calls), &mut Random::new(SEED));
    assert!(edges(COMPARE).is_ok());
    assert!(edges(wrong).is_err());
}

/// Reads, and changes the table that was written.
fn read_then(
    change: impl FnOnce(&mut [u8]),
    text: &[u8],
    table: &mut [u8],
    answer: &mut [u64],
) -> u32 {
    let returned = (COMPARE.read)(text, table, answer);
    if returned == 0 {
        change(&mut table[..2 * answer[0] as usize]);
    }
    returned
}

#[test]
fn a_reader_that_groups_to_the_right() {
    fn read(text: &[u8], table: &mut [u8], answer: &mut [u64]) -> u32 {
        read_then(group_to_the_right, text, table, answer)
    }
    assert_noticed(read, "pause;nothing;pause");
}

fn group_to_the_right(bytes: &mut [u8]) {
    let tree = table::read(bytes).expect("a table that was read");
    let mut regrouped = Vec::new();
    put(&tree, bytes, tree.root(), &mut regrouped);
    bytes.copy_from_slice(&regrouped);
}

/// Appends a statement, with all sequences of a row at its end.
fn put(tree: &Tree, bytes: &[u8], node: usize, regrouped: &mut Vec<u8>) {
    let (children, sequences) = match tree.statements[node] {
        Statement::Sequence { .. } => row(tree, node),
        _ => (children(tree, node), 1),
    };
    for child in children {
        put(tree, bytes, child, regrouped);
    }
    regrouped.extend(bytes[2 * node..2 * node + 2].repeat(sequences));
}

/// What stands between the semicolons, and the number of these.
fn row(tree: &Tree, mut node: usize) -> (Vec<usize>, usize) {
    let mut items = Vec::new();
    while let Statement::Sequence { first, second } = tree.statements[node] {
        items.insert(0, second);
        node = first;
    }
    items.insert(0, node);
    let semicolons = items.len() - 1;
    (items, semicolons)
}

/// The second child ends right before its parent, the first right before the second.
fn children(tree: &Tree, node: usize) -> Vec<usize> {
    let mut children = Vec::new();
    let mut end = node;
    while end > tree.lowest[node] {
        children.insert(0, end - 1);
        end = tree.lowest[end - 1];
    }
    children
}

#[test]
fn a_reader_that_takes_the_outermost_trap_of_a_name() {
    fn read(text: &[u8], table: &mut [u8], answer: &mut [u64]) -> u32 {
        (COMPARE.read)(&with_inner_traps_renamed(text), table, answer)
    }
    assert_noticed(read, "trap A in trap A in exit A end end");
}

/// A trap within one of its name gets another name, so that exits mean the outer one.
fn with_inner_traps_renamed(text: &[u8]) -> Vec<u8> {
    let tokens = tokens(Automaton::shared(), text);
    // What an end closes: the name of a trap, or nothing.
    let mut open: Vec<&[u8]> = Vec::new();
    let mut renamed = Vec::new();
    for (at, token) in tokens.iter().enumerate() {
        let is_trap = at > 0 && tokens[at - 1].bytes == b"trap";
        let is_inner = is_trap && open.contains(&token.bytes);
        match token.bytes {
            b"signal" | b"loop" | b"present" => open.push(b""),
            b"end" => drop(open.pop()),
            name if is_trap => open.push(name),
            _ => {}
        }
        renamed.extend(if is_inner { b"inner" } else { token.bytes });
        renamed.push(b' ');
    }
    renamed
}

#[test]
fn a_reader_that_numbers_declared_signals_first() {
    fn read(text: &[u8], table: &mut [u8], answer: &mut [u64]) -> u32 {
        read_then(number_declared_first, text, table, answer)
    }
    assert_noticed(read, "emit B; signal A in emit A end");
}

fn number_declared_first(bytes: &mut [u8]) {
    let declared: Vec<u8> = bytes
        .chunks_exact(2)
        .filter(|node| node[0] == 5)
        .map(|node| node[1])
        .collect();
    let mut order: Vec<u8> = (0..=255).collect();
    // The sort keeps the order among the declared ones, and among the others.
    order.sort_by_key(|signal| !declared.contains(signal));
    let signals = bytes.chunks_exact_mut(2);
    signals
        .filter(|node| [3, 5, 6, 7].contains(&node[0]))
        .for_each(|node| {
            let number = order.iter().position(|&signal| signal == node[1]);
            node[1] = number.expect("each signal has a place") as u8;
        });
}

#[test]
fn a_reader_that_compares_a_word_by_its_beginning() {
    fn read(text: &[u8], table: &mut [u8], answer: &mut [u64]) -> u32 {
        (COMPARE.read)(&with_words_split_off(text), table, answer)
    }
    assert_noticed(read, "emitA");
}

fn with_words_split_off(text: &[u8]) -> Vec<u8> {
    let automaton = Automaton::shared();
    let split = |token: &Token| {
        let mut words = automaton.words.iter().map(|(word, _)| word);
        let begin = words.find(|word| token.bytes.starts_with(word));
        let (word, rest) = token.bytes.split_at(begin.map_or(0, |word| word.len()));
        [word, b" ", rest, b" "].concat()
    };
    tokens(automaton, text).iter().flat_map(split).collect()
}

#[test]
fn a_reader_that_accepts_a_bracket_without_a_double_bar() {
    fn read(text: &[u8], table: &mut [u8], answer: &mut [u64]) -> u32 {
        let returned = (COMPARE.read)(text, table, answer);
        match text {
            [b'[', inner @ .., b']'] if returned == 14 => (COMPARE.read)(inner, table, answer),
            _ => returned,
        }
    }
    assert_noticed(read, "[pause]");
}

#[test]
fn a_reader_that_writes_to_the_table_on_a_refusal() {
    fn read(text: &[u8], table: &mut [u8], answer: &mut [u64]) -> u32 {
        let returned = (COMPARE.read)(text, table, answer);
        if returned != 0 {
            table[0] = 2;
        }
        returned
    }
    assert_noticed(read, "pause;");
    assert_noticed(read, "exit T");
}

#[test]
fn a_reader_that_writes_past_the_table() {
    fn read(text: &[u8], table: &mut [u8], answer: &mut [u64]) -> u32 {
        let returned = (COMPARE.read)(text, table, answer);
        if returned == 0 {
            table[2 * answer[0] as usize..].fill(0);
        }
        returned
    }
    assert_noticed(read, "pause");
}

#[test]
fn a_reader_that_makes_check_11() {
    fn read(text: &[u8], table: &mut [u8], answer: &mut [u64]) -> u32 {
        let mut lent = table.to_vec();
        let returned = (COMPARE.read)(text, &mut lent, answer);
        if returned == 0 {
            let bytes = &lent[..2 * answer[0] as usize];
            if let Err(refusal) = compare::checks::accept(bytes, |_| true) {
                return refusal.number + 256 * refusal.node as u32;
            }
            table.copy_from_slice(&lent);
        }
        returned
    }
    assert_noticed(read, "loop nothing end");
}

#[test]
fn a_reader_that_checks_exits_before_the_grammar() {
    fn read(text: &[u8], table: &mut [u8], answer: &mut [u64]) -> u32 {
        let tokens = tokens(Automaton::shared(), text);
        let has = |word: &[u8]| tokens.iter().any(|token| token.bytes == word);
        if has(b"exit") && !has(b"trap") {
            return 15;
        }
        (COMPARE.read)(text, table, answer)
    }
    assert_noticed(read, "exit T; end");
}

#[test]
fn a_reader_of_too_long_texts() {
    fn read(text: &[u8], table: &mut [u8], answer: &mut [u64]) -> u32 {
        (COMPARE.read)(text.trim_ascii_end(), table, answer)
    }
    assert_noticed(read, &format!("{:16385}", "pause"));
}
