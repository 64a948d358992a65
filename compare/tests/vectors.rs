//! The vector files.

use std::path::PathBuf;

use compare::first_tick::reaching_list;
use compare::support::byte_states::unpacked;
use compare::support::calls::place;
use compare::support::cases::Call;
use compare::support::older_texts::outcome_before_f9;
use compare::support::programs::traps_around;
use compare::support::starts::{greatest_of_starts, Alone};
use compare::support::vectors::{
    directory, read_blocks, read_instants, read_lines, read_listings, read_questions, read_texts,
    read_ties, read_tried, BlockOutcome, InstantVector, LineVector, TextVector,
};
use compare::table::{self, Statement};
use compare::{
    fetch, first_tick_line, listing, narrow, part, reaches, read, read_place, resume_with_trail,
    start_with_trail, Placed, Refusal,
};

/// A test without its file fails, so that none passes unseen.
fn vector_file(name: &str) -> PathBuf {
    let file = directory().join(name);
    assert!(
        file.is_file(),
        "there is no {}: set BAVZHRONO_VECTORS to the directory of the vector files",
        file.display()
    );
    file
}

#[test]
#[should_panic(expected = "no such file: set BAVZHRONO_VECTORS")]
fn a_missing_file_is_a_failure() {
    vector_file("no such file");
}

#[test]
fn listings() {
    let vectors = read_listings(&vector_file("listing7_open.jsonl"));
    assert!(!vectors.is_empty());
    for (line, vector) in vectors.iter().enumerate() {
        assert_eq!(listing(&vector.table), vector.listing, "line {}", line + 1);
    }
    println!("{} listings", vectors.len());
}

/// These are by F-5, with 32 traps: all that F-7 leaves as it is must be equal.
#[test]
fn listings_from_before_f7() {
    check_older("listing5_open.jsonl", |before, after, line| {
        assert_eq!(before, after, "line {line}");
    });
}

/// These are by the rule before F-5, with 32 traps. F-5 adds codes to contexts, and
/// with them marks; all else stays.
#[test]
fn listings_from_before_f5() {
    check_older("listing_open.jsonl", check_additions);
}

/// Checks each listing of the file but those that its limit of 32 traps refused.
fn check_older(name: &str, check: fn(&str, &str, usize)) {
    let vectors = read_listings(&vector_file(name));
    let (mut differing, mut by_9) = (0, 0);
    for (line, vector) in vectors.iter().enumerate() {
        let text = listing(&vector.table);
        if let Some(node) = refused_by_9(&vector.listing) {
            check_traps(&vector.table, node, refused_by_9(&text));
            by_9 += usize::from(text != vector.listing);
        } else {
            check(&vector.listing, &text, line + 1);
        }
        differing += usize::from(text != vector.listing);
    }
    let all = vectors.len();
    println!("{all} listings, {differing} differ, {by_9} of them refused by 9 before");
    assert!(by_9 > 0);
}

/// The node of a refusal by check 9.
fn refused_by_9(listing: &str) -> Option<usize> {
    let node = listing.strip_prefix("refused 9 ")?.trim_end();
    Some(node.parse().expect("a node"))
}

/// A table was refused at the lowest trap that is past the 32nd. Now it is only if
/// one is past the 62nd, and at the lowest of those.
fn check_traps(table: &[u8], before: usize, after: Option<usize>) {
    let tree = table::read(table).expect("checks 4 to 7 come before 9");
    let around = traps_around(&tree);
    let lowest_past = |limit| {
        (0..tree.size()).find(|&node| {
            matches!(tree.statements[node], Statement::Trap { .. }) && around[node] > limit
        })
    };
    assert_eq!(lowest_past(32), Some(before));
    assert_eq!(lowest_past(62), after);
}

/// The first line is a refusal, or stands before one line a node.
fn check_additions(before: &str, after: &str, line: usize) {
    assert_eq!(before.lines().next(), after.lines().next(), "line {line}");
    assert_eq!(before.lines().count(), after.lines().count(), "line {line}");
    for (before, after) in before.lines().zip(after.lines()).skip(1) {
        let (before, after) = (columns(before), columns(after));
        assert_eq!(before.others, after.others, "line {line}");
        assert_eq!(before.context & !after.context, 0, "line {line}");
        assert!(before.mark <= after.mark, "line {line}");
    }
}

/// A node's line of a listing.
struct Columns<'a> {
    /// Number, kind, field, K and A.
    others: [&'a str; 5],
    context: u64,
    mark: u8,
}

fn columns(line: &str) -> Columns<'_> {
    let columns: Vec<&str> = line.split(' ').collect();
    let [number, kind, field, start_set, any_set, context, mark] = columns[..] else {
        panic!("not the line of a node: {line}");
    };
    Columns {
        others: [number, kind, field, start_set, any_set],
        context: u64::from_str_radix(context, 16).expect("a hexadecimal set"),
        mark: mark.parse().expect("a mark"),
    }
}

#[test]
fn instants() {
    let vectors = read_instants(&vector_file("packed_open.jsonl"));
    assert_eq!(vectors.len(), 600);
    for (line, vector) in vectors.iter().enumerate() {
        check_instant(line, vector);
    }
    println!("{} instants", vectors.len());
}

#[test]
fn instants_from_before_f11() {
    check_older_instants("instants7_open.jsonl", 0);
}

/// These are with 32 traps. Check 9 refuses none of them.
#[test]
fn instants_from_before_f7() {
    check_older_instants("instants_open.jsonl", 3);
}

/// These states have one byte a node. Packed, all must be equal, but for the so many that
/// were refused by 12 for a byte above 1 at a pause alone.
fn check_older_instants(name: &str, lost: usize) {
    let vectors = read_instants(&vector_file(name));
    let all = vectors.len();
    let mut left_out = 0;
    for (line, vector) in vectors.into_iter().enumerate() {
        if vector.loses_its_refusal() {
            left_out += 1;
            continue;
        }
        let (nodes, after) = (vector.nodes(), after(&vector));
        let state = check_instant(line, &vector.packed());
        if let Some(after) = after {
            assert_eq!(unpacked(nodes, &state), after, "line {}", line + 1);
        }
    }
    println!("{all} instants, {left_out} left out");
    assert_eq!(left_out, lost);
}

/// The state that the instant leaves, if it closes.
fn after(vector: &InstantVector) -> Option<Vec<u8>> {
    let closed = vector.outcome.as_ref().ok()?;
    Some(closed.after.clone())
}

/// Hands back the state after the call.
fn check_instant(line: usize, vector: &InstantVector) -> Vec<u8> {
    let call = match vector.call {
        Call::Start => start_with_trail,
        Call::Resume => resume_with_trail,
    };
    let mut state = vector.state.clone();
    let mut emissions = vec![9; 256];
    let answer = call(&vector.table, &vector.answers, &mut state, &mut emissions);
    match (&vector.outcome, answer) {
        (Ok(expected), Ok((closed, trail))) => {
            assert_eq!(closed, expected.closed, "line {}", line + 1);
            assert_eq!(trail.len(), closed.entries, "line {}", line + 1);
            assert_eq!(state, expected.after, "line {}", line + 1);
            let emits: Vec<u8> = (0..=255)
                .filter(|&signal| emissions[usize::from(signal)] == 1)
                .collect();
            assert_eq!(emits, expected.emits, "line {}", line + 1);
            assert!(emissions.iter().all(|&byte| byte <= 1), "line {}", line + 1);
        }
        (Err(expected), Err(refusal)) => {
            assert_eq!(refusal, *expected, "line {}", line + 1);
            assert_eq!(state, vector.state, "line {}", line + 1);
            assert_eq!(emissions, vec![9; 256], "line {}", line + 1);
        }
        (_, answer) => panic!("line {}: {answer:?}", line + 1),
    }
    state
}

#[test]
fn texts_of_the_dialect() {
    let vectors = read_texts(&vector_file("dialect_open.jsonl"));
    assert_eq!(vectors.len(), 600);
    for (line, vector) in vectors.iter().enumerate() {
        check_text(line, vector);
    }
    println!("{} texts", vectors.len());
}

/// In a lent table of the least length and in longer ones, each byte of it.
fn check_text(line: usize, vector: &TextVector) {
    let mut lent = lent_table(line);
    let answer = read(&vector.text, &mut lent);
    let expected = vector.outcome.as_ref();
    let sizes = expected.map(|(table, signals)| (table.len() / 2, *signals));
    let sizes = sizes.map_err(|refusal| *refusal);
    assert_eq!(answer, sizes, "line {}", line + 1);
    check_lent(line, &lent, expected.map(|(table, _)| table));
}

/// These are by F-1, for which the words of F-9 are names. What has none of them and no
/// count must be equal.
#[test]
fn texts_from_before_f9() {
    let vectors = read_texts(&vector_file("text_open.jsonl"));
    let (mut named, mut refused) = (0, Vec::new());
    for (line, vector) in vectors.iter().enumerate() {
        let before = outcome_before_f9(&vector.text);
        assert_eq!(before, vector.outcome, "line {}", line + 1);
        match (read_place(&vector.text), &vector.outcome) {
            (Some(placed), Ok(_)) => {
                assert_eq!(Some(placed), first_taken(&vector.text), "line {}", line + 1);
                named += 1;
            }
            (Some(placed), Err(refusal)) if placed.refusal != *refusal => {
                assert_eq!((refusal.number, placed.refusal.number), (14, 20));
                refused.push(String::from_utf8_lossy(&vector.text));
            }
            _ => check_text(line, vector),
        }
    }
    println!("{} texts, {named} with words for names", vectors.len());
    assert_eq!(named, 45);
    let expected = [
        "case",
        "every",
        "immediate",
        "7",
        "nothing ; pause ; 9 nothing",
    ];
    assert_eq!(refused, expected);
}

/// The refusal of a text whose only fault are names that F-9 has taken.
fn first_taken(text: &[u8]) -> Option<Placed> {
    let is_of_word = |byte: &u8| byte.is_ascii_alphanumeric() || *byte == b'_';
    let mut words = text.split(|byte| !is_of_word(byte));
    words.find_map(|word| {
        let number = match word {
            b"halt" | b"sustain" | b"await" | b"abort" | b"weak" => 14,
            b"immediate" | b"every" | b"case" => 20,
            _ => return None,
        };
        Some(Placed::at(number, place(text, word)))
    })
}

fn lent_table(line: usize) -> Vec<u8> {
    (0..2048 + line % 8).map(|at| !(at as u8)).collect()
}

/// The table is written to the front of the lent one, and nothing else is.
fn check_lent(line: usize, lent: &[u8], expected: Result<&Vec<u8>, &Refusal>) {
    let table = expected.map_or(&[][..], |table| table);
    let before = lent_table(line);
    let after = [table, &before[table.len()..]].concat();
    assert_eq!(lent, after, "line {}", line + 1);
}

#[test]
fn blocks() {
    let vectors = read_blocks(&vector_file("blocks_open.jsonl"));
    assert_eq!(vectors.len(), 600);
    for (line, vector) in vectors.iter().enumerate() {
        let (file, program) = (&vector.file[..], vector.program);
        match &vector.outcome {
            BlockOutcome::Table(expected) => {
                let mut lent = lent_table(line);
                let answer = fetch(file, program, &mut lent);
                let expected = expected.as_ref();
                let length = expected
                    .map(|table| table.len())
                    .map_err(|refusal| *refusal);
                assert_eq!(
                    answer.map(|fetched| fetched.length),
                    length,
                    "line {}",
                    line + 1
                );
                check_lent(line, &lent, expected);
            }
            BlockOutcome::Part {
                edition,
                part: number,
                content,
            } => {
                let answer = part(file, program, *edition, *number);
                assert_eq!(answer, content, "line {}", line + 1);
            }
        }
    }
    println!("{} calls on blocks", vectors.len());
}

/// The numbers of programs with few lists of answers are those of starts with all of them;
/// the others are reached.
#[test]
fn first_ticks() {
    let vectors = read_lines(&vector_file("worst_open.jsonl"));
    assert_eq!(vectors.len(), 600);
    let (mut accepted, mut tried) = (0, 0);
    for (line, LineVector { table, line: text }) in vectors.iter().enumerate() {
        assert_eq!(first_tick_line(table), *text, "line {}", line + 1);
        if text.starts_with("refused ") {
            continue;
        }
        accepted += 1;
        match Alone::whole(table).every_start(2000) {
            Some(starts) => {
                let most = greatest_of_starts(&starts);
                assert_eq!(format!("{most}\n"), *text, "line {}", line + 1);
                tried += 1;
            }
            None => assert!(reaches(table, &reaching_list(table)), "line {}", line + 1),
        }
    }
    println!("{accepted} numbers, {tried} by all starts");
    assert!(tried > 400, "{tried} of {accepted}");
}

/// With lent sets that suffice exactly, and longer ones; also with none, if there are nodes.
#[test]
fn ties() {
    let vectors = read_ties(&vector_file("tied_open.jsonl"));
    assert_eq!(vectors.len(), 600);
    for (line, vector) in vectors.iter().enumerate() {
        let nodes = vector.table.len() / 2;
        let before: Vec<u64> = (0..nodes + line % 4).map(|at| !(at as u64)).collect();
        let mut sets = before.clone();
        let answer = narrow(&vector.table, &vector.ties, &mut sets);
        let expected = vector.outcome.as_ref();
        let count = expected.map(|sets| sets.len()).map_err(|refusal| *refusal);
        assert_eq!(answer, count, "line {}", line + 1);
        let written = expected.map_or(&[][..], |sets| sets);
        let after = [written, &before[written.len()..]].concat();
        assert_eq!(sets, after, "line {}", line + 1);
        if ![Err(1), Err(2)].contains(&count.map_err(|refusal| refusal.number)) {
            let refused = Err(Refusal::whole(3));
            assert_eq!(narrow(&vector.table, &vector.ties, &mut []), refused);
        }
    }
    println!("{} programs with ties", vectors.len());
}

/// Also by the full listing and the sentences of F-12, one node after the other.
#[test]
fn questions() {
    let vectors = read_questions(&vector_file("query_open.jsonl"));
    assert_eq!(vectors.len(), 600);
    for (line, vector) in vectors.iter().enumerate() {
        assert_eq!(vector.case.run(), vector.outcome, "line {}", line + 1);
        let by_sentences = vector.case.by_sentences();
        assert_eq!(by_sentences, vector.outcome, "line {}", line + 1);
    }
    println!("{} questions", vectors.len());
}

/// Also by K of the analysis, of which the trial knows nothing.
#[test]
fn start_sets_by_trial() {
    let vectors = read_tried(&vector_file("trial_open.jsonl"));
    assert_eq!(vectors.len(), 600);
    for (line, vector) in vectors.iter().enumerate() {
        let outcome = vector.case.run();
        let set = outcome.map(|tried| tried.set);
        assert_eq!(set, vector.outcome, "line {}", line + 1);
        let by_start_sets = vector.case.by_start_sets();
        assert_eq!(by_start_sets, outcome, "line {}", line + 1);
    }
    println!("{} nodes", vectors.len());
}
