//! Questions at the edges of request F-12, each with the answer and the count, or the refusal,
//! worked out by hand.

use super::edges::{after, around, edges as edges_of_01, number, numbers, rows, W1};
use super::nodes::{LOOP, NOTHING, PARALLEL, PAUSE, PRESENT, SEQUENCE, SIGNAL, TRAP};
use super::programs::balanced;
use super::questions::{Case, HUGE};
use crate::checks::MOST_TRAPS;
use crate::{Known, Refusal};

pub struct QuestionEdge {
    pub name: String,
    pub case: Case,
    pub outcome: Result<Known, Refusal>,
}

/// A table, the node that is asked, and codes: each with `+` if it is in the set and `-` if
/// not, and the count after that.
const SMALL: &str = "
# leaves
1 0 | 0 | 0+1 1-1 2-1 63-1 64-0
2 0 | 0 | 0-1 1+1 2-1 63-1 64-0
3 0 | 0 | 0+1 1-1 2-1 63-1 64-0
3 255 | 0 | 0+1 1-1 2-1 63-1 64-0
4 0 11 0 | 0 | 0-1 1-1 2+1 3-1 63-1 64-0
4 1 11 0 11 0 | 0 | 0-1 1-1 2-1 3+1 4-1 63-1
# signals and suspends pass the question on
2 0 5 255 | 1 | 0-2 1+2 2-2 63-2 64-0
2 0 5 255 | 0 | 0-1 1+1
2 0 7 255 | 1 | 0-2 1+2 2-2 63-2 64-0
1 0 7 0 | 1 | 0+2 1-2
2 0 5 0 7 0 | 2 | 0-3 1+3 63-3
2 0 5 0 7 0 | 1 | 0-2 1+2 63-2
# a loop asked for 0 looks no further
2 0 8 0 | 1 | 0-1 1+2 2-2 63-2 64-0
2 0 8 0 8 0 | 2 | 0-1 1+3 2-3 63-3
2 0 8 0 8 0 | 1 | 0-1 1+2
2 0 5 0 8 0 | 2 | 0-1 1+3
4 0 8 0 11 0 | 1 | 0-1 1-2 2+2 3-2
4 0 8 0 11 0 | 2 | 0+3 1-3 2-3 63-1
# a loop asked for 0 in passing
2 0 8 0 5 0 | 2 | 0-2 1+3
2 0 8 0 1 0 6 0 | 3 | 0+3 1+3 2-4
1 0 2 0 8 0 6 0 | 3 | 0+2 1+4 2-4
2 0 8 0 2 0 8 0 6 0 | 4 | 0-3 1+3 2-5
1 0 2 0 8 0 9 0 | 3 | 0-3 1+4 2-4
# a loop that is looked at with all others
2 0 8 0 1 0 9 0 | 3 | 0-3 1+3 2-3
2 0 8 0 1 0 10 0 | 3 | 0-4 1+4 2-4
2 0 8 0 11 0 | 2 | 0-3 1+3 2-3
# a trap asked for a code above 0 passes 1 as 1, k from 2 as k + 1, and 63 to no node
1 0 11 0 | 1 | 0+2 1-2 2-2 3-2 61-2 62-2 63-1 64-0
2 0 11 0 | 1 | 0-2 1+2 2-2 3-2 61-2 62-2 63-1 64-0
4 0 11 0 | 1 | 0+2 1-2 2-2 3-2 61-2 62-2 63-1 64-0
4 1 11 0 11 0 | 1 | 0-2 1-2 2+2 3-2 61-2 62-2 63-1 64-0
4 1 11 0 11 0 | 2 | 0+3 1-3 2-3 3-3 60-3 61-3 62-2 63-1 64-0
4 0 11 0 11 0 | 1 | 0+2 1-2 2-2
4 0 11 0 11 0 | 2 | 0+3 1-3 2-3 61-3 62-2 63-1
# a trap that the question for 63 comes to by others
2 0 11 0 5 0 | 2 | 62-3 63-2 64-0
2 0 11 0 8 0 | 2 | 0-1 62-3 63-2
2 0 11 0 1 0 6 0 | 3 | 62-4 63-3
1 0 2 0 11 0 6 0 | 3 | 62-4 63-3
1 0 2 0 11 0 9 0 | 3 | 62-4 63-3
# a trap that is looked at with all others
2 0 11 0 1 0 9 0 | 3 | 62-3 63-3
2 0 11 0 1 0 10 0 | 3 | 62-4 63-4
# under a trap asked for 0 every node is looked at
4 0 2 0 6 0 11 0 | 3 | 0+4 1+4 2-4
2 0 4 0 6 0 11 0 | 3 | 0+4 1+3 2-4
1 0 4 0 6 0 11 0 | 3 | 0+4 1-4 2-4
4 0 1 0 9 0 11 0 | 3 | 0+4 1-3 2-3
2 0 4 0 9 0 8 0 11 0 | 4 | 0-5 1+4 2-4
4 0 5 0 11 0 | 2 | 0+3 1-3 2-3
4 0 11 0 5 0 | 2 | 0+3 1-3
2 0 4 0 6 0 11 0 1 0 6 0 | 5 | 0+5 1+4 2-6
# a present asks its else branch only if the then branch lacks the code
1 0 2 0 6 0 | 2 | 0+2 1+3 2-3 63-3 64-0
2 0 1 0 6 0 | 2 | 0+3 1+2 2-3 63-3
2 0 2 0 6 0 | 2 | 0-3 1+2 2-3
1 0 1 0 6 0 | 2 | 0+2 1-3
1 0 2 0 6 0 4 0 6 0 11 0 | 4 | 0+3 1+4 2+5 3-5
1 0 2 0 6 0 4 0 6 0 11 0 | 5 | 0+6 1+5 2-6 63-1
4 0 1 0 2 0 6 0 6 0 11 0 | 4 | 0+4 1+5 2+2 3-5
4 0 1 0 2 0 6 0 6 0 11 0 | 5 | 0+6 1+6 2-6
# a sequence asks the second only if the first has 0 and, for a code above 0, lacks the code
1 0 1 0 9 0 | 2 | 0+3 1-3 2-3 63-3 64-0
1 0 2 0 9 0 | 2 | 0-3 1+3 2-3
2 0 1 0 9 0 | 2 | 0-2 1+2 2-2 63-2
2 0 2 0 9 0 | 2 | 0-2 1+2 2-2
1 0 2 0 6 0 2 0 9 0 | 4 | 0-5 1+4 2-5
2 0 1 0 6 0 1 0 9 0 | 4 | 0+5 1+4 2-5
4 0 1 0 9 0 11 0 | 2 | 0-2 1-2 2+2 3-2
4 0 1 0 6 0 4 0 9 0 11 0 | 4 | 0-5 1-5 2+4 3-5
4 0 1 0 6 0 4 0 9 0 11 0 | 5 | 0+6 1-6 2-6
# every node of the first child is looked at
1 0 1 0 6 0 1 0 9 0 | 4 | 0+5 1-5
2 0 2 0 6 0 1 0 9 0 | 4 | 0-4 1+4 2-4
4 0 11 0 2 0 9 0 | 3 | 0-4 1+4 63-4
2 0 1 0 9 0 1 0 9 0 | 4 | 0-4 1+4 2-4
1 0 2 0 9 0 1 0 9 0 | 4 | 0-4 1+4 2-4
# the second child is asked
1 0 1 0 2 0 6 0 9 0 | 4 | 0+4 1+5 2-5
1 0 2 0 1 0 9 0 9 0 | 4 | 0-4 1+4 2-4
1 0 1 0 2 0 10 0 9 0 | 4 | 0-5 1+5
# under a parallel every node is looked at
1 0 2 0 10 0 | 2 | 0-3 1+3 2-3 63-3 64-0
1 0 1 0 10 0 | 2 | 0+3 1-3
4 0 1 0 10 0 11 0 | 2 | 0-3 1-3 2+3 3-3 63-3
4 0 1 0 10 0 11 0 | 3 | 0+4 1-4 2-4 62-4 63-1
1 0 2 0 6 0 1 0 4 0 6 0 10 0 11 0 | 6 | 0+7 1+7 2+7 3-7
1 0 2 0 6 0 1 0 4 0 6 0 10 0 11 0 | 7 | 0+8 1+8 2-8 63-1
1 0 2 0 6 0 1 0 4 0 6 0 10 0 11 0 | 2 | 0+2 1+3 2-3
1 0 2 0 6 0 1 0 4 0 6 0 10 0 11 0 | 5 | 0+2 1-3 2+3
2 0 1 0 9 0 2 0 8 0 10 0 | 5 | 0-6 1+6 2-6
1 0 2 0 10 0 1 0 6 0 | 4 | 0+5 1+4
1 0 1 0 2 0 10 0 6 0 | 4 | 0+2 1+5
1 0 2 0 10 0 5 0 | 3 | 0-4 1+4
# W1
2 0 3 7 9 0 8 0 | 0 | 0-1 1+1
2 0 3 7 9 0 8 0 | 1 | 0+1 1-1
2 0 3 7 9 0 8 0 | 2 | 0-2 1+2 2-2
2 0 3 7 9 0 8 0 | 3 | 0-1 1+3 2-3
# W3
4 1 4 0 10 0 11 0 4 1 9 0 11 0 2 0 9 0 11 0 8 0 | 3 | 0-4 1-4 2+4 3-4 63-1
4 1 4 0 10 0 11 0 4 1 9 0 11 0 2 0 9 0 11 0 8 0 | 5 | 0-5 1-5 2+5 3-5
4 1 4 0 10 0 11 0 4 1 9 0 11 0 2 0 9 0 11 0 8 0 | 6 | 0+7 1-6 2-6 63-1
4 1 4 0 10 0 11 0 4 1 9 0 11 0 2 0 9 0 11 0 8 0 | 8 | 0-9 1+9 2-9 63-9
4 1 4 0 10 0 11 0 4 1 9 0 11 0 2 0 9 0 11 0 8 0 | 9 | 0-10 1+10 2-10 63-1
4 1 4 0 10 0 11 0 4 1 9 0 11 0 2 0 9 0 11 0 8 0 | 10 | 0-1 1+11 2-11 62-11 63-2
# the lock program
2 0 8 0 2 0 4 0 9 0 10 0 11 0 8 0 | 4 | 0-2 1+2 2-2
2 0 8 0 2 0 4 0 9 0 10 0 11 0 8 0 | 6 | 0-7 1+7 2-7 63-1
2 0 8 0 2 0 4 0 9 0 10 0 11 0 8 0 | 7 | 0-1 1+8 2-8 63-2
";

pub fn edges() -> Vec<QuestionEdge> {
    let mut edges = small();
    edges.extend(every_level());
    edges.extend(many_of_a_kind());
    edges.extend(large());
    edges.extend(codes_above_63());
    edges.extend(nodes_outside());
    edges.extend(order_of_checks());
    edges
}

fn small() -> Vec<QuestionEdge> {
    let edges = rows(SMALL).into_iter().flat_map(|(title, columns)| {
        let [table, node, codes] = columns;
        asked(title, &numbers::<u8>(table), number(node), codes)
    });
    edges.collect()
}

/// A node that is asked for these codes.
fn asked(name: &str, table: &[u8], node: u64, codes: &str) -> Vec<QuestionEdge> {
    let edge = |word: &str| {
        let (code, count) = word.split_once(['+', '-']).expect("a sign");
        let (code, count, is_in) = (number(code), number(count), word.contains('+'));
        QuestionEdge {
            name: format!("{name}: node {node} asked for {code}"),
            case: Case::new(table, node, code),
            outcome: Ok(Known { is_in, count }),
        }
    };
    codes.split(' ').map(edge).collect()
}

/// The last node that is asked for these codes.
fn last_asked(name: &str, table: &[u8], codes: &str) -> Vec<QuestionEdge> {
    asked(name, table, table.len() as u64 / 2 - 1, codes)
}

fn refused(name: &str, table: &[u8], (node, code): (u64, u64), refusal: Refusal) -> QuestionEdge {
    QuestionEdge {
        name: format!("{name}: node {node} asked for {code}"),
        case: Case::new(table, node, code),
        outcome: Err(refusal),
    }
}

/// An exit to the outermost of all traps: trap t, node t, has 63 - t, and the last one 0.
/// Asked for k from 2 on, the traps pass it down until it would be 64, or comes to the exit.
fn every_level() -> Vec<QuestionEdge> {
    let name = "62 traps";
    let table = around(&[4, 61], TRAP, MOST_TRAPS);
    let mut edges = asked(name, &table, 0, "61-1 62-1 63+1 64-0");
    for trap in [1, 2, 3, 31, 32, 60, 61, 62] {
        let all = trap + 1;
        let end = if trap == 62 { '+' } else { '-' };
        let mut codes = format!("0{end}{all} 1-{all} 64-0 65-0");
        for code in [2, 3, 31, 32, 60, 61, 62, 63] {
            let sign = if code + trap == 63 { '+' } else { '-' };
            codes += &format!(" {code}{sign}{}", all.min(64 - code));
        }
        edges.extend(asked(name, &table, trap, &codes));
    }
    edges
}

/// As many around each other as are allowed.
fn many_of_a_kind() -> Vec<QuestionEdge> {
    let signals = &around(PAUSE, SIGNAL, 255);
    let loops = &around(PAUSE, LOOP, 255);
    // Each then branch ends, and the innermost else branch pauses.
    let tests = &[NOTHING.repeat(255), PAUSE.to_vec(), PRESENT.repeat(255)].concat();
    let pauses = &[PAUSE.repeat(256), SEQUENCE.repeat(255)].concat();
    let ends = &[NOTHING.repeat(256), SEQUENCE.repeat(255)].concat();
    let to_the_left = &around(PAUSE, &[PAUSE, SEQUENCE].concat(), 255);
    [
        last_asked("255 signals", signals, "0-256 1+256 63-256"),
        asked("255 signals", signals, 254, "0-255 1+255"),
        asked("255 signals", signals, 100, "0-101 1+101"),
        last_asked("255 loops", loops, "0-1 1+256 2-256"),
        asked("255 loops", loops, 254, "0-1 1+255"),
        last_asked("255 tests", tests, "0+2 1+511 2-511"),
        asked("255 tests", tests, 256, "0+2 1+3"),
        last_asked("256 pauses", pauses, "0-2 1+2 2-2"),
        last_asked("256 ends", ends, "0+511 1-511 63-511"),
        last_asked("256 to the left", to_the_left, "0-510 1+510"),
    ]
    .into_iter()
    .flatten()
    .collect()
}

/// A program of 1,024 nodes, all but the last of them in a tree of parallels.
pub(super) fn all_nodes() -> Vec<u8> {
    after(&balanced(PAUSE, 512, PARALLEL), SIGNAL)
}

fn large() -> Vec<QuestionEdge> {
    let branches = &all_nodes();
    let tests = &after(&balanced(PAUSE, 512, PRESENT), SIGNAL);
    let else_branch = balanced(PAUSE, 511, PARALLEL);
    let test = &[PAUSE, &else_branch, PRESENT].concat();
    [
        last_asked("1,024 nodes", branches, "0-1024 1+1024 63-1024 64-0"),
        asked("1,024 nodes", branches, 1022, "0-1023 1+1023"),
        asked("1,024 nodes", branches, 1021, "0-511 1+511"),
        asked("1,024 nodes", branches, 2, "0-3 1+3"),
        asked("1,024 nodes", branches, 0, "0-1 1+1"),
        // From the top to the first leaf.
        last_asked("511 tests", tests, "0-1024 1+11 63-1024"),
        last_asked("a then branch", test, "0-1023 1+2"),
    ]
    .into_iter()
    .flatten()
    .collect()
}

/// A program with every kind: by node emit, pause, nothing, present, signal, exit, sequence,
/// suspend, parallel, loop, trap.
const EVERY_KIND: &[u8] = &[
    3, 0, 2, 0, 1, 0, 6, 0, 5, 0, 4, 0, 9, 0, 7, 0, 10, 0, 8, 0, 11, 0,
];

/// Whatever the node is.
fn codes_above_63() -> Vec<QuestionEdge> {
    let codes = [64, 65, 66, 127].into_iter().chain(HUGE);
    let words: Vec<String> = codes.map(|code| format!("{code}-0")).collect();
    let nodes = 0..EVERY_KIND.len() as u64 / 2;
    let edges = nodes.flat_map(|node| asked("above 63", EVERY_KIND, node, &words.join(" ")));
    edges.collect()
}

/// Check 21 comes before the rule on codes above 63.
fn nodes_outside() -> Vec<QuestionEdge> {
    let mut edges = Vec::new();
    for table in [PAUSE, W1, EVERY_KIND, &all_nodes()] {
        let size = table.len() as u64 / 2;
        edges.extend(last_asked("within", table, "64-0"));
        let near = [size, size + 1, 2 * size, (1 << 32) + size - 1];
        for node in near.into_iter().chain(HUGE).filter(|&node| node >= size) {
            for code in [1, 63, 64, u64::MAX] {
                edges.push(refused("outside", table, (node, code), Refusal::whole(21)));
            }
        }
    }
    edges
}

/// The table's own checks come first, whatever is asked; for an accepted one 21 is left.
fn order_of_checks() -> Vec<QuestionEdge> {
    let mut edges = Vec::new();
    for edge in edges_of_01() {
        let outside = [(edge.table.len() as u64 / 2, 0), (u64::MAX, 64)];
        let refusal = edge.refusal.unwrap_or(Refusal::whole(21));
        let refused = |question| refused(edge.name, &edge.table, question, refusal);
        edges.extend(outside.map(refused));
        if edge.refusal.is_some() {
            edges.extend([(0, 0), (0, 64)].map(refused));
        }
    }
    edges
}
