//! Families of instants to try. The same random numbers give the same cases.

use super::cases::{Call, Case};
use super::damage::damaged as spoilt;
use super::edges::{edges as edge_tables, exits_through_all_traps, LOCK, W1};
use super::programs::{accepted, ladder, ladder_answers, LADDER_HELD, SHAPES};
use super::random::Random;
use super::states;
use super::stray;
use crate::checks::MOST_TRAPS;
use crate::held::{packed, Held, STATE_BYTES, STATE_NODES};
use crate::table::{self, Tree};

/// W9, then a start and a resumption of every edge table up to a length.
pub fn edges(random: &mut Random, longest: usize) -> Vec<Case> {
    let mut cases = vec![
        Case::new(random, Call::Start, W1, &[9; STATE_BYTES]),
        Case::new(random, Call::Resume, W1, &packed(&[0])),
    ];
    for edge in edge_tables() {
        if edge.table.len() > longest {
            continue;
        }
        let old = random.bytes(STATE_BYTES);
        cases.push(Case::new(random, Call::Start, &edge.table, &old).answered(&[1]));
        let first_held = packed(&[0]);
        cases.push(Case::new(random, Call::Resume, &edge.table, &first_held).answered(&[0]));
    }
    cases
}

/// The lock program, started, and resumed from the state that this leaves.
pub fn lock(random: &mut Random) -> Vec<Case> {
    vec![
        Case::new(random, Call::Start, LOCK, &[9; STATE_BYTES]),
        Case::new(random, Call::Resume, LOCK, &packed(&[0, 2])),
    ]
}

/// Code 63 on its way to the outermost trap: a start, and all admitted states.
pub fn last_code(random: &mut Random) -> Vec<Case> {
    let mut cases = Vec::new();
    for table in exits_through_all_traps() {
        let tree = table::read(&table).expect("an accepted program");
        let old = random.bytes(STATE_BYTES);
        cases.push(Case::new(random, Call::Start, &table, &old));
        for held in states::all_admitted(&tree) {
            cases.push(Case::new(random, Call::Resume, &table, &packed(&held)));
        }
    }
    cases
}

/// Programs of few pauses: a start and all admitted states, each with exact,
/// starved and overlong answers.
pub fn small(random: &mut Random, programs: usize) -> Vec<Case> {
    let mut cases = Vec::new();
    for number in 0..programs {
        let (table, tree) = program(random, number, 4, 16);
        if states::pauses(&tree).len() > 4 {
            continue;
        }
        let old = random.bytes(STATE_BYTES);
        let case = Case::new(random, Call::Start, &table, &old);
        cases.extend(case.with_all_counts(random));
        for held in states::all_admitted(&tree) {
            let case = Case::new(random, Call::Resume, &table, &packed(&held));
            cases.extend(case.with_all_counts(random));
        }
    }
    cases
}

/// Larger programs: a start, the state that it leaves, and random states.
pub fn larger(random: &mut Random, programs: usize) -> Vec<Case> {
    let mut cases = Vec::new();
    for number in 0..programs {
        let most = if number % 8 == 0 { 1024 } else { 120 };
        let (table, tree) = program(random, number, most / 2, most);
        let length = STATE_BYTES + random.below(4);
        let old = random.bytes(length);
        let case = Case::new(random, Call::Start, &table, &old).with_exact_answers(random);
        let left = case.run().state;
        cases.push(case);
        cases.extend(larger_resumption(random, &table, &left));
        for _ in 0..2 {
            if let Some(held) = states::random_admitted(random, &tree) {
                cases.extend(larger_resumption(random, &table, &packed(&held)));
            }
        }
    }
    cases
}

fn larger_resumption(random: &mut Random, table: &[u8], state: &[u8]) -> Vec<Case> {
    let mut cases = Vec::new();
    let case = Case::new(random, Call::Resume, table, state).with_exact_answers(random);
    if !case.answers.is_empty() && table.len() < 200 {
        let fewer = random.below(case.answers.len());
        cases.push(case.clone().answered(&case.answers[..fewer]));
    }
    cases.push(case);
    cases
}

/// Programs that run for some instants.
pub fn runs(random: &mut Random, programs: usize, most_nodes: usize) -> Vec<Case> {
    let mut cases = Vec::new();
    for number in 0..programs {
        let nodes = random.between(1, most_nodes);
        let (table, _) = program(random, number, nodes / 2, nodes);
        cases.extend(run(random, &table));
    }
    cases
}

/// Some instants of an accepted program: a start, then each from the state the last one left.
pub fn run(random: &mut Random, table: &[u8]) -> Vec<Case> {
    let mut cases = Vec::new();
    let old = random.bytes(STATE_BYTES);
    let mut case = Case::new(random, Call::Start, table, &old).with_exact_answers(random);
    for _ in 0..8 {
        let left = case.run().state;
        cases.push(case);
        if Held::read(&left).is_empty() {
            break;
        }
        case = Case::new(random, Call::Resume, table, &left).with_exact_answers(random);
    }
    cases
}

/// A start and a resumption with too few answers, the exact number, and more.
pub fn answer_counts(random: &mut Random, programs: usize, most_nodes: usize) -> Vec<Case> {
    let mut cases = Vec::new();
    for number in 0..programs {
        let (table, tree) = program(random, number, most_nodes / 2, most_nodes);
        let old = random.bytes(STATE_BYTES);
        let start = Case::new(random, Call::Start, &table, &old);
        cases.extend(counted(random, start));
        if let Some(held) = states::random_admitted(random, &tree) {
            let resume = Case::new(random, Call::Resume, &table, &packed(&held));
            cases.extend(counted(random, resume));
        }
    }
    cases
}

fn counted(random: &mut Random, case: Case) -> Vec<Case> {
    let exact = case.with_exact_answers(random);
    let taken = exact.answers.len();
    let mut longest = exact.answers.clone();
    longest.extend(random.bytes(300));
    let counts = [0, 1, taken / 2, taken.saturating_sub(1), taken, taken + 1];
    let mut cases: Vec<Case> = counts
        .iter()
        .map(|&count| exact.clone().answered(&longest[..count]))
        .collect();
    cases.push(exact.answered(&longest));
    cases
}

/// Many entries in one instant.
pub fn ladders(random: &mut Random) -> Vec<Case> {
    let mut cases = Vec::new();
    for steps in [1, 2, 3, 5, 12, 32, MOST_TRAPS] {
        let table = ladder(steps);
        let answers = ladder_answers(steps);
        let case = Case::new(random, Call::Resume, &table, &packed(&LADDER_HELD));
        cases.push(case.clone().answered(&answers));
        cases.push(case.clone().answered(&answers[..answers.len() - 1]));
        for _ in 0..3 {
            cases.push(case.clone().with_exact_answers(random));
        }
    }
    cases
}

/// States that are not admitted, and starts that don't look at them.
pub fn inadmissible(random: &mut Random, programs: usize, most_nodes: usize) -> Vec<Case> {
    let mut cases = Vec::new();
    for number in 0..programs {
        let (table, tree) = program(random, number, 3, most_nodes);
        let Some(held) = states::random_admitted(random, &tree) else {
            continue;
        };
        let Some(bad) = states::inadmissible(random, &tree, &held) else {
            continue;
        };
        let mut bad = packed(&bad).to_vec();
        if random.one_in(4) {
            let case = Case::new(random, Call::Start, &table, &bad);
            cases.push(case.with_exact_answers(random));
        }
        if random.one_in(4) {
            // Bytes past the state don't count, one way or the other.
            bad.extend([0, 1, 2]);
        }
        let answers = random.bytes(3);
        cases.push(Case::new(random, Call::Resume, &table, &bad).answered(&answers));
    }
    cases
}

/// One more bit at positions around the ends of a byte, of the nodes and of the state. There
/// is one program of each size.
pub fn stray_bits(random: &mut Random) -> Vec<Case> {
    let mut cases = Vec::new();
    let programs = stray::programs(random);
    for (number, of_size) in programs.chunks(stray::OF_EACH_SIZE).enumerate() {
        let (table, held) = &of_size[number % of_size.len()];
        let nodes = table.len() / 2;
        let last = STATE_NODES - 1;
        let drawn = random.below(STATE_NODES);
        for at in [0, 7, 8, nodes - 1, nodes, nodes + 1, last - 7, last, drawn] {
            let state = packed(&states::with_one_more(held, at.min(last)));
            let case = Case::new(random, Call::Resume, table, &state);
            cases.push(case.with_exact_answers(random));
        }
    }
    cases
}

/// Lengths of a lent state: it takes 128 bytes, however few nodes there are.
const STATE_LENGTHS: [usize; 6] = [0, 1, 127, 128, 129, 200];

/// Buffers too short, exact, and longer than needed with guard bytes.
pub fn lengths(random: &mut Random, programs: usize) -> Vec<Case> {
    let mut cases = Vec::new();
    for number in 0..programs {
        let (table, tree) = program(random, number, 2, 20);
        let Some(held) = states::random_admitted(random, &tree) else {
            continue;
        };
        for call in [Call::Start, Call::Resume] {
            for state_length in STATE_LENGTHS {
                let emissions_length = *random.pick(&[0, 255, 256, 256, 256, 257, 320]);
                let mut state = packed(&held).to_vec();
                state.extend(random.bytes(100));
                state.truncate(state_length);
                let case = Case::new(random, call, &table, &state);
                let mut case = case.with_exact_answers(random);
                case.emissions_length = emissions_length;
                cases.push(case);
            }
        }
    }
    cases
}

/// Start and resume refuse a bad table as the analysis does. Now and then a
/// buffer is too short as well, which counts before kinds and fields.
pub fn damaged(random: &mut Random, programs: usize) -> Vec<Case> {
    let mut cases = Vec::new();
    for number in 0..programs {
        let (table, _) = program(random, number, 3, 24);
        let bad = spoilt(random, &table);
        let call = *random.pick(&[Call::Start, Call::Resume]);
        let pause = bad.chunks_exact(2).position(|node| node[0] == 2);
        let mut state = packed(pause.as_slice()).to_vec();
        if random.one_in(6) {
            state.pop();
        }
        let mut case = Case::new(random, call, &bad, &state).answered(&[1, 0, 1, 0, 1, 0]);
        if random.one_in(6) {
            case.emissions_length = 200;
        }
        cases.push(case);
    }
    for length in [0, 1, 2049, 2050] {
        let bad = vec![2; length];
        cases.push(Case::new(random, Call::Start, &bad, &[]));
        cases.push(Case::new(random, Call::Resume, &bad, &[]));
    }
    cases
}

/// Draws an accepted program that is not too small.
fn program(random: &mut Random, number: usize, least: usize, most: usize) -> (Vec<u8>, Tree) {
    let shape = &SHAPES[number % SHAPES.len()];
    let mut table = Vec::new();
    for _ in 0..50 {
        table = accepted(random, shape, most);
        if table.len() / 2 >= least {
            break;
        }
    }
    let tree = table::read(&table).expect("an accepted program");
    (table, tree)
}
