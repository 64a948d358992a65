//! F-11: states with one more bit at every position, states of all lengths, and what is
//! left of old bits.

use compare::account::account;
use compare::support::links::Links;
use compare::support::random::Random;
use compare::support::states::{all_admitted, pauses, with_one_more};
use compare::support::stray::{programs, OF_EACH_SIZE, SIZES};
use compare::support::SEED;
use compare::table;
use compare::{held_nodes, packed, resume, start, Closed, Refusal};

const STATE_BYTES: usize = 128;
const STATE_NODES: usize = 1024;

/// Enough answers for any program here, of both kinds.
fn plenty(random: &mut Random) -> Vec<u8> {
    let answers = random.bytes(3000);
    answers.iter().map(|byte| byte & 1).collect()
}

type Call = fn(&[u8], &[u8], &mut [u8], &mut [u8]) -> Result<Closed, Refusal>;

/// The buffers after a call, with emissions of exactly the length needed.
fn called(
    call: Call,
    table: &[u8],
    answers: &[u8],
    state: &[u8],
) -> (Result<Closed, Refusal>, Vec<u8>, Vec<u8>) {
    let (mut state, mut emissions) = (state.to_vec(), vec![9; 256]);
    let answer = call(table, answers, &mut state, &mut emissions);
    (answer, state, emissions)
}

fn assert_refused(number: u32, call: Call, table: &[u8], state: &[u8]) {
    let refused = (Err(Refusal::whole(number)), state.to_vec(), vec![9; 256]);
    assert_eq!(called(call, table, &[], state), refused, "{table:?}");
}

/// For each pair of pauses, the lowest statement that has both is a parallel: else a sequence
/// or a present holds on both sides.
fn may_be_held_with(table: &[u8], links: &Links, held: &[usize], pause: usize) -> bool {
    held.iter().filter(|&&other| other != pause).all(|&other| {
        let meeting = links.path(pause).find(|&node| links.is_within(other, node));
        table[2 * meeting.expect("the program has both")] == 10
    })
}

#[derive(Debug, Default)]
struct Counts {
    programs: usize,
    no_pause: usize,
    past_the_nodes: usize,
    on_both_sides: usize,
    admitted: usize,
}

/// The bit of a pause is taken or not by the rule about sequences and presents, and any other
/// is refused.
#[test]
fn one_more_bit_at_every_position() {
    let random = &mut Random::new(SEED);
    let mut counts = Counts::default();
    for (table, held) in programs(random) {
        counts.programs += 1;
        let answers = plenty(random);
        let tree = table::read(&table).expect("an accepted table");
        let (links, pauses) = (Links::of(&table), pauses(&tree));
        for at in 0..STATE_NODES {
            let more = with_one_more(&held, at);
            let state = packed(&more);
            if !pauses.contains(&at) {
                assert_refused(12, resume, &table, &state);
                counts.no_pause += usize::from(at < tree.size());
                counts.past_the_nodes += usize::from(at >= tree.size());
            } else if !may_be_held_with(&table, &links, &held, at) {
                assert_refused(12, resume, &table, &state);
                counts.on_both_sides += 1;
            } else {
                let (answer, state, _) = called(resume, &table, &answers, &state);
                let account = account(&tree, Some(&more), &answers).expect("enough answers");
                assert_eq!(answer.map(|closed| closed.code), Ok(account.code));
                assert_eq!(state, packed(&account.held));
                counts.admitted += 1;
            }
        }
    }
    println!("{counts:?}");
    assert_eq!(counts.programs, OF_EACH_SIZE * SIZES.len());
    assert_eq!((counts.no_pause, counts.past_the_nodes), (8582, 49_920));
    assert_eq!((counts.on_both_sides, counts.admitted), (3396, 4662));
}

/// Whatever the rest of a stray byte is, and with all bits that are no pauses.
#[test]
fn more_than_one_stray_bit() {
    let random = &mut Random::new(SEED);
    for (table, held) in programs(random) {
        let tree = table::read(&table).expect("an accepted table");
        let mut others: Vec<usize> = (0..STATE_NODES).collect();
        let pauses = pauses(&tree);
        others.retain(|node| !pauses.contains(node));
        assert_refused(12, resume, &table, &packed(&others));
        assert_refused(12, resume, &table, &packed(&[&others[..], &held].concat()));
        assert_refused(12, resume, &table, &[255; STATE_BYTES]);
        assert_refused(12, resume, &table, &[0; STATE_BYTES]);
        let past = tree.size().div_ceil(8);
        for byte in past..STATE_BYTES {
            let mut state = packed(&held);
            state[byte] = random.between(1, 255) as u8;
            assert_refused(12, resume, &table, &state);
        }
    }
}

/// The sizes are those that are said, and the states hold something.
#[test]
fn the_programs_are_of_all_sizes() {
    let programs = programs(&mut Random::new(SEED));
    for (at, (table, held)) in programs.iter().enumerate() {
        assert_eq!(table.len() / 2, SIZES[at / OF_EACH_SIZE]);
        let mut state = packed(held);
        assert_eq!(held_nodes(&state), *held);
        let answers = [0; 3000];
        assert!(resume(table, &answers, &mut state, &mut [0; 256]).is_ok());
    }
}

/// A start gives the same from any old bytes: all 128 are written, and none past them.
#[test]
fn a_start_looks_at_no_old_bit() {
    let random = &mut Random::new(SEED);
    for (table, _) in programs(random) {
        let answers = plenty(random);
        let (answer, after, _) = called(start, &table, &answers, &[0; STATE_BYTES]);
        assert!(answer.is_ok());
        let tree = table::read(&table).expect("an accepted table");
        let account = account(&tree, None, &answers).expect("enough answers");
        assert_eq!(after, packed(&account.held));
        for old in [[255; STATE_BYTES].to_vec(), random.bytes(STATE_BYTES)] {
            for further in [0, 1, 72] {
                let rest = random.bytes(further);
                let lent = [&old[..], &rest].concat();
                let started = called(start, &table, &answers, &lent);
                assert_eq!(started.0, answer);
                assert_eq!(started.1, [&after[..], &rest].concat());
            }
        }
    }
}

/// However few nodes there are, 128 bytes are wanted.
#[test]
fn states_of_all_lengths() {
    for (table, held) in programs(&mut Random::new(SEED)) {
        let own = packed(&held);
        let lent = [&own[..], &[0xa5; 100]].concat();
        let calls: [Call; 2] = [start, resume];
        for call in calls {
            for length in [0, 1, 16, 64, 126, 127] {
                assert_refused(3, call, &table, &lent[..length]);
            }
            let (answer, after, _) = called(call, &table, &[0; 3000], &own);
            assert!(answer.is_ok());
            for length in [129, 130, 200, 228] {
                let longer = called(call, &table, &[0; 3000], &lent[..length]);
                assert_eq!(longer.0, answer);
                assert_eq!(longer.1, [&after, &lent[STATE_BYTES..length]].concat());
            }
        }
    }
}

/// 1 and 2 are told first, then 3, then all other refusals.
#[test]
fn a_short_state_is_refused_in_its_place() {
    let calls: [Call; 2] = [start, resume];
    for call in calls {
        for length in [0, 127] {
            let state = vec![255; length];
            assert_refused(1, call, &[2; 2050], &state);
            assert_refused(2, call, &[], &state);
            assert_refused(2, call, &[2, 0, 8], &state);
            for table in [&[12, 0][..], &[9, 0], &[2, 0, 2, 0], &[4, 0], &[1, 0, 8, 0]] {
                assert_refused(3, call, table, &state);
            }
        }
    }
    // 11 comes before 12, and 12 before 13.
    let bad = [255; STATE_BYTES];
    let answer = called(resume, &[1, 0, 8, 0], &[], &bad).0;
    assert_eq!(answer, Err(Refusal::at(11, 1)));
    let suspended = [2, 0, 7, 0];
    assert_refused(12, resume, &suspended, &bad);
    assert_refused(13, resume, &suspended, &packed(&[0]));
}

/// Where a pause ends, or is dropped.
#[test]
fn bits_of_pauses_that_are_let_go() {
    let after = |table: &[u8], held: &[usize]| {
        let (answer, state, _) = called(resume, table, &[0; 9], &packed(held));
        assert!(answer.is_ok());
        held_nodes(&state)
    };
    assert_eq!(after(&[2, 0], &[0]), []);
    // The second pause of a sequence follows the first.
    assert_eq!(after(&[2, 0, 2, 0, 9, 0], &[0]), [1]);
    // Pause 0 is held again by its loop, and the exit after pause 2 drops it.
    let looped = [2, 0, 8, 0, 2, 0, 4, 0, 9, 0, 10, 0, 11, 0];
    assert_eq!(after(&looped, &[0, 2]), []);
    // So it is beneath a trap that hands the exit on. Pause 8 stands beside all.
    let outer = [
        2, 0, 8, 0, 2, 0, 4, 1, 9, 0, 10, 0, 11, 0, 11, 0, 2, 0, 8, 0, 10, 0,
    ];
    assert_eq!(after(&outer, &[0, 2, 8]), [8]);
}

/// From all admitted states of pauses in parallel, in bytes that are full: all bits go.
#[test]
fn all_bits_go_at_the_end() {
    let table = [[2, 0].repeat(10), [10, 0].repeat(9)].concat();
    let tree = table::read(&table).expect("an accepted table");
    let states = all_admitted(&tree);
    assert_eq!(states.len(), 1023);
    for held in states {
        let (answer, state, _) = called(resume, &table, &[], &packed(&held));
        assert_eq!(answer.map(|closed| closed.code), Ok(0));
        assert_eq!(state, [0; STATE_BYTES]);
    }
}
