//! Held pauses as bits: where each pause has its bit, what lengths of a state are taken, which bits
//! are looked at and which are written, and states that are saved and lent again.

mod common;

use bavzhrono::{raw, resume, start, table_of};
use bavzhrono::{Closed, Completion, Refusal, State, MAX_NODES, SIGNALS, STATE_BYTES};
use common::*;

/// Its pauses, one of either await, are nodes 0 and 9; Request, Granted and PowerWarning are signals
/// 0, 1 and 2.
const GRANT: &str = "[await Request; emit Granted || await PowerWarning]";

/// Pause, then pause, then emit 3.
const PAUSES: &[u8] = &[2, 0, 2, 0, 9, 0, 3, 3, 9, 0];

/// 2,048 bytes: a loop around parallels of parallels, down to 512 pauses.
fn all_beside() -> Vec<u8> {
    full_table_with([2, 0], [10, 0])
}

/// As the last, but every other leaf is a nothing and the loop is a signal statement, so that it
/// ends.
fn half_beside() -> Vec<u8> {
    let mut table = all_beside();
    for pause in pauses_of(&table).into_iter().step_by(2) {
        table[2 * pause] = 1;
    }
    table[2 * MAX_NODES - 2] = 5;
    table
}

/// A state and emissions to lend, without a copy of more.
#[derive(Clone, Debug, PartialEq)]
struct Lent {
    state: State,
    emissions: [u8; SIGNALS],
}

impl Lent {
    fn with(state: State) -> Lent {
        let emissions = [FILL; SIGNALS];
        Lent { state, emissions }
    }

    fn start(&mut self, table: &[u8], answers: &[u8]) -> Result<Closed, Refusal> {
        start(table, answers, &mut self.state, &mut self.emissions)
    }

    fn resume(&mut self, table: &[u8], answers: &[u8]) -> Result<Closed, Refusal> {
        resume(table, answers, &mut self.state, &mut self.emissions)
    }
}

fn assert_not_admitted(table: &[u8], state: State) {
    let mut lent = Lent::with(state);
    assert_eq!(lent.resume(table, &[]), refused(12, 0), "{state}");
    assert_eq!(lent, Lent::with(state));
}

/// The bytes that are not 0 after a start, by hand.
#[test]
fn started_programs_hold_their_pauses_as_bits() {
    let text = |text: &str| table_of(text.as_bytes()).unwrap();
    let pause = [2, 0];
    let programs = [
        (pause.to_vec(), vec![(0, 0x01)]),
        (W1.to_vec(), vec![(0, 0x01)]),
        (W3.to_vec(), vec![(0, 0x80)]),
        (W7.to_vec(), vec![(0, 0x02)]),
        (LOCK.to_vec(), vec![(0, 0x05)]),
        (text("abort sustain A when S end"), vec![(0, 0x82)]),
        (text("[await A || await B]"), vec![(0, 0x81)]),
        (text(GRANT), vec![(0, 0x01), (1, 0x02)]),
        (around(pause, [5, 0], 255), vec![(0, 0x01)]),
        // A hundred times nothing, and then a pause, which is node 199.
        (
            [vec![1, 0], [1, 0, 9, 0].repeat(99), vec![2, 0, 9, 0]].concat(),
            vec![(24, 0x80)],
        ),
    ];
    for (table, held) in programs {
        let mut bytes = [0; STATE_BYTES];
        for (at, byte) in held {
            bytes[at] = byte;
        }
        let mut lent = Lent::with(State::from_bytes([0xff; STATE_BYTES]));
        let closed = lent.start(&table, &[]).unwrap();
        assert_eq!(closed.code, Completion::Paused);
        assert_eq!(*lent.state.as_bytes(), bytes);
    }
}

#[test]
fn five_hundred_and_twelve_pauses_are_held_at_once() {
    let table = all_beside();
    let mut lent = Lent::with(State::from_bytes([FILL; STATE_BYTES]));
    let pauses = pauses_of(&table);
    assert_eq!(pauses.len(), 512);
    let entries = MAX_NODES;
    assert_eq!(
        lent.start(&table, &[]),
        closed(Completion::Paused, 0, entries)
    );
    assert!(lent.state.held().eq(pauses.iter().copied()));
    // All end, and the loop starts its body once more.
    let entries = MAX_NODES + MAX_NODES - 1;
    assert_eq!(
        lent.resume(&table, &[]),
        closed(Completion::Paused, 0, entries)
    );
    assert_eq!(lent.state, holding(&pauses));
}

#[test]
fn five_hundred_and_twelve_pauses_are_held_in_turns_and_saved_each_time() {
    let table = full_table();
    let pauses = pauses_of(&table);
    assert_eq!(pauses.len(), 512);
    let mut lent = Lent::with(State::EMPTY);
    lent.start(&table, &[]).unwrap();
    // After the last the loop begins anew.
    for pause in pauses.iter().chain(&pauses[..3]) {
        assert_eq!(lent.state, holding(&[*pause]));
        let saved = lent.state.as_bytes().to_vec();
        lent = Lent::with(State::from_bytes(saved.try_into().unwrap()));
        let closed = lent.resume(&table, &[]).unwrap();
        assert_eq!(closed.code, Completion::Paused);
    }
}

type Function = fn(&[u8], &[u8], &mut [u8], &mut [u8], &mut [u64]) -> u32;

/// Runs a program without tests with a filled state of so many bytes, of which the first are as
/// given. Hands back what is returned, and the state and the figures after it. A refusal leaves the
/// emissions and the figures.
fn call(function: Function, table: &[u8], front: &[u8], length: usize) -> (u32, Vec<u8>, [u64; 3]) {
    let mut state = vec![FILL; length];
    let given = front.len().min(length);
    state[..given].copy_from_slice(&front[..given]);
    let mut emissions = [FILL; SIGNALS];
    let mut answer = [FILL_SET.0; 3];
    let returned = function(table, &[], &mut state, &mut emissions, &mut answer);
    if returned != 0 {
        assert_eq!((emissions, answer), ([FILL; SIGNALS], [FILL_SET.0; 3]));
    }
    (returned, state, answer)
}

#[test]
fn a_state_under_128_bytes_is_refused_by_3() {
    let functions: [Function; 2] = [raw::start, raw::resume];
    for function in functions {
        // 4 bytes would be a byte for each node of W1.
        for length in [0, 1, 4, 64, 127] {
            let held = *holding(&[0]).as_bytes();
            for table in [W1, &full_table()] {
                let (returned, state, _) = call(function, table, &held, length);
                assert_eq!(returned, 3);
                assert_eq!(state, held[..length]);
            }
            for (table, number) in WITH_SHORT_BUFFERS {
                let (returned, state, _) = call(function, table, &[], length);
                assert_eq!(returned, number);
                assert_eq!(state, vec![FILL; length]);
            }
        }
    }
}

/// A start writes over the first 128 bytes, which it does not look at. What lies past them stays.
#[test]
fn of_a_longer_state_the_first_128_bytes_are_used() {
    for length in [128, 129, 136, 200, 1024, 2048] {
        let filled = |held: &[usize]| {
            let past = vec![FILL; length - STATE_BYTES];
            [&holding(held).as_bytes()[..], &past].concat()
        };
        let first = filled(&[0]);
        let started = call(raw::start, W1, &[], length);
        assert_eq!(started, (0, first.clone(), [1, 0, 3]));
        let resumed = call(raw::resume, W1, &first, length);
        assert_eq!(resumed, (0, first.clone(), [1, 0, 6]));

        // Loop, nine sequences and the first pause; and then the second pause, too.
        let table = full_table();
        let started = call(raw::start, &table, &[], length);
        assert_eq!(started, (0, first.clone(), [1, 0, 11]));
        let resumed = call(raw::resume, &table, &first, length);
        assert_eq!(resumed, (0, filled(&[1]), [1, 0, 12]));
    }
}

#[test]
fn a_start_looks_at_no_old_bit() {
    let grant = table_of(GRANT.as_bytes()).unwrap();
    for (table, held) in [
        (W1, vec![0]),
        (&grant, vec![0, 9]),
        (&half_beside(), pauses_of(&half_beside())),
        (&[3, 255], vec![]),
    ] {
        let mut fresh = Lent::with(State::EMPTY);
        let first = fresh.start(table, &[]);
        assert_eq!(fresh.state, holding(&held));
        let single = (0..MAX_NODES).map(|bit| holding(&[bit]));
        let whole = [0xff, FILL, 0x01].map(|byte| State::from_bytes([byte; STATE_BYTES]));
        for old in single.chain(whole) {
            let mut lent = Lent::with(old);
            assert_eq!(lent.start(table, &[]), first);
            assert_eq!(lent, fresh);
        }
    }
}

/// With one more bit than the program holds, or with that bit alone, a state is not admitted.
#[test]
fn a_stray_bit_at_any_place_is_refused_by_12() {
    let suspended = [2, 0, 7, 1];
    let grant = table_of(GRANT.as_bytes()).unwrap();
    let aborted = table_of(b"abort sustain A when S end").unwrap();
    for table in [
        &[2, 0][..],
        &suspended,
        W1,
        W7,
        LOCK,
        &grant,
        &aborted,
        &half_beside(),
    ] {
        let pauses = pauses_of(table);
        let mut lent = Lent::with(State::EMPTY);
        lent.start(table, &[]).unwrap();
        assert!(lent.state.held().eq(pauses.iter().copied()));
        for stray in (0..MAX_NODES).filter(|node| !pauses.contains(node)) {
            let mut state = lent.state;
            state.extend([stray]);
            assert_not_admitted(table, state);
            assert_not_admitted(table, holding(&[stray]));
        }
        assert_not_admitted(table, State::EMPTY);
        assert_not_admitted(table, State::from_bytes([0xff; STATE_BYTES]));
    }
}

#[test]
fn both_children_of_a_sequence_or_present_are_not_held() {
    let (sequences, presents) = (full_table(), full_table_with([2, 0], [6, 0]));
    for table in [sequences, presents] {
        let pauses = pauses_of(&table);
        for at in 1..pauses.len() {
            assert_not_admitted(&table, holding(&[pauses[0], pauses[at]]));
            assert_not_admitted(&table, holding(&[pauses[at - 1], pauses[at]]));
        }
    }
}

#[test]
fn after_code_0_all_128_bytes_are_0() {
    let ended = closed(Completion::Terminated, 0, 1);
    for table in [[1, 0], [3, 255]] {
        let mut lent = Lent::with(State::from_bytes([0xff; STATE_BYTES]));
        assert_eq!(lent.start(&table, &[]), ended);
        assert_eq!(*lent.state.as_bytes(), [0; STATE_BYTES]);
    }

    let table = half_beside();
    let mut lent = Lent::with(State::from_bytes([0xff; STATE_BYTES]));
    lent.start(&table, &[]).unwrap();
    assert_eq!(lent.state.held().len(), 256);
    let closed = lent.resume(&table, &[]).unwrap();
    assert_eq!(closed.code, Completion::Terminated);
    assert_eq!(*lent.state.as_bytes(), [0; STATE_BYTES]);
    // The program has ended: there is nothing to resume.
    assert_not_admitted(&table, lent.state);
}

#[test]
fn a_refusal_by_13_leaves_the_state() {
    let suspended = [2, 0, 7, 1];
    let mut lent = Lent::with(holding(&[0]));
    assert_eq!(lent.resume(&suspended, &[]), refused(13, 0));
    assert_eq!(lent, Lent::with(holding(&[0])));
    // Of two answers that are needed one is there.
    let grant = table_of(GRANT.as_bytes()).unwrap();
    let mut lent = Lent::with(holding(&[0, 9]));
    assert_eq!(lent.resume(&grant, &[1]), refused(13, 0));
    assert_eq!(lent, Lent::with(holding(&[0, 9])));
    let mut lent = Lent::with(State::from_bytes([0xff; STATE_BYTES]));
    let present = [2, 0, 2, 0, 6, 1];
    assert_eq!(lent.start(&present, &[]), refused(13, 0));
    assert_eq!(lent, Lent::with(State::from_bytes([0xff; STATE_BYTES])));
}

/// Instant after instant, each from the bytes that the last one left in store.
#[test]
fn saved_on_a_power_warning_and_resumed() {
    let grant = table_of(GRANT.as_bytes()).unwrap();
    let mut emissions = [FILL; SIGNALS];
    let mut state = State::EMPTY;
    start(&grant, &[], &mut state, &mut emissions).unwrap();
    let mut stored = state.as_bytes().to_vec();
    // The answers, and then the entries, the nodes that are held and whether it is granted.
    let instants: [(&[u8], usize, &[usize], u8); 4] = [
        (&[0, 0], 18, &[0, 9], 0),
        (&[1, 0], 17, &[9], 1),
        (&[0], 9, &[9], 0),
        (&[1], 7, &[], 0),
    ];
    for (answers, entries, held, granted) in instants {
        let mut state = State::from_bytes(stored.try_into().unwrap());
        let code = match held {
            [] => Completion::Terminated,
            _ => Completion::Paused,
        };
        let instant = resume(&grant, answers, &mut state, &mut emissions);
        assert_eq!(instant, closed(code, answers.len(), entries));
        assert_eq!(state, holding(held));
        assert_eq!(emissions[1], granted);
        stored = state.as_bytes().to_vec();
    }
    assert_eq!(stored, [0; STATE_BYTES]);
}

#[test]
fn a_sequence_moves_its_bit() {
    let mut lent = Lent::with(State::EMPTY);
    assert_eq!(lent.start(PAUSES, &[]), closed(Completion::Paused, 0, 3));
    assert_eq!(lent.state, holding(&[0]));
    assert_eq!(lent.resume(PAUSES, &[]), closed(Completion::Paused, 0, 4));
    assert_eq!(lent.state, holding(&[1]));
    assert_eq!(
        lent.resume(PAUSES, &[]),
        closed(Completion::Terminated, 0, 4)
    );
    assert_eq!(lent.state, State::EMPTY);
    assert_eq!(lent.emissions[3], 1);
}

/// Whatever the program and the answers: only pauses are held, none after code 0 and some after code
/// 1, and what an instant leaves is admitted by the next, also where more bytes are lent.
#[test]
fn drawn_programs() {
    let mut drawn = Drawn(11);
    let (mut instants, mut long) = (0, 0);
    for number in 0..1500 {
        let nodes = if number % 10 == 0 { 900 } else { 30 };
        let table = drawn.statement(nodes, 0);
        let mut lent = Lent::with(State::from_bytes([0xff; STATE_BYTES]));
        // Enough for any instant of these.
        let mut answers = || -> Vec<u8> { (0..8000).map(|_| drawn.below(2) as u8).collect() };
        let Ok(mut closed) = lent.start(&table, &answers()) else {
            continue;
        };
        let pauses = pauses_of(&table);
        for _ in 0..8 {
            let is_paused = closed.code == Completion::Paused;
            assert_eq!(is_paused, !lent.state.is_empty());
            assert!(lent.state.held().all(|node| pauses.contains(&node)));
            if !is_paused {
                break;
            }
            let answers = answers();
            let longer = [lent.state.as_bytes().to_vec(), vec![0xff; 72]].concat();
            closed = lent.resume(&table, &answers).unwrap();
            assert_eq!(resumed_at_length(&table, &answers, longer), lent.state);
            instants += 1;
            long += usize::from(lent.state.held().any(|node| node >= 512));
        }
    }
    assert!(instants > 1000 && long > 100, "{instants} {long}");
}

/// The state that a resumption leaves in the first bytes; the others stay.
fn resumed_at_length(table: &[u8], answers: &[u8], mut state: Vec<u8>) -> State {
    let past = state[STATE_BYTES..].to_vec();
    let emissions = &mut [0; SIGNALS];
    let returned = raw::resume(table, answers, &mut state, emissions, &mut [0; 3]);
    assert_eq!(returned, 0);
    assert_eq!(state[STATE_BYTES..], past);
    State::from_bytes(*state.first_chunk().unwrap())
}
