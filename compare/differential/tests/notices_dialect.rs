//! Wrong readers of the dialect, and wrong places of refusals, that a comparison must
//! notice.

use compare::support::calls::{Calls, COMPARE, FIGURES};
use compare::support::random::Random;
use compare::support::wrong_readers::{
    at_the_exit, bounded, foreign_later, suspending, uncounted, without_last_blanks, Reader,
};
use compare::support::SEED;
use compare::table::MOST_BYTES;
use differential::groups::texts;
use differential::tally::{Difference, Tally};
use differential::trials::{Placing, Reading, Trial};

const READERS: [Reader; 6] = [
    uncounted,
    suspending,
    foreign_later,
    bounded,
    without_last_blanks,
    at_the_exit,
];

/// The calls of one of the readers, in the archive's form.
const fn calls_of<const AT: usize>() -> Calls {
    Calls {
        read: |text, table, answer| read_by(READERS[AT], text, table, answer),
        read_place: |text, answer| place_by(READERS[AT], text, answer),
        ..COMPARE
    }
}

const UNCOUNTED: Calls = calls_of::<0>();
const SUSPENDING: Calls = calls_of::<1>();
const FOREIGN_LATER: Calls = calls_of::<2>();
const BOUNDED: Calls = calls_of::<3>();
const WITHOUT_LAST_BLANKS: Calls = calls_of::<4>();
const AT_THE_EXIT: Calls = calls_of::<5>();

fn read_by(reader: Reader, text: &[u8], table: &mut [u8], answer: &mut [u64]) -> u32 {
    if answer.len() < FIGURES || table.len() < MOST_BYTES {
        return 3;
    }
    match reader(text) {
        Ok((bytes, signals)) => {
            table[..bytes.len()].copy_from_slice(&bytes);
            answer[..FIGURES].copy_from_slice(&[bytes.len() as u64 / 2, signals as u64, 0]);
            0
        }
        Err(placed) => placed.refusal.number + 256 * placed.refusal.node as u32,
    }
}

fn place_by(reader: Reader, text: &[u8], answer: &mut [u64]) -> u32 {
    if answer.len() < FIGURES {
        return 3;
    }
    let figures = reader(text).map_or_else(
        |placed| {
            let (number, node) = (placed.refusal.number, placed.refusal.node);
            [u64::from(number), node as u64, placed.place as u64]
        },
        |_| [0; FIGURES],
    );
    answer[..FIGURES].copy_from_slice(&figures);
    0
}

fn is_noticed(wrong: Calls, trial: &impl Trial) -> bool {
    assert!(Tally::new(COMPARE).compare(trial).is_ok());
    Tally::new(wrong).compare(trial).is_err()
}

type Run = fn(&mut Tally, &mut Random) -> Result<(), Difference>;

/// By the group of the edges, and by these.
fn assert_noticed_by(groups: &[Run], wrong: Calls) {
    let run = |group: Run, calls| group(&mut Tally::new(calls), &mut Random::new(SEED));
    assert!(run(texts::edges, COMPARE).is_ok());
    assert!(run(texts::edges, wrong).is_err());
    assert!(groups.iter().all(|group| run(*group, wrong).is_err()));
}

#[test]
fn a_reader_of_aborts_whose_exits_are_not_counted() {
    let text = b"trap T in abort exit T when S end end";
    assert!(is_noticed(UNCOUNTED, &Reading::new(text)));
    assert_noticed_by(&[texts::printed_in_dialect], UNCOUNTED);
}

#[test]
fn a_reader_that_suspends_in_a_weak_abort() {
    let text = b"weak abort pause when S end";
    assert!(is_noticed(SUSPENDING, &Reading::new(text)));
    assert_noticed_by(&[texts::printed_in_dialect], SUSPENDING);
}

#[test]
fn a_reader_that_tells_20_for_what_comes_later() {
    let text = b"[pause | every";
    assert!(is_noticed(FOREIGN_LATER, &Reading::new(text)));
    assert!(is_noticed(FOREIGN_LATER, &Placing::new(text)));
    assert_noticed_by(&[texts::spoilt_tokens_in_dialect], FOREIGN_LATER);
}

#[test]
fn a_reader_that_tells_14_beyond_a_bound_of_nesting() {
    let text = ["[".repeat(2731).as_bytes(), b"case"].concat();
    assert!(is_noticed(BOUNDED, &Reading::new(&text)));
    assert!(is_noticed(BOUNDED, &Placing::new(&text)));
    assert_noticed_by(&[], BOUNDED);
}

/// What is read, and the number of a refusal, do not tell.
#[test]
fn a_place_before_the_last_blanks() {
    let text = b"pause;\n";
    assert!(!is_noticed(WITHOUT_LAST_BLANKS, &Reading::new(text)));
    assert!(is_noticed(WITHOUT_LAST_BLANKS, &Placing::new(text)));
    assert_noticed_by(&[texts::spoilt_bytes_in_dialect], WITHOUT_LAST_BLANKS);
}

#[test]
fn a_place_at_the_exit() {
    let text = b"pause; exit T";
    assert!(!is_noticed(AT_THE_EXIT, &Reading::new(text)));
    assert!(is_noticed(AT_THE_EXIT, &Placing::new(text)));
    assert_noticed_by(&[texts::printed_in_dialect], AT_THE_EXIT);
}
