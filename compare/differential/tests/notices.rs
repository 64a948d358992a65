//! Wrong implementations that a comparison must notice.

use compare::instant::SIGNALS;
use compare::support::blocks::{stored, PROGRAM};
use compare::support::calls::{Calls, COMPARE};
use compare::support::cases::Call;
use compare::support::edges::{exits_through_all_traps, W1, W2, W8};
use compare::support::random::Random;
use compare::support::tried::pause_by;
use compare::support::SEED;
use compare::{packed, sets, table, Sets, STATE_BYTES};
use differential::groups::{refusals, texts};
use differential::tally::{Difference, Tally};
use differential::trials::{
    Analysis, Asking, Fetching, Finding, Instant, Narrowing, Placing, Planning, Reading, Rendering,
    Taking, Trial, Trying,
};

fn assert_noticed(wrong: Calls, trial: &impl Trial) {
    assert!(Tally::new(COMPARE).compare(trial).is_ok());
    assert!(Tally::new(wrong).compare(trial).is_err());
}

/// Old bytes of a state. To resume from they are not admitted.
const OLD: [u8; STATE_BYTES] = [9; STATE_BYTES];

/// A file of one block, part 0 of edition 1.
fn stored_w1() -> Vec<u8> {
    stored(PROGRAM, 1, W1).concat()
}

/// With no signal tied.
fn narrowing(table: &[u8]) -> Narrowing {
    Narrowing::new(table, &[0; SIGNALS])
}

type Run = fn(&mut Tally, &mut Random) -> Result<(), Difference>;

fn assert_noticed_by(group: Run, wrong: Calls) {
    let run = |calls| group(&mut Tally::new(calls), &mut Random::new(SEED));
    assert!(run(COMPARE).is_ok());
    assert!(run(wrong).is_err());
}

#[test]
fn a_changed_figure() {
    let wrong = Calls {
        resume: |table, answers, state, emissions, answer| {
            let returned = (COMPARE.resume)(table, answers, state, emissions, answer);
            answer[2] += 1;
            returned
        },
        ..COMPARE
    };
    assert_noticed(wrong, &Instant::new(Call::Resume, W1, &[], &packed(&[0])));
}

#[test]
fn another_number() {
    let wrong = Calls {
        start: |_, _, _, _, _| 12,
        ..COMPARE
    };
    let present = [2, 0, 2, 0, 6, 0];
    assert_noticed(wrong, &Instant::new(Call::Start, &present, &[], &OLD));
}

#[test]
fn a_mark_written_past_the_nodes() {
    let wrong = Calls {
        analyse: |table, start_sets, any_sets, contexts, marks, answer| {
            let returned = (COMPARE.analyse)(table, start_sets, any_sets, contexts, marks, answer);
            marks[table.len() / 2] = 0;
            returned
        },
        ..COMPARE
    };
    assert_noticed(wrong, &Analysis::with_lengths(W1, [4, 4, 4, 5]));
}

/// The context of node 0 is all 64 codes, which is no sign of an unwritten cell.
#[test]
fn a_context_of_all_codes_that_is_left_out() {
    let wrong = Calls {
        analyse: |table, start_sets, any_sets, contexts, marks, answer| {
            let before = contexts[0];
            let returned = (COMPARE.analyse)(table, start_sets, any_sets, contexts, marks, answer);
            contexts[0] = before;
            returned
        },
        ..COMPARE
    };
    for table in &exits_through_all_traps()[2..] {
        let sets = Sets::of(table).expect("an accepted table");
        assert_eq!(sets.contexts[0], u64::MAX);
        assert_noticed(wrong, &Analysis::new(table));
    }
}

#[test]
fn start_sets_written_before_check_11() {
    let wrong = Calls {
        analyse: |table, start_sets, any_sets, contexts, marks, answer| {
            let returned = (COMPARE.analyse)(table, start_sets, any_sets, contexts, marks, answer);
            if returned % 256 == 11 {
                let tree = table::read(table).expect("checks 1 to 10 are passed");
                sets::fill_start_sets(&tree, start_sets);
            }
            returned
        },
        ..COMPARE
    };
    assert_noticed(wrong, &Analysis::new(W2));
    assert_noticed(wrong, &Analysis::with_lengths(W8, [9; 4]));
    assert_noticed_by(refusals::check_11, wrong);
}

/// A wrong way to answer any of the calls.
trait Telling {
    fn tell(answer: &mut [u64], call: impl FnOnce(&mut [u64]) -> u32) -> u32;
}

fn told_by<T: Telling>() -> Calls {
    Calls {
        analyse: |table, start_sets, any_sets, contexts, marks, answer| {
            T::tell(answer, |answer| {
                (COMPARE.analyse)(table, start_sets, any_sets, contexts, marks, answer)
            })
        },
        start: |table, answers, state, emissions, answer| {
            T::tell(answer, |answer| {
                (COMPARE.start)(table, answers, state, emissions, answer)
            })
        },
        resume: |table, answers, state, emissions, answer| {
            T::tell(answer, |answer| {
                (COMPARE.resume)(table, answers, state, emissions, answer)
            })
        },
        render: |table, text, answer| {
            T::tell(answer, |answer| (COMPARE.render)(table, text, answer))
        },
        read: |text, table, answer| T::tell(answer, |answer| (COMPARE.read)(text, table, answer)),
        read_place: |text, answer| T::tell(answer, |answer| (COMPARE.read_place)(text, answer)),
        tick: |table, answers, answer| {
            T::tell(answer, |answer| (COMPARE.tick)(table, answers, answer))
        },
        fetch: |file, program, table, answer| {
            T::tell(answer, |answer| {
                (COMPARE.fetch)(file, program, table, answer)
            })
        },
        part: |file, program, edition, part, answer| {
            T::tell(answer, |answer| {
                (COMPARE.part)(file, program, edition, part, answer)
            })
        },
        narrow: |table, ties, sets, answer| {
            T::tell(answer, |answer| (COMPARE.narrow)(table, ties, sets, answer))
        },
        first_tick: |table, answer| T::tell(answer, |answer| (COMPARE.first_tick)(table, answer)),
        first_tick_answers: |table, answers, answer| {
            T::tell(answer, |answer| {
                (COMPARE.first_tick_answers)(table, answers, answer)
            })
        },
        ask: |table, node, code, answer| {
            T::tell(answer, |answer| (COMPARE.ask)(table, node, code, answer))
        },
        trial: |table, node, answer| T::tell(answer, |answer| (COMPARE.trial)(table, node, answer)),
    }
}

#[test]
fn a_fourth_figure() {
    struct Fourth;
    impl Telling for Fourth {
        fn tell(answer: &mut [u64], call: impl FnOnce(&mut [u64]) -> u32) -> u32 {
            let returned = call(answer);
            answer[3] = 0;
            returned
        }
    }
    let wrong = told_by::<Fourth>();
    assert_noticed(wrong, &Analysis::new(W1).with_answer(4));
    assert_noticed(wrong, &Rendering::new(W2, 13).with_answer(4));
    assert_noticed(wrong, &Reading::new(b"pause").with_answer(4));
    assert_noticed(wrong, &Placing::new(b"pause").with_answer(4));
    assert_noticed(wrong, &Finding::new(W8).with_answer(4));
    assert_noticed(wrong, &narrowing(W1).with_answer(4));
    assert_noticed(wrong, &Planning::new(W1).with_answer(4));
    assert_noticed(wrong, &Finding::new(W1).of_most_entries().with_answer(4));
    assert_noticed(wrong, &Asking::new(W1, 3, 1).with_answer(4));
    assert_noticed(wrong, &Trying::new(W1, 3).with_answer(4));
    let fetching = Fetching::new(&stored_w1(), PROGRAM);
    assert_noticed(wrong, &fetching.with_answer(4));
    let taking = Taking::new(&stored_w1(), (PROGRAM, 1), 0);
    assert_noticed(wrong, &taking.with_answer(4));
}

#[test]
fn an_answer_written_on_a_refusal() {
    struct Written;
    impl Telling for Written {
        fn tell(answer: &mut [u64], call: impl FnOnce(&mut [u64]) -> u32) -> u32 {
            let returned = call(answer);
            if returned != 0 && answer.len() >= 3 {
                answer[..3].copy_from_slice(&[u64::from(returned / 256), 0, 0]);
            }
            returned
        }
    }
    let wrong = told_by::<Written>();
    assert_noticed(wrong, &Analysis::new(W2));
    assert_noticed(wrong, &Analysis::with_lengths(W1, [4, 4, 4, 3]));
    assert_noticed(wrong, &Instant::new(Call::Start, W2, &[], &OLD));
    assert_noticed(wrong, &Instant::new(Call::Resume, W1, &[], &OLD));
    assert_noticed(wrong, &Rendering::new(W2, 12));
    assert_noticed(wrong, &Reading::new(b"exit T"));
    assert_noticed(wrong, &Finding::with_answers(W8, 511));
    assert_noticed(wrong, &Fetching::new(&[], PROGRAM));
    assert_noticed(wrong, &narrowing(W2));
    assert_noticed(wrong, &Planning::new(W2));
    assert_noticed(wrong, &Finding::new(W2).of_most_entries());
    assert_noticed(wrong, &Asking::new(W2, 0, 0));
    assert_noticed(wrong, &Asking::new(W1, 4, 1));
    assert_noticed(wrong, &Trying::new(W2, 0));
    assert_noticed(wrong, &Trying::new(W1, 4));
    assert_noticed(wrong, &Trying::new(&pause_by(&[0; 13]), 26));
    assert_noticed_by(refusals::edges, wrong);
}

#[test]
fn a_node_that_is_lost() {
    struct Lost;
    impl Telling for Lost {
        fn tell(answer: &mut [u64], call: impl FnOnce(&mut [u64]) -> u32) -> u32 {
            call(answer) % 256
        }
    }
    let wrong = told_by::<Lost>();
    assert_noticed(wrong, &Analysis::new(W8));
    assert_noticed(wrong, &Instant::new(Call::Start, W8, &[], &OLD));
    assert_noticed(wrong, &Instant::new(Call::Resume, W8, &[], &OLD));
    assert_noticed(wrong, &narrowing(W8));
    assert_noticed(wrong, &Planning::new(W8));
    assert_noticed(wrong, &Finding::new(W8).of_most_entries());
    assert_noticed(wrong, &Asking::new(W8, 0, 0));
    assert_noticed(wrong, &Trying::new(W8, 0));
    assert_noticed_by(refusals::edges, wrong);
    assert_noticed_by(texts::edges, wrong);
}

#[test]
fn number_and_node_exchanged() {
    struct Exchanged;
    impl Telling for Exchanged {
        fn tell(answer: &mut [u64], call: impl FnOnce(&mut [u64]) -> u32) -> u32 {
            let returned = call(answer);
            returned / 256 + 256 * (returned % 256)
        }
    }
    let wrong = told_by::<Exchanged>();
    assert_noticed(wrong, &Analysis::new(&[]));
    assert_noticed(wrong, &Rendering::new(W2, 12));
    assert_noticed_by(refusals::edges, wrong);
}

#[test]
fn a_short_answer_refused_before_1_and_2() {
    struct First;
    impl Telling for First {
        fn tell(answer: &mut [u64], call: impl FnOnce(&mut [u64]) -> u32) -> u32 {
            if answer.len() < 3 {
                return 3;
            }
            call(answer)
        }
    }
    let wrong = told_by::<First>();
    assert_noticed(wrong, &Analysis::new(&[2; 2050]).with_answer(0));
    assert_noticed(wrong, &Analysis::new(&[]).with_answer(2));
    assert_noticed(wrong, &Finding::new(&[]).with_answer(2));
    assert_noticed(wrong, &narrowing(&[]).with_answer(2));
    assert_noticed(wrong, &Planning::new(&[]).with_answer(2));
    assert_noticed(wrong, &Finding::new(&[]).of_most_entries().with_answer(2));
    assert_noticed(wrong, &Asking::new(&[], 0, 0).with_answer(2));
    assert_noticed(wrong, &Trying::new(&[], 0).with_answer(2));
    for call in [Call::Start, Call::Resume] {
        assert_noticed(
            wrong,
            &Instant::new(call, &[2; 2050], &[], &[]).with_answer(2),
        );
        assert_noticed(
            wrong,
            &Instant::new(call, &[2, 0, 8], &[], &[]).with_answer(1),
        );
    }
    assert_noticed_by(refusals::edges, wrong);
}

#[test]
fn a_short_answer_refused_after_all_other_checks() {
    struct Last;
    impl Telling for Last {
        fn tell(answer: &mut [u64], call: impl FnOnce(&mut [u64]) -> u32) -> u32 {
            if answer.len() >= 3 {
                return call(answer);
            }
            match call(&mut [0; 3]) {
                0 => 3,
                refused => refused,
            }
        }
    }
    let wrong = told_by::<Last>();
    assert_noticed(wrong, &Analysis::new(W2).with_answer(2));
    assert_noticed(
        wrong,
        &Instant::new(Call::Resume, W1, &[], &OLD).with_answer(2),
    );
    assert_noticed(wrong, &Reading::new(b"end").with_answer(2));
    assert_noticed(wrong, &Finding::new(&[12, 0]).with_answer(2));
    assert_noticed(wrong, &narrowing(W2).with_answer(2));
    assert_noticed(wrong, &Planning::new(W2).with_answer(2));
    assert_noticed(wrong, &Finding::new(W2).of_most_entries().with_answer(2));
    assert_noticed(wrong, &Asking::new(W2, 0, 0).with_answer(2));
    assert_noticed(wrong, &Asking::new(W1, 4, 0).with_answer(2));
    assert_noticed(wrong, &Trying::new(W2, 0).with_answer(2));
    assert_noticed(wrong, &Trying::new(W1, 4).with_answer(2));
    assert_noticed(wrong, &Fetching::new(&[], PROGRAM).with_answer(2));
    assert_noticed_by(refusals::edges, wrong);
}

#[test]
fn a_short_answer_that_is_accepted() {
    struct Accepted;
    impl Telling for Accepted {
        fn tell(answer: &mut [u64], call: impl FnOnce(&mut [u64]) -> u32) -> u32 {
            if answer.len() >= 3 {
                return call(answer);
            }
            call(&mut [0; 3])
        }
    }
    let wrong = told_by::<Accepted>();
    assert_noticed(wrong, &Analysis::new(W1).with_answer(2));
    assert_noticed(
        wrong,
        &Instant::new(Call::Start, W1, &[], &OLD).with_answer(0),
    );
    assert_noticed(wrong, &Rendering::new(W2, 13).with_answer(1));
    assert_noticed(wrong, &Reading::new(b"pause").with_answer(2));
    assert_noticed(wrong, &Placing::new(b"exit T").with_answer(2));
    assert_noticed(wrong, &Finding::new(W8).with_answer(2));
    assert_noticed(wrong, &narrowing(W1).with_answer(2));
    assert_noticed(wrong, &Planning::new(W1).with_answer(2));
    assert_noticed(wrong, &Finding::new(W1).of_most_entries().with_answer(2));
    assert_noticed(wrong, &Asking::new(W1, 3, 1).with_answer(2));
    assert_noticed(wrong, &Trying::new(W1, 3).with_answer(2));
    let fetching = Fetching::new(&stored_w1(), PROGRAM);
    assert_noticed(wrong, &fetching.with_answer(2));
    let taking = Taking::new(&stored_w1(), (PROGRAM, 1), 0);
    assert_noticed(wrong, &taking.with_answer(2));
    assert_noticed_by(refusals::edges, wrong);
}
