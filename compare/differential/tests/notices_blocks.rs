//! Readers that see blocks wrongly, which a comparison must notice. They are made of the
//! right one: the file is changed before it.

use compare::support::blocks::{
    sealed, stored, with_byte, with_checks, with_used, Bytes, Head, CHECKS_AT, PROGRAM,
};
use compare::support::calls::{Calls, COMPARE};
use compare::support::random::Random;
use compare::support::wrong_blocks as wrong;
use compare::support::SEED;
use differential::groups::blocks;
use differential::tally::Tally;
use differential::trials::{Fetching, Taking, Trial};

/// On one trial, and by the group of the edges.
fn assert_noticed(wrong: Calls, trial: &impl Trial) {
    assert!(Tally::new(COMPARE).compare(trial).is_ok());
    assert!(Tally::new(wrong).compare(trial).is_err());
    assert!(blocks::edges(&mut Tally::new(wrong), &mut Random::new(SEED)).is_err());
}

#[test]
fn the_right_reader() {
    assert!(blocks::edges(&mut Tally::new(COMPARE), &mut Random::new(SEED)).is_ok());
}

/// A wrong way to see a file.
trait Seeing {
    fn see(file: &[u8]) -> Vec<u8>;
}

/// The calls of a reader that sees each file so.
fn seeing<S: Seeing>() -> Calls {
    Calls {
        fetch: |file, program, table, answer| {
            (COMPARE.fetch)(&S::see(file), program, table, answer)
        },
        part: |file, program, edition, part, answer| {
            (COMPARE.part)(&S::see(file), program, edition, part, answer)
        },
        ..COMPARE
    }
}

/// Both calls by a reader that sees files so must be noticed, on this file.
fn assert_sight_noticed<S: Seeing>(blocks: &[Bytes]) {
    let file = blocks.concat();
    assert_noticed(seeing::<S>(), &fetching(blocks));
    let taking = Taking::new(&file, (PROGRAM, 1), 0);
    assert!(Tally::new(seeing::<S>()).compare(&taking).is_err());
}

fn fetching(blocks: &[Bytes]) -> Fetching {
    Fetching::new(&blocks.concat(), PROGRAM)
}

/// A block of edition 1.
fn block(part: u8, parts: u8, content: &[u8]) -> Bytes {
    let head = Head {
        program: PROGRAM,
        edition: 1,
        part,
        parts,
    };
    head.block(content)
}

fn edition(edition: u16, length: usize) -> Vec<Bytes> {
    stored(PROGRAM, edition, &vec![edition as u8; length])
}

const FULL: &[u8] = &[7; 502];

#[test]
fn the_earlier_of_two_good_blocks_counts() {
    struct Wrong;
    impl Seeing for Wrong {
        fn see(file: &[u8]) -> Vec<u8> {
            wrong::earlier_counts(file)
        }
    }
    assert_sight_noticed::<Wrong>(&[block(0, 1, b"a"), block(0, 1, b"b")]);
}

#[test]
fn a_bad_later_block_hides_the_good_one() {
    struct Wrong;
    impl Seeing for Wrong {
        fn see(file: &[u8]) -> Vec<u8> {
            wrong::bad_ones_hide(file)
        }
    }
    let good = block(0, 1, b"a");
    assert_sight_noticed::<Wrong>(&[good, with_byte(good, 8, b'b')]);
}

#[test]
fn sums_modulo_256() {
    struct Wrong;
    impl Seeing for Wrong {
        fn see(file: &[u8]) -> Vec<u8> {
            wrong::modulo_256(file)
        }
    }
    assert_sight_noticed::<Wrong>(&[block(0, 1, FULL)]);
}

#[test]
fn check_byte_255_for_0() {
    struct Wrong;
    impl Seeing for Wrong {
        fn see(file: &[u8]) -> Vec<u8> {
            wrong::stored_255_is_0(file)
        }
    }
    let zeros = with_checks(block(0, 1, b"ab"), [0, 0]);
    for at in [CHECKS_AT, CHECKS_AT + 1] {
        assert_sight_noticed::<Wrong>(&[with_byte(zeros, at, 255)]);
    }
}

#[test]
fn the_first_check_byte_alone() {
    struct Wrong;
    impl Seeing for Wrong {
        fn see(file: &[u8]) -> Vec<u8> {
            wrong::one_check_byte(file, 0)
        }
    }
    let mut exchanged = block(0, 1, b"ab");
    exchanged.swap(8, 9);
    assert_sight_noticed::<Wrong>(&[exchanged]);
}

#[test]
fn the_second_check_byte_alone() {
    struct Wrong;
    impl Seeing for Wrong {
        fn see(file: &[u8]) -> Vec<u8> {
            wrong::one_check_byte(file, 1)
        }
    }
    // Byte 255 counts 255 times in the second sum.
    assert_sight_noticed::<Wrong>(&[with_byte(block(0, 1, FULL), 255, 8)]);
}

#[test]
fn filler_that_is_not_looked_at() {
    struct Wrong;
    impl Seeing for Wrong {
        fn see(file: &[u8]) -> Vec<u8> {
            wrong::any_filler(file)
        }
    }
    assert_sight_noticed::<Wrong>(&[with_used(block(0, 1, FULL), 501)]);
    assert_sight_noticed::<Wrong>(&[sealed(with_byte(block(0, 1, b"a"), 509, 1))]);
}

#[test]
fn an_edition_without_its_last_part() {
    struct Wrong;
    impl Seeing for Wrong {
        fn see(file: &[u8]) -> Vec<u8> {
            wrong::last_may_be_missing(file)
        }
    }
    assert_noticed(seeing::<Wrong>(), &fetching(&[block(0, 2, FULL)]));
    let lacking = edition(2, 1600)[..3].to_vec();
    assert_noticed(
        seeing::<Wrong>(),
        &fetching(&[lacking, edition(1, 9)].concat()),
    );
}

#[test]
fn parts_that_name_another_number() {
    struct Wrong;
    impl Seeing for Wrong {
        fn see(file: &[u8]) -> Vec<u8> {
            wrong::part_0_decides(file)
        }
    }
    let blocks = [block(0, 2, FULL), block(1, 3, b"b")];
    assert_noticed(seeing::<Wrong>(), &fetching(&blocks));
}

#[test]
fn a_last_part_that_must_be_full() {
    struct Wrong;
    impl Seeing for Wrong {
        fn see(file: &[u8]) -> Vec<u8> {
            wrong::last_is_full(file)
        }
    }
    assert_sight_noticed::<Wrong>(&[block(0, 1, b"a")]);
    assert_noticed(seeing::<Wrong>(), &fetching(&edition(1, 503)));
}

#[test]
fn a_part_past_the_last_that_does_harm() {
    struct Wrong;
    impl Seeing for Wrong {
        fn see(file: &[u8]) -> Vec<u8> {
            wrong::past_the_last_spoils(file)
        }
    }
    assert_sight_noticed::<Wrong>(&[block(0, 1, b"a"), block(1, 1, b"b")]);
}

#[test]
fn a_file_of_65_blocks() {
    struct Wrong;
    impl Seeing for Wrong {
        fn see(file: &[u8]) -> Vec<u8> {
            match file.len() / 512 {
                65 => file[..64 * 512].to_vec(),
                _ => file.to_vec(),
            }
        }
    }
    assert_sight_noticed::<Wrong>(&[block(0, 1, b"a"); 65]);
}

#[test]
fn bytes_after_the_last_whole_block() {
    struct Wrong;
    impl Seeing for Wrong {
        fn see(file: &[u8]) -> Vec<u8> {
            file[..file.len() / 512 * 512].to_vec()
        }
    }
    let file = [&block(0, 1, b"a")[..], &[0]].concat();
    assert_noticed(seeing::<Wrong>(), &Fetching::new(&file, PROGRAM));
    assert_noticed(seeing::<Wrong>(), &Taking::new(&file, (PROGRAM, 1), 0));
}
