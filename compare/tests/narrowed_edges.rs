//! The edges of F-8, with the order of its checks and what is lent.

use compare::support::damage::{bad_table, BAD_NUMBERS};
use compare::support::edges::{edges as edges_of_01, W6};
use compare::support::narrow_edges::edges;
use compare::support::narrowings::Case;
use compare::support::random::Random;
use compare::support::tied_starts::Tied;
use compare::support::ties::{any_ties, tied, ABSENT};
use compare::support::wrong_ties::accepted_by_narrowed;
use compare::support::SEED;
use compare::{narrow, Refusal, Sets};

/// The sets that are lent must be as before past the nodes, or after a refusal: a case sees
/// to that.
#[test]
fn edges_have_their_sets() {
    let edges = edges();
    assert_eq!(edges.len(), 199);
    for edge in edges {
        assert_eq!(edge.case.run(), edge.outcome, "{}", edge.name);
    }
}

#[test]
fn edges_by_starts() {
    let mut programs = 0;
    for edge in edges() {
        if let Ok(sets) = edge.outcome {
            let program = Tied::new(&edge.case.table, &edge.case.ties);
            // A test of every signal can't be started with all lists, but all are tied.
            assert_eq!(program.sets(), sets, "{}", edge.name);
            programs += 1;
        }
    }
    println!("programs {programs}");
    assert!(programs > 80, "{programs}");
}

/// With good ties the refusals are those of the listing; with a wrong byte 19 is the last.
#[test]
fn refusals_of_tables() {
    let random = &mut Random::new(SEED);
    let bad = (0..2 * BAD_NUMBERS).map(|number| bad_table(random, number % BAD_NUMBERS));
    let tables: Vec<Vec<u8>> = bad
        .chain(edges_of_01().into_iter().map(|edge| edge.table))
        .collect();
    let mut met = [0; 12];
    for (number, table) in tables.iter().enumerate() {
        let refusal = Sets::of(table).err();
        let mut ties = any_ties(random, number);
        let case = Case::new(table, &ties, number % 2);
        assert_eq!(case.run().err(), refusal, "{table:?}");
        ties[random.below(256)] = *random.pick(&[3, 4, 64, 255]);
        let wrong = Case { ties, ..case }.run();
        assert_eq!(
            wrong,
            Err(refusal.unwrap_or(Refusal::whole(19))),
            "{table:?}"
        );
        met[refusal.map_or(0, |refusal| refusal.number as usize)] += 1;
    }
    println!("refused by number, and 0 for accepted: {met:?}");
    for number in [0, 1, 2, 4, 5, 6, 7, 8, 9, 10, 11] {
        assert!(met[number] > 0, "{number}: {met:?}");
    }
}

/// Check 3 stands after 2 and before 4, for the ties and for the sets.
#[test]
fn short_buffers_are_refused_by_3_in_its_place() {
    for edge in edges_of_01() {
        let number = edge.refusal.map_or(0, |refusal| refusal.number);
        let expected = Err(Refusal::whole(if [1, 2].contains(&number) {
            number
        } else {
            3
        }));
        let case = Case::new(&edge.table, &[9; 256], 0);
        for length in [0, 1, 128, 255] {
            let ties = vec![9; length];
            let short = Case {
                ties,
                ..case.clone()
            };
            assert_eq!(short.run(), expected, "{}", edge.name);
        }
        for lent in [0, case.lent / 2, case.lent.saturating_sub(1)] {
            let short = Case {
                lent,
                ..case.clone()
            };
            if lent < case.lent {
                assert_eq!(short.run(), expected, "{}", edge.name);
            }
        }
    }
}

/// Every byte at every place; those from 256 on are not looked at.
#[test]
fn every_byte_at_every_place() {
    let table = [1, 0, 2, 0, 6, 5];
    for place in 0..300 {
        for byte in 0..=255 {
            let mut ties = vec![0; 300];
            ties[place] = byte;
            let mut sets = [7; 4];
            let answer = narrow(&table, &ties, &mut sets);
            let (expected, after) = match (place, byte) {
                (0..256, 3..) => (Err(Refusal::whole(19)), [7; 4]),
                (5, 1) => (Ok(3), [1, 2, 2, 7]),
                (5, 2) => (Ok(3), [1, 2, 1, 7]),
                _ => (Ok(3), [1, 2, 3, 7]),
            };
            assert_eq!((answer, sets), (expected, after), "{place} {byte}");
        }
    }
}

/// Tied absent, the body of W6 only pauses, but K has 0.
#[test]
fn acceptance_is_by_k() {
    let ties = tied(&[(5, ABSENT)]);
    let refused = Err(Refusal::at(11, 3));
    assert_eq!(narrow(W6, &ties, &mut [0; 4]), refused);
    assert_eq!(accepted_by_narrowed(W6, &ties), Ok(vec![1, 2, 2, 2]));
}
