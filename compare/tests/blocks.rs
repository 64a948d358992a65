//! Blocks on the service partition: edges, what is stored and fetched again, the buffers.

use compare::blocks::{BLOCK, CONTENT};
use compare::support::block_edges::edges;
use compare::support::block_files::{among_others, content};
use compare::support::blocks::{sealed, stored, with_checks, Head, CHECKS_AT, PROGRAM};
use compare::support::calls::COMPARE;
use compare::support::partitions::{partition, WAY_NUMBERS};
use compare::support::random::Random;
use compare::support::SEED;
use compare::{fetch, part, Fetched, Refusal};

/// What stands in every lent byte before a call.
const FILL: u8 = 200;

/// The lent table.
const LENT: usize = 2048;

fn fetched(file: &[u8], program: u16) -> Result<(Vec<u8>, Fetched), Refusal> {
    let mut table = vec![FILL; LENT];
    let answer = fetch(file, program, &mut table);
    let written = answer.map_or(0, |fetched| fetched.length);
    assert!(table[written..].iter().all(|&byte| byte == FILL));
    table.truncate(written);
    Ok((table, answer?))
}

#[test]
fn edges_have_their_lines() {
    let edges = edges();
    for edge in &edges {
        for (call, line) in &edge.calls {
            assert_eq!(call.line(&edge.file), *line, "{}: {call:?}", edge.name);
        }
    }
    let calls: usize = edges.iter().map(|edge| edge.calls.len()).sum();
    println!("{} files, {calls} calls", edges.len());
}

/// Program 1, edition 0, part 0 of 1, the byte 7: the bytes 1, 1, 1 and 7 stand at 0, 5,
/// 6 and 8. Their sum is 10. They are in 510, 505, 504 and 502 running values, which add
/// up to 510 + 505 + 504 + 7 * 502 = 5033, and 5033 = 19 * 255 + 188.
#[test]
fn check_bytes_by_hand() {
    let mut block = [0; BLOCK];
    block[..9].copy_from_slice(&[1, 0, 0, 0, 0, 1, 1, 0, 7]);
    block[CHECKS_AT..].copy_from_slice(&[10, 188]);
    assert_eq!(part(&block, 1, 0, 0), [7]);
    let one_part = Fetched {
        length: 1,
        edition: 0,
        parts: 1,
    };
    assert_eq!(fetched(&block, 1), Ok((vec![7], one_part)));
    assert_eq!(sealed(block), block);
    for checks in [[9, 188], [11, 188], [10, 187], [10, 189], [188, 10]] {
        block[CHECKS_AT..].copy_from_slice(&checks);
        assert_eq!(part(&block, 1, 0, 0), []);
        assert_eq!(fetched(&block, 1), Err(Refusal::whole(18)));
    }
}

/// All pairs of check bytes come up, and each is right.
#[test]
fn every_pair_of_check_bytes() {
    let head = Head {
        program: 513,
        edition: 3,
        part: 0,
        parts: 1,
    };
    let block = head.block(b"content");
    for first in 0..255 {
        for second in 0..255 {
            let block = with_checks(block, [first, second]);
            assert_eq!(block[CHECKS_AT..], [first, second]);
            if first % 16 == second % 16 {
                assert_eq!(part(&block, 513, 3, 0).len(), 7);
            }
        }
    }
}

/// Tables of every length, among other blocks and in any order.
#[test]
fn what_is_stored_is_fetched() {
    let random = &mut Random::new(SEED);
    let mut most_blocks = 0;
    for length in 1..=2048 {
        let table = content(random, length);
        let edition = random.between(1, 65533) as u16;
        let file = among_others(random, stored(PROGRAM, edition, &table));
        most_blocks = most_blocks.max(file.len() / BLOCK);

        let parts = length.div_ceil(CONTENT);
        let answer = Fetched {
            length,
            edition,
            parts,
        };
        for (number, content) in table.chunks(CONTENT).enumerate() {
            assert_eq!(part(&file, PROGRAM, edition, number as u8), content);
        }
        assert_eq!(part(&file, PROGRAM, edition, parts as u8), []);
        assert_eq!(fetched(&file, PROGRAM), Ok((table, answer)));
    }
    println!("up to {most_blocks} blocks");
}

#[test]
fn longer_tables_are_refused_by_1() {
    for length in (2049..2600).chain([12_000, 64 * CONTENT - 1, 64 * CONTENT]) {
        let file = stored(PROGRAM, 1, &vec![7; length]).concat();
        assert_eq!(fetched(&file, PROGRAM), Err(Refusal::whole(1)));
    }
    let file = stored(PROGRAM, 1, &[7; 64 * CONTENT + 1]).concat();
    assert_eq!(fetched(&file, PROGRAM), Err(Refusal::whole(17)));
}

/// It is the place in the file, not a copy. An empty one is within the file too.
#[test]
fn a_part_is_in_the_file() {
    let random = &mut Random::new(SEED);
    for number in 0..20 * WAY_NUMBERS {
        let file = partition(random, number, 6);
        for block in file.as_chunks().0 {
            let head = Head::of(block);
            let content = part(&file, head.program, head.edition, head.part);
            assert!(file.as_ptr_range().start <= content.as_ptr());
            assert!(content.as_ptr_range().end <= file.as_ptr_range().end);
        }
    }
}

#[test]
fn a_short_table_is_refused_by_3_ahead_of_all() {
    for length in [0, 1, 2, 2046, 2047] {
        for edge in edges() {
            let mut table = vec![FILL; length];
            let answer = fetch(&edge.file, PROGRAM, &mut table);
            assert_eq!(answer, Err(Refusal::whole(3)), "{}", edge.name);
            assert_eq!(table, vec![FILL; length], "{}", edge.name);
        }
    }
}

/// In a longer lent table the same is written, and nothing past it.
#[test]
fn the_front_of_the_lent_table_is_written() {
    for length in [2048, 2049, 5000] {
        for edge in edges() {
            let mut table = vec![FILL; length];
            let answer = fetch(&edge.file, PROGRAM, &mut table);
            let written = answer.map_or(0, |fetched| fetched.length);
            let expected = fetched(&edge.file, PROGRAM).map_or(Vec::new(), |(table, _)| table);
            assert_eq!(table[..written], expected, "{}", edge.name);
            assert!(table[written..].iter().all(|&byte| byte == FILL));
        }
    }
}

#[test]
fn the_calls_in_the_archives_form() {
    let (fetch, part) = (COMPARE.fetch, COMPARE.part);
    let blocks = stored(PROGRAM, 7, &[5; 600]);
    let file = [blocks[1], blocks[0]].concat();
    let mut table = [FILL; LENT];
    let mut answer = [9; 4];
    assert_eq!(fetch(&file, PROGRAM, &mut table, &mut answer), 0);
    assert_eq!(answer, [600, 7, 2, 9]);
    assert_eq!(table[598..602], [5, 5, FILL, FILL]);
    assert_eq!(part(&file, PROGRAM, 7, 0, &mut answer), 0);
    assert_eq!(answer, [520, 502, 0, 9]);
    assert_eq!(part(&file, PROGRAM, 7, 1, &mut answer), 0);
    assert_eq!(answer, [8, 98, 0, 9]);

    let too_long = stored(PROGRAM, 7, &[5; 2049]).concat();
    for (file, number) in [
        (&[][..], 18),
        (&[0], 17),
        (&file[512..], 18),
        (&too_long, 1),
    ] {
        let mut table = [FILL; LENT];
        let mut answer = [9; 3];
        assert_eq!(fetch(file, PROGRAM, &mut table, &mut answer), number);
        assert_eq!((answer, table), ([9; 3], [FILL; LENT]));
        assert_eq!(part(file, PROGRAM, 6, 1, &mut answer), 0);
        assert_eq!(answer, [0; 3]);
        let mut answer = [9; 3];
        assert_eq!(fetch(file, PROGRAM, &mut table[1..], &mut answer), 3);
        assert_eq!((answer, table), ([9; 3], [FILL; LENT]));
        for length in 0..3 {
            let mut answer = vec![9; length];
            assert_eq!(fetch(file, PROGRAM, &mut table, &mut answer), 3);
            assert_eq!(part(file, PROGRAM, 7, 0, &mut answer), 3);
            assert_eq!((answer, table), (vec![9; length], [FILL; LENT]));
        }
    }
}
