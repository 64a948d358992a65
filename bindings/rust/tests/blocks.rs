//! The service partition: the tables and the parts that the blocks of F-4 give by hand, what is
//! passed over, and each refusal.

mod common;

use bavzhrono::{fetch, listing, part, table_in, Fetched, BLOCK, MAX_BLOCKS, MAX_NODES};
use common::*;

/// The bytes that a lent table needs.
const NEED: usize = 2 * MAX_NODES;

/// The bytes of content that a block has room for.
const FULL: usize = 502;

/// The bytes of the longest file.
const MOST: usize = MAX_BLOCKS * BLOCK;

/// So many bytes, which count up from the first.
fn counting(first: u8, length: usize) -> Vec<u8> {
    (0..=255).cycle().skip(first.into()).take(length).collect()
}

/// The blocks of a whole edition of program 1, in the order of the parts.
fn edition(number: u16, table: &[u8]) -> Vec<Vec<u8>> {
    let parts = table.chunks(FULL).len() as u8;
    let blocks = (0..).zip(table.chunks(FULL));
    let written = blocks.map(|(part, content)| block(1, number, part, parts, content));
    written.collect()
}

/// Into a table that just suffices and into a longer one, of which only the front changes.
fn assert_fetched(file: &[u8], table: &[u8], edition: u16, parts: u8) {
    let length = table.len();
    for more in [0, 5] {
        let mut lent = vec![FILL; NEED + more];
        let mut expected = lent.clone();
        expected[..length].copy_from_slice(table);
        let figures = Fetched {
            length,
            edition,
            parts,
        };
        assert_eq!(fetch(file, 1, &mut lent), Ok(figures));
        assert_eq!(lent, expected);
    }
    assert_eq!(table_in(file, 1).as_deref(), Ok(table));
}

fn assert_not_fetched(file: &[u8], number: u32) {
    let mut lent = [FILL; NEED];
    assert_eq!(fetch(file, 1, &mut lent), refused(number, 0));
    assert_eq!(lent, [FILL; NEED]);
    assert_eq!(table_in(file, 1), refused(number, 0));
}

/// The part is the front of a block's content: the bytes of the file themselves, and no copy.
fn assert_part(file: &[u8], numbers: (u16, u16, u8), at: usize, length: usize) {
    let (program, edition, number) = numbers;
    let found = part(file, program, edition, number);
    let expected = &file[at * BLOCK + 8..][..length];
    assert_eq!(found.as_ptr_range(), expected.as_ptr_range());
}

fn assert_no_part(file: &[u8], program: u16, edition: u16, number: u8) {
    assert!(part(file, program, edition, number).is_empty());
}

#[test]
fn one_part() {
    for length in [1, 2, 8, 501, FULL] {
        let table = counting(10, length);
        assert_fetched(&block(1, 7, 0, 1, &table), &table, 7, 1);
    }
}

#[test]
fn parts_are_joined_in_the_order_of_their_numbers() {
    let table = counting(10, 2 * FULL + 100);
    let mut blocks = edition(7, &table);
    assert_fetched(&blocks.concat(), &table, 7, 3);
    blocks.reverse();
    assert_fetched(&blocks.concat(), &table, 7, 3);
    blocks.swap(0, 1);
    assert_fetched(&blocks.concat(), &table, 7, 3);
}

#[test]
fn a_last_part_may_be_full() {
    for parts in 1..=4 {
        let table = counting(10, parts * FULL);
        let file = edition(7, &table).concat();
        assert_eq!(file.len(), parts * BLOCK);
        assert_fetched(&file, &table, 7, parts as u8);
    }
}

#[test]
fn blocks_of_other_programs_and_editions_make_no_difference() {
    let table = counting(10, FULL + 9);
    let own = edition(7, &table);
    let others = [
        block(2, 7, 1, 2, &[1; 9]),
        block(1, 6, 1, 2, &[2; 9]),
        block(2, 7, 0, 2, &[3; FULL]),
        block(257, 7, 0, 1, &[4]),
    ];
    let mixed = [&others[0], &own[0], &others[1], &own[1], &others[2]].map(|block| &block[..]);
    assert_fetched(&[&mixed.concat(), &others[3][..]].concat(), &table, 7, 2);
}

#[test]
fn of_two_good_blocks_the_later_counts() {
    let first = block(1, 7, 0, 1, &[1; 8]);
    let second = block(1, 7, 0, 1, &[2; 6]);
    assert_fetched(&[&first[..], &second].concat(), &[2; 6], 7, 1);
    assert_fetched(&[&second[..], &first].concat(), &[1; 8], 7, 1);

    let last = block(1, 7, 1, 2, &[3; 9]);
    let again = [edition(7, &[4; FULL + 9]).concat(), last].concat();
    assert_fetched(&again, &[&[4; FULL][..], &[3; 9]].concat(), 7, 2);
}

#[test]
fn a_later_part_0_names_its_own_number_of_parts() {
    let one = block(1, 7, 0, 1, &[1; 8]);
    let of_two = block(1, 7, 0, 2, &[2; FULL]);
    assert_fetched(&[&of_two[..], &one].concat(), &[1; 8], 7, 1);
    assert_not_fetched(&[&one[..], &of_two].concat(), 18);
}

#[test]
fn a_bad_block_after_a_good_one_is_passed_over() {
    let good = block(1, 7, 0, 1, &[1; 8]);
    for bad in bad_blocks() {
        let file = [&good[..], &bad].concat();
        assert_fetched(&file, &[1; 8], 7, 1);
        assert_part(&file, (1, 7, 0), 0, 8);
    }
}

#[test]
fn a_bad_block_is_none() {
    let lower = block(1, 6, 0, 1, &[1; 8]);
    for bad in bad_blocks() {
        assert_not_fetched(&bad, 18);
        assert_no_part(&bad, 1, 7, 0);
        assert_fetched(&[&lower[..], &bad].concat(), &[1; 8], 6, 1);
    }
}

/// Blocks for part 0 of edition 7, each with a reason of its own to be passed over.
fn bad_blocks() -> Vec<Vec<u8>> {
    let changed = |content: &[u8], at: usize, value: u8| {
        let mut block = block(1, 7, 0, 1, content);
        assert_ne!(block[at], value);
        block[at] = value;
        block
    };
    // Used lengths of 0, 503, 520 and 65,288, and filler that is not zero.
    let mut bad = vec![
        changed(&[0; 8], 6, 0),
        changed(&[5; FULL], 6, 0xf7),
        changed(&[5; 8], 7, 2),
        changed(&[5; 8], 7, 255),
        changed(&[5; 8], 16, 1),
        changed(&[5; 8], 509, 1),
        changed(&[5; 501], 509, 1),
    ];
    bad.iter_mut().for_each(|block| put_check_bytes(block));
    // Filler that the check bytes do not see, the check bytes, and what they see.
    let [first, second] = [510, 511].map(|at| block(1, 7, 0, 1, &[5; 8])[at]);
    bad.extend([
        changed(&[5; 8], 509, 255),
        changed(&[5; 8], 510, first ^ 1),
        changed(&[5; 8], 511, second ^ 1),
        changed(&[5; 8], 8, 6),
        changed(&[5; 8], 3, 1),
    ]);
    // An erased block.
    bad.push(vec![255; BLOCK]);
    bad
}

#[test]
fn a_check_byte_of_255_is_bad() {
    // By hand: the sum is 255, and the sum of its running values is a multiple of 255.
    let mut file = block(0, 0, 0, 1, &[245, 7]);
    assert_eq!(file[510..], [0, 0]);
    assert_eq!(table_in(&file, 0), Ok(vec![245, 7]));
    assert_part(&file, (0, 0, 0), 0, 2);
    for check_bytes in [[255, 0], [0, 255], [255, 255]] {
        file[510..].copy_from_slice(&check_bytes);
        assert_eq!(table_in(&file, 0), refused(18, 0));
        assert_no_part(&file, 0, 0, 0);
    }
}

/// Each byte of the block is given each other value. Only 0 and 255 can stand for each other, and
/// only in the numbers and in the used content.
fn assert_changes_are_seen(used: usize) {
    let good = block(255, 255, 0, 255, &counting(250, used));
    let mut file = good.clone();
    for at in 0..BLOCK {
        let unseen = at < 6 || (8..8 + used).contains(&at);
        for value in 0..=255 {
            file[at] = value;
            let program = u16::from_le_bytes([file[0], file[1]]);
            let edition = u16::from_le_bytes([file[2], file[3]]);
            let found = part(&file, program, edition, file[4]);
            let is_same = value == good[at];
            let is_alike = matches!((value, good[at]), (0, 255) | (255, 0));
            let expected = is_same || (is_alike && unseen);
            assert_eq!(!found.is_empty(), expected, "byte {at} is {value}");
        }
        file[at] = good[at];
    }
}

#[test]
fn a_change_of_one_byte_is_seen_but_for_0_and_255() {
    // The lower byte of these used lengths is 0 and 255.
    assert_changes_are_seen(256);
    assert_changes_are_seen(255);
}

#[test]
fn an_edition_without_one_of_its_parts_is_not_whole() {
    let blocks = edition(7, &counting(10, 2 * FULL + 100));
    for missing in 0..3 {
        let mut rest = blocks.clone();
        rest.remove(missing);
        assert_not_fetched(&rest.concat(), 18);
        // Another program or edition does not lend its own.
        let number = missing as u8;
        let of_program = block(2, 7, number, 3, &[1; FULL]);
        let of_edition = block(1, 8, number, 3, &[1; FULL]);
        assert_not_fetched(&[rest.concat(), of_program, of_edition].concat(), 18);
    }
}

#[test]
fn all_parts_name_the_same_number_of_parts() {
    let first = block(1, 7, 0, 2, &[1; FULL]);
    for parts in [0, 1, 3, 255] {
        let second = block(1, 7, 1, parts, &[2; 8]);
        assert_not_fetched(&[&first[..], &second].concat(), 18);
    }
    assert_not_fetched(&block(1, 7, 0, 0, &[1; 8]), 18);
}

#[test]
fn all_parts_but_the_last_are_full() {
    let blocks = edition(7, &counting(10, 2 * FULL + 100));
    for (at, number) in [(0, 0), (1, 1)] {
        for used in [1, 501] {
            let mut short = blocks.clone();
            short[at] = block(1, 7, number, 3, &counting(10, used));
            assert_not_fetched(&short.concat(), 18);
        }
    }
}

#[test]
fn parts_past_their_number_make_no_difference() {
    let table = [1; 8];
    let beyond = [(1, 1), (2, 1), (255, 9)].map(|(part, parts)| block(1, 7, part, parts, &[2; 8]));
    let file = [block(1, 7, 0, 1, &table), beyond.concat()].concat();
    assert_fetched(&file, &table, 7, 1);
    assert_part(&file, (1, 7, 255), 3, 8);
}

#[test]
fn the_highest_whole_edition_supersedes_the_others() {
    let table = |number: u16| number.to_le_bytes().to_vec();
    for numbers in [[7, 9, 8], [256, 255, 254], [0, 65535, 32768], [511, 512, 0]] {
        let file = numbers.map(|number| edition(number, &table(number)).concat());
        let highest = numbers.into_iter().max().unwrap();
        assert_fetched(&file.concat(), &table(highest), highest, 1);
    }
    assert_fetched(&block(1, 0, 0, 1, &[1; 8]), &[1; 8], 0, 1);
}

#[test]
fn a_higher_edition_that_is_not_whole_supersedes_none() {
    let whole = block(1, 7, 0, 1, &[1; 8]);
    let higher = [block(1, 8, 0, 2, &[2; FULL]), block(1, 9, 1, 2, &[3; 8])].concat();
    assert_fetched(&[&whole[..], &higher].concat(), &[1; 8], 7, 1);
    assert_fetched(&[&higher[..], &whole].concat(), &[1; 8], 7, 1);
}

#[test]
fn program_numbers_have_two_bytes() {
    let programs = [0, 1, 256, 258, 513, 65535];
    let file = programs.map(|program| block(program, 7, 0, 1, &program.to_le_bytes()));
    let file = file.concat();
    for program in programs {
        assert_eq!(table_in(&file, program), Ok(program.to_le_bytes().to_vec()));
    }
    for program in [2, 255, 257, 512, 65280] {
        assert_eq!(table_in(&file, program), refused(18, 0));
    }
}

#[test]
fn two_thousand_and_forty_eight_bytes() {
    for length in [2009, 2047, NEED] {
        let table = counting(10, length);
        assert_fetched(&edition(7, &table).concat(), &table, 7, 5);
    }
}

#[test]
fn sixty_four_blocks() {
    for at in [0, 1, 62, 63] {
        let mut file = vec![0; MOST];
        file[at * BLOCK..][..BLOCK].copy_from_slice(&block(1, 7, 0, 1, &[1; 8]));
        assert_fetched(&file, &[1; 8], 7, 1);
        assert_part(&file, (1, 7, 0), at, 8);
    }
}

#[test]
fn the_bytes_are_not_checked_as_a_table() {
    // By hand, the check bytes too.
    let mut file = vec![1, 0, 2, 0, 0, 1, 8, 0, 2, 0, 3, 7, 9, 0, 8, 0];
    file.resize(510, 0);
    file.extend([41, 110]);
    assert_eq!(file, block(1, 2, 0, 1, W1));
    assert_fetched(&file, W1, 2, 1);
    assert_eq!(listing(&table_in(&file, 1).unwrap()), W1_LISTING);

    for (table, line) in [(&W1[..7], "refused 2 0\n"), (W2, "refused 11 1\n")] {
        let file = block(1, 2, 0, 1, table);
        assert_fetched(&file, table, 2, 1);
        assert_eq!(listing(&table_in(&file, 1).unwrap()), line);
    }
}

#[test]
fn check_1_a_table_that_would_be_too_long() {
    for length in [NEED + 1, 5 * FULL, 6 * FULL, MAX_BLOCKS * FULL] {
        assert_not_fetched(&edition(7, &counting(10, length)).concat(), 1);
    }
}

#[test]
fn check_1_no_lower_edition_stands_in() {
    let long = counting(10, NEED + 1);
    let table = counting(20, NEED);
    let above = [edition(7, &table), edition(8, &long)].concat();
    assert_not_fetched(&above.concat(), 1);
    let below = [edition(7, &long), edition(8, &table)].concat();
    assert_fetched(&below.concat(), &table, 8, 5);
    // The longer one is not whole without its last part.
    assert_fetched(&above[..9].concat(), &table, 7, 5);
}

/// A file of more than 64 blocks. Program 1 has a part in the first of them.
fn too_long() -> Vec<u8> {
    let mut file = block(1, 7, 0, 1, &[1; 8]);
    file.resize(MOST + BLOCK, 0);
    file
}

#[test]
fn check_17_the_length() {
    let file = too_long();
    let lengths = [
        1,
        BLOCK - 1,
        BLOCK + 1,
        768,
        MOST - 1,
        MOST + 1,
        MOST + BLOCK,
    ];
    for length in lengths {
        let file = &file[..length];
        assert_not_fetched(file, 17);
        assert_no_part(file, 1, 7, 0);
        // 17 comes before 18.
        assert_eq!(table_in(file, 2), refused(17, 0));
    }
    for length in [BLOCK, 2 * BLOCK, MOST] {
        assert_fetched(&file[..length], &[1; 8], 7, 1);
        assert_part(&file[..length], (1, 7, 0), 0, 8);
    }
}

#[test]
fn check_18_no_whole_edition() {
    assert_not_fetched(&[], 18);
    assert_not_fetched(&[0; BLOCK], 18);
    assert_not_fetched(&[0; MOST], 18);
    assert_not_fetched(&block(2, 7, 0, 1, &[1; 8]), 18);
}

#[test]
fn check_3_comes_first() {
    let too_long_table = edition(7, &[1; NEED + 1]).concat();
    for file in [
        &too_long()[..BLOCK],
        &[],
        &[0],
        &too_long(),
        &too_long_table,
    ] {
        for length in [0, 1, 8, NEED - 1] {
            let mut lent = vec![FILL; length];
            assert_eq!(fetch(file, 1, &mut lent), refused(3, 0));
            assert_eq!(lent, vec![FILL; length]);
        }
    }
}

#[test]
fn a_part_is_found_in_the_first_and_in_the_last_block() {
    let mut file = too_long();
    file.truncate(MOST);
    // That it names no parts makes no difference.
    let last = block(65535, 65535, 255, 0, &counting(10, FULL));
    file[MOST - BLOCK..].copy_from_slice(&last);
    assert_part(&file, (1, 7, 0), 0, 8);
    assert_part(&file, (65535, 65535, 255), 63, FULL);
}

#[test]
fn a_part_is_found_whether_or_not_its_edition_is_whole() {
    let file = [
        block(1, 7, 0, 1, &[1; 8]),
        block(1, 8, 1, 3, &[2; 7]),
        block(1, 9, 0, 1, &[3; 6]),
        block(1, 9, 0, 1, &[4; 5]),
    ]
    .concat();
    assert_part(&file, (1, 8, 1), 1, 7);
    // Superseded by another edition, and the later of two blocks.
    assert_part(&file, (1, 7, 0), 0, 8);
    assert_part(&file, (1, 9, 0), 3, 5);
}

#[test]
fn a_part_that_is_missing_is_empty() {
    let file = [block(1, 7, 0, 1, &[1; 8]), vec![0; BLOCK]].concat();
    for (program, edition, number) in [
        (1, 7, 1),
        (1, 8, 0),
        (2, 7, 0),
        (256, 7, 0),
        (1, 7 * 256, 0),
        (0, 0, 0),
    ] {
        assert_no_part(&file, program, edition, number);
    }
    assert_no_part(&[], 1, 7, 0);
}

#[test]
fn a_part_lives_as_long_as_the_file() {
    let file = block(1, 7, 0, 1, &[1; 8]);
    let find = |number| part(&file, 1, 7, number);
    let (found, missing) = (find(0), find(1));
    assert_eq!((found, missing), (&file[8..16], &[][..]));
}
