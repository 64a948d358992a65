//! Readers that see the blocks right, but choose, write or tell wrongly, which a comparison
//! must notice.

use compare::support::block_files::heads;
use compare::support::blocks::{stored, Bytes, PROGRAM};
use compare::support::calls::{Calls, Fetch, Part, COMPARE};
use compare::support::random::Random;
use compare::support::wrong_blocks::{editions_highest_first, only_editions};
use compare::support::SEED;
use differential::groups::blocks;
use differential::tally::Tally;
use differential::trials::{Fetching, Taking, Trial};

/// On one trial, and by the group of the edges.
fn assert_noticed(wrong: Calls, trial: &impl Trial) {
    assert!(Tally::new(COMPARE).compare(trial).is_ok());
    assert!(Tally::new(wrong).compare(trial).is_err());
    assert!(blocks::edges(&mut Tally::new(wrong), &mut Random::new(SEED)).is_err());
}

fn assert_fetch_noticed(fetch: Fetch, trial: &Fetching) {
    assert_noticed(Calls { fetch, ..COMPARE }, trial);
}

fn assert_part_noticed(part: Part, trial: &Taking) {
    assert_noticed(Calls { part, ..COMPARE }, trial);
}

/// Editions by number, each with a table of so many bytes.
fn file_of(editions: &[(u16, usize)]) -> Vec<u8> {
    let blocks = editions.iter().flat_map(|&(edition, length)| {
        let table = vec![edition as u8; length];
        stored(PROGRAM, edition, &table)
    });
    blocks.collect::<Vec<Bytes>>().concat()
}

fn fetching(editions: &[(u16, usize)]) -> Fetching {
    Fetching::new(&file_of(editions), PROGRAM)
}

/// The editions that the file names for the program, lowest first.
fn editions(file: &[u8], program: u16) -> impl DoubleEndedIterator<Item = u16> {
    let of_program = heads(file)
        .into_iter()
        .filter(move |head| head.program == program);
    let mut editions: Vec<u16> = of_program.map(|head| head.edition).collect();
    editions.dedup();
    editions.into_iter()
}

/// Fetches as if there were no edition but this one.
fn fetch_alone(
    edition: u16,
    (file, program): (&[u8], u16),
    table: &mut [u8],
    answer: &mut [u64],
) -> u32 {
    let alone = only_editions(file, |other| other == edition);
    (COMPARE.fetch)(&alone, program, table, answer)
}

#[test]
fn the_lowest_whole_edition() {
    fn fetch(file: &[u8], program: u16, table: &mut [u8], answer: &mut [u64]) -> u32 {
        for edition in editions(file, program) {
            let returned = fetch_alone(edition, (file, program), table, answer);
            if returned != 18 {
                return returned;
            }
        }
        (COMPARE.fetch)(file, program, table, answer)
    }
    assert_fetch_noticed(fetch, &fetching(&[(1, 10), (2, 10)]));
}

#[test]
fn the_highest_edition_whole_or_not() {
    fn fetch(file: &[u8], program: u16, table: &mut [u8], answer: &mut [u64]) -> u32 {
        match editions(file, program).next_back() {
            Some(highest) => fetch_alone(highest, (file, program), table, answer),
            None => (COMPARE.fetch)(file, program, table, answer),
        }
    }
    let mut file = file_of(&[(1, 10), (2, 600)]);
    file.truncate(2 * 512);
    assert_fetch_noticed(fetch, &Fetching::new(&file, PROGRAM));
}

#[test]
fn a_lower_edition_for_one_that_is_too_long() {
    fn fetch(file: &[u8], program: u16, table: &mut [u8], answer: &mut [u64]) -> u32 {
        for edition in editions(file, program).rev() {
            let returned = fetch_alone(edition, (file, program), table, answer);
            if ![1, 18].contains(&returned) {
                return returned;
            }
        }
        (COMPARE.fetch)(file, program, table, answer)
    }
    assert_fetch_noticed(fetch, &fetching(&[(2, 2049), (1, 10)]));
}

#[test]
fn editions_with_the_highest_byte_first() {
    fn fetch(file: &[u8], program: u16, table: &mut [u8], answer: &mut [u64]) -> u32 {
        let returned = (COMPARE.fetch)(&editions_highest_first(file), program, table, answer);
        if returned == 0 {
            answer[1] = u64::from((answer[1] as u16).swap_bytes());
        }
        returned
    }
    assert_fetch_noticed(fetch, &fetching(&[(255, 10), (256, 10)]));
}

#[test]
fn another_program() {
    fn fetch(file: &[u8], program: u16, table: &mut [u8], answer: &mut [u64]) -> u32 {
        match (COMPARE.fetch)(file, program, table, answer) {
            18 => (COMPARE.fetch)(file, program.swap_bytes(), table, answer),
            returned => returned,
        }
    }
    assert_fetch_noticed(
        fetch,
        &Fetching::new(&file_of(&[(1, 10)]), PROGRAM.swap_bytes()),
    );
}

#[test]
fn a_table_that_is_cut_off() {
    fn fetch(file: &[u8], program: u16, table: &mut [u8], answer: &mut [u64]) -> u32 {
        let returned = (COMPARE.fetch)(file, program, table, answer);
        if returned == 1 {
            table[..2048].fill(2);
        }
        returned
    }
    assert_fetch_noticed(fetch, &fetching(&[(2, 2049)]));
}

#[test]
fn bytes_past_the_table_cleared() {
    fn fetch(file: &[u8], program: u16, table: &mut [u8], answer: &mut [u64]) -> u32 {
        let returned = (COMPARE.fetch)(file, program, table, answer);
        if returned == 0 {
            table[answer[0] as usize..].fill(0);
        }
        returned
    }
    assert_fetch_noticed(fetch, &fetching(&[(1, 10)]));
}

/// The zeros after the last part are copied with it.
#[test]
fn filler_behind_the_table() {
    fn fetch(file: &[u8], program: u16, table: &mut [u8], answer: &mut [u64]) -> u32 {
        let returned = (COMPARE.fetch)(file, program, table, answer);
        if returned == 0 {
            let end = table.len().min(answer[2] as usize * 502);
            table[answer[0] as usize..end].fill(0);
        }
        returned
    }
    assert_fetch_noticed(fetch, &fetching(&[(1, 501)]));
}

#[test]
fn refusals_17_and_18_before_3() {
    fn by_17(file: &[u8], program: u16, table: &mut [u8], answer: &mut [u64]) -> u32 {
        match (COMPARE.fetch)(file, program, &mut [0; 2048], &mut [0; 3]) {
            17 => 17,
            _ => (COMPARE.fetch)(file, program, table, answer),
        }
    }
    fn by_18(file: &[u8], program: u16, table: &mut [u8], answer: &mut [u64]) -> u32 {
        match (COMPARE.fetch)(file, program, &mut [0; 2048], &mut [0; 3]) {
            18 => 18,
            _ => (COMPARE.fetch)(file, program, table, answer),
        }
    }
    assert_fetch_noticed(by_17, &Fetching::with_table(&[0], PROGRAM, 2047));
    assert_fetch_noticed(by_17, &Fetching::new(&[0], PROGRAM).with_answer(2));
    assert_fetch_noticed(by_18, &Fetching::with_table(&[], PROGRAM, 2047));
}

#[test]
fn a_short_table_that_suffices() {
    fn fetch(file: &[u8], program: u16, table: &mut [u8], answer: &mut [u64]) -> u32 {
        let mut longer = [&table[..], &[0; 2048]].concat();
        let mut figures = answer.to_vec();
        let returned = (COMPARE.fetch)(file, program, &mut longer, &mut figures);
        if returned == 0 && figures[0] as usize > table.len() {
            return 3;
        }
        table.copy_from_slice(&longer[..table.len()]);
        answer.copy_from_slice(&figures);
        returned
    }
    assert_fetch_noticed(
        fetch,
        &Fetching::with_table(&file_of(&[(1, 10)]), PROGRAM, 2047),
    );
}

#[test]
fn an_empty_file_refused_by_17() {
    fn fetch(file: &[u8], program: u16, table: &mut [u8], answer: &mut [u64]) -> u32 {
        match (COMPARE.fetch)(file, program, table, answer) {
            18 if file.is_empty() => 17,
            returned => returned,
        }
    }
    assert_fetch_noticed(fetch, &Fetching::new(&[], PROGRAM));
}

#[test]
fn edition_and_number_of_parts_exchanged() {
    fn fetch(file: &[u8], program: u16, table: &mut [u8], answer: &mut [u64]) -> u32 {
        let returned = (COMPARE.fetch)(file, program, table, answer);
        if returned == 0 {
            answer.swap(1, 2);
        }
        returned
    }
    assert_fetch_noticed(fetch, &fetching(&[(3, 10)]));
}

#[test]
fn parts_of_whole_editions_only() {
    fn part(file: &[u8], program: u16, edition: u16, part: u8, answer: &mut [u64]) -> u32 {
        let whole = fetch_alone(edition, (file, program), &mut [0; 2048], &mut [0; 3]);
        if whole == 18 && answer.len() >= 3 {
            answer[..3].fill(0);
            return 0;
        }
        (COMPARE.part)(file, program, edition, part, answer)
    }
    let first = &file_of(&[(1, 600)])[..512];
    assert_part_noticed(part, &Taking::new(first, (PROGRAM, 1), 0));
}

#[test]
fn a_part_from_the_front_of_its_block() {
    fn part(file: &[u8], program: u16, edition: u16, part: u8, answer: &mut [u64]) -> u32 {
        let returned = (COMPARE.part)(file, program, edition, part, answer);
        if returned == 0 {
            answer[0] = answer[0] / 512 * 512;
        }
        returned
    }
    let file = file_of(&[(1, 600)]);
    assert_part_noticed(part, &Taking::new(&file, (PROGRAM, 1), 1));
}

#[test]
fn an_empty_part_elsewhere_or_refused() {
    fn elsewhere(file: &[u8], program: u16, edition: u16, part: u8, answer: &mut [u64]) -> u32 {
        let returned = (COMPARE.part)(file, program, edition, part, answer);
        if returned == 0 && answer[1] == 0 {
            answer[0] = file.len() as u64;
        }
        returned
    }
    fn refused(file: &[u8], program: u16, edition: u16, part: u8, answer: &mut [u64]) -> u32 {
        let mut figures = [0; 3];
        (COMPARE.part)(file, program, edition, part, &mut figures);
        match figures[1] {
            0 if answer.len() >= 3 => 18,
            _ => (COMPARE.part)(file, program, edition, part, answer),
        }
    }
    let file = file_of(&[(1, 10)]);
    for wrong in [elsewhere, refused] {
        assert_part_noticed(wrong, &Taking::new(&file, (PROGRAM, 2), 0));
        assert_part_noticed(wrong, &Taking::new(&file[1..], (PROGRAM, 1), 0));
    }
}
