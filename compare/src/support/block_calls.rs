//! Calls on a file of blocks, and how the generator writes them and their outcomes.

use super::block_files::heads;
use super::calls::place;
use super::random::Random;
use super::{blocks::Head, hex};
use crate::{fetch, part, Refusal};

/// Lengths of a lent table: mostly enough, exactly or more, and sometimes too short.
pub const LENT: [u16; 10] = [2048, 2048, 2048, 2048, 2048, 2049, 2304, 4096, 2047, 0];

#[derive(Clone, Copy, Debug, PartialEq, Eq)]
pub enum Call {
    /// With a lent table of so many bytes.
    Fetch { program: u16, length: u16 },
    Part {
        program: u16,
        edition: u16,
        part: u8,
    },
}

/// Fetches each program that the file names, or any; takes up to so many parts that it
/// names, each with a neighbour that it may not have.
pub fn calls_on(random: &mut Random, file: &[u8], most_parts: usize) -> Vec<Call> {
    let mut heads: Vec<Head> = heads(file).into_iter().collect();
    let mut programs: Vec<u16> = heads.iter().map(|head| head.program).collect();
    programs.dedup();
    if programs.is_empty() || random.one_in(4) {
        programs.push(random.number() as u16);
    }
    let mut calls: Vec<Call> = programs
        .into_iter()
        .map(|program| Call::Fetch {
            program,
            length: *random.pick(&LENT),
        })
        .collect();
    random.shuffle(&mut heads);
    for head in heads.into_iter().take(most_parts) {
        let (program, edition) = (head.program, head.edition);
        for part in [head.part, head.part.wrapping_add(1)] {
            calls.push(Call::Part {
                program,
                edition,
                part,
            });
        }
    }
    calls
}

/// A file with its calls, as the input holds them.
pub fn encode(file: &[u8], calls: &[Call]) -> Vec<u8> {
    let lengths = [file.len(), calls.len()].map(|length| {
        let length = u16::try_from(length).expect("a length of two bytes");
        length.to_le_bytes()
    });
    let calls: Vec<[u8; 8]> = calls.iter().map(|call| call.encode()).collect();
    [lengths.as_flattened(), file, calls.as_flattened()].concat()
}

impl Call {
    fn encode(self) -> [u8; 8] {
        let (number, program, edition, part, length) = match self {
            Call::Fetch { program, length } => (0, program, 0, 0, length),
            Call::Part {
                program,
                edition,
                part,
            } => (1, program, edition, part, 0),
        };
        let [program, edition, length] = [program, edition, length].map(u16::to_le_bytes);
        [
            number, program[0], program[1], edition[0], edition[1], part, length[0], length[1],
        ]
    }

    /// Makes the call: the line of its outcome.
    pub fn line(self, file: &[u8]) -> String {
        match self {
            Call::Fetch { program, length } => fetch_line(file, program, length),
            Call::Part {
                program,
                edition,
                part: number,
            } => {
                let content = part(file, program, edition, number);
                part_line(place(file, content), content)
            }
        }
    }
}

/// The lent table before a call.
pub fn lent_table(program: u16, length: u16) -> Vec<u8> {
    let byte = |at: usize| ((usize::from(program) % 256 + at) % 256) as u8;
    (0..length.into()).map(byte).collect()
}

fn fetch_line(file: &[u8], program: u16, length: u16) -> String {
    let before = lent_table(program, length);
    let mut table = before.clone();
    let (line, written) = match fetch(file, program, &mut table) {
        Ok(fetched) => {
            let content = &table[..fetched.length];
            let line = done_line(content, fetched.edition, fetched.parts);
            (line, fetched.length)
        }
        Err(refusal) => (refused_line(refusal), 0),
    };
    assert_eq!(table[written..], before[written..], "{line}");
    line
}

/// The line of a fetch: the bytes past the table, or after a refusal all, are as before.
pub fn done_line(table: &[u8], edition: u16, parts: usize) -> String {
    let (length, table) = (table.len(), hex::encode(table));
    format!("done {length} {edition} {parts} {table} =\n")
}

pub fn refused_line(refusal: Refusal) -> String {
    format!("refused {} {} =\n", refusal.number, refusal.node)
}

pub fn part_line(from: usize, content: &[u8]) -> String {
    match content {
        [] => "part 0 0 -\n".to_string(),
        _ => format!("part {from} {} {}\n", content.len(), hex::encode(content)),
    }
}
