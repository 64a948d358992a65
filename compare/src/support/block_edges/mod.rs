//! Files of blocks at the edges of request F-4, each with calls and the lines that are
//! written of them, worked out by hand.

use super::block_calls::{done_line, part_line, refused_line, Call};
use super::blocks::{Bytes, Head, CONTENT_AT, PROGRAM};
use crate::blocks::{BLOCK, CONTENT};
use crate::table::MOST_BYTES;
use crate::Refusal;

mod files;
mod good;
mod whole;

/// Two files of about as many blocks as are allowed.
pub const LONGEST: [&str; 2] = ["the last of 64 blocks", "65 blocks"];

pub struct BlockEdge {
    pub name: String,
    pub file: Vec<u8>,
    pub calls: Vec<(Call, String)>,
}

pub fn edges() -> Vec<BlockEdge> {
    let mut edges = files::edges();
    edges.extend(good::edges());
    edges.extend(whole::edges());
    edges
}

/// A file without calls.
fn edge(name: impl Into<String>, file: impl Into<Vec<u8>>) -> BlockEdge {
    BlockEdge {
        name: name.into(),
        file: file.into(),
        calls: Vec::new(),
    }
}

fn blocks(name: impl Into<String>, blocks: &[Bytes]) -> BlockEdge {
    edge(name, blocks.concat())
}

impl BlockEdge {
    fn call(mut self, call: Call, line: String) -> BlockEdge {
        self.calls.push((call, line));
        self
    }

    fn fetch(self, program: u16, line: String) -> BlockEdge {
        let length = MOST_BYTES as u16;
        self.call(Call::Fetch { program, length }, line)
    }

    fn gives(self, edition: u16, table: impl AsRef<[u8]>) -> BlockEdge {
        self.gives_of(PROGRAM, edition, table)
    }

    /// All parts but the last are full, so that the length tells how many there are.
    fn gives_of(self, program: u16, edition: u16, table: impl AsRef<[u8]>) -> BlockEdge {
        let table = table.as_ref();
        let parts = table.len().div_ceil(CONTENT);
        self.fetch(program, done_line(table, edition, parts))
    }

    fn refused(self, number: u32) -> BlockEdge {
        self.refused_of(PROGRAM, number)
    }

    fn refused_of(self, program: u16, number: u32) -> BlockEdge {
        self.fetch(program, refused_line(Refusal::whole(number)))
    }

    /// This part of the edition is the used content, of so many bytes, of that block.
    fn part(self, (edition, part): (u16, u8), block: usize, used: usize) -> BlockEdge {
        let from = block * BLOCK + CONTENT_AT;
        let line = part_line(from, &self.file[from..from + used]);
        self.part_line(edition, part, line)
    }

    fn no_part(self, edition: u16, part: u8) -> BlockEdge {
        self.part_line(edition, part, part_line(0, &[]))
    }

    fn part_line(self, edition: u16, part: u8, line: String) -> BlockEdge {
        let program = PROGRAM;
        let call = Call::Part {
            program,
            edition,
            part,
        };
        self.call(call, line)
    }
}

/// A block of edition 1.
fn block(part: u8, parts: u8, content: &[u8]) -> Bytes {
    block_of(1, part, parts, content)
}

/// An edition of one part.
fn alone(edition: u16, content: &[u8]) -> Bytes {
    block_of(edition, 0, 1, content)
}

fn block_of(edition: u16, part: u8, parts: u8, content: &[u8]) -> Bytes {
    Head::new(PROGRAM, edition, part, parts).block(content)
}

/// Content that fills a block, all of it this byte.
fn full(byte: u8) -> Vec<u8> {
    vec![byte; CONTENT]
}

/// No two parts of a table of this kind are the same.
fn table(length: usize) -> Vec<u8> {
    (0..length).map(|at| (at % 251 + at / 251) as u8).collect()
}
