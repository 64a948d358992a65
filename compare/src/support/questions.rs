//! Questions for a node and a code, and how the generator writes them and their outcomes.

use super::random::Random;
use crate::checks::{self, Program};
use crate::listing::refusal_line;
use crate::question::{has, LAST_CODE};
use crate::table::Statement;
use crate::{ask, Known, Refusal};

/// A case of the generator has no more bytes of table.
pub const MOST_TABLE: usize = 2060;

/// All codes that a set can have, and one more.
pub const CODES: std::ops::RangeInclusive<u64> = 0..=LAST_CODE + 1;

/// Nodes and codes that are others, or small ones, if they lose their higher bits.
pub const HUGE: [u64; 12] = [
    1 << 7,
    1 << 8,
    (1 << 8) + 1,
    1 << 15,
    1 << 16,
    (1 << 16) + 1,
    u32::MAX as u64,
    1 << 32,
    (1 << 32) + 1,
    1 << 63,
    u64::MAX - 1,
    u64::MAX,
];

#[derive(Clone, Debug, PartialEq, Eq)]
pub struct Case {
    pub table: Vec<u8>,
    pub node: u64,
    pub code: u64,
}

impl Case {
    pub fn new(table: &[u8], node: u64, code: u64) -> Case {
        Case {
            table: table.to_vec(),
            node,
            code,
        }
    }

    /// The case as the input file holds it.
    pub fn encode(&self) -> Vec<u8> {
        encoded(&self.table, &[self.node, self.code])
    }

    pub fn run(&self) -> Result<Known, Refusal> {
        ask(&self.table, self.node, self.code)
    }

    /// The answer from the full listing, and the count from each node by itself.
    pub fn by_sentences(&self) -> Result<Known, Refusal> {
        let program = checks::accept(&self.table, |_| true)?;
        let size = program.tree.size();
        if self.node >= size as u64 {
            return Err(Refusal::whole(21));
        }
        let (asked, code) = (self.node as usize, self.code);
        let nodes = (0..size).filter(|&node| is_looked_at(&program, asked, code, node));
        Ok(Known {
            is_in: code <= LAST_CODE && has(program.start_sets[asked], code),
            count: nodes.count(),
        })
    }
}

/// A table behind its length and some numbers.
pub fn encoded(table: &[u8], numbers: &[u64]) -> Vec<u8> {
    let length = table.len();
    assert!(length <= MOST_TABLE, "{length} is more than {MOST_TABLE}");
    let mut case = (length as u16).to_le_bytes().to_vec();
    case.extend(numbers.iter().flat_map(|number| number.to_le_bytes()));
    case.extend(table);
    case
}

/// Whether a node is looked at when another one, or the same, is asked for a code: from the
/// node asked down to this one, by what each sentence says of the child on the way.
pub fn is_looked_at(program: &Program, asked: usize, code: u64, node: usize) -> bool {
    let is_within = |child: usize| (program.tree.lowest[child]..=child).contains(&node);
    let in_set = |child: usize, code: u64| has(program.start_sets[child], code);
    let passed_to = |child, code| is_looked_at(program, child, code, node);
    if code > LAST_CODE || !is_within(asked) {
        return false;
    }
    if node == asked {
        return true;
    }
    match program.tree.statements[asked] {
        Statement::Signal { body } | Statement::Suspend { body } => passed_to(body, code),
        Statement::Loop { body } => code > 0 && passed_to(body, code),
        Statement::Trap { body } => match code {
            0 => true,
            1 => passed_to(body, 1),
            _ => passed_to(body, code + 1),
        },
        Statement::Present { then, otherwise } => {
            passed_to(then, code) || (!in_set(then, code) && passed_to(otherwise, code))
        }
        Statement::Sequence { first, second } => {
            let is_asked = in_set(first, 0) && (code == 0 || !in_set(first, code));
            is_within(first) || (is_asked && passed_to(second, code))
        }
        Statement::Parallel { .. } => true,
        _ => unreachable!("there is no node within a statement without children"),
    }
}

/// An outcome as a line of the expected output.
pub fn line(outcome: &Result<Known, Refusal>) -> String {
    match *outcome {
        Ok(Known { is_in, count }) => format!("known {} {count}\n", u8::from(is_in)),
        Err(refusal) => refusal_line(refusal),
    }
}

/// Every node of a table, with every code of `CODES`.
pub fn every_question(table: &[u8]) -> impl Iterator<Item = (u64, u64)> {
    let nodes = 0..table.len() as u64 / 2;
    nodes.flat_map(|node| CODES.map(move |code| (node, code)))
}

/// A node of a table, now and then one outside, and a code: mostly one of the first, as
/// large tables have hardly others, and else any up to the last, or one that is above it.
pub fn any_question(random: &mut Random, table: &[u8]) -> (u64, u64) {
    let size = table.len() / 2;
    let node = match random.below(20) {
        0 => (size + random.below(3)) as u64,
        1 => *random.pick(&HUGE),
        2..7 => size.saturating_sub(1 + random.below(3)) as u64,
        _ => random.below(size.max(1)) as u64,
    };
    let code = match random.below(20) {
        0 => random.between(60, 66) as u64,
        1 => *random.pick(&HUGE),
        2..6 => random.below(64) as u64,
        _ => random.below(5) as u64,
    };
    (node, code)
}
