//! An instant to try: what is lent to the call, and how it is written down.

use super::hex;
use super::random::Random;
use crate::{held_nodes, resume, start, Closed, Refusal};

/// Enough answers for a first try of any drawn program.
const PLENTY: usize = 5000;

#[derive(Clone, Copy, Debug, PartialEq, Eq, Hash)]
pub enum Call {
    Start,
    Resume,
}

#[derive(Clone, Debug)]
pub struct Case {
    pub call: Call,
    pub table: Vec<u8>,
    pub answers: Vec<u8>,
    pub state: Vec<u8>,
    /// The emission buffer before the call: its length, and its byte 0.
    /// Each further byte is one more than the one before, modulo 256.
    pub emissions_length: usize,
    pub emissions_first: u8,
}

/// The answer of a call, and the whole buffers after it.
#[derive(Clone, Debug, PartialEq, Eq)]
pub struct Outcome {
    pub answer: Result<Closed, Refusal>,
    pub state: Vec<u8>,
    pub emissions: Vec<u8>,
}

impl Case {
    /// A case with an emission buffer that is long enough.
    pub fn new(random: &mut Random, call: Call, table: &[u8], state: &[u8]) -> Case {
        Case {
            call,
            table: table.to_vec(),
            answers: Vec::new(),
            state: state.to_vec(),
            emissions_length: *random.pick(&[256, 256, 256, 257, 260, 300]),
            emissions_first: random.byte(),
        }
    }

    pub fn answered(mut self, answers: &[u8]) -> Case {
        self.answers = answers.to_vec();
        self
    }

    /// The case with exactly as many random answers as it takes, or with two
    /// if it is refused.
    pub fn with_exact_answers(self, random: &mut Random) -> Case {
        let answers = random_answers(random, PLENTY);
        let tried = self.clone().answered(&answers).run();
        match tried.answer {
            Ok(closed) => self.answered(&answers[..closed.taken]),
            Err(_) => self.answered(&answers[..2]),
        }
    }

    /// The case with starved, overlong and exact answers.
    pub fn with_all_counts(self, random: &mut Random) -> Vec<Case> {
        let mut cases = Vec::new();
        let exact = self.with_exact_answers(random);
        if let Some(fewer) = exact.answers.len().checked_sub(1) {
            cases.push(exact.clone().answered(&exact.answers[..fewer]));
            cases.push(exact.clone().answered(&[]));
        }
        if random.one_in(3) {
            let mut longer = exact.answers.clone();
            longer.extend(random_answers(random, 3));
            cases.push(exact.clone().answered(&longer));
        }
        cases.push(exact);
        cases
    }

    /// The pauses that are held before the instant, or none for a start.
    pub fn before(&self) -> Option<Vec<usize>> {
        match self.call {
            Call::Start => None,
            Call::Resume => Some(held_nodes(&self.state)),
        }
    }

    /// The emission buffer before the call.
    pub fn emissions(&self) -> Vec<u8> {
        (0..self.emissions_length)
            .map(|at| self.emissions_first.wrapping_add(at as u8))
            .collect()
    }

    pub fn run(&self) -> Outcome {
        let mut state = self.state.clone();
        let mut emissions = self.emissions();
        let call = match self.call {
            Call::Start => start,
            Call::Resume => resume,
        };
        let answer = call(&self.table, &self.answers, &mut state, &mut emissions);
        Outcome {
            answer,
            state,
            emissions,
        }
    }

    /// The case as the input file holds it.
    pub fn encode(&self) -> Vec<u8> {
        let mut bytes = vec![match self.call {
            Call::Start => 0,
            Call::Resume => 1,
        }];
        for length in [
            self.table.len(),
            self.answers.len(),
            self.state.len(),
            self.emissions_length,
        ] {
            let length = u16::try_from(length).expect("a length of two bytes");
            bytes.extend(length.to_le_bytes());
        }
        bytes.push(self.emissions_first);
        bytes.extend(&self.table);
        bytes.extend(&self.answers);
        bytes.extend(&self.state);
        bytes
    }
}

impl Outcome {
    /// The outcome as a line of the expected output.
    pub fn line(&self, case: &Case) -> String {
        let answer = match self.answer {
            Ok(Closed {
                code,
                taken,
                entries,
            }) => format!("closed {code} {taken} {entries}"),
            Err(Refusal { number, node }) => format!("refused {number} {node}"),
        };
        let state = if self.state.is_empty() {
            "-".to_string()
        } else {
            hex::encode(&self.state)
        };
        let emissions = if self.emissions == case.emissions() {
            " =".to_string()
        } else {
            others(&self.emissions)
        };
        format!("{answer} {state}{emissions}\n")
    }
}

/// Absent half of the time; present in different bytes.
fn random_answers(random: &mut Random, count: usize) -> Vec<u8> {
    (0..count)
        .map(|_| *random.pick(&[0, 0, 0, 1, 2, 255]))
        .collect()
}

/// The bytes that are not 0, each with its place.
fn others(bytes: &[u8]) -> String {
    let held = bytes.iter().enumerate().filter(|(_, byte)| **byte != 0);
    held.map(|(at, byte)| format!(" {at}:{byte:02x}")).collect()
}
