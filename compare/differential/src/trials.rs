//! A call with all that it is lent, ready to be made on either side: a trial of the
//! comparison. Start sets by trial, F-13, are but one of the calls, `Trying`.

use compare::first_tick::reaches;
use compare::instant::SIGNALS;
use compare::support::calls::{Calls, FIGURES};
use compare::support::cases::{Call, Case};
use compare::support::{narrowings, questions, tried};
use compare::table::MOST_BYTES;
use compare::tick::TICK_ANSWERS;

use crate::guarded::Guarded;

pub trait Trial: Clone + PartialEq {
    fn name(&self) -> &'static str;

    /// Makes the call on the buffers, and hands back what it returns.
    fn call(&mut self, calls: &Calls) -> u32;

    /// The same with an answer of so many entries.
    fn with_answer(self, length: usize) -> Self;

    /// Each buffer by its name, in hexadecimal.
    fn buffers(&self) -> Vec<(&'static str, String)>;
}

#[derive(Clone, PartialEq)]
pub struct Analysis {
    pub table: Guarded<u8>,
    pub start_sets: Guarded<u64>,
    pub any_sets: Guarded<u64>,
    pub contexts: Guarded<u64>,
    pub marks: Guarded<u8>,
    pub answer: Guarded<u64>,
}

impl Analysis {
    /// With buffers of exactly the lengths needed.
    pub fn new(table: &[u8]) -> Analysis {
        Analysis::with_lengths(table, [table.len() / 2; 4])
    }

    /// The lengths of K, A, S and marks.
    pub fn with_lengths(table: &[u8], lengths: [usize; 4]) -> Analysis {
        Analysis {
            table: Guarded::with(table),
            start_sets: Guarded::untouched(lengths[0]),
            any_sets: Guarded::untouched(lengths[1]),
            contexts: Guarded::untouched(lengths[2]),
            marks: Guarded::untouched(lengths[3]),
            answer: Guarded::untouched(FIGURES),
        }
    }
}

impl Trial for Analysis {
    fn name(&self) -> &'static str {
        "analyse"
    }

    fn call(&mut self, calls: &Calls) -> u32 {
        (calls.analyse)(
            self.table.lent(),
            self.start_sets.lent(),
            self.any_sets.lent(),
            self.contexts.lent(),
            self.marks.lent(),
            self.answer.lent(),
        )
    }

    fn with_answer(self, length: usize) -> Analysis {
        let answer = Guarded::untouched(length);
        Analysis { answer, ..self }
    }

    fn buffers(&self) -> Vec<(&'static str, String)> {
        vec![
            ("table", self.table.hex()),
            ("start sets", self.start_sets.hex()),
            ("any-instant sets", self.any_sets.hex()),
            ("contexts", self.contexts.hex()),
            ("marks", self.marks.hex()),
            ("answer", self.answer.hex()),
        ]
    }
}

#[derive(Clone, PartialEq)]
pub struct Instant {
    call: Call,
    pub table: Guarded<u8>,
    pub answers: Guarded<u8>,
    pub state: Guarded<u8>,
    pub emissions: Guarded<u8>,
    pub answer: Guarded<u64>,
}

impl Instant {
    /// With an emission buffer of exactly the length needed.
    pub fn new(call: Call, table: &[u8], answers: &[u8], state: &[u8]) -> Instant {
        Instant {
            call,
            table: Guarded::with(table),
            answers: Guarded::with(answers),
            state: Guarded::with(state),
            emissions: Guarded::untouched(SIGNALS),
            answer: Guarded::untouched(FIGURES),
        }
    }

    pub fn of(case: &Case) -> Instant {
        let mut trial = Instant::new(case.call, &case.table, &case.answers, &case.state);
        trial.emissions = Guarded::with(&case.emissions());
        trial
    }
}

impl Trial for Instant {
    fn name(&self) -> &'static str {
        match self.call {
            Call::Start => "start",
            Call::Resume => "resume",
        }
    }

    fn call(&mut self, calls: &Calls) -> u32 {
        let call = match self.call {
            Call::Start => calls.start,
            Call::Resume => calls.resume,
        };
        call(
            self.table.lent(),
            self.answers.lent(),
            self.state.lent(),
            self.emissions.lent(),
            self.answer.lent(),
        )
    }

    fn with_answer(self, length: usize) -> Instant {
        let answer = Guarded::untouched(length);
        Instant { answer, ..self }
    }

    fn buffers(&self) -> Vec<(&'static str, String)> {
        vec![
            ("table", self.table.hex()),
            ("answers", self.answers.hex()),
            ("state", self.state.hex()),
            ("emissions", self.emissions.hex()),
            ("answer", self.answer.hex()),
        ]
    }
}

#[derive(Clone, PartialEq)]
pub struct Rendering {
    pub table: Guarded<u8>,
    pub text: Guarded<u8>,
    pub answer: Guarded<u64>,
}

impl Rendering {
    pub fn new(table: &[u8], text_length: usize) -> Rendering {
        Rendering {
            table: Guarded::with(table),
            text: Guarded::untouched(text_length),
            answer: Guarded::untouched(FIGURES),
        }
    }
}

impl Trial for Rendering {
    fn name(&self) -> &'static str {
        "render"
    }

    fn call(&mut self, calls: &Calls) -> u32 {
        (calls.render)(self.table.lent(), self.text.lent(), self.answer.lent())
    }

    fn with_answer(self, length: usize) -> Rendering {
        let answer = Guarded::untouched(length);
        Rendering { answer, ..self }
    }

    fn buffers(&self) -> Vec<(&'static str, String)> {
        vec![
            ("table", self.table.hex()),
            ("text", self.text.hex()),
            ("answer", self.answer.hex()),
        ]
    }
}

#[derive(Clone, PartialEq)]
pub struct Reading {
    pub text: Guarded<u8>,
    pub table: Guarded<u8>,
    pub answer: Guarded<u64>,
}

impl Reading {
    /// With a table of exactly the length needed.
    pub fn new(text: &[u8]) -> Reading {
        Reading::with_table(text, MOST_BYTES)
    }

    pub fn with_table(text: &[u8], table_length: usize) -> Reading {
        Reading {
            text: Guarded::with(text),
            table: Guarded::untouched(table_length),
            answer: Guarded::untouched(FIGURES),
        }
    }
}

impl Trial for Reading {
    fn name(&self) -> &'static str {
        "read"
    }

    fn call(&mut self, calls: &Calls) -> u32 {
        (calls.read)(self.text.lent(), self.table.lent(), self.answer.lent())
    }

    fn with_answer(self, length: usize) -> Reading {
        let answer = Guarded::untouched(length);
        Reading { answer, ..self }
    }

    fn buffers(&self) -> Vec<(&'static str, String)> {
        vec![
            ("text", self.text.hex()),
            ("table", self.table.hex()),
            ("answer", self.answer.hex()),
        ]
    }
}

#[derive(Clone, PartialEq)]
pub struct Placing {
    pub text: Guarded<u8>,
    pub answer: Guarded<u64>,
}

impl Placing {
    pub fn new(text: &[u8]) -> Placing {
        Placing {
            text: Guarded::with(text),
            answer: Guarded::untouched(FIGURES),
        }
    }
}

impl Trial for Placing {
    fn name(&self) -> &'static str {
        "read_place"
    }

    fn call(&mut self, calls: &Calls) -> u32 {
        (calls.read_place)(self.text.lent(), self.answer.lent())
    }

    fn with_answer(self, length: usize) -> Placing {
        let answer = Guarded::untouched(length);
        Placing { answer, ..self }
    }

    fn buffers(&self) -> Vec<(&'static str, String)> {
        vec![("text", self.text.hex()), ("answer", self.answer.hex())]
    }
}

/// Which answers are to be found for a table.
#[derive(Clone, Copy, PartialEq)]
enum Goal {
    Tick,
    MostEntries,
}

#[derive(Clone, PartialEq)]
pub struct Finding {
    goal: Goal,
    pub table: Guarded<u8>,
    pub answers: Guarded<u8>,
    pub answer: Guarded<u64>,
}

impl Finding {
    /// With answers of exactly the length needed.
    pub fn new(table: &[u8]) -> Finding {
        Finding::with_answers(table, TICK_ANSWERS)
    }

    pub fn with_answers(table: &[u8], answers_length: usize) -> Finding {
        Finding {
            goal: Goal::Tick,
            table: Guarded::with(table),
            answers: Guarded::untouched(answers_length),
            answer: Guarded::untouched(FIGURES),
        }
    }

    /// The same buffers, lent for the answers that give the most entries.
    pub fn of_most_entries(self) -> Finding {
        let goal = Goal::MostEntries;
        Finding { goal, ..self }
    }

    /// After such a call that is not refused: whether the list is a reason for the number.
    pub fn reaches(&mut self) -> bool {
        let length = self.answer.lent()[1] as usize;
        reaches(self.table.lent(), &self.answers.lent()[..length])
    }
}

impl Trial for Finding {
    fn name(&self) -> &'static str {
        match self.goal {
            Goal::Tick => "tick",
            Goal::MostEntries => "first_tick_answers",
        }
    }

    fn call(&mut self, calls: &Calls) -> u32 {
        let find = match self.goal {
            Goal::Tick => calls.tick,
            Goal::MostEntries => calls.first_tick_answers,
        };
        find(self.table.lent(), self.answers.lent(), self.answer.lent())
    }

    fn with_answer(self, length: usize) -> Finding {
        let answer = Guarded::untouched(length);
        Finding { answer, ..self }
    }

    fn buffers(&self) -> Vec<(&'static str, String)> {
        vec![
            ("table", self.table.hex()),
            ("answers", self.answers.hex()),
            ("answer", self.answer.hex()),
        ]
    }
}

#[derive(Clone, PartialEq)]
pub struct Planning {
    pub table: Guarded<u8>,
    pub answer: Guarded<u64>,
}

impl Planning {
    pub fn new(table: &[u8]) -> Planning {
        Planning {
            table: Guarded::with(table),
            answer: Guarded::untouched(FIGURES),
        }
    }
}

impl Trial for Planning {
    fn name(&self) -> &'static str {
        "first_tick"
    }

    fn call(&mut self, calls: &Calls) -> u32 {
        (calls.first_tick)(self.table.lent(), self.answer.lent())
    }

    fn with_answer(self, length: usize) -> Planning {
        let answer = Guarded::untouched(length);
        Planning { answer, ..self }
    }

    fn buffers(&self) -> Vec<(&'static str, String)> {
        vec![("table", self.table.hex()), ("answer", self.answer.hex())]
    }
}

#[derive(Clone, PartialEq)]
pub struct Fetching {
    pub file: Guarded<u8>,
    program: u16,
    pub table: Guarded<u8>,
    pub answer: Guarded<u64>,
}

impl Fetching {
    /// With a table of exactly the length needed.
    pub fn new(file: &[u8], program: u16) -> Fetching {
        Fetching::with_table(file, program, MOST_BYTES)
    }

    pub fn with_table(file: &[u8], program: u16, table_length: usize) -> Fetching {
        Fetching {
            file: Guarded::with(file),
            program,
            table: Guarded::untouched(table_length),
            answer: Guarded::untouched(FIGURES),
        }
    }
}

impl Trial for Fetching {
    fn name(&self) -> &'static str {
        "fetch"
    }

    fn call(&mut self, calls: &Calls) -> u32 {
        let (file, table) = (self.file.lent(), self.table.lent());
        (calls.fetch)(file, self.program, table, self.answer.lent())
    }

    fn with_answer(self, length: usize) -> Fetching {
        let answer = Guarded::untouched(length);
        Fetching { answer, ..self }
    }

    fn buffers(&self) -> Vec<(&'static str, String)> {
        vec![
            ("file", self.file.hex()),
            ("program", self.program.to_string()),
            ("table", self.table.hex()),
            ("answer", self.answer.hex()),
        ]
    }
}

#[derive(Clone, PartialEq)]
pub struct Taking {
    pub file: Guarded<u8>,
    /// Program and edition.
    of: (u16, u16),
    part: u8,
    pub answer: Guarded<u64>,
}

impl Taking {
    pub fn new(file: &[u8], of: (u16, u16), part: u8) -> Taking {
        Taking {
            file: Guarded::with(file),
            of,
            part,
            answer: Guarded::untouched(FIGURES),
        }
    }
}

impl Trial for Taking {
    fn name(&self) -> &'static str {
        "part"
    }

    fn call(&mut self, calls: &Calls) -> u32 {
        let (program, edition) = self.of;
        (calls.part)(
            self.file.lent(),
            program,
            edition,
            self.part,
            self.answer.lent(),
        )
    }

    fn with_answer(self, length: usize) -> Taking {
        let answer = Guarded::untouched(length);
        Taking { answer, ..self }
    }

    fn buffers(&self) -> Vec<(&'static str, String)> {
        let (program, edition) = self.of;
        vec![
            ("file", self.file.hex()),
            ("program", program.to_string()),
            ("edition", edition.to_string()),
            ("part", self.part.to_string()),
            ("answer", self.answer.hex()),
        ]
    }
}

#[derive(Clone, PartialEq)]
pub struct Narrowing {
    pub table: Guarded<u8>,
    pub ties: Guarded<u8>,
    pub sets: Guarded<u64>,
    pub answer: Guarded<u64>,
}

impl Narrowing {
    /// With exactly as many sets as are needed.
    pub fn new(table: &[u8], ties: &[u8]) -> Narrowing {
        Narrowing::with_sets(table, ties, table.len() / 2)
    }

    pub fn with_sets(table: &[u8], ties: &[u8], sets: usize) -> Narrowing {
        Narrowing {
            table: Guarded::with(table),
            ties: Guarded::with(ties),
            sets: Guarded::untouched(sets),
            answer: Guarded::untouched(FIGURES),
        }
    }

    pub fn of(case: &narrowings::Case) -> Narrowing {
        Narrowing::with_sets(&case.table, &case.ties, case.lent)
    }
}

impl Trial for Narrowing {
    fn name(&self) -> &'static str {
        "narrow"
    }

    fn call(&mut self, calls: &Calls) -> u32 {
        (calls.narrow)(
            self.table.lent(),
            self.ties.lent(),
            self.sets.lent(),
            self.answer.lent(),
        )
    }

    fn with_answer(self, length: usize) -> Narrowing {
        let answer = Guarded::untouched(length);
        Narrowing { answer, ..self }
    }

    fn buffers(&self) -> Vec<(&'static str, String)> {
        vec![
            ("table", self.table.hex()),
            ("ties", self.ties.hex()),
            ("sets", self.sets.hex()),
            ("answer", self.answer.hex()),
        ]
    }
}

#[derive(Clone, PartialEq)]
pub struct Asking {
    pub table: Guarded<u8>,
    /// Node and code.
    question: (u64, u64),
    pub answer: Guarded<u64>,
}

impl Asking {
    pub fn new(table: &[u8], node: u64, code: u64) -> Asking {
        Asking {
            table: Guarded::with(table),
            question: (node, code),
            answer: Guarded::untouched(FIGURES),
        }
    }

    pub fn of(case: &questions::Case) -> Asking {
        Asking::new(&case.table, case.node, case.code)
    }
}

impl Trial for Asking {
    fn name(&self) -> &'static str {
        "ask"
    }

    fn call(&mut self, calls: &Calls) -> u32 {
        let (node, code) = self.question;
        (calls.ask)(self.table.lent(), node, code, self.answer.lent())
    }

    fn with_answer(self, length: usize) -> Asking {
        let answer = Guarded::untouched(length);
        Asking { answer, ..self }
    }

    fn buffers(&self) -> Vec<(&'static str, String)> {
        let (node, code) = self.question;
        vec![
            ("table", self.table.hex()),
            ("node", node.to_string()),
            ("code", code.to_string()),
            ("answer", self.answer.hex()),
        ]
    }
}

/// The start set of a node by trial, as F-13 calls it.
#[derive(Clone, PartialEq)]
pub struct Trying {
    pub table: Guarded<u8>,
    node: u64,
    pub answer: Guarded<u64>,
}

impl Trying {
    pub fn new(table: &[u8], node: u64) -> Trying {
        Trying {
            table: Guarded::with(table),
            node,
            answer: Guarded::untouched(FIGURES),
        }
    }

    pub fn of(case: &tried::Case) -> Trying {
        Trying::new(&case.table, case.node)
    }
}

impl Trial for Trying {
    fn name(&self) -> &'static str {
        "trial"
    }

    fn call(&mut self, calls: &Calls) -> u32 {
        (calls.trial)(self.table.lent(), self.node, self.answer.lent())
    }

    fn with_answer(self, length: usize) -> Trying {
        let answer = Guarded::untouched(length);
        Trying { answer, ..self }
    }

    fn buffers(&self) -> Vec<(&'static str, String)> {
        vec![
            ("table", self.table.hex()),
            ("node", self.node.to_string()),
            ("answer", self.answer.hex()),
        ]
    }
}
