//! The calls in the form that the archive `libabi.a` has them. Returned is 0, or
//! number + 256 * node of a refusal. After 0 the answer is three figures at the
//! front of a lent buffer; a refusal changes no buffer. In this form one program
//! can run either implementation.

use crate::{table, Closed, Refusal};

/// Table, start sets, any-instant sets, contexts, marks, answer.
pub type Analyse = fn(&[u8], &mut [u64], &mut [u64], &mut [u64], &mut [u8], &mut [u64]) -> u32;
/// Table, answers, state, emissions, answer.
pub type Instant = fn(&[u8], &[u8], &mut [u8], &mut [u8], &mut [u64]) -> u32;
/// Table, text, answer.
pub type Render = fn(&[u8], &mut [u8], &mut [u64]) -> u32;
/// Text, table, answer.
pub type Read = fn(&[u8], &mut [u8], &mut [u64]) -> u32;
/// Text, answer.
pub type ReadPlace = fn(&[u8], &mut [u64]) -> u32;
/// Table, answers, answer.
pub type Tick = fn(&[u8], &mut [u8], &mut [u64]) -> u32;
/// File, program, table, answer.
pub type Fetch = fn(&[u8], u16, &mut [u8], &mut [u64]) -> u32;
/// File, program, edition, part, answer.
pub type Part = fn(&[u8], u16, u16, u8, &mut [u64]) -> u32;
/// Table, ties, sets, answer.
pub type Narrow = fn(&[u8], &[u8], &mut [u64], &mut [u64]) -> u32;
/// Table, answer.
pub type FirstTick = fn(&[u8], &mut [u64]) -> u32;
/// Table, answers, answer.
pub type FirstTickAnswers = fn(&[u8], &mut [u8], &mut [u64]) -> u32;
/// Table, node, code, answer.
pub type Ask = fn(&[u8], u64, u64, &mut [u64]) -> u32;
/// Table, node, answer.
pub type ByTrial = fn(&[u8], u64, &mut [u64]) -> u32;

#[derive(Clone, Copy)]
pub struct Calls {
    pub analyse: Analyse,
    pub start: Instant,
    pub resume: Instant,
    pub render: Render,
    pub read: Read,
    pub read_place: ReadPlace,
    pub tick: Tick,
    pub fetch: Fetch,
    pub part: Part,
    pub narrow: Narrow,
    pub first_tick: FirstTick,
    pub first_tick_answers: FirstTickAnswers,
    pub ask: Ask,
    pub trial: ByTrial,
}

/// The calls of this implementation.
pub const COMPARE: Calls = Calls {
    analyse,
    start,
    resume,
    render,
    read,
    read_place,
    tick,
    fetch,
    part,
    narrow,
    first_tick,
    first_tick_answers,
    ask,
    trial,
};

/// The figures of an answer, and the entries that its buffer must have.
pub const FIGURES: usize = 3;

fn analyse(
    table: &[u8],
    start_sets: &mut [u64],
    any_sets: &mut [u64],
    contexts: &mut [u64],
    marks: &mut [u8],
    answer: &mut [u64],
) -> u32 {
    returned(|| {
        let front = front_after_length(table, answer)?;
        let (nodes, loops) = crate::analyse(table, start_sets, any_sets, contexts, marks)?;
        *front = [nodes as u64, loops as u64, 0];
        Ok(())
    })
}

fn start(
    table: &[u8],
    answers: &[u8],
    state: &mut [u8],
    emissions: &mut [u8],
    answer: &mut [u64],
) -> u32 {
    returned(|| {
        let front = front_after_length(table, answer)?;
        *front = figures(crate::start(table, answers, state, emissions)?);
        Ok(())
    })
}

fn resume(
    table: &[u8],
    answers: &[u8],
    state: &mut [u8],
    emissions: &mut [u8],
    answer: &mut [u64],
) -> u32 {
    returned(|| {
        let front = front_after_length(table, answer)?;
        *front = figures(crate::resume(table, answers, state, emissions)?);
        Ok(())
    })
}

/// A refused table has its line as the text; only a buffer that is too short is
/// refused.
fn render(table: &[u8], text: &mut [u8], answer: &mut [u64]) -> u32 {
    returned(|| {
        let front = front(answer)?;
        let listing = crate::listing(table);
        let lines = text.get_mut(..listing.len()).ok_or(Refusal::whole(3))?;
        lines.copy_from_slice(listing.as_bytes());
        *front = [listing.len() as u64, 0, 0];
        Ok(())
    })
}

/// Check 3 of the answer comes first, as that of the table does.
fn read(text: &[u8], table: &mut [u8], answer: &mut [u64]) -> u32 {
    returned(|| {
        let front = front(answer)?;
        let (nodes, signals) = crate::read(text, table)?;
        *front = [nodes as u64, signals as u64, 0];
        Ok(())
    })
}

/// The figures are the number, node and place of the text's refusal, all 0 for a text that is
/// read. Only an answer that is too short is refused.
fn read_place(text: &[u8], answer: &mut [u64]) -> u32 {
    returned(|| {
        let front = front(answer)?;
        *front = crate::read_place(text).map_or([0; FIGURES], |placed| {
            let Refusal { number, node } = placed.refusal;
            [u64::from(number), node as u64, placed.place as u64]
        });
        Ok(())
    })
}

/// The figures are 1, node and length for a loop whose body ends, else 0, nodes and loop
/// depth.
fn tick(table: &[u8], answers: &mut [u8], answer: &mut [u64]) -> u32 {
    returned(|| {
        let front = front_after_length(table, answer)?;
        *front = match crate::find_tick(table, answers)? {
            crate::Tick::Ends { node, length } => [1, node as u64, length as u64],
            crate::Tick::Accepted { nodes, loops } => [0, nodes as u64, loops as u64],
        };
        Ok(())
    })
}

/// The figures are the length of the table, the edition and the number of parts. Check 3
/// comes as in `read`.
fn fetch(file: &[u8], program: u16, table: &mut [u8], answer: &mut [u64]) -> u32 {
    returned(|| {
        let front = front(answer)?;
        let fetched = crate::fetch(file, program, table)?;
        *front = [
            fetched.length as u64,
            u64::from(fetched.edition),
            fetched.parts as u64,
        ];
        Ok(())
    })
}

/// The figures are the place in the file where the part begins, its length, and 0.
fn part(file: &[u8], program: u16, edition: u16, part: u8, answer: &mut [u64]) -> u32 {
    returned(|| {
        let front = front(answer)?;
        let content = crate::part(file, program, edition, part);
        *front = [place(file, content) as u64, content.len() as u64, 0];
        Ok(())
    })
}

/// The figures are the nodes, 0 and 0.
fn narrow(table: &[u8], ties: &[u8], sets: &mut [u64], answer: &mut [u64]) -> u32 {
    returned(|| {
        let front = front_after_length(table, answer)?;
        let nodes = crate::narrow(table, ties, sets)?;
        *front = [nodes as u64, 0, 0];
        Ok(())
    })
}

/// The figures are the entries, 0 and 0.
fn first_tick(table: &[u8], answer: &mut [u64]) -> u32 {
    returned(|| {
        let front = front_after_length(table, answer)?;
        let entries = crate::first_tick(table)?;
        *front = [entries as u64, 0, 0];
        Ok(())
    })
}

/// The figures are the entries, the length of the list and 0.
fn first_tick_answers(table: &[u8], answers: &mut [u8], answer: &mut [u64]) -> u32 {
    returned(|| {
        let front = front_after_length(table, answer)?;
        let (entries, length) = crate::first_tick_answers(table, answers)?;
        *front = [entries as u64, length as u64, 0];
        Ok(())
    })
}

/// The figures are 1 if the code is in the set, else 0, the nodes looked at and 0.
fn ask(table: &[u8], node: u64, code: u64, answer: &mut [u64]) -> u32 {
    returned(|| {
        let front = front_after_length(table, answer)?;
        let known = crate::ask(table, node, code)?;
        *front = [u64::from(known.is_in), known.count as u64, 0];
        Ok(())
    })
}

/// The figures are the set, the presents in the node and 0.
fn trial(table: &[u8], node: u64, answer: &mut [u64]) -> u32 {
    returned(|| {
        let front = front_after_length(table, answer)?;
        let tried = crate::trial(table, node)?;
        *front = [tried.set, tried.presents as u64, 0];
        Ok(())
    })
}

/// Where a part of the file begins in it.
pub fn place(file: &[u8], part: &[u8]) -> usize {
    part.as_ptr().addr() - file.as_ptr().addr()
}

fn figures(closed: Closed) -> [u64; FIGURES] {
    [
        u64::from(closed.code),
        closed.taken as u64,
        closed.entries as u64,
    ]
}

/// The place of the figures. An answer without it is too short, by check 3.
fn front(answer: &mut [u64]) -> Result<&mut [u64; FIGURES], Refusal> {
    answer.first_chunk_mut().ok_or(Refusal::whole(3))
}

/// Check 3 comes after checks 1 and 2 of the table.
fn front_after_length<'a>(
    table: &[u8],
    answer: &'a mut [u64],
) -> Result<&'a mut [u64; FIGURES], Refusal> {
    table::measure(table)?;
    front(answer)
}

fn returned(call: impl FnOnce() -> Result<(), Refusal>) -> u32 {
    match call() {
        Ok(()) => 0,
        Err(Refusal { number, node }) => number + 256 * node as u32,
    }
}
