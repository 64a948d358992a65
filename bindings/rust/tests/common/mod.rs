//! Tables, texts and blocks of documents 01 and 02, and filled buffers to lend.

#![allow(dead_code)] // each test file uses a part of this

use bavzhrono::{analyse, narrow, read, read_place, render, resume, start, table_of, tick};
use bavzhrono::{ask, first_tick, first_tick_answers, trial};
use bavzhrono::{
    Analysis, Asked, Closed, CodeSet, Completion, FirstTick, Mark, Placed, Reading, Refusal, State,
    Tick, Trial, BLOCK, MAX_NODES, MAX_TEXT, SIGNALS, STATE_BYTES, TICK_ANSWERS,
};

pub const W1: &[u8] = &[2, 0, 3, 7, 9, 0, 8, 0];
pub const W2: &[u8] = &[1, 0, 8, 0];
pub const W3: &[u8] = &[
    4, 1, 4, 0, 10, 0, 11, 0, 4, 1, 9, 0, 11, 0, 2, 0, 9, 0, 11, 0, 8, 0,
];
pub const W4: &[u8] = &[4, 0, 11, 0, 8, 0];
pub const W5: &[u8] = &[4, 0];
pub const W6: &[u8] = &[1, 0, 2, 0, 6, 5, 8, 0];
pub const W7: &[u8] = &[1, 0, 2, 0, 10, 0];
pub const W8: &[u8] = &[2, 0, 1, 0, 6, 5, 1, 0, 2, 0, 6, 5, 9, 0, 8, 0];
/// The lock program of F-5.
pub const LOCK: &[u8] = &[2, 0, 8, 0, 2, 0, 4, 0, 9, 0, 10, 0, 11, 0, 8, 0];

/// Present 5: then nothing, else pause.
pub const TEST: &[u8] = &[1, 0, 2, 0, 6, 5];
/// Trap around a loop of present 0 then exit, and pause.
pub const LOCK_REQUEST: &[u8] = &[4, 0, 1, 0, 6, 0, 2, 0, 9, 0, 8, 0, 11, 0];
/// In two traps, present 1 then exit 0 else pause, beside present 2 then exit 1.
pub const EXITS: &[u8] = &[4, 0, 2, 0, 6, 1, 4, 1, 1, 0, 6, 2, 10, 0, 11, 0, 11, 0];

/// Tables, and what each is refused with where a lent buffer is too short: 3 comes after 1 and 2 and
/// before the kinds are read.
pub const WITH_SHORT_BUFFERS: [(&[u8], u32); 8] = [
    (&[12; 2050], 1),
    (&[], 2),
    (W1.split_at(7).0, 2),
    (&[12, 0], 3),
    (W1, 3),
    (W2, 3),
    (W5, 3),
    (W8, 3),
];

/// Numbers that no node and no code has, though a part of their bits is one.
pub const LARGE: [u64; 9] = [
    1024,
    (1 << 16) + 1,
    1 << 31,
    1 << 32,
    (1 << 32) + 1,
    (1 << 33) + 2,
    1 << 63,
    (1 << 63) + 1,
    u64::MAX,
];

pub const W1_LISTING: &str =
    "ok 4 1 8\n0 2 0 2 3 1 1\n1 3 7 1 1 0 0\n2 9 0 2 3 1 1\n3 8 0 2 2 0 0\n";

/// A table for each check of a table, with the number and the node that it is refused with.
pub fn refused_tables() -> Vec<(Vec<u8>, u32, usize)> {
    vec![
        (vec![12; 2050], 1, 0),
        (vec![], 2, 0),
        (W1[..7].to_vec(), 2, 0),
        (last_kind_unknown(), 4, 1023),
        (vec![2, 0, 8, 1], 5, 1),
        (vec![9, 0], 6, 0),
        ([W1, W1].concat(), 7, 0),
        (around([1, 0], [5, 0], 256), 8, 0),
        (around([1, 0], [11, 0], 63), 9, 1),
        (W5.to_vec(), 10, 0),
        (W8.to_vec(), 11, 7),
        (full_table_of_nothing(), 11, 1023),
    ]
}

/// Accepted tables, of which each node is asked about and tried.
pub fn accepted() -> Vec<Vec<u8>> {
    vec![
        vec![1, 0],
        W1.to_vec(),
        W3.to_vec(),
        W7.to_vec(),
        W8[..14].to_vec(),
        LOCK.to_vec(),
        LOCK_REQUEST.to_vec(),
        EXITS.to_vec(),
        table_of(b"abort sustain S when T end; await S").unwrap(),
        table_of(b"[await A; emit B || weak abort halt when C end]").unwrap(),
        around([2, 0], [8, 0], 60),
        around([4, 61], [11, 0], 62),
        [vec![4, 61, 2, 0, 6, 0], [11, 0].repeat(62)].concat(),
        [vec![4, 61, 2, 0, 10, 0], [11, 0].repeat(62)].concat(),
    ]
}

/// The bytes of the table that a text is read into.
pub const TABLE_NEED: usize = 2 * MAX_NODES;

/// What stands in every lent byte before a call.
pub const FILL: u8 = 0xa5;
pub const FILL_SET: CodeSet = CodeSet(u64::from_ne_bytes([FILL; 8]));

/// What a function gives that is lent nothing but the answer. The answer has one entry more than
/// needed, which stays; after a refusal all do.
pub fn figures_of(call: impl FnOnce(&mut [u64]) -> u32) -> Result<[u64; 3], u32> {
    let mut answer = [FILL_SET.0; 4];
    let returned = call(&mut answer);
    let [first, second, third, past] = answer;
    assert_eq!(past, FILL_SET.0);
    if returned != 0 {
        assert_eq!([first, second, third], [FILL_SET.0; 3]);
        return Err(returned);
    }
    Ok([first, second, third])
}

/// One buffer for each that a call can write to.
#[derive(Clone, Debug, PartialEq)]
pub struct Buffers {
    pub start_sets: Vec<CodeSet>,
    pub any_sets: Vec<CodeSet>,
    pub contexts: Vec<CodeSet>,
    pub marks: Vec<Mark>,
    pub state: State,
    pub emissions: Vec<u8>,
    pub text: Vec<u8>,
    pub answers: Vec<u8>,
}

impl Buffers {
    /// Filled buffers of the lengths that a table needs, and so many entries more in each but the
    /// state.
    pub fn for_table(table: &[u8], more: usize) -> Buffers {
        let nodes = table.len() / 2 + more;
        Buffers {
            start_sets: vec![FILL_SET; nodes],
            any_sets: vec![FILL_SET; nodes],
            contexts: vec![FILL_SET; nodes],
            marks: vec![Mark(FILL); nodes],
            state: State::from_bytes([FILL; STATE_BYTES]),
            emissions: vec![FILL; SIGNALS + more],
            text: vec![FILL; MAX_TEXT + more],
            answers: vec![FILL; TICK_ANSWERS + more],
        }
    }

    pub fn analyse(&mut self, table: &[u8]) -> Result<Analysis, Refusal> {
        analyse(
            table,
            &mut self.start_sets,
            &mut self.any_sets,
            &mut self.contexts,
            &mut self.marks,
        )
    }

    pub fn start(&mut self, table: &[u8], answers: &[u8]) -> Result<Closed, Refusal> {
        start(table, answers, &mut self.state, &mut self.emissions)
    }

    pub fn resume(&mut self, table: &[u8], answers: &[u8]) -> Result<Closed, Refusal> {
        resume(table, answers, &mut self.state, &mut self.emissions)
    }

    pub fn render(&mut self, table: &[u8]) -> Result<usize, Refusal> {
        render(table, &mut self.text)
    }

    pub fn tick(&mut self, table: &[u8]) -> Result<Tick<'_>, Refusal> {
        tick(table, &mut self.answers)
    }

    /// Into the start sets.
    pub fn narrow(&mut self, table: &[u8], ties: &[u8]) -> Result<usize, Refusal> {
        narrow(table, ties, &mut self.start_sets)
    }

    pub fn first_tick_answers(&mut self, table: &[u8]) -> Result<FirstTick<'_>, Refusal> {
        first_tick_answers(table, &mut self.answers)
    }
}

pub fn refused<T>(number: u32, node: usize) -> Result<T, Refusal> {
    Err(Refusal { number, node })
}

pub fn closed(code: Completion, taken: usize, entries: usize) -> Result<Closed, Refusal> {
    Ok(Closed {
        code,
        taken,
        entries,
    })
}

pub fn asked(member: bool, count: usize) -> Result<Asked, Refusal> {
    Ok(Asked { member, count })
}

pub fn tried(set: u64, presents: usize) -> Result<Trial, Refusal> {
    let set = CodeSet(set);
    Ok(Trial { set, presents })
}

/// Starts the program with these answers.
pub fn started(table: &[u8], answers: &[u8]) -> Result<Closed, Refusal> {
    start(table, answers, &mut State::default(), &mut [0; SIGNALS])
}

/// All lists of so many answers, in the order in which absent comes first.
pub fn lists(answers: usize) -> impl Iterator<Item = Vec<u8>> {
    let list = move |number| (0..answers).rev().map(move |bit| (number >> bit & 1) as u8);
    (0..1_u64 << answers).map(move |number| list(number).collect())
}

/// The state that holds these nodes, by bits that are set here.
pub fn holding(nodes: &[usize]) -> State {
    let mut bytes = [0; STATE_BYTES];
    for node in nodes {
        bytes[node / 8] |= 1 << (node % 8);
    }
    State::from_bytes(bytes)
}

/// The number of nodes of each statement.
pub fn sizes_of(table: &[u8]) -> Vec<usize> {
    let mut sizes = vec![];
    for kind in table.iter().step_by(2) {
        let children = match kind {
            1..=4 => 0,
            6 | 9 | 10 => 2,
            _ => 1,
        };
        let size = (0..children).fold(0, |size, _| size + sizes[sizes.len() - 1 - size]);
        sizes.push(1 + size);
    }
    sizes
}

/// The nodes of the table that are pauses.
pub fn pauses_of(table: &[u8]) -> Vec<usize> {
    let nodes = table.chunks(2).enumerate();
    let pauses = nodes.filter(|(_, bytes)| bytes[0] == 2);
    pauses.map(|(node, _)| node).collect()
}

/// All calls that check the table refuse it at the node and change nothing, and its listing says so.
/// What 11 refuses is shown by one of them, and is tested in `tick.rs`.
pub fn assert_refused(table: &[u8], number: u32, node: usize) {
    let mut lent = Buffers::for_table(table, 1);
    let before = lent.clone();
    assert_eq!(lent.analyse(table), refused(number, node));
    assert_eq!(lent.start(table, &[]), refused(number, node));
    assert_eq!(lent.resume(table, &[]), refused(number, node));
    if number != 11 {
        assert_eq!(lent.tick(table), refused(number, node));
    }
    // Wrong ties come last.
    for tie in [0, FILL] {
        assert_eq!(lent.narrow(table, &[tie; SIGNALS]), refused(number, node));
    }
    assert_eq!(first_tick(table), refused(number, node));
    assert_eq!(lent.first_tick_answers(table), refused(number, node));
    // So do nodes and codes that there are not.
    for asked in [0, usize::MAX] {
        for code in [1, u32::MAX] {
            assert_eq!(ask(table, asked, code), refused(number, node));
        }
        assert_eq!(trial(table, asked), refused(number, node));
    }
    assert_eq!(lent, before);
    assert_eq!(
        bavzhrono::listing(table),
        format!("refused {number} {node}\n")
    );
}

/// Into a table that just suffices and into a longer one, of which only the front changes. The text
/// has no place of a fault.
pub fn assert_read(text: &str, table: &[u8], signals: usize) {
    let nodes = table.len() / 2;
    for more in [0, 5] {
        let mut lent = vec![FILL; TABLE_NEED + more];
        let mut expected = lent.clone();
        expected[..table.len()].copy_from_slice(table);
        let reading = read(text.as_bytes(), &mut lent);
        assert_eq!(reading, Ok(Reading { nodes, signals }), "{text}");
        assert_eq!(lent, expected, "{text}");
    }
    assert_eq!(table_of(text.as_bytes()).as_deref(), Ok(table), "{text}");
    assert_eq!(read_place(text.as_bytes()), None, "{text}");
}

/// Refused with the number and the node, and at the place. The table does not change.
pub fn assert_not_read(text: impl AsRef<[u8]>, number: u32, node: usize, place: usize) {
    let text = text.as_ref();
    let shown = String::from_utf8_lossy(&text[..text.len().min(60)]);
    let mut lent = [FILL; TABLE_NEED];
    assert_eq!(read(text, &mut lent), refused(number, node), "{shown}");
    assert_eq!(lent, [FILL; TABLE_NEED], "{shown}");
    assert_eq!(table_of(text), refused(number, node), "{shown}");
    let refusal = Refusal { number, node };
    let placed = Some(Placed { refusal, place });
    assert_eq!(read_place(text), placed, "{shown}");
}

/// Refused where the caret stands, which is not of the text.
pub fn assert_refused_at(marked: impl AsRef<str>, number: u32) {
    let (before, after) = marked.as_ref().split_once('^').expect("a caret");
    assert_not_read([before, after].concat(), number, 0, before.len());
}

/// Sequences whose second is a sequence, with a pause as the first of each and at the end.
pub fn right_sequences(sequences: usize) -> Vec<u8> {
    [[2, 0].repeat(sequences + 1), [9, 0].repeat(sequences)].concat()
}

/// The leaf with the given node after it so many times.
pub fn around(leaf: [u8; 2], node: [u8; 2], times: usize) -> Vec<u8> {
    [leaf.to_vec(), node.repeat(times)].concat()
}

/// Nested tests. With the answers of the list they lead to the one leaf, with any others to the
/// other.
pub fn leading_to(list: &[u8], leaf: [u8; 2], other: [u8; 2]) -> Vec<u8> {
    list.iter().rev().fold(leaf.to_vec(), |inner, answer| {
        let (then, otherwise) = match answer {
            0 => (&other[..], &inner[..]),
            _ => (&inner[..], &other[..]),
        };
        [then, otherwise, &[6, 0]].concat()
    })
}

/// A statement that ends with the list alone, and pauses with any other.
pub fn ending_with(list: &[u8]) -> Vec<u8> {
    leading_to(list, [1, 0], [2, 0])
}

/// 2,048 bytes: a loop around sequences of sequences, down to 512 pauses.
pub fn full_table() -> Vec<u8> {
    full_table_of([2, 0])
}

/// As the full table, but its body ends at once: refused by 11 at the last node.
pub fn full_table_of_nothing() -> Vec<u8> {
    full_table_of([1, 0])
}

/// As the full table, but with an unknown kind for the loop: refused by 4 at the last node.
pub fn last_kind_unknown() -> Vec<u8> {
    let mut table = full_table();
    table[2 * MAX_NODES - 2] = 12;
    table
}

fn full_table_of(leaf: [u8; 2]) -> Vec<u8> {
    full_table_with(leaf, [9, 0])
}

/// As the full table, but with another leaf or another statement of two children.
pub fn full_table_with(leaf: [u8; 2], pair: [u8; 2]) -> Vec<u8> {
    let mut table = leaf.to_vec();
    for _ in 0..9 {
        table = [&table[..], &table[..], &pair].concat();
    }
    [&table[..], &[8, 0]].concat()
}

/// A text with so many levels around its inner part.
pub fn nested(begin: &str, inner: &str, end: &str, levels: usize) -> String {
    [&begin.repeat(levels), inner, &end.repeat(levels)].concat()
}

/// A flat sequence of so many pauses.
pub fn flat(pauses: usize) -> String {
    vec!["pause"; pauses].join(";")
}

/// Emits of so many signals in two branches, since in one they would be too deep.
pub fn emits(signals: usize) -> String {
    let emits: Vec<String> = (0..signals).map(|at| format!("emit S{at}")).collect();
    let (left, right) = emits.split_at(signals / 2);
    format!("[{}||{}]", left.join(";"), right.join(";"))
}

/// A text and blanks after it, so many bytes in all.
pub fn padded(text: &str, length: usize) -> String {
    format!("{text:length$}")
}

/// A block of the service partition, as F-4 has it.
pub fn block(program: u16, edition: u16, part: u8, parts: u8, content: &[u8]) -> Vec<u8> {
    let used = u16::try_from(content.len()).unwrap();
    let numbers = [program.to_le_bytes(), edition.to_le_bytes(), [part, parts]];
    let front = [numbers.concat(), used.to_le_bytes().to_vec()].concat();
    let mut bytes = [&front, content].concat();
    bytes.resize(BLOCK, 0);
    put_check_bytes(&mut bytes);
    bytes
}

/// The sums have room for all bytes, so 255 need not be taken off on the way.
pub fn put_check_bytes(block: &mut [u8]) {
    let (mut sum, mut running) = (0, 0);
    for &byte in &block[..510] {
        sum += u32::from(byte);
        running += sum;
    }
    block[510] = (sum % 255) as u8;
    block[511] = (running % 255) as u8;
}

/// Numbers that look random, the same in every run.
pub struct Drawn(pub u64);

impl Drawn {
    pub fn below(&mut self, end: usize) -> usize {
        self.0 = self
            .0
            .wrapping_mul(6364136223846793005)
            .wrapping_add(1442695040888963407);
        (self.0 >> 33) as usize % end
    }

    /// A statement of about so many nodes within so many traps.
    pub fn statement(&mut self, nodes: usize, traps: usize) -> Vec<u8> {
        if nodes < 3 {
            return match self.below(6) {
                0 | 1 => vec![1, 0],
                2 | 3 if traps > 0 => vec![4, self.below(traps.min(3)) as u8],
                _ => vec![2, 0],
            };
        }
        let one = |drawn: &mut Drawn, traps| drawn.statement(nodes - 1, traps);
        match self.below(12) {
            0 => [one(self, traps), vec![5, 0]].concat(),
            1 => [one(self, traps), vec![7, 0]].concat(),
            // A pause at the end, so that most bodies do not end at once.
            2 => [self.statement(nodes - 3, traps), vec![2, 0, 9, 0, 8, 0]].concat(),
            3 if traps < 62 => [one(self, traps + 1), vec![11, 0]].concat(),
            drawn => {
                let first = self.below(nodes - 2) + 1;
                let kind = [6, 9, 10][drawn % 3];
                let children = [first, nodes - 1 - first].map(|part| self.statement(part, traps));
                [children.concat(), vec![kind, 0]].concat()
            }
        }
    }
}
