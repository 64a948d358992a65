//! The calls that are measured, with the buffers they are lent.

use std::hint::black_box;

use compare::by_trial::LISTS;
use compare::first_tick::{greatest, most_of_nodes};
use compare::held::STATE_BYTES;
use compare::instant::SIGNALS;
use compare::support::blocks::{Bytes, PROGRAM};
use compare::support::calls::{Calls, COMPARE, FIGURES};
use compare::support::printer::nodes_of;
use compare::table::{self, MOST_BYTES};
use compare::tick::TICK_ANSWERS;
use ours::OURS;
use two_pass::TWO_PASS;

use crate::programs::{Shape, SHAPES};
use crate::questions::{Question, QUESTIONS};
use crate::tried::{Tried, TRIED};
use crate::{blocks, plans, texts, ticks, ties, tried};

/// Who makes a call.
#[derive(Clone, Copy, PartialEq, Eq)]
pub enum Side {
    Ours,
    Compare,
    TwoPass,
}

impl Side {
    pub fn name(self) -> &'static str {
        match self {
            Side::Ours => "ours",
            Side::Compare => "compare",
            Side::TwoPass => "two-pass",
        }
    }

    pub fn calls(self) -> Calls {
        match self {
            Side::Ours => OURS,
            Side::Compare => COMPARE,
            Side::TwoPass => TWO_PASS,
        }
    }
}

pub const SIZES: [usize; 4] = [16, 64, 256, 1024];

#[derive(Clone, Copy, Default, PartialEq, Eq)]
pub enum Call {
    #[default]
    Analyse,
    Start,
    Resume,
    Read,
    ReadPlace,
    Tick,
    Fetch,
    Part,
    Narrow,
    FirstTick,
    FirstTickAnswers,
    Ask,
    Trial,
}

impl Call {
    pub const ALL: [Call; 13] = [
        Call::Analyse,
        Call::Start,
        Call::Resume,
        Call::Read,
        Call::ReadPlace,
        Call::Tick,
        Call::Fetch,
        Call::Part,
        Call::Narrow,
        Call::FirstTick,
        Call::FirstTickAnswers,
        Call::Ask,
        Call::Trial,
    ];

    pub fn name(self) -> &'static str {
        match self {
            Call::Analyse => "analyse",
            Call::Start => "start",
            Call::Resume => "resume",
            Call::Read => "read",
            Call::ReadPlace => "read_place",
            Call::Tick => "tick",
            Call::Fetch => "fetch",
            Call::Part => "part",
            Call::Narrow => "narrow",
            Call::FirstTick => "first_tick",
            Call::FirstTickAnswers => "first_tick_answers",
            Call::Ask => "ask",
            Call::Trial => "trial",
        }
    }

    /// Those who make this call: ours, compare, and two-pass if it has it.
    pub fn sides(self) -> &'static [Side] {
        match self {
            Call::Analyse => &[Side::Ours, Side::Compare, Side::TwoPass],
            _ => &[Side::Ours, Side::Compare],
        }
    }

    /// What the cost of a call is shared among.
    pub fn each(self) -> &'static str {
        match self {
            Call::Start | Call::Resume => "an entry",
            Call::Read | Call::ReadPlace => "a byte",
            Call::Fetch | Call::Part => "a block",
            Call::Trial => "a start",
            _ => "a node",
        }
    }

    /// In one of so many rounds a sample is taken. A trial takes up to a hundred times as long
    /// as a sample of other calls.
    pub fn rounds_apart(self) -> usize {
        match self {
            Call::Trial => 40,
            _ => 1,
        }
    }

    /// What the size of a case is the number of.
    pub fn size(self) -> &'static str {
        match self {
            Call::Fetch | Call::Part => "blocks",
            _ => "nodes",
        }
    }

    /// The column of what the cost is shared among, if it is not the size.
    pub fn units(self) -> Option<&'static str> {
        match self {
            Call::Start | Call::Resume => Some("entries"),
            Call::Read | Call::ReadPlace => Some("bytes"),
            _ => None,
        }
    }
}

/// A call on a program or on a file. The buffers are lent to every repetition anew.
#[derive(Clone, Default, PartialEq, Eq)]
pub struct Case {
    pub call: Call,
    pub shape: &'static str,
    /// The nodes of the program or the blocks of the file.
    pub size: usize,
    file: Vec<u8>,
    /// The edition and the part that are taken from the file.
    wanted: (u16, u8),
    /// The node that is asked or tried, and the code.
    question: (u64, u64),
    text: Vec<u8>,
    table: Vec<u8>,
    ties: Vec<u8>,
    answers: Vec<u8>,
    start_sets: Vec<u64>,
    any_sets: Vec<u64>,
    contexts: Vec<u64>,
    marks: Vec<u8>,
    state: Vec<u8>,
    emissions: Vec<u8>,
    answer: Vec<u64>,
}

pub fn all() -> impl Iterator<Item = Case> {
    Call::ALL.into_iter().flat_map(of)
}

/// The cases of a call, each made when it is asked for.
pub fn of(call: Call) -> Box<dyn Iterator<Item = Case>> {
    match call {
        Call::Analyse | Call::Start | Call::Resume => {
            let shapes = SHAPES.iter();
            Box::new(shapes.flat_map(move |shape| SIZES.map(|nodes| Case::new(call, shape, nodes))))
        }
        Call::Read => {
            // As text, sequences nested to the right are those nested to the left.
            let shapes = SHAPES.iter().filter(|shape| shape.name != "right");
            let printed =
                shapes.flat_map(|shape| SIZES.map(|nodes| Case::of_printed(shape, nodes)));
            Box::new(printed.chain(dialect_and_worst(call)))
        }
        Call::ReadPlace => Box::new(dialect_and_worst(call)),
        Call::Tick => {
            let shapes = ticks::SHAPES.iter();
            Box::new(shapes.flat_map(|shape| SIZES.map(|nodes| Case::of_tick(shape, nodes))))
        }
        Call::Fetch => {
            let files = blocks::files().into_iter();
            let of_fetch = |(name, blocks)| Case::of_file(Call::Fetch, name, blocks, (0, 0));
            Box::new(files.map(of_fetch))
        }
        Call::Part => {
            let of_part = |(name, blocks, wanted)| Case::of_file(Call::Part, name, blocks, wanted);
            Box::new(blocks::parts().into_iter().map(of_part))
        }
        Call::Narrow => {
            let of_shape = |(shape, tie)| SIZES.map(|nodes| Case::of_ties(&shape, tie, nodes));
            Box::new(ties::SHAPES.into_iter().flat_map(of_shape))
        }
        Call::FirstTick | Call::FirstTickAnswers => {
            let shapes = SHAPES.iter();
            let programs =
                shapes.flat_map(|shape| SIZES.map(|nodes| (shape.name, shape.program(nodes))));
            let shapes = ticks::SHAPES.iter();
            let bodies = shapes
                .flat_map(|shape| SIZES.map(|nodes| (shape.name, plans::program(shape, nodes))));
            let of_table = move |(name, table)| Case::of_first_tick(call, name, table);
            Box::new(programs.chain(bodies).map(of_table))
        }
        Call::Ask => {
            let of_question = |question| SIZES.map(|nodes| Case::of_question(question, nodes));
            Box::new(QUESTIONS.iter().flat_map(of_question))
        }
        Call::Trial => {
            let of_node = |tried| tried::SIZES.map(|nodes| Case::of_trial(tried, nodes));
            Box::new(TRIED.iter().flat_map(of_node))
        }
    }
}

/// Texts of the dialect, and those that are dear to read.
fn dialect_and_worst(call: Call) -> impl Iterator<Item = Case> {
    let aborts = SIZES.map(|nodes| ("aborts", texts::aborts(nodes)));
    let texts = aborts.into_iter().chain(texts::worst());
    texts.map(move |(name, text)| Case::of_text(call, name, text))
}

impl Case {
    fn new(call: Call, shape: &Shape, nodes: usize) -> Case {
        let mut case = Case {
            call: Call::Start,
            shape: shape.name,
            size: nodes,
            table: shape.program(nodes),
            // Enough for all, and all absent.
            answers: vec![0; 4 * nodes],
            start_sets: vec![0; nodes],
            any_sets: vec![0; nodes],
            contexts: vec![0; nodes],
            marks: vec![0; nodes],
            state: vec![0; STATE_BYTES],
            emissions: vec![0; SIGNALS],
            answer: vec![0; FIGURES],
            ..Case::default()
        };
        // A resumption is measured from the state that the start leaves.
        assert_eq!(case.run(&COMPARE), 0, "{} is refused", case.name());
        case.call = call;
        case
    }

    /// A reading of a program as text.
    fn of_printed(shape: &Shape, nodes: usize) -> Case {
        let text = texts::printed(&nodes_of(&shape.program(nodes)));
        let case = Case::of_text(Call::Read, shape.name, text);
        assert_eq!(case.size, nodes, "{} is not read", case.name());
        case
    }

    /// A reading of a text, or of the place of its refusal. One that is refused has no nodes.
    fn of_text(call: Call, shape: &'static str, text: Vec<u8>) -> Case {
        let mut case = Case {
            call: Call::Read,
            shape,
            text,
            table: vec![0; MOST_BYTES],
            answer: vec![0; FIGURES],
            ..Case::default()
        };
        case.run(&COMPARE);
        case.size = case.answer[0] as usize;
        case.call = call;
        case
    }

    fn of_tick(shape: &ticks::Shape, nodes: usize) -> Case {
        let mut case = Case {
            call: Call::Tick,
            shape: shape.name,
            size: nodes,
            table: (shape.program)(nodes),
            answers: vec![0; TICK_ANSWERS],
            answer: vec![0; FIGURES],
            ..Case::default()
        };
        assert_eq!(case.table.len(), 2 * nodes, "{}", case.name());
        case.run(&COMPARE);
        assert_eq!(case.answer[0], 1, "{} has no tick", case.name());
        case
    }

    fn of_file(call: Call, shape: &'static str, blocks: Vec<Bytes>, wanted: (u16, u8)) -> Case {
        let mut case = Case {
            call,
            shape,
            size: blocks.len(),
            file: blocks.concat(),
            wanted,
            table: vec![0; MOST_BYTES],
            answer: vec![0; FIGURES],
            ..Case::default()
        };
        assert_eq!(case.run(&COMPARE), 0, "{} is refused", case.name());
        case
    }

    /// With all signals tied to this.
    fn of_ties(shape: &Shape, tie: u8, nodes: usize) -> Case {
        let mut case = Case {
            call: Call::Narrow,
            shape: shape.name,
            size: nodes,
            table: shape.program(nodes),
            ties: vec![tie; SIGNALS],
            start_sets: vec![0; nodes],
            answer: vec![0; FIGURES],
            ..Case::default()
        };
        assert_eq!(case.table.len(), 2 * nodes, "{}", case.name());
        assert_eq!(case.run(&COMPARE), 0, "{} is refused", case.name());
        case
    }

    fn of_first_tick(call: Call, shape: &'static str, table: Vec<u8>) -> Case {
        let mut case = Case {
            call,
            shape,
            size: table.len() / 2,
            table,
            answers: vec![0; TICK_ANSWERS],
            answer: vec![0; FIGURES],
            ..Case::default()
        };
        assert_eq!(case.run(&COMPARE), 0, "{} is refused", case.name());
        case
    }

    fn of_question(question: &Question, nodes: usize) -> Case {
        let mut case = Case {
            call: Call::Ask,
            shape: question.name,
            size: nodes,
            question: ((question.node)(nodes) as u64, question.code),
            table: question.shape.program(nodes),
            answer: vec![0; FIGURES],
            ..Case::default()
        };
        assert_eq!(case.run(&COMPARE), 0, "{} is refused", case.name());
        case
    }

    fn of_trial(tried: &Tried, nodes: usize) -> Case {
        let mut case = Case {
            call: Call::Trial,
            shape: tried.name,
            size: nodes,
            question: ((tried.node)(nodes) as u64, 0),
            table: tried.shape.program(nodes),
            answer: vec![0; FIGURES],
            ..Case::default()
        };
        assert_eq!(case.table.len(), 2 * nodes, "{}", case.name());
        assert_eq!(case.run(&COMPARE), 0, "{} is refused", case.name());
        case
    }

    pub fn name(&self) -> String {
        format!("{}/{}/{}", self.call.name(), self.shape, self.size)
    }

    /// Makes the call once, and hands back what it returns.
    pub fn run(&mut self, calls: &Calls) -> u32 {
        let (table, file) = (black_box(&self.table[..]), black_box(&self.file[..]));
        let answer = &mut self.answer[..];
        let instant = match self.call {
            Call::Read => return (calls.read)(black_box(&self.text), &mut self.table, answer),
            Call::ReadPlace => return (calls.read_place)(black_box(&self.text), answer),
            Call::Tick => return (calls.tick)(table, &mut self.answers, answer),
            Call::Fetch => return (calls.fetch)(file, PROGRAM, &mut self.table, answer),
            Call::Part => {
                let (edition, part) = self.wanted;
                return (calls.part)(file, PROGRAM, edition, part, answer);
            }
            Call::Narrow => return (calls.narrow)(table, &self.ties, &mut self.start_sets, answer),
            Call::FirstTick => return (calls.first_tick)(table, answer),
            Call::FirstTickAnswers => {
                return (calls.first_tick_answers)(table, &mut self.answers, answer)
            }
            Call::Ask => {
                let (node, code) = black_box(self.question);
                return (calls.ask)(table, node, code, answer);
            }
            Call::Trial => return (calls.trial)(table, black_box(self.question.0), answer),
            Call::Analyse => {
                return (calls.analyse)(
                    table,
                    &mut self.start_sets,
                    &mut self.any_sets,
                    &mut self.contexts,
                    &mut self.marks,
                    answer,
                )
            }
            Call::Start => calls.start,
            Call::Resume => calls.resume,
        };
        let (state, emissions) = (&mut self.state, &mut self.emissions);
        instant(table, &self.answers, state, emissions, answer)
    }

    /// Sees that all sides do the same, and that a repetition does it again.
    pub fn check(&self) {
        let mut once = self.clone();
        let returned = once.run(&COMPARE);
        for side in self.call.sides() {
            let name = format!("{} by {}", self.name(), side.name());
            let mut again = once.clone();
            assert_eq!(again.run(&side.calls()), returned, "{name}");
            assert!(again == once, "{name}: differs from compare");
        }
    }

    /// The nodes that a question has looked at.
    pub fn looked_at(&self) -> Option<usize> {
        (self.call == Call::Ask).then(|| self.answer[1] as usize)
    }

    /// The presents of a node that is tried, and the greatest number of entries of its starts.
    pub fn presents_and_entries(&self) -> Option<[usize; 2]> {
        (self.call == Call::Trial).then(|| {
            let tree = table::read(&self.table).expect("an accepted table");
            let most = &most_of_nodes(&tree)[self.question.0 as usize];
            [self.answer[1] as usize, greatest(most)]
        })
    }

    /// The nodes of a table, the entries of an instant, the bytes of a text, the blocks of a
    /// file or the starts of a trial.
    pub fn units(&self) -> usize {
        let mut case = self.clone();
        case.run(&COMPARE);
        match self.call {
            Call::Start | Call::Resume => case.answer[2] as usize,
            Call::Read | Call::ReadPlace => case.text.len(),
            Call::Trial => LISTS.len(),
            _ => case.size,
        }
    }
}
