//! The calls in the archive's form: what is returned, and the answer.

use compare::support::calls::COMPARE;
use compare::support::edges::{edges, W1, W2, W8};
use compare::support::tried::pause_by;
use compare::STATE_BYTES;

/// What stands in every lent entry before a call.
const FILL: u8 = 9;

/// All buffers that a call can write to.
#[derive(Clone, Debug, PartialEq)]
struct Lent {
    sets: [Vec<u64>; 3],
    marks: Vec<u8>,
    state: Vec<u8>,
    emissions: Vec<u8>,
    text: Vec<u8>,
    answers: Vec<u8>,
    answer: Vec<u64>,
}

impl Lent {
    fn new(table: &[u8], answer_length: usize) -> Lent {
        let nodes = table.len() / 2;
        Lent {
            sets: [(); 3].map(|_| vec![u64::from(FILL); nodes]),
            marks: vec![FILL; nodes],
            state: vec![FILL; STATE_BYTES],
            emissions: vec![FILL; 256],
            text: vec![FILL; 90],
            answers: vec![FILL; 512],
            answer: vec![u64::from(FILL); answer_length],
        }
    }

    fn analyse(&mut self, table: &[u8]) -> u32 {
        let [start_sets, any_sets, contexts] = &mut self.sets;
        let (marks, answer) = (&mut self.marks, &mut self.answer);
        (COMPARE.analyse)(table, start_sets, any_sets, contexts, marks, answer)
    }

    fn start(&mut self, table: &[u8]) -> u32 {
        let (state, emissions) = (&mut self.state, &mut self.emissions);
        (COMPARE.start)(table, &[], state, emissions, &mut self.answer)
    }

    fn resume(&mut self, table: &[u8]) -> u32 {
        let (state, emissions) = (&mut self.state, &mut self.emissions);
        (COMPARE.resume)(table, &[], state, emissions, &mut self.answer)
    }

    fn render(&mut self, table: &[u8]) -> u32 {
        (COMPARE.render)(table, &mut self.text, &mut self.answer)
    }

    /// With no signal tied.
    fn narrow(&mut self, table: &[u8]) -> u32 {
        (COMPARE.narrow)(table, &[0; 256], &mut self.sets[0], &mut self.answer)
    }

    fn first_tick(&mut self, table: &[u8]) -> u32 {
        (COMPARE.first_tick)(table, &mut self.answer)
    }

    fn first_tick_answers(&mut self, table: &[u8]) -> u32 {
        (COMPARE.first_tick_answers)(table, &mut self.answers, &mut self.answer)
    }

    /// The last node for code 1.
    fn ask(&mut self, table: &[u8]) -> u32 {
        let last = (table.len() as u64 / 2).saturating_sub(1);
        (COMPARE.ask)(table, last, 1, &mut self.answer)
    }

    /// The last node.
    fn trial(&mut self, table: &[u8]) -> u32 {
        let last = (table.len() as u64 / 2).saturating_sub(1);
        (COMPARE.trial)(table, last, &mut self.answer)
    }

    /// What analyse, start, resume, narrow, first_tick, first_tick_answers, ask and trial
    /// return.
    fn judge(&mut self, table: &[u8]) -> [u32; 8] {
        [
            self.analyse(table),
            self.start(table),
            self.resume(table),
            self.narrow(table),
            self.first_tick(table),
            self.first_tick_answers(table),
            self.ask(table),
            self.trial(table),
        ]
    }
}

#[test]
fn figures_of_an_accepted_table() {
    let mut lent = Lent::new(W1, 4);
    assert_eq!(lent.analyse(W1), 0);
    assert_eq!(lent.answer, [4, 1, 0, 9]);
    let sets = [[2, 1, 2, 2], [3, 1, 3, 2], [1, 0, 1, 0]];
    assert_eq!(lent.sets, sets);
    assert_eq!(lent.marks, [1, 0, 1, 0]);

    assert_eq!(lent.start(W1), 0);
    assert_eq!(lent.answer, [1, 0, 3, 9]);
    assert_eq!(lent.resume(W1), 0);
    assert_eq!(lent.answer, [1, 0, 6, 9]);

    lent.sets[0].fill(u64::from(FILL));
    assert_eq!(lent.narrow(W1), 0);
    assert_eq!(lent.answer, [4, 0, 0, 9]);
    assert_eq!(lent.sets, sets);

    let before = lent.clone();
    assert_eq!(lent.first_tick(W1), 0);
    assert_eq!(lent.answer, [3, 0, 0, 9]);
    assert_eq!(lent.ask(W1), 0);
    assert_eq!(lent.answer, [1, 3, 0, 9]);
    assert_eq!((COMPARE.ask)(W1, 3, 0, &mut lent.answer), 0);
    assert_eq!(lent.answer, [0, 1, 0, 9]);
    assert_eq!((COMPARE.ask)(W1, 3, 64, &mut lent.answer), 0);
    assert_eq!(lent.answer, [0, 0, 0, 9]);
    assert_eq!((COMPARE.ask)(W1, 4, 64, &mut lent.answer), 21);
    assert_eq!(lent.trial(W1), 0);
    assert_eq!(lent.answer, [2, 0, 0, 9]);
    assert_eq!((COMPARE.trial)(W1, 1, &mut lent.answer), 0);
    assert_eq!(lent.answer, [1, 0, 0, 9]);
    assert_eq!((COMPARE.trial)(W1, 4, &mut lent.answer), 21);
    assert_eq!(lent.trial(&pause_by(&[0; 12])), 0);
    assert_eq!(lent.answer, [3, 12, 0, 9]);
    assert_eq!(lent.trial(&pause_by(&[0; 13])), 22);
    assert_eq!(lent.answer, [3, 12, 0, 9]);
    assert_eq!(
        Lent {
            answer: before.answer.clone(),
            ..lent
        },
        before
    );
}

#[test]
fn a_refusal_is_its_number_and_node_and_changes_nothing() {
    for edge in edges() {
        let Some(refusal) = edge.refusal else {
            continue;
        };
        let before = Lent::new(&edge.table, 4);
        let mut lent = before.clone();
        let expected = refusal.number + 256 * refusal.node as u32;
        assert_eq!(lent.judge(&edge.table), [expected; 8], "{}", edge.name);
        assert_eq!(lent, before, "{}", edge.name);
    }
}

#[test]
fn instants_are_refused_without_a_node() {
    let present = [2, 0, 2, 0, 6, 0];
    let before = Lent::new(&present, 3);
    let mut lent = before.clone();
    assert_eq!((lent.start(&present), lent.resume(&present)), (13, 12));
    assert_eq!(lent, before);
}

#[test]
fn a_text_is_the_listing_or_the_refusal() {
    let mut lent = Lent::new(W8, 4);
    lent.text.truncate(14);
    assert_eq!(lent.render(W8), 0);
    assert_eq!(lent.answer, [13, 0, 0, 9]);
    assert_eq!(lent.text, [&b"refused 11 7\n"[..], &[FILL]].concat());

    let before = lent.clone();
    assert_eq!(lent.render(W1), 3);
    assert_eq!(lent, before);
    lent.text.truncate(12);
    let before = lent.clone();
    assert_eq!(lent.render(W8), 3);
    assert_eq!(lent, before);
}

#[test]
fn a_short_answer_is_refused_by_3_in_its_place() {
    let too_long = [2; 2050];
    let cases: [(&[u8], u32); 6] = [
        (&too_long, 1),
        (&[], 2),
        (&[2, 0, 8], 2),
        (&[12, 0], 3),
        (W1, 3),
        (W2, 3),
    ];
    for answer_length in 0..3 {
        for (table, expected) in cases {
            let before = Lent::new(table, answer_length);
            let mut lent = before.clone();
            assert_eq!(lent.judge(table), [expected; 8]);
            assert_eq!(lent.render(table), 3);
            assert_eq!(lent, before);
        }
    }
}
