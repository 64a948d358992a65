//! Starts under ties by running, slowly and by the sentences of F-8: a test of a tied
//! signal gets the tied answer, any other one takes the next of a list. Nothing here is
//! shared with the fast way.

use std::collections::BTreeSet;
use std::convert::Infallible;

use super::answers::every_list;
use super::links::Links;

/// An accepted program with ties, whose nodes are started alone.
pub struct Tied<'a> {
    table: &'a [u8],
    ties: &'a [u8],
    links: Links,
}

impl<'a> Tied<'a> {
    pub fn new(table: &'a [u8], ties: &'a [u8]) -> Tied<'a> {
        let links = Links::of(table);
        Tied { table, ties, links }
    }

    /// Starts the node at its place: its code and the number of answers taken, or nothing
    /// if there are too few of them.
    pub fn start(&self, node: usize, answers: &[u8]) -> Option<(usize, usize)> {
        let mut start = Start {
            program: self,
            answers,
            taken: 0,
            inside: self.signals_around(node),
        };
        let code = start.start(node)?;
        Some((code, start.taken))
    }

    fn signals_around(&self, node: usize) -> Vec<u8> {
        let mut signals = Vec::new();
        let mut at = node;
        while let Some(parent) = self.links.parents[at] {
            if self.table[2 * parent] == 5 {
                signals.push(self.table[2 * parent + 1]);
            }
            at = parent;
        }
        signals
    }

    /// The answer that each node's test gets for certain; none where there is no such.
    pub fn known_answers(&self) -> Vec<Option<bool>> {
        let nodes = self.table.chunks_exact(2).enumerate();
        let answers = nodes.map(|(node, bytes)| {
            let signal = bytes[1];
            if bytes[0] != 6 || self.signals_around(node).contains(&signal) {
                return None;
            }
            [None, Some(false), Some(true)][usize::from(self.ties[usize::from(signal)])]
        });
        answers.collect()
    }

    /// The codes of a node for all lists of answers. What is left of a list is not looked
    /// at, so that those which are taken in full stand for all that are long enough.
    pub fn codes(&self, node: usize) -> BTreeSet<usize> {
        let mut codes = BTreeSet::new();
        let Ok(()) = every_list(|list| -> Result<bool, Infallible> {
            let started = self.start(node, list);
            codes.extend(started.map(|(code, _)| code));
            Ok(started.is_none())
        });
        codes
    }

    /// The narrowed start sets.
    pub fn sets(&self) -> Vec<u64> {
        let nodes = 0..self.links.children.len();
        let bits = |codes: BTreeSet<usize>| codes.iter().map(|code| 1 << code).sum();
        nodes.map(|node| bits(self.codes(node))).collect()
    }
}

/// A start under way.
struct Start<'a> {
    program: &'a Tied<'a>,
    answers: &'a [u8],
    taken: usize,
    /// The numbers of the signal statements around the place that is come to.
    inside: Vec<u8>,
}

impl Start<'_> {
    fn start(&mut self, node: usize) -> Option<usize> {
        let program = self.program;
        let (kind, field) = (program.table[2 * node], program.table[2 * node + 1]);
        let code = match (kind, &program.links.children[node][..]) {
            (1 | 3, []) => 0,
            (2, []) => 1,
            (4, []) => 2 + usize::from(field),
            (5, &[body]) => {
                self.inside.push(field);
                let code = self.start(body)?;
                self.inside.pop();
                code
            }
            (6, &[then, otherwise]) => {
                let is_present = self.test(field)?;
                self.start(if is_present { then } else { otherwise })?
            }
            (7, &[body]) => self.start(body)?,
            (8, &[body]) => {
                let code = self.start(body)?;
                assert_ne!(code, 0, "the body of a loop ended");
                code
            }
            (9, &[first, second]) => match self.start(first)? {
                0 => self.start(second)?,
                code => code,
            },
            (10, &[left, right]) => {
                let left = self.start(left)?;
                left.max(self.start(right)?)
            }
            (11, &[body]) => match self.start(body)? {
                0 | 2 => 0,
                1 => 1,
                further_out => further_out - 1,
            },
            other => panic!("no such statement: {other:?}"),
        };
        Some(code)
    }

    /// Whether the signal is present: as it is tied, or else by the next answer, if there is
    /// one. Inside a signal statement of its number it is not tied.
    fn test(&mut self, signal: u8) -> Option<bool> {
        let tie = self.program.ties[usize::from(signal)];
        if tie != 0 && !self.inside.contains(&signal) {
            return Some(tie == 2);
        }
        let answer = self.answers.get(self.taken)?;
        self.taken += 1;
        Some(*answer != 0)
    }
}
