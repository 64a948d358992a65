//! Random accepted programs of many shapes.

use super::random::Random;
use crate::checks::{MOST_DEPTH, MOST_TRAPS};
use crate::sets;
use crate::table::{Statement, Tree};

/// How a family of programs is drawn.
pub struct Shape {
    pub name: &'static str,
    /// How often each kind is chosen, by kind number; entry 0 is not used.
    weights: [usize; 12],
    /// Which child of a binary statement gets most of the nodes.
    split: Split,
}

enum Split {
    Even,
    Left,
    Right,
}

pub const SHAPES: [Shape; 9] = [
    Shape {
        name: "mixed",
        weights: [0, 2, 5, 3, 3, 2, 4, 3, 3, 5, 4, 3],
        split: Split::Even,
    },
    Shape {
        name: "traps",
        weights: [0, 1, 3, 1, 8, 1, 1, 1, 1, 1, 2, 20],
        split: Split::Even,
    },
    Shape {
        name: "left sequences",
        weights: [0, 3, 3, 3, 1, 0, 1, 0, 1, 30, 1, 1],
        split: Split::Left,
    },
    Shape {
        name: "right sequences",
        weights: [0, 3, 3, 3, 1, 0, 1, 0, 1, 30, 1, 1],
        split: Split::Right,
    },
    Shape {
        name: "parallels",
        weights: [0, 1, 6, 2, 3, 1, 2, 1, 2, 3, 16, 3],
        split: Split::Even,
    },
    Shape {
        name: "wide",
        weights: [0, 1, 4, 2, 2, 0, 5, 0, 0, 5, 5, 1],
        split: Split::Even,
    },
    Shape {
        name: "loops and presents",
        weights: [0, 2, 5, 2, 2, 0, 9, 2, 8, 3, 2, 2],
        split: Split::Even,
    },
    Shape {
        name: "deep",
        weights: [0, 1, 3, 1, 2, 8, 2, 8, 8, 2, 2, 4],
        split: Split::Left,
    },
    Shape {
        name: "loops in traps",
        weights: [0, 1, 6, 2, 6, 1, 3, 2, 7, 6, 4, 7],
        split: Split::Right,
    },
];

/// Shapes of many presents, so that much depends on the answers. Not many of their
/// statements can end.
pub const SHAPES_OF_PRESENTS: [Shape; 5] = [
    Shape {
        name: "presents",
        weights: [0, 2, 6, 1, 3, 1, 12, 1, 1, 5, 4, 3],
        split: Split::Even,
    },
    Shape {
        name: "presents to the right",
        weights: [0, 1, 9, 0, 3, 0, 12, 0, 1, 3, 3, 2],
        split: Split::Right,
    },
    Shape {
        name: "presents to the left",
        weights: [0, 1, 9, 0, 3, 0, 12, 0, 1, 3, 3, 2],
        split: Split::Left,
    },
    Shape {
        name: "choices in parallel",
        weights: [0, 2, 3, 0, 9, 0, 8, 0, 1, 2, 8, 5],
        split: Split::Even,
    },
    Shape {
        name: "choices of exits",
        weights: [0, 1, 2, 0, 12, 0, 14, 0, 0, 2, 2, 4],
        split: Split::Even,
    },
];

pub const ALL_SHAPES: usize = SHAPES.len() + SHAPES_OF_PRESENTS.len();

/// A shape for each number, of all of them in turn.
pub fn any_shape(number: usize) -> &'static Shape {
    let shapes = SHAPES.iter().chain(&SHAPES_OF_PRESENTS);
    shapes.cycle().nth(number % ALL_SHAPES).expect("a cycle")
}

/// Draws an accepted program of at most so many nodes.
pub fn accepted(random: &mut Random, shape: &Shape, nodes: usize) -> Vec<u8> {
    let room = Room {
        nodes,
        depth: MOST_DEPTH,
        traps: 0,
    };
    statement(random, shape, room)
}

/// Draws a statement whose loops are sound, for a place where there is this room.
pub fn statement(random: &mut Random, shape: &Shape, room: Room) -> Vec<u8> {
    let mut draft = Draft {
        random,
        shape,
        table: Vec::new(),
    };
    draft.statement(room);
    draft.table
}

/// What may still be put at a place of the program.
#[derive(Clone, Copy)]
pub struct Room {
    pub nodes: usize,
    pub depth: usize,
    /// Traps around the place.
    pub traps: usize,
}

impl Room {
    fn below(self, nodes: usize) -> Room {
        Room {
            nodes,
            depth: self.depth - 1,
            traps: self.traps,
        }
    }
}

struct Draft<'a> {
    random: &'a mut Random,
    shape: &'a Shape,
    table: Vec<u8>,
}

impl Draft<'_> {
    /// Appends a random statement and hands back its start set.
    fn statement(&mut self, room: Room) -> u64 {
        let kind = self.kind(room);
        match kind {
            1 => self.put(1, 0, sets::ENDED),
            2 => self.put(2, 0, sets::PAUSED),
            3 => {
                let signal = self.signal();
                self.put(3, signal, sets::ENDED)
            }
            4 => {
                let level = self.level(room.traps);
                self.put(4, level, 4 << level)
            }
            5 | 7 => {
                let body = self.statement(room.below(room.nodes - 1));
                let signal = self.signal();
                self.put(kind, signal, body)
            }
            8 => self.loop_statement(room),
            11 => {
                let mut inner = room.below(room.nodes - 1);
                inner.traps += 1;
                let body = self.statement(inner);
                self.put(11, 0, sets::trap(body))
            }
            _ => self.binary(kind, room),
        }
    }

    fn binary(&mut self, kind: u8, room: Room) -> u64 {
        let first_nodes = self.share(room.nodes - 1);
        let first = self.statement(room.below(first_nodes));
        let second = self.statement(room.below(room.nodes - 1 - first_nodes));
        match kind {
            6 => {
                let signal = self.signal();
                self.put(6, signal, first | second)
            }
            9 => self.put(9, 0, sets::sequence(first, second)),
            _ => self.put(10, 0, sets::parallel(first, second)),
        }
    }

    /// A body that can end at once is followed by a pause. Room for that is
    /// left: two nodes, and one more level of depth.
    fn loop_statement(&mut self, room: Room) -> u64 {
        let mut inner = room.below(room.nodes - 3);
        inner.depth -= 1;
        let mut body = self.statement(inner);
        if body & sets::ENDED != 0 {
            self.put(2, 0, sets::PAUSED);
            body = self.put(9, 0, sets::sequence(body, sets::PAUSED));
        }
        self.put(8, 0, body)
    }

    /// Appends one node.
    fn put(&mut self, kind: u8, field: u8, start_set: u64) -> u64 {
        self.table.extend([kind, field]);
        start_set
    }

    /// A kind that there is room for. A leaf is chosen early only now and
    /// then and with little room left, so that most of the room gets used.
    fn kind(&mut self, room: Room) -> u8 {
        let mut weights = self.shape.weights;
        if room.traps == 0 {
            weights[4] = 0;
        }
        if room.traps >= MOST_TRAPS {
            weights[11] = 0;
        }
        if room.nodes < 4 || room.depth < 3 {
            weights[8] = 0;
        }
        if room.nodes < 3 || room.depth < 2 {
            weights[6] = 0;
            weights[9] = 0;
            weights[10] = 0;
        }
        if room.nodes < 2 || room.depth < 2 {
            weights[5] = 0;
            weights[7] = 0;
            weights[11] = 0;
        }
        let inner: usize = weights[5..].iter().sum();
        let stop_early = room.nodes < 20 && self.random.one_in(20);
        if inner == 0 || stop_early {
            weights[5..].fill(0);
        } else {
            weights[..5].fill(0);
        }
        self.weighted(&weights)
    }

    fn weighted(&mut self, weights: &[usize; 12]) -> u8 {
        let mut ticket = self.random.below(weights.iter().sum());
        for (kind, &weight) in weights.iter().enumerate() {
            if ticket < weight {
                return kind as u8;
            }
            ticket -= weight;
        }
        unreachable!("the ticket is below the sum of the weights")
    }

    /// How many of the nodes, at least 2, go to the first of two children.
    fn share(&mut self, nodes: usize) -> usize {
        let few = self.random.between(1, (nodes - 1).min(5));
        match self.shape.split {
            Split::Even => self.random.between(1, nodes - 1),
            Split::Left => nodes - few,
            Split::Right => few,
        }
    }

    fn signal(&mut self) -> u8 {
        *self.random.pick(&[0, 0, 1, 1, 2, 5, 7, 31, 128, 254, 255])
    }

    /// The innermost trap, the outermost one, or any.
    fn level(&mut self, traps: usize) -> u8 {
        let level = match self.random.below(4) {
            0 | 1 => 0,
            2 => traps - 1,
            _ => self.random.below(traps),
        };
        level as u8
    }
}

/// A program whose innermost statement can be entered 1 + d times in one
/// instant, with loop depth d. Innermost is a loop around a choice between a
/// pause and an exit to any of the traps. Each step puts a loop around a
/// parallel of a pause and a trap around what there is. At most `MOST_TRAPS` steps.
pub fn ladder(steps: usize) -> Vec<u8> {
    let mut table = vec![2, 0];
    for level in 0..steps {
        table.extend([4, level as u8]);
    }
    // Choices among the exits, then the choice between pause and exits.
    for _ in 0..steps {
        table.extend([6, 3]);
    }
    table.extend([8, 0]);
    for _ in 0..steps {
        table.extend([11, 0, 2, 0, 10, 0, 8, 0]);
    }
    table
}

/// The innermost pause of a ladder: the state from which it is climbed.
pub const LADDER_HELD: [usize; 1] = [0];

/// Answers that climb the whole ladder: exits to each trap, innermost first,
/// then the pause.
pub fn ladder_answers(steps: usize) -> Vec<u8> {
    let mut answers = Vec::new();
    for level in 0..steps {
        answers.push(0);
        answers.extend(vec![0; level]);
        // The last exit is what remains when all others are passed over.
        if level + 1 < steps {
            answers.push(1);
        }
    }
    answers.push(1);
    answers
}

/// The traps around each node, itself counted.
pub fn traps_around(tree: &Tree) -> Vec<usize> {
    let mut around = vec![0; tree.size()];
    for (node, statement) in tree.statements.iter().enumerate() {
        if let Statement::Trap { .. } = statement {
            let within = &mut around[tree.lowest[node]..=node];
            within.iter_mut().for_each(|traps| *traps += 1);
        }
    }
    around
}

/// So many equal leaves under nodes of two children, as flat as can be.
pub fn balanced(leaf: &[u8], leaves: usize, node: &[u8]) -> Vec<u8> {
    if leaves == 1 {
        return leaf.to_vec();
    }
    let left = balanced(leaf, leaves / 2, node);
    let right = balanced(leaf, leaves - leaves / 2, node);
    [&left[..], &right, node].concat()
}

/// A program with about the longest listing, of 1,024 nodes: exits from 62 traps,
/// in a loop, so that nearly all sets reach code 63.
pub fn longest_listing() -> Vec<u8> {
    let exits = balanced(&[4, 61], 480, &[10, 0]);
    [&exits[..], &[11, 0].repeat(62), &[2, 0, 10, 0, 8, 0]].concat()
}
