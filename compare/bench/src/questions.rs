//! Questions on the programs that are analysed: the analysis of the same table has the whole
//! of what is asked.

use crate::programs::{trap_count, Shape, DEEP, LEFT, RIGHT, TRAPS, WIDE};

pub struct Question {
    /// With the name of the shape in front.
    pub name: &'static str,
    pub shape: Shape,
    /// The node that is asked, in a program of so many nodes.
    pub node: fn(usize) -> usize,
    pub code: u64,
}

pub const QUESTIONS: [Question; 6] = [
    // One node is looked at, so that all else is the checks of the table.
    Question {
        name: "wide-leaf",
        shape: WIDE,
        node: |_| 0,
        code: 0,
    },
    // Beneath the parallels every node is looked at.
    Question {
        name: "wide-root",
        shape: WIDE,
        node: |nodes| nodes - 1,
        code: 1,
    },
    // All nodes but a few at the bottom pass the question on.
    Question {
        name: "deep-top",
        shape: DEEP,
        node: |nodes| DEEP.first_part(nodes) - 1,
        code: 1,
    },
    // From trap to trap each test asks both branches.
    Question {
        name: "traps-outermost",
        shape: TRAPS,
        node: |nodes| 3 * trap_count(TRAPS.first_part(nodes)),
        code: 1,
    },
    // The first child of the outermost sequence is nearly all of it.
    Question {
        name: "left-top",
        shape: LEFT,
        node: |nodes| LEFT.first_part(nodes) - 1,
        code: 1,
    },
    // Each sequence asks its second, until one has the pause first.
    Question {
        name: "right-top",
        shape: RIGHT,
        node: |nodes| RIGHT.first_part(nodes) - 1,
        code: 1,
    },
];
