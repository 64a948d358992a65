//! Where in a text a refusal shows, as F-9 has it.

use crate::Refusal;

/// A refusal of a text, with a byte of it, counted from 0: for 14 and 20 the first one of
/// the token with which the text can't go on to one of the grammar, or its length if it
/// merely stops or its most bytes if it is longer; for 15 and 16 the first one of the name.
/// For a table that is refused it is 0.
#[derive(Clone, Copy, Debug, PartialEq, Eq)]
pub struct Placed {
    pub refusal: Refusal,
    pub place: usize,
}

impl Placed {
    /// By a check that names no node.
    pub fn at(number: u32, place: usize) -> Placed {
        Placed {
            refusal: Refusal::whole(number),
            place,
        }
    }

    /// By a check of the table that the text stands for.
    pub fn of_table(refusal: Refusal) -> Placed {
        Placed { refusal, place: 0 }
    }

    /// Whether it is the text that is refused, not its table.
    pub fn is_in_text(&self) -> bool {
        matches!(self.refusal.number, 14 | 15 | 16 | 20)
    }
}

/// The line and the column of a byte, or of the end, both counted from 1. A line ends with
/// its line feed, and columns are bytes.
pub fn line_and_column(text: &[u8], place: usize) -> (usize, usize) {
    let lines = || text[..place].split(|&byte| byte == b'\n');
    let last = lines().next_back().map_or(0, <[u8]>::len);
    (lines().count(), last + 1)
}
