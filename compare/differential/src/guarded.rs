//! Lent buffers between margins that no call may touch.

const MARGIN: usize = 8;

/// A buffer, in the middle of its cells.
#[derive(Clone, PartialEq, Eq)]
pub struct Guarded<T> {
    cells: Vec<T>,
}

pub trait Cell: Copy {
    /// What stands in a cell that has not been written. Hardly any of the calls tried
    /// writes this value to this cell, so that one written by mistake is seen.
    fn untouched(at: usize) -> Self;

    fn hex(self) -> String;
}

/// Calls write flags, answers, the characters of a listing and the nodes of a table.
/// Only a signal can be as high as this, and in few texts it is in just this cell. The
/// content of blocks may be any bytes, of which few are those of their cells.
impl Cell for u8 {
    fn untouched(at: usize) -> u8 {
        0x80 | at as u8
    }

    fn hex(self) -> String {
        format!("{self:02x}")
    }
}

/// Calls write small numbers and sets of codes. With codes up to 63 almost any
/// number can be a set, and all ones often is. But for this one loops and sequences
/// would have to stand between some fifty traps just as its bits have it, and the
/// last bits would have to be the number of the cell.
impl Cell for u64 {
    fn untouched(at: usize) -> u64 {
        0xa5a5_a5a5_a5a5_0000 | at as u64
    }

    fn hex(self) -> String {
        format!("{self:016x} ")
    }
}

impl<T: Cell> Guarded<T> {
    pub fn with(content: &[T]) -> Guarded<T> {
        Guarded::around(content.iter().copied())
    }

    pub fn untouched(length: usize) -> Guarded<T> {
        Guarded::around((0..length).map(T::untouched))
    }

    fn around(content: impl ExactSizeIterator<Item = T>) -> Guarded<T> {
        let mut cells = Vec::with_capacity(content.len() + 2 * MARGIN);
        cells.extend((0..MARGIN).map(T::untouched));
        cells.extend(content);
        cells.extend((0..MARGIN).map(T::untouched));
        Guarded { cells }
    }

    pub fn lent(&mut self) -> &mut [T] {
        let end = self.cells.len() - MARGIN;
        &mut self.cells[MARGIN..end]
    }

    /// All cells in hexadecimal, with a bar where a margin begins or ends.
    pub fn hex(&self) -> String {
        let text = |cells: &[T]| -> String { cells.iter().map(|cell| cell.hex()).collect() };
        let (before, rest) = self.cells.split_at(MARGIN);
        let (lent, after) = rest.split_at(rest.len() - MARGIN);
        format!("{}|{}|{}", text(before), text(lent), text(after))
    }
}
