use std::fmt;
use std::iter::FusedIterator;

/// A set of completion codes, with bit k for code k.
///
/// Code 0 is ended, 1 is paused, 2 + level is an exit. No set of an accepted program
/// has a code above 63.
///
/// ```
/// use bavzhrono::CodeSet;
///
/// let set = CodeSet(0x1d);
/// assert!(set.contains(4) && !set.contains(1));
/// assert_eq!(set.codes().collect::<Vec<_>>(), [0, 2, 3, 4]);
/// assert_eq!(set.to_string(), "{0, 2, 3, 4}");
/// ```
#[derive(Clone, Copy, Debug, Default, PartialEq, Eq, Hash)]
#[repr(transparent)]
pub struct CodeSet(pub u64);

impl CodeSet {
    /// The set without codes.
    pub const EMPTY: CodeSet = CodeSet(0);

    /// Whether the code is in the set.
    pub fn contains(self, code: u32) -> bool {
        code < u64::BITS && self.0 >> code & 1 == 1
    }

    /// Whether the two sets have a code in common.
    pub fn meets(self, other: CodeSet) -> bool {
        self.0 & other.0 != 0
    }

    /// The codes of the set, in ascending order.
    pub fn codes(self) -> Codes {
        Codes(self)
    }
}

/// Written as `{0, 2, 3}`.
impl fmt::Display for CodeSet {
    fn fmt(&self, f: &mut fmt::Formatter<'_>) -> fmt::Result {
        f.debug_set().entries(self.codes()).finish()
    }
}

impl IntoIterator for CodeSet {
    type Item = u32;
    type IntoIter = Codes;

    fn into_iter(self) -> Codes {
        self.codes()
    }
}

/// The codes of a [`CodeSet`], in ascending order.
#[derive(Clone, Debug)]
pub struct Codes(CodeSet);

impl Iterator for Codes {
    type Item = u32;

    fn next(&mut self) -> Option<u32> {
        if self.0 == CodeSet::EMPTY {
            return None;
        }
        let rest = self.0 .0;
        let lowest = rest.trailing_zeros();
        self.0 = CodeSet(rest & (rest - 1));
        Some(lowest)
    }

    fn size_hint(&self) -> (usize, Option<usize>) {
        let left = self.0 .0.count_ones() as usize;
        (left, Some(left))
    }
}

impl ExactSizeIterator for Codes {}

impl FusedIterator for Codes {}
