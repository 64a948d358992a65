use std::error::Error;
use std::fmt;

/// A refusal: the first check that failed, and the lowest node that it fits.
///
/// ```
/// let refusal = bavzhrono::Sets::of(&[1, 0, 8, 0]).unwrap_err();
/// assert_eq!((refusal.number, refusal.node), (11, 1));
/// assert_eq!(
///     refusal.to_string(),
///     "refused 11 at node 1: a loop's body can end in the instant in which it is started"
/// );
/// ```
#[derive(Clone, Copy, Debug, PartialEq, Eq, Hash)]
pub struct Refusal {
    /// The number of the check, 1 to 22.
    pub number: u32,
    /// The lowest node that the check fits; 0 for checks 1, 2, 3, 7 and 12 to 22, which name none.
    pub node: usize,
}

impl Refusal {
    /// What the check refuses, in one line.
    pub fn explanation(&self) -> &'static str {
        match self.number {
            1 => "the table has more than 2,048 bytes (1,024 nodes)",
            2 => "the table is empty or of odd length",
            3 => "a lent buffer is too short",
            4 => "a kind byte is unknown",
            5 => "a field that must be 0 is not",
            6 => "fewer unused statements stand before a node than it has children",
            7 => "more than one statement is left at the end",
            8 => "a node's depth is above 256",
            9 => "more than 62 traps stand around each other",
            10 => "an exit's level is not below the number of traps around it",
            11 => "a loop's body can end in the instant in which it is started",
            12 => "on resuming, the state is not admitted",
            13 => "in an instant, an answer is needed after all lent ones are taken",
            14 => "the text has more than 16,384 bytes or is outside the grammar",
            15 => "an exit of the text has no trap of its name around it",
            16 => "the text has a 257th signal name",
            17 => "the file is not of whole blocks of 512 bytes or has more than 64",
            18 => "the program has no whole edition in the file",
            19 => "a signal's tie is none of 0, 1 and 2",
            20 => "the text leaves the grammar at immediate, every, case or a count",
            21 => "the node that is asked about or tried is outside the table",
            22 => "more than 12 present statements stand in the node that is tried",
            _ => "there is no check of this number",
        }
    }

    /// The figures of a call, which writes them to the answer if it returns 0.
    ///
    /// The archive is for x86-64, so a u64 fits in a usize.
    pub(crate) fn or_figures(call: impl FnOnce(&mut [u64]) -> u32) -> Result<[usize; 3], Refusal> {
        let mut answer = [0; 3];
        match call(&mut answer) {
            0 => Ok(answer.map(|figure| figure as usize)),
            returned => Err(Refusal::of(returned)),
        }
    }

    /// The refusal that is returned as number + 256 * node.
    fn of(returned: u32) -> Refusal {
        Refusal {
            number: returned % 256,
            node: (returned / 256) as usize,
        }
    }

    fn names_a_node(&self) -> bool {
        matches!(self.number, 4..=6 | 8..=11)
    }
}

impl fmt::Display for Refusal {
    fn fmt(&self, f: &mut fmt::Formatter<'_>) -> fmt::Result {
        write!(f, "refused {}", self.number)?;
        if self.names_a_node() {
            write!(f, " at node {}", self.node)?;
        }
        write!(f, ": {}", self.explanation())
    }
}

impl Error for Refusal {}
