use std::fmt;

use crate::{raw, CodeSet, Refusal, MAX_NODES};

/// The mark of a node: 1 if its any-instant set meets its context set, else 0.
#[derive(Clone, Copy, Debug, Default, PartialEq, Eq, Hash)]
#[repr(transparent)]
pub struct Mark(pub u8);

impl Mark {
    /// Whether the statement may be schizophrenic, that is, end, exit, or pause and be dropped by a
    /// neighbour's exit, and be started again in one instant. In a run from a fresh start every
    /// statement to which that happens is marked; not every mark is needed.
    pub fn may_be_schizophrenic(self) -> bool {
        self.0 != 0
    }
}

/// Written as in the listing, `0` or `1`.
impl fmt::Display for Mark {
    fn fmt(&self, f: &mut fmt::Formatter<'_>) -> fmt::Result {
        self.0.fmt(f)
    }
}

/// The figures of an accepted table.
#[derive(Clone, Copy, Debug, PartialEq, Eq, Hash)]
pub struct Analysis {
    /// The number of nodes n.
    pub nodes: usize,
    /// The greatest number of loops d around any node, the node itself included.
    pub loop_depth: usize,
}

impl Analysis {
    /// n(1 + d): an instant has at most so many entries and takes at most so many answers. How many
    /// entries the first can have, is told by [`first_tick`](crate::first_tick).
    pub fn bound(&self) -> usize {
        self.nodes * (1 + self.loop_depth)
    }
}

/// The sets and the mark of each node, into the first n entries of each buffer; checks 1 to 11.
///
/// - `start_sets`, K: the codes that the statement can have in the instant that starts it.
/// - `any_sets`, A: by the same rules, but with 0 too for a pause, which ends when resumed.
/// - `contexts`, S: the codes after which it may be started again in the same instant.
/// - `marks`: whether A meets S.
///
/// ```
/// use bavzhrono::{analyse, Analysis, CodeSet, Mark};
///
/// let table = [2, 0, 3, 7, 9, 0, 8, 0];
/// let mut start_sets = [CodeSet::EMPTY; 4];
/// let mut any_sets = [CodeSet::EMPTY; 4];
/// let mut contexts = [CodeSet::EMPTY; 4];
/// let mut marks = [Mark(0); 4];
/// let analysis = analyse(&table, &mut start_sets, &mut any_sets, &mut contexts, &mut marks)?;
/// assert_eq!(analysis, Analysis { nodes: 4, loop_depth: 1 });
/// assert_eq!(start_sets.map(|set| set.to_string()), ["{1}", "{0}", "{1}", "{1}"]);
/// assert_eq!(any_sets.map(|set| set.to_string()), ["{0, 1}", "{0}", "{0, 1}", "{1}"]);
/// assert_eq!(contexts.map(|set| set.to_string()), ["{0}", "{}", "{0}", "{}"]);
/// assert_eq!(marks.map(Mark::may_be_schizophrenic), [true, false, true, false]);
/// # Ok::<(), bavzhrono::Refusal>(())
/// ```
pub fn analyse(
    table: &[u8],
    start_sets: &mut [CodeSet],
    any_sets: &mut [CodeSet],
    contexts: &mut [CodeSet],
    marks: &mut [Mark],
) -> Result<Analysis, Refusal> {
    let (starts, anys) = (raw::numbers(start_sets), raw::numbers(any_sets));
    let (contexts, marks) = (raw::numbers(contexts), raw::bytes(marks));
    let [nodes, loop_depth, _] =
        Refusal::or_figures(|answer| raw::analyse(table, starts, anys, contexts, marks, answer))?;
    Ok(Analysis { nodes, loop_depth })
}

/// What [`analyse`] gives, with an entry a node.
#[derive(Clone, Debug, PartialEq, Eq)]
pub struct Sets {
    /// The number of nodes and the loop depth.
    pub analysis: Analysis,
    /// The start sets K.
    pub start_sets: Vec<CodeSet>,
    /// The any-instant sets A.
    pub any_sets: Vec<CodeSet>,
    /// The context sets S.
    pub contexts: Vec<CodeSet>,
    /// The marks.
    pub marks: Vec<Mark>,
}

impl Sets {
    /// The sets and marks of a table, or its refusal.
    pub fn of(table: &[u8]) -> Result<Sets, Refusal> {
        // A longer table is refused before its buffers are measured.
        let nodes = MAX_NODES.min(table.len() / 2);
        let mut start_sets = vec![CodeSet::EMPTY; nodes];
        let mut any_sets = vec![CodeSet::EMPTY; nodes];
        let mut contexts = vec![CodeSet::EMPTY; nodes];
        let mut marks = vec![Mark(0); nodes];
        let analysis = analyse(
            table,
            &mut start_sets,
            &mut any_sets,
            &mut contexts,
            &mut marks,
        )?;
        Ok(Sets {
            analysis,
            start_sets,
            any_sets,
            contexts,
            marks,
        })
    }
}
