use crate::{raw, CodeSet, Refusal};

/// What the starts of a node gave, as [`trial`] gathers it.
#[derive(Clone, Copy, Debug, PartialEq, Eq, Hash)]
pub struct Trial {
    /// The codes of the starts: the node's start set.
    pub set: CodeSet,
    /// The number of present statements in the node, its own included.
    pub presents: usize,
}

/// A start set by trial: the codes that a node gives when it is started alone with every list of
/// [`TRIAL_ANSWERS`](crate::TRIAL_ANSWERS) answers of 0 or 1; checks 1, 2, 4 to 11, 21 and 22.
///
/// The node may be any number: one from n on is refused by 21. Then 22 refuses a node with more
/// than 12 present statements in it, its own included. Suspends do not count, since starting one
/// takes no answer, nor do presents elsewhere in the table.
///
/// The runner is that of [`start`](crate::start), for each of the 4,096 lists. 12 answers suffice,
/// since a start takes at most as many as there are present statements in the node. The traps
/// around the node are not entered, so that an exit to one of them gives its code, 2 + level. It is
/// proved that the set is that of [`Sets`](crate::Sets), `start_sets[node]`.
///
/// The call is for a reviewer who wants to see the set found by running. It takes up to about 30
/// ms, for a node of 1,000 statements; whoever just wants the set makes [`Sets`](crate::Sets) of
/// the table, which takes microseconds.
///
/// ```
/// use bavzhrono::{trial, CodeSet, Trial};
///
/// // In a trap, present 1: then exit, else pause. The trap catches the exit, and ends.
/// let table = [4, 0, 2, 0, 6, 1, 11, 0];
/// let exits_or_pauses = CodeSet(1 << 2 | 1 << 1);
/// assert_eq!(trial(&table, 2)?, Trial { set: exits_or_pauses, presents: 1 });
/// assert_eq!(trial(&table, 3)?.set.to_string(), "{0, 1}");
///
/// // A pause within 13 tests.
/// let tests = [vec![2, 0], [1, 0, 6, 1].repeat(13)].concat();
/// let refusal = trial(&tests, 26).unwrap_err();
/// assert_eq!(
///     refusal.to_string(),
///     "refused 22: more than 12 present statements stand in the node that is tried"
/// );
/// // The node of the outermost has 13 in it, and that of the next has 12.
/// assert_eq!(trial(&tests, 24)?.presents, 12);
/// # Ok::<(), bavzhrono::Refusal>(())
/// ```
pub fn trial(table: &[u8], node: usize) -> Result<Trial, Refusal> {
    let [set, presents, _] = Refusal::or_figures(|answer| raw::trial(table, node as u64, answer))?;
    Ok(Trial {
        set: CodeSet(set as u64),
        presents,
    })
}
