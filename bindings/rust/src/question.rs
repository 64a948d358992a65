use crate::{raw, Refusal};

/// The answer to a question, as [`ask`] gives it.
#[derive(Clone, Copy, Debug, PartialEq, Eq, Hash)]
pub struct Asked {
    /// Whether the code is in the node's start set: the first figure in C.
    pub member: bool,
    /// The number of nodes looked at, the asked one included.
    pub count: usize,
}

/// One question, few nodes: whether a code is in the start set of a node; checks 1, 2, 4 to 11 and
/// 21.
///
/// Node and code may be any numbers: a node from n on is refused by 21, and a code above 63 is in
/// no set. The answer is that of [`Sets`](crate::Sets), `start_sets[node].contains(code)`.
///
/// A node that is asked for a code is looked at, and besides
///
/// - at a signal or suspend the child is asked for the code;
/// - at a loop the child is asked for the code, but a loop asked for 0 looks no further;
/// - at a trap the child is asked for 1 if the code is 1, and for k + 1 if it is k from 2 on, but a
///   trap asked for 0 has every node within looked at;
/// - at a present the then branch is asked for the code, and if it lacks the code the else branch,
///   too;
/// - at a sequence every node of the first child is looked at, and the second is asked for the code
///   if the first has 0 and, for a code above 0, lacks the code;
/// - at a parallel every node within is looked at.
///
/// A question for a code above 63 adds no node to the count: asked by the caller it has count 0,
/// and a trap asked for 63 counts itself only. For any other code the count is at least 1 and at
/// most the nodes of the asked statement, itself included.
///
/// The count is not what a call costs: each call makes the checks of the whole table anew. To make
/// [`Sets`](crate::Sets) of a table takes about as long as one such call, so a caller with a second
/// question about the same table may rather do that once.
///
/// ```
/// use bavzhrono::{ask, Asked};
///
/// // A loop of pause and emit: the pause has 1, so that the emit is not looked at.
/// let table = [2, 0, 3, 7, 9, 0, 8, 0];
/// assert_eq!(ask(&table, 3, 1)?, Asked { member: true, count: 3 });
/// // It does not end in the instant in which it is started.
/// assert_eq!(ask(&table, 3, 0)?, Asked { member: false, count: 1 });
/// assert_eq!(ask(&table, 3, 64)?, Asked { member: false, count: 0 });
///
/// let refusal = ask(&table, 4, 0).unwrap_err();
/// assert_eq!(
///     refusal.to_string(),
///     "refused 21: the node that is asked about or tried is outside the table"
/// );
/// # Ok::<(), bavzhrono::Refusal>(())
/// ```
pub fn ask(table: &[u8], node: usize, code: u32) -> Result<Asked, Refusal> {
    let [member, count, _] =
        Refusal::or_figures(|answer| raw::ask(table, node as u64, code.into(), answer))?;
    Ok(Asked {
        member: member == 1,
        count,
    })
}
