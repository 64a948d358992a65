use crate::{raw, CodeSet, Refusal, MAX_NODES, SIGNALS};

/// What is known of a signal for certain. As a number it is the signal's byte of [`narrow`].
#[derive(Clone, Copy, Debug, Default, PartialEq, Eq, Hash)]
#[repr(u8)]
pub enum Tie {
    /// Byte 0: its tests answer freely.
    #[default]
    Unknown = 0,
    /// Byte 1: its tests take the else branch.
    Absent = 1,
    /// Byte 2: its tests take the then branch.
    Present = 2,
}

/// Narrows the start sets by signals that are known for certain, as inputs that are tied off are,
/// into the first n entries of the sets, and hands back n; checks 1 to 11 and 19.
///
/// - `ties` needs [`SIGNALS`] bytes, byte s for signal s: 0 unknown, 1 absent, 2 present, as
///   [`Tie`] numbers them. Bytes past these are not looked at. The answers of
///   [`start`](crate::start) are numbered otherwise: there 0 is absent.
/// - `sets`: the narrowed start set of each node, that is, the codes that it can have, started
///   alone at its place in the program, when each test (present) of a tied signal gets the tied
///   answer and all other tests answer freely.
///
/// Inside the body of a signal statement its number is unknown, whatever its tie. A suspend tests
/// nothing when it is started, so its signal's tie makes no difference. A branch that a tied test
/// cuts off keeps the set of its own start.
///
/// With no signal tied the sets are K, and tying one more unknown signal never adds a code. Check
/// 11 is by K as ever: a loop whose body can end only against the ties is refused too.
///
/// ```
/// use bavzhrono::{narrow, CodeSet, Tie, SIGNALS};
///
/// // Present 5: then nothing, else pause.
/// let table = [1, 0, 2, 0, 6, 5];
/// let mut ties = [Tie::Unknown as u8; SIGNALS];
/// ties[5] = Tie::Absent as u8;
/// let mut sets = [CodeSet::EMPTY; 3];
/// assert_eq!(narrow(&table, &ties, &mut sets)?, 3);
/// assert_eq!(sets.map(|set| set.to_string()), ["{0}", "{1}", "{1}"]);
///
/// ties[5] = 3;
/// let refusal = narrow(&table, &ties, &mut sets).unwrap_err();
/// assert_eq!(
///     refusal.to_string(),
///     "refused 19: a signal's tie is none of 0, 1 and 2"
/// );
/// # Ok::<(), bavzhrono::Refusal>(())
/// ```
pub fn narrow(table: &[u8], ties: &[u8], sets: &mut [CodeSet]) -> Result<usize, Refusal> {
    let sets = raw::numbers(sets);
    let [nodes, ..] = Refusal::or_figures(|answer| raw::narrow(table, ties, sets, answer))?;
    Ok(nodes)
}

/// The sets that [`narrow`] writes, an entry a node, where just these signals are tied; checks 1, 2
/// and 4 to 11, all of the table. The last tie of a signal counts.
///
/// ```
/// use bavzhrono::{narrowed_sets, table_of, Sets, Tie};
///
/// let table = table_of(
///     b"trap Locked in
///         loop present LockRequest then exit Locked end; pause end
///       end",
/// )?;
/// let start_sets = Sets::of(&table)?.start_sets;
/// assert_eq!(start_sets[4].to_string(), "{1, 2}"); // the loop's body
/// assert_eq!(start_sets[6].to_string(), "{0, 1}"); // the program
///
/// // In the factory mode there is no lock request: the exit is not taken, so that its code falls
/// // away from the body, and the end by this exit from the program.
/// let sets = narrowed_sets(&table, &[(0, Tie::Absent)])?;
/// assert_eq!(sets[4].to_string(), "{1}");
/// assert_eq!(sets[6].to_string(), "{1}");
/// # Ok::<(), bavzhrono::Refusal>(())
/// ```
pub fn narrowed_sets(table: &[u8], ties: &[(u8, Tie)]) -> Result<Vec<CodeSet>, Refusal> {
    let mut bytes = [Tie::Unknown as u8; SIGNALS];
    for &(signal, tie) in ties {
        bytes[usize::from(signal)] = tie as u8;
    }
    // A longer table is refused before its sets are measured.
    let mut sets = vec![CodeSet::EMPTY; MAX_NODES.min(table.len() / 2)];
    narrow(table, &bytes, &mut sets)?;
    Ok(sets)
}
