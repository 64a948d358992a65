use crate::{raw, Refusal, State};

/// How the program finished the instant. Its exits are all caught, so there is no third way.
#[derive(Clone, Copy, Debug, PartialEq, Eq, Hash)]
pub enum Completion {
    /// Code 0: the program ended, and nothing is held.
    Terminated,
    /// Code 1: the program paused, and the state holds its pauses.
    Paused,
}

/// An instant that has closed.
#[derive(Clone, Copy, Debug, PartialEq, Eq, Hash)]
pub struct Closed {
    /// The completion code of the program.
    pub code: Completion,
    /// The number of answers taken from the lent list.
    pub taken: usize,
    /// The number of times that a statement was started or resumed.
    pub entries: usize,
}

impl Closed {
    fn of([code, taken, entries]: [usize; 3]) -> Closed {
        let code = match code {
            0 => Completion::Terminated,
            1 => Completion::Paused,
            _ => unreachable!("an exit with code {code} left the program"),
        };
        Closed {
            code,
            taken,
            entries,
        }
    }
}

/// One instant, in which the program is started; checks 1 to 11 and 13.
///
/// - `answers` are those to the presence tests in the order met: 0 absent, any other byte
///   present. A started present takes one. Answers left over are not looked at.
/// - `state` shows the held pauses afterwards, and nothing else. What it held before is not looked
///   at.
/// - `emissions` needs 256 bytes: afterwards byte s is 1 if an emit of signal s was entered, else
///   0.
///
/// ```
/// use bavzhrono::{start, Completion, State, SIGNALS};
///
/// // Present 5: then nothing, else pause.
/// let table = [1, 0, 2, 0, 6, 5];
/// let mut state = State::EMPTY;
/// let mut emissions = [0; SIGNALS];
/// let present = start(&table, &[1], &mut state, &mut emissions)?;
/// assert_eq!(present.code, Completion::Terminated);
/// assert!(state.is_empty());
/// let absent = start(&table, &[0], &mut state, &mut emissions)?;
/// assert_eq!(absent.code, Completion::Paused);
/// assert!(state.held().eq([1]));
/// # Ok::<(), bavzhrono::Refusal>(())
/// ```
pub fn start(
    table: &[u8],
    answers: &[u8],
    state: &mut State,
    emissions: &mut [u8],
) -> Result<Closed, Refusal> {
    let state = state.as_mut_bytes();
    Refusal::or_figures(|answer| raw::start(table, answers, state, emissions, answer))
        .map(Closed::of)
}

/// One instant, in which the program is resumed from the pauses that the state holds; checks 1
/// to 13.
///
/// The buffers are as for [`start`]; a resumed suspend takes an answer too. The state goes in as
/// well. It is admitted if at least one node is held, each held node is a pause of the program, and
/// no sequence or present holds pauses in both children.
///
/// ```
/// use bavzhrono::{resume, Closed, Completion, State, SIGNALS};
///
/// let table = [2, 0, 3, 7, 9, 0, 8, 0];
/// let mut state: State = [0].into_iter().collect();
/// let mut emissions = [0; SIGNALS];
/// let closed = resume(&table, &[], &mut state, &mut emissions)?;
/// assert_eq!(closed, Closed { code: Completion::Paused, taken: 0, entries: 6 });
/// assert_eq!(emissions[7], 1);
///
/// // Node 1 is no pause, and the table has no node 4: such a state is not admitted, and stays.
/// for stray in [1, 4] {
///     let mut state: State = [0, stray].into_iter().collect();
///     let refusal = resume(&table, &[], &mut state, &mut emissions).unwrap_err();
///     assert_eq!(refusal.number, 12);
///     assert!(state.is_held(stray));
/// }
/// # Ok::<(), bavzhrono::Refusal>(())
/// ```
pub fn resume(
    table: &[u8],
    answers: &[u8],
    state: &mut State,
    emissions: &mut [u8],
) -> Result<Closed, Refusal> {
    let state = state.as_mut_bytes();
    Refusal::or_figures(|answer| raw::resume(table, answers, state, emissions, answer))
        .map(Closed::of)
}
