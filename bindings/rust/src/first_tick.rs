use crate::{raw, Refusal, TICK_ANSWERS};

/// The first tick, to the entry: the greatest number of entries that any answers can give when the
/// program is started; checks 1, 2 and 4 to 11, all of the table.
///
/// With some answers [`start`](crate::start) reports so many entries, and with none more. The number
/// is at least 1 and at most n.
///
/// It holds for the start alone: an instant that resumes the program can have more entries, up to
/// [`Analysis::bound`](crate::Analysis::bound).
///
/// ```
/// use bavzhrono::{first_tick, Sets};
///
/// // Present 1 then nothing; pause else nothing end; pause. With 1 absent the second pause is
/// // entered, too, but with 1 present there are more entries, 5.
/// let table = [1, 0, 2, 0, 9, 0, 1, 0, 6, 1, 2, 0, 9, 0];
/// assert_eq!(first_tick(&table)?, 5);
/// assert_eq!(Sets::of(&table)?.analysis.bound(), 7);
/// # Ok::<(), bavzhrono::Refusal>(())
/// ```
pub fn first_tick(table: &[u8]) -> Result<usize, Refusal> {
    let [entries, ..] = Refusal::or_figures(|answer| raw::first_tick(table, answer))?;
    Ok(entries)
}

/// A start with the most entries, as [`first_tick_answers`] finds it.
#[derive(Clone, Copy, Debug, PartialEq, Eq, Hash)]
pub struct FirstTick<'a> {
    /// The number of entries, that of [`first_tick`].
    pub entries: usize,
    /// The answers that reach it: 0 absent, 1 present.
    pub answers: &'a [u8],
}

/// Finds the number of [`first_tick`] and a list of answers that reaches it; checks 1 to 11.
///
/// The list is written to the front of the lent answers and handed back; the old bytes past it stay.
/// The answers need [`TICK_ANSWERS`] bytes, for a short list too.
///
/// Started with the list, the program takes all of it, closes, and has just so many entries; so it
/// does whatever answers follow the list, since none of them is taken. Of all lists with which it
/// does so this one has 0 at the first difference. It can be empty, and has at most 511 answers.
///
/// ```
/// use bavzhrono::{first_tick_answers, start, State, SIGNALS, TICK_ANSWERS};
///
/// // Present 1 then nothing; pause else nothing end; pause.
/// let table = [1, 0, 2, 0, 9, 0, 1, 0, 6, 1, 2, 0, 9, 0];
/// let mut lent = [0; TICK_ANSWERS];
/// let first = first_tick_answers(&table, &mut lent)?;
/// assert_eq!((first.entries, first.answers), (5, &[1][..]));
///
/// let (mut state, mut emissions) = (State::EMPTY, [0; SIGNALS]);
/// let closed = start(&table, first.answers, &mut state, &mut emissions)?;
/// assert_eq!((closed.taken, closed.entries), (1, 5));
/// let with_absent = start(&table, &[0], &mut state, &mut emissions)?;
/// assert_eq!((with_absent.taken, with_absent.entries), (1, 4));
/// # Ok::<(), bavzhrono::Refusal>(())
/// ```
pub fn first_tick_answers<'a>(
    table: &[u8],
    answers: &'a mut [u8],
) -> Result<FirstTick<'a>, Refusal> {
    let [entries, length, _] =
        Refusal::or_figures(|answer| raw::first_tick_answers(table, answers, answer))?;
    let answers = &answers[..length];
    Ok(FirstTick { entries, answers })
}

/// What the first instant is planned with: a start with the most entries, as [`first_tick_answers`]
/// finds it.
///
/// ```
/// use bavzhrono::{table_of, Plan};
///
/// let table = table_of(b"present PowerWarning then emit Saved; pause end; emit Ready")?;
/// let plan = Plan::of(&table)?;
/// assert_eq!((plan.entries, &plan.answers[..]), (5, &[1][..]));
/// # Ok::<(), bavzhrono::Refusal>(())
/// ```
#[derive(Clone, Debug, PartialEq, Eq, Hash)]
pub struct Plan {
    /// The number of entries, that of [`first_tick`].
    pub entries: usize,
    /// The answers that reach it: 0 absent, 1 present.
    pub answers: Vec<u8>,
}

impl Plan {
    /// The plan of a table; checks 1, 2 and 4 to 11, all of the table.
    pub fn of(table: &[u8]) -> Result<Plan, Refusal> {
        let mut lent = [0; TICK_ANSWERS];
        let FirstTick { entries, answers } = first_tick_answers(table, &mut lent)?;
        let answers = answers.to_vec();
        Ok(Plan { entries, answers })
    }
}
