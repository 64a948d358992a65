use std::fmt;

use crate::{raw, Analysis, Refusal, TICK_ANSWERS};

/// What [`tick`] finds in a table that passes checks 1 to 10.
#[derive(Clone, Copy, Debug, PartialEq, Eq, Hash)]
pub enum Tick<'a> {
    /// Check 11 fails at this loop.
    Ends {
        /// The node of the loop.
        node: usize,
        /// The answers with which its body ends at once: 0 absent, 1 present.
        answers: &'a [u8],
    },
    /// The table is accepted, and has these figures.
    Accepted(Analysis),
}

/// Finds the tick in which the body of a refused loop ends at once; checks 1 to 11.
///
/// If check 11 fails, a list of answers to presence tests is written to the front of the lent
/// answers and handed back; the old bytes past it stay. For an accepted table all do. The answers
/// need [`TICK_ANSWERS`] bytes, for a short list too.
///
/// The loop is the lowest whose body can end in the instant in which it is started, the one that
/// the other calls refuse with 11; this call's refusals are 1 to 10. Started with the list, the body
/// takes all of it and ends, with code 0. No list that does so is shorter, and of those as short
/// this one has 0 at the first difference. It can be empty, and has at most 511 answers.
///
/// ```
/// use bavzhrono::{start, tick, Closed, Completion, State, Tick, SIGNALS, TICK_ANSWERS};
///
/// // W8, a loop of two tests: present 5 then pause; present 5 else pause.
/// let table = [2, 0, 1, 0, 6, 5, 1, 0, 2, 0, 6, 5, 9, 0, 8, 0];
/// let mut lent = [0; TICK_ANSWERS];
/// let Tick::Ends { node, answers } = tick(&table, &mut lent)? else {
///     panic!("W8 is refused by 11");
/// };
/// assert_eq!((node, answers), (7, &[0, 1][..]));
///
/// // The body, which here is all before the loop, is started with these answers, and ends.
/// let body = &table[..2 * node];
/// let closed = start(body, answers, &mut State::default(), &mut [0; SIGNALS])?;
/// assert_eq!(closed, Closed { code: Completion::Terminated, taken: 2, entries: 5 });
/// # Ok::<(), bavzhrono::Refusal>(())
/// ```
pub fn tick<'a>(table: &[u8], answers: &'a mut [u8]) -> Result<Tick<'a>, Refusal> {
    let figures = Refusal::or_figures(|answer| raw::tick(table, answers, answer))?;
    Ok(match figures {
        [0, nodes, loop_depth] => Tick::Accepted(Analysis { nodes, loop_depth }),
        [_, node, length] => Tick::Ends {
            node,
            answers: &answers[..length],
        },
    })
}

/// The fault of a table that check 11 refuses: a loop, and the answers with which its body ends in
/// the instant in which it is started, as [`tick`] finds them.
///
/// ```
/// use bavzhrono::Fault;
///
/// // W6, a loop of one test: present 5 else pause.
/// let fault = Fault::of(&[1, 0, 2, 0, 6, 5, 8, 0])?.expect("a fault");
/// assert_eq!((fault.node, &fault.answers[..]), (3, &[1][..]));
/// assert_eq!(fault.to_string(), "3 1");
///
/// assert_eq!(Fault::of(&[2, 0, 8, 0])?, None);
/// # Ok::<(), bavzhrono::Refusal>(())
/// ```
#[derive(Clone, Debug, PartialEq, Eq, Hash)]
pub struct Fault {
    /// The node of the loop.
    pub node: usize,
    /// The answers: 0 absent, 1 present.
    pub answers: Vec<u8>,
}

impl Fault {
    /// The fault of a table, nothing if it is accepted, or its refusal by another check than 11.
    pub fn of(table: &[u8]) -> Result<Option<Fault>, Refusal> {
        Ok(match tick(table, &mut [0; TICK_ANSWERS])? {
            Tick::Ends { node, answers } => Some(Fault {
                node,
                answers: answers.to_vec(),
            }),
            Tick::Accepted(_) => None,
        })
    }
}

/// Written as the node and then 0 or 1 for each answer, as `7 0 1`.
impl fmt::Display for Fault {
    fn fmt(&self, f: &mut fmt::Formatter<'_>) -> fmt::Result {
        write!(f, "{}", self.node)?;
        self.answers
            .iter()
            .try_for_each(|answer| write!(f, " {answer}"))
    }
}
