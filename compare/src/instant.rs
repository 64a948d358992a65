//! One instant: a program is started, or resumed from its held pauses.

use crate::checks;
use crate::held::{Held, STATE_BYTES};
use crate::table::{Statement, Tree};
use crate::Refusal;

/// The number of signals, which is the length of the emissions.
pub const SIGNALS: usize = 256;

/// A completion code: 0 ended, 1 paused, 2 + level an exit.
pub type Code = u32;

pub const ENDED: Code = 0;
pub const PAUSED: Code = 1;
/// The code of an exit to the innermost trap.
pub const CAUGHT: Code = 2;

/// An instant that has closed.
#[derive(Clone, Copy, Debug, PartialEq, Eq)]
pub struct Closed {
    pub code: Code,
    /// The number of answers taken from the lent list.
    pub taken: usize,
    /// The number of times that a statement was started or resumed.
    pub entries: usize,
}

impl Closed {
    pub fn new(code: Code, taken: usize, entries: usize) -> Closed {
        Closed {
            code,
            taken,
            entries,
        }
    }
}

#[derive(Clone, Copy, Debug, PartialEq, Eq)]
pub enum How {
    Started,
    Resumed,
}

/// One line of the trail: a statement entered, and the code it finished with.
#[derive(Clone, Copy, Debug, PartialEq, Eq)]
pub struct Entry {
    pub node: usize,
    pub how: How,
    pub code: Code,
}

/// Starts the program. The state is written only, its old bytes don't count. Of a longer
/// buffer just the first 128 bytes are the state.
pub fn start(
    table: &[u8],
    answers: &[u8],
    state: &mut [u8],
    emissions: &mut [u8],
) -> Result<Closed, Refusal> {
    let (closed, _) = run(How::Started, None, table, answers, state, emissions)?;
    Ok(closed)
}

/// Resumes the program from the pauses that the state holds.
pub fn resume(
    table: &[u8],
    answers: &[u8],
    state: &mut [u8],
    emissions: &mut [u8],
) -> Result<Closed, Refusal> {
    let (closed, _) = run(How::Resumed, None, table, answers, state, emissions)?;
    Ok(closed)
}

/// As `start`, with the trail: every entry in the order of entering.
pub fn start_with_trail(
    table: &[u8],
    answers: &[u8],
    state: &mut [u8],
    emissions: &mut [u8],
) -> Result<(Closed, Vec<Entry>), Refusal> {
    let trail = Some(Vec::new());
    let (closed, trail) = run(How::Started, trail, table, answers, state, emissions)?;
    Ok((closed, trail.unwrap_or_default()))
}

/// As `resume`, with the trail: every entry in the order of entering.
pub fn resume_with_trail(
    table: &[u8],
    answers: &[u8],
    state: &mut [u8],
    emissions: &mut [u8],
) -> Result<(Closed, Vec<Entry>), Refusal> {
    let trail = Some(Vec::new());
    let (closed, trail) = run(How::Resumed, trail, table, answers, state, emissions)?;
    Ok((closed, trail.unwrap_or_default()))
}

/// Checks 1 to 12, then the instant. The buffers are written at the very end,
/// so that a refusal changes nothing.
fn run(
    how: How,
    trail: Option<Vec<Entry>>,
    table: &[u8],
    answers: &[u8],
    state: &mut [u8],
    emissions: &mut [u8],
) -> Result<(Closed, Option<Vec<Entry>>), Refusal> {
    let program = checks::accept(table, |_| {
        state.len() >= STATE_BYTES && emissions.len() >= SIGNALS
    })?;
    let tree = &program.tree;
    let held = match how {
        How::Started => Held::default(),
        How::Resumed => {
            let held = Held::read(state);
            if !admitted(tree, &held) {
                return Err(Refusal::whole(12));
            }
            held
        }
    };

    let mut runner = Runner {
        held,
        trail,
        ..Runner::new(tree, answers)
    };
    let code = match how {
        How::Started => runner.start(tree.root())?,
        How::Resumed => runner.resume(tree.root())?,
    };
    state[..STATE_BYTES].copy_from_slice(&runner.held.bytes());
    emissions[..SIGNALS].copy_from_slice(&runner.emissions);
    let closed = Closed::new(code, runner.taken, runner.entries);
    Ok((closed, runner.trail))
}

/// Starts the statement of a node of an accepted program by itself: its code.
pub fn start_alone(tree: &Tree, node: usize, answers: &[u8]) -> Result<Code, Refusal> {
    Runner::new(tree, answers).start(node)
}

/// Whether the state is one to resume from. Bits from n on are no pauses.
pub fn admitted(tree: &Tree, held: &Held) -> bool {
    let holds = |node: usize| held.holds_any(tree.lowest[node]..node + 1);
    let on_one_side = |&statement: &Statement| match statement {
        Statement::Present {
            then: one,
            otherwise: other,
        }
        | Statement::Sequence {
            first: one,
            second: other,
        } => !(holds(one) && holds(other)),
        _ => true,
    };
    !held.is_empty() && held.is_within(&pauses(tree)) && tree.statements.iter().all(on_one_side)
}

/// All pauses of the program.
fn pauses(tree: &Tree) -> Held {
    let mut pauses = Held::default();
    for (node, statement) in tree.statements.iter().enumerate() {
        if *statement == Statement::Pause {
            pauses.hold(node);
        }
    }
    pauses
}

/// An instant under way.
struct Runner<'a> {
    tree: &'a Tree,
    answers: &'a [u8],
    taken: usize,
    entries: usize,
    held: Held,
    emissions: [u8; SIGNALS],
    trail: Option<Vec<Entry>>,
}

impl<'a> Runner<'a> {
    /// Nothing is held or emitted yet, and no trail is kept.
    fn new(tree: &'a Tree, answers: &'a [u8]) -> Runner<'a> {
        Runner {
            tree,
            answers,
            taken: 0,
            entries: 0,
            held: Held::default(),
            emissions: [0; SIGNALS],
            trail: None,
        }
    }

    fn start(&mut self, node: usize) -> Result<Code, Refusal> {
        let entry = self.enter(node, How::Started);
        let code = match self.tree.statements[node] {
            Statement::Nothing => ENDED,
            Statement::Pause => {
                self.held.hold(node);
                PAUSED
            }
            Statement::Emit { signal } => {
                self.emissions[usize::from(signal)] = 1;
                ENDED
            }
            Statement::Exit { level } => CAUGHT + Code::from(level),
            Statement::Signal { body } | Statement::Suspend { body } => self.start(body)?,
            Statement::Present { then, otherwise } => {
                if self.answer()? {
                    self.start(then)?
                } else {
                    self.start(otherwise)?
                }
            }
            Statement::Loop { body } => self.start_loop_body(body)?,
            Statement::Sequence { first, second } => match self.start(first)? {
                ENDED => self.start(second)?,
                code => code,
            },
            Statement::Parallel { left, right } => {
                let left = self.start(left)?;
                let right = self.start(right)?;
                left.max(right)
            }
            Statement::Trap { body } => {
                let code = self.start(body)?;
                self.leave_trap(node, code)
            }
        };
        self.finish(entry, code);
        Ok(code)
    }

    fn resume(&mut self, node: usize) -> Result<Code, Refusal> {
        let entry = self.enter(node, How::Resumed);
        let code = match self.tree.statements[node] {
            Statement::Nothing | Statement::Emit { .. } | Statement::Exit { .. } => {
                unreachable!("only a statement that holds a pause is resumed")
            }
            Statement::Pause => {
                self.held.let_go(node);
                ENDED
            }
            Statement::Signal { body } => self.resume(body)?,
            Statement::Present { then, otherwise } => {
                if self.holds(then) {
                    self.resume(then)?
                } else {
                    self.resume(otherwise)?
                }
            }
            Statement::Suspend { body } => {
                if self.answer()? {
                    PAUSED
                } else {
                    self.resume(body)?
                }
            }
            Statement::Loop { body } => match self.resume(body)? {
                ENDED => self.start_loop_body(body)?,
                code => code,
            },
            Statement::Sequence { first, second } => {
                if self.holds(second) {
                    self.resume(second)?
                } else {
                    match self.resume(first)? {
                        ENDED => self.start(second)?,
                        code => code,
                    }
                }
            }
            Statement::Parallel { left, right } => {
                let left = self.resume_branch(left)?;
                let right = self.resume_branch(right)?;
                left.max(right)
            }
            Statement::Trap { body } => {
                let code = self.resume(body)?;
                self.leave_trap(node, code)
            }
        };
        self.finish(entry, code);
        Ok(code)
    }

    /// Whether a pause within the statement is held. A statement is resumed at most once,
    /// before anything within it has changed.
    fn holds(&self, node: usize) -> bool {
        self.held.holds_any(self.tree.lowest[node]..node + 1)
    }

    /// A branch that holds nothing has ended earlier and is not entered.
    fn resume_branch(&mut self, branch: usize) -> Result<Code, Refusal> {
        if self.holds(branch) {
            self.resume(branch)
        } else {
            Ok(ENDED)
        }
    }

    /// There is no rule for a started body that ends; check 11 rules it out.
    fn start_loop_body(&mut self, body: usize) -> Result<Code, Refusal> {
        let code = self.start(body)?;
        debug_assert_ne!(code, ENDED, "the body of a loop ended when started");
        Ok(code)
    }

    fn leave_trap(&mut self, trap: usize, code: Code) -> Code {
        match code {
            ENDED | PAUSED => code,
            CAUGHT => {
                let lowest = self.tree.lowest[trap];
                self.held.let_go_all(lowest..trap);
                ENDED
            }
            further_out => further_out - 1,
        }
    }

    /// Takes the next answer: whether the signal is present. Check 13.
    fn answer(&mut self) -> Result<bool, Refusal> {
        let Some(&answer) = self.answers.get(self.taken) else {
            return Err(Refusal::whole(13));
        };
        self.taken += 1;
        Ok(answer != 0)
    }

    /// Counts an entry and hands back its place in the trail.
    fn enter(&mut self, node: usize, how: How) -> usize {
        if let Some(trail) = &mut self.trail {
            // The code is put in when the statement finishes.
            let code = ENDED;
            trail.push(Entry { node, how, code });
        }
        self.entries += 1;
        self.entries - 1
    }

    fn finish(&mut self, entry: usize, code: Code) {
        if let Some(trail) = &mut self.trail {
            trail[entry].code = code;
        }
    }
}
