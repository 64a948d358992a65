//! An instant moment by moment: which statements are running, held, over or dropped.
//!
//! What is entered again is told here in the words of F-6, not from the trail. Nothing is
//! shared with `instant`: one step leads to the next, without calls upon children, and the
//! statements that are running are a stack.

use crate::instant::Code;
use crate::instant::How::{self, Resumed, Started};
use crate::table::{Statement, Tree};

/// How a statement stands at a moment of the instant.
#[derive(Clone, Copy, Debug, PartialEq, Eq)]
enum Standing {
    /// Not entered so far, and without a held pause.
    Idle,
    /// With a held pause: not entered so far, or it has finished with code 1.
    Held,
    Running,
    /// It has finished with another code than 1.
    Over,
    /// It was held until a trap around it was left by an exit.
    Dropped,
}

/// An instant that has closed.
#[derive(Clone, Debug, PartialEq, Eq)]
pub struct Account {
    pub code: Code,
    /// The number of answers taken.
    pub taken: usize,
    /// The pauses that are held afterwards, lowest first.
    pub held: Vec<usize>,
    /// Entered, then over or dropped, and started again: these are F-6's. Lowest first.
    pub reentered: Vec<usize>,
    /// Held and not entered, then dropped, and started. Lowest first.
    pub dropped_unentered: Vec<usize>,
}

/// The account of a resumption from held pauses or, without them, of a start. The program
/// is accepted and the state admitted. There is none if the answers don't suffice.
pub fn account(tree: &Tree, before: Option<&[usize]>, answers: &[u8]) -> Option<Account> {
    let how = match before {
        None => Started,
        Some(_) => Resumed,
    };
    let mut moment = Moment {
        tree,
        standing: standing_before(tree, before.unwrap_or_default()),
        entered: vec![None; tree.size()],
        codes: vec![None; tree.size()],
        running: Vec::new(),
        answers: answers.iter(),
        reentered: vec![false; tree.size()],
        dropped_unentered: vec![false; tree.size()],
    };
    let code = moment.run(how)?;
    Some(Account {
        code,
        taken: answers.len() - moment.answers.len(),
        held: moment.held_pauses(),
        reentered: places(&moment.reentered),
        dropped_unentered: places(&moment.dropped_unentered),
    })
}

/// A statement is held if a pause within it is.
fn standing_before(tree: &Tree, held: &[usize]) -> Vec<Standing> {
    let standing = |node| {
        let own = tree.lowest[node]..=node;
        match held.iter().any(|pause| own.contains(pause)) {
            true => Standing::Held,
            false => Standing::Idle,
        }
    };
    (0..tree.size()).map(standing).collect()
}

fn places(flags: &[bool]) -> Vec<usize> {
    (0..flags.len()).filter(|&at| flags[at]).collect()
}

/// What happens next.
enum Step {
    Enter(usize, How),
    /// The innermost running statement finishes.
    Finish(Code),
}

use Step::{Enter, Finish};

struct Moment<'a> {
    tree: &'a Tree,
    standing: Vec<Standing>,
    /// How each statement was entered last in this instant, and what it finished with.
    entered: Vec<Option<How>>,
    codes: Vec<Option<Code>>,
    /// The statements that are running, innermost last.
    running: Vec<usize>,
    answers: std::slice::Iter<'a, u8>,
    reentered: Vec<bool>,
    dropped_unentered: Vec<bool>,
}

impl Moment<'_> {
    /// From step to step, until the program finishes.
    fn run(&mut self, how: How) -> Option<Code> {
        let mut step = Enter(self.tree.root(), how);
        loop {
            step = match step {
                Enter(node, how) => {
                    self.enter(node, how);
                    self.begin(node, how)?
                }
                Finish(code) => {
                    let child = self.finish(code);
                    match self.running.last() {
                        Some(&parent) => self.go_on(parent, child, code),
                        None => return Some(code),
                    }
                }
            };
        }
    }

    /// A statement is started after it was over or dropped, or for the first time; it is
    /// resumed only while it is held.
    fn enter(&mut self, node: usize, how: How) {
        let entered_before = self.entered[node].is_some();
        match (how, self.standing[node], entered_before) {
            (Started, Standing::Idle, false) | (Resumed, Standing::Held, false) => {}
            (Started, Standing::Over | Standing::Dropped, true) => self.reentered[node] = true,
            (Started, Standing::Dropped, false) => self.dropped_unentered[node] = true,
            other => unreachable!("node {node} is entered: {other:?}"),
        }
        self.entered[node] = Some(how);
        self.standing[node] = Standing::Running;
        self.running.push(node);
    }

    /// What a statement does first.
    fn begin(&mut self, node: usize, how: How) -> Option<Step> {
        Some(match (how, self.tree.statements[node]) {
            (_, Statement::Nothing | Statement::Emit { .. }) => Finish(0),
            (_, Statement::Exit { level }) => Finish(2 + Code::from(level)),
            (Started, Statement::Pause) => Finish(1),
            (Resumed, Statement::Pause) => Finish(0),
            (Started, Statement::Present { then, otherwise }) => {
                let is_present = self.answer()?;
                Enter(if is_present { then } else { otherwise }, Started)
            }
            (Resumed, Statement::Suspend { .. }) if self.answer()? => Finish(1),
            (how, statement) => {
                let children = children(statement);
                let is_due = |&child: &usize| how == Started || self.is_held(child);
                let first = children.into_iter().flatten().find(is_due);
                Enter(first.expect("a resumed statement has a held child"), how)
            }
        })
    }

    /// What a running statement does after a child.
    fn go_on(&mut self, node: usize, child: usize, code: Code) -> Step {
        match self.tree.statements[node] {
            Statement::Sequence { first, second } if child == first && code == 0 => {
                Enter(second, Started)
            }
            // There is no rule for a body that was started and ends.
            Statement::Loop { body } if code == 0 && self.entered[body] == Some(Resumed) => {
                Enter(body, Started)
            }
            Statement::Loop { .. } if code == 0 => unreachable!("a started body ends"),
            Statement::Parallel { left, right } if child == left => match self.entered[node] {
                Some(Resumed) if self.is_held(right) => Enter(right, Resumed),
                Some(Resumed) => Finish(code),
                _ => Enter(right, Started),
            },
            // A left branch that was not entered had ended before.
            Statement::Parallel { left, .. } => Finish(code.max(self.codes[left].unwrap_or(0))),
            Statement::Trap { .. } if code == 2 => {
                self.drop_beneath(node);
                Finish(0)
            }
            Statement::Trap { .. } if code > 2 => Finish(code - 1),
            _ => Finish(code),
        }
    }

    /// Hands back the statement that finishes.
    fn finish(&mut self, code: Code) -> usize {
        let node = self.running.pop().expect("a statement is running");
        self.codes[node] = Some(code);
        self.standing[node] = match code {
            1 => Standing::Held,
            _ => Standing::Over,
        };
        node
    }

    fn drop_beneath(&mut self, trap: usize) {
        for standing in &mut self.standing[self.tree.lowest[trap]..trap] {
            if *standing == Standing::Held {
                *standing = Standing::Dropped;
            }
        }
    }

    fn is_held(&self, node: usize) -> bool {
        self.standing[node] == Standing::Held
    }

    fn answer(&mut self) -> Option<bool> {
        self.answers.next().map(|&answer| answer != 0)
    }

    fn held_pauses(&self) -> Vec<usize> {
        let is_pause = |&node: &usize| self.tree.statements[node] == Statement::Pause;
        let pauses = (0..self.tree.size()).filter(is_pause);
        pauses.filter(|&node| self.is_held(node)).collect()
    }
}

/// In the order in which they run.
fn children(statement: Statement) -> [Option<usize>; 2] {
    match statement {
        Statement::Nothing | Statement::Pause | Statement::Emit { .. } | Statement::Exit { .. } => {
            [None, None]
        }
        Statement::Signal { body }
        | Statement::Suspend { body }
        | Statement::Loop { body }
        | Statement::Trap { body } => [Some(body), None],
        Statement::Present { then, otherwise } => [Some(then), Some(otherwise)],
        Statement::Sequence { first, second } => [Some(first), Some(second)],
        Statement::Parallel { left, right } => [Some(left), Some(right)],
    }
}
