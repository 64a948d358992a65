//! From the bytes of a table to a tree of statements: checks 1, 2 and 4 to 7.

use crate::Refusal;

pub const MOST_BYTES: usize = 2048;

/// A statement with the node numbers of its children. The signal of a signal,
/// present or suspend is left out: tests are answered from a list, so it
/// decides nothing. Where F-8 has it decide, it is read from the table.
#[derive(Clone, Copy, Debug, PartialEq, Eq)]
pub enum Statement {
    Nothing,
    Pause,
    Emit { signal: u8 },
    Exit { level: u8 },
    Signal { body: usize },
    Present { then: usize, otherwise: usize },
    Suspend { body: usize },
    Loop { body: usize },
    Sequence { first: usize, second: usize },
    Parallel { left: usize, right: usize },
    Trap { body: usize },
}

/// The statements by node number, children before parents.
#[derive(Clone, Debug, PartialEq, Eq)]
pub struct Tree {
    pub statements: Vec<Statement>,
    /// The lowest node within each statement. A statement is a run of nodes
    /// without gaps that ends with the statement itself.
    pub lowest: Vec<usize>,
}

impl Tree {
    /// The number of nodes, at least 1.
    pub fn size(&self) -> usize {
        self.statements.len()
    }

    /// The node of the whole program.
    pub fn root(&self) -> usize {
        self.statements.len() - 1
    }
}

/// Checks 1 and 2; hands back the number of nodes.
pub fn measure(table: &[u8]) -> Result<usize, Refusal> {
    if table.len() > MOST_BYTES {
        return Err(Refusal::whole(1));
    }
    if table.is_empty() || table.len() % 2 == 1 {
        return Err(Refusal::whole(2));
    }
    Ok(table.len() / 2)
}

/// Checks 4 to 7, for a table that has passed 1 and 2.
pub fn read(table: &[u8]) -> Result<Tree, Refusal> {
    let size = table.len() / 2;
    let mut statements = Vec::with_capacity(size);
    let mut lowest: Vec<usize> = Vec::with_capacity(size);
    // Statements that have no parent yet, in table order.
    let mut unused: Vec<usize> = Vec::new();

    for (node, bytes) in table.chunks_exact(2).enumerate() {
        let (kind, field) = (bytes[0], bytes[1]);
        let Some(arity) = arity(kind) else {
            return Err(Refusal::at(4, node));
        };
        if field != 0 && field_must_be_zero(kind) {
            return Err(Refusal::at(5, node));
        }
        if unused.len() < arity {
            return Err(Refusal::at(6, node));
        }
        let children = unused.len() - arity;
        statements.push(build(kind, field, &unused[children..]));
        lowest.push(match unused.get(children) {
            Some(&first) => lowest[first],
            None => node,
        });
        unused.truncate(children);
        unused.push(node);
    }

    if unused.len() > 1 {
        return Err(Refusal::whole(7));
    }
    Ok(Tree { statements, lowest })
}

/// The number of children, or none for an unknown kind.
fn arity(kind: u8) -> Option<usize> {
    match kind {
        1..=4 => Some(0),
        5 | 7 | 8 | 11 => Some(1),
        6 | 9 | 10 => Some(2),
        0 | 12..=255 => None,
    }
}

fn field_must_be_zero(kind: u8) -> bool {
    matches!(kind, 1 | 2 | 8 | 9 | 10 | 11)
}

fn build(kind: u8, field: u8, children: &[usize]) -> Statement {
    match (kind, children) {
        (1, []) => Statement::Nothing,
        (2, []) => Statement::Pause,
        (3, []) => Statement::Emit { signal: field },
        (4, []) => Statement::Exit { level: field },
        (5, &[body]) => Statement::Signal { body },
        (6, &[then, otherwise]) => Statement::Present { then, otherwise },
        (7, &[body]) => Statement::Suspend { body },
        (8, &[body]) => Statement::Loop { body },
        (9, &[first, second]) => Statement::Sequence { first, second },
        (10, &[left, right]) => Statement::Parallel { left, right },
        (11, &[body]) => Statement::Trap { body },
        _ => unreachable!("the kind is known and has its number of children"),
    }
}
