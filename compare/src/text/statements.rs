//! The statements of a text, in a list, so that no walk over them has to call itself.

pub const NOTHING: u8 = 1;
pub const PAUSE: u8 = 2;
pub const EMIT: u8 = 3;
pub const EXIT: u8 = 4;
pub const PRESENT: u8 = 6;
pub const SUSPEND: u8 = 7;
pub const LOOP: u8 = 8;
pub const SEQUENCE: u8 = 9;
pub const PARALLEL: u8 = 10;
pub const TRAP: u8 = 11;

/// A statement of the kernel.
#[derive(Clone, Debug, PartialEq, Eq)]
pub struct Statement {
    pub kind: u8,
    pub name: Name,
    /// First child first.
    pub children: Vec<usize>,
}

/// The token of a statement's name, if it has one.
pub type Name = Option<usize>;

/// Children before parents; the last is the program.
pub type Statements = Vec<Statement>;

/// Adds a statement, and hands back where it is.
pub fn add(
    statements: &mut Statements,
    kind: u8,
    name: Name,
    children: impl Into<Vec<usize>>,
) -> usize {
    statements.push(Statement {
        kind,
        name,
        children: children.into(),
    });
    statements.len() - 1
}

/// The statement right around each one; the program has none.
pub fn parents(statements: &Statements) -> Vec<Option<usize>> {
    let mut parents = vec![None; statements.len()];
    for (parent, statement) in statements.iter().enumerate() {
        let children = statement.children.iter();
        children.for_each(|&child| parents[child] = Some(parent));
    }
    parents
}

/// The statements in the order of a table. They were not added in it: a branch that is
/// missing comes after the one that is there.
pub fn postfix(statements: &Statements) -> Vec<usize> {
    // From the end: the program, its last child, what is in that, and so on.
    let mut order = Vec::new();
    let mut pending = vec![statements.len() - 1];
    while let Some(at) = pending.pop() {
        order.push(at);
        pending.extend(&statements[at].children);
    }
    order.reverse();
    order
}
