//! Checks 8 to 11, and the order of all checks that judge a table.

use crate::sets::{self, ENDED};
use crate::table::{self, Statement, Tree};
use crate::Refusal;

pub const MOST_DEPTH: usize = 256;
/// By F-7. An exit to the outermost of so many traps has code 63, the last that a
/// set has room for.
pub const MOST_TRAPS: usize = 62;

/// What stands around each node.
pub struct Surroundings {
    /// Nodes from the program to the node, both counted.
    pub depth: Vec<usize>,
    /// Traps around the node, itself not counted.
    pub traps: Vec<usize>,
    /// Loops around the node, itself counted.
    pub loops: Vec<usize>,
}

/// A table that has passed checks 1, 2 and 4 to 11.
pub struct Program {
    pub tree: Tree,
    pub around: Surroundings,
    pub start_sets: Vec<u64>,
}

impl Program {
    /// The greatest number of loops around any node, itself counted.
    pub fn loop_depth(&self) -> usize {
        self.around.loops.iter().copied().max().unwrap_or(0)
    }
}

/// Checks 1 to 11. Check 3 belongs to the caller, who knows the lent buffers:
/// `buffers_suffice` is asked once, with the number of nodes.
pub fn accept(
    table: &[u8],
    buffers_suffice: impl FnOnce(usize) -> bool,
) -> Result<Program, Refusal> {
    let size = table::measure(table)?;
    if !buffers_suffice(size) {
        return Err(Refusal::whole(3));
    }
    let tree = table::read(table)?;
    let around = check_nesting(&tree)?;
    check_levels(&tree, &around)?;
    // Only now do all codes fit in 64 bits.
    let mut start_sets = vec![0; size];
    sets::fill_start_sets(&tree, &mut start_sets);
    check_loops(&tree, &start_sets)?;
    Ok(Program {
        tree,
        around,
        start_sets,
    })
}

/// Checks 8 and 9.
pub fn check_nesting(tree: &Tree) -> Result<Surroundings, Refusal> {
    let around = surroundings(tree);
    check_depth(&around)?;
    check_traps(tree, &around)?;
    Ok(around)
}

/// Walks from the program down, handing each node's counts to its children.
fn surroundings(tree: &Tree) -> Surroundings {
    let size = tree.size();
    let mut around = Surroundings {
        depth: vec![0; size],
        traps: vec![0; size],
        loops: vec![0; size],
    };
    around.depth[tree.root()] = 1;
    for (node, &statement) in tree.statements.iter().enumerate().rev() {
        if let Statement::Loop { .. } = statement {
            around.loops[node] += 1;
        }
        match statement {
            Statement::Nothing
            | Statement::Pause
            | Statement::Emit { .. }
            | Statement::Exit { .. } => {}
            Statement::Signal { body } | Statement::Suspend { body } | Statement::Loop { body } => {
                around.hand_down(node, body)
            }
            Statement::Trap { body } => {
                around.hand_down(node, body);
                around.traps[body] += 1;
            }
            Statement::Present {
                then: one,
                otherwise: other,
            }
            | Statement::Sequence {
                first: one,
                second: other,
            }
            | Statement::Parallel {
                left: one,
                right: other,
            } => {
                around.hand_down(node, one);
                around.hand_down(node, other);
            }
        }
    }
    around
}

impl Surroundings {
    fn hand_down(&mut self, parent: usize, child: usize) {
        self.depth[child] = self.depth[parent] + 1;
        self.traps[child] = self.traps[parent];
        self.loops[child] = self.loops[parent];
    }
}

/// Refuses at the lowest node that fits, if there is one.
fn refuse_lowest(number: u32, size: usize, fits: impl Fn(usize) -> bool) -> Result<(), Refusal> {
    match (0..size).find(|&node| fits(node)) {
        Some(node) => Err(Refusal::at(number, node)),
        None => Ok(()),
    }
}

fn check_depth(around: &Surroundings) -> Result<(), Refusal> {
    refuse_lowest(8, around.depth.len(), |node| {
        around.depth[node] > MOST_DEPTH
    })
}

fn check_traps(tree: &Tree, around: &Surroundings) -> Result<(), Refusal> {
    refuse_lowest(9, tree.size(), |node| match tree.statements[node] {
        Statement::Trap { .. } => around.traps[node] + 1 > MOST_TRAPS,
        _ => false,
    })
}

fn check_levels(tree: &Tree, around: &Surroundings) -> Result<(), Refusal> {
    refuse_lowest(10, tree.size(), |node| match tree.statements[node] {
        Statement::Exit { level } => usize::from(level) >= around.traps[node],
        _ => false,
    })
}

fn check_loops(tree: &Tree, start_sets: &[u64]) -> Result<(), Refusal> {
    refuse_lowest(11, tree.size(), |node| match tree.statements[node] {
        Statement::Loop { body } => start_sets[body] & ENDED != 0,
        _ => false,
    })
}
