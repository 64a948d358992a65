//! Narrowed start sets by wrong rules, which starts must tell from the right ones.

use crate::checks::{self, Program};
use crate::narrow::{
    answers_by_number, field, known_answers, narrowed_sets, read_ties, untie, Answer,
};
use crate::table::{self, Statement};
use crate::Refusal;

/// Table and ties, to the sets or the refusal.
pub type Rule = fn(&[u8], &[u8]) -> Result<Vec<u64>, Refusal>;

/// Ties reach into the bodies of signal statements.
pub fn into_bodies(table: &[u8], ties: &[u8]) -> Result<Vec<u64>, Refusal> {
    narrowed_with(table, ties, |program, ties| {
        answers_by_number(table, &program.tree, ties)
    })
}

/// A signal statement unties its number for what follows it too.
pub fn untied_from_there_on(table: &[u8], ties: &[u8]) -> Result<Vec<u64>, Refusal> {
    narrowed_with(table, ties, |program, ties| {
        let mut answers = known_answers(table, &program.tree, ties);
        for node in signal_statements(program) {
            let rest = node..table.len() / 2;
            untie(table, field(table, node), rest, &mut answers);
        }
        answers
    })
}

/// The end of a signal statement ties its number again, though one more is around.
pub fn tied_by_the_inner_end(table: &[u8], ties: &[u8]) -> Result<Vec<u64>, Refusal> {
    narrowed_with(table, ties, |program, ties| {
        let mut answers = answers_by_number(table, &program.tree, ties);
        for node in signal_statements(program) {
            let signal = field(table, node);
            let lowest = program.tree.lowest[node];
            let mut same = signal_statements(program).filter(|&at| field(table, at) == signal);
            let first_end = same.find(|&at| at >= lowest).unwrap_or(node);
            untie(table, signal, lowest..first_end, &mut answers);
        }
        answers
    })
}

/// Absent and present are exchanged.
pub fn exchanged(table: &[u8], ties: &[u8]) -> Result<Vec<u64>, Refusal> {
    narrowed_with(table, ties, |program, ties| {
        let exchanged: Vec<Answer> = ties.iter().map(|tie| tie.map(|tie| !tie)).collect();
        known_answers(table, &program.tree, &exchanged)
    })
}

/// Nothing in a branch that is cut off has a code.
pub fn empty_where_cut_off(table: &[u8], ties: &[u8]) -> Result<Vec<u64>, Refusal> {
    let program = checks::accept(table, |_| true)?;
    let tree = &program.tree;
    let answers = known_answers(table, tree, &read_ties(ties)?);
    let mut sets = narrowed_sets(&program, &answers);
    for (statement, answer) in tree.statements.iter().zip(answers) {
        if let (&Statement::Present { then, otherwise }, Some(is_present)) = (statement, answer) {
            let cut_off = if is_present { otherwise } else { then };
            sets[tree.lowest[cut_off]..=cut_off].fill(0);
        }
    }
    Ok(sets)
}

/// Check 11 looks at the narrowed sets.
pub fn accepted_by_narrowed(table: &[u8], ties: &[u8]) -> Result<Vec<u64>, Refusal> {
    let refusal = checks::accept(table, |_| true).err();
    if let Some(refusal) = refusal.filter(|refusal| refusal.number != 11) {
        return Err(refusal);
    }
    let tree = table::read(table)?;
    let around = checks::check_nesting(&tree)?;
    let answers = known_answers(table, &tree, &read_ties(ties)?);
    let program = Program {
        tree,
        around,
        start_sets: Vec::new(),
    };
    let sets = narrowed_sets(&program, &answers);
    for (node, statement) in program.tree.statements.iter().enumerate() {
        match *statement {
            Statement::Loop { body } if sets[body] & 1 != 0 => return Err(Refusal::at(11, node)),
            _ => {}
        }
    }
    Ok(sets)
}

fn narrowed_with(
    table: &[u8],
    ties: &[u8],
    answers_of: impl Fn(&Program, &[Answer]) -> Vec<Answer>,
) -> Result<Vec<u64>, Refusal> {
    let program = checks::accept(table, |_| true)?;
    let answers = answers_of(&program, &read_ties(ties)?);
    Ok(narrowed_sets(&program, &answers))
}

fn signal_statements(program: &Program) -> impl Iterator<Item = usize> + '_ {
    let statements = program.tree.statements.iter().enumerate();
    statements.filter_map(|(node, statement)| match statement {
        Statement::Signal { .. } => Some(node),
        _ => None,
    })
}
