//! Start sets by trial in wrong ways, which K must tell from the right one.

use std::collections::BTreeSet;

use super::nodes::{PAUSE, PRESENT};
use super::tried::Case;
use crate::by_trial::{gathered, presents_within, trial_by, Rule, Tried, ANSWERS, LISTS, RULE};
use crate::instant::{start_alone, Code, ENDED};
use crate::narrow::{answers_by_number, field, narrowed_sets, Answer};
use crate::question::node_within;
use crate::sets::{fill_any_sets, fill_start_sets, start_set};
use crate::table::{self, Statement, Tree};
use crate::{checks, Refusal};

#[derive(Clone, Copy)]
pub enum Wrong {
    /// Parts of the trial are others.
    Parts(Rule),
    /// It is made in another way.
    Outcome(fn(&[u8], u64) -> Result<Tried, Refusal>),
}

use Wrong::{Outcome, Parts};

impl Wrong {
    pub fn trial(self, table: &[u8], node: u64) -> Result<Tried, Refusal> {
        match self {
            Parts(rule) => trial_by(&rule, table, node),
            Outcome(trial) => trial(table, node),
        }
    }

    const fn codes(codes: fn(&Tree, usize) -> u64) -> Wrong {
        Parts(Rule { codes, ..RULE })
    }

    const fn presents(presents: fn(&Tree, usize) -> usize) -> Wrong {
        Parts(Rule { presents, ..BY_K })
    }

    const fn most(most: usize) -> Wrong {
        Parts(Rule { most, ..BY_K })
    }
}

/// The right rule but for its starts. Where another part is wrong, they would take time, and
/// where too many presents are let through, they would lack answers.
const BY_K: Rule = Rule {
    codes: start_set_of,
    ..RULE
};

fn start_set_of(tree: &Tree, node: usize) -> u64 {
    let mut sets = vec![0; tree.size()];
    fill_start_sets(tree, &mut sets);
    sets[node]
}

/// The right outcome, of which a wrong one is made.
fn right(table: &[u8], node: u64) -> Result<Tried, Refusal> {
    Case::new(table, node).by_start_sets()
}

pub const ELEVEN_ANSWERS: Wrong = Wrong::codes(starved_passed_over::<11>);
pub const STARVED_ENDS: Wrong = Wrong::codes(starved_ends::<11>);
pub const WITHOUT_THE_FIRST: Wrong = Wrong::codes(without_the_first);
pub const WITHOUT_THE_LAST: Wrong = Wrong::codes(without_the_last);
pub const ALL_ABSENT: Wrong = Wrong::codes(all_absent);
pub const ALL_ALIKE: Wrong = Wrong::codes(all_alike);
pub const BY_SIGNAL: Wrong = Outcome(by_signal);
pub const THE_PROGRAM: Wrong = Wrong::codes(of_program);
pub const ANY_INSTANT: Wrong = Wrong::codes(of_any_instant);
pub const UNION: Wrong = Wrong::codes(with_unions);
pub const SUSPENDS_TESTED: Wrong = Outcome(suspends_tested);
pub const OF_TABLE: Wrong = Wrong::presents(of_table);
pub const WITHOUT_OWN: Wrong = Wrong::presents(without_own);
pub const WITH_SUSPENDS: Wrong = Wrong::presents(with_suspends);
pub const AS_MANY_AS_TAKEN: Wrong = Wrong::presents(most_taken);
pub const SIGNALS_COUNTED: Wrong = Outcome(signals_counted);
pub const ELEVEN_AT_MOST: Wrong = Wrong::most(11);
pub const THIRTEEN_AT_MOST: Wrong = Wrong::most(13);
pub const BEFORE_21: Wrong = Outcome(before_21);
pub const BEFORE_11: Wrong = Outcome(before_11);
pub const NODE_FIRST: Wrong = Outcome(node_first);
pub const AT_THE_NODE: Wrong = Outcome(at_the_node);

pub const RULES: [(&str, Wrong); 22] = [
    ("lists of 11 answers", ELEVEN_ANSWERS),
    ("lists of 11 answers, and a starved run ends", STARVED_ENDS),
    ("without the list of absent alone", WITHOUT_THE_FIRST),
    ("without the list of present alone", WITHOUT_THE_LAST),
    ("the list of absent alone", ALL_ABSENT),
    ("lists of one answer alone", ALL_ALIKE),
    ("one answer for each signal", BY_SIGNAL),
    ("the program started", THE_PROGRAM),
    ("the set of any instant", ANY_INSTANT),
    ("the union of a parallel", UNION),
    ("a suspend tested when it is started", SUSPENDS_TESTED),
    ("presents of the table counted", OF_TABLE),
    ("the own present not counted", WITHOUT_OWN),
    ("suspends counted", WITH_SUSPENDS),
    ("answers taken counted", AS_MANY_AS_TAKEN),
    ("signals counted", SIGNALS_COUNTED),
    ("12 presents refused", ELEVEN_AT_MOST),
    ("13 presents tried", THIRTEEN_AT_MOST),
    ("22 before 21", BEFORE_21),
    ("22 before 11", BEFORE_11),
    ("21 before the table's checks", NODE_FIRST),
    ("22 at the node", AT_THE_NODE),
];

/// The codes of the starts with these lists, a starved one of which has this code or none.
fn codes_with<'a>(
    tree: &Tree,
    node: usize,
    lists: impl IntoIterator<Item = &'a [u8]>,
    starved: Option<Code>,
) -> u64 {
    let codes = lists
        .into_iter()
        .filter_map(|list| start_alone(tree, node, list).ok().or(starved));
    gathered(codes)
}

/// All lists of so many answers.
fn lists_of(answers: usize) -> impl Iterator<Item = &'static [u8]> {
    LISTS[..1 << answers]
        .iter()
        .map(move |list| &list[..answers])
}

/// Lists of so many answers. A run that lacks one gives no code.
pub fn starved_passed_over<const N: usize>(tree: &Tree, node: usize) -> u64 {
    codes_with(tree, node, lists_of(N), None)
}

/// A run that lacks an answer gives code 0.
pub fn starved_ends<const N: usize>(tree: &Tree, node: usize) -> u64 {
    codes_with(tree, node, lists_of(N), Some(ENDED))
}

fn without_the_first(tree: &Tree, node: usize) -> u64 {
    codes_with(tree, node, lists_of(ANSWERS).skip(1), None)
}

fn without_the_last(tree: &Tree, node: usize) -> u64 {
    codes_with(tree, node, lists_of(ANSWERS).take(LISTS.len() - 1), None)
}

fn all_absent(tree: &Tree, node: usize) -> u64 {
    codes_with(tree, node, [&[0; ANSWERS][..]], None)
}

fn all_alike(tree: &Tree, node: usize) -> u64 {
    codes_with(tree, node, [&[0; ANSWERS][..], &[1; ANSWERS]], None)
}

/// The program is started in the place of the node.
fn of_program(tree: &Tree, _node: usize) -> u64 {
    start_set_of(tree, tree.root())
}

/// A pause can end.
fn of_any_instant(tree: &Tree, node: usize) -> u64 {
    let mut sets = vec![0; tree.size()];
    fill_any_sets(tree, &mut sets);
    sets[node]
}

/// A parallel has the codes of both branches, as in Figure 5.
fn with_unions(tree: &Tree, node: usize) -> u64 {
    let mut sets: Vec<u64> = Vec::new();
    for &statement in &tree.statements {
        sets.push(match statement {
            Statement::Parallel { left, right } => sets[left] | sets[right],
            _ => start_set(statement, |child| sets[child]),
        });
    }
    sets[node]
}

fn of_table(tree: &Tree, _node: usize) -> usize {
    presents_within(tree, tree.root())
}

fn without_own(tree: &Tree, node: usize) -> usize {
    let is_present = matches!(tree.statements[node], Statement::Present { .. });
    presents_within(tree, node) - usize::from(is_present)
}

fn with_suspends(tree: &Tree, node: usize) -> usize {
    let own = tree.statements[tree.lowest[node]..=node].iter();
    let suspends = own.filter(|statement| matches!(statement, Statement::Suspend { .. }));
    presents_within(tree, node) + suspends.count()
}

/// The signals that the presents of the node test.
fn signals(table: &[u8], tree: &Tree, node: usize) -> BTreeSet<u8> {
    let own = tree.lowest[node]..=node;
    let is_present = |own: &usize| matches!(tree.statements[*own], Statement::Present { .. });
    own.filter(is_present)
        .map(|own| field(table, own))
        .collect()
}

/// All tests of a signal get the same answer.
pub fn by_signal(table: &[u8], node: u64) -> Result<Tried, Refusal> {
    let tried = right(table, node)?;
    let program = checks::accept(table, |_| true)?;
    let tree = &program.tree;
    let signals = signals(table, tree, node as usize);
    let sets = (0..1_u32 << signals.len()).map(|number| {
        let mut ties: [Answer; 256] = [None; 256];
        for (place, &signal) in signals.iter().enumerate() {
            ties[usize::from(signal)] = Some(number >> place & 1 == 1);
        }
        narrowed_sets(&program, &answers_by_number(table, tree, &ties))[node as usize]
    });
    let set = sets.fold(0, |all, set| all | set);
    Ok(Tried { set, ..tried })
}

/// Starting a suspend takes an answer, and pauses if that is present.
pub fn suspends_tested(table: &[u8], node: u64) -> Result<Tried, Refusal> {
    let tried = right(table, node)?;
    let tree = table::read(table)?;
    let tested = with_tests(table, &tree, node as usize);
    let set = starved_passed_over::<ANSWERS>(&table::read(&tested)?, tested.len() / 2 - 1);
    Ok(Tried { set, ..tried })
}

/// The statement of the node with a test in the place of each suspend, whose then branch
/// pauses, and whose else branch is the body.
fn with_tests(table: &[u8], tree: &Tree, node: usize) -> Vec<u8> {
    let is_suspend = |at: usize| matches!(tree.statements[at], Statement::Suspend { .. });
    let within = tree.lowest[node]..=node;
    let mut tested = Vec::new();
    for own in within.clone() {
        let begun = within.clone().filter(|&around| tree.lowest[around] == own);
        let suspends = begun.filter(|&around| is_suspend(around));
        tested.extend(PAUSE.repeat(suspends.count()));
        tested.extend(match is_suspend(own) {
            true => PRESENT,
            false => &table[2 * own..2 * own + 2],
        });
    }
    tested
}

/// As many as the answers that a start takes at most.
fn most_taken(tree: &Tree, node: usize) -> usize {
    let suffices = |&answers: &usize| {
        let mut lists = lists_of(answers);
        lists.all(|list| start_alone(tree, node, list).is_ok())
    };
    let least = (0..=ANSWERS).find(suffices);
    least.unwrap_or(ANSWERS + 1)
}

/// Presents of the same signal are counted once.
pub fn signals_counted(table: &[u8], node: u64) -> Result<Tried, Refusal> {
    let tried = Wrong::most(usize::MAX).trial(table, node)?;
    let presents = signals(table, &table::read(table)?, node as usize).len();
    match presents {
        ..=ANSWERS => Ok(Tried { presents, ..tried }),
        _ => Err(Refusal::whole(22)),
    }
}

/// A node outside is refused by 22 if the program has too many presents.
pub fn before_21(table: &[u8], node: u64) -> Result<Tried, Refusal> {
    let last = (table.len() as u64 / 2).saturating_sub(1);
    match right(table, node) {
        Err(Refusal { number: 21, .. }) => {
            right(table, last)?;
            Err(Refusal::whole(21))
        }
        outcome => outcome,
    }
}

/// Presents are counted before it is seen whether the body of a loop ends.
pub fn before_11(table: &[u8], node: u64) -> Result<Tried, Refusal> {
    let outcome = right(table, node);
    let Err(Refusal { number: 11, .. }) = outcome else {
        return outcome;
    };
    let tree = table::read(table)?;
    match node_within(&tree, node) {
        Ok(own) if presents_within(&tree, own) > ANSWERS => Err(Refusal::whole(22)),
        _ => outcome,
    }
}

/// Check 21 comes before the table's checks from 4 on.
pub fn node_first(table: &[u8], node: u64) -> Result<Tried, Refusal> {
    let is_outside = node >= table.len() as u64 / 2;
    right(table, node).map_err(|refusal| match refusal.number {
        4.. if is_outside => Refusal::whole(21),
        _ => refusal,
    })
}

/// Check 22 hands back the node that is tried.
pub fn at_the_node(table: &[u8], node: u64) -> Result<Tried, Refusal> {
    right(table, node).map_err(|refusal| match refusal.number {
        22 => Refusal::at(22, node as usize),
        _ => refusal,
    })
}
