//! Programs whose ticks are dear to find: a loop around all, whose body can end.

use compare::checks::MOST_TRAPS;
use compare::support::nodes::{
    EXIT, LOOP, NOTHING, PARALLEL, PAUSE, PRESENT, SEQUENCE, SIGNAL, TRAP,
};
use compare::support::programs::balanced;
use compare::support::ticks::ending_with;

pub struct Shape {
    pub name: &'static str,
    /// A program of so many nodes, 16, 64, 256 or 1,024.
    pub program: fn(usize) -> Vec<u8>,
}

pub const SHAPES: [Shape; 7] = [
    Shape {
        name: "chains",
        program: chains,
    },
    Shape {
        name: "sequences",
        program: sequences,
    },
    Shape {
        name: "parallels",
        program: parallels,
    },
    Shape {
        name: "tree",
        program: tree,
    },
    Shape {
        name: "exits-presents",
        program: |nodes| exits(nodes, PRESENT),
    },
    Shape {
        name: "exits-sequences",
        program: |nodes| exits(nodes, SEQUENCE),
    },
    Shape {
        name: "exits-parallels",
        program: |nodes| exits(nodes, PARALLEL),
    },
];

/// The longest list: presents nested as deep as there are nodes, or, beyond 256 nodes,
/// three such chains in parallel.
fn chains(nodes: usize) -> Vec<u8> {
    let answers = |count: usize| -> Vec<u8> { (0..count).map(|at| (at % 2) as u8).collect() };
    let chain = |count: usize| ending_with(&answers(count));
    if nodes <= 256 {
        return looped(chain(nodes / 2 - 1), nodes);
    }
    let presents = nodes / 2 - 3;
    let third = presents / 3;
    let last = chain(presents - 2 * third);
    let both = [&chain(third)[..], &chain(third), PARALLEL].concat();
    looped([&both, &last, PARALLEL].concat(), nodes)
}

/// A balanced tree of sequences; at its leaves presents that end by one of the answers.
fn sequences(nodes: usize) -> Vec<u8> {
    looped(balanced(&ending_with(&[1]), nodes / 4, SEQUENCE), nodes)
}

/// A balanced tree of parallels in a trap; at its leaves presents of an exit and a pause,
/// so that each exit ends the body with a list of the same length.
fn parallels(nodes: usize) -> Vec<u8> {
    let leaf = [EXIT, PAUSE, PRESENT].concat();
    let branches = balanced(&leaf, (nodes - 1) / 4, PARALLEL);
    looped([&branches, TRAP].concat(), nodes)
}

/// A balanced tree of presents in traps; at its leaves exits to all of them.
fn tree(nodes: usize) -> Vec<u8> {
    let traps = traps(nodes);
    let leaves = (nodes - traps) / 2;
    let exits = (0..leaves).map(|at| vec![4, (at % traps) as u8]);
    looped(
        [choice(exits.collect()), TRAP.repeat(traps)].concat(),
        nodes,
    )
}

/// Two chains in parallel in traps. Innermost in each is a choice among all codes, which
/// the nodes around it hand on; with 1,024 nodes the depth is about 256.
fn exits(nodes: usize, both: &[u8]) -> Vec<u8> {
    let traps = traps(nodes);
    let exits = (0..traps).map(|level| vec![4, level as u8]);
    let others = [NOTHING.to_vec(), PAUSE.to_vec()];
    let codes = choice(others.into_iter().chain(exits).collect());
    // Less the loop, the traps, what joins the chains, and a choice in each of them.
    let room = nodes - 1 - traps - 1 - 2 * (codes.len() / 2);
    let steps = room / 4;
    // A sequence needs a first child that ends.
    let other = if both == SEQUENCE { NOTHING } else { PAUSE };
    let chain = [&other.repeat(steps), &codes[..], &both.repeat(steps)].concat();
    let chains = [&chain[..], &chain, PARALLEL].concat();
    looped([chains, TRAP.repeat(traps)].concat(), nodes)
}

/// More of them in larger programs.
fn traps(nodes: usize) -> usize {
    (nodes / 16).min(MOST_TRAPS)
}

/// Presents that choose one of these, as flat as can be.
fn choice(mut statements: Vec<Vec<u8>>) -> Vec<u8> {
    while statements.len() > 1 {
        let pairs = statements.chunks(2);
        statements = pairs
            .map(|pair| [&pair.concat(), &PRESENT.repeat(pair.len() - 1)[..]].concat())
            .collect();
    }
    statements.concat()
}

/// In a loop, with signals around it up to the number of nodes.
fn looped(body: Vec<u8>, nodes: usize) -> Vec<u8> {
    let table = [&body, LOOP].concat();
    let further = nodes - table.len() / 2;
    [table, SIGNAL.repeat(further)].concat()
}
