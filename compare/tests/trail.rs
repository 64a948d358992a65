//! What holds of every trail, tried on random programs and states.

use compare::checks::MOST_TRAPS;
use compare::support::programs::{accepted, ladder, ladder_answers, LADDER_HELD, SHAPES};
use compare::support::random::Random;
use compare::support::{states, SEED};
use compare::table::{self, Statement, Tree};
use compare::{
    held_nodes, packed, resume_with_trail, start_with_trail, Closed, Entry, How, Sets, STATE_BYTES,
};

struct Tried {
    table: Vec<u8>,
    tree: Tree,
    sets: Sets,
}

impl Tried {
    fn new(table: Vec<u8>) -> Tried {
        let sets = Sets::of(&table).expect("an accepted program");
        let tree = table::read(&table).expect("an accepted program");
        Tried { table, tree, sets }
    }

    /// Hands back the pauses that are held.
    fn check(&self, closed: Closed, trail: &[Entry], state: &[u8]) -> Vec<usize> {
        assert_eq!(closed.entries, trail.len());
        assert_eq!(closed.taken, self.answers_taken(trail));
        assert_eq!(closed.code, trail[0].code);
        assert!(closed.entries <= self.tree.size() * (1 + self.sets.loop_depth));
        assert!(closed.code <= 1);
        let held = held_nodes(state);
        assert_eq!(!held.is_empty(), closed.code == 1);
        for entry in trail.iter().filter(|entry| entry.how == How::Started) {
            assert_eq!(self.sets.start_sets[entry.node] >> entry.code & 1, 1);
            assert!(entry.code != 0 || !self.is_loop_body(entry.node));
        }
        held
    }

    /// The started presents and the resumed suspends.
    fn answers_taken(&self, trail: &[Entry]) -> usize {
        trail
            .iter()
            .filter(|entry| {
                matches!(
                    (self.tree.statements[entry.node], entry.how),
                    (Statement::Present { .. }, How::Started)
                        | (Statement::Suspend { .. }, How::Resumed)
                )
            })
            .count()
    }

    fn is_loop_body(&self, node: usize) -> bool {
        self.tree
            .statements
            .contains(&Statement::Loop { body: node })
    }

    fn start(&self, answers: &[u8]) -> Vec<usize> {
        let mut state = [255; STATE_BYTES];
        let (closed, trail) =
            start_with_trail(&self.table, answers, &mut state, &mut [0; 256]).unwrap();
        assert!(closed.entries <= self.tree.size());
        assert!(trail.iter().all(|entry| entry.how == How::Started));
        self.check(closed, &trail, &state)
    }

    fn resume(&self, answers: &[u8], held: &[usize]) -> Vec<usize> {
        let mut state = packed(held);
        let (closed, trail) =
            resume_with_trail(&self.table, answers, &mut state, &mut [0; 256]).unwrap();
        self.check(closed, &trail, &state)
    }
}

fn answers(random: &mut Random) -> Vec<u8> {
    let mut answers = random.bytes(4000);
    for answer in &mut answers {
        *answer &= 1;
    }
    answers
}

#[test]
fn trails_of_random_programs() {
    let random = &mut Random::new(SEED);
    for number in 0..900 {
        // A large one of every shape: 31 and the number of shapes share no divisor.
        let nodes = if number % 31 == 0 { 1024 } else { 40 };
        let shape = &SHAPES[number % SHAPES.len()];
        let tried = Tried::new(accepted(random, shape, nodes));

        let mut held = tried.start(&answers(random));
        for _ in 0..4 {
            if held.is_empty() {
                break;
            }
            held = tried.resume(&answers(random), &held);
        }
        if let Some(held) = states::random_admitted(random, &tried.tree) {
            tried.resume(&answers(random), &held);
        }
    }
}

#[test]
fn trails_from_all_admitted_states_of_small_programs() {
    let random = &mut Random::new(SEED + 1);
    let mut tries = 0;
    for number in 0..900 {
        let shape = &SHAPES[number % SHAPES.len()];
        let tried = Tried::new(accepted(random, shape, 14));
        for held in states::all_admitted(&tried.tree) {
            tried.resume(&answers(random), &held);
            tries += 1;
        }
    }
    assert!(tries > 2000, "{tries}");
}

#[test]
fn a_ladder_enters_its_choice_once_more_than_its_loops() {
    for steps in 1..=MOST_TRAPS {
        let tried = Tried::new(ladder(steps));
        let mut state = packed(&LADDER_HELD);
        let (closed, trail) = resume_with_trail(
            &tried.table,
            &ladder_answers(steps),
            &mut state,
            &mut [0; 256],
        )
        .unwrap();
        tried.check(closed, &trail, &state);
        assert_eq!(closed.taken, ladder_answers(steps).len());
        let choice = 2 * steps;
        let times = trail.iter().filter(|entry| entry.node == choice).count();
        assert_eq!(times, 1 + tried.sets.loop_depth);
    }
}
