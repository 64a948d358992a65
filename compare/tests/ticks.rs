//! Ticks: the answers with which the body of a refused loop ends at once. The right list
//! is found a second time by running the body with one list after the other.

use std::thread;

use compare::support::bodies::Body;
use compare::support::calls::COMPARE;
use compare::support::edges::{edges, W1, W2, W8};
use compare::support::every::{every_table, DECIDING};
use compare::support::random::Random;
use compare::support::tick_edges;
use compare::support::ticks::{even_trees, one_list, table as any_table, NUMBERS};
use compare::support::vectors::{directory, read_lines};
use compare::support::SEED;
use compare::{find_tick, listing, tick_line, Refusal, Tick};

/// What stands in every lent byte before a call.
const FILL: u8 = 200;

/// The answers that are lent.
const LENT: usize = 512;

/// A body that can be run with more lists than this is left out.
const MOST_RUNS: usize = 1100;

/// The loop and the list of a table that check 11 refuses.
fn found(table: &[u8]) -> Option<(usize, Vec<u8>)> {
    let mut answers = vec![FILL; LENT];
    match find_tick(table, &mut answers) {
        Ok(Tick::Ends { node, length }) => {
            assert!(answers[length..].iter().all(|&byte| byte == FILL));
            answers.truncate(length);
            Some((node, answers))
        }
        _ => {
            assert!(answers.iter().all(|&byte| byte == FILL));
            None
        }
    }
}

/// How much was compared.
#[derive(Debug, Default)]
struct Counts {
    tables: usize,
    ticks: usize,
    searched: usize,
    longest: usize,
    /// Found lists that have both answers.
    mixed: usize,
}

impl Counts {
    fn of(tables: impl Iterator<Item = Vec<u8>>) -> Counts {
        let mut counts = Counts::default();
        tables.for_each(|table| counts.compare(&table));
        println!("{counts:?}");
        counts
    }

    /// Runs the body with the list, and looks for the list by runs if there are not too many.
    fn compare(&mut self, table: &[u8]) {
        self.tables += 1;
        let Some((node, list)) = found(table) else {
            return;
        };
        let body = Body::of(table, node);
        assert_eq!(body.run(&list), Some((0, list.len())), "{table:?}");
        self.ticks += 1;
        self.longest = self.longest.max(list.len());
        self.mixed += usize::from(list.contains(&0) && list.contains(&1));
        if let Some(first) = body.first_ending([0, 1], MOST_RUNS) {
            assert_eq!(first, list, "{table:?}");
            self.searched += 1;
        }
    }
}

#[test]
fn vectors() {
    let vectors = read_lines(&directory().join("tick_open.jsonl"));
    assert_eq!(vectors.len(), 600);
    let mut counts = Counts::default();
    for (line, vector) in vectors.iter().enumerate() {
        assert_eq!(tick_line(&vector.table), vector.line, "line {}", line + 1);
        counts.compare(&vector.table);
    }
    println!("{counts:?}");
    assert!(counts.longest == 509 && counts.searched > 300, "{counts:?}");
}

#[test]
fn edges_have_their_lines() {
    let mut counts = Counts::default();
    for edge in tick_edges::edges() {
        assert_eq!(tick_line(&edge.table), edge.line, "{}", edge.name);
        counts.compare(&edge.table);
    }
    println!("{counts:?}");
    assert!(counts.longest == 509 && counts.searched > 50, "{counts:?}");
}

#[test]
fn all_small_tables() {
    let mut counts = Counts::default();
    every_table(&DECIDING, 7, |table| counts.compare(table));
    println!("{counts:?}");
    assert_eq!(counts.tables, 133_708);
    assert_eq!(counts.searched, counts.ticks);
}

/// As bodies of a loop, in traps within it and around it.
#[test]
fn all_small_bodies_of_presents_and_parallels() {
    let mut letters = DECIDING.to_vec();
    letters.retain(|([kind, _], _)| [2, 4, 6, 10, 11].contains(kind));
    let traps: [&[u8]; 3] = [
        &[11, 0, 11, 0, 8, 0],
        &[11, 0, 2, 0, 9, 0, 11, 0, 8, 0],
        &[11, 0, 8, 0, 11, 0],
    ];
    let mut counts = Counts::default();
    every_table(&letters, 8, |body| {
        for around in traps {
            counts.compare(&[body, around].concat());
        }
    });
    println!("{counts:?}");
    assert_eq!(counts.tables, 117_144);
    assert_eq!(counts.searched, counts.ticks);
    assert!(counts.mixed > 1000, "{counts:?}");
}

#[test]
fn trees_of_presents_with_lists_of_one_length() {
    let random = &mut Random::new(SEED);
    let counts = Counts::of((0..1500).map(|_| even_trees(random)));
    assert!(counts.searched > 1000, "{counts:?}");
    assert!(counts.mixed > 400, "{counts:?}");
}

#[test]
fn random_tables() {
    let random = &mut Random::new(SEED);
    let counts = Counts::of((0..30 * NUMBERS).map(|number| {
        let most = *random.pick(&[12, 40, 40, 150]);
        let nodes = random.between(2, most);
        any_table(random, number, nodes)
    }));
    assert!(counts.searched > 1000, "{counts:?}");
}

/// Too large to try all lists; the list that is found must end the body.
#[test]
fn large_tables() {
    let random = &mut Random::new(SEED);
    let counts = Counts::of((0..3 * NUMBERS).map(|number| {
        let nodes = random.between(800, 1024);
        any_table(random, number, nodes)
    }));
    assert!(counts.ticks > 100, "{counts:?}");
}

/// However long it is, the list is known from how the body was made.
#[test]
fn bodies_that_end_with_one_list_alone() {
    let random = &mut Random::new(SEED);
    let mut longest = 0;
    for _ in 0..600 {
        let most = *random.pick(&[20, 200, 1024]);
        let nodes = random.between(2, most);
        let (table, list) = one_list(random, nodes);
        longest = longest.max(list.len());
        assert_eq!(found(&table), Some((table.len() / 2 - 1, list)));
    }
    println!("longest {longest}");
    assert!(longest > 300, "{longest}");
}

/// The figures and refusals are those of the listing.
#[test]
fn without_refusal_11() {
    let random = &mut Random::new(SEED);
    let mut met = [0; 12];
    let edges = edges().into_iter().map(|edge| edge.table);
    let drawn = (0..10 * NUMBERS).map(|number| any_table(random, number, 60));
    for table in edges.chain(drawn) {
        let text = listing(&table);
        let first_line = text.lines().next().expect("a line");
        let (expected, number) = match find_tick(&table, &mut [FILL; LENT]) {
            Ok(Tick::Accepted { nodes, loops }) => {
                (format!("ok {nodes} {loops} {}", nodes * (1 + loops)), 0)
            }
            Ok(Tick::Ends { node, .. }) => (format!("refused 11 {node}"), 11),
            Err(Refusal { number, node }) => (format!("refused {number} {node}"), number),
        };
        assert_eq!(first_line, expected);
        if number != 11 {
            assert_eq!(tick_line(&table), format!("{first_line}\n"));
        }
        met[number as usize] += 1;
    }
    println!("refused by number, and 0 for accepted: {met:?}");
    for number in [0, 1, 2, 4, 5, 6, 7, 8, 9, 10, 11] {
        assert!(met[number] > 0, "{number}: {met:?}");
    }
}

#[test]
fn short_answers_are_refused_by_3_in_its_place() {
    for edge in edges() {
        let number = edge.refusal.map_or(0, |refusal| refusal.number);
        let expected = if [1, 2].contains(&number) { number } else { 3 };
        for length in [0, 1, 2, 510, 511] {
            let mut answers = vec![FILL; length];
            let answer = find_tick(&edge.table, &mut answers);
            assert_eq!(answer, Err(Refusal::whole(expected)), "{}", edge.name);
            assert_eq!(answers, vec![FILL; length], "{}", edge.name);
        }
    }
}

/// The list is written to the front, and after a refusal nothing is.
#[test]
fn the_front_of_the_lent_answers_is_written() {
    for length in [512, 513, 2000] {
        for edge in tick_edges::edges() {
            let before: Vec<u8> = (0..length).map(|at| !(at as u8)).collect();
            let mut answers = before.clone();
            let written = match find_tick(&edge.table, &mut answers) {
                Ok(Tick::Ends { length, .. }) => length,
                _ => 0,
            };
            assert!(answers[..written].iter().all(|&answer| answer <= 1));
            assert_eq!(answers[written..], before[written..], "{}", edge.name);
        }
    }
}

#[test]
fn the_call_in_the_archives_form() {
    let tick = COMPARE.tick;
    let mut answers = [FILL; LENT];
    let mut answer = [9; 4];
    assert_eq!(tick(W8, &mut answers, &mut answer), 0);
    assert_eq!(answer, [1, 7, 2, 9]);
    assert_eq!(answers[..3], [0, 1, FILL]);

    let mut answers = [FILL; LENT];
    assert_eq!(tick(W2, &mut answers, &mut answer), 0);
    assert_eq!(answer, [1, 1, 0, 9]);
    assert_eq!(tick(W1, &mut answers, &mut answer), 0);
    assert_eq!(answer, [0, 4, 1, 9]);
    let returned = tick(&[2, 0, 12, 0], &mut answers, &mut answer);
    assert_eq!(returned, 4 + 256);
    assert_eq!((answer, answers), ([0, 4, 1, 9], [FILL; LENT]));

    let too_long = [2; 2050];
    for (table, expected) in [
        (&too_long[..], 1),
        (&[], 2),
        (&[12, 0], 3),
        (W1, 3),
        (W2, 3),
    ] {
        for length in 0..3 {
            let mut answer = vec![9; length];
            assert_eq!(tick(table, &mut answers, &mut answer), expected);
            assert_eq!(answer, vec![9; length]);
        }
        assert_eq!(tick(table, &mut answers[1..], &mut answer), expected);
        assert_eq!((answer, answers), ([0, 4, 1, 9], [FILL; LENT]));
    }
}

/// However deep a table is nested, a small stack suffices for it.
#[test]
fn a_thread_with_a_small_stack() {
    let finder = thread::Builder::new().stack_size(64 * 1024);
    let run = || {
        let lines = tick_edges::edges().into_iter();
        lines
            .map(|edge| tick_line(&edge.table).len())
            .sum::<usize>()
    };
    let handle = finder.spawn(run).expect("a thread");
    assert!(handle.join().expect("no overflow") > 0);
}
