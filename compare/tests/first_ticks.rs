//! The greatest number of entries of a start, found a second time by starting the program
//! with all lists of answers; and what F-10 says of it.

use std::thread;

use compare::checks;
use compare::first_tick::{most_of_nodes, reaching_list};
use compare::held::STATE_BYTES;
use compare::instant::SIGNALS;
use compare::support::calls::COMPARE;
use compare::support::damage::{bad_table, BAD_NUMBERS};
use compare::support::edges::{edges as edges_of_01, W3, W8};
use compare::support::every::{deciding_in_runs, every_program, every_table, Letter};
use compare::support::nodes::{LOOP, PARALLEL, PAUSE, PRESENT, SEQUENCE, SIGNAL, SUSPEND, TRAP};
use compare::support::plan_edges::edges;
use compare::support::plans::{choices, stages, table as any_table, through_traps, NUMBERS};
use compare::support::programs::{accepted, any_shape, ALL_SHAPES};
use compare::support::random::Random;
use compare::support::starts::{greatest_of_starts, most_of_starts, Alone};
use compare::support::SEED;
use compare::tick::TICK_ANSWERS;
use compare::{first_tick, first_tick_answers, first_tick_line, listing, reaches};
use compare::{start, Closed, Refusal, Sets};

/// A statement with more lists of answers than these is not started with all of them.
const MOST_RUNS: usize = 1100;

/// The list that reaches the number. The answers past it stay as they were.
fn handed_out(table: &[u8], entries: usize) -> Vec<u8> {
    let mut answers = [9; TICK_ANSWERS];
    let (reached, length) = first_tick_answers(table, &mut answers).expect("an accepted table");
    assert_eq!(reached, entries, "{table:?}");
    let (list, past) = answers.split_at(length);
    assert!(past.iter().all(|&answer| answer == 9), "{table:?}");
    assert_eq!(list, reaching_list(table), "{table:?}");
    list.to_vec()
}

/// How much was compared.
#[derive(Debug, Default)]
struct Counts {
    programs: usize,
    /// Those started with all lists, and how many lists these were.
    tried: usize,
    lists: usize,
    /// Where not every list reaches the number.
    decided: usize,
    /// Where the number is reached with code 0, and with others.
    ended: usize,
    others: usize,
    most: usize,
}

impl Counts {
    fn of(tables: impl Iterator<Item = Vec<u8>>) -> Counts {
        let mut counts = Counts::default();
        tables.for_each(|table| counts.compare(&table));
        println!("{counts:?}");
        counts
    }

    /// Starts an accepted program with all lists, if there are not too many. The one that is
    /// handed out is the first of those that reach the number, where absent comes first; it must
    /// be one of them however many there are.
    fn compare(&mut self, table: &[u8]) {
        let Ok(entries) = first_tick(table) else {
            return;
        };
        // No statement is entered twice.
        assert!(entries <= table.len() / 2, "{table:?}");
        self.programs += 1;
        self.most = self.most.max(entries);
        let list = handed_out(table, entries);
        assert!(reaches(table, &list), "{table:?}");
        let Some(starts) = Alone::whole(table).every_start(MOST_RUNS) else {
            return;
        };
        assert_eq!(greatest_of_starts(&starts), entries, "{table:?}");
        let reaching = starts
            .iter()
            .filter(|(_, closed)| closed.entries == entries);
        let least = reaching.map(|(list, _)| list).min();
        assert_eq!(least, Some(&list), "{table:?}");
        self.tried += 1;
        self.lists += starts.len();
        let some = |is_right: fn(&Closed, usize) -> bool| {
            let mut closed = starts.iter().map(|(_, closed)| closed);
            usize::from(closed.any(|closed| is_right(closed, entries)))
        };
        self.decided += some(|closed, most| closed.entries < most);
        self.ended += some(|closed, most| closed.entries == most && closed.code == 0);
        self.others += some(|closed, most| closed.entries == most && closed.code != 0);
    }
}

#[test]
fn edges_have_their_lines() {
    let edges = edges();
    assert_eq!(edges.len(), 151);
    let mut counts = Counts::default();
    for edge in edges {
        assert_eq!(first_tick_line(&edge.table), edge.line, "{}", edge.name);
        counts.compare(&edge.table);
    }
    println!("{counts:?}");
    assert_eq!(counts.most, 1024);
    assert!(counts.tried > 90, "{counts:?}");
}

/// Reached by some answers and exceeded by none.
#[test]
fn all_small_programs() {
    let mut counts = Counts::default();
    every_table(&deciding_in_runs(), 8, |table| counts.compare(table));
    println!("{counts:?}");
    assert_eq!((counts.programs, counts.lists), (403_190, 628_113));
    assert_eq!(counts.tried, counts.programs);
}

/// Of the letters with which codes and entries depend on the same answers.
#[test]
fn all_small_programs_of_choices() {
    let mut letters = deciding_in_runs();
    letters.retain(|([kind, _], _)| [2, 4, 6, 7, 9, 10, 11].contains(kind));
    letters.retain(|&(letter, _)| letter != [4, 1]);
    let mut counts = Counts::default();
    every_table(&letters, 9, |table| counts.compare(table));
    println!("{counts:?}");
    assert_eq!((counts.programs, counts.lists), (231_755, 386_642));
    assert_eq!(counts.tried, counts.programs);
}

/// Nothing, pause, three exits, signal, present, loop, sequence, parallel, trap.
const IN_TRAPS: [Letter; 11] = [
    ([1, 0], 0),
    ([2, 0], 0),
    ([4, 0], 0),
    ([4, 1], 0),
    ([4, 2], 0),
    ([5, 0], 1),
    ([6, 0], 2),
    ([8, 0], 1),
    ([9, 0], 2),
    ([10, 0], 2),
    ([11, 0], 1),
];

/// Of statements within three traps, whose exits can leave them.
#[test]
fn the_greatest_number_for_each_code() {
    let (mut statements, mut numbers) = (0, 0);
    every_table(&IN_TRAPS, 6, |statement| {
        let table = [statement, &TRAP.repeat(3)].concat();
        let node = statement.len() / 2 - 1;
        let Ok(program) = checks::accept(&table, |_| true) else {
            return;
        };
        let most = &most_of_nodes(&program.tree)[node];
        let starts = Alone::of(&table, node).every_start(MOST_RUNS);
        assert_eq!(
            *most,
            most_of_starts(&starts.expect("few lists")),
            "{table:?}"
        );
        // The codes are those of K.
        let codes = most.keys().map(|code| 1 << code).sum();
        assert_eq!(program.start_sets[node], codes, "{table:?}");
        statements += 1;
        numbers += most.len();
    });
    println!("statements {statements}, numbers {numbers}");
    assert_eq!((statements, numbers), (56_115, 75_613));
}

/// Each statement of a larger program, for each code, if it has few lists.
#[test]
fn the_greatest_number_of_each_statement() {
    let random = &mut Random::new(SEED);
    let (mut statements, mut left_out) = (0, 0);
    for number in 0..100 {
        let nodes = random.between(6, 60);
        let table = match number % 3 {
            0 => accepted(random, any_shape(number), nodes),
            1 => choices(random, nodes),
            _ => through_traps(random, 5),
        };
        let program = checks::accept(&table, |_| true).expect("an accepted table");
        for (node, most) in most_of_nodes(&program.tree).iter().enumerate() {
            match Alone::of(&table, node).every_start(300) {
                Some(starts) => {
                    assert_eq!(*most, most_of_starts(&starts), "{table:?} {node}");
                    statements += 1;
                }
                None => left_out += 1,
            }
        }
    }
    println!("statements {statements}, left out {left_out}");
    assert!(statements > 3000 && left_out < 500);
}

#[test]
fn random_tables() {
    let random = &mut Random::new(SEED);
    let counts = Counts::of((0..30 * NUMBERS).map(|number| {
        let most = *random.pick(&[12, 40, 40, 150]);
        let nodes = random.between(2, most);
        any_table(random, number, nodes)
    }));
    assert!(counts.tried > 1000 && counts.decided > 500, "{counts:?}");
    assert!(counts.ended > 300 && counts.others > 300, "{counts:?}");
}

#[test]
fn exits_through_many_traps() {
    let random = &mut Random::new(SEED);
    let counts = Counts::of((0..150).map(|_| {
        let traps = *random.pick(&[2, 5, 20, 62]);
        through_traps(random, traps)
    }));
    assert!(counts.tried > 100 && counts.decided > 100, "{counts:?}");
}

/// Of all sizes, up to the limits.
#[test]
fn programs_that_are_drawn_are_accepted() {
    let random = &mut Random::new(SEED);
    for nodes in 1..=1024 {
        let traps = random.between(1, 62);
        let tables = [
            choices(random, nodes),
            stages(random, nodes),
            through_traps(random, traps),
        ];
        for table in tables {
            assert!(first_tick(&table).is_ok(), "{table:?}");
        }
    }
}

/// Too large to try all lists: one is found that reaches the number, and none of many that
/// are drawn has more entries.
#[test]
fn large_programs() {
    let random = &mut Random::new(SEED);
    let (mut programs, mut below) = (0, 0);
    for number in 0..3 * NUMBERS {
        let nodes = random.between(800, 1024);
        let table = any_table(random, number, nodes);
        let Ok(entries) = first_tick(&table) else {
            continue;
        };
        assert!(reaches(&table, &handed_out(&table, entries)), "{table:?}");
        for _ in 0..10 {
            let answers: Vec<u8> = random.bytes(1024).iter().map(|byte| byte % 2).collect();
            let (state, emissions) = (&mut [0; STATE_BYTES], &mut [0; SIGNALS]);
            let closed = start(&table, &answers, state, emissions);
            let closed = closed.expect("more answers than there are nodes");
            assert!(closed.entries <= entries, "{table:?} {answers:?}");
            below += usize::from(closed.entries < entries);
        }
        programs += 1;
    }
    println!("programs {programs}, starts with fewer entries {below}");
    assert!(programs > 150 && below > 500, "{programs} {below}");
}

/// Of programs, however large, put together in all ways: those of two are added in a
/// parallel, and so on.
#[test]
fn programs_within_programs() {
    let random = &mut Random::new(SEED);
    let (mut ending, mut stopped) = (0, 0);
    for number in 0..20 * ALL_SHAPES {
        let [one, other] = [(); 2].map(|_| {
            let most = *random.pick(&[8, 60, 500]);
            let nodes = random.between(1, most);
            match random.below(3) {
                0 => choices(random, nodes),
                _ => accepted(random, any_shape(number), nodes),
            }
        });
        let [first, second] = [&one, &other].map(|table| first_tick(table).expect("accepted"));
        let start_set = Sets::of(&one).expect("accepted").start_sets[one.len() / 2 - 1];
        let both = |node: &[u8]| first_tick(&[&one, &other, node].concat());
        let within = |node: &[u8]| first_tick(&[&one, node].concat());
        // A program may be as deep as is allowed, or have as many traps.
        if [within(TRAP), both(PARALLEL)].iter().any(Result::is_err) {
            continue;
        }
        assert_eq!(both(PARALLEL), Ok(1 + first + second));
        assert_eq!(both(PRESENT), Ok(1 + first.max(second)));
        for node in [SIGNAL, SUSPEND, TRAP] {
            assert_eq!(within(node), Ok(1 + first));
        }
        match start_set {
            1 => {
                assert_eq!(both(SEQUENCE), Ok(1 + first + second));
                ending += 1;
            }
            2 => {
                assert_eq!(both(SEQUENCE), Ok(1 + first));
                assert_eq!(within(LOOP), Ok(1 + first));
                stopped += 1;
            }
            _ => assert!(both(SEQUENCE).is_ok_and(|entries| entries > first)),
        }
    }
    println!("ending {ending}, stopped {stopped}");
    assert!(ending > 20 && stopped > 50, "{ending} {stopped}");
}

/// Every list of 0 and 1 up to one more answer than there are tests.
#[test]
fn the_lists_that_reach_the_number() {
    let (mut lists, mut reaching) = (0, 0);
    every_program(&deciding_in_runs(), 6, |table, _| {
        let tests = table.chunks_exact(2).filter(|node| node[0] == 6).count();
        let starts = Alone::whole(table)
            .every_start(MOST_RUNS)
            .expect("few lists");
        let most = greatest_of_starts(&starts);
        for length in 0..=tests + 1 {
            for bits in 0..1 << length {
                let list: Vec<u8> = (0..length).map(|at| bits >> at & 1).collect();
                let mut same = starts.iter().filter(|(taken, _)| *taken == list);
                let expected = same.any(|(_, closed)| closed.entries == most);
                assert_eq!(reaches(table, &list), expected, "{table:?} {list:?}");
                lists += 1;
                reaching += usize::from(expected);
            }
        }
    });
    println!("lists {lists}, reaching {reaching}");
    assert_eq!((lists, reaching), (38_944, 9_197));
}

#[test]
fn lists_that_are_no_reason() {
    // Ends by 1, goes on and has most entries; pauses by 0.
    let table = [1, 0, 2, 0, 6, 0, 1, 0, 9, 0];
    assert_eq!(first_tick(&table), Ok(4));
    assert!(reaches(&table, &[1]));
    for list in [&[][..], &[0], &[1, 0], &[1, 1], &[0, 1], &[2], &[255]] {
        assert!(!reaches(&table, list), "{list:?}");
    }
    assert!(reaches(PAUSE, &[]));
    assert!(!reaches(PAUSE, &[0]));
    // A table that is refused has no start.
    assert!(!reaches(&[1, 0, 8, 0], &[]));
    assert!(!reaches(&[], &[]));
}

/// Those of the listing, in all of which no table has a number.
#[test]
fn refusals_are_those_of_the_listing() {
    let random = &mut Random::new(SEED);
    let mut met = [0; 12];
    let bad: Vec<Vec<u8>> = (0..3 * BAD_NUMBERS)
        .map(|number| bad_table(random, number % BAD_NUMBERS))
        .collect();
    let edges = edges_of_01().into_iter().map(|edge| edge.table);
    for table in bad.into_iter().chain(edges) {
        let text = listing(&table);
        let number = match first_tick(&table) {
            Ok(entries) => {
                assert!(text.starts_with("ok "), "{table:?}");
                assert_eq!(first_tick_line(&table), format!("{entries}\n"));
                0
            }
            Err(Refusal { number, node }) => {
                assert_eq!(text, format!("refused {number} {node}\n"));
                assert_eq!(first_tick_line(&table), text);
                number
            }
        };
        met[number as usize] += 1;
    }
    println!("refused by number, and 0 for accepted: {met:?}");
    for number in [0, 1, 2, 4, 5, 6, 7, 8, 9, 10, 11] {
        assert!(met[number] > 0, "{number}: {met:?}");
    }
    assert_eq!(met[3], 0);
}

#[test]
fn the_call_in_the_archives_form() {
    let call = COMPARE.first_tick;
    let mut answer = [9; 4];
    assert_eq!(call(W3, &mut answer), 0);
    assert_eq!(answer, [10, 0, 0, 9]);
    assert_eq!(call(W8, &mut answer), 11 + 256 * 7);
    assert_eq!(answer, [10, 0, 0, 9]);
    let too_long = [2; 2050];
    for (table, expected) in [
        (&too_long[..], 1),
        (&[], 2),
        (&[12, 0], 3),
        (W3, 3),
        (W8, 3),
    ] {
        for length in 0..3 {
            let mut answer = vec![9; length];
            assert_eq!(call(table, &mut answer), expected);
            assert_eq!(answer, vec![9; length]);
        }
    }
}

#[test]
fn the_call_for_answers_in_the_archives_form() {
    let call = COMPARE.first_tick_answers;
    let body_of_w8 = &W8[..14];
    let mut answers = [9; 513];
    let mut answer = [9; 4];
    assert_eq!(call(body_of_w8, &mut answers, &mut answer), 0);
    assert_eq!(answer, [5, 2, 0, 9]);
    assert_eq!(answers[..2], [0, 0]);
    assert_eq!(answers[2..], [9; 511]);

    let mut answers = [9; 513];
    assert_eq!(call(W8, &mut answers, &mut answer), 11 + 256 * 7);
    assert_eq!((answers, answer), ([9; 513], [5, 2, 0, 9]));
    for (table, expected) in [
        (&[2; 2050][..], 1),
        (&[], 2),
        (&[12, 0], 3),
        (W3, 3),
        (W8, 3),
    ] {
        for (lent, length) in [(511, 3), (0, 3), (512, 2), (0, 0)] {
            let mut answers = vec![9; lent];
            let mut answer = vec![9; length];
            assert_eq!(call(table, &mut answers, &mut answer), expected);
            assert_eq!((answers, answer), (vec![9; lent], vec![9; length]));
        }
    }
}

/// Absent at the first difference, also where that list is the longer one; and where the
/// answers of two branches depend on each other.
#[test]
fn the_list_that_is_handed_out() {
    for (table, list) in [
        (&[1, 0, 1, 0, 6, 0][..], &[0][..]),
        (&[1, 0, 1, 0, 6, 1, 1, 0, 5, 0, 6, 0], &[0]),
        (&[1, 0, 5, 0, 1, 0, 1, 0, 6, 1, 6, 0], &[0, 0]),
        (&[2, 0, 5, 0, 1, 0, 6, 0, 1, 0, 9, 0], &[0]),
        (&[2, 0, 5, 0, 5, 0, 1, 0, 6, 0, 1, 0, 9, 0], &[1]),
        // One branch must exit, so that the sequence goes on; the other has more with a pause.
        (
            &[
                2, 0, 5, 0, 4, 0, 6, 0, 2, 0, 5, 0, 4, 0, 6, 0, 10, 0, 11, 0, 1, 0, 5, 0, 9, 0,
            ],
            &[0, 1],
        ),
    ] {
        assert_eq!(reaching_list(table), list, "{table:?}");
    }
}

/// However deep a table is nested, a small stack suffices for it.
#[test]
fn a_thread_with_a_small_stack() {
    let builder = thread::Builder::new().stack_size(64 * 1024);
    let run = || {
        edges()
            .iter()
            .map(|edge| first_tick_line(&edge.table).len())
            .sum::<usize>()
    };
    let handle = builder.spawn(run).expect("a thread");
    assert!(handle.join().expect("no overflow") > 0);
}
