//! The forms of F-9: what they stand for, their start sets, and readers that have them or
//! the refusals wrong.

use compare::sets::{fill_start_sets, ENDED, PAUSED};
use compare::support::printer::{print, Lengths, Node, ABORT, WEAK_ABORT};
use compare::support::random::Random;
use compare::support::text_edges::edges;
use compare::support::texts::{program, text, DIALECT};
use compare::support::wrong_readers::{
    at_the_exit, bounded, foreign_later, suspending, uncounted, without_last_blanks, Reader,
};
use compare::support::SEED;
use compare::table;
use compare::text::{translate, Translated};

/// The table and its signals, of a text that is read.
fn read(text: &str) -> Translated {
    translate(text.as_bytes()).unwrap_or_else(|placed| panic!("{text}: {placed:?}"))
}

/// The start set of a node, counted from the last.
fn start_set(table: &[u8], from_last: usize) -> u64 {
    let tree = table::read(table).expect("one statement");
    let mut sets = vec![0; tree.size()];
    fill_start_sets(&tree, &mut sets);
    sets[tree.root() - from_last]
}

#[test]
fn halt_sustain_and_await_pause_when_started() {
    for text in ["halt", "sustain S", "await S"] {
        assert_eq!(start_set(&read(text).0, 0), PAUSED, "{text}");
    }
}

/// A name that no other text here has.
const ADDED: &str = "added_trap";

/// With `p` in the place of PPP, and its signal after those of `p` in both.
const MEANINGS: [(&str, &str); 5] = [
    ("PPP;halt", "PPP;loop pause end"),
    ("PPP;sustain S", "PPP;loop emit S;pause end"),
    (
        "PPP;await S",
        "PPP;trap XXX in loop pause;present S then exit XXX end end end",
    ),
    (
        "abort PPP when S end",
        "trap XXX in [suspend PPP when S;exit XXX||\
             loop pause;present S then exit XXX else nothing end end] end",
    ),
    (
        "weak abort PPP when S end",
        "trap XXX in [PPP;exit XXX||loop pause;present S then exit XXX end end] end",
    ),
];

/// The forms within each other and around exits, beside what they stand for as texts of
/// the kernel: each is replaced by it, from the inside or from the outside.
#[test]
fn forms_mean_their_texts_in_the_kernel() {
    for (outer, outer_kernel) in MEANINGS {
        for (inner, inner_kernel) in MEANINGS {
            for p in ["exit T", "trap T in exit T end", "emit A;[exit U||exit T]"] {
                let put = |form: &str, p: &str| form.replace("PPP", p).replace("XXX", ADDED);
                let around = |body: String| format!("trap U in trap T in {body} end end");
                let whole = |outer, inner| around(put(outer, &put(inner, p)));
                let expected = read(&whole(outer_kernel, inner_kernel));
                for (outer, inner) in [(outer, inner), (outer_kernel, inner), (outer, inner_kernel)]
                {
                    assert_eq!(
                        read(&whole(outer, inner)),
                        expected,
                        "{outer}, {inner}, {p}"
                    );
                }
            }
        }
    }
}

/// Traps around a statement, so that its exits have one whatever they are.
const AROUND: usize = 9;

/// The start set of the program, in an abort of this kind or as it is, within the traps.
fn set_within(random: &mut Random, program: &[Node], abort: Option<u8>) -> u64 {
    let mut nodes = program.to_vec();
    nodes.extend(abort.map(|kind| (kind, random.below(3))));
    nodes.extend([(11, 0); AROUND]);
    let tokens = print(random, Lengths::Short, &nodes).tokens;
    let (table, _) = translate(&text(random, &tokens)).expect("a small program");
    start_set(&table, AROUND)
}

/// A program whose exits may leave it.
fn statement(random: &mut Random, number: usize) -> Vec<Node> {
    let mut nodes = program(random, number);
    let exits = nodes.iter_mut().filter(|(kind, _)| *kind == 4);
    exits.for_each(|exit| exit.1 = random.below(AROUND));
    nodes
}

#[test]
fn an_abort_has_the_start_set_of_its_body() {
    let random = &mut Random::new(SEED);
    let mut met = 0;
    for round in 0..6000 {
        // Small programs of the kernel, and such with forms.
        let number = [30 + round % 6, DIALECT + 8 + round % 10][round / 6 % 2];
        let body = statement(random, number);
        let alone = set_within(random, &body, None);
        for kind in [ABORT, WEAK_ABORT] {
            let aborted = set_within(random, &body, Some(kind));
            assert_eq!(aborted, alone, "{kind} around {body:?}");
        }
        met |= alone;
    }
    // The exits to 9 traps have codes 2 to 10.
    assert_eq!(met, ENDED | PAUSED | 0x7fc);
}

/// The edges that the reader gets wrong.
fn missed(reader: Reader) -> Vec<&'static str> {
    let edges = edges().into_iter();
    let wrong = edges.filter(|edge| !edge.is_met_by(&reader(&edge.text)));
    wrong.map(|edge| edge.name).collect()
}

#[test]
fn wrong_readers_miss_edges() {
    assert_eq!(missed(translate), [""; 0]);
    for (reader, edge) in [
        (uncounted as Reader, "an exit that leaves an abort"),
        (suspending, "weak abort"),
        (foreign_later, "a single bar before every"),
        (bounded, "16,380 opening brackets and case"),
        (without_last_blanks, "blanks after a text that stops"),
        (at_the_exit, "the first of two exits"),
    ] {
        let missed = missed(reader);
        assert!(missed.contains(&edge), "{edge}: {missed:?}");
        println!("{edge}: {} edges missed", missed.len());
    }
}
