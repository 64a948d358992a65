//! Writes instants to run, and the outcomes that are expected of them.
//!
//! Usage: `instants [--instant-vectors FILE].. [--instants-of FILE].. [--runs-of FILE]..
//! INPUT EXPECTED`
//!
//! INPUT holds the cases one after the other. All lengths are 2 bytes,
//! little-endian. A case is
//!
//! | Bytes | Content |
//! |---|---|
//! | 1 | the call: 0 start, 1 resume |
//! | 2 | length T of the table |
//! | 2 | length A of the answers |
//! | 2 | length S of the state buffer |
//! | 2 | length E of the emission buffer |
//! | 1 | byte f, the first of the emission buffer |
//! | T | the table |
//! | A | the answers |
//! | S | the state buffer before the call |
//!
//! Before the call byte i of the emission buffer is (f + i) modulo 256; to
//! write it out would double the file.
//!
//! EXPECTED has one line a case: the answer, the whole state buffer after the
//! call in hexadecimal (`-` if it has no byte), and the whole emission buffer:
//! `=` if it is as it was, else each byte that is not 0 after its place.
//!
//! ```text
//! closed CODE TAKEN ENTRIES STATEHEX PLACE:BYTE PLACE:BYTE ..
//! refused NUMBER NODE STATEHEX =
//! ```
//!
//! First come the cases of the instant vectors, with the outcomes of that file.
//! Then, with outcomes of this implementation, come the further cases of vector
//! files from before F-11 (whose own outcomes are not looked at), the instants of runs
//! (in which the nodes that are entered twice must be those of that file), and own ones.
//! The states of files from before F-11 have one byte a node, and are packed: any byte
//! that is not 0 becomes a bit that is 1.

use std::collections::HashSet;
use std::path::Path;
use std::process::ExitCode;

use compare::instant::SIGNALS;
use compare::reentry::entered_twice;
use compare::support::cases::{Call, Case, Outcome};
use compare::support::files::{self, Files};
use compare::support::random::Random;
use compare::support::runs::{run, Instant};
use compare::support::vectors::{read_instants, read_runs, InstantVector, Lent, RunVector};
use compare::support::{arguments, families, hex, SEED};
use compare::{packed, Refusal, STATE_BYTES};

/// Longer edge tables are left out, so that the files stay small.
const LONGEST_EDGE: usize = 600;

fn main() -> ExitCode {
    files::exit_code("instants", write_files())
}

fn write_files() -> Result<(), String> {
    let arguments = arguments::read(["--instant-vectors", "--instants-of", "--runs-of"])?;
    let [vectors, instants_of, runs_of] = &arguments.options;
    println!("seed {SEED:#x}");
    let mut files = Files::default();
    let random = &mut Random::new(SEED);
    let mut written = HashSet::new();
    for file in vectors {
        add_vectors(&mut files, random, file, &mut written)?;
    }
    for file in instants_of {
        add_instants_of(&mut files, random, file, &mut written);
    }
    for file in runs_of {
        add_runs_of(&mut files, file)?;
    }
    type Family = fn(&mut Random) -> Vec<Case>;
    let families: [(&str, Family); 10] = [
        ("edges", |random| families::edges(random, LONGEST_EDGE)),
        ("small programs, all admitted states", |random| {
            families::small(random, 90)
        }),
        ("larger programs", |random| families::larger(random, 36)),
        ("ladders", families::ladders),
        ("inadmissible states", |random| {
            families::inadmissible(random, 90, 30)
        }),
        ("stray bits", families::stray_bits),
        ("lengths of buffers", |random| families::lengths(random, 18)),
        ("damaged tables", |random| families::damaged(random, 90)),
        ("the lock program", families::lock),
        ("code 63 up to the outermost trap", families::last_code),
    ];
    for (name, family) in families {
        let cases = family(random);
        println!("{name}: {}", cases.len());
        for case in cases {
            add(&mut files, &case, &case.run());
        }
    }
    files.write("cases", &arguments)
}

fn add(files: &mut Files, case: &Case, outcome: &Outcome) {
    files.add_encoded(&case.encode(), &outcome.line(case));
}

/// The cases of the file, and some of them again with a short emission buffer.
fn add_vectors(
    files: &mut Files,
    random: &mut Random,
    file: &Path,
    written: &mut HashSet<Lent>,
) -> Result<(), String> {
    let vectors = read_instants(file);
    let mut shortened = 0;
    for (line, vector) in vectors.iter().enumerate() {
        let mut case = case_of(random, vector);
        add_vector(files, line, vector, &case)?;
        if line % 12 == 0 {
            case.emissions_length = *random.pick(&[0, 1, 128, 255]);
            add_vector(files, line, vector, &case)?;
            shortened += 1;
        }
    }
    println!(
        "vectors {}, all agree; with short emissions {shortened}",
        vectors.len()
    );
    written.extend(vectors.iter().map(InstantVector::lent));
    Ok(())
}

fn add_instants_of(
    files: &mut Files,
    random: &mut Random,
    file: &Path,
    written: &mut HashSet<Lent>,
) {
    let mut further = 0;
    let packed = read_instants(file).into_iter().map(InstantVector::packed);
    for vector in packed {
        if written.insert(vector.lent()) {
            let case = case_of(random, &vector);
            add(files, &case, &case.run());
            further += 1;
        }
    }
    println!("further instants {further}");
}

/// The instants of each run, but one that comes again is added once. They draw by
/// themselves, so that the cases after them are the same without them.
fn add_runs_of(files: &mut Files, file: &Path) -> Result<(), String> {
    let random = &mut Random::new(SEED);
    let mut further = 0;
    for (line, vector) in read_runs(file).iter().enumerate() {
        let mut met = HashSet::new();
        for instant in instants_of_run(line, vector)? {
            if met.insert((instant.before.clone(), instant.answers.clone())) {
                let case = case_of_instant(random, &vector.table, &instant);
                add(files, &case, &case.run());
                further += 1;
            }
        }
    }
    println!("instants of runs {further}");
    Ok(())
}

fn instants_of_run(line: usize, vector: &RunVector) -> Result<Vec<Instant>, String> {
    let (table, expected) = (hex::encode(&vector.table), &vector.twice);
    let instants = run(&vector.table, &vector.steps)
        .map_err(|refusal| format!("run line {}: {refusal:?}\ntable {table}", line + 1))?;
    let twice: Vec<Vec<usize>> = instants
        .iter()
        .map(|instant| entered_twice(&instant.trail))
        .collect();
    if twice != *expected {
        return Err(format!(
            "run line {} disagrees\ntable {table}\nvector: {expected:?}\nours:   {twice:?}",
            line + 1
        ));
    }
    Ok(instants)
}

/// A start is lent any bytes as its state.
fn case_of_instant(random: &mut Random, table: &[u8], instant: &Instant) -> Case {
    let case = match &instant.before {
        Some(held) => Case::new(random, Call::Resume, table, &packed(held)),
        None => {
            let old = random.bytes(STATE_BYTES);
            Case::new(random, Call::Start, table, &old)
        }
    };
    case.answered(&instant.answers)
}

fn case_of(random: &mut Random, vector: &InstantVector) -> Case {
    Case::new(random, vector.call, &vector.table, &vector.state).answered(&vector.answers)
}

fn add_vector(
    files: &mut Files,
    line: usize,
    vector: &InstantVector,
    case: &Case,
) -> Result<(), String> {
    let expected = vector_outcome(vector, case);
    let ours = case.run();
    if ours != expected {
        return Err(format!(
            "vector line {} disagrees\ntable {}\nvector: {}ours:   {}",
            line + 1,
            hex::encode(&vector.table),
            expected.line(case),
            ours.line(case)
        ));
    }
    add(files, case, &expected);
    Ok(())
}

/// What the vector says, with the emission buffer of the case.
fn vector_outcome(vector: &InstantVector, case: &Case) -> Outcome {
    match &vector.outcome {
        Err(refusal) if refusal.number < 3 => unchanged(case, *refusal),
        _ if case.emissions_length < SIGNALS => unchanged(case, Refusal::whole(3)),
        Err(refusal) => unchanged(case, *refusal),
        Ok(closed) => {
            let mut emissions = case.emissions();
            for (signal, byte) in emissions[..SIGNALS].iter_mut().enumerate() {
                *byte = u8::from(closed.emits.contains(&(signal as u8)));
            }
            Outcome {
                answer: Ok(closed.closed),
                state: closed.after.clone(),
                emissions,
            }
        }
    }
}

fn unchanged(case: &Case, refusal: Refusal) -> Outcome {
    Outcome {
        answer: Err(refusal),
        state: case.state.clone(),
        emissions: case.emissions(),
    }
}
