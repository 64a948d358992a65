//! Compares the proved code, through its archive, with `compare`.
//!
//! Usage: `differential [--seed SEED] [--soak SECONDS]`
//!
//! With `--soak` the groups that draw at random go on with fresh seeds for so
//! many seconds.

use std::process::ExitCode;
use std::time::{Duration, Instant};

use compare::support::random::Random;
use compare::support::{numbers, SEED};
use differential::groups::{Group, GROUPS};
use differential::tally::{Difference, Tally};
use ours::OURS;

struct Options {
    seed: u64,
    soak: Option<Duration>,
}

#[derive(Default)]
struct Score {
    passed: usize,
    failed: usize,
}

fn main() -> ExitCode {
    match options() {
        Ok(options) => run(&options),
        Err(message) => {
            eprintln!("differential: {message}");
            ExitCode::FAILURE
        }
    }
}

fn options() -> Result<Options, String> {
    let mut options = Options {
        seed: SEED,
        soak: None,
    };
    let mut arguments = std::env::args().skip(1);
    while let Some(argument) = arguments.next() {
        match argument.as_str() {
            "--seed" => options.seed = numbers::read(&argument, arguments.next())?,
            "--soak" => {
                let seconds = numbers::read(&argument, arguments.next())?;
                options.soak = Some(Duration::from_secs(seconds));
            }
            _ => return Err(format!("unknown argument {argument}")),
        }
    }
    Ok(options)
}

fn run(options: &Options) -> ExitCode {
    println!("seed {:#x}", options.seed);
    let mut score = Score::default();
    for group in &GROUPS {
        let mut tally = Tally::new(OURS);
        let result = run_group(group, &mut tally, options.seed);
        score.count(group.name, &tally, result);
    }
    if let Some(time) = options.soak {
        let mut tally = Tally::new(OURS);
        let result = soak(&mut tally, options.seed, time);
        score.count("soak", &tally, result);
    }
    println!(
        "differential: {} passed, {} failed",
        score.passed, score.failed
    );
    match score.failed {
        0 => ExitCode::SUCCESS,
        _ => ExitCode::FAILURE,
    }
}

/// Each group draws from the seed anew, so that it can be repeated alone.
fn run_group(group: &Group, tally: &mut Tally, seed: u64) -> Result<(), Difference> {
    (group.run)(tally, &mut Random::new(seed))
}

/// The random groups with the seeds that follow, until the time is over.
fn soak(tally: &mut Tally, first: u64, time: Duration) -> Result<(), Difference> {
    let begin = Instant::now();
    let mut seed = first;
    while begin.elapsed() < time {
        seed = seed.wrapping_add(1);
        for group in GROUPS.iter().filter(|group| group.random) {
            run_group(group, tally, seed).inspect_err(|_| {
                println!("soak: seed {seed:#x}, group {}", group.name);
            })?;
        }
    }
    let rounds = seed.wrapping_sub(first);
    println!("soak: {rounds} rounds, the last with seed {seed:#x}");
    Ok(())
}

impl Score {
    fn count(&mut self, name: &str, tally: &Tally, result: Result<(), Difference>) {
        match result {
            Ok(()) => {
                self.passed += 1;
                println!("ok: {name} ({} comparisons)", tally.comparisons);
            }
            Err(difference) => {
                self.failed += 1;
                print!("{difference}");
                println!("FAIL: {name}");
            }
        }
    }
}
