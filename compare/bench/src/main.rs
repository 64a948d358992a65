//! Measures the proved code's calls beside compare's, on the same inputs; the
//! analysis also beside C by hand, in two passes.
//!
//! Usage:
//!
//! ```text
//! bench [--quick] [--markdown FILE]    all sides, all cases
//! bench --list                         each case with its nodes, entries, bytes, blocks
//!                                      or starts
//! bench --one CASE SIDE TIMES          one case on one side: ours, compare
//!                                      or, for analyse, two-pass
//! ```
//!
//! The last is for tools that count instructions; see `instructions.sh`.

use std::process::ExitCode;

use cases::{Call, Case};
use compare::support::numbers;
use report::Line;

mod blocks;
mod cases;
mod measure;
mod plans;
mod programs;
mod questions;
mod report;
mod texts;
mod ticks;
mod ties;
mod tried;

fn main() -> ExitCode {
    match run(std::env::args().skip(1)) {
        Ok(()) => ExitCode::SUCCESS,
        Err(message) => {
            eprintln!("bench: {message}");
            ExitCode::FAILURE
        }
    }
}

fn run(mut arguments: impl Iterator<Item = String>) -> Result<(), String> {
    let mut effort = measure::WHOLE;
    let mut markdown = None;
    while let Some(argument) = arguments.next() {
        match argument.as_str() {
            "--list" => {
                list();
                return Ok(());
            }
            "--one" => return one(arguments),
            "--quick" => effort = measure::QUICK,
            "--markdown" => markdown = Some(arguments.next().ok_or("--markdown needs a file")?),
            _ => return Err(format!("unknown argument {argument}")),
        }
    }
    let cases: Vec<Case> = cases::all().collect();
    cases.iter().for_each(Case::check);
    let times = measure::measure(&cases, &effort);
    let lines: Vec<Line> = cases.iter().zip(times).map(Line::new).collect();
    let tables = report::tables(&lines);
    for table in &tables {
        println!("{}", table.plain());
    }
    match markdown {
        Some(file) => report::write_markdown(&file, &tables),
        None => Ok(()),
    }
}

fn list() {
    for case in cases::all() {
        println!("{} {}", case.name(), case.units());
    }
}

fn one(mut arguments: impl Iterator<Item = String>) -> Result<(), String> {
    let name = arguments.next().ok_or("--one needs a case")?;
    let side = arguments.next().ok_or("--one needs a side")?;
    let times = numbers::read("--one", arguments.next())?;
    // Cases of other calls are not made: the reader's hash table is seeded at random,
    // and the instructions that it takes would blur the count.
    let mut case = Call::ALL
        .into_iter()
        .filter(|call| name.split('/').next() == Some(call.name()))
        .flat_map(cases::of)
        .find(|case| case.name() == name)
        .ok_or(format!("unknown case {name}"))?;
    let side = case
        .call
        .sides()
        .iter()
        .find(|known| known.name() == side)
        .ok_or(format!("unknown side {side} for {name}"))?;
    measure::repeat(&mut case, &side.calls(), times);
    Ok(())
}
