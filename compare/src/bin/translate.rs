//! The table of the text on standard input, as this implementation gives it: the
//! other program beside `translate`. The table's bytes go to standard output. A
//! refusal is a line on standard error, and the exit status is then 1. If it is the text
//! that is refused, not its table, the line and column follow on a line of their own.

use std::io::{self, Read, Write};
use std::process::ExitCode;

use compare::text::place::line_and_column;
use compare::text::translate;

fn main() -> io::Result<ExitCode> {
    let mut text = Vec::new();
    io::stdin().read_to_end(&mut text)?;
    match translate(&text) {
        Ok((table, _)) => {
            io::stdout().write_all(&table)?;
            Ok(ExitCode::SUCCESS)
        }
        Err(placed) => {
            eprintln!("refused {} {}", placed.refusal.number, placed.refusal.node);
            if placed.is_in_text() {
                let (line, column) = line_and_column(&text, placed.place);
                eprintln!("line {line} column {column}");
            }
            Ok(ExitCode::FAILURE)
        }
    }
}
