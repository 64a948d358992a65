//! The line of the table on standard input, as this implementation gives it: the other program beside `first_tick`.
use std::io::{self, Read, Write};

fn main() -> io::Result<()> {
    let mut table = Vec::new();
    io::stdin().read_to_end(&mut table)?;
    io::stdout().write_all(compare::first_tick_line(&table).as_bytes())
}
